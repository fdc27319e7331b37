"""Faults put into good files: in their bytes, records and fields."""

from random import Random
from typing import Callable

from .frames import full
from .records import (MARKS, PROPOSAL_MARKS, UNKNOWN_MARKS, WIDTHS, Records, crash, end, fault,
                      frame, proposal, survivor)


def set_byte(rng: Random, data: bytes) -> bytes:
    if not data:
        return data
    place = rng.randrange(len(data))
    value = rng.choice((0, 1, 255, data[place] ^ 1 << rng.randrange(8), rng.randrange(256)))
    return data[:place] + bytes([value]) + data[place + 1:]


def cut(rng: Random, data: bytes) -> bytes:
    return data[:rng.randint(0, max(0, len(data) - 1))]


def add_behind(rng: Random, data: bytes) -> bytes:
    more = (b"\0", b"E", b"EN\0", b"SV", rng.randbytes(rng.randint(1, 12)), data)
    return data + rng.choice(more)


def drop_byte(rng: Random, data: bytes) -> bytes:
    place = rng.randrange(max(1, len(data)))
    return data[:place] + data[place + 1:]


def insert_byte(rng: Random, data: bytes) -> bytes:
    place = rng.randint(0, len(data))
    return data[:place] + rng.randbytes(1) + data[place:]


BYTE_DAMAGE = (set_byte, set_byte, cut, cut, add_behind, drop_byte, insert_byte)


def change_mark(rng: Random, records: Records) -> Records:
    place = rng.randrange(len(records))
    mark = rng.choice(MARKS + UNKNOWN_MARKS)
    return records[:place] + [mark + records[place][2:]] + records[place + 1:]


def move_record(rng: Random, records: Records) -> Records:
    records = list(records)
    taken = records.pop(rng.randrange(len(records)))
    records.insert(rng.randint(0, len(records)), taken)
    return records


def drop_record(rng: Random, records: Records) -> Records:
    place = rng.randrange(len(records))
    return records[:place] + records[place + 1:]


def repeat_record(rng: Random, records: Records) -> Records:
    place = rng.randrange(len(records))
    return records[:place + 1] + records[place:]


def insert_record(rng: Random, records: Records) -> Records:
    foreign = rng.choice((frame(3), survivor(1), fault(1), fault(0), proposal(1, 7), proposal(1, 7, True),
                          crash(1, 1, 0), end(0), end(1), b"KN\1\1" + bytes(10),
                          b"KW\1\1" + bytes(12), b"DC\1\1\0\0", b"DW\1\1\0\0\0\0", b"XX"))
    place = rng.randint(0, len(records))
    return records[:place] + [foreign] + records[place:]


def change_count(rng: Random, records: Records) -> Records:
    count = records[-1][-1] if records[-1] else 0
    return records[:-1] + [end(rng.choice((count + 1, count - 1, 0, 255, 128, 129)))]


RECORD_DAMAGE = (change_mark, move_record, drop_record, repeat_record, insert_record,
                 change_count)


def whole_places(records: Records, kinds: tuple[bytes, ...]) -> list[int]:
    """Where records of the kinds stand, without those that an earlier fault has made too short."""
    return [place for place, record in enumerate(records)
            if record[:2] in kinds and len(record) >= 2 + WIDTHS[record[:2]]]


def replace_at(records: Records, kinds: tuple[bytes, ...], rng: Random,
               make: Callable[[bytes], bytes]) -> Records:
    """One record of the kinds replaced by what `make` gives for it."""
    found = whole_places(records, kinds)
    if not found:
        return records
    place = rng.choice(found)
    return records[:place] + [make(records[place])] + records[place + 1:]


def bad_frame(rng: Random, records: Records) -> Records:
    return replace_at(records, (b"FR",), rng, lambda _: frame(rng.choice((0, 65, 66, 128, 255))))


def drives_of(records: Records) -> int:
    """n, of at most 64, where a FR stands first."""
    return min(records[0][2], 64) if len(records[0]) == 3 else 1


def bad_mask(rng: Random, records: Records) -> Records:
    above = 1 << min(drives_of(records), 63)
    masks = (0, above, above | 1, full(64), 1 << 63)
    return replace_at(records, (b"SV",), rng, lambda _: survivor(rng.choice(masks)))


def too_many(rng: Random, records: Records, kind: bytes, wrong: list[bytes]) -> Records:
    """Repeats of the records of this kind beyond 128, at times with a wrong one or a cut."""
    listed = [record for record in records if record[:2] == kind]
    if not listed:
        return records
    total = rng.choice((128, 129, 129, 130, 255, 256, 257))
    longer = (listed * (total // len(listed) + 1))[:total]
    if rng.random() < 0.3:
        longer[rng.choice((0, 127, total - 1))] = rng.choice(wrong)
    if rng.random() < 0.2:
        return records[:1] + longer[:-1] + [longer[-1][:rng.randint(1, 9)]]
    return records[:1] + longer + [end(total)]


def too_many_sets(rng: Random, records: Records) -> Records:
    return too_many(rng, records, b"SV", [survivor(0)])


def other_kind(rng: Random, records: Records) -> Records:
    """SV and FL in one file: of one record, of all from it on, or of all, the other mark, with the
    mask as it was."""
    marks = {b"SV": b"FL", b"FL": b"SV"}
    found = whole_places(records, tuple(marks))
    if not found:
        return records
    first = rng.randrange(len(found))
    changed = set(rng.choice((found[first:first + 1], found[first:], found)))
    return [marks[record[:2]] + record[2:] if place in changed else record
            for place, record in enumerate(records)]


TABLE_DAMAGE = RECORD_DAMAGE + (bad_frame, bad_mask, bad_mask, too_many_sets, too_many_sets,
                                other_kind)


def damaged(rng: Random, records: Records, kinds: tuple) -> bytes:
    """One or two faults."""
    for _ in range(rng.choice((0, 1, 1, 1, 2))):
        if records:
            records = rng.choice(kinds)(rng, records)
    data = b"".join(records)
    for _ in range(rng.choice((0, 0, 1, 2))):
        data = rng.choice(BYTE_DAMAGE)(rng, data)
    return data


# Fault lists

def wrong_groups(records: Records) -> list[bytes]:
    """FL records of all n drives, with a drive above n, and both."""
    n = drives_of(records)
    above = 1 << min(n, 63)
    return [fault(mask) for mask in (full(n), full(n), above, above | 1, above | full(n), full(64))]


def bad_group(rng: Random, records: Records) -> Records:
    return replace_at(records, (b"FL",), rng, lambda _: rng.choice(wrong_groups(records)))


def too_many_groups(rng: Random, records: Records) -> Records:
    return too_many(rng, records, b"FL", wrong_groups(records))


FAULT_DAMAGE = RECORD_DAMAGE + (bad_frame, bad_group, bad_group, too_many_groups, too_many_groups,
                                other_kind)


# Run files

def wrong_proposal(rng: Random, records: Records) -> Records:
    """A PR or PW of another drive."""
    def change(record: bytes) -> bytes:
        drives = (0, 1, 64, 65, 255, record[2] ^ 1, record[2] + 1, record[2] - 1)
        return record[:2] + bytes([rng.choice(drives) % 256]) + record[3:]
    return replace_at(records, PROPOSAL_MARKS, rng, change)


def without_proposal(rng: Random, records: Records) -> Records:
    """A PR or PW left out, at times with all that are behind it."""
    found = whole_places(records, PROPOSAL_MARKS)
    if not found:
        return records
    gone = found[rng.randrange(len(found)):]
    gone = gone if rng.random() < 0.3 else gone[:1]
    return [record for place, record in enumerate(records) if place not in gone]


def swapped_proposals(rng: Random, records: Records) -> Records:
    """Two PR or PW in each other's places, often neighbours."""
    found = whole_places(records, PROPOSAL_MARKS)
    if len(found) < 2:
        return records
    place = rng.randrange(len(found) - 1)
    one, other = found[place], rng.choice((found[place + 1], rng.choice(found)))
    records = list(records)
    records[one], records[other] = records[other], records[one]
    return records


def doubled_proposal(rng: Random, records: Records) -> Records:
    """A PR or PW twice, the second one of either kind."""
    found = whole_places(records, PROPOSAL_MARKS)
    if not found:
        return records
    place = rng.choice(found)
    second = proposal(records[place][2], rng.randrange(1 << 16), rng.random() < 0.5)
    return records[:place + 1] + [second] + records[place + 1:]


def other_width(rng: Random, records: Records) -> Records:
    """A PR with a PW's mark, or the other way round, its number as it was or of the other width."""
    def change(record: bytes) -> bytes:
        mark = b"PW" if record[:2] == b"PR" else b"PR"
        number = rng.choice((record[3:], (record[3:] + b"\0\0")[:4 if mark == b"PW" else 2]))
        return mark + record[2:3] + number
    return replace_at(records, PROPOSAL_MARKS, rng, change)


def wrong_crash(rng: Random, records: Records) -> Records:
    """Another value in a field of a CR."""
    def change(record: bytes) -> bytes:
        place = rng.choice((2, 3, 4))
        values = (0, 1, record[place] + 1, record[place] - 1, 64, 65, 255, rng.randrange(256))
        return record[:place] + bytes([rng.choice(values) % 256]) + record[place + 1:]
    return replace_at(records, (b"CR",), rng, change)


def more_crashes(rng: Random, records: Records) -> Records:
    """A CR in front of EN, of any drive and with any fields."""
    new = crash(rng.randint(0, 66), rng.randint(0, 6), rng.choice((0, 0, 1, 3, 64)))
    return records[:-1] + [new, end(records[-1][-1] + 1)]


def proposal_behind(rng: Random, records: Records) -> Records:
    """A PR or PW after the last one, of a drive around it or any other, whole or cut."""
    last = max(whole_places(records, PROPOSAL_MARKS), default=-1)
    drive = records[last][2] if last >= 0 else 0
    drives = (1, drive, drive + 1, drive + 1, drive + 2, 64, 65)
    extra = proposal(rng.choice(drives) % 256, 5, rng.random() < 0.5)
    if rng.random() < 0.3:
        return records[:last + 1] + [extra[:rng.randint(1, len(extra) - 1)]]
    return records[:last + 1] + [extra] + records[last + 1:]


RUN_DAMAGE = RECORD_DAMAGE + (wrong_proposal, other_width, wrong_crash, wrong_crash, more_crashes,
                              more_crashes, proposal_behind, without_proposal, without_proposal,
                              swapped_proposals, doubled_proposal)
