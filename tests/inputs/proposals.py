"""Run files by whose PR and PW they have: of every drive, as in old files, of the core drives
alone, as in new ones, and of some listeners too; with a record missing, twice, out of order, of
no drive, or cut.

`samples` have the answers that document 02's request (v) gives them, sentence by sentence, as
decided; those of `proposal_runs` are the second program's. `drive_lists` are all short lists of
drives on small frames.
"""

from itertools import chain, combinations, product
from typing import Iterable, Iterator, NamedTuple

from .records import Records, crash, end, proposal, run_records, table


class Cored(NamedTuple):
    """A frame with its chosen core, as a set."""

    n: int
    sets: list[int]
    core: int

    @property
    def drives(self) -> list[int]:
        return [drive for drive in range(1, self.n + 1) if self.core >> drive - 1 & 1]

    @property
    def listeners(self) -> list[int]:
        return [drive for drive in range(1, self.n + 1) if not self.core >> drive - 1 & 1]


def single(n: int, *drives: int) -> Cored:
    """Each of the drives is a set alone, so that they are the only core."""
    sets = [1 << drive - 1 for drive in drives]
    return Cored(n, sets, sum(sets))


CASE_A = Cored(6, [1, 2, 0x3C], 7)
SECOND_AND_FOURTH = single(5, 2, 4)
LAST = single(4, 4)
# Drives 1 and 4 before drives 2 and 3, which are a core too.
FIRST_AND_LAST = Cored(4, [0b0011, 0b0101, 0b1010, 0b1100], 0b1001)
ALL_THREE = single(3, 1, 2, 3)


def number_of(drive: int) -> int:
    """A number for a drive; those of case A's core fall, so that the last one is decided."""
    return 100 - drive % 100


def pr(*drives: int) -> bytes:
    return b"".join(proposal(drive, number_of(drive)) for drive in drives)


def pw(*drives: int) -> bytes:
    return b"".join(proposal(drive, number_of(drive), True) for drive in drives)


def subsets(drives: list[int]) -> Iterator[tuple[int, ...]]:
    return chain.from_iterable(combinations(drives, size) for size in range(len(drives) + 1))


# A frame, a run file, and its refusal, 0 for none.
Sample = tuple[Cored, bytes, int]

MARKS_ONLY = (b"EN", b"CR", b"SV", b"FL", b"FR", b"KN", b"XX")
STOP = crash(1, 1, 0)


def accepted() -> Iterator[Sample]:
    """PR or PW for the core drives, rising; and in its place for any listener."""
    for frame in (CASE_A, SECOND_AND_FOURTH, LAST, FIRST_AND_LAST, ALL_THREE):
        for more in subsets(frame.listeners):
            drives = sorted([*frame.drives, *more])
            for records in (pr(*drives), pw(*drives), pr(*drives[:-1]) + pw(drives[-1])):
                yield frame, records + end(0), 0
    yield from ((CASE_A, pr(1, 2, 3) + more + STOP + end(1), 0) for more in (b"", pr(5), pw(4, 6)))
    yield from ((single(64, 1), pr(1, *more) + end(0), 0) for more in ((), (2,), (64,), range(2, 65)))
    for more in ((), (1,), (63,), range(1, 64)):
        yield single(64, 64), pr(*more, 64) + end(0), 0
    for before, after in product(((), (32,), (1, 32)), ((), (64,), (35, 64))):
        yield single(64, 33, 34), pr(*before, 33, 34, *after) + end(0), 0


def not_above_the_last() -> Iterator[Sample]:
    """8 where a record is not above the last of any drive, kept or dropped."""
    for records in (pr(1, 1), pw(1) + pr(1), pr(1, 2, 1), pr(1, 2, 2), pr(1, 2, 3, 3), pr(1, 2, 3, 1),
                    pr(1, 2, 3) + pw(2), pr(1, 2, 3, 4, 4), pr(1, 2, 3, 5, 4), pw(1, 2, 3, 5) + pr(5),
                    pr(1, 2, 3, 4, 5, 3), pr(1, 2, 3, 4, 1)):
        yield CASE_A, records + end(0), 8
        yield CASE_A, records + b"XX", 8
    for records in (pr(1, 1), pr(1, 2, 1), pr(1, 2, 2), pr(2, 1), pr(2, 3, 2), pr(2, 3, 3), pr(2, 4, 3),
                    pr(2, 4, 4), pr(1, 2, 3, 4, 1), pw(2, 4) + pw(1)):
        yield SECOND_AND_FOURTH, records + end(0), 8
    yield from ((LAST, records + end(0), 8) for records in (pr(1, 1), pr(2, 1), pr(3, 2, 4), pr(1, 3, 3)))


def owed() -> Iterator[Sample]:
    """A core drive without its record: 2 where CR or EN stands there, also where the rest of it is
    cut, and so of any other mark; 1 where the mark is cut; 8 where a later drive's record stands
    there, a listener's too, and 1 where that is cut."""
    starts = [(CASE_A, [pr(), pr(1), pr(1, 2), pw(1) + pr(2)]),
              (SECOND_AND_FOURTH, [pr(), pr(1), pr(2), pr(1, 2), pr(2, 3), pw(1, 2, 3)]),
              (LAST, [pr(), pr(1), pr(3), pr(1, 2, 3)]), (ALL_THREE, [pr(), pr(1), pr(1, 2)])]
    for frame, records in starts:
        for start in records:
            yield from ((frame, start + mark, 2) for mark in MARKS_ONLY)
            yield from ((frame, start + more, 2) for more in (end(0), end(1) + b"\0", STOP, STOP[:4],
                                                              STOP + end(1)))
            yield from ((frame, start + cut, 1) for cut in (b"", b"P", b"C", b"E", b"X"))
    for frame, before, later in ((CASE_A, (), (2, 3, 4, 5, 6)), (CASE_A, (1,), (3, 4, 5, 6)),
                                 (CASE_A, (1, 2), (4, 5, 6)), (SECOND_AND_FOURTH, (), (3, 4, 5)),
                                 (SECOND_AND_FOURTH, (1,), (3, 4, 5)), (SECOND_AND_FOURTH, (2,), (5,)),
                                 (SECOND_AND_FOURTH, (1, 2, 3), (5,)), (ALL_THREE, (1,), (3,))):
        for drive in later:
            for record in (pr(drive), pw(drive)):
                yield frame, pr(*before) + record, 8
                yield frame, pr(*before) + record + end(0), 8
                yield from ((frame, pr(*before) + record[:length], 1) for length in range(1, len(record)))


def no_drive() -> Iterator[Sample]:
    """8 where a drive is 0 or above n, whether one is owed or not, as long as drive n has no record."""
    for frame, start in ((CASE_A, ()), (CASE_A, (1,)), (CASE_A, (1, 2, 3)), (CASE_A, (1, 2, 3, 5)),
                         (SECOND_AND_FOURTH, (1,)), (SECOND_AND_FOURTH, (2, 4)), (LAST, ()), (LAST, (1, 3)),
                         (single(64, 1), (1,)), (single(64, 1), (1, 63))):
        for drive in (0, frame.n + 1, 65, 255):
            for record in (pr(drive), pw(drive)):
                yield frame, pr(*start) + record, 8
                yield frame, pr(*start) + record[:-1], 1


def behind_the_last() -> Iterator[Sample]:
    """A PR or PW after drive n's record meets 2, cut or not; so after a CR; after EN it is 7."""
    extras = (b"PR", b"PW", b"PR\7", pr(1), pr(255), pw(6), pw(65), pw(0)[:4])
    for frame, whole in ((CASE_A, (1, 2, 3, 6)), (CASE_A, range(1, 7)), (SECOND_AND_FOURTH, (2, 4, 5)),
                         (LAST, (4,)), (LAST, (1, 4)), (ALL_THREE, (1, 2, 3)), (single(64, 1), (1, 64)),
                         (single(64, 64), (64,)), (single(1, 1), (1,))):
        yield from ((frame, pr(*whole) + extra, 2) for extra in extras)
        yield frame, pr(*whole) + b"P", 1
    listener = crash(4, 1, 0)
    for extra in (*extras, pr(4), pw(4), pr(6)):
        yield CASE_A, pr(1, 2, 3) + listener + extra, 2
        yield CASE_A, pr(1, 2, 3, 5) + listener + extra + end(1), 2
        yield CASE_A, pr(1, 2, 3) + end(0) + extra, 7
        yield CASE_A, pr(1, 2, 3) + end(1) + extra, 6


def behind_the_core() -> Iterator[Sample]:
    """No record is owed and drive n has none: a cut PR or PW meets 1, before 8; a cut mark 1, another
    2; CR and EN are as ever."""
    for start in (pr(1, 2, 3), pr(1, 2, 3, 4)):
        for record in (pr(5), pw(6), pr(2), pw(7), pr(0)):
            yield from ((CASE_A, start + record[:length], 1) for length in range(len(record)))
        yield from ((CASE_A, start + mark, 2) for mark in MARKS_ONLY[2:])
        yield from ((CASE_A, start + more, due) for more, due in (
            (b"EN", 1), (b"CR\1\1", 1), (end(1), 6), (end(0) + b"\0", 7), (STOP + end(0), 6),
            (crash(0, 1, 0), 8), (crash(7, 1, 0), 8), (STOP + STOP, 8), (crash(1, 4, 0), 9),
            (crash(1, 1, 6), 10), (crash(4, 1, 1), 10), (STOP + crash(2, 1, 0) + crash(3, 1, 0) + end(3), 11)))


def of_the_lower_core() -> Iterator[Sample]:
    """Among cores of one size the one with the lower drives counts: its records are owed, its size
    bounds the rounds, and a drive of the other core is a listener."""
    for records, due in ((pr(), 2), (pr(1), 2), (pr(1, 2, 3), 2), (pr(2, 3), 8), (pr(3), 8), (pr(4), 8)):
        yield FIRST_AND_LAST, records + end(0), due
    for stops, due in ((crash(1, 1, 3), 0), (crash(4, 2, 3), 0), (crash(1, 1, 4), 10), (crash(4, 2, 4), 10),
                       (crash(1, 3, 0), 9), (crash(2, 3, 0), 9), (crash(2, 1, 1), 10), (crash(3, 2, 1), 10),
                       (crash(2, 1, 0), 0), (crash(3, 2, 0), 0)):
        yield FIRST_AND_LAST, pr(1, 4) + stops + end(1), due
    for one, other, due in ((1, 4, 11), (2, 3, 11), (1, 2, 0), (1, 3, 0), (2, 4, 0), (3, 4, 0)):
        yield FIRST_AND_LAST, pr(1, 4) + crash(one, 1, 0) + crash(other, 1, 0) + end(2), due


# One or two of each, which are stored.
FEW: list[Sample] = [
    (CASE_A, pr(1, 2, 3) + end(0), 0), (CASE_A, pw(1, 2, 3) + pr(5) + STOP + end(1), 0),
    (CASE_A, pr(1) + pw(2) + pr(3, 4, 6) + end(0), 0), (SECOND_AND_FOURTH, pr(2, 4) + end(0), 0),
    (SECOND_AND_FOURTH, pr(1, 2, 3, 4, 5) + end(0), 0), (LAST, pw(4) + end(0), 0),
    (CASE_A, pr(1, 2, 3, 3), 8), (CASE_A, pr(1, 2, 3, 5, 4), 8), (SECOND_AND_FOURTH, pr(2, 4, 1), 8),
    (CASE_A, pr(1, 2) + end(0), 2), (CASE_A, pr(1, 2) + b"EN", 2), (CASE_A, pr(1) + STOP + end(1), 2),
    (CASE_A, pr(1, 2) + b"CR", 2), (CASE_A, pr(1, 2) + b"E", 1), (SECOND_AND_FOURTH, pr(2, 3) + end(0), 2),
    (LAST, pr(1, 2, 3) + end(0), 2), (CASE_A, pr(1, 3), 8), (CASE_A, pr(1, 4), 8),
    (CASE_A, pr(1) + pw(6) + end(0), 8), (SECOND_AND_FOURTH, pr(1, 3), 8), (SECOND_AND_FOURTH, pr(2, 5), 8),
    (CASE_A, pr(1) + pw(4)[:6], 1), (CASE_A, pr(0), 8), (CASE_A, pr(1, 2, 3) + pw(7), 8), (LAST, pr(5), 8),
    (CASE_A, pr(1, 2, 3, 6) + b"PW", 2), (CASE_A, pr(1, 2, 3, 6, 7), 2), (LAST, pr(4) + pw(4), 2),
    (LAST, pr(4) + b"P", 1), (CASE_A, pr(1, 2, 3) + crash(4, 1, 0) + pr(4), 2),
    (CASE_A, pr(1, 2, 3) + end(0) + pr(4), 7), (CASE_A, pr(1, 2, 3) + b"PR\7", 1),
    *of_the_lower_core(), (FIRST_AND_LAST, pr(1, 4) + end(0), 0), (FIRST_AND_LAST, pr(1, 2, 3, 4) + end(0), 0),
]


def stored_runs() -> list[bytes]:
    """Tables with the run files of these few."""
    return [table(frame.n, frame.sets) + data for frame, data, _ in FEW]


def samples() -> Iterator[tuple[int, list[int], bytes, int]]:
    """n, the sets, a run file, and its refusal."""
    yield from ((frame.n, frame.sets, data, due) for frame, data, due in FEW)
    for made in (accepted, not_above_the_last, owed, no_drive, behind_the_last, behind_the_core):
        yield from ((frame.n, frame.sets, data, due) for frame, data, due in made())


# What a run file says: n, the sets, the bytes, the number at each drive's place, 0 at a listener's.
SAID: list[tuple[int, list[int], bytes, list[int]]] = [
    (6, CASE_A.sets, b"PR\1\7\0PR\2\5\0PR\3\x09\0" + end(0), [7, 5, 9, 0, 0, 0]),
    (6, CASE_A.sets, b"PW\1\7\0\0\1PR\2\5\0PW\3\x09\0\1\0" + end(0), [0x01000007, 5, 65545, 0, 0, 0]),
    (6, CASE_A.sets, b"PR\1\7\0PR\2\5\0PR\3\x09\0PR\5\1\0" + end(0), [7, 5, 9, 0, 0, 0]),
    (6, CASE_A.sets, b"PR\1\7\0PR\2\5\0PR\3\x09\0PW\6\xff\xff\xff\xff" + end(0), [7, 5, 9, 0, 0, 0]),
    (5, [2, 8], b"PR\2\7\0PR\4\5\0" + end(0), [0, 7, 0, 5, 0]),
    (5, [2, 8], b"PR\1\1\0PW\2\7\0\0\0PR\3\2\0PR\4\5\0PW\5\0\0\0\0" + end(0), [0, 7, 0, 5, 0]),
    (4, [8], b"PR\1\1\0PW\4\0\0\0\x80" + end(0), [0, 0, 0, 1 << 31]),
]


# Whole files for the programs

def parts(frame: Cored, tail: Records) -> Iterator[Records]:
    """The records of every subset of the drives, PR and PW in turn, in front of a tail."""
    for drives in subsets(list(range(1, frame.n + 1))):
        yield [proposal(d, number_of(d), place % 2 == 1) for place, d in enumerate(drives)] + tail


def changed(records: Records, n: int) -> Iterator[Records]:
    """Of the PR and PW at the start each missing, each twice, each moved to each other place, and at
    each place one of every drive and of no drive, also where what follows is cut or wrong."""
    count = next(place for place, record in enumerate(records) if record[:2] not in (b"PR", b"PW"))
    for place in range(count):
        rest = records[:place] + records[place + 1:]
        yield rest
        yield records[:place + 1] + records[place:]
        yield from (rest[:to] + [records[place]] + rest[to:] for to in range(count) if to != place)
    for place, drive in product(range(count + 1), (*range(n + 2), 255)):
        new = proposal(drive, 1, drive % 2 == 0)
        yield records[:place] + [new] + records[place:]
        yield records[:place] + [new[:-1]]
        yield records[:place] + [new, b"XX"]


def large() -> Iterator[tuple[Cored, Records]]:
    """64 drives, records of the core drives and of some listeners or all."""
    for frame in (single(64, 1), single(64, 64), single(64, 1, 64), single(64, 31, 32, 33),
                  single(64, *range(1, 65, 2)), single(64, *range(1, 65))):
        numbers = [1 << 16 | drive for drive in range(64, 0, -1)]
        listeners = (1 << 64) - 1 & ~frame.core
        for left_out in (0, listeners, listeners & 0x00FF00FF00FF00FF, listeners & ~(1 << 63),
                         frame.core & -frame.core, 1 << frame.core.bit_length() - 1, (1 << 64) - 1):
            yield frame, run_records(numbers, [], 0x0F0F0F0F0F0F0F0F, left_out)


def whole_runs(frame: Cored, runs: Iterable[Records]) -> Iterator[bytes]:
    return (table(frame.n, frame.sets) + b"".join(records) for records in runs)


def cuts(frame: Cored, records: Records) -> Iterator[bytes]:
    """The run file cut at every length."""
    data = b"".join(records)
    return (table(frame.n, frame.sets) + data[:length] for length in range(len(data)))


def proposal_runs() -> Iterator[bytes]:
    """Tables with run files, for the run program, each once."""
    return iter(dict.fromkeys(_proposal_runs()))


def _proposal_runs() -> Iterator[bytes]:
    stop = [crash(2, 1, 1), end(1)]
    for frame in (CASE_A, SECOND_AND_FOURTH, LAST, ALL_THREE):
        for tail in ([end(0)], stop):
            yield from whole_runs(frame, parts(frame, tail))
        listeners = sum(1 << drive - 1 for drive in frame.listeners)
        for left_out in sorted({0, listeners, listeners & 0b010101}):
            records = run_records([number_of(d) for d in range(1, frame.n + 1)], [], 0b001010, left_out)
            yield from whole_runs(frame, changed(records, frame.n))
            yield from cuts(frame, records[:-1] + stop)
    for frame, records in large():
        yield from whole_runs(frame, [records])


# Short lists of drives

class Listed(NamedTuple):
    """Drives that have a PR or PW one after the other, what stands behind them, and the bytes."""

    frame: Cored
    drives: tuple[int, ...]
    tail: bytes
    data: bytes


TAILS = (end(0), b"EN", b"CR", b"SV", b"E", b"", crash(1, 1, 0) + pr(1))


def drive_lists(most: int = 3, tails: tuple[bytes, ...] = TAILS) -> Iterator[Listed]:
    """On every frame of up to three drives, for each core, every list of so many drives from 0 to one
    above the frame, with each tail."""
    for n in range(1, most + 1):
        for core in subsets(list(range(1, n + 1))):
            for length in range(most + 1) if core else ():
                for drives, tail in product(product(range(n + 2), repeat=length), tails):
                    records = (proposal(d, number_of(d), (place + sum(drives)) % 2 == 1)
                               for place, d in enumerate(drives))
                    yield Listed(single(n, *core), drives, tail, b"".join(records) + tail)
