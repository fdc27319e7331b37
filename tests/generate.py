"""Inputs for the programs: accepted ones and damaged ones.

`table_inputs`, `run_inputs` and `convert_inputs` yield bytes. They start with a
fixed list that covers every refusal number, every cut of a file and the limits,
and go on at random. The same seed gives the same inputs. Somewhat more than half
are accepted. Run files have PR and PW for every drive, for core drives alone, or
for some listeners too. Inputs of the convert program are tables and fault lists,
at times with SV and FL in one file. `long_tables`, `long_runs` and `long_converts`
yield inputs about as long as the programs' buffers, and longer, `hard_tables` tables
on which the search for cores goes far, `small_tables` tables of small frames,
`small_converts` tables and fault lists of these, and `crossed_runs` run files on tables
whose chosen core is not the lowest as a mask. `threshold_inputs` yields n and t
around every limit, and `fixed_thresholds` a few, with every refusal.
"""

from itertools import chain, combinations, islice, product
from random import Random
from typing import Iterator

from inputs import faults
from inputs.damage import FAULT_DAMAGE, RUN_DAMAGE, TABLE_DAMAGE, damaged
from inputs.frames import (CROSSED, PAIRS, Frame, accepted_table, choices_of, crowded_table, full,
                           hard_frames, normal_tables, places)
from inputs.records import (MARKS, UNKNOWN_MARKS, Crash, Records, crash, fault, fault_list,
                            fault_records, frame, proposal, run, run_records, survivor, table,
                            table_records)
from inputs.scenarios import (EDGES, accepted_run, some_left_out, some_wide, spoil_crash,
                              touch_every_set)

# The refusals that each program can print.
REFUSALS = {"table": {1, 2, 3, 4, 5, 6, 7, 13}, "run": {1, 2, 3, 4, 5, 6, 7, 8, 9, 10, 11, 13},
            "threshold": {1, 3, 7, 13, 31, 32}, "convert": {1, 2, 3, 4, 5, 6, 7, 13, 34}}


# Long inputs

BUFFER = 4096


def around_buffer(start: bytes, more: bytes) -> Iterator[bytes]:
    """More and more behind a start, cut at the buffer's end and around it."""
    for length in (BUFFER - 1, BUFFER, BUFFER + 1, BUFFER + len(more), 2 * BUFFER, 70_000):
        yield (start + more * (length // len(more) + 1))[:length]


# Table inputs

EXAMPLE = (6, [1, 2, 0x3C])
LARGEST_TABLE = table(64, [full(64)] * 128)


def fixed_frames() -> Iterator[Frame]:
    """Marked cases and limits that are accepted."""
    yield EXAMPLE
    yield 4, [7, 0xB, 0xC]
    yield 64, [full(64)]
    yield 1, [1]
    yield 2, [1, 2]
    yield 64, [1 << 63]
    yield 64, [1, 1 << 63]
    yield 3, [1]
    yield 5, [0x1F, 0x1F, 1, 3, 1]
    yield 6, [0x3C, 2, 1] * 42 + [0x3C, 2]
    yield 45, [full(45) & ~(1 << place) for place in range(45)]
    yield 20, [3 << 2 * pair for pair in range(10)]
    yield 14, [sum(1 << 2 * i + b for i, b in enumerate(taken))
               for taken in product((0, 1), repeat=7)]
    yield 64, [1 << place for place in range(64)]
    yield 9, [sum(1 << i for i in taken) for taken in combinations(range(9), 4)]
    yield from crossed_frames()


def crossed_frames() -> Iterator[Frame]:
    """Frames of which the chosen core is not the lowest as a mask."""
    return (choices_of(n, *groups) for n, groups in CROSSED)


def fixed_refused() -> Iterator[bytes]:
    """One or two faults each, placed by hand."""
    n, sets = EXAMPLE
    whole = table(n, sets)
    yield from (whole[:length] for length in range(len(whole)))
    yield from (table(wrong, sets) for wrong in (0, 65, 128, 255))
    yield from (frame(6) + mark + bytes(1) for mark in MARKS + UNKNOWN_MARKS)
    yield from (mark + whole[2:] for mark in MARKS + UNKNOWN_MARKS)
    yield from (frame(6) + survivor(1) + mark + b"\1" for mark in MARKS + UNKNOWN_MARKS)
    yield from (frame(6) + b"EN", frame(6) + b"E", frame(6) + b"X", frame(65) + b"X")
    yield from (table(6, [mask]) for mask in (0, 0x40, 0x41, full(64)))
    yield from (table(6, [1, 0, 0x40]), table(63, [1 << 63]), table(1, [2]))
    yield from (whole[:-1] + bytes([count]) for count in (0, 1, 2, 4, 255))
    yield from (whole + more for more in (b"\0", b"E", b"EN\3", whole))
    yield whole[:-1] + b"\4\0"
    yield from (fault_list(n, faults.rests(n, sets)), frame(6) + fault(0), frame(6) + fault(0)[:9])
    yield from (frame(6) + survivor(1) + fault(mask) + tail for mask in (0, 2) for tail in (b"", b"EN\2"))
    yield from (frame(6) + survivor(1) + fault(1)[:9], whole[:-3] + fault(1), whole + fault(1))


def fixed_limits() -> Iterator[bytes]:
    """Around 128 sets and 1024 cores."""
    many = [1] * 128
    yield table(3, many)
    yield table(3, many + [1])
    yield table(3, many + [0])
    yield table(3, [0] + many)
    yield table(3, many[:127] + [8, 1])
    yield frame(3) + b"".join(map(survivor, many)) + survivor(1)[:9]
    yield frame(3) + b"".join(map(survivor, many)) + b"S"
    yield frame(3) + b"".join(map(survivor, many)) + b"EN\0"
    yield frame(3) + b"".join(map(survivor, many)) + b"XX"
    yield table(1, [1] * 256)
    pairs = [3 << 2 * pair for pair in range(11)]
    yield from (table(22, pairs), table(22, pairs) + b"\0", table(22, pairs)[:-1] + b"\0")
    yield table(21, pairs[:-1] + [1 << 20])
    yield table(46, [full(46) & ~(1 << place) for place in range(46)])
    yield table(64, [3 << 2 * pair for pair in range(32)] + [0b101010])


def long_tables() -> Iterator[bytes]:
    """Tables with bytes behind them, and tables that do not end."""
    whole = table(*EXAMPLE)
    yield from (LARGEST_TABLE, table(22, [3 << 2 * pair for pair in range(11)]) + bytes(BUFFER))
    for start, more in ((whole, b"\0"), (whole, whole), (LARGEST_TABLE, b"\0"),
                        (LARGEST_TABLE, LARGEST_TABLE), (whole[:-1] + b"\2", b"\0"),
                        (frame(6), survivor(1)), (frame(6) + survivor(1), survivor(0)),
                        (frame(6), b"\0"), (b"", b"\0"), (b"", frame(6))):
        yield from around_buffer(start, more)


def hard_tables() -> Iterator[bytes]:
    """Tables on which the search for cores goes far."""
    return (table(*hard) for hard in hard_frames())


def small_tables() -> Iterator[bytes]:
    """Every normal table of 1 to 4 drives, and random ones of 5 and 6, half of them of few sets."""
    rng = Random(6)
    more = ((n, rng.sample(range(1, 1 << n), rng.choice((2, 3, rng.randint(1, 12)))))
            for n in (5, 6) for _ in range(80))
    return (table(*found) for found in chain(normal_tables(4), more))


def random_tables(rng: Random) -> Iterator[bytes]:
    while True:
        chance = rng.random()
        if chance < 0.72:
            yield table(*accepted_table(rng))
        elif chance < 0.75:
            yield table(*crowded_table(rng))
        elif chance < 0.76:
            yield rng.randbytes(rng.randint(0, 40))
        else:
            found = crowded_table(rng) if chance < 0.78 else accepted_table(rng)
            yield damaged(rng, table_records(*found), TABLE_DAMAGE)


def table_inputs(seed: int, count: int) -> Iterator[bytes]:
    """So many inputs of the table program."""
    fixed = chain((table(*found) for found in fixed_frames()), fixed_limits(),
                  fixed_refused())
    return islice(chain(fixed, random_tables(Random(seed))), count)


# Run inputs

MARKED_PATTERNS = [7, 5, 9, 1, 1, 1]


def marked_crashes() -> Iterator[list[Crash]]:
    """Cases B, D, E, F, G, and their neighbours."""
    for sends in range(6):
        yield [Crash(2, 1, sends)]
    yield [Crash(1, 1, 0), Crash(2, 2, 0)]
    yield [Crash(1, 1, 0), Crash(2, 1, 0), Crash(3, 1, 0)]
    yield [Crash(1, 3, 5), Crash(2, 2, 4), Crash(3, 1, 1)]
    yield []
    yield [Crash(2, 3, 5)]
    yield [Crash(4, 1, 0), Crash(5, 2, 0), Crash(6, 3, 0)]


def fixed_runs() -> Iterator[bytes]:
    """Marked cases, limits, and the largest frames; PR, PW, and both in one file; records of all
    drives, and of core drives alone."""
    first = table(*EXAMPLE)
    for crashes in marked_crashes():
        yield first + run(MARKED_PATTERNS, crashes)
    for left_out in (0b111000, 0b101000, 0b010000):
        yield first + run(MARKED_PATTERNS, [Crash(2, 1, 1)], 0b010101, left_out)
    yield table(5, [2, 8]) + run([1, 7, 1, 5, 1], [Crash(2, 1, 1)], 0, 0b10101)
    for wide in (full(6), 0b010101, 0b111000):
        yield first + run(MARKED_PATTERNS, [Crash(2, 1, 1)], wide)
    yield first + run([65543, 65541, 65545, 1, 1, 1], [Crash(2, 1, 1)])
    yield first + run([65536, 65535, 2 ** 32 - 1, 0, 0, 0], [Crash(2, 1, 0)])
    yield first + run([1 << 24, 1 << 16, 1 << 8, 1, 0, 0], [], 0b100)
    yield table(1, [1]) + run([65535], [])
    yield table(1, [1]) + run([0], [])
    yield table(2, [1, 2]) + run([4, 4], [Crash(1, 1, 0)])
    yield table(64, [full(64)]) + run(list(range(64)), [])
    yield table(64, [full(64)]) + run(list(range(64)), [Crash(1, 1, 0)])
    singles = table(64, [1 << place for place in range(64)])
    falling = list(range(1000, 936, -1))
    yield singles + run(falling, [Crash(drive, 1, drive % 64) for drive in range(1, 64)])
    yield singles + run(falling, [Crash(drive, drive, 0) for drive in range(1, 4)])
    yield singles + run(falling, [Crash(drive, 64, 63) for drive in range(2, 65)])
    across = list(range(65567, 65503, -1))
    yield singles + run(across, [Crash(drive, drive, 0) for drive in range(1, 4)], full(64))
    yield singles + run(across, [Crash(drive, 1, drive % 64) for drive in range(1, 64)])
    yield table(64, [1]) + run(falling, [Crash(drive, 1, 0) for drive in range(2, 65)])
    yield table(64, [1]) + run(falling, [Crash(drive, 1, 0) for drive in range(2, 65)], 0, full(64) - 1)
    yield table(64, [1 << 63]) + run(falling, [], 0, full(63))
    yield table(22, [3 << 2 * pair for pair in range(11)]) + run([1], [])
    yield table(22, [3 << 2 * pair for pair in range(11)])
    yield from (table(1, [1]) + run([number], [], 1) for number in EDGES)


def crossed_runs() -> Iterator[bytes]:
    """Where the chosen core is not the lowest as a mask: numbers of all drives, and of one core's
    alone; each drive of the first two cores stops, in each round and in one too many, with no sends,
    some, and one too many; then all of a core's."""
    for n, cores in CROSSED:
        first, falling = table(*choices_of(n, *cores)), list(range(100 + n, 100, -1))
        yield first + run(falling, [])
        yield from (first + run(falling, [], 0, full(n) & ~core) for core in cores)
        rounds = range(1, cores[0].bit_count() + 2)
        for place, round_number, sends in product(places(cores[0] | cores[1]), rounds, (0, 1, n - 1, n)):
            yield first + run(falling, [Crash(place + 1, round_number, sends)])
        for core in cores:
            yield first + run(falling, [Crash(place + 1, 1, 0) for place in places(core)])


def fixed_run_refusals() -> Iterator[bytes]:
    """Faults placed by hand; several are two faults at once."""
    first, good = table(*EXAMPLE), MARKED_PATTERNS
    whole = first + run(good, [Crash(2, 1, 1), Crash(4, 2, 0)])
    yield from (whole[:length] for length in range(len(whole)))
    yield from (whole + more for more in (b"\0", b"PR", b"PW", whole))
    mixed = run(good, [Crash(2, 1, 1)], 0b011011)
    yield from (first + mixed[:length] for length in range(len(mixed)))
    yield from (whole[:-1] + bytes([count]) for count in (0, 1, 3, 255))
    head = b"".join(proposal(d, p) for d, p in enumerate(good, start=1))
    for tail in (crash(0, 1, 0), crash(7, 1, 0), crash(7, 0, 9), crash(1, 0, 0),
                 crash(1, 4, 0), crash(1, 4, 9), crash(1, 3, 6), crash(4, 1, 1),
                 crash(4, 1, 0) + crash(4, 1, 0), crash(4, 1, 0) + crash(3, 9, 9),
                 crash(255, 255, 255), proposal(7, 1), proposal(1, 1), proposal(7, 1, True), b"PR",
                 b"PW", b"SV", b"C", b"E", b"EN", b"EN\1", b"EN\0\0", b"KN", b"KW", b"DW", b"XX",
                 b"FR"):
        yield first + head + tail + b"EN\1"
        yield first + head + tail
    core = head[:15]
    for tail in (b"EN\0", b"EN", b"E", crash(2, 1, 1) + b"EN\1", crash(2, 1, 1) + proposal(4, 1), b"PR",
                 b"PW\5\0", proposal(3, 1), proposal(1, 1, True), proposal(7, 1), proposal(5, 1) + b"EN\0",
                 proposal(5, 1) + proposal(4, 1), proposal(6, 1) + proposal(7, 1), proposal(6, 1) + b"PW"):
        yield first + core + tail
    for missing in range(3):
        kept = head[:5 * missing] + head[5 * missing + 5:]
        yield from (first + data + tail for data in (kept, kept[:10]) for tail in (b"EN\0", crash(1, 1, 0)))
    for short in (head[:-5], head[:20], head[:10], b""):
        yield from (first + short + tail for tail in
                    (b"EN\0", crash(1, 1, 0), proposal(6, 1), proposal(0, 1), proposal(0, 1, True),
                     b"P", b"EN"))
    # A PR with a number of four bytes; a PW with two, with five; of another drive, cut and whole.
    for wrong in (b"PR\1\7\0\0\0", b"PW\1\7\0", b"PW\1\7\0\0\0\0", b"PW\2\7\0", b"PW\2\7\0\0\0"):
        yield first + wrong
        yield first + wrong + head[5:] + b"EN\0"
    for behind in (b"", head, head + crash(2, 1, 1)):
        yield from (first + behind + fault(1), first + behind + fault(0) + b"EN\1")
    yield fault_list(6, [3, 0x3D, 0x3E]) + head + b"EN\0"
    touched = first + head + crash(1, 1, 0) + crash(2, 1, 0) + crash(3, 1, 0)
    yield from (touched + tail for tail in (b"EN\3", b"EN\2", b"EN\3\0", b"EN", crash(4, 1, 0)))
    yield first + proposal(2, 1) + head
    yield first + head[:5] + head
    yield first + proposal(2, 1, True) + head
    yield first + proposal(1, 7, True) + head
    yield first[:-1] + b"\4" + head + b"EN\0"
    yield first + first
    yield table(64, [full(64)]) + head + b"EN\0"
    for wrong in (table(0, [1]), table(65, [1]), table(6, [0]), table(6, [0x40]),
                  table(6, [1] * 129), frame(6), frame(6)[:2], b"PR"):
        yield wrong + head + b"EN\0"


def long_runs() -> Iterator[bytes]:
    """Runs with bytes behind them, and runs that do not end."""
    falling = list(range(65599, 65535, -1))
    stops = [Crash(drive, 1, 0) for drive in range(2, 65)]
    largest = table(64, [1] * 128) + run(falling, stops)
    touched = table(64, [1] * 128) + run(falling, [Crash(1, 1, 0), *stops])
    whole = table(*EXAMPLE) + run(MARKED_PATTERNS, [Crash(2, 1, 1)])
    yield from (largest, touched)
    for start, more in ((whole, b"\0"), (whole, whole), (largest, b"\0"), (largest, largest),
                        (touched, b"\0"), (whole[:-1] + b"\2", b"\0"),
                        (whole[:-3], crash(3, 1, 0)), (LARGEST_TABLE, proposal(1, 7, True)),
                        (LARGEST_TABLE, b"\0"), (LARGEST_TABLE, LARGEST_TABLE),
                        (frame(6), survivor(1)), (b"", b"\0")):
        yield from around_buffer(start, more)


def random_run_records(rng: Random) -> tuple[Records, Records]:
    """A table's records and a run file's, accepted."""
    n, sets, proposals, crashes, core = accepted_run(rng)
    return table_records(n, sets), run_records(proposals, crashes, some_wide(rng, n),
                                               some_left_out(rng, n, core))


def random_runs(rng: Random) -> Iterator[bytes]:
    while True:
        chance = rng.random()
        head, tail = random_run_records(rng)
        if chance < 0.74:
            yield b"".join(head + tail)
        elif chance < 0.80:
            n, sets, proposals, _, core = accepted_run(rng)
            stops = touch_every_set(rng, n, sets, core)
            records = run_records(proposals, stops, some_wide(rng, n), some_left_out(rng, n, core))
            yield table(n, sets) + (b"".join(records) if rng.random() < 0.7
                                    else damaged(rng, records, RUN_DAMAGE))
        elif chance < 0.84:
            n, sets, proposals, crashes, core = accepted_run(rng)
            stops = spoil_crash(rng, n, core, crashes)
            yield table(n, sets) + run(proposals, stops, some_wide(rng, n),
                                       some_left_out(rng, n, core))
        elif chance < 0.94:
            yield b"".join(head) + damaged(rng, tail, RUN_DAMAGE)
        elif chance < 0.97:
            yield damaged(rng, head, TABLE_DAMAGE) + b"".join(tail)
        elif chance < 0.98:
            yield table(*crowded_table(rng)) + damaged(rng, tail, RUN_DAMAGE)
        else:
            yield damaged(rng, head + tail, TABLE_DAMAGE + RUN_DAMAGE)


def run_inputs(seed: int, count: int) -> Iterator[bytes]:
    """So many inputs of the run program."""
    fixed = chain(fixed_runs(), fixed_run_refusals())
    return islice(chain(fixed, random_runs(Random(seed))), count)


# Threshold inputs

def fixed_thresholds() -> Iterator[bytes]:
    """Limits that are accepted; each refusal; then two faults at once."""
    accepted = ((6, 2), (1, 0), (64, 0), (9, 4), (45, 1), (16, 2))
    refused = ((0, 0), (65, 1), (5, 5), (5, 6), (10, 5), (17, 2), (46, 1), (64, 1))
    yield from map(bytes, accepted)
    yield from (b"", b"\6", b"\6\2\0")
    yield from map(bytes, refused)
    yield from (b"\0", b"\0\0\0", b"\5\5\0", bytes((65, 70)), bytes((64, 2)))


def threshold_inputs() -> Iterator[bytes]:
    """Too few bytes and too many, also where n or t is refused; then for each n the
    lowest t, those around n, and the highest."""
    yield b""
    for pair in (b"\6\2", b"\0\0", b"\5\5", b"\x40\2", b"\x2e\1"):
        yield pair[:1]
        yield from (pair + more for more in (b"\0", pair, bytes(BUFFER), bytes(70_000)))
    for n in (*range(67), 128, 255):
        around = {t for t in (*range(6), *range(n - 5, n + 2), 254, 255) if 0 <= t <= 255}
        yield from (bytes([n, t]) for t in sorted(around))


# Convert inputs

WHOLE_LIST = fault_list(6, [3, 0x3D, 0x3E])
LARGEST_LIST = fault_list(64, [0] * 128)


def fixed_converts() -> Iterator[bytes]:
    """Tables and fault lists that are accepted: the stated ones, and those at the limits."""
    for n, sets, groups in faults.STATED:
        yield from (fault_list(n, groups), table(n, sets))
    yield from (fault_list(n, groups) for n, groups, _ in faults.LISTED)
    yield from (fault_list(n, groups) for n, groups in faults.LARGE)
    yield from (table(*found) for found in fixed_frames())
    yield from (LARGEST_LIST, LARGEST_TABLE)


def fixed_convert_refusals() -> Iterator[bytes]:
    """Files with stated refusals, as fault lists or as tables; a table and a list cut at every byte,
    with bytes behind them, and of other counts."""
    yield from (data for data, due in faults.FILES if due)
    for whole in (WHOLE_LIST, table(*EXAMPLE)):
        yield from (whole[:length] for length in range(len(whole)))
        yield from (whole + more for more in (b"\0", b"EN\3", WHOLE_LIST, table(*EXAMPLE)))
        yield from (whole[:-1] + bytes([count]) for count in (0, 2, 4, 255))
    yield from (table(6, [mask]) for mask in (0, 0x40, 0x3F, full(64)))
    yield from (table(wrong, [1]) for wrong in (0, 65))
    yield from (table(22, PAIRS), table(22, PAIRS) + b"\0", table(3, [1] * 129))


def long_converts() -> Iterator[bytes]:
    """Lists and tables with bytes behind them, and such as do not end."""
    crowd = fault_list(22, faults.CROWD)
    yield from (LARGEST_LIST, crowd + bytes(BUFFER), fault_list(64, [full(63)] * 127 + [full(64)]))
    for start, more in ((WHOLE_LIST, b"\0"), (WHOLE_LIST, WHOLE_LIST), (LARGEST_LIST, b"\0"),
                        (LARGEST_LIST, LARGEST_TABLE), (LARGEST_TABLE, LARGEST_LIST),
                        (WHOLE_LIST[:-1] + b"\2", b"\0"), (frame(6), fault(1)),
                        (frame(6) + fault(1), fault(0x3F)), (frame(6) + fault(1) * 128, fault(full(64))),
                        (frame(6), survivor(1)), (frame(6) + fault(1), survivor(1)), (b"", b"\0")):
        yield from around_buffer(start, more)


def small_converts() -> Iterator[bytes]:
    """Of up to two drives every fault list of up to three groups, of three every one of up to two, of
    three and four some of more; every mark that is not due; every normal table of up to four drives."""
    for n, most in ((1, 3), (2, 3), (3, 2)):
        yield from (fault_list(n, groups) for groups in faults.short_lists(n, most))
    yield from (fault_list(3, groups) for groups in faults.falling_lists(3, 4))
    yield from (fault_list(4, groups) for groups in islice(faults.falling_lists(4, 3), 0, None, 7))
    yield from (data for data, _ in faults.wrong_marks())
    for n, sets in normal_tables(4):
        yield table(n, sets)


def random_converts(rng: Random) -> Iterator[bytes]:
    while True:
        chance = rng.random()
        accepted, crowded, records, damage = rng.choice((
            (faults.accepted_list, faults.crowded_list, fault_records, FAULT_DAMAGE),
            (faults.accepted_list, faults.crowded_list, fault_records, FAULT_DAMAGE),
            (accepted_table, crowded_table, table_records, TABLE_DAMAGE)))
        if chance < 0.72:
            yield b"".join(records(*accepted(rng)))
        elif chance < 0.75:
            yield b"".join(records(*crowded(rng)))
        elif chance < 0.76:
            yield rng.randbytes(rng.randint(0, 40))
        else:
            found = crowded(rng) if chance < 0.78 else accepted(rng)
            yield damaged(rng, records(*found), damage)


def convert_inputs(seed: int, count: int) -> Iterator[bytes]:
    """So many inputs of the convert program."""
    fixed = chain(fixed_converts(), fixed_convert_refusals())
    return islice(chain(fixed, random_converts(Random(seed))), count)
