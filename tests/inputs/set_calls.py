"""Operations of the calls given n and sets or groups: the cores, the writer,
the verdict, the first set that a group misses, and Back. First fixed ones at the
limits, then random ones. And the table from n and t, for all small n and t.
"""

from functools import partial
from itertools import combinations, product
from random import Random
from typing import Iterable, Iterator

from regdulyn import Refusal, cores, write_table

from .calls import Script
from .frames import (CHOICES, CROSSED, MAX_CORES, MAX_SETS, PAIRS, Frame, accepted_table, choices_of,
                     crowded_table, full, hard_frames, normal_tables, places)

BUFFER = 1536
NO_BLOCK_COUNTS = (0, 1, 5, 6, 255)


# At the limits

def limit_tables() -> Iterator[Frame]:
    """Around 1 and 64 drives, none, 1 and 128 sets, and 1024 cores."""
    yield from ((n, sets) for n in (0, 65, 255) for sets in ([], [0], [1], [1] * 129))
    yield from ((1, [1]), (1, [2]), (64, [full(64)]), (64, [1 << 63]), (63, [1 << 63]))
    yield from ((6, []), (6, [0]), (6, [1, 0x40]), (6, [0x3C, 2, 1, 3]))
    for count in (127, 128, 129):
        yield from ((6, [1] * count), (6, [1] * (count - 1) + [0]))
    yield from ((14, CHOICES), (14, CHOICES[:-1]), (14, CHOICES + [1]), (6, [1] * 256))
    yield from ((20, PAIRS[:10]), (22, PAIRS), (22, PAIRS + [0]))


def table_limits(script: Script) -> None:
    """The writer, the verdict, the cores and an opening on each table."""
    for n, sets in limit_tables():
        script.open(n, sets, 1, 7)
        script.write(n, sets, BUFFER, 0)
        script.judge(2, n, sets)
        script.cores(n, sets)


def group_limits(script: Script) -> None:
    """A group that is empty, small, and above n, on each table."""
    for n, sets in limit_tables():
        for group in (0, 1, full(64)):
            script.miss(n, sets, group)


def missed_positions(script: Script) -> None:
    """Every group of case A's drives, and drive 7 alone, on a list with a repeat; and groups
    that miss one set alone, the first, the last and some between, of 128 handed over falling."""
    for group in range(0x41):
        script.miss(6, [0x3C, 2, 3, 1, 0x3E, 2], group)
    rising = sorted(CHOICES)
    for missed in (*rising[::9], rising[-1]):
        script.miss(14, rising[::-1], full(14) & ~missed)


def verdict_limits(script: Script) -> None:
    """Each k on an accepted table, a no and a yes, on frames of 1 to 6 drives, and on refused
    tables, some of them of few drives; and every normal table of up to 4 drives."""
    for k in (*range(7), 255):
        for n, sets in ((6, [1, 2, 0x3C]), (4, [7, 0xB, 0xC]), (2, [1, 2]), (14, CHOICES),
                        (0, [1]), (6, []), (6, [1] * 129), (6, [0]), (22, PAIRS),
                        (1, []), (2, [1] * 129), (3, [1, 8]), (4, [0])):
            script.judge(k, n, sets)
        for n in range(1, 7):
            for sets in ([1], [full(n)], [1 << place for place in range(n)], [1, full(n) - 1 or 1]):
                script.judge(k, n, sets)
    for n, sets in normal_tables(4):
        for k in (2, 3, 4):
            script.judge(k, n, sets)


def rooms(size: int) -> Iterator[tuple[int, int]]:
    """Lengths of a buffer and starting places that just fit, and do not."""
    yield from ((size, 0), (size - 1, 0), (size + 1, 0), (size, 1), (size + 7, 7), (size + 6, 7))
    yield from ((size, size - 1), (size, size), (size, size + 1), (0, 0), (0, 1))
    yield from ((BUFFER, start) for start in (
        BUFFER - size, BUFFER - size + 1, BUFFER, BUFFER + 1, 2 ** 32, 2 ** 63, 2 ** 64 - size,
        2 ** 64 - 1))


def writer_limits(script: Script) -> None:
    """Each room for small tables and the largest; refused tables, with no room."""
    for n, sets in ((1, [1]), (6, [0x3C, 2, 1, 3]), (14, CHOICES)):
        for length, start in rooms(len(write_table(n, sets))):
            script.write(n, sets, length, start)
    for n, sets in ((0, [1]), (6, []), (6, [1] * 129), (6, [0]), (22, PAIRS)):
        script.write(n, sets, 0, 1)


def back_limits(script: Script) -> None:
    """None, 1, 1024 and 1025 groups; 128 and 129 found."""
    for n in (0, 65):
        for groups in ([], [0], [1]):
            script.back(n, groups)
    for groups in ([], [1], [0], [8], [1, 8], [7], [1, 2, 4]):
        script.back(3, groups)
    script.back(64, [full(64)])
    found_129 = [pair | 1 << 14 for pair in PAIRS[:7]]
    for n, groups in ((14, PAIRS[:7]), (15, found_129), (15, found_129 + [0]), (22, PAIRS)):
        script.back(n, groups)
    script.back(45, [1 << a | 1 << b for a, b in combinations(range(45), 2)])
    script.back(20, cores(20, PAIRS[:10]))
    for groups in ([1] * 1023 + [6], [1] * 1023 + [8], [1] * 1025, [0] * 1025):
        script.back(3, groups)


def table_cores(n: int, sets: list[int]) -> list[int]:
    """None where the table is refused."""
    try:
        return cores(n, sets)
    except Refusal:
        return []


def crossed_tables(script: Script) -> None:
    """Cores, the way back from them, and openings of the drives of two cores, where the chosen one is not the
    lowest as a mask."""
    for n, groups in CROSSED:
        _, sets = choices_of(n, *groups)
        script.cores(n, sets)
        script.back(n, groups)
        for place in places(groups[0] | groups[1]):
            script.open(n, sets, place + 1, 7)


def hard_groups(script: Script) -> None:
    """Back of the cores of tables on which the search goes far; where these are
    too many for the reference, of their sets."""
    for n, sets in hard_frames():
        groups = table_cores(n, sets)
        script.back(n, groups if 0 < len(groups) <= 512 else sets)


COUNTS = (*range(71), 255)


def thresholds(script: Script, frames: Iterable[int]) -> None:
    """The table from each of these n and every t."""
    for n, t in product(frames, COUNTS):
        script.threshold(n, t)


LIMITS = (table_limits, group_limits, missed_positions, verdict_limits, writer_limits,
          back_limits, crossed_tables, hard_groups,
          *(partial(thresholds, frames=COUNTS[place::4]) for place in range(4)))


# Random ones

def refused_table(rng: Random) -> Frame:
    """A table that is refused, with few exceptions."""
    n, sets = accepted_table(rng)
    kind = rng.randrange(5)
    if kind == 0:
        n = rng.choice((0, 65, 128, 255))
    elif kind == 1:
        sets = []
    elif kind == 2:
        sets = (sets * 256)[:rng.choice((129, 130, 256))]
    elif kind == 3:
        sets[rng.randrange(len(sets))] = rng.choice((0, 1 << min(n, 63), full(64)))
        n = min(n, 63)
    else:
        n, sets = crowded_table(rng)
    return n, sets


def odd_write(rng: Random, script: Script, n: int, sets: list[int]) -> None:
    """Into a buffer that fits all sets, or not even some."""
    size = 6 + 10 * rng.choice((len(sets), rng.randint(0, MAX_SETS)))
    start = rng.choice((0, 0, 1, rng.randint(0, 200)))
    length = min(max(0, size + start + rng.choice((-1, 0, 0, 1))), BUFFER)
    if rng.random() < 0.1:
        start = rng.choice((length, length + 1, 2 ** 64 - 1))
    script.write(n, sets, length, start)


def odd_group(rng: Random, n: int, sets: list[int]) -> int:
    """A core, a core without its lowest drive, or anything."""
    found = rng.choice(table_cores(n, sets) or [1])
    if rng.random() < 0.2:
        return rng.choice((0, 1 << min(n, 63), rng.randint(0, full(64))))
    return rng.choice((found, found | 1, found & found - 1, rng.randint(0, full(min(n, 64)))))


def odd_back(rng: Random, script: Script, n: int, sets: list[int]) -> None:
    """From the table's cores, its sets, or some of both; at times one more that
    is no group, or too many."""
    found = table_cores(n, sets)
    both = found + sets
    some = rng.sample(both, min(len(both), rng.randint(0, 40)))
    groups = list(rng.choice((found, found, sets, some)))
    if rng.random() < 0.1:
        groups.insert(rng.randint(0, len(groups)), rng.choice((0, 1 << min(n, 63), full(64))))
    if groups and rng.random() < 0.01:
        groups = (groups * MAX_CORES)[:rng.choice((MAX_CORES, MAX_CORES + 1))]
    script.back(n, groups)


def set_calls(rng: Random, script: Script) -> None:
    """A few calls on one table, accepted or refused."""
    n, sets = (accepted_table if rng.random() < 0.8 else refused_table)(rng)
    for _ in range(rng.randint(1, 5)):
        kind = rng.randrange(5)
        if kind == 0:
            odd_write(rng, script, n, sets)
        elif kind == 1:
            script.judge(rng.choice((2, 3, 4) * 4 + NO_BLOCK_COUNTS), n, sets)
        elif kind == 2:
            script.miss(n, sets, odd_group(rng, n, sets))
        elif kind == 3:
            script.cores(n, sets)
        else:
            odd_back(rng, script, n, sets)
