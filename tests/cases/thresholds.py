"""The table from n and t: stated answers and refusals, its file, and over all n and t up to
70 which are refused, the sets and the cores; and the generator of the group counts."""

from itertools import combinations
from math import comb
from typing import Iterator

import group_counts
import regdulyn
from inputs.frames import MAX_CORES, MAX_SETS, full
from inputs.records import table

from . import Case, refusal
from .marked import ROOT, script

COUNTS = group_counts.rows()

STATED = [
    (1, 0, [1]), (6, 0, [0x3F]), (64, 0, [full(64)]), (3, 1, [3, 5, 6]), (3, 2, [1, 2, 4]),
    (6, 2, [0xF, 0x17, 0x1B, 0x1D, 0x1E, 0x27, 0x2B, 0x2D, 0x2E, 0x33, 0x35, 0x36, 0x39, 0x3A,
            0x3C]),
    (45, 1, [full(45) & ~(1 << 44 - place) for place in range(45)]),
    (64, 63, [1 << place for place in range(64)]),
]

# 3 whatever t is; then t not below n; then 129 groups or more, also where there are more than
# 1024 cores too; then the cores.
REFUSED = [
    (0, 0, 3), (0, 5, 3), (65, 0, 3), (65, 1, 3), (65, 70, 3), (255, 255, 3),
    (1, 1, 31), (5, 5, 31), (5, 6, 31), (64, 64, 31), (64, 255, 31), (46, 46, 31),
    (16, 2, 0), (17, 2, 32), (10, 3, 0), (11, 3, 32), (9, 4, 0), (9, 5, 0), (10, 5, 32),
    (16, 14, 0), (17, 15, 32), (64, 2, 32), (64, 32, 32), (64, 62, 32),
    (45, 1, 0), (46, 1, 13), (64, 1, 13), (46, 0, 0), (46, 45, 0),
]


def threshold_samples() -> Iterator[Case]:
    for n, t, sets in STATED:
        yield f"n {n} t {t}", regdulyn.threshold_table(n, t), sets
        yield (f"n {n} t {t}, program", script(ROOT / "reference" / "threshold", bytes([n, t])),
               (table(n, sets), b"", 0))
    for n, t, due in REFUSED:
        yield f"n {n} t {t}, refusal", refusal(regdulyn.threshold_table, n, t), due
        found = regdulyn.threshold_program(bytes([n, t]))
        yield f"n {n} t {t}, refusal of the program", found == b"refused %d\n" % due, due != 0
    for data, due in ((b"", 1), (b"\6", 1), (b"\0", 1), (b"\6\2\0", 7), (b"\0\5\0", 7),
                      (b"\5\5\5\5", 7)):
        yield f"input {data.hex()}", regdulyn.threshold_program(data), b"refused %d\n" % due


def threshold_pairs() -> Iterator[Case]:
    accepted, crowded = 0, []
    for n in range(71):
        for t in range(71):
            number = refusal(regdulyn.threshold_table, n, t)
            if 1 <= n <= 64 and t < n:
                yield f"n {n} t {t}, by its counts", number, by_counts(n, t)
            else:
                yield f"n {n} t {t}", number, 31 if 1 <= n <= 64 else 3
            if number == 13:
                crowded.append((n, t))
            if number == 0:
                accepted += 1
                yield from accepted_cases(n, t)
    yield "accepted", accepted, 207
    yield "refused with 13", crowded, [(n, 1) for n in range(46, 65)]


def by_counts(n: int, t: int) -> int:
    """The refusal by the numbers of groups of t and of t + 1 drives."""
    if COUNTS[n][t] > MAX_SETS:
        return 32
    return 13 if COUNTS[n][t + 1] > MAX_CORES else 0


def groups(n: int, size: int) -> list[int]:
    """All groups of so many of n drives, those with low drives first."""
    return [sum(1 << place for place in taken) for taken in combinations(range(n), size)]


def accepted_cases(n: int, t: int) -> Iterator[Case]:
    sets = regdulyn.threshold_table(n, t)
    yield f"n {n} t {t}, sets", sets, sorted(groups(n, n - t))
    yield f"n {n} t {t}, cores", list(regdulyn.cores(n, sets)), groups(n, t + 1)
    yield f"n {n} t {t}, chosen core", regdulyn.chosen_core(n, sets), full(t + 1)


def count_cases() -> Iterator[Case]:
    yield "counts", COUNTS, [[min(comb(n, t), 1025) for t in range(65)] for n in range(65)]
    lines = [line for line in group_counts.source_lines() if line.startswith("    ")]
    entries = [entry for line in lines for entry in line.strip(" ,").split(", ")]
    yield "counts as printed", list(map(int, entries)), [entry for row in COUNTS for entry in row]
