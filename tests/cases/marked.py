"""The marked cases A to J, through the two scripts, and their files
in examples/, with one of numbers that need four bytes and one of the core drives' records alone."""

import subprocess
from itertools import product
from pathlib import Path
from typing import Iterator, Optional

import regdulyn
from inputs.frames import full
from inputs.records import Crash, run, table, widened

from . import A_SETS, PATTERNS, Case

ROOT = Path(__file__).resolve().parents[2]
EXAMPLES = ROOT / "examples"

LISTING_A = """\
drives 6
set 1
set 2
set 3c
core 7
core b
core 13
core 23
chosen 7
k 2 no sets 1 2 blocks 3e 1
k 3 no sets 1 1 2 blocks 3c 2 1
k 4 no sets 1 1 1 2 blocks 38 2 4 1
"""

LISTING_B = """\
drive 1 decides 5 round 1
drive 2 stopped
drive 3 decides 5 round 2
drive 4 decides 5 round 2
drive 5 decides 5 round 2
drive 6 decides 5 round 2
core 7 stops 1
"""

LISTING_C = """\
drives 4
set 7
set b
set c
core 5
core 9
core 6
core a
core c
chosen 5
k 2 yes
k 3 no sets 1 2 3 blocks 8 4 3
k 4 few
"""


def on_a(endings: list[Optional[tuple[int, int]]]) -> str:
    """A run's listing on case A's table: the pattern number and round of each
    drive, none for one that stopped, where only core drives stop."""
    lines = [f"drive {drive} " + ("decides %d round %d" % end if end else "stopped")
             for drive, end in enumerate(endings, start=1)]
    return "\n".join([*lines, f"core 7 stops {endings.count(None)}", ""])


LISTING_H = ("drives 64\nset ffffffffffffffff\n" +
             "".join(f"core {1 << place:x}\n" for place in range(64)) +
             "chosen 1\nk 2 yes\nk 3 yes\nk 4 yes\n")


def stopped(*crashes: Crash, wide: int = 0, left_out: int = 0) -> bytes:
    """Case A's table with case B's pattern numbers, of which the drives of `wide` have a PW and those of `left_out`
    no record."""
    return table(6, A_SETS) + run(PATTERNS, list(crashes), wide, left_out)


# Letter, program, input, listing. In F drive 2 sends in round 1, so that its 5
# reaches the rest.
MARKED = (
    ("a", "table", table(6, A_SETS), LISTING_A),
    ("b", "run", stopped(Crash(2, 1, 1)), LISTING_B),
    ("c", "table", table(4, [7, 0xB, 0xC]), LISTING_C),
    ("d", "run", stopped(Crash(2, 1, 0)), on_a([(7, 2), None] + [(7, 2)] * 4)),
    ("e", "run", stopped(Crash(2, 1, 3)),
     on_a([(5, 1), None, (5, 1), (5, 1), (5, 2), (5, 2)])),
    ("f", "run", stopped(Crash(1, 1, 0), Crash(2, 2, 0)), on_a([None] * 2 + [(5, 3)] * 4)),
    ("g", "run", stopped(Crash(1, 1, 0), Crash(2, 1, 0), Crash(3, 1, 0)), "refused 11\n"),
    ("h", "table", table(64, [full(64)]), LISTING_H),
    ("i", "table", table(65, [1]), "refused 3\n"),
    ("j", "run", table(1, [1]) + run([4], []), "drive 1 decides 4 round 1\ncore 1 stops 0\n"),
)

# The files in examples/: those of the marked cases, and of case B one with records of the core
# drives alone, and one with numbers that are read otherwise if their upper bytes get lost.
STORED = MARKED + (
    ("core", "run", table(6, A_SETS) + run(PATTERNS[:3], [Crash(2, 1, 1)], full(3)), LISTING_B),
    ("wide", "run", table(6, A_SETS) + run([65543, 131077, 2 ** 32 - 1, 1, 1, 1], [Crash(2, 1, 1)], full(6)),
     LISTING_B.replace("decides 5 ", "decides 65543 ")),
)

NEIGHBOURS = (
    ("b with the core's PR", "run", stopped(Crash(2, 1, 1), left_out=0b111000), LISTING_B),
    ("b with the core's PR and drive 5's PW", "run",
     stopped(Crash(2, 1, 1), wide=0b010000, left_out=0b101000), LISTING_B),
    ("b without drive 2's", "run", stopped(Crash(2, 1, 1), left_out=0b000010), "refused 8\n"),
    ("b without drive 3's", "run", stopped(Crash(2, 1, 1), left_out=0b000100), "refused 8\n"),
    ("b without drive 3's, the core's alone", "run", stopped(Crash(2, 1, 1), left_out=0b111100), "refused 2\n"),
    ("b with PW", "run", stopped(Crash(2, 1, 1), wide=full(6)), LISTING_B),
    ("b with PW and PR", "run", stopped(Crash(2, 1, 1), wide=0b100110), LISTING_B),
    ("g with PW", "run", stopped(Crash(1, 1, 0), Crash(2, 1, 0), Crash(3, 1, 0), wide=full(6)), "refused 11\n"),
    ("the largest number", "run", table(1, [1]) + run([2 ** 32 - 1], []),
     "drive 1 decides 4294967295 round 1\ncore 1 stops 0\n"),
    ("above the old numbers", "run", table(2, [3]) + run([65536, 65535], []),
     "drive 1 decides 65536 round 1\ndrive 2 decides 65536 round 1\ncore 1 stops 0\n"),
    ("i as a run", "run", table(65, [1]), "refused 3\n"),
    ("j as a table", "table", table(1, [1]),
     "drives 1\nset 1\ncore 1\nchosen 1\nk 2 few\nk 3 few\nk 4 few\n"),
    ("two sets of one drive", "table", table(2, [1, 2]),
     "drives 2\nset 1\nset 2\ncore 3\nchosen 3\nk 2 few\nk 3 few\nk 4 few\n"),
    ("two sets of one drive in a frame of five", "table", table(5, [1, 2]),
     "drives 5\nset 1\nset 2\ncore 3\nchosen 3\nk 2 no sets 1 2 blocks 1e 1\n"
     "k 3 no sets 1 1 2 blocks 1c 2 1\nk 4 no sets 1 1 1 2 blocks 18 2 4 1\n"),
    ("a yes in a frame of three", "table", table(3, [1]),
     "drives 3\nset 1\ncore 1\nchosen 1\nk 2 yes\nk 3 few\nk 4 few\n"),
    ("masks of two digits", "table", table(12, [0xC00, 0xA00]),
     "drives 12\nset a00\nset c00\ncore 800\ncore 600\nchosen 800\n"
     "k 2 yes\nk 3 yes\nk 4 yes\n"),
    ("empty table input", "table", b"", "refused 1\n"),
    ("empty run input", "run", b"", "refused 1\n"),
)


def script(path: Path, data: bytes, *arguments: str) -> tuple[bytes, bytes, int]:
    done = subprocess.run([str(path), *arguments], input=data, capture_output=True)
    return done.stdout, done.stderr, done.returncode


def marked_cases() -> Iterator[Case]:
    for name, program, data, listing in MARKED + NEIGHBOURS:
        yield (f"case {name}", script(ROOT / "reference" / program, data),
               (listing.encode(), b"", 0))
    for rounds in product((1, 2, 3), repeat=3):
        data = stopped(*(Crash(drive, r, 0) for drive, r in enumerate(rounds, start=1)))
        yield f"case g, rounds {rounds}", regdulyn.run_program(data), b"refused 11\n"


def kept(data: bytes) -> int:
    """The chosen core of a file's table."""
    n, sets, _ = regdulyn.read_table_with_rest(data)
    return regdulyn.chosen_core(n, sets)


def example_cases() -> Iterator[Case]:
    """Each file gives its case's listing, and so does what its text makes: the same file with a PW for each PR and,
    where it is not refused, none for a listener. Other files in examples/ are not looked at."""
    programs = {"table": regdulyn.table_program, "run": regdulyn.run_program}
    for name, program, data, listing in STORED:
        path = EXAMPLES / f"{name}.{program}"
        stored = path.read_bytes() if path.is_file() else None
        made = widened(data, kept(data) if program == "run" and not listing.startswith("refused") else -1)
        yield f"example {name}", stored, data
        yield f"example {name}, listing", programs[program](data), listing.encode()
        yield (f"example {name}, made", script(ROOT / "regdulyn", b"", "make", f"{path}.txt"),
               (made, b"", 0))
        yield f"example {name}, listing of what is made", programs[program](made), listing.encode()
