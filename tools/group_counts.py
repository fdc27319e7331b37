"""Prints crates/threshold/src/group_counts.rt: the numbers of groups of t out of n drives, for n and t from 0 to 64,
held at 1025, as many on a line as it has room for, as `rt fmt` lays out a long list. With --check it prints nothing,
and says where the file differs, with exit status 1.
"""

import sys
import textwrap
from itertools import chain, zip_longest
from pathlib import Path

ROOT = Path(__file__).resolve().parent.parent
SOURCE = "crates/threshold/src/group_counts.rt"
MOST = 64
HELD = 1025
# The longest line of numbers that `rt fmt` makes.
WIDTH = 99

HEAD = f"""\
// The numbers of groups of t out of n drives, for n and t from 0 to {MOST}, held at {HELD}, at place {MOST + 1} n + t. Row 0 is 1 and
// then zeros, each row starts with 1, each other entry is the sum of the one above and that one's left neighbour.
// Printed by tools/group_counts.py.
pub(crate) const GROUP_COUNTS: [u16; {(MOST + 1) ** 2}] = ["""


def rows() -> list[list[int]]:
    """The numbers for n from 0 to 64, each row for t from 0 to 64."""
    made = [[1] + [0] * MOST]
    for _ in range(MOST):
        above = made[-1]
        made.append([1] + [min(here + left, HELD) for left, here in zip(above, above[1:])])
    return made


def source_lines() -> list[str]:
    entries = " ".join(f"{entry}," for entry in chain(*rows()))
    indent = " " * 4
    return [*HEAD.splitlines(), *textwrap.wrap(entries, WIDTH, initial_indent=indent, subsequent_indent=indent), "];"]


def main(words: list[str]) -> int:
    if not words:
        print("\n".join(source_lines()))
        return 0
    if words != ["--check"]:
        print("group_counts: the only word is --check", file=sys.stderr)
        return 2
    found = (ROOT / SOURCE).read_text().splitlines()
    for number, (due, line) in enumerate(zip_longest(source_lines(), found), start=1):
        if line != due:
            print(f"group_counts: {SOURCE}:{number}: {due!r} is due, and here is {line!r}")
            return 1
    return 0


if __name__ == "__main__":
    sys.exit(main(sys.argv[1:]))
