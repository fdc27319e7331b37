"""Records, tables, fault lists and run files as bytes, with no check at all.

Separate from the reference's writer, since the generator also needs files
that are wrong.
"""

import sys
from pathlib import Path

sys.path.insert(0, str(Path(__file__).resolve().parents[2] / "reference"))

from regdulyn import Crash  # noqa: E402

MARKS = (b"FR", b"SV", b"PR", b"PW", b"CR", b"EN", b"KN", b"KW", b"DC", b"DW", b"FL")
UNKNOWN_MARKS = (b"XX", b"fr", b"RF", b"VS", b"NE", b"\0\0", b"LF", b"BK", b"WK")

# How many pattern numbers the old records can have, and how many there are.
OLD_PATTERNS = 1 << 16
ALL_PATTERNS = 1 << 32

Records = list[bytes]


def frame(n: int) -> bytes:
    return b"FR" + bytes([n])


def survivor(mask: int) -> bytes:
    return b"SV" + mask.to_bytes(8, "little")


def fault(mask: int) -> bytes:
    return b"FL" + mask.to_bytes(8, "little")


def proposal(drive: int, pattern: int, wide: bool = False) -> bytes:
    """A PW where it is asked for, or the number needs it; else a PR."""
    if wide or pattern >= OLD_PATTERNS:
        return b"PW" + bytes([drive]) + pattern.to_bytes(4, "little")
    return b"PR" + bytes([drive]) + pattern.to_bytes(2, "little")


def crash(drive: int, round_number: int, sends: int) -> bytes:
    return b"CR" + bytes([drive, round_number, sends])


def end(count: int) -> bytes:
    return b"EN" + bytes([count % 256])


def table_records(n: int, sets: list[int]) -> Records:
    return [frame(n), *map(survivor, sets), end(len(sets))]


def table(n: int, sets: list[int]) -> bytes:
    return b"".join(table_records(n, sets))


def fault_records(n: int, groups: list[int]) -> Records:
    return [frame(n), *map(fault, groups), end(len(groups))]


def fault_list(n: int, groups: list[int]) -> bytes:
    return b"".join(fault_records(n, groups))


def run_records(proposals: list[int], crashes: list[Crash], wide: int = 0,
                left_out: int = 0) -> Records:
    """`wide` is the set of the drives that have a PW whatever their number, and `left_out` that
    of the drives without a record."""
    return [*(proposal(d, p, wide >> d - 1 & 1 == 1) for d, p in enumerate(proposals, start=1)
              if not left_out >> d - 1 & 1),
            *(crash(c.drive, c.round, c.sends) for c in crashes),
            end(len(crashes))]


def run(proposals: list[int], crashes: list[Crash], wide: int = 0, left_out: int = 0) -> bytes:
    return b"".join(run_records(proposals, crashes, wide, left_out))


PROPOSAL_MARKS = (b"PR", b"PW")
WIDTHS = {b"FR": 1, b"SV": 8, b"FL": 8, b"PR": 3, b"PW": 5, b"CR": 3, b"EN": 1}


def file_records(data: bytes) -> Records:
    """The records of a file that has nothing but whole ones."""
    found, at = [], 0
    while at < len(data):
        end_of = at + 2 + WIDTHS[data[at:at + 2]]
        found.append(data[at:end_of])
        at = end_of
    return found


def widened(data: bytes, kept: int = -1) -> bytes:
    """A file of whole records with a PW in place of each PR, and none for a drive that is not
    among those kept."""
    made = b""
    for record in file_records(data):
        if record[:2] not in PROPOSAL_MARKS:
            made += record
        elif kept >> record[2] - 1 & 1:
            made += b"PW" + (record[2:] + b"\0\0")[:5]
    return made
