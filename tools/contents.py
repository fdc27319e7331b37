"""What a file says, as numbers: the frame, its survivor sets and, with a run file behind the table, pattern numbers
and stops; or, of a fault list, the frame and its fault groups. Numbers stand as they are written, so a refused file has
contents too, as long as it is a row of whole records in their order. To bytes, from bytes, and the refusal that the
second program has for them.
"""

import sys
from dataclasses import dataclass, field, replace
from pathlib import Path
from typing import NamedTuple, Optional

sys.path.insert(0, str(Path(__file__).resolve().parent.parent / "reference"))

import regdulyn  # noqa: E402
from regdulyn.masks import bit  # noqa: E402
from regdulyn.records import (CRASH, END, FAULT, FRAME, MASK_WIDTH, PATTERN_WIDTH, PROPOSAL,  # noqa: E402
                              PROPOSAL_WIDTHS, SURVIVOR, number)
from regdulyn.tables import list_file  # noqa: E402


class Place(NamedTuple):
    """Where a part of the contents stands: the word of its line, and which line of that word, from 0; with `patterns`
    which of its numbers, and where there are no more of them what stands behind the last."""

    word: str
    index: int = 0


class Stop(NamedTuple):
    drive: int
    round: int
    sends: int


@dataclass
class Contents:
    """`drives` is None where a text gives no number. `patterns` has the pattern numbers by drive, rising; it is None
    where no run file stands behind the table, or a text has stops and no line `patterns`. A fault list has `faults` in
    place of all but `drives`."""

    drives: Optional[int] = None
    sets: list[int] = field(default_factory=list)
    patterns: Optional[dict[int, int]] = None
    stops: list[Stop] = field(default_factory=list)
    faults: list[int] = field(default_factory=list)

    @property
    def kind(self) -> str:
        """The program that reads the file."""
        if self.faults:
            return "convert"
        return "table" if self.patterns is None and not self.stops else "run"


def of_core(contents: Contents) -> Contents:
    """The same without the pattern numbers of listeners; as it is where the table is refused."""
    if contents.patterns is None:
        return contents
    try:
        core = regdulyn.chosen_core(contents.drives, contents.sets)
    except regdulyn.Refusal:
        return contents
    kept = {drive: value for drive, value in contents.patterns.items()
            if core & bit(drive) or drive > contents.drives}
    return replace(contents, patterns=kept)


# To bytes

def table_bytes(contents: Contents) -> bytes:
    """The records of the table, numbers as they stand."""
    return list_file(contents.drives, SURVIVOR, contents.sets)


def file_bytes(contents: Contents) -> bytes:
    """The records of the whole file, numbers as they stand: a PW for each pattern number."""
    if contents.kind == "convert":
        return list_file(contents.drives, FAULT, contents.faults)
    if contents.kind == "table":
        return table_bytes(contents)
    patterns = b"".join(PROPOSAL + bytes([drive]) + value.to_bytes(PATTERN_WIDTH, "little")
                        for drive, value in (contents.patterns or {}).items())
    stops = b"".join(CRASH + bytes(stop) for stop in contents.stops)
    return table_bytes(contents) + patterns + stops + END + bytes([len(contents.stops)])


# From bytes

class Unreadable(Exception):
    """The bytes are no row of records: from which byte on, counted from 0, and why."""

    def __init__(self, offset: int, why: str):
        super().__init__(why)
        self.offset = offset
        self.why = why


class Scanner:
    """Takes records off the left and knows where it stands."""

    def __init__(self, data: bytes):
        self.data = data
        self.offset = 0

    def mark(self, *due: bytes) -> bytes:
        """The next mark, which must be one of those due."""
        found = self.data[self.offset:self.offset + 2]
        if found not in due:
            names = " or ".join(mark.decode() for mark in due)
            here = "the file ends" if not found else f"there is {shown_bytes(found)}"
            raise Unreadable(self.offset, f"{names} is due, and {here}")
        self.offset += 2
        return found

    def fields(self, *widths: int) -> list[int]:
        """The fields behind a mark."""
        if len(self.data) < self.offset + sum(widths):
            mark = self.data[self.offset - 2:self.offset].decode()
            raise Unreadable(self.offset - 2, f"{mark} is cut: {sum(widths)} bytes are due behind it, and there are"
                             f" {len(self.data) - self.offset}")
        values = []
        for width in widths:
            values.append(number(self.data[self.offset:self.offset + width]))
            self.offset += width
        return values

    def count(self, records: int, mark: bytes) -> None:
        """The count behind EN."""
        start = self.offset - 2
        [count] = self.fields(1)
        if count != records:
            raise Unreadable(start, f"EN counts {count}, and there are {records} {mark.decode()}")

    def end(self, what: str) -> None:
        """Nothing may stand behind this."""
        if self.offset < len(self.data):
            raise Unreadable(self.offset, f"the {what} has ended, and bytes follow")


def shown_bytes(found: bytes) -> str:
    """Bytes as a reader can recognise them."""
    text = found.decode("ascii", "replace")
    return text if text.isprintable() and text.isascii() and " " not in text else "hex " + found.hex(" ")


def file_contents(data: bytes) -> tuple[Contents, dict[Place, int]]:
    """The contents of a file, and at which byte each part stands; Unreadable if it is no row of records."""
    scanner, contents, offsets = Scanner(data), Contents(), {}
    scanner.mark(FRAME)
    [contents.drives] = scanner.fields(1)
    offsets[Place("drives")] = 0
    due = (SURVIVOR, FAULT, END)
    while (mark := scanner.mark(*due)) != END:
        word, masks = ("set", contents.sets) if mark == SURVIVOR else ("fault", contents.faults)
        due = (mark, END)
        offsets[Place(word, len(masks))] = scanner.offset - 2
        masks += scanner.fields(MASK_WIDTH)
    if contents.faults:
        scanner.count(len(contents.faults), FAULT)
        scanner.end("fault list")
        return contents, offsets
    scanner.count(len(contents.sets), SURVIVOR)
    if scanner.offset < len(data):
        _run_contents(scanner, contents, offsets)
    return contents, offsets


def is_fault_list(data: bytes) -> bool:
    """Whether a file starts as a fault list does."""
    return data[:2] == FRAME and data[3:5] == FAULT


def starts_run(rest: bytes) -> bool:
    """Whether what stands behind a table starts as a run file does."""
    return rest[:2] in (*PROPOSAL_WIDTHS, CRASH, END)


def _run_contents(scanner: Scanner, contents: Contents, offsets: dict[Place, int]) -> None:
    start = scanner.offset
    if not starts_run(scanner.data[start:]):
        raise Unreadable(start, f"the table has ended, and what follows starts no run file:"
                         f" {shown_bytes(scanner.data[start:start + 2])}")
    offsets[Place("patterns")] = start
    contents.patterns = {}
    last, due = 0, (*PROPOSAL_WIDTHS, CRASH, END)
    while (mark := scanner.mark(*due)) != END:
        at = scanner.offset - 2
        if mark in PROPOSAL_WIDTHS:
            drive, value = scanner.fields(1, PROPOSAL_WIDTHS[mark])
            if drive <= last:
                raise Unreadable(at, f"{mark.decode()} of drive {drive}, and a drive above {last} is due")
            contents.patterns[drive] = value
            offsets[Place("patterns", len(contents.patterns))] = scanner.offset
            last = drive
        else:
            due = (CRASH, END)
            offsets[Place("stop", len(contents.stops))] = at
            contents.stops.append(Stop(*scanner.fields(1, 1, 1)))
    scanner.count(len(contents.stops), CRASH)
    scanner.end("run file")


def kind_of(data: bytes) -> str:
    """The program that a file is for: run where a run file starts behind its table, convert for a fault list."""
    if is_fault_list(data):
        return "convert"
    scanner = Scanner(data)
    try:
        scanner.mark(FRAME)
        scanner.fields(1)
        while scanner.mark(SURVIVOR, END) == SURVIVOR:
            scanner.fields(MASK_WIDTH)
        scanner.fields(1)
    except Unreadable:
        return "table"
    return "run" if starts_run(data[scanner.offset:]) else "table"


# The second program's answer

PROGRAMS = {"table": regdulyn.table_program, "run": regdulyn.run_program, "convert": regdulyn.convert_program,
            "threshold": regdulyn.threshold_program}


def listing(kind: str, data: bytes) -> bytes:
    """What the second program of a kind, table, run, convert or threshold, prints for its input."""
    return PROGRAMS[kind](data)


def refusal_of(kind: str, data: bytes) -> int:
    """The number with which the second program of a kind refuses a file, 0 if it does not."""
    try:
        if kind == "convert" and is_fault_list(data):
            regdulyn.read_faults(data)
        elif kind != "run":
            regdulyn.read_table(data)
        else:
            n, sets, rest = regdulyn.read_table_with_rest(data)
            regdulyn.read_run(rest, n, sets)
    except regdulyn.Refusal as refusal:
        return refusal.number
    return 0


def refusal_in(printed: bytes) -> int:
    """The number of a refusal that was printed, 0 for a listing."""
    return int(printed.split()[1]) if printed.startswith(b"refused ") else 0


# Words

def counted(count: int, what: str) -> str:
    """A number of things."""
    return f"{count} {what}" if count == 1 else f"{count} {what}s"


def drive_list(numbers: tuple[int, ...]) -> str:
    """Drives by number."""
    if not numbers:
        return "no drive"
    return ("drive " if len(numbers) == 1 else "drives ") + " ".join(map(str, numbers))
