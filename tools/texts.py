"""Text to contents and back: the words that `make` reads and `show` prints.

The canonical text has, in this order, a line `refused N` where the library refuses the file, `drives N`, one line `set
MASK` for each set as the file lists them, and with a run file `patterns` and one line `stop D R S` for each stop; that
of a fault list one line `fault MASK` for each fault group in place of all behind `drives`. Numbers have no leading
zeros, masks are in lower case, words are one space apart, and there are no comments; - stands for a drive without a
pattern number in front of one that has it. Whether a number stood in a PR or in a PW is not said; what is made has PW.
A listener's number is made only where a line `refused` stands: so the text of a file that is not refused is canonical
only if no listener has a number in it.
"""

import re
from typing import Callable, Iterator, NamedTuple, Optional

import contents as model
import mistakes
from contents import Contents, Place, Stop
from failures import OF_FILES
from regdulyn.masks import MAX_DRIVES, mask_of
from regdulyn.records import PATTERN_WIDTH

WORDS = """\
    drives 6              the number of drives
    set 1                 a survivor set as a mask; one line for each set
    set 2
    members 3 4 5 6       a survivor set by drive numbers: the same as set 3c
    patterns 7 5 9        the pattern numbers of drives 1, 2, ..; with this line a run file stands behind the table
    stop 2 1 1            a stop: drive, round, and the sends that it still makes in that round; by rising drive

for a fault list, in place of all these but drives,

    fault 3               a fault group, the drives that can fail together, as a mask; one line for each group
    failing 1 2           a fault group by drive numbers: the same as fault 3; with no number the group of no drive

and, in a text whose file is meant to be refused, as a test of the refusal, `refused 3` with the number.

Masks are hexadecimal, bit 0 (value 1) is drive 1; all other numbers are decimal. Pattern numbers are 0 to 4294967295.
Each drive that talks, which is each of the chosen core, needs one; - stands for a drive without one, and may be left
out behind the last number. # starts a comment. The lines stand in any order; sets, groups and stops keep theirs."""

LARGEST_PATTERN = 256 ** PATTERN_WIDTH - 1


class Wrong(Exception):
    """What is wrong with a line."""


class Text(NamedTuple):
    """What a text says, the line of each part, the number it is meant to be refused with, and how many places its line
    `patterns` has, numbers and -."""

    contents: Contents
    lines: dict[Place, int]
    refused: Optional[int]
    places: int


# Numbers

def whole_number(word: str, what: str, low: int, high: int, base: int = 10, allowed: str = "") -> int:
    """A number from low to high, of which the library takes those allowed."""
    digits, kind, highest = (("0-9", "decimal number", str(high)) if base == 10 else
                             ("0-9a-fA-F", "hexadecimal number", f"{high:x}"))
    shown = word if len(word) <= 24 else word[:20] + ".."
    if not re.fullmatch(f"[{digits}]+", word):
        raise Wrong(f"{what} is {shown!r}, which is no {kind}")
    # the length first, so that no one waits for a number of a million digits
    if len(word.lstrip("0")) > 20 or not low <= int(word, base) <= high:
        raise Wrong(f"{what} is {shown}, and can be {allowed or f'{low} to {highest}'}")
    return int(word, base)


def exactly(values: list[str], count: int, what: str) -> None:
    if len(values) != count:
        here = "is 1" if len(values) == 1 else f"are {len(values)}"
        raise Wrong(f"{what} takes {model.counted(count, 'number')}, and here {here}")


# Lines, by their first word

def _drives(text: Contents, values: list[str]) -> Place:
    exactly(values, 1, "drives")
    text.drives = whole_number(values[0], "the number of drives", 0, 255, allowed=f"1 to {MAX_DRIVES}")
    return Place("drives")


def _add(masks: list[int], mask: int, word: str, what: str) -> Place:
    if len(masks) == 255:
        raise Wrong(f"more than 255 {what}s, which EN cannot count")
    masks.append(mask)
    return Place(word, len(masks) - 1)


def _mask(values: list[str], word: str) -> int:
    exactly(values, 1, word)
    return whole_number(re.sub("^0[xX](?=.)", "", values[0]), "the mask", 0, 2 ** 64 - 1, 16)


def _drive_mask(values: list[str]) -> int:
    numbers = [whole_number(value, "a drive", 1, MAX_DRIVES) for value in values]
    twice = sorted({drive for drive in numbers if numbers.count(drive) > 1})
    if twice:
        raise Wrong(f"{model.drive_list(tuple(twice))} more than once")
    return mask_of(numbers)


def _set(text: Contents, values: list[str]) -> Place:
    return _add(text.sets, _mask(values, "set"), "set", "set")


def _members(text: Contents, values: list[str]) -> Place:
    if not values:
        raise Wrong("members takes one number or more, and here are none")
    return _add(text.sets, _drive_mask(values), "set", "set")


def _fault(text: Contents, values: list[str]) -> Place:
    return _add(text.faults, _mask(values, "fault"), "fault", "fault group")


def _failing(text: Contents, values: list[str]) -> Place:
    return _add(text.faults, _drive_mask(values), "fault", "fault group")


def _patterns(text: Contents, values: list[str]) -> Place:
    # a line with a mistake is a line
    text.patterns = {}
    if len(values) > 255:
        raise Wrong("more than 255 pattern numbers, which PW cannot number")
    text.patterns = {drive: whole_number(value, f"the pattern number of drive {drive}", 0, LARGEST_PATTERN)
                     for drive, value in enumerate(values, start=1) if value != "-"}
    return Place("patterns")


def _stop(text: Contents, values: list[str]) -> Place:
    exactly(values, 3, "stop")
    up_to = f"1 to {MAX_DRIVES}"
    fields = (("drive", up_to), ("round", up_to), ("number of sends", f"0 to {MAX_DRIVES - 1}"))
    stop = Stop(*(whole_number(value, f"the {name}", 0, 255, allowed=allowed)
                  for (name, allowed), value in zip(fields, values)))
    if len(text.stops) == 255:
        raise Wrong("more than 255 stops, which EN cannot count")
    text.stops.append(stop)
    return Place("stop", len(text.stops) - 1)


LINES: dict[str, Callable[[Contents, list[str]], Place]] = {
    "drives": _drives, "set": _set, "members": _members, "patterns": _patterns, "stop": _stop, "fault": _fault,
    "failing": _failing,
}

# The words of one kind of file alone.
OF_TABLES = ("set", "members", "patterns", "stop")
OF_FAULT_LISTS = ("fault", "failing")


def one_kind(word: str, seen: dict[str, int]) -> None:
    """Whether a word goes with those before it: the first that only tables or only fault lists have settles which the
    text is of."""
    others = OF_FAULT_LISTS if word in OF_TABLES else OF_TABLES if word in OF_FAULT_LISTS else ()
    other = min((other for other in others if other in seen), key=seen.get, default="")
    if other:
        raise Wrong(f"{word} beside {other} of line {seen[other]}; a fault list has no set, members, patterns or stop")


def _refused(values: list[str]) -> int:
    exactly(values, 1, "refused")
    number = whole_number(values[0], "the refusal", 1, 255)
    if number not in OF_FILES:
        raise Wrong(f"no file is refused with {number}")
    return number


# Text to contents

def looks_like(data: bytes) -> bool:
    """Whether some bytes begin as a text does: with a word, perhaps behind comments."""
    lines = (line.split(b"#")[0].split() for line in data[:4096].splitlines())
    first = next((words[0] for words in lines if words), b"")
    return first.decode("ascii", "replace") in (*LINES, "refused")


ONCE = ("refused", "drives", "patterns")


def read_text(text: str) -> tuple[Text, list[tuple[int, str]]]:
    """What a text says, and the mistakes in its lines: line, from 1, and message."""
    contents, lines, refused, wrong = Contents(), {}, None, []
    places = 0
    seen: dict[str, int] = {}
    rows = text.split("\n")
    for row, line in enumerate(rows, start=1):
        word, *values = line.split("#")[0].split() or [""]
        try:
            one_kind(word, seen)
            if seen.setdefault(word, row) != row and word in ONCE:
                raise Wrong(f"a second line {word}; the first is line {seen[word]}")
            if word == "refused":
                refused = _refused(values)
            elif word in LINES:
                lines[LINES[word](contents, values)] = row
                if word == "patterns":
                    places = len(values)
            elif word:
                raise Wrong(f"unknown word {word[:40]!r}; the words are {', '.join([*LINES, 'refused'])}")
        except Wrong as error:
            wrong.append((row, str(error)))
    last = len(rows) - 1 if len(rows) > 1 and not rows[-1] else len(rows)
    if "drives" not in seen:
        wrong.append((last, "no line drives"))
    # all pattern numbers stand in one line
    lines |= {Place("patterns", index): seen["patterns"] for index in range(1, places + 1)}
    lines.setdefault(Place("drives"), seen.get("drives", last))
    if refused is not None:
        lines[Place("refused")] = seen["refused"]
    return Text(contents, lines, refused, places), wrong


def place_mistakes(text: Text) -> Iterator[tuple[int, str]]:
    """A - behind the last number and above the number of drives: the file would not have it."""
    n = text.contents.drives
    if n is None or not 1 <= n <= MAX_DRIVES:
        return
    last = max([n, *(text.contents.patterns or ())])
    if text.places > last:
        yield text.lines[Place("patterns")], f"a - for drive {last + 1}, and there are drives 1 to {n}"


def text_mistakes(source: str) -> tuple[Optional[bytes], list[tuple[int, str]]]:
    """The bytes that a text makes, or none, and its mistakes: line and message, by line. A file that is meant to be
    refused has the numbers of listeners that its text has: they may be what is refused."""
    text, wrong = read_text(source)
    found = [(text.lines[place], message) for place, message in mistakes.found_in(text.contents, whole=not wrong)]
    wrong += place_mistakes(text)
    if wrong:
        return None, by_line(wrong + found)
    data = model.file_bytes(text.contents if text.refused is not None else model.of_core(text.contents))
    number = model.refusal_of(text.contents.kind, data)
    if number == (text.refused or 0):
        return data, []
    if text.refused is not None:
        how = f"refused with {number}: {OF_FILES[number]}" if number else "not refused"
        found.append((text.lines[Place("refused")], f"refused {text.refused}, and the file is {how}"))
    return None, by_line(found)


def by_line(found: list[tuple[int, str]]) -> list[tuple[int, str]]:
    """Mistakes in the order of their lines; those of one line keep theirs."""
    return sorted(found, key=lambda mistake: mistake[0])


# Contents to text

def canonical_text(contents: Contents, refused: int) -> str:
    """The text of contents that the library refuses with a number, or accepts if it is 0."""
    return "".join(line + "\n" for line in _canonical_lines(contents, refused))


def _canonical_lines(contents: Contents, refused: int) -> Iterator[str]:
    if refused:
        yield f"refused {refused}"
    yield f"drives {contents.drives}"
    yield from (f"set {mask:x}" for mask in contents.sets)
    yield from (f"fault {mask:x}" for mask in contents.faults)
    if contents.patterns is not None:
        numbers = (contents.patterns.get(drive, "-") for drive in range(1, max(contents.patterns, default=0) + 1))
        yield " ".join(["patterns", *map(str, numbers)])
        yield from ("stop %d %d %d" % stop for stop in contents.stops)
