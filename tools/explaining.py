"""A file in words, for who reads it against the wiring: each survivor set and core by drive numbers, whether the sets
are all groups of one size, which sets the normal table drops, which drives stand in no set, and which drives talk; of a
fault list first its fault groups, and which of them it drops; and which set some drives miss.

Sets kept, cores and the chosen core are taken from the table's listing, and the fault groups kept are the rest of the
frame for each of these sets; which of the sets some drives miss is found by the second program's test.
"""

from math import comb
from typing import Callable, Iterator

from contents import Contents, counted, drive_list
from regdulyn.masks import all_drives, bit, drives, is_part, mask_of, size
from regdulyn.tables import first_missed


def listed(printed: bytes, word: str) -> list[int]:
    """The masks of a listing's lines that start with a word."""
    lines = (line.split() for line in printed.decode("ascii").splitlines())
    return [int(line[1], 16) for line in lines if line[0] == word]


def numbers(mask: int) -> str:
    """The drives of a set, or none."""
    return " ".join(map(str, drives(mask))) or "none"


def refused_lines(contents: Contents) -> Iterator[str]:
    """The sets or fault groups of a file that is refused, as they are listed."""
    for mask in contents.sets or contents.faults:
        above = mask & ~all_drives(contents.drives)
        wrong = f", and {drive_list(drives(above))} above the number of drives" if above else ""
        yield f"{'set' if contents.sets else 'fault'} {mask:x}: {drive_list(drives(mask))}{wrong}"


def table_lines(contents: Contents, printed: bytes) -> Iterator[str]:
    """The table in words, from the file and its listing; of a fault list its groups first, then the table that it
    converts to."""
    kept, cores, [chosen] = listed(printed, "set"), listed(printed, "core"), listed(printed, "chosen")
    frame = all_drives(contents.drives)
    yield f"drives: {numbers(frame)}"
    yield ""
    if contents.faults:
        yield from fault_lines(contents.faults, sorted(frame & ~mask for mask in kept))
        yield f"drives in no fault group, and so in every survivor set: {numbers(frame & ~union(contents.faults))}"
        yield ""
    yield f"survivor sets: {len(kept)}"
    yield from (f"  set {mask:x}: {drive_list(drives(mask))}" for mask in kept)
    yield from threshold_lines(contents.drives, kept)
    if not contents.faults:
        dropped = list(dropped_lines("set", contents.sets, kept, held_set))
        yield f"sets that the table drops: {len(dropped) or 'none'}"
        yield from dropped
    yield f"drives in no survivor set, and so in no core: {numbers(frame & ~union(kept))}"
    yield ""
    yield f"cores: {len(cores)}"
    for mask in cores:
        yield f"  core {mask:x}: {drive_list(drives(mask))}{', the chosen one' if mask == chosen else ''}"
    yield f"drives that talk, the chosen core: {numbers(chosen)}"
    yield f"drives that listen: {numbers(frame & ~chosen)}"


def fault_lines(faults: list[int], kept: list[int]) -> Iterator[str]:
    """The largest fault groups, and those that the fault list drops."""
    yield f"fault groups, each of drives that can fail together: {len(kept)}"
    yield from (f"  fault {mask:x}: {drive_list(drives(mask))}" for mask in kept)
    dropped = list(dropped_lines("fault", faults, kept, larger_group))
    yield f"fault groups that the list drops: {len(dropped) or 'none'}"
    yield from dropped


def threshold_lines(n: int, kept: list[int]) -> Iterator[str]:
    """One line where the sets are all groups of one size, smaller than the frame."""
    stay = size(kept[0])
    if stay < n and len(kept) == comb(n, stay) and all(size(mask) == stay for mask in kept):
        yield f"these are all groups of {counted(stay, 'drive')}: at most {n - stay} of the {n} drives may drop out"


def union(masks: list[int]) -> int:
    total = 0
    for mask in masks:
        total |= mask
    return total


def held_set(mask: int, kept: list[int]) -> str:
    return f"it holds set {next(small for small in kept if is_part(small, mask)):x}"


def larger_group(mask: int, kept: list[int]) -> str:
    return f"it is within fault {next(large for large in kept if is_part(mask, large)):x}"


def dropped_lines(word: str, masks: list[int], kept: list[int],
                  reason: Callable[[int, list[int]], str]) -> Iterator[str]:
    """The sets or fault groups of the file that are not kept, with the reason; a kept one is there once."""
    seen: set[int] = set()
    for place, mask in enumerate(masks, start=1):
        if mask in seen or mask not in kept:
            why = "a repeat" if mask in seen else reason(mask, kept)
            yield f"  {word} {mask:x}, the file's number {place}: {drive_list(drives(mask))}; {why}"
        seen.add(mask)


def missed_line(printed: bytes, given: list[int]) -> str:
    """The first set of a table's listing with none of these drives, by its position, or a core that they hold; empty
    where one of them is no drive of the frame."""
    if not all(1 <= drive <= int(printed.split()[1]) for drive in given):
        return ""
    sets, group = listed(printed, "set"), mask_of(given)
    position = first_missed(sets, group)
    if position:
        mask = sets[position - 1]
        return f"missed {position}, set {mask:x}: {drive_list(drives(mask))}"
    core = next(mask for mask in listed(printed, "core") if is_part(mask, group))
    return f"none missed; the drives hold core {core:x}: {drive_list(drives(core))}"


def run_lines(contents: Contents, printed: bytes) -> Iterator[str]:
    """The run file in words, with its table's listing."""
    stops, [chosen] = {stop.drive: stop for stop in contents.stops}, listed(printed, "chosen")
    for drive in range(1, contents.drives + 1):
        stop, pattern = stops.get(drive), contents.patterns.get(drive)
        said = "no pattern number" if pattern is None else f"pattern number {pattern}"
        if not chosen & bit(drive):
            said = "listens" if pattern is None else f"listens ({said} is dropped)"
        end = "stays up" if stop is None else f"stops in round {stop.round} after {counted(stop.sends, 'send')}"
        yield f"  drive {drive}: {said}, {end}"
    untouched = [mask for mask in listed(printed, "set") if not mask & mask_of(stops)]
    yield f"survivor sets in which no drive stops: {', '.join(f'set {mask:x}' for mask in untouched) or 'none'}"
