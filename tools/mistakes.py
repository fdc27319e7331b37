"""What the library refuses in a file's contents: all of it and where, for who mends the file; the library itself gives
the first refusal alone."""

from bisect import bisect
from itertools import groupby
from typing import Iterator, NamedTuple, Optional

import regdulyn
from contents import Contents, Place, counted, drive_list
from regdulyn.masks import MAX_DRIVES, all_drives, bit, drives, mask_of, size
from regdulyn.tables import MAX_CORES, MAX_SETS, first_missed


class Mistake(NamedTuple):
    """What the library refuses, and where."""

    place: Place
    text: str


def found_in(contents: Contents, whole: bool = True) -> Iterator[Mistake]:
    """All that the library refuses in the contents, not only the first: none exactly if it accepts the file. Where
    the contents are not whole, what rests on the whole table is passed over."""
    n = contents.drives
    framed = n is not None and 1 <= n <= MAX_DRIVES
    if n is not None and not framed:
        yield Mistake(Place("drives"), f"{n} drives, and there are 1 to {MAX_DRIVES}")
    if contents.faults:
        yield from _fault_list_mistakes(contents.faults, n if framed else None, whole)
        return
    in_sets = list(_set_mistakes(contents, n if framed else MAX_DRIVES))
    yield from in_sets
    if whole and not contents.sets:
        yield Mistake(Place("drives"), f"no set, and a table has 1 to {MAX_SETS}")
    core = 0
    if whole and framed and contents.sets and not in_sets:
        try:
            core = regdulyn.chosen_core(n, contents.sets)
        except regdulyn.Refusal:
            last = Place("set", len(contents.sets) - 1)
            yield Mistake(last, f"with this set the table has more than {MAX_CORES} cores")
    if framed:
        yield from _run_mistakes(contents, n, core)


def _set_mistakes(contents: Contents, n: int) -> Iterator[Mistake]:
    for index, mask in enumerate(contents.sets):
        place = Place("set", index)
        if index == MAX_SETS:
            yield Mistake(place, f"set number {index + 1}, and a table has at most {MAX_SETS}")
        if mask == 0:
            yield Mistake(place, "the set is empty")
        yield from _above_mistakes(place, mask, n)


def _above_mistakes(place: Place, mask: int, n: int) -> Iterator[Mistake]:
    above = drives(mask & ~all_drives(n))
    if above:
        yield Mistake(place, f"{drive_list(above)} above the number of drives, {n}")


def _fault_list_mistakes(faults: list[int], n: Optional[int], whole: bool) -> Iterator[Mistake]:
    """`n` is none where it is not known."""
    in_groups = list(_group_mistakes(faults, n))
    yield from in_groups
    if whole and n is not None and not in_groups:
        try:
            regdulyn.table_from_faults(n, faults)
        except regdulyn.Refusal:
            yield Mistake(Place("fault", len(faults) - 1),
                          f"with this fault group the survivor sets have more than {MAX_CORES} cores")


def _group_mistakes(faults: list[int], n: Optional[int]) -> Iterator[Mistake]:
    for index, mask in enumerate(faults):
        place = Place("fault", index)
        if index == MAX_SETS:
            yield Mistake(place, f"fault group number {index + 1}, and a fault list has at most {MAX_SETS}")
        if n is not None:
            yield from _above_mistakes(place, mask, n)
            if mask == all_drives(n):
                yield Mistake(place, "the fault group has all drives of the frame")


def _pattern_mistakes(contents: Contents, n: int, core: int) -> Iterator[Mistake]:
    """Core drives without a number, where it would stand, and the first number of no drive."""
    if contents.patterns is None:
        if contents.stops:
            whose = f"a number for {drive_list(drives(core))} of the chosen core" if core else "numbers"
            yield Mistake(Place("stop"), f"no line patterns with {whose}")
        return
    given = list(contents.patterns)
    missing = (drive for drive in drives(core) if drive not in contents.patterns)
    for index, together in groupby(missing, lambda drive: bisect(given, drive)):
        yield Mistake(Place("patterns", index),
                      f"no pattern number for {drive_list(tuple(together))} of the chosen core")
    above = bisect(given, n)
    if above < len(given):
        yield Mistake(Place("patterns", above),
                      f"a pattern number for drive {given[above]}, and there are drives 1 to {n}")


def _run_mistakes(contents: Contents, n: int, core: int) -> Iterator[Mistake]:
    """`core` is 0 where it is not known."""
    yield from _pattern_mistakes(contents, n, core)
    last = 0
    for index, stop in enumerate(contents.stops):
        place = Place("stop", index)
        if not 1 <= stop.drive <= n:
            yield Mistake(place, f"drive {stop.drive}, and there are drives 1 to {n}")
            continue
        if stop.drive <= last:
            yield Mistake(place, f"drive {stop.drive} after drive {last}, and stops stand by rising drive")
        last = stop.drive
        if core and not 1 <= stop.round <= size(core):
            yield Mistake(place, f"round {stop.round}, and there are rounds 1 to {size(core)}, the chosen core's size")
        if core and stop.sends > (n - 1 if core & bit(stop.drive) else 0):
            yield Mistake(place, f"{counted(stop.sends, 'send')}, and drive {stop.drive} "
                          + (f"makes at most {n - 1}" if core & bit(stop.drive) else "listens and makes none"))
    stopped = mask_of(stop.drive for stop in contents.stops if 1 <= stop.drive <= n)
    if core and first_missed(contents.sets, stopped) is None:
        place = Place("stop", len(contents.stops) - 1)
        yield Mistake(place, "with this stop every survivor set has a drive that stops")
