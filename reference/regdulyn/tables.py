"""Survivor tables: the normal table, cores, the way back, reader and writer.

A call given n and sets meets 3, 2, 5, then 4 set by set, then 13. A file is
judged left to right, so the same table with two faults may meet another
number as a file. A fault list is read, checked and written by the same functions,
with another mark and another check of a mask.
"""

from dataclasses import dataclass
from functools import lru_cache
from typing import Callable, Sequence

from .hitting import minimal_hitting_sets
from .masks import MAX_DRIVES, all_drives, drives, is_part, size, smallest
from .records import END, FRAME, MASK_WIDTH, SURVIVOR, Reader, field, fill, number
from .refusals import Refusal

MAX_SETS = 128
MAX_CORES = 1024


# What a table means

def core_order(core: int) -> tuple[int, tuple[int, ...]]:
    """Cores are ordered by size; those of one size by their drives, rising and compared left to
    right, so that the lowest drive that only one of the two holds decides (document 02, request vii)."""
    return size(core), drives(core)


def first_missed(sets: Sequence[int], group: int) -> int | None:
    """The position, from 1, of the first of the sets that the group misses."""
    return next((place for place, mask in enumerate(sets, 1) if not mask & group), None)


@dataclass(frozen=True)
class Table:
    """The normal table of an accepted list of sets, and its cores in order."""

    normal: tuple[int, ...]
    cores: tuple[int, ...]


@lru_cache(maxsize=64)
def derive(sets: tuple[int, ...]) -> Table:
    """Normal table and cores of sets that meet no earlier refusal; 13."""
    normal = tuple(smallest(sets))
    found = minimal_hitting_sets(normal, MAX_CORES)
    if len(found) > MAX_CORES:
        raise Refusal(13)
    return Table(normal, tuple(sorted(found, key=core_order)))


# Refusals of calls

def check_drives(n: int) -> None:
    """3: n outside 1 to 64."""
    if not 1 <= n <= MAX_DRIVES:
        raise Refusal(3)


def check_mask(n: int, mask: int) -> None:
    """4: a set or group that is zero or has a bit above n."""
    if mask == 0 or not is_part(mask, all_drives(n)):
        raise Refusal(4)


def check_list(n: int, listed: Sequence[int], check: Callable[[int, int], None]) -> None:
    """3, 2, 5, then what each mask is refused with, one after the other."""
    check_drives(n)
    if not listed:
        raise Refusal(2)
    if len(listed) > MAX_SETS:
        raise Refusal(5)
    for mask in listed:
        check(n, mask)


def accept(n: int, sets: Sequence[int]) -> Table:
    """The table of a call given n and sets: 3, 2, 5, 4 set by set, 13."""
    check_list(n, sets, check_mask)
    return derive(tuple(sets))


# Calls

def normal_table(n: int, sets: Sequence[int]) -> list[int]:
    """The sets without repeats and without those that hold another, by mask."""
    return list(accept(n, sets).normal)


def cores(n: int, sets: Sequence[int]) -> list[int]:
    """The smallest groups that meet every survivor set, in core order."""
    return list(accept(n, sets).cores)


def chosen_core(n: int, sets: Sequence[int]) -> int:
    """The first core."""
    return accept(n, sets).cores[0]


def missed_set(n: int, sets: Sequence[int], group: int) -> int | None:
    """The position, from 1, of the first set of the normal table that the group
    misses; none where it meets them all."""
    table = accept(n, sets)
    check_mask(n, group)
    return first_missed(table.normal, group)


def back(n: int, groups: Sequence[int]) -> list[int]:
    """The smallest groups that meet each of the groups handed in, by mask."""
    check_drives(n)
    if not 1 <= len(groups) <= MAX_CORES:
        raise Refusal(13)
    for mask in groups:
        check_mask(n, mask)
    found = minimal_hitting_sets(smallest(groups), MAX_SETS)
    if len(found) > MAX_SETS:
        raise Refusal(5)
    return sorted(found)


# Files

def list_file(n: int, kind: bytes, masks: Sequence[int]) -> bytes:
    """FR, a record of this kind for each mask, EN."""
    records = [kind + field(mask, MASK_WIDTH) for mask in masks]
    return FRAME + field(n, 1) + b"".join(records) + END + field(len(masks), 1)


def write_table(n: int, sets: Sequence[int]) -> bytes:
    """The normal table as a file."""
    return list_file(n, SURVIVOR, normal_table(n, sets))


def write_table_into(buffer: bytearray, start: int, n: int, sets: Sequence[int]) -> int:
    """Writes the file from `start` on; returns the place after it."""
    return fill(buffer, start, write_table(n, sets))


def read_table(data: bytes) -> tuple[int, list[int]]:
    """n and the normal table of a file that holds nothing else."""
    reader = Reader(data)
    n, listed = read_list(reader, SURVIVOR, check_mask)
    reader.end()
    return n, list(derive(tuple(listed)).normal)


def read_table_with_rest(data: bytes) -> tuple[int, list[int], bytes]:
    """n, the normal table, and the bytes after EN."""
    reader = Reader(data)
    n, listed = read_list(reader, SURVIVOR, check_mask)
    return n, list(derive(tuple(listed)).normal), reader.rest


def read_list(reader: Reader, kind: bytes,
              check: Callable[[int, int], None]) -> tuple[int, list[int]]:
    """n and the masks of FR, 1 to 128 records of this kind, EN, as listed; `check`
    refuses a mask. Stops behind EN."""
    reader.mark(FRAME)
    n = number(reader.take(1))
    check_drives(n)
    listed: list[int] = []
    while True:
        # EN straight after FR is a known mark in the wrong place.
        due = (kind, END) if listed else (kind,)
        if reader.mark(*due) == END:
            break
        mask = number(reader.take(MASK_WIDTH))
        if len(listed) == MAX_SETS:
            raise Refusal(5)
        check(n, mask)
        listed.append(mask)
    if number(reader.take(1)) != len(listed):
        raise Refusal(6)
    return n, listed
