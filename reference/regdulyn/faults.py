"""Fault lists: the groups of drives that can fail together, each the frame without a
survivor set (document 02, request vi). Reader, writer, and the way to a table and
from one.

A call given n and groups meets 3, 2, 5, then 4 and 34 group by group, then 13.
"""

from typing import Iterable, Sequence

from .masks import all_drives, is_part, largest
from .records import FAULT, Reader, fill
from .refusals import Refusal
from .tables import Table, check_list, derive, list_file, normal_table, read_list


def check_group(n: int, mask: int) -> None:
    """4: a bit above n; then 34: all n drives."""
    if not is_part(mask, all_drives(n)):
        raise Refusal(4)
    if mask == all_drives(n):
        raise Refusal(34)


def _rests(n: int, masks: Iterable[int]) -> tuple[int, ...]:
    """Of each set of drives the rest of the frame."""
    return tuple(all_drives(n) & ~mask for mask in masks)


def _accept(n: int, groups: Sequence[int]) -> Table:
    """The table of a call given n and groups: 3, 2, 5, 4 and 34 group by group, 13."""
    check_list(n, groups, check_group)
    return derive(_rests(n, groups))


# Conversions

def table_from_faults(n: int, groups: Sequence[int]) -> list[int]:
    """The normal table whose survivor sets are the rests of the groups."""
    return list(_accept(n, groups).normal)


def faults_from_table(n: int, sets: Sequence[int]) -> list[int]:
    """The largest fault groups of the table, by mask; the table's refusals."""
    return largest(_rests(n, normal_table(n, sets)))


# Files

def write_faults(n: int, groups: Sequence[int]) -> bytes:
    """The fault list of the largest groups, by mask, as a file."""
    _accept(n, groups)
    return list_file(n, FAULT, largest(groups))


def write_faults_into(buffer: bytearray, start: int, n: int, groups: Sequence[int]) -> int:
    """Writes the file from `start` on; returns the place after it."""
    return fill(buffer, start, write_faults(n, groups))


def read_faults(data: bytes) -> tuple[int, list[int]]:
    """n and the largest groups, by mask, of a file that holds nothing else."""
    reader = Reader(data)
    n, listed = read_list(reader, FAULT, check_group)
    reader.end()
    derive(_rests(n, listed))
    return n, largest(listed)
