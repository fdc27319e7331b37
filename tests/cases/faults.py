"""Fault lists: stated answers and refusals of the reader, the writer, both conversions and the convert
program; every short list of small frames against the plain definitions; there and back; and lists at
the limits."""

from itertools import chain, islice
from random import Random
from typing import Iterator

import plain
import regdulyn
from inputs import faults
from inputs.frames import (MAX_SETS, PAIRS, accepted_table, crowded_table, full, hard_frames,
                           normal_tables)
from inputs.records import fault_list, table

from . import Case, refusal
from .marked import ROOT, script


def shown(number: int) -> bytes:
    return b"refused %d\n" % number


# Stated answers

def fault_samples() -> Iterator[Case]:
    """Each stated pair both ways, in any order, through the calls and the program."""
    for n, sets, groups in faults.STATED:
        name = f"n {n} sets {sets}"
        for given in (sets, sets[::-1]):
            yield f"faults of {name}", regdulyn.faults_from_table(n, given), groups
            yield f"converted, {name}", regdulyn.convert_program(table(n, given)), fault_list(n, groups)
        for given in (groups, groups[::-1]):
            yield f"table back, {name}", regdulyn.table_from_faults(n, given), sets
            yield f"read, {name}", regdulyn.read_faults(fault_list(n, given)), (n, groups)
            yield f"written, {name}", regdulyn.write_faults(n, given), fault_list(n, groups)
            yield f"converted back, {name}", regdulyn.convert_program(fault_list(n, given)), table(n, sets)
    for n, listed, groups in faults.LISTED:
        name = f"n {n} groups {listed}"
        yield f"read, {name}", regdulyn.read_faults(fault_list(n, listed)), (n, groups)
        yield f"written, {name}", regdulyn.write_faults(n, listed), fault_list(n, groups)
        yield f"table of {name}", regdulyn.table_from_faults(n, listed), faults.rests(n, groups)[::-1]
    for data, due in ((table(4, [0xC, 7, 0xB, 0xF]), fault_list(4, [3, 4, 8])),
                      (fault_list(4, [8, 4, 3, 0]), table(4, [7, 0xB, 0xC])), (b"", shown(1)),
                      (fault_list(4, [0xF]), shown(34)), (table(4, [0x10]), shown(4))):
        yield f"script, {data.hex()}", script(ROOT / "reference" / "convert", data), (due, b"", 0)


# Refusals

def as_table(data: bytes) -> bool:
    """Whether the convert program reads a table: FL does not stand behind FR and n."""
    return data[3:5] != b"FL"


def fault_file_refusals() -> Iterator[Case]:
    for data, due in chain(faults.FILES, faults.wrong_marks(), faults.cuts()):
        yield f"list {data.hex()}", refusal(regdulyn.read_faults, data), due
        found = regdulyn.convert_program(data)
        if as_table(data):
            number = refusal(regdulyn.read_table, data)
            yield f"converted as a table, {data.hex()}", found == shown(number), number != 0
        else:
            yield f"converted, {data.hex()}", found == shown(due), due != 0
            as_mark = shown(due if due == 3 else 2)
            yield f"FL in a table, {data.hex()}", regdulyn.table_program(data), as_mark
            yield f"FL in a run's table, {data.hex()}", regdulyn.run_program(data), as_mark
    whole = table(4, [7, 0xB, 0xC])
    for length in range(len(whole)):
        yield f"table cut at {length}", regdulyn.convert_program(whole[:length]), shown(1)
    for data, due in ((whole + b"\0", 7), (whole[:-1] + b"\2\0", 6), (table(0, [1]), 3),
                      (table(4, [0]), 4), (table(4, [1] * 129), 5), (whole[:3] + b"EN\0", 2),
                      (whole[:13] + b"FL" + whole[15:], 2), (whole[:13] + b"FL", 2), (whole[:13] + b"F", 1),
                      (table(22, PAIRS), 13), (table(22, PAIRS) + b"\0", 7),
                      (b"XX\4FL", 2), (b"FR\0FL", 3), (b"SV\4FL", 2)):
        yield f"converted, {data.hex()}", regdulyn.convert_program(data), shown(due)


def fault_call_refusals() -> Iterator[Case]:
    short = bytearray(3)
    for n, groups, due in faults.CALLS:
        name = f"n {n} groups {[f'{mask:x}' for mask in groups[:3]]} of {len(groups)}"
        for call in (regdulyn.write_faults, regdulyn.table_from_faults):
            yield f"{call.__name__}: {name}", refusal(call, n, groups), due
        for start in (0, 3, 4):
            yield (f"written at {start}: {name}",
                   refusal(regdulyn.write_faults_into, short, start, n, groups), due or 14)
        if 1 <= n <= 64 and groups and len(groups) < 256:
            # A file meets 4 and 34 before 5, and both only after an earlier one's.
            in_file = plain.groups_refusal(n, groups[:MAX_SETS]) or due
            yield f"as a file: {name}", refusal(regdulyn.read_faults, fault_list(n, groups)), in_file
    for n, sets, due in faults.TABLE_CALLS:
        name = f"n {n} sets {[f'{mask:x}' for mask in sets[:3]]} of {len(sets)}"
        yield f"faults_from_table: {name}", refusal(regdulyn.faults_from_table, n, sets), due
    yield "buffer untouched", short, bytearray(3)


def fault_writer_cases() -> Iterator[Case]:
    """Written at any place where there is room; no other byte changes."""
    expected = fault_list(4, [3, 4, 8])
    length = len(expected)
    for start, room in ((0, length), (5, length), (5, length + 3)):
        buffer = bytearray(b"\xaa" * (start + room))
        stop = regdulyn.write_faults_into(buffer, start, 4, [8, 1, 3, 4, 4])
        good = b"\xaa" * start + expected + b"\xaa" * (room - length)
        yield f"fault list at {start}", (bytes(buffer), stop), (good, start + length)
    for start, size in ((0, length - 1), (1, length), (length, length), (length + 9, length)):
        buffer = bytearray(b"\xaa" * size)
        yield (f"no room at {start}",
               (refusal(regdulyn.write_faults_into, buffer, start, 4, [3, 4, 8]), bytes(buffer)),
               (14, b"\xaa" * size))


# Plain definitions

def small_lists(rng: Random) -> Iterator[tuple[int, list[int]]]:
    """Every list of up to three masks of up to three drives, some of four drives, and random ones of
    up to eight."""
    for n in (1, 2, 3):
        yield from ((n, groups) for groups in faults.short_lists(n, 3))
    yield from ((4, groups) for groups in islice(faults.short_lists(4, 3), 0, None, 13))
    yield from ((4, groups) for groups in islice(faults.falling_lists(4, 4), 0, None, 11))
    for _ in range(300):
        n = rng.randint(3, 8)
        yield n, [rng.randint(0, rng.randint(0, full(n) - 1)) for _ in range(rng.randint(1, 20))]


def fault_definitions() -> Iterator[Case]:
    for n, groups in small_lists(Random(61)):
        name = f"n {n} groups {groups}"
        data, due = fault_list(n, groups), plain.groups_refusal(n, groups)
        calls = ((regdulyn.read_faults, (data,)), (regdulyn.write_faults, (n, groups)),
                 (regdulyn.table_from_faults, (n, groups)))
        if due:
            yield f"refused: {name}", [refusal(call, *given) for call, given in calls], [due] * 3
            yield f"refused by the program: {name}", regdulyn.convert_program(data), shown(due)
            continue
        failing = plain.failing(n, groups)
        largest = plain.largest(failing)
        found, written, sets = (call(*given) for call, given in calls)
        yield f"largest: {name}", (found, written), ((n, largest), fault_list(n, largest))
        yield f"fails by the table: {name}", plain.failing_by_table(n, sets), failing
        yield f"normal table: {name}", sets, plain.normal(faults.rests(n, groups))
        yield f"there and back: {name}", regdulyn.faults_from_table(n, sets), largest
        converted = regdulyn.convert_program(data)
        yield (f"converted, and back: {name}", (converted, regdulyn.convert_program(converted)),
               (table(n, sets), fault_list(n, largest)))


def fault_tables() -> Iterator[Case]:
    """Every normal table of up to four drives, and random lists of sets of up to eight."""
    rng = Random(62)
    more = ((n, [rng.randint(1, full(n)) for _ in range(rng.randint(1, 12))])
            for n in (3, 4, 5, 6, 7, 8) for _ in range(40))
    for n, sets in chain(normal_tables(4), more):
        name = f"n {n} sets {sets}"
        failing = plain.failing_by_table(n, sets)
        groups = regdulyn.faults_from_table(n, sets)
        yield f"largest: {name}", groups, plain.largest(failing)
        yield f"fails by the list: {name}", plain.failing(n, groups), failing
        yield f"there and back: {name}", regdulyn.table_from_faults(n, groups), plain.normal(sets)
        converted = regdulyn.convert_program(table(n, sets))
        yield (f"converted, and back: {name}", (converted, regdulyn.convert_program(converted)),
               (fault_list(n, groups), table(n, plain.normal(sets))))


# Large frames

def fault_round_trips() -> Iterator[Case]:
    """Random frames of any width: the list by mask is the normal table's rests backwards, and there and
    back gives the normal form of what came in."""
    rng = Random(63)
    for _ in range(400):
        n, sets = accepted_table(rng)
        name = f"n {n} sets {sets}"
        if refusal(regdulyn.cores, n, sets):
            continue
        normal, listed = plain.normal(sets), faults.rests(n, sets)
        largest = faults.rests(n, normal)[::-1]
        yield f"faults: {name}", regdulyn.faults_from_table(n, sets), largest
        yield f"largest: {name}", plain.largest(listed), largest
        yield f"table: {name}", regdulyn.table_from_faults(n, listed), normal
        yield f"read: {name}", regdulyn.read_faults(fault_list(n, listed)), (n, largest)
        once = regdulyn.convert_program(fault_list(n, listed))
        yield (f"converted, and back: {name}", (once, regdulyn.convert_program(once)),
               (table(n, normal), fault_list(n, largest)))


def fault_limits() -> Iterator[Case]:
    """128 groups, each largest or all one; more than 1024 cores, and 1024."""
    for n, groups in faults.LARGE:
        name = f"n {n}, {len(groups)} groups"
        yield f"read: {name}", regdulyn.read_faults(fault_list(n, groups)), (n, sorted(groups))
        yield f"written: {name}", regdulyn.write_faults(n, groups[::-1]), fault_list(n, sorted(groups))
        sets = sorted(faults.rests(n, groups))
        yield f"table: {name}", regdulyn.table_from_faults(n, groups), sets
        yield f"back: {name}", regdulyn.faults_from_table(n, sets), sorted(groups)
    for group in (0, 1, 1 << 63, full(63), full(64) - 1):
        yield (f"128 times {group:x}", regdulyn.read_faults(fault_list(64, [group] * 128)), (64, [group]))
    rng = Random(64)
    crowded = (crowded_table(rng) for _ in range(16))
    for place, (n, sets) in enumerate(chain(crowded, islice(hard_frames(), 0, None, 2))):
        due = refusal(regdulyn.cores, n, sets)
        name = f"n {n} sets {sets}"
        groups = faults.rests(n, sets)
        yield f"list: {name}", refusal(regdulyn.read_faults, fault_list(n, groups)), due
        yield f"list, a byte behind: {name}", refusal(regdulyn.read_faults, fault_list(n, groups) + b"E"), 7
        call, given = ((regdulyn.write_faults, groups), (regdulyn.table_from_faults, groups),
                       (regdulyn.faults_from_table, sets))[place % 3]
        yield f"{call.__name__}: {name}", refusal(call, n, given), due
