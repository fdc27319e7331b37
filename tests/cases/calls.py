"""Refusals of the calls given n and sets, and their order; the writer."""

from typing import Iterator

import regdulyn
from inputs.records import Crash, table

from . import A_SETS, PATTERNS, Case, refusal


def call_refusals() -> Iterator[Case]:
    crowd = [3 << 2 * pair for pair in range(11)]
    tables = [
        ("n 0, no sets", 0, [], 3), ("n 65, bad", 65, [0], 3), ("no sets", 6, [], 2),
        ("129 with a zero", 6, [0] * 129, 5), ("129", 6, [1] * 129, 5), ("128", 6, [1] * 128, 0),
        ("zero", 6, [1, 0], 4), ("above n", 6, [0x40], 4), ("zero in a crowd", 22, crowd + [0], 4),
        ("crowd", 22, crowd, 13), ("1024", 20, crowd[:10], 0),
    ]
    short = bytearray(2)
    for name, n, sets, expected in tables:
        for call in (regdulyn.normal_table, regdulyn.cores, regdulyn.chosen_core,
                     regdulyn.write_table):
            yield f"{call.__name__}: {name}", refusal(call, n, sets), expected
        for group, last in ((1, 0), (0, 4), (1 << 63, 4), (1 << 22, 4)):
            yield (f"missed_set {group:x}: {name}",
                   refusal(regdulyn.missed_set, n, sets, group), expected or last)
        yield f"verdict: {name}", refusal(regdulyn.verdict, 2, n, sets), expected
        yield f"verdict, k 4: {name}", refusal(regdulyn.verdict, 4, n, sets), expected
        yield f"verdict, k 5: {name}", refusal(regdulyn.verdict, 5, n, sets), 12
        yield f"verdict, k 1: {name}", refusal(regdulyn.verdict, 1, n, sets), 12
        yield f"opening: {name}", refusal(regdulyn.opening, n, sets, 1, 0), expected
        yield f"opening 0: {name}", refusal(regdulyn.opening, n, sets, 0, 0), expected or 8
        yield f"opening 65: {name}", refusal(regdulyn.opening, n, sets, 65, 0), expected or 8
        yield f"read_run: {name}", refusal(regdulyn.read_run, b"", n, sets), expected or 1
        yield (f"write into: {name}",
               refusal(regdulyn.write_table_into, short, 0, n, sets), expected or 14)
    yield "buffer untouched", short, bytearray(2)
    for k, n, sets, expected in ((2, 2, [1], 33), (2, 3, [1], 0), (4, 4, [1], 33), (4, 5, [1], 0),
                                 (5, 4, [1], 12), (4, 4, [0], 4), (4, 0, [1], 3), (4, 4, [], 2)):
        found = refusal(regdulyn.verdict, k, n, sets)
        yield f"verdict, k {k}, n {n}, sets {sets}", found, expected


def simulate_refusals() -> Iterator[Case]:
    cases = [
        ("8", [Crash(0, 9, 9)], 8), ("9", [Crash(1, 4, 9)], 9), ("10", [Crash(1, 1, 6)], 10),
        ("11", [Crash(1, 1, 0), Crash(2, 1, 0), Crash(3, 1, 0)], 11),
        ("falling", [Crash(2, 1, 0), Crash(1, 1, 0)], 8),
        ("first in order", [Crash(1, 1, 6), Crash(9, 1, 0)], 10), ("none", [], 0),
    ]
    for name, stops, expected in cases:
        found = refusal(regdulyn.simulate, 6, A_SETS, PATTERNS, stops)
        yield f"simulate: {name}", found, expected
    yield "simulate: table first", refusal(regdulyn.simulate, 6, [], PATTERNS, cases[0][1]), 2


def back_refusals() -> Iterator[Case]:
    # Nine pairs are met by 512 smallest groups. Seven pairs that each may also
    # be met by drive 15 are met by 128 smallest groups and by that drive.
    pairs = [3 << 2 * pair for pair in range(9)]
    pairs_and_one = [pair | 1 << 14 for pair in pairs[:7]]
    cases = [
        ("n 0", 0, [], 3), ("none", 3, [], 13), ("1025", 3, [0] * 1025, 13),
        ("1024", 3, [1] * 1024, 0), ("zero", 3, [1, 0], 4), ("above", 3, [8], 4),
        ("512 found", 18, pairs, 5), ("128 found", 14, pairs[:7], 0),
        ("129 found", 15, pairs_and_one, 5), ("4 before 5", 18, pairs + [0], 4),
    ]
    for name, n, groups, expected in cases:
        yield f"back: {name}", refusal(regdulyn.back, n, groups), expected


def writer_cases() -> Iterator[Case]:
    expected = table(6, A_SETS)
    length = len(expected)
    yield "writer", regdulyn.write_table(6, [3, 0x3C, 2, 1, 2]), expected
    for start, room in ((0, length), (5, length), (5, length + 3)):
        buffer = bytearray(b"\xaa" * (start + room))
        stop = regdulyn.write_table_into(buffer, start, 6, A_SETS)
        good = b"\xaa" * start + expected + b"\xaa" * (room - length)
        yield f"writer at {start}", (bytes(buffer), stop), (good, start + length)
    for start, size in ((0, length - 1), (1, length), (length, length), (length + 9, length)):
        buffer = bytearray(b"\xaa" * size)
        yield (f"no room at {start}",
               (refusal(regdulyn.write_table_into, buffer, start, 6, A_SETS), bytes(buffer)),
               (14, b"\xaa" * size))
