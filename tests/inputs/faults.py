"""Fault lists, and tables for which they stand: samples with the answers that document 02's request
(vi) gives them, as decided; every short list of small frames; lists at the limits; random ones.
"""

from itertools import combinations, product
from random import Random
from typing import Iterator

from .frames import CHOICES, PAIRS, Frame, accepted_table, crowded_table, full
from .records import MARKS, UNKNOWN_MARKS, end, fault, fault_list, frame, survivor, table


def rests(n: int, masks: list[int]) -> list[int]:
    """Of each set of drives the rest of the frame."""
    return [full(n) - mask for mask in masks]


# What a fault list says

# n, the normal table, and the largest fault groups.
STATED: list[tuple[int, list[int], list[int]]] = [
    # Document 002's example 3.3, which is case C; case A; one drive, and two.
    (4, [7, 0xB, 0xC], [3, 4, 8]), (6, [1, 2, 0x3C], [3, 0x3D, 0x3E]), (1, [1], [0]),
    (2, [3], [0]), (2, [1], [2]), (2, [2], [1]), (2, [1, 2], [1, 2]),
    # Nobody can fail; only drive 1 cannot, only drive 64 cannot; all but any one can.
    (6, [0x3F], [0]), (64, [full(64)], [0]), (64, [1], [full(64) - 1]), (64, [1 << 63], [full(63)]),
    (64, [1 << place for place in range(64)], [full(64) - (1 << 63 - place) for place in range(64)]),
    # Any one of 45 drives can fail; a half of 64; one of two pairs.
    (45, [full(45) - (1 << 44 - place) for place in range(45)], [1 << place for place in range(45)]),
    (64, [full(32), full(32) << 32], [full(32), full(32) << 32]), (4, [3, 0xC], [3, 0xC]),
    (5, [0xF, 0x13], [0xC, 0x10]),
]

# n, groups as they are listed, and the largest of them.
LISTED: list[tuple[int, list[int], list[int]]] = [
    (4, [8, 4, 3], [3, 4, 8]), (4, [3, 3, 8, 4, 8], [3, 4, 8]), (4, [0, 1, 2, 3, 4, 8, 0], [3, 4, 8]),
    (6, [0x3E, 0x3D, 3, 2, 0, 0x3C], [3, 0x3D, 0x3E]), (1, [0, 0], [0]), (1, [0] * 128, [0]),
    (3, [0, 1], [1]), (3, [1, 2, 4, 3], [3, 4]), (3, [3, 1, 5], [3, 5]), (3, [6, 5, 3, 0], [3, 5, 6]),
    (64, [full(63), full(62), 0, full(64) - 1], [full(63), full(64) - 1]),
    (64, [1 << 63, 1, 1 << 63 | 1], [1 << 63 | 1]), (5, [0x10, 1] * 64, [1, 0x10]),
]


# Lists at the limits

CROWD = rests(22, PAIRS)
FOURS = [sum(1 << place for place in taken) for taken in combinations(range(9), 4)]

# Accepted lists of 128 and 126 groups, each of which is largest, of 1024 cores, and of 990.
LARGE: list[Frame] = [
    (14, rests(14, CHOICES)), (14, CHOICES), (9, FOURS), (20, rests(20, PAIRS[:10])),
    (45, [1 << place for place in range(45)]),
]

# Calls given n and groups, and their refusal: 3, 2, 5, then 4 and 34 of the first group that has a
# fault, then 13.
CALLS: list[tuple[int, list[int], int]] = [
    (0, [], 3), (65, [], 3), (255, [full(64)], 3), (65, [0] * 129, 3), (0, [0], 3),
    (4, [], 2), (1, [], 2), (64, [], 2),
    (4, [0] * 129, 5), (4, [0xF] * 129, 5), (4, [0x10] * 129, 5), (1, [0] * 256, 5), (4, [0] * 128, 0),
    (4, [0x10], 4), (4, [0x1F], 4), (4, [full(64)], 4), (4, [3, 0x11], 4), (4, [1 << 63], 4),
    (4, [0xF], 34), (4, [0, 0xF], 34), (4, [0xF] * 128, 34), (4, [0xE], 0), (4, [0], 0),
    (4, [0xF, 0x10], 34), (4, [0x10, 0xF], 4), (4, [3, 0xF, 0x1F], 34), (4, [3, 0x1F, 0xF], 4),
    (4, [0] * 127 + [0xF], 34), (4, [0] * 127 + [0x10], 4),
    (1, [0], 0), (1, [1], 34), (1, [2], 4), (1, [3], 4), (1, [0, 1], 34), (2, [3], 34), (2, [2], 0),
    (64, [full(64)], 34), (64, [full(64) - 1], 0), (64, [full(63)], 0), (63, [full(63)], 34),
    (63, [full(64)], 4), (63, [1 << 63], 4), (63, [full(62)], 0),
    (22, CROWD, 13), (22, CROWD + [full(22)], 34), (22, CROWD + [1 << 22], 4), (22, CROWD + [0], 13),
    (22, CROWD * 12, 5), (21, CROWD, 4), (46, [1 << place for place in range(46)], 13),
    *((n, groups, 0) for n, groups in LARGE),
]

# Calls given n and sets, and their refusal, with the faults that a fault list has not.
TABLE_CALLS: list[tuple[int, list[int], int]] = [
    (0, [], 3), (65, [0], 3), (4, [], 2), (4, [0] * 129, 5), (4, [1] * 128, 0), (4, [0], 4), (4, [0x10], 4),
    (4, [0xF], 0), (4, [1, 0], 4), (64, [full(64)], 0), (64, [0], 4), (63, [1 << 63], 4), (22, PAIRS, 13),
    (22, PAIRS + [0], 4), (20, PAIRS[:10], 0), (1, [1], 0),
]


# Files

WHOLE = fault_list(4, [3, 4, 8])
MANY = frame(4) + fault(3) * 128

# A file, and its refusal as a fault list.
FILES: list[tuple[bytes, int]] = [
    # FR: its mark, n cut, and 3, though the rest is cut or wrong.
    (b"", 1), (b"F", 1), (b"FR", 1), (frame(4), 1), (frame(0), 3), (frame(65), 3), (frame(255) + b"XX", 3),
    (fault_list(0, [0]), 3), (fault_list(65, [0x10]), 3), (b"FL", 2), (WHOLE[3:], 2),
    # EN straight after FR, also cut; half a mark.
    (frame(4) + b"EN", 2), (frame(4) + end(0), 2), (frame(4) + end(1), 2), (frame(4) + b"F", 1),
    # The rest cut, though the mask has a fault; then 4; then 34, though a wrong mark follows.
    *((frame(4) + fault(full(64))[:length], 1) for length in range(2, 10)),
    (frame(4) + fault(0x10), 4), (frame(4) + fault(0x1F), 4), (frame(4) + fault(full(64)), 4),
    (frame(4) + fault(1 << 63), 4), (frame(4) + fault(0xF), 34), (frame(4) + fault(0xF) + b"XX", 34),
    (frame(4) + fault(0x10) + b"XX", 4), (frame(4) + fault(0xF) + survivor(1), 34),
    (fault_list(4, [0xF, 0x10]), 34), (fault_list(4, [0x10, 0xF]), 4), (fault_list(4, [3, 0x1F, 0xF]), 4),
    # FL of 0 alone; n 1, where it is the only list; n 64, where no drive is above n.
    (fault_list(4, [0]), 0), (fault_list(1, [0]), 0), (fault_list(1, [0, 0]), 0), (fault_list(1, [1]), 34),
    (fault_list(1, [2]), 4), (fault_list(1, [3]), 4), (fault_list(64, [full(64)]), 34),
    (fault_list(64, [full(64) - 1]), 0), (fault_list(63, [1 << 63]), 4), (fault_list(63, [full(63)]), 34),
    (fault_list(63, [full(64)]), 4),
    # A 129th: its mark cut, 1; its rest cut, 1; whole, 5 whatever its mask; other marks.
    (MANY + end(128), 0), (MANY + b"F", 1), (MANY + fault(0)[:9], 1), (MANY + fault(0), 5),
    (MANY + fault(0xF), 5), (MANY + fault(full(64)), 5), (MANY + fault(3) + end(129), 5),
    (MANY + survivor(1), 2), (MANY + b"XX", 2), (MANY + end(129), 6), (MANY + end(127), 6),
    (frame(4) + fault(3) * 127 + fault(0xF) + fault(0), 34), (frame(4) + fault(0x10) + fault(3) * 128, 4),
    # EN: the count cut, 6, then 7, then 13; repeats and groups within others count.
    (WHOLE[:-1], 1), (WHOLE[:-1] + b"\2", 6), (WHOLE[:-1] + b"\4", 6), (WHOLE[:-1] + b"\0\0", 6),
    (WHOLE + b"\0", 7), (WHOLE + WHOLE, 7), (WHOLE + b"EN\3", 7), (WHOLE, 0),
    (fault_list(4, [3, 3, 1]), 0), (frame(4) + fault(3) * 2 + end(1), 6),
    (fault_list(22, CROWD), 13), (fault_list(22, CROWD) + b"\0", 7),
    (fault_list(22, CROWD)[:-1] + b"\0", 6), (fault_list(22, CROWD)[:-1] + b"\0\0", 6),
    (fault_list(22, CROWD)[:-1], 1), (fault_list(22, CROWD + [full(22)]), 34),
    (fault_list(22, CROWD + [1 << 22]) + b"\0", 4),
    # SV among FL, and FL among SV, where they stand.
    (frame(4) + fault(3) + survivor(4) + end(2), 2), (frame(4) + fault(3) + b"SV", 2),
    (frame(4) + survivor(7) + fault(3) + end(2), 2), (table(4, [7, 0xB, 0xC]), 2),
]


def wrong_marks() -> Iterator[tuple[bytes, int]]:
    """At the place of each record of a list every mark that is not due there: alone, with a cut rest,
    and with the record's own."""
    records = [frame(4), fault(3), fault(4), end(2)]
    for place, record in enumerate(records):
        due = {0: (b"FR",), 1: (b"FL",)}.get(place, (b"FL", b"EN"))
        before, behind = b"".join(records[:place]), b"".join(records[place + 1:])
        for mark in MARKS + UNKNOWN_MARKS:
            if mark not in due:
                yield from ((before + mark + rest, 2) for rest in (b"", b"\1", record[2:] + behind))


def cuts() -> Iterator[tuple[bytes, int]]:
    """A list cut at every byte."""
    return ((WHOLE[:length], 1) for length in range(len(WHOLE)))


# Every short list

def short_lists(n: int, most: int) -> Iterator[list[int]]:
    """Every list of 1 to so many masks: all parts of the frame, the whole too, and two masks with a
    drive above n."""
    for length in range(1, most + 1):
        yield from map(list, product(range((1 << n) + 2), repeat=length))


def falling_lists(n: int, most: int) -> Iterator[list[int]]:
    """Every list of 1 to so many masks of a frame, none twice, falling."""
    for length in range(1, most + 1):
        yield from map(list, combinations(range((1 << n) - 1, -1, -1), length))


# Random ones

def accepted_list(rng: Random) -> Frame:
    """A fault list that, with few exceptions, meets no refusal."""
    n, sets = accepted_table(rng)
    return n, rests(n, sets)


def crowded_list(rng: Random) -> Frame:
    """A fault list that meets 13."""
    n, sets = crowded_table(rng)
    return n, rests(n, sets)
