"""Inputs with the answers that documents 01 and 02 give them: the refusals of the four
calls, of simulated exchanges and of run files, each alone and where two faults meet,
what a close leaves and how drives end; with numbers of two bytes, of four, and both.
Messages and records are written byte by byte. The number 0 stands for a call that is
not refused.
"""

from typing import Iterable, Iterator, NamedTuple, Optional

from regdulyn import Crash, Exchange

from . import proposals
from .calls import FILLING, Script
from .records import crash, end, proposal, table

# Case A's table and case B's pattern numbers, and what is read of those: a listener's is dropped.
A_SETS = [1, 2, 0x3C]
PATTERNS = [7, 5, 9, 1, 1, 1]
OF_CORE = [7, 5, 9, 0, 0, 0]


# States in the frame of case A, with core 7 and the pattern numbers of its drives

def state(n: int, own: int, core: int, round_number: int, before: int, heard: int, known: int,
          start: int, halted: bool = False, decision: Optional[int] = None,
          numbers: Iterable[int] = PATTERNS[:3]) -> Exchange:
    return Exchange(n, own, core, round_number, before, heard, known, start,
                    [*numbers, *[0] * 61], None, decision, halted)


CORE_DRIVE = state(6, 1, 7, 1, 7, 0, 1, 1)
LISTENER = state(6, 4, 7, 1, 7, 0, 0, 0)
DECIDED_ON_5 = state(6, 1, 7, 2, 7, 0, 7, 7, decision=5)
MISSED_2 = state(6, 1, 7, 2, 5, 2, 1, 1)
HEARD_2 = state(6, 1, 7, 1, 7, 2, 3, 1)
DECIDED_HIGH = state(6, 1, 7, 2, 7, 0, 7, 7, decision=0x04030201)
# Drive 1 knows its own number 65543, which is 7 in its two low bytes, and 0x05000009 of drive 3.
HIGH = [65543, 5, 0x05000009]
KNOWS_HIGH = state(6, 1, 7, 1, 7, 0, 5, 1, numbers=HIGH)


def kn(sender: int, round_number: int, low: int, *values: int) -> bytes:
    """A KN with a mask in the eight lowest drives, and these bytes behind it."""
    return b"KN" + bytes([sender, round_number, low, 0, 0, 0, 0, 0, 0, 0, *values])


def kw(sender: int, round_number: int, low: int, *values: int) -> bytes:
    return b"KW" + kn(sender, round_number, low, *values)[2:]


def dc(sender: int, round_number: int, *value: int) -> bytes:
    return b"DC" + bytes([sender, round_number, *value])


def dw(sender: int, round_number: int, *value: int) -> bytes:
    return b"DW" + bytes([sender, round_number, *value])


def cut_and_longer(data: bytes) -> Iterator[bytes]:
    """A message cut at every length, and with one byte too many."""
    yield from (data[:length] for length in range(len(data)))
    yield data + b"\0"


# The four calls

OPENINGS = [
    # The table's refusals come before 8: 3, 2, 5, then 4.
    (6, A_SETS, 1, 7, 0), (0, [], 0, 7, 3), (65, [0], 66, 7, 3), (6, [], 0, 7, 2),
    (6, [0] * 129, 0, 7, 5), (6, [1] * 128, 1, 7, 0), (6, [1, 0], 0, 7, 4),
    (6, [1, 64], 7, 7, 4), (6, [1], 0, 7, 8), (6, [1], 7, 7, 8), (6, [1], 6, 65535, 0),
    (6, [1], 1, 65535, 0), (6, [1], 1, 65536, 0), (6, [1], 1, 0x04030201, 0),
    (6, [1], 1, 2 ** 32 - 1, 0), (6, [1], 0, 65536, 8),
]

SENDS = [
    # 16 bytes of KW, and 8 of DW: a place past the end, and one at the end, meet 14 too; so does
    # the length of a KN or DC.
    (CORE_DRIVE, 16, 0, 0), (CORE_DRIVE, 15, 0, 14), (CORE_DRIVE, 16, 1, 14),
    (CORE_DRIVE, 22, 6, 0), (CORE_DRIVE, 16, 16, 14), (CORE_DRIVE, 0, 1, 14),
    (CORE_DRIVE, 14, 0, 14), (DECIDED_ON_5, 8, 0, 0), (DECIDED_ON_5, 8, 1, 14),
    (DECIDED_ON_5, 6, 0, 14), (DECIDED_ON_5, 7, 0, 14),
    # 28, 23, 27, 14.
    (LISTENER, 0, 0, 27), (state(6, 4, 7, 1, 7, 0, 0, 0, True), 0, 0, 23),
    (state(6, 7, 7, 1, 7, 0, 0, 0, True), 0, 0, 28),
    (state(6, 1, 7, 1, 7, 0, 1, 1, True), 16, 0, 23),
]

MESSAGES = [
    # The mark cut; unknown, or in the wrong place, though the rest is cut; the rest cut,
    # though the sender is no drive.
    (CORE_DRIVE, b"", 1), (CORE_DRIVE, b"K", 1), (CORE_DRIVE, b"XX", 2), (CORE_DRIVE, b"FR", 2),
    (CORE_DRIVE, b"KN\0\1\2\0\0\0\0\0\0", 1), (CORE_DRIVE, dc(0, 1, 5), 1),
    # 8, then 15, then the values cut.
    (CORE_DRIVE, kn(0, 1, 2, 5, 0), 8), (CORE_DRIVE, kn(7, 1, 2), 8),
    (CORE_DRIVE, dc(7, 1, 5, 0, 0), 8), (CORE_DRIVE, kn(2, 1, 4, 5, 0), 15),
    (CORE_DRIVE, kn(2, 1, 0), 15), (CORE_DRIVE, kn(2, 1, 66), 15), (CORE_DRIVE, kn(2, 1, 2), 1),
    (CORE_DRIVE, kn(1, 2, 3, 7, 0, 5), 1),
    # 7, then 22: oneself, a listener, a known drive outside the core.
    (CORE_DRIVE, kn(1, 2, 1, 7, 0, 0), 7), (CORE_DRIVE, dc(4, 2, 5, 0, 0), 7),
    (CORE_DRIVE, kn(1, 2, 1, 7, 0), 22), (CORE_DRIVE, dc(1, 1, 7, 0), 22),
    (CORE_DRIVE, kn(4, 1, 8, 1, 0), 22), (CORE_DRIVE, dc(4, 2, 5, 0), 22),
    (CORE_DRIVE, kn(2, 2, 10, 5, 0, 1, 0), 22),
    # 26, then 24, where drive 2 was missing, then 21, where drive 2 was accepted.
    (CORE_DRIVE, kn(2, 2, 2, 5, 0), 26), (CORE_DRIVE, dc(3, 0, 5, 0), 26),
    (MISSED_2, kn(2, 1, 2, 5, 0), 26), (MISSED_2, kn(2, 2, 2, 5, 0), 24),
    (state(6, 1, 7, 2, 5, 0, 1, 1), dc(2, 2, 5, 0), 24), (HEARD_2, kn(2, 1, 2, 6, 0), 21),
    (HEARD_2, dc(2, 1, 5, 0), 21),
    # 25: one's own number, and one learnt in this round; a number that is not known can be any.
    (CORE_DRIVE, kn(2, 1, 3, 6, 0, 5, 0), 25), (CORE_DRIVE, kn(2, 1, 3, 7, 1, 5, 0), 25),
    (state(6, 1, 7, 1, 7, 4, 5, 1), kn(2, 1, 6, 5, 0, 8, 0), 25),
    (CORE_DRIVE, kn(2, 1, 6, 5, 0, 8, 0), 0),
    # Accepted: a KN, a DC, by a listener, by a decided drive.
    (CORE_DRIVE, kn(2, 1, 3, 7, 0, 5, 0), 0), (CORE_DRIVE, dc(3, 1, 255, 255), 0),
    (LISTENER, kn(2, 1, 2, 5, 0), 0), (DECIDED_ON_5, dc(2, 2, 9, 0), 0),
    # 28, then 23, before anything of the message.
    (state(6, 1, 7, 1, 7, 0, 1, 1, True), b"", 23), (state(0, 1, 7, 1, 7, 0, 1, 1, True), b"", 28),
    (state(6, 1, 7, 1, 7, 0, 1, 1, True), kw(2, 1, 2, 5, 0, 0, 0), 23),
    # A mark of a file, and one near a KW's or DW's, though the rest is cut.
    (CORE_DRIVE, b"PW", 2), (CORE_DRIVE, b"PR", 2), (CORE_DRIVE, b"KX", 2), (CORE_DRIVE, b"DN", 2),
    (CORE_DRIVE, b"WK" + kw(2, 1, 2, 5, 0, 0, 0)[2:], 2),
    # The same order with a KW and a DW: 1 before 8; 8, 15, the values cut, 7, 22, 26, 24, 21.
    (CORE_DRIVE, b"KW\0\1\2\0\0\0\0\0\0", 1), (CORE_DRIVE, dw(0, 1, 5, 0, 0), 1),
    (CORE_DRIVE, dw(7, 1, 5, 0), 1), (CORE_DRIVE, kw(0, 1, 2, 5, 0, 0, 0), 8),
    (CORE_DRIVE, kw(7, 1, 2), 8), (CORE_DRIVE, dw(7, 1, 5, 0, 0, 0, 0), 8),
    (CORE_DRIVE, kw(2, 1, 4, 5, 0, 0, 0), 15), (CORE_DRIVE, kw(2, 1, 0), 15),
    (CORE_DRIVE, kw(2, 1, 66), 15), (CORE_DRIVE, kw(2, 1, 2), 1),
    (CORE_DRIVE, kw(1, 2, 3, 7, 0, 0, 0, 5, 0, 0), 1),
    (CORE_DRIVE, kw(1, 2, 1, 7, 0, 0, 0, 0), 7), (CORE_DRIVE, dw(4, 2, 5, 0, 0, 0, 0), 7),
    (CORE_DRIVE, kw(1, 2, 1, 7, 0, 0, 0), 22), (CORE_DRIVE, dw(1, 1, 7, 0, 0, 0), 22),
    (CORE_DRIVE, dw(4, 2, 5, 0, 0, 0), 22),
    (CORE_DRIVE, kw(2, 2, 10, 5, 0, 0, 0, 1, 0, 0, 0), 22),
    (CORE_DRIVE, kw(2, 2, 2, 5, 0, 0, 0), 26), (CORE_DRIVE, dw(3, 0, 5, 0, 0, 0), 26),
    (MISSED_2, kw(2, 2, 2, 5, 0, 0, 0), 24), (HEARD_2, kw(2, 1, 2, 6, 0, 0, 0), 21),
    (HEARD_2, dw(2, 1, 5, 0, 0, 0), 21),
    # The numbers of the other width: of one drive, and of two, where a KN's two and a KW's one
    # have as many bytes.
    (CORE_DRIVE, kn(2, 1, 2, 5, 0, 0, 0), 7), (CORE_DRIVE, kw(2, 1, 2, 5, 0), 1),
    (CORE_DRIVE, kn(2, 1, 6, 5, 0, 0, 0), 0), (CORE_DRIVE, kw(2, 1, 6, 5, 0, 0, 0), 1),
    (CORE_DRIVE, dc(3, 1, 5, 0, 0, 0), 7), (CORE_DRIVE, dw(3, 1, 5, 0), 1),
    # 25 is of values: the number that is known by a record of either width; the same two low bytes;
    # one byte that differs, each in turn, also in the last number.
    (CORE_DRIVE, kn(2, 1, 3, 7, 0, 5, 0), 0), (CORE_DRIVE, kw(2, 1, 3, 7, 0, 0, 0, 5, 0, 0, 0), 0),
    (CORE_DRIVE, kw(2, 1, 3, 7, 0, 1, 0, 5, 0, 0, 0), 25),
    (CORE_DRIVE, kw(2, 1, 3, 7, 0, 0, 1, 5, 0, 0, 0), 25),
    (CORE_DRIVE, kw(2, 1, 3, 7, 1, 0, 0, 5, 0, 0, 0), 25),
    (CORE_DRIVE, kw(2, 1, 3, 6, 0, 0, 0, 5, 0, 0, 0), 25),
    (KNOWS_HIGH, kn(2, 1, 3, 7, 0, 5, 0), 25), (KNOWS_HIGH, kn(2, 1, 6, 5, 0, 9, 0), 25),
    (KNOWS_HIGH, kw(2, 1, 7, 7, 0, 1, 0, 5, 0, 0, 0, 9, 0, 0, 5), 0),
    (KNOWS_HIGH, kw(2, 1, 7, 7, 0, 0, 0, 5, 0, 0, 0, 9, 0, 0, 5), 25),
    (KNOWS_HIGH, kw(2, 1, 7, 7, 0, 1, 0, 5, 0, 0, 0, 9, 0, 0, 4), 25),
    (KNOWS_HIGH, kw(2, 1, 7, 7, 0, 1, 0, 5, 0, 0, 0, 9, 0, 1, 5), 25),
    (KNOWS_HIGH, kw(2, 1, 7, 7, 0, 1, 0, 5, 0, 0, 0, 9, 1, 0, 5), 25),
    (KNOWS_HIGH, kw(2, 1, 7, 7, 0, 1, 0, 5, 0, 0, 0, 8, 0, 0, 5), 25),
    # Accepted: a KW, a DW, by a listener, by a decided drive; the largest number.
    (CORE_DRIVE, kw(2, 1, 2, 255, 255, 255, 255), 0), (CORE_DRIVE, dw(3, 1, 255, 255, 255, 255), 0),
    (LISTENER, kw(2, 1, 2, 5, 0, 1, 0), 0), (DECIDED_ON_5, dw(2, 2, 9, 0, 0, 1), 0),
    # Every length.
    *((CORE_DRIVE, data, 7 if len(data) == 21 else 1)
      for data in cut_and_longer(kw(2, 1, 6, 5, 0, 0, 0, 9, 0, 1, 0))),
    *((CORE_DRIVE, data, 7 if len(data) == 9 else 1)
      for data in cut_and_longer(dw(2, 1, 5, 0, 1, 0))),
]

CLOSES = [
    (CORE_DRIVE, 0), (LISTENER, 0), (DECIDED_ON_5, 0), (state(6, 1, 7, 3, 7, 0, 1, 1), 0),
    (state(6, 1, 7, 3, 7, 0, 1, 1, True), 23),
    # 28, a rule at a time: n; core empty, above n; own number not known now, at the start; own
    # drive; round; the four sets.
    (state(0, 1, 7, 1, 7, 0, 1, 1), 28), (state(65, 1, 7, 1, 7, 0, 1, 1), 28),
    (state(6, 4, 0, 1, 0, 0, 0, 0, True), 28), (state(2, 1, 7, 1, 7, 0, 1, 1), 28),
    (state(6, 1, 7, 1, 7, 0, 2, 3), 28), (state(6, 1, 7, 1, 7, 0, 3, 2), 28),
    (state(6, 0, 7, 1, 7, 0, 0, 0), 28), (state(6, 7, 7, 1, 7, 0, 0, 0), 28),
    (state(6, 1, 7, 0, 7, 0, 1, 1), 28), (state(6, 1, 7, 4, 7, 0, 1, 1, True), 28),
    (state(6, 1, 7, 1, 15, 0, 1, 1), 28), (state(6, 1, 7, 1, 7, 8, 1, 1), 28),
    (state(6, 1, 7, 1, 7, 0, 9, 1), 28), (state(6, 1, 7, 1, 7, 0, 1, 9), 28),
    # No rule: known at the start and not now, heard and not before, nothing heard before.
    (state(6, 1, 7, 1, 7, 0, 1, 3), 0), (state(6, 1, 7, 1, 1, 2, 1, 1), 0),
    (state(6, 4, 7, 1, 0, 0, 0, 0), 0),
]

# Messages and a close, and what it leaves: the round, whether the drive has halted, its decision.
ENDS: list[tuple[Exchange, list[bytes], tuple[int, bool, Optional[int]]]] = [
    # Drives 2 and 3 missing; nobody missing: the smallest of 7, 5, 9; the same in the last round.
    (CORE_DRIVE, [], (2, False, None)), (state(6, 1, 7, 1, 7, 6, 7, 1), [], (2, False, 5)),
    (state(6, 1, 7, 3, 7, 6, 7, 1), [], (3, True, 5)),
    # A core drive that hears only itself, twice.
    (state(6, 1, 7, 2, 1, 0, 1, 1), [], (3, False, 7)),
    # The lowest-numbered DC sender, in either order; a decided drive keeps its number.
    (CORE_DRIVE, [dc(3, 1, 9, 0), dc(2, 1, 8, 1)], (2, False, 264)),
    (CORE_DRIVE, [dc(2, 1, 8, 1), dc(3, 1, 9, 0)], (2, False, 264)),
    (DECIDED_ON_5, [dc(2, 2, 9, 0)], (2, True, 5)),
    # The same with one or both a DW: the sender counts, not the width or the number.
    (CORE_DRIVE, [dw(3, 1, 9, 0, 0, 0), dc(2, 1, 8, 1)], (2, False, 264)),
    (CORE_DRIVE, [dc(3, 1, 9, 0), dw(2, 1, 8, 1, 0, 1)], (2, False, 0x01000108)),
    (CORE_DRIVE, [dw(2, 1, 255, 255, 255, 255), dw(3, 1, 0, 0, 0, 0)], (2, False, 2 ** 32 - 1)),
    (DECIDED_HIGH, [dw(2, 2, 9, 0, 0, 0)], (2, True, 0x04030201)),
    # The smallest of 65543, 5 + 65536 and 9, told by a KW and a KN: by value, not by its low bytes.
    (state(6, 1, 7, 1, 7, 0, 1, 1, numbers=HIGH), [kw(2, 1, 2, 5, 0, 1, 0), kn(3, 1, 4, 9, 0)],
     (2, False, 9)),
    (state(6, 1, 7, 1, 7, 0, 1, 1, numbers=HIGH),
     [kw(2, 1, 2, 5, 0, 1, 0), kw(3, 1, 6, 5, 0, 1, 0, 0, 0, 0, 1)], (2, False, 65541)),
    # What a KW tells and a KN tells again.
    (CORE_DRIVE, [kw(2, 1, 6, 5, 0, 0, 0, 9, 0, 0, 0), kn(3, 1, 7, 7, 0, 5, 0, 9, 0)],
     (2, False, 5)),
    (CORE_DRIVE, [kn(2, 1, 6, 5, 0, 9, 0), kw(3, 1, 7, 7, 0, 0, 0, 5, 0, 0, 0, 9, 0, 0, 0)],
     (2, False, 5)),
    # A listener halts on deciding; it goes on where nobody was heard, and where nothing is known.
    (state(6, 4, 7, 1, 2, 2, 7, 7), [], (1, True, 5)),
    (state(6, 4, 7, 1, 0, 0, 7, 7), [], (2, False, None)),
    (state(6, 4, 7, 1, 2, 2, 0, 0), [], (2, False, None)),
]

# A send into a buffer of a length, from a place on, and what the buffer then holds.
KEPT = bytes([FILLING])
BUFFERS = [
    (state(6, 1, 7, 2, 7, 0, 7, 5), 20, 0, kw(1, 2, 5, 7, 0, 0, 0, 9, 0, 0, 0)),
    (state(6, 1, 7, 2, 7, 0, 7, 7, numbers=HIGH), 24, 0,
     kw(1, 2, 7, 7, 0, 1, 0, 5, 0, 0, 0, 9, 0, 0, 5)),
    (DECIDED_ON_5, 10, 1, KEPT + dw(1, 2, 5, 0, 0, 0) + KEPT),
    (DECIDED_HIGH, 8, 0, dw(1, 2, 1, 2, 3, 4)),
    (DECIDED_ON_5, 10, 3, KEPT * 10),
]

# Two messages that give drive 3 different numbers: the second meets 25.
UNLIKE = [
    (kw(2, 1, 6, 5, 0, 0, 0, 7, 0, 1, 0), kn(3, 1, 4, 7, 0)),
    (kn(2, 1, 6, 5, 0, 7, 0), kw(3, 1, 4, 7, 0, 1, 0)),
    (kw(2, 1, 6, 5, 0, 0, 0, 7, 0, 0, 1), kw(3, 1, 4, 7, 0, 0, 0)),
]


# Stops by drive on case A's table with case B's pattern numbers, and the line of the
# simulated exchange.
def ends(stops: int, *found: str) -> str:
    return " ".join([f"core 7 stops {stops}",
                     *(f"drive {drive} {end}" for drive, end in enumerate(found, start=1))])


GONE = "stopped"
ON_5 = [f"decides 5 round {round_number}" for round_number in range(4)]
ON_7 = "decides 7 round 2"
SIMULATED = [
    # Nobody; cases B, D, E and F; a listener, and drive 1 after its decision.
    ([], ends(0, *[ON_5[1]] * 6)), ([Crash(2, 1, 1)], ends(1, ON_5[1], GONE, *[ON_5[2]] * 4)),
    ([Crash(2, 1, 0)], ends(1, ON_7, GONE, *[ON_7] * 4)),
    ([Crash(2, 1, 3)], ends(1, ON_5[1], GONE, ON_5[1], ON_5[1], ON_5[2], ON_5[2])),
    ([Crash(1, 1, 0), Crash(2, 2, 0)], ends(2, GONE, GONE, *[ON_5[3]] * 4)),
    ([Crash(1, 2, 5), Crash(4, 3, 0)], ends(1, GONE, *[ON_5[1]] * 2, GONE, *[ON_5[1]] * 2)),
    # 8, 9, 10 of the lowest drive first: above n; round 0 and 4; 6 sends, and a listener's.
    ([Crash(7, 0, 9)], "refused 8"), ([Crash(64, 1, 0)], "refused 8"),
    ([Crash(2, 0, 9)], "refused 9"), ([Crash(2, 4, 0), Crash(7, 1, 0)], "refused 9"),
    ([Crash(1, 1, 6), Crash(2, 0, 0)], "refused 10"), ([Crash(4, 1, 1)], "refused 10"),
    # Case G, then with 10.
    ([Crash(drive, 1, 0) for drive in (1, 2, 3)], "refused 11"),
    ([Crash(1, 1, 0), Crash(2, 1, 0), Crash(3, 1, 6)], "refused 10"),
]


class Answered(NamedTuple):
    """What the last operation of a script gave, and what document 01 gives."""
    name: str
    found: object
    due: object


def refused_with(script: Script) -> int:
    word, *values = script.lines[-1][0].split()
    return int(values[0]) if word == "refused" else 0


def message_samples(script: Script) -> Iterator[Answered]:
    """Hands over the message of every sample, one after the other."""
    for index, (x, data, due) in enumerate(MESSAGES):
        script.load(x)
        script.message(data)
        yield Answered(f"message {index}", refused_with(script), due)
    for index, (first, second) in enumerate(UNLIKE):
        script.load(CORE_DRIVE)
        taken = script.message(first)
        script.message(second)
        yield Answered(f"unlike {index}", (taken, refused_with(script)), (True, 25))


def call_samples(script: Script) -> Iterator[Answered]:
    """Makes the other calls of every sample, one after the other."""
    for index, (n, sets, own, pattern, due) in enumerate(OPENINGS):
        script.open(n, sets, own, pattern)
        yield Answered(f"opening {index}", refused_with(script), due)
    for index, (x, length, start, due) in enumerate(SENDS):
        script.load(x)
        script.send(length, start)
        yield Answered(f"send {index}", refused_with(script), due)
    for index, (x, due) in enumerate(CLOSES):
        script.load(x)
        script.close()
        yield Answered(f"close {index}", refused_with(script), due)
    for index, (x, messages, left) in enumerate(ENDS):
        script.load(x)
        taken = [script.message(data) for data in messages] + [script.close()]
        found = script.state
        yield Answered(f"end {index}", (taken, (found.round, found.halted, found.decision)),
                       ([True] * len(taken), left))
    for index, (x, length, start, buffer) in enumerate(BUFFERS):
        script.load(x)
        script.send(length, start)
        yield Answered(f"buffer {index}", script.lines[-1][1], f"buffer {buffer.hex()}")
    for index, (stops, line) in enumerate(SIMULATED):
        script.simulate(6, A_SETS, PATTERNS, stops)
        yield Answered(f"simulated {index}", script.lines[-1][0], line)


def make_messages(script: Script) -> None:
    """The same messages, whatever they give."""
    for _ in message_samples(script):
        pass


def make_calls(script: Script) -> None:
    """The same other calls, whatever they give."""
    for _ in call_samples(script):
        pass


# Run files

PROPOSALS = b"".join(proposal(drive, v) for drive, v in enumerate(PATTERNS, start=1))

# A table, a run file, and the refusal of the call that reads it. The program meets the table's
# refusals in its file, where 4 comes before 5.
RunSample = tuple[int, list[int], bytes, int]
ON_TABLES: list[RunSample] = [
    (0, [], end(0), 3), (65, [0], b"", 3), (64, [], b"", 2), (6, [0] * 129, b"XX", 5),
    (6, [1, 0], b"", 4), (6, [64, 1], proposal(2, 7), 4), (64, [1], b"", 1),
    (1, [1], proposal(1, 4) + crash(1, 1, 0) + end(1), 11),
]

# A run file for case A's table, which has the chosen core 7, and its refusal.
ON_A = [
    # The mark cut; unknown, or in the wrong place; the rest cut, though the drive is above one owed.
    (b"", 1), (b"P", 1), (b"XX", 2), (b"CR", 2), (end(0), 2), (proposal(1, 7) + end(0), 2),
    (b"PR\2\7", 1),
    # 8: no drive, one left out, one twice.
    (proposal(0, 7), 8), (proposal(2, 7), 8), (proposal(1, 7) * 2, 8),
    (proposal(1, 7) + proposal(3, 7) + b"XX", 8),
    # The same with a PW: every cut, also of another drive; of one order with PR; a message's mark.
    *((b"PW\1\7\0\0\0"[:length], 1) for length in range(1, 7)), (b"PW\2\7\0\0", 1),
    (b"PW\0\7\0\0\0", 8), (b"PW\2\7\0\0\0", 8), (b"PW\1\7\0\0\0" * 2, 8),
    (proposal(1, 7) + b"PW\1\7\0\0\0", 8), (b"PW\1\7\0\0\0" + proposal(1, 7), 8),
    (proposal(1, 7) + b"PW\3\7\0\0\0XX", 8), (b"PW\1\7\0\0\0" + end(0), 2),
    (b"KW", 2), (b"DW", 2), (b"WP", 2),
    # A number of the other width: the mark behind it is not one.
    (b"PR\1\7\0\0\0" + proposal(2, 7), 2), (b"PW\1\7\0" + proposal(2, 7), 2),
    (b"PW\1\7\0\0\0\0" + proposal(2, 7), 2),
]

# The records behind case B's pattern numbers, and the refusal.
BEHIND = [
    # A PR or PW after drive n's, even when cut.
    (proposal(7, 1), 2), (b"PR", 2), (b"P", 1), (proposal(7, 1, True), 2),
    (proposal(6, 1, True), 2), (b"PW", 2), (b"PW\7\0\0", 2), (crash(2, 1, 0) + b"PW", 2),
    (b"", 1), (b"CR\0\0", 1), (b"FR", 2),
    # 8: outside 1 to n, or not above the last; before 9 and 10.
    (crash(0, 0, 9), 8), (crash(7, 0, 9), 8), (crash(2, 1, 0) + crash(2, 0, 9), 8),
    (crash(2, 1, 0) + crash(1, 1, 0), 8),
    # 9: outside 1 to the core's size; before 10.
    (crash(2, 0, 9), 9), (crash(2, 4, 9), 9), (crash(2, 3, 0) + end(1), 0),
    # 10: a core drive, a listener.
    (crash(2, 1, 6), 10), (crash(2, 1, 5) + end(1), 0), (crash(4, 1, 1), 10),
    (crash(4, 1, 0) + end(1), 0),
    # The count cut, then 6, 7, 11; case G is the last but one.
    (b"EN", 1), (end(0), 0), (end(1) + b"\0", 6), (crash(2, 1, 0) + end(0), 6),
    (end(0) + b"\0", 7), (crash(1, 1, 0) + crash(2, 1, 0) + crash(3, 1, 0) + end(3) * 2, 7),
    (crash(1, 1, 0) + crash(2, 1, 0) + crash(3, 1, 0) + end(3), 11),
    (crash(1, 1, 0) + crash(2, 1, 0) + crash(6, 1, 0) + end(3), 11),
]

# The run files of the marked cases B, D, E, F and J, and what they say.
SAID: list[tuple[int, list[int], bytes, list[int], list[Crash]]] = [
    (6, A_SETS, PROPOSALS + crash(2, 1, 1) + end(1), OF_CORE, [Crash(2, 1, 1)]),
    (6, A_SETS, PROPOSALS + crash(2, 1, 0) + end(1), OF_CORE, [Crash(2, 1, 0)]),
    (6, A_SETS, PROPOSALS + crash(2, 1, 3) + end(1), OF_CORE, [Crash(2, 1, 3)]),
    (6, A_SETS, PROPOSALS + crash(1, 1, 0) + crash(2, 2, 0) + end(2), OF_CORE,
     [Crash(1, 1, 0), Crash(2, 2, 0)]),
    (1, [1], proposal(1, 4) + end(0), [4], []),
    # The same numbers by PW, by PW and PR; numbers that need four bytes, lowest byte first.
    (6, A_SETS, b"PW\1\7\0\0\0PW\2\5\0\0\0PW\3\x09\0\0\0PW\4\1\0\0\0PW\5\1\0\0\0PW\6\1\0\0\0" +
     crash(2, 1, 1) + end(1), OF_CORE, [Crash(2, 1, 1)]),
    (6, A_SETS, b"PW\1\7\0\0\0PR\2\5\0PR\3\x09\0PW\4\1\0\0\0PR\5\1\0PW\6\1\0\0\0" + end(0),
     OF_CORE, []),
    (1, [1], b"PW\1\1\2\3\4" + end(0), [0x04030201], []),
    (1, [1], b"PW\1\xff\xff\xff\xff" + end(0), [2 ** 32 - 1], []),
    (2, [1, 2], b"PR\1\xff\xffPW\2\0\0\1\0" + end(0), [65535, 65536], []),
    # Case B with the records of the core drives alone.
    (6, A_SETS, PROPOSALS[:15] + crash(2, 1, 1) + end(1), OF_CORE, [Crash(2, 1, 1)]),
    *((n, sets, data, numbers, []) for n, sets, data, numbers in proposals.SAID),
]


def refused_runs() -> Iterator[RunSample]:
    yield from ON_TABLES
    yield from ((6, A_SETS, data, due) for data, due in ON_A)
    yield from ((6, A_SETS, PROPOSALS + data, due) for data, due in BEHIND)


def run_samples() -> Iterator[bytes]:
    """The tables and run files of all samples, for the run program."""
    for n, sets, data, *_ in (*refused_runs(), *proposals.samples(), *SAID):
        yield table(n, sets) + data
