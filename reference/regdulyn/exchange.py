"""One drive's part in an exchange: one process's part in consensus by
SyncCrash.

Four calls: opening, send, message, close. Each takes the state by value and
returns the new one, so a refused call leaves everything as it was.
"""

from dataclasses import dataclass, replace
from typing import Optional, Sequence

from .masks import MAX_DRIVES, all_drives, bit, drives, is_part, size
from .records import (DECIDE, DECIDE_WIDTHS, KNOWN, KNOWN_WIDTHS, MASK_WIDTH, PATTERN_WIDTH,
                      Reader, field, fill, number, numbers_of)
from .refusals import Refusal
from .tables import chosen_core


@dataclass
class Exchange:
    """The state of one drive.

    heard_before: the senders heard in the round before, the core in round 0.
    heard: the senders accepted in this round; oneself is added at the close.
    numbers: the pattern number of each known drive, by drive from 1.
    announcement: sender and value of this round's lowest-numbered DC or DW sender.
    """

    n: int
    own: int
    core: int
    round: int
    heard_before: int
    heard: int
    known: int
    known_at_start: int
    numbers: list[int]
    announcement: Optional[tuple[int, int]]
    decision: Optional[int]
    halted: bool

    @property
    def in_core(self) -> bool:
        """Core drives talk, the others listen."""
        return self.core & bit(self.own) != 0


@dataclass(frozen=True)
class Message:
    """A KN or KW has a mask and its drives' pattern numbers, rising by drive; a DC
    or DW has neither, but a value."""

    sender: int
    round: int
    mask: int
    patterns: tuple[int, ...]
    value: Optional[int] = None


# Refusals of every call on a state

def _breaks_rule(state: Exchange) -> bool:
    """28's list."""
    if not 1 <= state.n <= MAX_DRIVES:
        return True
    if state.core == 0 or not is_part(state.core, all_drives(state.n)):
        return True
    if not 1 <= state.own <= state.n:
        return True
    if state.in_core and not state.known & state.known_at_start & bit(state.own):
        return True
    if not 1 <= state.round <= size(state.core):
        return True
    sets = state.heard_before | state.heard | state.known | state.known_at_start
    return not is_part(sets, state.core)


def _check_state(state: Exchange) -> None:
    """28, then 23."""
    if _breaks_rule(state):
        raise Refusal(28)
    if state.halted:
        raise Refusal(23)


# Opening

def check_drive(n: int, drive: int) -> None:
    """8: a drive number outside 1 to n."""
    if not 1 <= drive <= n:
        raise Refusal(8)


def opening(n: int, sets: Sequence[int], own: int, pattern: int) -> Exchange:
    """A core drive knows its own number, a listener none, not even its own."""
    core = chosen_core(n, sets)
    check_drive(n, own)
    numbers = [0] * MAX_DRIVES
    known = core & bit(own)
    if known:
        numbers[own - 1] = pattern
    return Exchange(n=n, own=own, core=core, round=1, heard_before=core, heard=0,
                    known=known, known_at_start=known, numbers=numbers,
                    announcement=None, decision=None, halted=False)


# Send

def send(state: Exchange) -> bytes:
    """KW with all that was known when the round began, or DW once decided."""
    _check_state(state)
    if not state.in_core:
        raise Refusal(27)
    head = field(state.own, 1) + field(state.round, 1)
    if state.decision is not None:
        return DECIDE + head + field(state.decision, PATTERN_WIDTH)
    values = [field(state.numbers[drive - 1], PATTERN_WIDTH)
              for drive in drives(state.known_at_start)]
    return KNOWN + head + field(state.known_at_start, MASK_WIDTH) + b"".join(values)


def send_into(state: Exchange, buffer: bytearray, start: int) -> int:
    """Writes the message from `start` on; returns the place after it."""
    return fill(buffer, start, send(state))


# Message

def message(state: Exchange, data: bytes) -> Exchange:
    """The state after accepting one message."""
    _check_state(state)
    received = _read_message(state.n, data)
    _check_message(state, received)
    heard = state.heard | bit(received.sender)
    if received.value is not None:
        return replace(state, heard=heard, announcement=_announced(state, received))
    numbers = list(state.numbers)
    for drive, pattern in zip(drives(received.mask), received.patterns):
        numbers[drive - 1] = pattern
    return replace(state, heard=heard, known=state.known | received.mask,
                   numbers=numbers)


def _announced(state: Exchange, received: Message) -> tuple[int, int]:
    """The announcement of the lowest-numbered DC or DW sender so far."""
    new = (received.sender, received.value)
    if state.announcement is None or new[0] < state.announcement[0]:
        return new
    return state.announcement


def _read_message(n: int, data: bytes) -> Message:
    """Mark cut (1), 2, the rest up to the mask of a KN or KW cut (1), 8, 15,
    values cut (1), 7."""
    reader = Reader(data)
    kind = reader.mark(*KNOWN_WIDTHS, *DECIDE_WIDTHS)
    if kind in DECIDE_WIDTHS:
        head = reader.take(2 + DECIDE_WIDTHS[kind])
        check_drive(n, head[0])
        reader.end()
        return Message(head[0], head[1], 0, (), number(head[2:]))
    head = reader.take(2 + MASK_WIDTH)
    sender, mask = head[0], number(head[2:])
    check_drive(n, sender)
    if not mask & bit(sender) or not is_part(mask, all_drives(n)):
        raise Refusal(15)
    width = KNOWN_WIDTHS[kind]
    patterns = numbers_of(reader.take(width * size(mask)), width)
    reader.end()
    return Message(sender, head[1], mask, patterns)


def _check_message(state: Exchange, received: Message) -> None:
    """22, 26, 24, 21, 25."""
    sender = bit(received.sender)
    if received.sender == state.own or not is_part(sender | received.mask, state.core):
        raise Refusal(22)
    if received.round != state.round:
        raise Refusal(26)
    if not sender & state.heard_before:
        raise Refusal(24)
    if sender & state.heard:
        raise Refusal(21)
    for drive, pattern in zip(drives(received.mask), received.patterns):
        if state.numbers[drive - 1] != pattern and state.known & bit(drive):
            raise Refusal(25)


# Close

def close(state: Exchange) -> Exchange:
    """The state after the round: decided or not, halted or in the next round."""
    _check_state(state)
    heard = state.heard | (bit(state.own) if state.in_core else 0)
    decision = _decision(state, heard)
    halted = _halts(state, decision)
    return replace(state, heard_before=heard, heard=0, known_at_start=state.known,
                   announcement=None, decision=decision, halted=halted,
                   round=state.round if halted else state.round + 1)


def _decision(state: Exchange, heard: int) -> Optional[int]:
    """A decided drive keeps its number; then a DC or DW; then a quiet round."""
    if state.decision is not None:
        return state.decision
    if state.announcement is not None:
        return state.announcement[1]
    if heard and heard == state.heard_before:
        # A handmade listener may be quiet with nothing known: it goes on.
        return min((state.numbers[drive - 1] for drive in drives(state.known)),
                   default=None)
    return None


def _halts(state: Exchange, decision: Optional[int]) -> bool:
    """A drive decided before this round halts, a listener on deciding, and
    all in the round whose number is the core's size."""
    if state.decision is not None or state.round == size(state.core):
        return True
    return decision is not None and not state.in_core
