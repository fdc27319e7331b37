"""Run files and the simulated exchange.

A scenario is the pattern number each core drive proposes and the crashes. The
simulation makes the calls of a run in one fixed order: in each round each
sender's send and its messages, sender after sender, then the closes.
"""

from dataclasses import dataclass
from typing import Optional, Sequence

from .exchange import Exchange, check_drive, close, message, opening, send
from .masks import all_drives, bit, drives, mask_of, size
from .records import CRASH, END, PROPOSAL_WIDTHS, Reader, number
from .refusals import Refusal
from .tables import chosen_core, first_missed


@dataclass(frozen=True)
class Crash:
    """The drive acts normally before the round, makes so many sends of the
    round's list and is gone before the round closes."""

    drive: int
    round: int
    sends: int


@dataclass(frozen=True)
class Scenario:
    """What a run file says. Each drive has a place in `proposals`; a listener
    proposes nothing, and its place has 0."""

    proposals: list[int]
    crashes: list[Crash]


@dataclass(frozen=True)
class Outcome:
    """What a run gives: for each drive its number and round, or None if it
    has a CR; the core; and f, the number of core drives with a CR."""

    decisions: list[Optional[tuple[int, int]]]
    core: int
    stops: int


# Refusals of stops

def _check_crash(n: int, core: int, crash: Crash, last: int) -> None:
    """8, 9, 10."""
    check_drive(n, crash.drive)
    if crash.drive <= last:
        raise Refusal(8)
    if not 1 <= crash.round <= size(core):
        raise Refusal(9)
    if crash.sends > (n - 1 if core & bit(crash.drive) else 0):
        raise Refusal(10)


def _check_untouched(sets: Sequence[int], crashes: Sequence[Crash]) -> None:
    """11: every survivor set has a drive with a CR."""
    stopped = mask_of(crash.drive for crash in crashes)
    if first_missed(sets, stopped) is None:
        raise Refusal(11)


# Run file

def read_run(data: bytes, n: int, sets: Sequence[int]) -> Scenario:
    """The scenario in a run file for this table; first the table's refusals."""
    core = chosen_core(n, sets)
    reader = Reader(data)
    proposals = _read_proposals(reader, n, core)
    crashes = _read_crashes(reader, n, core)
    if number(reader.take(1)) != len(crashes):
        raise Refusal(6)
    reader.end()
    _check_untouched(sets, crashes)
    return Scenario(proposals, crashes)


def _read_proposals(reader: Reader, n: int, core: int) -> list[int]:
    """The numbers of the core drives, whose PR or PW are owed; a listener's is
    checked for its place among them and dropped. They end where none is owed
    and something else stands, or behind drive n's: CR or EN is due there."""
    proposals = [0] * n
    last, owed = 0, core
    while owed or (last < n and reader.stands(*PROPOSAL_WIDTHS)):
        width = PROPOSAL_WIDTHS[reader.mark(*PROPOSAL_WIDTHS)]
        rest = reader.take(1 + width)
        drive = rest[0]
        check_drive(n, drive)
        if drive <= last or any(lower < drive for lower in drives(owed)):
            raise Refusal(8)
        if core & bit(drive):
            proposals[drive - 1] = number(rest[1:])
            owed &= ~bit(drive)
        last = drive
    return proposals


def _read_crashes(reader: Reader, n: int, core: int) -> list[Crash]:
    """The CR records; stops behind EN's mark."""
    crashes: list[Crash] = []
    last = 0
    while reader.mark(CRASH, END) == CRASH:
        crash = Crash(*reader.take(3))
        _check_crash(n, core, crash, last)
        crashes.append(crash)
        last = crash.drive
    return crashes


# Simulated exchange

def stops_by_drive(stopped: int, rounds: Sequence[int], sends: Sequence[int]) -> list[Crash]:
    """Stops in the form in which a caller hands them over: the set of the
    drives with a CR, and at each drive's place its round and its sends."""
    return [Crash(drive, rounds[drive - 1], sends[drive - 1]) for drive in drives(stopped)]


def simulate(n: int, sets: Sequence[int], proposals: Sequence[int],
             stops: Sequence[Crash]) -> Outcome:
    """The outcome of a run; the table's refusals, then 8, 9, 10 for each stop
    in order, then 11. `proposals` has a place for each drive; what stands at a
    listener's does not matter, since at its opening it knows no number."""
    core = chosen_core(n, sets)
    last = 0
    for crash in stops:
        _check_crash(n, core, crash, last)
        last = crash.drive
    _check_untouched(sets, stops)
    decisions = _play(n, core, _open_all(n, sets, proposals), stops)
    stopped = mask_of(crash.drive for crash in stops)
    shown = [None if bit(drive) & stopped else decisions[drive]
             for drive in range(1, n + 1)]
    return Outcome(shown, core, size(core & stopped))


def _open_all(n: int, sets: Sequence[int], proposals: Sequence[int]) -> dict[int, Exchange]:
    if len(proposals) != n:
        raise ValueError("a run has a place for each drive's number")
    return {drive: opening(n, sets, drive, proposals[drive - 1])
            for drive in range(1, n + 1)}


def _play(n: int, core: int, states: dict[int, Exchange],
          stops: Sequence[Crash]) -> dict[int, tuple[int, int]]:
    """Number and round of each drive that decides."""
    crashes = {crash.drive: crash for crash in stops}
    decisions: dict[int, tuple[int, int]] = {}
    for round_number in range(1, size(core) + 1):
        active = [drive for drive, state in states.items() if not state.halted]
        gone = [drive for drive in active
                if drive in crashes and crashes[drive].round == round_number]
        closing = set(active).difference(gone)
        for sender in [drive for drive in active if bit(drive) & core]:
            receivers = send_order(n, core, sender)
            if sender in gone:
                receivers = receivers[:crashes[sender].sends]
            _deliver(states, sender, [r for r in receivers if r in closing])
        for drive in closing:
            states[drive] = close(states[drive])
            if states[drive].decision is not None and drive not in decisions:
                decisions[drive] = (states[drive].decision, round_number)
        for drive in gone:
            del states[drive]
    return decisions


def send_order(n: int, core: int, sender: int) -> list[int]:
    """The other core drives, rising, then the listeners, rising."""
    others = [drive for drive in drives(core) if drive != sender]
    return others + list(drives(all_drives(n) & ~core))


def _deliver(states: dict[int, Exchange], sender: int, receivers: list[int]) -> None:
    """One send, and one message call to each receiver."""
    data = send(states[sender])
    for receiver in receivers:
        states[receiver] = message(states[receiver], data)
