"""Operations of the exchange: exchanges as one drive sees them, with refused
calls between, handmade states, and openings.
"""

from random import Random
from typing import Iterator

from regdulyn import Exchange, Refusal, close, message, opening, send

from .calls import Script
from .frames import accepted_table, places
from .messages import as_old, damaged_message, made_message
from .scenarios import any_pattern, patterns, run_table, stop_rich_table
from .set_calls import refused_table
from .states import fair_state, quiet_state

LARGEST = 2000
BUFFER = 384


# Calls that are mostly refused

def odd_send(rng: Random, script: Script) -> None:
    """Into a buffer that just fits, is too short, or from an odd place."""
    x = script.state
    due = 8 if x.decision is not None else 12 + 4 * x.known_at_start.bit_count()
    start = rng.choice((0, 0, 1, 7, rng.randint(0, BUFFER)))
    length = rng.choice((0, due + start, due + start - 1, due + start + 1, BUFFER,
                         rng.randint(0, BUFFER)))
    length = max(0, min(length, BUFFER))
    if rng.random() < 0.1:
        start = rng.choice((length, length + 1, BUFFER, BUFFER + 1, 2 ** 32, 2 ** 63, 2 ** 64 - 1))
    script.send(length, start)


def refused_opening(rng: Random, script: Script) -> None:
    """A table or a drive number that is refused."""
    bad_table = rng.random() < 0.6
    n, sets = (refused_table if bad_table else accepted_table)(rng)
    bad_drive = not bad_table or rng.random() < 0.2
    own = rng.choice((0, n + 1, 65, 255)) % 256 if bad_drive else rng.randint(1, max(n, 1))
    script.open(n, sets, own, any_pattern(rng))


def stray_call(rng: Random, script: Script, seen: list[bytes]) -> None:
    """A call between those of an exchange."""
    chance = rng.random()
    if chance < 0.25:
        odd_send(rng, script)
    elif chance < 0.3:
        refused_opening(rng, script)
    elif chance < 0.5 and seen:
        script.message(rng.choice(seen))
    elif chance < 0.8 and seen:
        script.message(damaged_message(rng, rng.choice(seen)))
    elif chance < 0.9:
        script.message(damaged_message(rng, made_message(rng, script.state)))
    else:
        script.message(made_message(rng, script.state))


# Exchanges

def exchange_table(rng: Random) -> tuple[int, list[int], int]:
    """A table whose exchange is neither dull nor costly, with its core."""
    while True:
        n, sets, core = (stop_rich_table if rng.random() < 0.5 else run_table)(rng)
        if core.bit_count() ** 2 * n <= LARGEST or rng.random() < 0.02:
            return n, sets, core


class Others:
    """The drives of an exchange, each in its reference state."""

    def __init__(self, rng: Random, n: int, sets: list[int], proposals: list[int]) -> None:
        self.rng = rng
        self.states = {d: opening(n, sets, d, proposals[d - 1]) for d in range(1, n + 1)}
        self.gone: set[int] = set()

    def live(self) -> list[int]:
        return [d for d, x in self.states.items() if d not in self.gone and not x.halted]

    def outputs(self, watched: int) -> list[tuple[int, int, bytes]]:
        """Each message with its sender and receiver, in any order. A drive at
        times stops on the way, but never the watched one."""
        found = []
        for sender in self.live():
            x = self.states[sender]
            if not x.in_core:
                continue
            others = [d for d in self.states if d != sender]
            due = sorted(others, key=lambda d: (not x.core >> d - 1 & 1, d))
            if sender != watched and self.rng.random() < 0.25:
                self.gone.add(sender)
                due = due[:self.rng.randint(0, len(due))]
            data = send(x)
            found += [(sender, receiver, data) for receiver in due]
        self.rng.shuffle(found)
        return found

    def deliver(self, receiver: int, data: bytes) -> None:
        try:
            self.states[receiver] = message(self.states[receiver], data)
        except Refusal:
            pass

    def close(self, watched: int) -> None:
        for drive in self.live():
            if drive != watched:
                self.states[drive] = close(self.states[drive])


def exchange(rng: Random, script: Script) -> None:
    """One drive's calls in an exchange, with others between them; at times it gets a message as
    an old record, which must not matter."""
    n, sets, core = exchange_table(rng)
    proposals = patterns(rng, n)
    watched = rng.choice(places(core)) + 1 if rng.random() < 0.6 else rng.randint(1, n)
    noise = rng.choice((0, 0.2, 0.6))
    others = Others(rng, n, sets, proposals)
    script.open(n, sets, watched, proposals[watched - 1])
    seen: list[bytes] = []
    for _ in range(core.bit_count()):
        script.send(BUFFER, rng.choice((0, 0, 100)))
        for _, receiver, data in others.outputs(watched):
            if receiver != watched:
                others.deliver(receiver, data)
                continue
            while rng.random() < noise:
                stray_call(rng, script, seen)
            given = as_old(data) if rng.random() < 0.3 else data
            seen.append(given)
            script.message(given)
        others.close(watched)
        script.close()
        others.states[watched] = script.state
        if script.state.halted:
            break
    if rng.random() < 0.5:
        script.close()
        stray_call(rng, script, seen)


# Handmade states and openings

def handmade(rng: Random, script: Script, broken: Iterator[Exchange]) -> None:
    """Calls on a state that no exchange need reach."""
    if rng.random() < 0.15:
        script.load(quiet_state(rng))
        script.close()
        return
    script.load(next(broken) if rng.random() < 0.3 else fair_state(rng))
    for _ in range(rng.randint(1, 6)):
        chance = rng.random()
        if chance < 0.2:
            script.close()
        elif chance < 0.4:
            odd_send(rng, script)
        elif chance < 0.9:
            script.message(made_message(rng, script.state))
        else:
            script.message(damaged_message(rng, made_message(rng, script.state)))


def openings(rng: Random, script: Script) -> None:
    """Accepted and refused ones."""
    for _ in range(rng.randint(1, 4)):
        if rng.random() < 0.5:
            refused_opening(rng, script)
        else:
            n, sets = accepted_table(rng)
            script.open(n, sets, rng.randint(1, n), any_pattern(rng))
