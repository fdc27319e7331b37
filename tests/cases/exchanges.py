"""Whole exchanges: the simulation against the plain rules, against lists of
calls in any order that a run allows, and the agreement of drives."""

from random import Random
from typing import Iterator

import plain
import regdulyn
from inputs.frames import places
from inputs.messages import as_old
from inputs.records import Crash
from inputs.scenarios import Scenario, accepted_run

from . import Case, refusal


def scenarios(seed: int, count: int) -> Iterator[Scenario]:
    """So many accepted scenarios of small frames."""
    rng = Random(seed)
    found = 0
    while found < count:
        scenario = accepted_run(rng)
        if scenario[0] <= 14:
            found += 1
            yield scenario


def exchange_definitions() -> Iterator[Case]:
    for n, sets, proposals, stops, core in scenarios(21, 700):
        name = f"n {n} sets {sets} proposals {proposals} stops {stops}"
        drives = {drive for drive in range(1, n + 1) if core >> drive - 1 & 1}
        rules = plain.outcome(n, drives, proposals, {s.drive: (s.round, s.sends) for s in stops})
        stopped = {stop.drive for stop in stops}
        expected = [None if d in stopped else rules.get(d) for d in range(1, n + 1)]
        found = regdulyn.simulate(n, sets, proposals, stops)
        yield f"rules: {name}", (found.decisions, found.core), (expected, core)
        yield f"f: {name}", found.stops, len(drives & stopped)
        yield f"agreement: {name}", agrees(n, core, proposals, stops, found.decisions), True
        yield f"any order: {name}", Run((n, sets, proposals, stops, core)).play(), expected


def agrees(n: int, core: int, proposals: list[int], stops: list[Crash], decisions: list) -> bool:
    """The drives that stay up decide one number, proposed by a core drive,
    by round f + 1."""
    stopped = {stop.drive for stop in stops}
    late = 1 + sum(core >> drive - 1 & 1 for drive in stopped)
    values = set()
    for drive in range(1, n + 1):
        if drive in stopped:
            continue
        if decisions[drive - 1] is None or decisions[drive - 1][1] > late:
            return False
        values.add(decisions[drive - 1][0])
    return len(values) == 1 and values <= {
        proposals[place] for place in range(n) if core >> place & 1}


class Run:
    """A list of calls as the section on runs allows it: the messages of a
    round in any order, drives that are halted or gone passed over or not,
    closes as early as allowed or later, and refused calls in between. Some
    messages arrive as old records."""

    def __init__(self, scenario: Scenario):
        n, sets, proposals, stops, core = scenario
        self.rng = Random(repr((n, sets, proposals, stops)))
        self.n, self.core = n, core
        self.stops = {stop.drive: stop for stop in stops}
        self.states = {d: regdulyn.opening(n, sets, d, proposals[d - 1]) for d in range(1, n + 1)}
        self.decided: dict[int, tuple[int, int]] = {}

    def play(self) -> list:
        for round_number in range(1, self.core.bit_count() + 1):
            self.play_round(round_number)
        return [None if d in self.stops else self.decided.get(d) for d in range(1, self.n + 1)]

    def stop_round(self, drive: int) -> int:
        return self.stops[drive].round if drive in self.stops else 99

    def play_round(self, round_number: int) -> None:
        senders = [d for d in drive_numbers(self.core)
                   if not self.states[d].halted and self.stop_round(d) >= round_number]
        closing = {d for d in self.states
                   if not self.states[d].halted and self.stop_round(d) > round_number}
        pending = self.messages(senders, round_number)
        self.rng.shuffle(pending)
        waiting = set(closing)
        while pending or waiting:
            due = {receiver for receiver, _ in pending}
            ready = sorted(waiting - due)
            if ready and (not pending or self.rng.random() < 0.3):
                self.close(self.rng.choice(ready), round_number)
                waiting.difference_update(d for d in ready if self.closed(d, round_number))
            else:
                self.deliver(*pending.pop(), closing)

    def messages(self, senders: list[int], round_number: int) -> list[tuple[int, bytes]]:
        core = set(drive_numbers(self.core))
        found = []
        for sender in senders:
            receivers = plain.send_list(self.n, core, sender)
            if self.stop_round(sender) == round_number:
                receivers = receivers[:self.stops[sender].sends]
            data = regdulyn.send(self.states[sender])
            found += [(receiver, data) for receiver in receivers]
        return found

    def deliver(self, receiver: int, data: bytes, closing: set[int]) -> None:
        if receiver not in closing:
            # Halted or gone: passed over, or called with whatever answer.
            if self.rng.random() < 0.5:
                refusal(regdulyn.message, self.states[receiver], data)
            return
        given = as_old(data) if self.rng.random() < 0.3 else data
        self.states[receiver] = regdulyn.message(self.states[receiver], given)
        if self.rng.random() < 0.2:
            # The same message again is a refused call.
            assert refusal(regdulyn.message, self.states[receiver], data) == 21

    def close(self, drive: int, round_number: int) -> None:
        state = self.states[drive] = regdulyn.close(self.states[drive])
        if state.decision is not None and drive not in self.decided:
            self.decided[drive] = (state.decision, round_number)

    def closed(self, drive: int, round_number: int) -> bool:
        return self.states[drive].halted or self.states[drive].round > round_number


def drive_numbers(mask: int) -> list[int]:
    return [place + 1 for place in places(mask)]
