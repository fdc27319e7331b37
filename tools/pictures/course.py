"""The course of an exchange, as far as a picture needs it: who is there in a round, who sends what to whom, who halts.

Decisions, stops and the core come from the listing, and what a stopped drive had decided before from the listing of
the same file with only the stops of earlier rounds: until the stop the two runs are one. The rest is document 01's
rules on sends and halting, read off these rounds; nothing is decided here.
"""

from dataclasses import dataclass, replace
from typing import Callable, Optional

from contents import Contents, file_bytes
from regdulyn.masks import drives

from .listings import Decisions, RunListing, Unfit, run_listing


@dataclass(frozen=True)
class Send:
    """One drive's message of a round: whether it is its decision (DW), who gets it, and who of those that go on does
    not, since the sender stops first."""

    sender: int
    decided: bool
    got: list[int]
    missed: list[int]
    last: bool


class Course:
    """What each drive does in which round."""

    def __init__(self, contents: Contents, listing: RunListing, ask: Callable[[bytes], str]):
        self.contents, self.listing = contents, listing
        self.stops = {stop.drive: stop for stop in contents.stops}
        self.core = drives(int(listing.core, 16))
        frame = list(range(1, contents.drives + 1))
        self.listeners = [d for d in frame if d not in self.core]
        stopped = [drive for drive, decision in listing.decisions.items() if decision is None]
        if (list(listing.decisions) != frame or stopped != list(self.stops) or self.core[-1] > len(frame)
                or not set(self.core) <= set(contents.patterns) <= set(frame)):
            raise Unfit("the listing is not of this file")
        earlier = {r: run_listing(ask(self._before(r))).decisions
                   for r in {stop.round for stop in contents.stops} if r > 1}
        self.decided = {drive: self._decision(drive, earlier) for drive in listing.decisions}
        self.rounds = max(self.end(drive) for drive in self.decided)

    def _before(self, round_number: int) -> bytes:
        """The same file with only the stops of rounds before this one."""
        stops = [stop for stop in self.contents.stops if stop.round < round_number]
        return file_bytes(replace(self.contents, stops=stops))

    def _decision(self, drive: int, earlier: dict[int, Decisions]) -> Optional[tuple[int, int]]:
        """Number and round; of a stopped drive what it decided before its stop, if it did. `earlier` has for each
        round of a stop what is decided with the stops before that round alone."""
        listed = self.listing.decisions[drive]
        stop = self.stops.get(drive)
        if stop is None or stop.round == 1:
            return listed
        decision = earlier[stop.round].get(drive)
        return decision if decision and decision[1] < stop.round else None

    def halt(self, drive: int) -> Optional[int]:
        """The round at whose close the drive halts; None if it stops before."""
        if self.decided[drive] is None:
            return None
        after = self.decided[drive][1]
        if drive in self.core and after < len(self.core):
            after += 1
        stop = self.stops.get(drive)
        return None if stop and stop.round <= after else after

    def stop(self, drive: int) -> Optional[int]:
        """The round in which the drive stops; None if it halts before or stays up."""
        return self.stops[drive].round if self.halt(drive) is None else None

    def end(self, drive: int) -> int:
        """The drive's last round."""
        return self.halt(drive) or self.stop(drive)

    def order(self, sender: int) -> list[int]:
        """To whom a drive sends: the other core drives, rising, then the listeners, rising."""
        return [d for d in self.core if d != sender] + self.listeners

    def sends(self, round_number: int) -> list[Send]:
        """The messages of a round that reach somebody; what goes to a drive that has halted or stops in this round
        is left out."""
        closing = {d for d in self.decided if self.end(d) >= round_number and self.stop(d) != round_number}
        found = []
        for sender in (d for d in self.core if self.end(d) >= round_number):
            order, last = self.order(sender), self.stop(sender) == round_number
            count = self.stops[sender].sends if last else len(order)
            decision = self.decided[sender]
            got, missed = ([d for d in part if d in closing] for part in (order[:count], order[count:]))
            if got:
                found.append(Send(sender, decision is not None and decision[1] < round_number, got, missed, last))
        return found
