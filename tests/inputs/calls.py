"""Scripts of calls, with what tests/call_script.c must print for them.

A `Script` makes each operation on the reference's state as it is added, so
that a generator sees the state it has reached. The layout of the operations
stands in tests/call_script.c.
"""

from typing import Callable, Iterable

from regdulyn import (Crash, Exchange, Outcome, Refusal, Verdict, back, close, cores,
                      faults_from_table, message, missed_set, opening, read_faults, read_run,
                      send_into, simulate, stops_by_drive, table_from_faults, threshold_table,
                      verdict, write_faults_into, write_table_into)

from .frames import MAX_DRIVES

FILLING = 0xA5
MAX_BYTES = 65536


def blank() -> Exchange:
    """The state that a script starts with."""
    return Exchange(0, 0, 0, 0, 0, 0, 0, 0, [0] * 64, None, None, False)


def field(value: int, width: int) -> bytes:
    return value.to_bytes(width, "little")


def state_bytes(x: Exchange) -> bytes:
    """The fields of an operation L."""
    sets = (x.heard_before, x.heard, x.known, x.known_at_start)
    sender, value = x.announcement or (0, 0)
    return b"".join((
        field(x.n, 1), field(x.own, 1), field(x.core, 8), field(x.round, 1),
        *(field(mask, 8) for mask in sets), *(field(v, 4) for v in x.numbers),
        field(int(x.announcement is not None), 1), field(sender, 1), field(value, 4),
        field(int(x.decision is not None), 1), field(x.decision or 0, 4),
        field(int(x.halted), 1)))


def state_line(x: Exchange) -> str:
    announced = "none" if x.announcement is None else "by %d %d" % x.announcement
    decided = "undecided" if x.decision is None else f"decided {x.decision}"
    return (f"state n {x.n} own {x.own} core {x.core:x} round {x.round}"
            f" before {x.heard_before:x} heard {x.heard:x} known {x.known:x}"
            f" start {x.known_at_start:x} announced {announced} {decided}"
            f"{' halted' if x.halted else ''}"
            f" numbers {''.join(f'{v:08x}' for v in x.numbers)}")


def list_bytes(masks: list[int]) -> bytes:
    """The list at the end of an operation."""
    return field(len(masks), 2) + b"".join(field(mask, 8) for mask in masks)


def list_line(word: str, masks: list[int]) -> str:
    return " ".join([word, *(f"{mask:x}" for mask in masks)])


def within(places: int, masks: list[int]) -> list[int]:
    """The masks, or 14 if there are more than so many places."""
    if len(masks) > places:
        raise Refusal(14)
    return masks


def verdict_line(found: Verdict) -> str:
    """Four positions and four blocks, with zeros where there are none."""
    unused = [0] * (4 - len(found.positions))
    positions = " ".join(str(place) for place in [*found.positions, *unused])
    blocks = " ".join(f"{block:x}" for block in [*found.blocks, *unused])
    return f"{'yes' if found.yes else 'no'} sets {positions} blocks {blocks}"


def outcome_line(found: Outcome) -> str:
    """The core, how many of its drives stop, and how each drive ends."""
    endings = ("stopped" if end is None else "decides %d round %d" % end
               for end in found.decisions)
    return " ".join([f"core {found.core:x} stops {found.stops}",
                     *(f"drive {d} {ending}" for d, ending in enumerate(endings, start=1))])


def answer(call: Callable[[], str]) -> str:
    """The line that the call gives, or its refusal's."""
    try:
        return call()
    except Refusal as refusal:
        return f"refused {refusal.number}"


class Script:
    """Operations, the state they have reached, and the letter and lines of each."""

    def __init__(self) -> None:
        self.data = b""
        self.letters = ""
        self.lines: list[list[str]] = []
        self.state = blank()

    def _add(self, operation: bytes, *lines: str) -> None:
        self.data += operation
        self.letters += chr(operation[0])
        self.lines.append([*lines, state_line(self.state)])

    def _call(self, operation: bytes, call: Callable[[], Exchange]) -> bool:
        """Whether the call is accepted; a refused one keeps the state."""
        def take() -> str:
            self.state = call()
            return "accepted"
        line = answer(take)
        self._add(operation, line)
        return line == "accepted"

    def _fill(self, operation: bytes, length: int, start: int,
              call: Callable[[bytearray], int]) -> None:
        """A call that fills a lent buffer from the starting place on."""
        buffer = bytearray([FILLING]) * length
        line = answer(lambda: f"written {call(buffer) - start}")
        self._add(operation, line, f"buffer {buffer.hex()}")

    def load(self, x: Exchange) -> None:
        self.state = x
        self._add(b"L" + state_bytes(x))

    def open(self, n: int, sets: list[int], own: int, pattern: int) -> bool:
        operation = (b"O" + field(n, 1) + field(own, 1) + field(pattern, 4) +
                     list_bytes(sets))
        return self._call(operation, lambda: opening(n, sets, own, pattern))

    def send(self, length: int, start: int) -> None:
        self._fill(b"S" + field(length, 2) + field(start, 8), length, start,
                   lambda buffer: send_into(self.state, buffer, start))

    def message(self, data: bytes) -> bool:
        return self._call(b"M" + field(len(data), 2) + data,
                          lambda: message(self.state, data))

    def close(self) -> bool:
        return self._call(b"C", lambda: close(self.state))

    def back(self, n: int, groups: list[int]) -> None:
        self._add(b"B" + field(n, 1) + list_bytes(groups),
                  answer(lambda: list_line("found", back(n, groups))))

    def write(self, n: int, sets: list[int], length: int, start: int) -> None:
        self._fill(b"W" + field(n, 1) + field(length, 2) + field(start, 8) + list_bytes(sets),
                   length, start, lambda buffer: write_table_into(buffer, start, n, sets))

    def judge(self, k: int, n: int, sets: list[int]) -> None:
        self._add(b"V" + field(k, 1) + field(n, 1) + list_bytes(sets),
                  answer(lambda: verdict_line(verdict(k, n, sets))))

    def miss(self, n: int, sets: list[int], group: int) -> None:
        def look() -> str:
            position = missed_set(n, sets, group)
            return f"missed {position}" if position else "none missed"
        self._add(b"H" + field(n, 1) + field(group, 8) + list_bytes(sets), answer(look))

    def cores(self, n: int, sets: list[int]) -> None:
        self._add(b"K" + field(n, 1) + list_bytes(sets),
                  answer(lambda: list_line("cores", cores(n, sets))))

    def threshold(self, n: int, t: int) -> None:
        self._add(b"T" + field(n, 1) + field(t, 1),
                  answer(lambda: list_line("found", threshold_table(n, t))))

    def read_faults(self, data: bytes, places: int) -> None:
        def read() -> str:
            n, groups = read_faults(data)
            return list_line(f"read n {n} used {len(data)} groups", within(places, groups))
        self._add(b"F" + field(places, 2) + field(len(data), 2) + data, answer(read))

    def write_faults(self, n: int, groups: list[int], length: int, start: int) -> None:
        self._fill(b"G" + field(n, 1) + field(length, 2) + field(start, 8) + list_bytes(groups),
                   length, start, lambda buffer: write_faults_into(buffer, start, n, groups))

    def table_from_faults(self, n: int, groups: list[int], places: int) -> None:
        self._add(b"P" + field(n, 1) + field(places, 2) + list_bytes(groups), answer(
            lambda: list_line("found", within(places, table_from_faults(n, groups)))))

    def faults_from_table(self, n: int, sets: list[int], places: int) -> None:
        self._add(b"Q" + field(n, 1) + field(places, 2) + list_bytes(sets), answer(
            lambda: list_line("found", within(places, faults_from_table(n, sets)))))

    def simulate_file(self, n: int, sets: list[int], data: bytes) -> None:
        def play() -> str:
            run = read_run(data, n, sets)
            return outcome_line(simulate(n, sets, run.proposals, run.crashes))
        self._add(b"R" + field(n, 1) + field(len(data), 2) + data + list_bytes(sets), answer(play))

    def simulate(self, n: int, sets: list[int], numbers: list[int], stops: Iterable[Crash],
                 unused: tuple[int, int, int] = (0, 1, 0)) -> None:
        """With the stops of drives 1 to 64, the last of each drive; `unused` is the
        number, the round and the sends at the other places, which must not matter."""
        made = {stop.drive: stop for stop in stops if 1 <= stop.drive <= MAX_DRIVES}
        none = Crash(0, *unused[1:])
        by_drive = [made.get(drive, none) for drive in range(1, MAX_DRIVES + 1)]
        rounds = bytes(stop.round for stop in by_drive)
        sends = bytes(stop.sends for stop in by_drive)
        stopped = sum(1 << drive - 1 for drive in made)
        given = (numbers + [unused[0]] * MAX_DRIVES)[:MAX_DRIVES]
        operation = (b"X" + field(n, 1) + b"".join(field(v, 4) for v in given) +
                     field(stopped, 8) + rounds + sends + list_bytes(sets))
        self._add(operation, answer(lambda: outcome_line(
            simulate(n, sets, given[:n], stops_by_drive(stopped, rounds, sends)))))

    @property
    def expected(self) -> bytes:
        return "".join(f"{line}\n" for lines in self.lines for line in lines).encode()
