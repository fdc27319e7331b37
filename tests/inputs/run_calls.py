"""Operations of the simulated exchange, of a run file and of a scenario: fixed ones at
the limits, then random ones.
"""

from functools import partial
from itertools import product
from random import Random
from typing import Callable, Iterable, Iterator

from regdulyn import Crash

from . import proposals
from .calls import Script
from .damage import RUN_DAMAGE, damaged
from .frames import CROSSED, MAX_DRIVES, choices_of, full, places
from .records import end, run, run_records
from .samples import A_SETS, PATTERNS, SAID, refused_runs
from .scenarios import (EDGES, Scenario, accepted_run, some_left_out, some_wide, spoil_crash,
                        touch_every_set)
from .set_calls import limit_tables, refused_table

COSTLY = 2000

Call = Callable[[Script, int, list[int], list[int], Iterable[Crash]], None]


def play_file(script: Script, n: int, sets: list[int], numbers: list[int],
              stops: Iterable[Crash]) -> None:
    script.simulate_file(n, sets, run(numbers, list(stops)))


# At the limits

def falling(n: int) -> list[int]:
    return list(range(n, 0, -1))


def stops_on_tables(script: Script, call: Call) -> None:
    """No stop, and one of drive 1, on each table."""
    for n, sets in limit_tables():
        for stops in ([], [Crash(1, 1, 0)]):
            call(script, n, sets, falling(n), stops)


def edge_stops(n: int, size: int, drives: Iterable[int]) -> Iterator[Crash]:
    """A stop of each of the drives, with rounds and sends at the limits and beyond,
    also at once."""
    return (Crash(*fields) for fields in product(
        drives, sorted({0, 1, size, size + 1, 255}), sorted({0, 1, n - 1, n, 255})))


def stops_on_a(script: Script, call: Call) -> None:
    """Core drives, listeners and no drive of case A's table, with core 7."""
    for stop in edge_stops(6, 3, (1, 3, 4, 6, 7)):
        call(script, 6, A_SETS, PATTERNS, [stop])


def stops_on_others(script: Script, call: Call) -> None:
    """Tables of 1 and 2 drives, and of 64 with a core of 8."""
    for n, size, drives in ((1, 1, (1, 2)), (2, 2, (2, 3)), (64, 8, (8, 9, 64))):
        sets = [1 << place for place in range(size)]
        for stop in edge_stops(n, size, drives):
            call(script, n, sets, falling(n), [stop])


def stops_on_crossed(script: Script, call: Call) -> None:
    """Drives of two cores, where the chosen one is not the lowest as a mask."""
    n, groups = CROSSED[1]
    _, sets = choices_of(n, *groups)
    for stop in edge_stops(n, 2, (place + 1 for place in places(groups[0] | groups[1]))):
        call(script, n, sets, falling(n), [stop])


def two_stops(script: Script, call: Call) -> None:
    """Faults of two stops on case A's table, and of one where every set is touched."""
    first = (Crash(1, 1, 0), Crash(1, 0, 0), Crash(1, 1, 6), Crash(1, 4, 6))
    second = (Crash(2, 2, 1), Crash(2, 4, 0), Crash(2, 1, 6), Crash(4, 1, 1), Crash(7, 0, 9))
    for stops in product(first, second):
        call(script, 6, A_SETS, PATTERNS, stops)
    for stop in first:
        call(script, 6, A_SETS, PATTERNS, [stop, Crash(2, 1, 0), Crash(3, 1, 0)])


def touched_sets(script: Script, call: Call) -> None:
    """Stops of any drives of case A's table; of 63 and of all 64 drives where each is a set."""
    for stopped in range(1 << 6):
        stops = [Crash(place + 1, 1, 0) for place in places(stopped)]
        call(script, 6, A_SETS, PATTERNS, stops)
    singles = [1 << place for place in range(MAX_DRIVES)]
    for last in (63, 64):
        stops = [Crash(drive, 1, drive - 1) for drive in range(1, last + 1)]
        call(script, 64, singles, falling(64), stops)


def file_samples(script: Script) -> None:
    """The samples; two stops, rising, of one drive, and falling; a run file cut at every
    place, with other counts and more behind it; the same with PW and PR in turn, and with
    records of the core drives alone."""
    for n, sets, data, *_ in (*refused_runs(), *SAID):
        script.simulate_file(n, sets, data)
    for drives in product((1, 2, 4, 6), repeat=2):
        play_file(script, 6, A_SETS, PATTERNS, [Crash(drive, 1, 0) for drive in drives])
    stops = [Crash(2, 1, 1), Crash(4, 2, 0)]
    whole, mixed = run(PATTERNS, stops), run(PATTERNS, stops, 0b010101)
    cored = run(PATTERNS, stops, 0b010, left_out=0b111000)
    for data in (whole, mixed, cored):
        for length in range(len(data) + 1):
            script.simulate_file(6, A_SETS, data[:length])
    touched = run(PATTERNS, [Crash(drive, 1, 0) for drive in (1, 2, 3)])
    for data in (whole, mixed, cored, touched):
        for count, more in product((0, 1, 2, 3, 4, 255), (b"", b"\0", b"PR", b"PW", data)):
            script.simulate_file(6, A_SETS, data[:-3] + end(count) + more)


def proposal_samples(script: Script) -> None:
    """The samples by whose PR and PW there are."""
    for n, sets, data, _ in proposals.samples():
        script.simulate_file(n, sets, data)


def drive_lists(script: Script) -> None:
    """PR and PW of every short list of drives on the frames of up to three."""
    for frame, _, _, data in proposals.drive_lists(tails=(end(0),)):
        script.simulate_file(frame.n, frame.sets, data)


def large_files(script: Script) -> None:
    """Records of some of 64 drives."""
    for frame, records in proposals.large():
        script.simulate_file(frame.n, frame.sets, b"".join(records))


def numbers_of_listeners(script: Script) -> None:
    """Any number at a listener's place, each time with the same reply."""
    for stops in ([], [Crash(2, 1, 1)], [Crash(2, 1, 0)], [Crash(1, 2, 3), Crash(4, 2, 0)]):
        for own in ([1, 1, 1], [0, 0, 0], [2 ** 32 - 1] * 3, [4, 65536, 6], [7, 5, 9]):
            script.simulate(6, A_SETS, PATTERNS[:3] + own, stops)


def edge_numbers(script: Script, call: Call) -> None:
    """Pattern numbers at the limits: each beside the next, one of which the core drives decide;
    and 64 drives whose numbers pass the most that two bytes hold."""
    for low, high in zip(EDGES, EDGES[1:]):
        for numbers in ([high, low, high], [low, high, low]):
            for stops in ([], [Crash(2, 1, 1)], [Crash(2, 1, 0)]):
                call(script, 4, [1, 2, 0xC], [*numbers, 0], stops)
    singles = [1 << place for place in range(MAX_DRIVES)]
    call(script, 64, singles, list(range(65567, 65503, -1)), [Crash(64, 1, 1)])


SCENARIOS = (stops_on_tables, stops_on_a, stops_on_others, stops_on_crossed, two_stops, touched_sets,
             edge_numbers)
LIMITS = (file_samples, proposal_samples, drive_lists, large_files, numbers_of_listeners,
          *(partial(made, call=call) for call in (play_file, Script.simulate) for made in SCENARIOS))


# Random ones

def cheap_run(rng: Random) -> Scenario:
    """A scenario that the reference plays quickly, with few exceptions."""
    while True:
        found = accepted_run(rng)
        n, core = found[0], found[4]
        if core.bit_count() ** 2 * n <= COSTLY or rng.random() < 0.01:
            return found


def odd_stops(rng: Random, n: int, sets: list[int], crashes: list[Crash],
              core: int) -> list[Crash]:
    """Mostly as they are; else one beyond a limit, or one in every set."""
    chance = rng.random()
    if chance < 0.6:
        return crashes
    if chance < 0.8:
        return spoil_crash(rng, n, core, crashes)
    return touch_every_set(rng, n, sets, core)


def odd_file(rng: Random, script: Script) -> None:
    """A run file, at times damaged, at times with another table."""
    n, sets, proposals, crashes, core = accepted_run(rng)
    records = run_records(proposals, odd_stops(rng, n, sets, crashes, core), some_wide(rng, n),
                          some_left_out(rng, n, core))
    data = damaged(rng, records, RUN_DAMAGE) if rng.random() < 0.3 else b"".join(records)
    if rng.random() < 0.15:
        n, sets = refused_table(rng)
    script.simulate_file(n, sets, data)


def odd_simulation(rng: Random, script: Script) -> None:
    """A scenario, at times with another table, or with stops of any drives of 64."""
    n, sets, proposals, crashes, core = cheap_run(rng)
    stops = odd_stops(rng, n, sets, crashes, core)
    if rng.random() < 0.15:
        n, sets = refused_table(rng)
    elif rng.random() < 0.05:
        stops = [Crash(place + 1, rng.randint(0, 3), rng.randint(0, 3))
                 for place in places(rng.randint(0, full(64)))]
    unused = (rng.choice((0, 65535, 2 ** 32 - 1)), rng.choice((0, 1, 2, 255)), rng.choice((0, 1, 255)))
    script.simulate(n, sets, proposals, stops, unused)


def run_calls(rng: Random, script: Script) -> None:
    for _ in range(rng.randint(1, 4)):
        rng.choice((odd_file, odd_simulation))(rng, script)
