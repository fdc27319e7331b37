"""Scenarios: a table, the numbers proposed and the crashes. Every drive has a number, of which a
listener's counts for nothing.

Those of `accepted_run` leave a survivor set untouched; `touch_every_set` and
`spoil_crash` are refused.
"""

from random import Random

from regdulyn import Crash, Refusal, chosen_core, normal_table

from .frames import accepted_table, full, group, places
from .records import ALL_PATTERNS, OLD_PATTERNS

# n, sets, proposals, crashes, and the chosen core.
Scenario = tuple[int, list[int], list[int], list[Crash], int]


EDGES = (0, 1, 255, 256, 65534, 65535, 65536, 65537, 65791, 65792, 1 << 24, (1 << 31) - 1, 1 << 31,
         ALL_PATTERNS - 65536, ALL_PATTERNS - 1)


def any_pattern(rng: Random) -> int:
    """A pattern number of two bytes, of four, or at a limit."""
    return rng.choice((rng.randrange(OLD_PATTERNS), rng.randrange(ALL_PATTERNS), rng.choice(EDGES)))


def patterns(rng: Random, n: int) -> list[int]:
    """Proposals: spread, close together, at the limits, in order, also across the most that two
    bytes hold, or equal in their two low bytes."""
    kind = rng.randrange(6)
    if kind == 0:
        return [rng.randrange(rng.choice((OLD_PATTERNS, ALL_PATTERNS))) for _ in range(n)]
    if kind == 1:
        return [rng.randrange(3) for _ in range(n)]
    if kind == 2:
        return [rng.choice(EDGES) for _ in range(n)]
    if kind == 3:
        low = rng.randrange(OLD_PATTERNS)
        return [low + OLD_PATTERNS * rng.choice((0, 1, 2, 256, 65535)) for _ in range(n)]
    start = rng.randrange(OLD_PATTERNS - n) if kind == 4 else OLD_PATTERNS - rng.randint(0, n)
    return [start + (place if rng.random() < 0.9 else 0) for place in range(n)][::-1]


def some_wide(rng: Random, n: int) -> int:
    """The drives of a run file that have a PW whatever their number: none, all, or some."""
    return rng.choice((0, full(n), rng.randint(0, full(n))))


def some_left_out(rng: Random, n: int, core: int) -> int:
    """The listeners of a run file that have no record: none, all, or some."""
    listeners = full(n) & ~core
    return rng.choice((0, listeners, listeners & rng.randint(0, full(n))))


def few_sends(rng: Random, n: int) -> int:
    """A number of sends, often none, few or all."""
    return min(n - 1, rng.choice((0, 0, 1, 2, n - 1, rng.randint(0, n - 1))))


def random_crashes(rng: Random, n: int, core: int, may: int) -> list[Crash]:
    """Any drives of `may`, at any time."""
    rounds, chance = core.bit_count(), rng.random()
    return [Crash(place + 1, rng.randint(1, rounds),
                  few_sends(rng, n) if core >> place & 1 else 0)
            for place in places(may) if rng.random() < chance]


def cascade(rng: Random, n: int, core: int, may: int) -> list[Crash]:
    """Core drives one after the other, each with few sends, so that the
    decision comes late."""
    victims = places(core & may)[:12]
    if rng.random() < 0.6:
        rng.shuffle(victims)
    first = rng.choice((1, 1, 2))
    rounds = core.bit_count()
    found = [Crash(place + 1, min(first + step, rounds), min(n - 1, rng.choice((0, 1, 1, 2))))
             for step, place in enumerate(victims)]
    return sorted(found, key=lambda stop: stop.drive)


def waves(rng: Random, n: int, core: int, may: int) -> list[Crash]:
    """Several core drives in each round, some unheard and some heard by one
    or two, so that numbers are passed on without a decision."""
    victims = places(core & may)
    rng.shuffle(victims)
    found = []
    for round_number in range(1, core.bit_count() + 1):
        for _ in range(min(len(victims), rng.randint(1, 3))):
            sends = min(n - 1, rng.choice((0, 0, 1, 1, 2)))
            found.append(Crash(victims.pop() + 1, round_number, sends))
    return sorted(found, key=lambda stop: stop.drive)


def hidden_decision(rng: Random, n: int, core: int, may: int) -> list[Crash]:
    """The first to stop reaches one drive alone, which decides and stops in
    the next round while it tells, and so on."""
    victims = places(core & may)[:8]
    found = []
    for round_number, pair in enumerate(zip(victims[1::2], victims[::2])):
        late, early = pair
        start = min(2 * round_number + 1, core.bit_count())
        found.append(Crash(late + 1, start, 1))
        found.append(Crash(early + 1, min(start + 1, core.bit_count()),
                           rng.randint(0, n - 1)))
    return sorted(found, key=lambda stop: stop.drive)


def together(rng: Random, n: int, core: int, may: int) -> list[Crash]:
    """All in one round."""
    round_number = rng.randint(1, core.bit_count())
    return [Crash(place + 1, round_number, few_sends(rng, n) if core >> place & 1 else 0)
            for place in places(may)]


def no_crashes(rng: Random, n: int, core: int, may: int) -> list[Crash]:
    return []


CRASHES = (random_crashes, random_crashes, random_crashes, cascade, cascade, cascade,
           waves, waves, waves, hidden_decision, hidden_decision, together, no_crashes)


def run_table(rng: Random) -> tuple[int, list[int], int]:
    """An accepted table that is cheap to simulate, with its chosen core."""
    while True:
        n, sets = accepted_table(rng)
        try:
            core = chosen_core(n, sets)
        except Refusal:
            continue
        size = core.bit_count()
        dull = size == 1 and rng.random() < 0.7
        costly = size ** 2 * n > 4000 and rng.random() < 0.95
        if not dull and not costly:
            return n, sets, core


def stop_rich_table(rng: Random) -> tuple[int, list[int], int]:
    """Sets of one drive and a few wider ones: a large core, many of whose
    drives may stop."""
    n = rng.randint(3, 14)
    sets = [1 << place for place in range(rng.randint(2, n))]
    sets += [group(rng, n, rng.randint(1, 3)) for _ in range(rng.randint(0, 4))]
    return n, sets, chosen_core(n, sets)


def low_for_stopped(rng: Random, proposals: list[int], crashes: list[Crash]) -> list[int]:
    """The smallest numbers to drives that stop, so that it shows who heard
    them."""
    falling = sorted(proposals, reverse=True)
    early_first = sorted(crashes, key=lambda stop: (stop.round, rng.random()))
    stopped = [stop.drive - 1 for stop in early_first]
    given = list(proposals)
    for place in stopped + [p for p in range(len(given)) if p not in stopped]:
        given[place] = falling.pop()
    return given


def accepted_run(rng: Random) -> Scenario:
    """A table, proposals and crashes that leave a survivor set untouched."""
    n, sets, core = (stop_rich_table if rng.random() < 0.45 else run_table)(rng)
    untouched = rng.choice(sets)
    if rng.random() < 0.7:
        untouched = min(sets, key=lambda mask: (mask & core).bit_count())
    crashes = rng.choice(CRASHES)(rng, n, core, full(n) & ~untouched)
    proposals = patterns(rng, n)
    if rng.random() < 0.6:
        proposals = low_for_stopped(rng, proposals, crashes)
    return n, sets, proposals, crashes, core


def touch_every_set(rng: Random, n: int, sets: list[int], core: int) -> list[Crash]:
    """Refusal 11: every survivor set has a drive with a CR."""
    stopped = core if rng.random() < 0.5 else 0
    for mask in normal_table(n, sets):
        if not mask & stopped:
            stopped |= 1 << rng.choice(places(mask))
    rounds = core.bit_count()
    return [Crash(place + 1, rng.randint(1, rounds), 0) for place in places(stopped)]


def spoil_crash(rng: Random, n: int, core: int, crashes: list[Crash]) -> list[Crash]:
    """One CR just beyond a limit: 8, 9 or 10, or two of them."""
    place = rng.randint(0, len(crashes) - 1) if crashes else 0
    old = crashes[place] if crashes else Crash(rng.randint(1, n), 1, 0)
    last = crashes[place - 1].drive if place else 0
    beyond = n if core >> old.drive - 1 & 1 else 1
    drive = rng.choice((old.drive, old.drive, old.drive, last, n + 1))
    round_number = rng.choice((old.round, old.round, 0, core.bit_count() + 1))
    sends = rng.choice((old.sends, beyond, beyond, 255))
    return crashes[:place] + [Crash(drive, round_number, sends)] + crashes[place + 1:]
