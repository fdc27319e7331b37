"""Handmade states of an exchange: fair ones, and ones that break a rule of 28."""

from dataclasses import replace
from itertools import cycle
from random import Random
from typing import Iterator

from regdulyn import Exchange

from .frames import full, places
from .messages import some_drives
from .records import OLD_PATTERNS
from .scenarios import any_pattern


def fair_state(rng: Random) -> Exchange:
    """A state that keeps every rule, and is otherwise anything; at times every number is one
    that an old record can have."""
    n = rng.choice((1, 2, 6, 63, 64, rng.randint(1, 64)))
    core = some_drives(rng, full(n)) or 1 << rng.randrange(n)
    own = rng.choice(places(core)) + 1 if rng.random() < 0.7 else rng.randint(1, n)
    itself = core & 1 << own - 1
    size = core.bit_count()
    known = some_drives(rng, core) | itself
    small = rng.random() < 0.3
    numbers = [(rng.randrange(OLD_PATTERNS) if small else any_pattern(rng))
               if known >> place & 1 or rng.random() < 0.1 else 0 for place in range(64)]
    heard = some_drives(rng, core)
    announcement = (rng.choice((0, own, n, 64, 255)), any_pattern(rng))
    return Exchange(
        n=n, own=own, core=core, round=rng.choice((1, size, rng.randint(1, size))),
        heard_before=rng.choice((core, core, heard | itself, heard, 0, some_drives(rng, core))),
        heard=rng.choice((0, heard, heard, core)), known=known,
        known_at_start=rng.choice((known, some_drives(rng, core) | itself)), numbers=numbers,
        announcement=announcement if rng.random() < 0.3 else None,
        decision=any_pattern(rng) if rng.random() < 0.3 else None,
        halted=rng.random() < 0.15)


def quiet_state(rng: Random) -> Exchange:
    """An undecided state that hears at its close what it heard in the round
    before, at times nobody."""
    x = fair_state(rng)
    heard = rng.choice((0, x.heard))
    return replace(x, heard=heard, heard_before=heard | x.core & 1 << x.own - 1,
                   announcement=None, decision=None, halted=False)


def broken_states(rng: Random) -> Iterator[Exchange]:
    """Fair states with one rule of 28 broken, each rule in turn."""
    for rule in cycle(range(14)):
        x = fair_state(rng)
        itself = 1 << x.own - 1
        outside = full(64) & ~x.core
        extra = 1 << rng.choice(places(outside)) if outside else 0
        above = 1 << rng.randint(x.n, 63) if x.n < 64 else 0
        yield (
            replace(x, n=rng.choice((0, 65, 255))), replace(x, n=0), replace(x, core=0),
            replace(x, core=x.core | above), replace(x, known=x.known & ~itself),
            replace(x, known_at_start=x.known_at_start & ~itself),
            replace(x, own=rng.choice((0, x.n + 1, 65, 255))), replace(x, own=0),
            replace(x, round=rng.choice((0, x.core.bit_count() + 1, 255))),
            replace(x, heard_before=x.heard_before | extra),
            replace(x, heard=x.heard | extra), replace(x, known=x.known | extra),
            replace(x, known_at_start=x.known_at_start | extra),
            replace(x, core=x.core & ~(1 << rng.choice(places(x.core)))))[rule]
