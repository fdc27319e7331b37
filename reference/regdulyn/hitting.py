"""Minimal hitting sets: the groups that meet each of some non-empty sets and
of which no smaller part does.

A depth-first search over partial groups. A partial group is followed only if
some minimal hitting set holds it and avoids the drives barred by earlier
branches, and that is tested exactly, so every branch has a result and the
search may stop soon after a limit is passed.
"""

from itertools import islice
from typing import Iterator, Sequence

from .masks import bits, size, smallest


def minimal_hitting_sets(sets: Sequence[int], limit: int) -> list[int]:
    """All of them, in no order; where there are more than `limit`, the first
    limit + 1 that are found."""
    return list(islice(_extensions(sets, 0, 0), limit + 1))


def _extensions(sets: Sequence[int], chosen: int, barred: int) -> Iterator[int]:
    """The minimal hitting sets that hold `chosen` and avoid `barred`; the
    caller has tested that there is one."""
    missed = [s & ~barred for s in sets if not s & chosen]
    if not missed:
        yield chosen
        return
    for drive in bits(min(missed, key=size)):
        if _extendable(sets, chosen | drive, barred):
            yield from _extensions(sets, chosen | drive, barred)
        barred |= drive


def _extendable(sets: Sequence[int], chosen: int, barred: int) -> bool:
    """Whether some minimal hitting set holds `chosen` and avoids `barred`.

    In a minimal hitting set every drive has a private set, one that meets
    the group in that drive alone. So there is one exactly if each chosen
    drive can be given a set that meets `chosen` in it alone, such that no
    missed set lies within the other drives of the sets given and the barred
    ones: all drives but those then hit everything, and taking unneeded
    drives out of them never takes out a chosen one.
    """
    free = ~(chosen | barred)
    missed = []
    private: dict[int, list[int]] = {}
    for s in sets:
        met = s & chosen
        if not met:
            if not s & free:
                return False
            missed.append(s & free)
        elif met & (met - 1) == 0:
            private.setdefault(met, []).append(s & free)
    if len(private) < size(chosen):
        return False
    return _can_give(list(private.values()), 0, missed)


def _can_give(choices: list[list[int]], out: int, missed: list[int]) -> bool:
    """Whether one set can be taken from each choice so that no missed set
    lies within those taken and `out`."""
    wanted = 0
    for m in missed:
        wanted |= m
    wanted &= ~out
    # A choice with an option that takes out nothing wanted is made.
    reduced = [{option & wanted for option in options} for options in choices]
    reduced = [options for options in reduced if 0 not in options]
    # Most often the smallest options do at once.
    taken = out
    for options in reduced:
        taken |= min(options, key=size)
    if all(m & ~taken for m in missed):
        return True
    missed = smallest(m & ~out for m in missed)
    fitting = []
    for options in reduced:
        fit = [o for o in smallest(options) if all(m & ~o for m in missed)]
        if not fit:
            return False
        fitting.append(fit)
    fitting.sort(key=len)
    first, others = fitting[0], fitting[1:]
    return any(_can_give(others, option, missed) for option in first)
