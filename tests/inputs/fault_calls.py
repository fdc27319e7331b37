"""Operations of the calls about fault lists: the reader, the writer, and both conversions. First
fixed ones, of the samples, of every short list of small frames and at the limits, then random ones.
"""

from functools import partial
from itertools import chain, islice
from random import Random
from typing import Iterator

from regdulyn import Refusal, read_faults, write_faults

from . import faults
from .calls import Script
from .damage import FAULT_DAMAGE, TABLE_DAMAGE, damaged
from .frames import MAX_SETS, Frame, full, normal_tables
from .records import fault_list, fault_records, table_records
from .set_calls import BUFFER, limit_tables, refused_table, rooms

PLACES = 1024


def all_calls(script: Script, n: int, groups: list[int], places: int = MAX_SETS) -> None:
    """The reader, the writer and the conversion of a list."""
    if len(groups) < 256:
        script.read_faults(fault_list(n, groups), places)
    script.write_faults(n, groups, min(6 + 10 * places, BUFFER), 0)
    script.table_from_faults(n, groups, places)


# Fixed ones

def stated(script: Script) -> None:
    """The stated lists and tables."""
    for n, sets, groups in faults.STATED:
        all_calls(script, n, groups[::-1])
        script.faults_from_table(n, sets[::-1], MAX_SETS)
    for n, groups, _ in faults.LISTED:
        all_calls(script, n, groups)


def refusals(script: Script, places: int) -> None:
    """Calls of every refusal; where there is no place, 14 is last."""
    for n, groups, _ in faults.CALLS:
        all_calls(script, n, groups, places)


def table_samples(script: Script) -> None:
    """The fault list of each table at the limits and of every normal table of up to three drives."""
    for n, sets in chain(((n, sets) for n, sets, _ in faults.TABLE_CALLS), limit_tables(), normal_tables(3)):
        for places in (MAX_SETS, 0):
            script.faults_from_table(n, sets, places)


def file_samples(script: Script) -> None:
    """Every file with a stated refusal, whole lists cut at every byte, and wrong marks."""
    for data, _ in chain(faults.FILES, faults.cuts(), faults.wrong_marks()):
        script.read_faults(data, MAX_SETS)


def short_lists(script: Script) -> None:
    """Every short list of frames of one and two drives, and some of three."""
    for n, most, step in ((1, 3, 1), (2, 2, 1), (2, 3, 3), (3, 3, 9)):
        for groups in islice(faults.short_lists(n, most), 0, None, step):
            all_calls(script, n, groups, 2)


def place_counts(count: int) -> Iterator[int]:
    """As many places as there are masks, one less and one more, none, and more than enough."""
    yield from sorted({0, 1, max(count - 1, 0), count, count + 1, MAX_SETS, MAX_SETS + 1, PLACES})


def place_limits(script: Script) -> None:
    """Places that just are enough, and not, for a list of one group, of a few with others within
    them, and of 128; and for their tables."""
    for n, groups in ((1, [0]), (4, [8, 3, 1, 4, 4, 0]), (64, [full(63), full(64) - 1]), faults.LARGE[0]):
        largest = read_faults(fault_list(n, groups))[1]
        for places in place_counts(len(largest)):
            script.read_faults(fault_list(n, groups), places)
            script.table_from_faults(n, groups, places)
            script.faults_from_table(n, faults.rests(n, groups), places)


def writer_limits(script: Script) -> None:
    """Each room for small lists and the largest; refused lists, with no room."""
    for n, groups in ((1, [0]), (4, [8, 3, 1, 4]), faults.LARGE[0]):
        for length, start in rooms(len(write_faults(n, groups))):
            script.write_faults(n, groups, length, start)
    for n, groups, due in faults.CALLS:
        if due:
            script.write_faults(n, groups, 0, 1)


LIMITS = (stated, partial(refusals, places=MAX_SETS), partial(refusals, places=0), table_samples,
          file_samples, short_lists, place_limits, writer_limits)


# Random ones

def refused_list(rng: Random) -> Frame:
    """A fault list that is refused, with few exceptions."""
    n, groups = faults.accepted_list(rng)
    kind = rng.randrange(5)
    if kind == 0:
        n = rng.choice((0, 65, 128, 255))
    elif kind == 1:
        groups = []
    elif kind == 2:
        groups = (groups * 256)[:rng.choice((129, 130, 256))]
    elif kind == 3:
        for _ in range(rng.choice((1, 2))):
            wrong = (full(n), full(n), 1 << min(n, 63), full(n) | 1 << min(n, 63), full(64))
            groups[rng.randrange(len(groups))] = rng.choice(wrong)
    else:
        n, groups = faults.crowded_list(rng)
    return n, groups


def odd_places(rng: Random, n: int, groups: list[int]) -> int:
    """About as many places as there are largest groups, or any number."""
    try:
        count = len(read_faults(fault_list(n, groups[:MAX_SETS]))[1]) if n <= 64 else 0
    except Refusal:
        count = rng.randint(0, MAX_SETS)
    return rng.choice((count, count, max(count - 1, 0), count + 1, MAX_SETS, rng.randint(0, PLACES)))


def odd_write(rng: Random, script: Script, n: int, groups: list[int]) -> None:
    """Into a buffer that fits the largest groups, or not even some."""
    size = 6 + 10 * min(odd_places(rng, n, groups), MAX_SETS)
    start = rng.choice((0, 0, 1, rng.randint(0, 200)))
    length = min(max(0, size + start + rng.choice((-1, 0, 0, 1))), BUFFER)
    if rng.random() < 0.1:
        start = rng.choice((length, length + 1, 2 ** 64 - 1))
    script.write_faults(n, groups, length, start)


def odd_read(rng: Random, script: Script, n: int, groups: list[int]) -> None:
    """A list, a table or a mixture, whole or damaged."""
    listed = groups[:MAX_SETS]
    chance = rng.random()
    if chance < 0.5:
        data = fault_list(n, listed)
    elif chance < 0.9:
        data = damaged(rng, fault_records(n, listed), FAULT_DAMAGE)
    else:
        data = damaged(rng, table_records(n, listed), TABLE_DAMAGE)
    script.read_faults(data, odd_places(rng, n, groups))


def fault_calls(rng: Random, script: Script) -> None:
    """A few calls on one fault list, accepted or refused, and on its table or one that is refused."""
    n, groups = (faults.accepted_list if rng.random() < 0.75 else refused_list)(rng)
    for _ in range(rng.randint(1, 4)):
        kind = rng.randrange(4)
        if kind == 0:
            odd_read(rng, script, n, groups)
        elif kind == 1:
            odd_write(rng, script, n, groups)
        elif kind == 2:
            script.table_from_faults(n, groups, odd_places(rng, n, groups))
        elif rng.random() < 0.2:
            script.faults_from_table(*refused_table(rng), MAX_SETS)
        else:
            sets = [mask ^ full(n) if n <= 64 else mask for mask in groups]
            script.faults_from_table(n, sets, odd_places(rng, n, groups))
