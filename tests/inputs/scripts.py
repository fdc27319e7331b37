"""Scripts of calls: a few operations of each kind, the samples, the limits of the calls
given n and sets or groups, then seeded ones with operations of every kind at random."""

from itertools import chain
from random import Random
from typing import Iterator

from regdulyn import Crash

from . import fault_calls, run_calls, set_calls
from .calls import MAX_BYTES, Script
from .exchanges import exchange, handmade, openings
from .frames import PAIRS
from .records import crash, end, fault_list
from .samples import (A_SETS, CORE_DRIVE, HEARD_2, MISSED_2, PATTERNS, PROPOSALS, dw, kn, kw,
                      make_calls, make_messages, state)
from .states import broken_states

OPERATIONS = 400


def refused_by_state(script: Script) -> None:
    """15, 22, 26, 24, 25, 23 and 28 on states that are handed over."""
    for x, data in ((CORE_DRIVE, kn(2, 1, 5, 7, 0, 9, 0)), (CORE_DRIVE, kn(1, 1, 1, 7, 0)),
                    (CORE_DRIVE, kn(2, 2, 2, 5, 0)), (MISSED_2, kn(2, 2, 2, 5, 0)),
                    (HEARD_2, kn(3, 1, 6, 6, 0, 9, 0))):
        script.load(x)
        script.message(data)
    for own in (1, 7):
        script.load(state(6, own, 7, 1, 7, 0, 1, 1, own == 1))
        script.close()


def each_kind(script: Script) -> None:
    """A few operations of each kind, most on case A's table."""
    refused_by_state(script)
    script.open(6, A_SETS, 1, 7)
    script.send(18, 1)
    for data in (kn(3, 1, 4, 9, 0), kn(3, 1, 4, 9, 0), kw(2, 1, 2, 5, 0, 0, 0)):
        script.message(data)
    script.close()
    script.send(8, 0)
    script.open(6, A_SETS, 4, 1)
    script.send(16, 0)
    for data in (kn(1, 1, 1, 7, 0), kn(1, 1, 1, 7), kw(3, 1, 4, 9, 0, 1, 0), dw(2, 1, 5, 0, 0, 1)):
        script.message(data)
    script.close()
    script.open(7, [0x80], 1, 7)
    script.back(6, [7, 0xB, 0x13, 0x23])
    script.back(6, [])
    script.write(6, [3, *A_SETS], 40, 2)
    script.write(6, A_SETS, 40, 5)
    for k, n, sets in ((2, 6, A_SETS), (3, 4, [7, 0xB, 0xC]), (2, 4, [7, 0xB, 0xC]), (5, 6, A_SETS)):
        script.judge(k, n, sets)
    for group in (7, 6, 0x40):
        script.miss(6, A_SETS, group)
    for n, sets in ((6, A_SETS), (6, []), (22, PAIRS)):
        script.cores(n, sets)
    for n, t in ((6, 2), (65, 70), (6, 6), (64, 2), (46, 1)):
        script.threshold(n, t)
    for groups in ([8, 4, 3, 1], [3, 0x10], [0xF]):
        script.read_faults(fault_list(4, groups), 3)
        script.write_faults(4, groups, 40, 3)
        script.table_from_faults(4, groups, 3)
    script.faults_from_table(6, [3, *A_SETS], 3)
    script.faults_from_table(6, A_SETS, 2)
    for stops in (crash(2, 1, 1), crash(2, 1, 6), crash(2, 1, 1) + crash(4, 2, 0)):
        script.simulate_file(6, A_SETS, PROPOSALS + stops + end(1))
    for drives in ((2,), (1, 2), (1, 2, 3), (6, 7)):
        script.simulate(6, A_SETS, PATTERNS, [Crash(drive, 1, 0) for drive in drives])


FIXED = (each_kind, make_messages, make_calls, *set_calls.LIMITS, *fault_calls.LIMITS, *run_calls.LIMITS)


def fixed_scripts() -> Iterator[Script]:
    for fixed in FIXED:
        script = Script()
        fixed(script)
        yield script


def random_scripts(seed: int) -> Iterator[Script]:
    rng = Random(seed)
    broken = broken_states(rng)
    while True:
        script = Script()
        script.close()
        while len(script.lines) < OPERATIONS and len(script.data) < MAX_BYTES // 2:
            chance = rng.random()
            if chance < 0.20:
                exchange(rng, script)
            elif chance < 0.52:
                handmade(rng, script, broken)
            elif chance < 0.60:
                openings(rng, script)
            elif chance < 0.80:
                set_calls.set_calls(rng, script)
            elif chance < 0.88:
                fault_calls.fault_calls(rng, script)
            else:
                run_calls.run_calls(rng, script)
        if len(script.data) <= MAX_BYTES:
            yield script


def scripts(seed: int, count: int) -> Iterator[Script]:
    """Scripts with so many operations in all, or a few more."""
    for script in chain(fixed_scripts(), random_scripts(seed)):
        if count <= 0:
            return
        count -= len(script.lines)
        yield script
