"""Whose PR and PW a run file has (document 02, request v): every short list of drives against the
plain rule, old files against the old rule, listeners' records that change nothing, and each core
drive's record missing in turn."""

from random import Random
from typing import Iterator

import plain
import regdulyn
from inputs.frames import full
from inputs.proposals import CASE_A, SECOND_AND_FOURTH, drive_lists, proposal_runs, single, subsets
from inputs.records import (OLD_PATTERNS, PROPOSAL_MARKS, Crash, crash, end, file_records, proposal, run,
                            table)
from inputs.scenarios import Scenario, any_pattern, some_wide

from . import Case, refusal
from .exchanges import scenarios


def drive_list_cases() -> Iterator[Case]:
    """Of every short list of drives the refusal, and of the accepted ones the numbers."""
    for frame, drives, tail, data in drive_lists():
        name = f"n {frame.n} core {frame.core:x} drives {drives} tail {tail!r}"
        core = set(frame.drives)
        due = plain.proposals_refusal(frame.n, core, list(drives), tail[:2])
        if due == 0:
            # What stands behind them: EN; EN or CR cut; a stop of drive 1 with a PR behind it.
            due = {end(0): 0, b"EN": 1, b"CR": 1}.get(tail, 2)
        yield name, refusal(regdulyn.read_run, data, frame.n, frame.sets), due
        if due == 0:
            numbers = [100 - drive if drive in core else 0 for drive in range(1, frame.n + 1)]
            found = regdulyn.read_run(data, frame.n, frame.sets)
            yield f"numbers, {name}", found, regdulyn.Scenario(numbers, [])


# Old files

def old_numbers(data: bytes, n: int) -> tuple[list[int], bytes]:
    """The pattern numbers of a run file by the old rule, and what stands behind them: a PR or PW for
    each of drives 1 to n, in order, and each number counts."""
    numbers = []
    for drive in range(1, n + 1):
        width = {b"PR": 2, b"PW": 4}[data[:2]]
        assert data[2] == drive and len(data) >= 3 + width
        numbers.append(int.from_bytes(data[3:3 + width], "little"))
        data = data[3 + width:]
    return numbers, data


def old_listing(data: bytes) -> bytes:
    """What the run program printed by the old rule for a file that it accepted."""
    n, sets, rest = regdulyn.read_table_with_rest(data)
    numbers, behind = old_numbers(rest, n)
    records = file_records(behind)
    assert records[-1] == end(len(records) - 1) and all(record[:2] == b"CR" for record in records[:-1])
    found = regdulyn.simulate(n, sets, numbers, [Crash(*record[2:]) for record in records[:-1]])
    lines = [f"drive {drive} " + ("stopped" if end is None else "decides %d round %d" % end)
             for drive, end in enumerate(found.decisions, start=1)]
    return "\n".join([*lines, f"core {found.core:x} stops {found.stops}", ""]).encode()


def old_file_cases() -> Iterator[Case]:
    """An accepted old file's listing is what it was; so it is with fewer of the listeners' records,
    with other numbers in them, and with none."""
    rng = Random(31)
    for n, sets, numbers, stops, core in scenarios(22, 300):
        name = f"n {n} sets {sets} proposals {numbers} stops {stops}"
        wide = some_wide(rng, n)
        listeners = full(n) & ~core
        old = table(n, sets) + run(numbers, stops, wide)
        due = old_listing(old)
        yield f"old: {name}", regdulyn.run_program(old), due
        for left_out in left_outs(rng, listeners):
            other = [number if core >> place & 1 else any_pattern(rng)
                     for place, number in enumerate(numbers)]
            for given in (numbers, other):
                new = table(n, sets) + run(given, stops, wide, left_out)
                yield f"without {left_out:x}: {name}", regdulyn.run_program(new), due
    yield from case_b_cases()


def left_outs(rng: Random, listeners: int) -> list[int]:
    """Every subset of up to three listeners; of more all, and some."""
    drives = [place for place in range(64) if listeners >> place & 1]
    if len(drives) <= 3:
        return [sum(1 << place for place in taken) for taken in subsets(drives)]
    return [listeners, *(listeners & rng.randint(0, listeners) for _ in range(4))]


def case_b_cases() -> Iterator[Case]:
    """Case B with every subset of the listeners' records, each a PR or a PW."""
    due = old_listing(table(6, CASE_A.sets) + run([7, 5, 9, 1, 1, 1], [Crash(2, 1, 1)]))
    for left_out in range(8):
        for wide in (0, 0b101010, full(6)):
            data = run([7, 5, 9, 1, 1, 1], [Crash(2, 1, 1)], wide, left_out << 3)
            yield (f"case B without {left_out << 3:x}, PW {wide:x}",
                   regdulyn.run_program(table(6, CASE_A.sets) + data), due)


def free_number_cases() -> Iterator[Case]:
    """What stands at a listener's place of a simulated exchange changes nothing."""
    rng = Random(32)
    for n, sets, numbers, stops, core in scenarios(23, 200):
        due = regdulyn.simulate(n, sets, numbers, stops)
        for _ in range(3):
            other = [number if core >> place & 1 else any_pattern(rng)
                     for place, number in enumerate(numbers)]
            yield (f"listeners' numbers {other}: n {n} sets {sets} stops {stops}",
                   regdulyn.simulate(n, sets, other, stops), due)


# A record missing

def missing_cases() -> Iterator[Case]:
    """Each core drive's record missing in turn: 2 where CR or EN stands there, 8 where a later
    drive's record does, also a listener's; each listener's missing in turn is no fault."""
    rng = Random(33)
    for scenario in scenarios(24, 150):
        n, sets, numbers, stops, core = scenario
        for left_out in {0, full(n) & ~core}:
            yield from missing_from(scenario, file_records(run(numbers, stops, some_wide(rng, n), left_out)))
    for frame in (CASE_A, SECOND_AND_FOURTH, single(3, 1, 3), single(1, 1)):
        scenario = (frame.n, frame.sets, [7] * frame.n, [Crash(frame.drives[0], 1, 0)], frame.core)
        for left_out in (0, full(frame.n) & ~frame.core):
            yield from missing_from(scenario, file_records(run(scenario[2], scenario[3], 0, left_out)))


def missing_from(scenario: Scenario, records: list[bytes]) -> Iterator[Case]:
    n, sets, _, _, core = scenario
    whole = refusal(regdulyn.read_run, b"".join(records), n, sets)
    for place, record in enumerate(records):
        if record[:2] not in PROPOSAL_MARKS:
            break
        rest = records[:place] + records[place + 1:]
        due = whole
        if core >> record[2] - 1 & 1:
            due = 8 if rest[place][:2] in PROPOSAL_MARKS else 2
        yield (f"n {n} sets {sets} without drive {record[2]}'s of {b''.join(records).hex()}",
               refusal(regdulyn.read_run, b"".join(rest), n, sets), due)
        if due == 2:
            for cut in (2, len(rest[place]) - 1):
                data = b"".join(rest[:place]) + rest[place][:cut]
                yield f"cut at {cut}: {data.hex()}", refusal(regdulyn.read_run, data, n, sets), 2


def whole_run_cases() -> Iterator[Case]:
    """Of the run files by whose records they have: the program refuses what the plain rule refuses,
    as long as the records are whole."""
    for data in proposal_runs():
        n, sets, rest = regdulyn.read_table_with_rest(data)
        core = regdulyn.chosen_core(n, sets)
        drives, behind = leading(rest)
        due = plain.proposals_refusal(n, {d for d in range(1, n + 1) if core >> d - 1 & 1}, drives, behind[:2])
        if behind[:2] in PROPOSAL_MARKS:
            due = due if due == 8 or n in drives else 1
        if due:
            yield f"run {data.hex()}", regdulyn.run_program(data), b"refused %d\n" % due


def leading(data: bytes) -> tuple[list[int], bytes]:
    """The drives of the whole PR and PW at the start, and what stands behind them."""
    drives = []
    while data[:2] in PROPOSAL_MARKS and len(data) >= (size := 5 if data[:2] == b"PR" else 7):
        drives.append(data[2])
        data = data[size:]
    return drives, data


def wide_and_old_cases() -> Iterator[Case]:
    """A listener's number of either width is read at its width and dropped: what stands behind it is
    the next record."""
    for number in (0, 255, OLD_PATTERNS - 1, OLD_PATTERNS, 2 ** 32 - 1):
        data = run([7, 5, 9], [])[:-3] + proposal(4, number) + proposal(6, number, True)
        yield (f"listener's number {number}",
               regdulyn.read_run(data + crash(4, 2, 0) + end(1), 6, CASE_A.sets),
               regdulyn.Scenario([7, 5, 9, 0, 0, 0], [Crash(4, 2, 0)]))
