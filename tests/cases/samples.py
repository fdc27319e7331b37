"""The samples with stated answers, held to the reference."""

from itertools import chain
from typing import Iterator

import regdulyn
from inputs import proposals, samples
from inputs.calls import Script
from inputs.records import table

from . import Case, refusal


def call_samples() -> Iterator[Case]:
    yield from samples.message_samples(Script())
    yield from samples.call_samples(Script())


def run_samples() -> Iterator[Case]:
    for n, sets, data, due in chain(samples.refused_runs(), proposals.samples()):
        name = f"n {n} sets {len(sets)} run file {data.hex()}"
        yield name, refusal(regdulyn.read_run, data, n, sets), due
        shown = regdulyn.run_program(table(n, sets) + data)
        in_file = 4 if due == 5 else due
        yield (f"program, {name}", shown if shown.startswith(b"refused ") else b"",
               b"refused %d\n" % in_file if due else b"")
    for n, sets, data, numbers, crashes in samples.SAID:
        yield (f"said by {data.hex()}", regdulyn.read_run(data, n, sets),
               regdulyn.Scenario(numbers, crashes))
