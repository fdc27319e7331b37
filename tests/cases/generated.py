"""The generators: they repeat themselves, meet every refusal, and are accepted
often."""

from collections import defaultdict
from itertools import islice
from typing import Iterator

import generate
import regdulyn
from inputs.calls import MAX_BYTES
from inputs.scripts import fixed_scripts, random_scripts

from . import Case


def generator_cases() -> Iterator[Case]:
    programs = (("table", generate.table_inputs, regdulyn.table_program),
                ("run", generate.run_inputs, regdulyn.run_program),
                ("convert", generate.convert_inputs, regdulyn.convert_program))
    for name, inputs, program in programs:
        made = list(inputs(5, 800))
        yield f"{name} inputs repeat", made, list(inputs(5, 800))
        texts = [program(data) for data in made]
        refused = [text for text in texts if text.startswith(b"refused ")]
        yield (f"{name} refusals", {int(text.split()[1]) for text in refused},
               generate.REFUSALS[name])
        yield f"{name} inputs, half accepted", 2 * len(refused) < len(texts), True
    texts = [regdulyn.threshold_program(data) for data in generate.threshold_inputs()]
    refused = [text for text in texts if text.startswith(b"refused ")]
    yield ("threshold refusals", {int(text.split()[1]) for text in refused},
           generate.REFUSALS["threshold"])
    yield "threshold inputs, accepted", len(texts) - len(refused), 207


TABLE_REFUSALS = {2, 3, 4, 5, 13}

# What each operation of a script can answer, and be refused with.
CALL_ANSWERS = {
    "O": ({"accepted"}, TABLE_REFUSALS | {8}),
    "S": ({"written"}, {14, 23, 27, 28}),
    "M": ({"accepted"}, {1, 2, 7, 8, 15, 21, 22, 23, 24, 25, 26, 28}),
    "C": ({"accepted"}, {23, 28}),
    "B": ({"found"}, {3, 4, 5, 13}),
    "W": ({"written"}, TABLE_REFUSALS | {14}),
    "V": ({"yes", "no"}, TABLE_REFUSALS | {12, 33}),
    "H": ({"missed", "none"}, TABLE_REFUSALS),
    "K": ({"cores"}, TABLE_REFUSALS),
    "T": ({"found"}, {3, 13, 31, 32}),
    "F": ({"read"}, {1, 2, 3, 4, 5, 6, 7, 13, 14, 34}),
    "G": ({"written"}, TABLE_REFUSALS | {14, 34}),
    "P": ({"found"}, TABLE_REFUSALS | {14, 34}),
    "Q": ({"found"}, TABLE_REFUSALS | {14}),
    "R": ({"core"}, TABLE_REFUSALS | {1, 6, 7, 8, 9, 10, 11}),
    "X": ({"core"}, TABLE_REFUSALS | {8, 9, 10, 11}),
}


DRAWN = 3


def script_cases() -> Iterator[Case]:
    drawn = list(islice(random_scripts(5), DRAWN))
    made = [*fixed_scripts(), *drawn]
    yield ("scripts repeat", [script.data for script in drawn],
           [script.data for script in islice(random_scripts(5), DRAWN)])
    yield "scripts fit", max(len(script.data) for script in made) <= MAX_BYTES, True
    words, refusals = defaultdict(set), defaultdict(set)
    for script in made:
        for letter, lines in zip(script.letters, script.lines):
            word, *values = lines[0].split()
            if word == "refused":
                refusals[letter].add(int(values[0]))
            else:
                words[letter].add(word)
    yield "operations", set("".join(script.letters for script in made)), {"L", *CALL_ANSWERS}
    for letter, expected in CALL_ANSWERS.items():
        yield f"answers of {letter}", (words[letter], refusals[letter]), expected
