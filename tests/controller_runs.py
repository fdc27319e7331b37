"""Exchanges played by a controller in C, compared with the second program's listings.

`python3 tests/controller_runs.py PROGRAM` hands the scenarios of the accepted
generated run inputs to PROGRAM, which is tests/controller_runs.c, and compares what
it prints. Listeners, which propose nothing, are opened with any numbers.
"""

import subprocess
import sys
from pathlib import Path
from random import Random

ROOT = Path(__file__).resolve().parent.parent
sys.path[:0] = [str(ROOT / "reference"), str(ROOT / "tests")]

import generate  # noqa: E402
import regdulyn  # noqa: E402
from inputs.scenarios import any_pattern  # noqa: E402

SEED, COUNT = 1, 900


def scenario_text(data: bytes, rng: Random) -> str:
    """The words of a scenario, as the program reads them."""
    n, sets, rest = regdulyn.read_table_with_rest(data)
    run, core = regdulyn.read_run(rest, n, sets), regdulyn.chosen_core(n, sets)
    stops = {crash.drive: (crash.round, crash.sends) for crash in run.crashes}
    numbers = [number if core >> place & 1 else any_pattern(rng)
               for place, number in enumerate(run.proposals)]
    words = [n, len(sets), *(f"{mask:x}" for mask in sets), *numbers]
    for drive in range(1, n + 1):
        words += stops.get(drive, (0, 0))
    return " ".join(map(str, words)) + "\n"


def main(program: str) -> int:
    given, expected, rng = [], [], Random(SEED)
    for data in generate.run_inputs(SEED, COUNT):
        listing = regdulyn.run_program(data).decode()
        if not listing.startswith("refused"):
            given.append(scenario_text(data, rng))
            expected.append(listing)
    done = subprocess.run([program], input="".join(given), capture_output=True, text=True)
    found = done.stdout.split("\n\n")[:-1]
    differ = sum(a != b + "\n" for a, b in zip(expected, found)) + abs(len(expected) - len(found))
    print(f"controller_runs: {len(expected)} exchanges, {differ} differ")
    if done.returncode != 0 or done.stderr:
        print(f"controller_runs: exit status {done.returncode}, {done.stderr.strip()}")
        return 1
    return 1 if differ or not expected else 0


if __name__ == "__main__":
    sys.exit(main(sys.argv[1]))
