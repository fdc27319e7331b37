#!/usr/bin/env python3
"""Checks of the reference: document 01's marked cases through the
scripts, the order of refusals, and everything else against the plain
definitions on small frames.

Prints the number of cases and of failures; exit status 1 if any failed.
"""

import sys
from pathlib import Path

ROOT = Path(__file__).resolve().parent.parent
sys.path[:0] = [str(ROOT / "reference"), str(ROOT / "tests"), str(ROOT / "tools")]

from cases import (calls, definitions, drives, exchanges, faults, files, generated,  # noqa: E402
                   marked, proposals, samples, thresholds)

GROUPS = (
    marked.marked_cases, marked.example_cases,
    files.table_refusals, files.rest_cases, files.run_refusals,
    calls.call_refusals, calls.simulate_refusals, calls.back_refusals, calls.writer_cases,
    definitions.table_definitions, definitions.verdict_definitions, definitions.wide_tables,
    definitions.large_tables,
    thresholds.threshold_samples, thresholds.threshold_pairs, thresholds.count_cases,
    faults.fault_samples, faults.fault_file_refusals, faults.fault_call_refusals,
    faults.fault_writer_cases, faults.fault_definitions, faults.fault_tables, faults.fault_round_trips,
    faults.fault_limits,
    drives.opening_cases, drives.state_refusals, drives.send_cases, drives.message_refusals,
    drives.value_cases, drives.message_cases, drives.close_cases,
    samples.call_samples, samples.run_samples,
    proposals.drive_list_cases, proposals.old_file_cases, proposals.free_number_cases,
    proposals.missing_cases, proposals.whole_run_cases, proposals.wide_and_old_cases,
    exchanges.exchange_definitions,
    generated.generator_cases, generated.script_cases,
)


def main() -> int:
    count = failed = 0
    for cases in GROUPS:
        for name, found, expected in cases():
            count += 1
            if found != expected:
                failed += 1
                print(f"{cases.__name__}: {name}: found {found!r}, expected {expected!r}")
    print(f"{count} cases, {failed} failed")
    return 1 if failed else 0


if __name__ == "__main__":
    sys.exit(main())
