"""What the programs print: text, of the threshold program a table's file, and of the
convert program that of a table or a fault list.

Masks are in hexadecimal without leading zeros, everything else in decimal;
each line ends with one newline. A refusal prints one line and nothing else.
"""

from typing import Callable

from .faults import faults_from_table, read_faults, table_from_faults, write_faults
from .records import FAULT, Reader
from .refusals import Refusal
from .runs import read_run, simulate
from .tables import chosen_core, cores, read_table, read_table_with_rest, write_table
from .thresholds import threshold_table
from .verdicts import K_HIGH, K_LOW, verdict


def table_program(data: bytes) -> bytes:
    """Standard output of the table program for its standard input."""
    return _output(_table_listing, data)


def run_program(data: bytes) -> bytes:
    """Standard output of the run program for its standard input."""
    return _output(_run_listing, data)


def threshold_program(data: bytes) -> bytes:
    """Standard output of the threshold program for its standard input."""
    return _output(_threshold_file, data)


def convert_program(data: bytes) -> bytes:
    """Standard output of the convert program for its standard input."""
    return _output(_converted_file, data)


def _output(made: Callable[[bytes], bytes], data: bytes) -> bytes:
    try:
        return made(data)
    except Refusal as refusal:
        return _text([f"refused {refusal.number}"])


def _text(lines: list[str]) -> bytes:
    return "".join(line + "\n" for line in lines).encode("ascii")


def _table_listing(data: bytes) -> bytes:
    n, sets = read_table(data)
    lines = [f"drives {n}"]
    lines += [f"set {mask:x}" for mask in sets]
    lines += [f"core {mask:x}" for mask in cores(n, sets)]
    lines += [f"chosen {chosen_core(n, sets):x}"]
    lines += [_verdict_line(k, n, sets) for k in range(K_LOW, K_HIGH + 1)]
    return _text(lines)


def _verdict_line(k: int, n: int, sets: list[int]) -> str:
    if n <= k:
        return f"k {k} few"
    found = verdict(k, n, sets)
    if found.yes:
        return f"k {k} yes"
    positions = " ".join(str(position) for position in found.positions)
    blocks = " ".join(f"{block:x}" for block in found.blocks)
    return f"k {k} no sets {positions} blocks {blocks}"


def _run_listing(data: bytes) -> bytes:
    n, sets, rest = read_table_with_rest(data)
    scenario = read_run(rest, n, sets)
    outcome = simulate(n, sets, scenario.proposals, scenario.crashes)
    lines = [_drive_line(drive, decision)
             for drive, decision in enumerate(outcome.decisions, start=1)]
    return _text(lines + [f"core {outcome.core:x} stops {outcome.stops}"])


def _drive_line(drive: int, decision: tuple[int, int] | None) -> str:
    if decision is None:
        return f"drive {drive} stopped"
    pattern, round_number = decision
    return f"drive {drive} decides {pattern} round {round_number}"


def _threshold_file(data: bytes) -> bytes:
    """The file of the table from n and t, one byte each: 1, 7, then the table's."""
    reader = Reader(data)
    n, t = reader.take(2)
    reader.end()
    return write_table(n, threshold_table(n, t))


def _converted_file(data: bytes) -> bytes:
    """The table of a file with FL behind FR and n; of any other the fault list."""
    if data[3:5] == FAULT:
        n, groups = read_faults(data)
        return write_table(n, table_from_faults(n, groups))
    n, sets = read_table(data)
    return write_faults(n, faults_from_table(n, sets))
