"""Survivor tables, verdicts and exchanges, written from documents 01 and 02 and the decisions on
them.

The second program: its listings are compared with the proved programs'.
"""

from .exchange import Exchange, close, message, opening, send, send_into
from .faults import (faults_from_table, read_faults, table_from_faults, write_faults,
                     write_faults_into)
from .listings import convert_program, run_program, table_program, threshold_program
from .refusals import Refusal
from .runs import Crash, Outcome, Scenario, read_run, simulate, stops_by_drive
from .tables import (back, chosen_core, cores, missed_set, normal_table, read_table,
                     read_table_with_rest, write_table, write_table_into)
from .thresholds import threshold_table
from .verdicts import Verdict, verdict

__all__ = [
    "Crash", "Exchange", "Outcome", "Refusal", "Scenario", "Verdict", "back",
    "chosen_core", "close", "convert_program", "cores", "faults_from_table", "message",
    "missed_set", "normal_table", "opening", "read_faults", "read_run", "read_table",
    "read_table_with_rest", "run_program", "send", "send_into", "simulate",
    "stops_by_drive", "table_from_faults", "table_program", "threshold_program",
    "threshold_table", "verdict", "write_faults", "write_faults_into", "write_table",
    "write_table_into",
]
