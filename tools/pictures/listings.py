"""What the pictures take from a listing: what is decided and what is stopped, which sets and cores there are."""

import re
from dataclasses import dataclass
from typing import Optional


class Unfit(Exception):
    """The file and the listing do not belong together."""


@dataclass(frozen=True)
class TableListing:
    """Masks as they are printed; a verdict is its whole line."""

    n: int
    sets: list[str]
    cores: list[str]
    chosen: str
    verdicts: list[str]


def table_listing(listing: str) -> TableListing:
    """The listing of a table; Unfit if it is none, as a refusal is."""
    def found(form: str) -> list[str]:
        return re.findall(f"^{form}$", listing, re.MULTILINE)
    drives, chosen = found(r"drives ([0-9]+)"), found("chosen ([0-9a-f]+)")
    sets, cores, verdicts = found("set ([0-9a-f]+)"), found("core ([0-9a-f]+)"), found("(k [234] (?:yes|few|no .*))")
    if not (drives and sets and cores and chosen and verdicts):
        raise Unfit("this is not the listing of a table")
    return TableListing(int(drives[0]), sets, cores, chosen[0], verdicts)


# for each drive its number and round, or None where it is listed as stopped
Decisions = dict[int, Optional[tuple[int, int]]]


@dataclass(frozen=True)
class RunListing:
    """The decisions; the core as printed; how many of its drives stop."""

    decisions: Decisions
    core: str
    stops: int


def run_listing(listing: str) -> RunListing:
    """The listing of a run; Unfit if it is none, as a refusal is."""
    drive, end = "drive ([0-9]+) (?:stopped|decides ([0-9]+) round ([0-9]+))", "core ([1-9a-f][0-9a-f]*) stops ([0-9]+)"
    *lines, last = listing.splitlines() or [""]
    found, core = [re.fullmatch(drive, line) for line in lines], re.fullmatch(end, last)
    if not (found and all(found) and core):
        raise Unfit("this is not the listing of a run")
    decisions = {int(line[1]): (int(line[2]), int(line[3])) if line[2] else None for line in found}
    return RunListing(decisions, core[1], int(core[2]))
