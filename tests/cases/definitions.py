"""Tables and verdicts against the plain definitions, on small frames, and
known lists of cores on large ones."""

from itertools import chain, combinations
from random import Random
from typing import Iterator

import plain
import regdulyn
from inputs.frames import CROSSED, accepted_table, choices_of, full, group, normal_tables
from inputs.records import table

from . import Case, refusal


def small_tables(rng: Random) -> Iterator[tuple[int, list[int]]]:
    """All families of three drives, and random ones of up to seven."""
    for n in (1, 2, 3):
        masks = range(1, 1 << n)
        for size in range(1, len(masks) + 1):
            yield from ((n, list(family)) for family in combinations(masks, size))
    for _ in range(700):
        n = rng.randint(2, 7)
        most = rng.randint(1, full(n))
        yield n, [rng.randint(1, most) for _ in range(rng.randint(1, 12))]
    for _ in range(150):
        n = rng.randint(4, 8)
        yield n, [full(n) & ~group(rng, n, rng.randint(0, 3)) for _ in range(12)]


def table_definitions() -> Iterator[Case]:
    rng = Random(11)
    for n, sets in small_tables(rng):
        name = f"n {n} sets {sets}"
        normal, cores = plain.normal(sets), plain.cores(n, sets)
        yield f"normal: {name}", regdulyn.normal_table(n, sets), normal
        yield f"cores: {name}", regdulyn.cores(n, sets), cores
        yield f"chosen: {name}", regdulyn.chosen_core(n, sets), cores[0]
        yield f"back: {name}", regdulyn.back(n, cores), normal
        some = rng.randint(1, full(n))
        missed = regdulyn.missed_set(n, sets, some)
        yield f"missed by {some:x}: {name}", missed, plain.first_missed(some, normal)
        yield f"none missed by {some:x}: {name}", missed is None, plain.meets(some, sets)
        yield f"back of any: {name}", regdulyn.back(n, sets), sorted(cores)
        written = regdulyn.write_table(n, sets)
        yield f"write and read: {name}", regdulyn.read_table(written), (n, normal)
        yield f"read: {name}", regdulyn.read_table(table(n, sets)), (n, normal)


def verdict_definitions() -> Iterator[Case]:
    for n, sets in chain(small_tables(Random(12)), normal_tables(4)):
        normal, cores = plain.normal(sets), plain.cores(n, sets)
        for k in (2, 3, 4):
            name = f"k {k} n {n} sets {sets}"
            if n <= k:
                yield f"few: {name}", refusal(regdulyn.verdict, k, n, sets), 33
                continue
            found = regdulyn.verdict(k, n, sets)
            first = plain.first_sharing_none(normal, k)
            yield f"positions: {name}", found.positions, first or ()
            if n <= 6:
                yield (f"splits: {name}", found.yes,
                       plain.every_split_has_a_core(n, k, cores))
            if found.yes:
                continue
            yield f"blocks: {name}", found.blocks, plain.blocks(n, [normal[p - 1] for p in first])
            yield f"blocks are a split: {name}", split_of(n, found.blocks), True
            holds = any(c & ~block == 0 for c in cores for block in found.blocks)
            yield f"no block holds a core: {name}", holds, False
            outside = all(any(block & normal[p - 1] == 0 for p in first) for block in found.blocks)
            yield f"blocks outside named sets: {name}", outside, True


def split_of(n: int, blocks: tuple[int, ...]) -> bool:
    """Disjoint, together the frame, and none empty."""
    return 0 not in blocks and sum(blocks) == full(n) and sum(b.bit_count() for b in blocks) == n


def wide_tables() -> Iterator[Case]:
    """Frames of any width, against Berge's method and by the way back."""
    rng = Random(13)
    for _ in range(400):
        n, sets = accepted_table(rng)
        groups = plain.set_by_set(sorted(plain.normal(sets), key=int.bit_count), 500)
        if groups is None:
            continue
        expected = plain.in_core_order(groups)
        name = f"n {n} sets {sets}"
        yield f"cores: {name}", regdulyn.cores(n, sets), expected
        if len(expected) <= 100:
            yield f"back: {name}", regdulyn.back(n, expected), plain.normal(sets)


def large_tables() -> Iterator[Case]:
    """Known lists of cores, on frames where low drives decide and on frames near the limits."""
    for n, groups in CROSSED:
        yield f"low drives first: n {n} cores {groups}", regdulyn.cores(*choices_of(n, *groups)), groups
    pairs = [3 << 2 * pair for pair in range(32)]
    masters = [1 << m | 3 << 2 + 2 * part for m in (0, 1) for part in range(31)]
    yield "32 pairs and 2 4 6", refusal(regdulyn.cores, 64, pairs + [0b101010]), 13
    yield "two masters, 31 clusters", refusal(regdulyn.cores, 64, masters), 13
    missing_one = [full(45) & ~(1 << place) for place in range(45)]
    twos = [1 << a | 1 << b for a, b in combinations(range(45), 2)]
    yield "44 of 45", regdulyn.cores(45, missing_one), twos
    yield "44 of 45 back", regdulyn.back(45, twos), sorted(missing_one)
    yield "45 of 46", refusal(regdulyn.cores, 46, [full(46) & ~(1 << p) for p in range(46)]), 13
    sides = [1 << 6 * g + a | 1 << 6 * g + 3 + b
             for g in range(10) for a in range(3) for b in range(3)]
    chosen = sum(7 << 6 * g for g in range(10))
    found = regdulyn.cores(60, sides)
    yield "ten of three by three", (len(found), found[0]), (1024, chosen)
    yield "ten of three by three back", regdulyn.back(60, found), sorted(sides)
    yield "64 single drives", regdulyn.cores(64, [1 << p for p in range(64)]), [full(64)]
