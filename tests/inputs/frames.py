"""Families of tables: random, thresholds, clusters, products, chains, and hard ones.

All but `crowded_table` and some of `hard_frames` stay within the limits, with
few exceptions.
"""

from itertools import combinations, product
from math import comb, prod
from pathlib import Path
from random import Random
from typing import Iterator

MAX_DRIVES = 64
MAX_SETS = 128
MAX_CORES = 1024

Frame = tuple[int, list[int]]


# Eleven pairs, with 2048 cores, of which ten have 1024; and 128 sets, one drive of each of seven pairs.
PAIRS = [3 << 2 * pair for pair in range(11)]
CHOICES = [sum(1 << 2 * i + b for i, b in enumerate(taken))
           for taken in product((0, 1), repeat=7)]


def normal_tables(most: int) -> Iterator[Frame]:
    """Every normal table of 1 to `most` drives, each once."""
    def longer(n: int, sets: list[int]) -> Iterator[Frame]:
        for mask in range(sets[-1] + 1 if sets else 1, 1 << n):
            if all(mask & other not in (mask, other) for other in sets):
                yield n, [*sets, mask]
                yield from longer(n, [*sets, mask])
    for n in range(1, most + 1):
        yield from longer(n, [])


def group(rng: Random, n: int, size: int) -> int:
    """A group of so many drives of a frame."""
    return sum(1 << place for place in rng.sample(range(n), size))


def full(n: int) -> int:
    return (1 << n) - 1


def small(rng: Random) -> Frame:
    n = rng.randint(1, 7)
    return n, [rng.randint(1, full(n)) for _ in range(rng.randint(1, 9))]


def medium(rng: Random) -> Frame:
    n = rng.randint(6, 12)
    size = rng.randint(1, n)
    return n, [group(rng, n, rng.randint(1, size)) for _ in range(rng.randint(1, 20))]


def few_large(rng: Random) -> Frame:
    """Few sets of any size, so that the number of cores stays low."""
    n = rng.randint(8, MAX_DRIVES)
    sets, ways = [], 1
    while len(sets) < 6:
        size = rng.randint(1, min(n, 24))
        if ways * size > MAX_CORES:
            break
        ways *= size
        sets.append(group(rng, n, size))
    return n, sets


def threshold(rng: Random) -> Frame:
    """All groups of n - t drives."""
    fitting = [(n, t) for n in range(1, MAX_DRIVES + 1) for t in range(n)
               if comb(n, t) <= MAX_SETS and comb(n, t + 1) <= MAX_CORES]
    n, t = rng.choice(fitting)
    return n, [full(n) & ~sum(1 << i for i in out) for out in combinations(range(n), t)]


def without_few(rng: Random) -> Frame:
    """The frame without a few drives, in many ways."""
    n = rng.randint(4, 18)
    most = rng.randint(1, min(3, n - 1))
    return n, [full(n) & ~group(rng, n, rng.randint(1, most))
               for _ in range(rng.randint(1, 40))]


def cluster_masks(rng: Random, most: int) -> list[int]:
    """Disjoint clusters of which one drive each can be taken in at most
    `most` ways."""
    clusters: list[int] = []
    place, ways = 0, 1
    for _ in range(rng.randint(1, 16)):
        size = rng.randint(1, 5)
        if place + size > MAX_DRIVES or ways * size > most:
            break
        clusters.append(full(size) << place)
        place, ways = place + size, ways * size
    return clusters


def places(mask: int) -> list[int]:
    return [place for place in range(MAX_DRIVES) if mask >> place & 1]


def span(sets: list[int]) -> int:
    return max(mask.bit_length() for mask in sets)


def clusters(rng: Random) -> Frame:
    """One survivor set for each cluster."""
    sets = cluster_masks(rng, MAX_CORES)
    return span(sets), sets


def cluster_choices(rng: Random) -> Frame:
    """One drive of each cluster, in every way: the cores are the clusters."""
    sets = [sum(1 << place for place in taken)
            for taken in product(*map(places, cluster_masks(rng, MAX_SETS)))]
    return span(sets), sets


def choices_of(n: int, *groups: int) -> Frame:
    """One drive of each of these groups, in every way: the groups are the cores where none holds another."""
    taken = product(*map(places, groups))
    return n, sorted({sum(1 << place for place in set(one)) for one in taken})


# n, and groups of one size in the order of cores, of which the first is not the lowest as a mask.
CROSSED = [(4, [0b1001, 0b0110]), (6, [0b001001, 0b000110, 0b110000]), (6, [0b100001, 0b010010, 0b001100]),
           (6, [0b100011, 0b001101]), (6, [0b100011, 0b010101, 0b111000]), (64, [1 << 63 | 3, 0b11100]),
           (64, [0b1001 << 60, 0b0110 << 60])]


def overlapping_choices(rng: Random) -> Frame:
    """One drive of each of some overlapping groups, in every way."""
    n = rng.randint(3, MAX_DRIVES)
    groups: list[int] = []
    for _ in range(rng.randint(1, 7)):
        new = group(rng, n, rng.randint(1, min(n, 5)))
        if prod(map(int.bit_count, groups)) * new.bit_count() <= MAX_SETS:
            groups.append(new)
    return choices_of(n, *groups)


def joined_clusters(rng: Random) -> Frame:
    """Each of some masters with each cluster."""
    masters = rng.randint(1, 3)
    parts = [part << masters for part in cluster_masks(rng, 200)]
    return span(parts), [1 << master | part for master in range(masters) for part in parts]


def chain_of_pairs(rng: Random) -> Frame:
    """Neighbours on a line or a ring."""
    n = rng.randint(2, 20)
    sets = [3 << place for place in range(n - 1)]
    return n, sets + ([1 | 1 << n - 1] if rng.random() < 0.5 else [])


def nested_chain(rng: Random) -> Frame:
    """Each set holds the one before."""
    n = rng.randint(1, MAX_DRIVES)
    return n, [full(place + 1) for place in range(n)]


def single_drives(rng: Random) -> Frame:
    """Sets of one drive: the core holds them all."""
    n = rng.randint(1, MAX_DRIVES)
    return n, [1 << place for place in range(rng.randint(1, n))]


def separate_products(rng: Random) -> Frame:
    """Pairs across the two sides of each of some separate groups."""
    sets, place = [], 0
    for _ in range(rng.randint(1, 6)):
        left, right = rng.randint(1, 3), rng.randint(1, 3)
        sets += [1 << place + a | 1 << place + left + b
                 for a in range(left) for b in range(right)]
        place += left + right
    return place, sets


FAMILIES = (small, small, medium, few_large, threshold, without_few, clusters,
            cluster_choices, overlapping_choices, joined_clusters, chain_of_pairs,
            nested_chain, single_drives, separate_products)


def scatter(rng: Random, found: Frame) -> Frame:
    """Drives renamed, in a frame that may have drives in no set."""
    n, sets = found
    wider = rng.randint(n, MAX_DRIVES) if rng.random() < 0.3 else n
    names = rng.sample(range(wider), n)
    return wider, [sum(1 << names[place] for place in places(mask)) for mask in sets]


def pad(rng: Random, found: Frame) -> Frame:
    """Repeats and supersets added."""
    n, sets = found
    most = rng.choice((len(sets) + 3, MAX_SETS))
    extra = [rng.choice(sets) | (rng.randint(0, full(n)) if rng.random() < 0.7 else 0)
             for _ in range(rng.randint(1, max(1, most - len(sets))))]
    return n, (sets + extra)[:max(len(sets), MAX_SETS)]


def accepted_table(rng: Random) -> Frame:
    """A table that, with few exceptions, meets no refusal."""
    found = rng.choice(FAMILIES)(rng)
    if rng.random() < 0.6:
        found = scatter(rng, found)
    if rng.random() < 0.4:
        found = pad(rng, found)
    n, sets = found
    if rng.random() < 0.7:
        rng.shuffle(sets)
    return n, sets


def crowded_table(rng: Random) -> Frame:
    """A table that meets 13."""
    pairs = rng.randint(11, 32)
    sets = [3 << 2 * pair for pair in range(pairs)]
    found = rng.choice((
        (2 * pairs, sets),
        (2 * pairs, sets + [0b101010]),
        (46, [full(46) & ~(1 << place) for place in range(46)]),
        (30, [3 << place for place in range(29)]),
        (24, [group(rng, 24, 8) for _ in range(60)]),
    ))
    return scatter(rng, found)


# Tables on which the search for cores goes far

BENCH_TABLES = Path(__file__).resolve().parent.parent.parent / "bench" / "tables"


def listed(data: bytes) -> Frame:
    """The drives and sets of a table's bytes."""
    return data[2], [int.from_bytes(data[place + 2:place + 10], "little")
                     for place in range(3, len(data) - 3, 10)]


def copies(pairs: list[tuple[int, int]], width: int, count: int) -> Frame:
    """Sets of two drives, repeated on further drives."""
    return width * count, [(1 << low | 1 << high) << width * number
                           for number in range(count) for low, high in pairs]


def renamed(rng: Random, frame: Frame) -> Frame:
    """The same with other numbers for the drives."""
    n, sets = frame
    names = rng.sample(range(n), n)
    return n, [sum(1 << names[place] for place in range(n) if mask >> place & 1)
               for mask in sets]


def hard_frames() -> Iterator[Frame]:
    """Those of the bench, complete bipartite graphs side by side, and bands."""
    for path in sorted(BENCH_TABLES.glob("*.table")):
        yield listed(path.read_bytes())
    rng = Random(1)
    for side, reach, count in ((2, 2, 10), (3, 3, 10), (4, 4, 8),
                               (18, 3, 1), (20, 3, 1), (24, 2, 1)):
        pairs = [(low, side + high) for low, high in product(range(side), repeat=2)
                 if abs(low - high) <= reach]
        whole = copies(pairs, 2 * side, count)
        yield from (whole, renamed(rng, whole))
