"""The documents' definitions written out over all subsets and all lists.

Slow and short: each is the sentence itself, so that the reference's searches
and calls can be checked against it for small frames.
"""

from functools import cmp_to_key
from itertools import combinations_with_replacement, product
from typing import Iterable, Optional


def meets(group: int, sets: list[int]) -> bool:
    return all(group & mask for mask in sets)


def first_missed(group: int, normal: list[int]) -> Optional[int]:
    """The lowest of the positions, from 1, of the sets that share no drive with the group."""
    return min((p for p, mask in enumerate(normal, 1) if group & mask == 0), default=None)


def smallest_meeting(n: int, sets: list[int]) -> list[int]:
    """The groups that meet every set and of which no smaller part does."""
    meeting = [group for group in range(1 << n) if meets(group, sets)]
    return [group for group in meeting
            if not any(part != group and part & group == part for part in meeting)]


def set_by_set(sets: list[int], most: int) -> Optional[list[int]]:
    """The same by Berge's method: the smallest groups for the sets so far,
    one set more at a time. None where a list grows beyond `most`."""
    groups = [0]
    for mask in sets:
        meeting = [group for group in groups if group & mask]
        longer = {group | 1 << place for group in groups if not group & mask
                  for place in range(mask.bit_length()) if mask >> place & 1}
        groups = meeting + [new for new in longer
                            if not any(old & ~new == 0 for old in meeting)]
        if len(groups) > most:
            return None
    return groups


def normal(sets: list[int]) -> list[int]:
    """Without repeats and without each set that holds another, by mask."""
    return sorted({mask for mask in sets
                   if not any(other != mask and other & mask == other for other in sets)})


def core_order(a: int, b: int) -> int:
    """Negative where core a comes before core b: a is smaller, or holds the lowest drive that only
    one of the two holds."""
    sizes = [bin(core).count("1") for core in (a, b)]
    if sizes[0] != sizes[1]:
        return sizes[0] - sizes[1]
    for place in range(64):
        if (a >> place & 1) != (b >> place & 1):
            return -1 if a >> place & 1 else 1
    return 0


def in_core_order(groups: Iterable[int]) -> list[int]:
    return sorted(groups, key=cmp_to_key(core_order))


def cores(n: int, sets: list[int]) -> list[int]:
    return in_core_order(smallest_meeting(n, sets))


def first_sharing_none(sets: list[int], k: int) -> Optional[tuple[int, ...]]:
    """The first k positions, from 1 and not falling, whose sets share no
    drive."""
    for positions in combinations_with_replacement(range(1, len(sets) + 1), k):
        shared = -1
        for position in positions:
            shared &= sets[position - 1]
        if shared == 0:
            return positions
    return None


def blocks(n: int, named: list[int]) -> tuple[int, ...]:
    """Of each named set the drives outside it that are in no earlier block; then the
    moves, on lists of drives."""
    left = list(range(n))
    parts = []
    for mask in named:
        parts.append([drive for drive in left if not mask >> drive & 1])
        left = [drive for drive in left if mask >> drive & 1]
    while [] in parts:
        first = [part for part in parts if len(part) > 1][0]
        parts[parts.index([])] = [first.pop(0)]
    return tuple(sum(1 << drive for drive in part) for part in parts)


def every_split_has_a_core(n: int, k: int, all_cores: list[int]) -> bool:
    """Whether every split of the frame into k blocks, none empty, has one with a core."""
    for owners in product(range(k), repeat=n):
        split = [sum(1 << i for i in range(n) if owners[i] == b) for b in range(k)]
        if 0 not in split and not any(core & ~block == 0 for core in all_cores for block in split):
            return False
    return True


def failing(n: int, groups: list[int]) -> list[int]:
    """The sets of drives that can fail together: those within a fault group."""
    return [s for s in range(1 << n) if any(s | group == group for group in groups)]


def failing_by_table(n: int, sets: list[int]) -> list[int]:
    """The same by a table: those of whose rest some survivor set is a part."""
    return [s for s in range(1 << n) if any((1 << n) - 1 - s | mask == (1 << n) - 1 - s for mask in sets)]


def largest(family: list[int]) -> list[int]:
    """Those that are a part of no other, by mask."""
    return sorted({s for s in family if not any(s != other and s | other == other for other in family)})


def groups_refusal(n: int, groups: list[int]) -> int:
    """The number that the masks of a fault list of at most 128 meet, 0 for none."""
    for group in groups:
        if group >= 1 << n:
            return 4
        if bin(group).count("1") == n:
            return 34
    return 0


def proposals_refusal(n: int, core: set[int], listed: list[int], mark: bytes) -> int:
    """The number that the PR and PW of a run file meet, of these drives one after the other, all
    whole; or, where they meet none, what stands behind them: 0 where CR or EN may stand there."""
    for place, drive in enumerate(listed):
        before = listed[:place]
        if n in before:
            return 2
        if drive not in range(max(before, default=0) + 1, n + 1):
            return 8
        if [owed for owed in core if owed < drive and owed not in before]:
            return 8
    if len(mark) < 2:
        return 1
    return 0 if mark in (b"CR", b"EN") and core.issubset(listed) else 2


def send_list(n: int, core: set[int], sender: int) -> list[int]:
    return (sorted(core - {sender}) +
            [drive for drive in range(1, n + 1) if drive not in core])


def outcome(n: int, core: set[int], proposals: list[int],
            stops: dict[int, tuple[int, int]]) -> dict[int, tuple[int, int]]:
    """Number and round of each drive that decides before it is gone, from
    the rules of the exchange with sets and dictionaries and no messages."""
    known = {d: {d: proposals[d - 1]} if d in core else {} for d in range(1, n + 1)}
    before = {d: core for d in range(1, n + 1)}
    decided: dict[int, tuple[int, int]] = {}
    halted: set[int] = set()
    for round_number in range(1, len(core) + 1):
        up = {d for d in known if stops.get(d, (99, 0))[0] >= round_number} - halted
        closing = {d for d in up if stops.get(d, (99, 0))[0] > round_number}
        old_known = {d: dict(known[d]) for d in known}
        old_decided = dict(decided)
        heard = {d: {d} & core for d in closing}
        told: dict[int, dict[int, int]] = {d: {} for d in closing}
        for sender in up & core:
            receivers = send_list(n, core, sender)
            if sender not in closing:
                receivers = receivers[:stops[sender][1]]
            for receiver in closing.intersection(receivers):
                heard[receiver].add(sender)
                if sender in old_decided:
                    told[receiver][sender] = old_decided[sender][0]
                else:
                    known[receiver].update(old_known[sender])
        for d in closing:
            if d in old_decided:
                halted.add(d)
            elif told[d]:
                decided[d] = (told[d][min(told[d])], round_number)
            elif heard[d] and heard[d] == before[d]:
                decided[d] = (min(known[d].values()), round_number)
            if d in decided and d not in core:
                halted.add(d)
            before[d] = heard[d]
    return decided
