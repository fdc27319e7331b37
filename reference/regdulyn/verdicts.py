"""Verdicts on k: whether any k survivor sets share a drive (k-Intersection),
and where not, the witness and the split into k blocks, none empty (k-Partition).
"""

from dataclasses import dataclass
from typing import Sequence

from .masks import all_drives, bits, size
from .refusals import Refusal
from .tables import accept, first_missed

K_LOW, K_HIGH = 2, 4


@dataclass(frozen=True)
class Verdict:
    """Yes has no positions and no blocks; no has k of each."""

    k: int
    positions: tuple[int, ...] = ()
    blocks: tuple[int, ...] = ()

    @property
    def yes(self) -> bool:
        return not self.positions


def verdict(k: int, n: int, sets: Sequence[int]) -> Verdict:
    """The verdict on k for the normal table of the sets."""
    if not K_LOW <= k <= K_HIGH:
        raise Refusal(12)
    normal = accept(n, sets).normal
    if n <= k:
        raise Refusal(33)
    places = _first_sharing_none(normal, k, all_drives(n), 0)
    if places is None:
        return Verdict(k)
    named = [normal[place] for place in places]
    positions = tuple(place + 1 for place in places)
    return Verdict(k, positions, tuple(_none_empty(_blocks(n, named))))


def _blocks(n: int, named: list[int]) -> list[int]:
    """Block i holds the drives outside the i-th named set and in no earlier
    block."""
    left = all_drives(n)
    blocks = []
    for mask in named:
        blocks.append(left & ~mask)
        left &= mask
    return blocks


def _none_empty(blocks: list[int]) -> list[int]:
    """While a block is empty, the lowest drive of the first block with two or
    more moves to the first empty block."""
    while 0 in blocks:
        empty = blocks.index(0)
        large = next(place for place, block in enumerate(blocks) if size(block) >= 2)
        lowest = next(bits(blocks[large]))
        blocks[large] -= lowest
        blocks[empty] = lowest
    return blocks


def _first_sharing_none(normal: Sequence[int], count: int, shared: int,
                        start: int) -> list[int] | None:
    """The first `count` places, not falling and from `start` on, whose sets
    have no drive of `shared` in common."""
    if not _some_share_none(normal[start:], count, shared):
        return None
    if count == 0:
        return []
    for place in range(start, len(normal)):
        tail = _first_sharing_none(normal, count - 1, shared & normal[place], place)
        if tail is not None:
            return [place] + tail
    return None


def _some_share_none(normal: Sequence[int], count: int, shared: int) -> bool:
    """Whether at most `count` of the sets have no drive of `shared` in
    common. Some set must lack each shared drive, so it is enough to try the
    sets that lack one of them, and best the drive that the fewest lack."""
    if shared == 0:
        return True
    if count == 0:
        return False
    if count == 1:
        return first_missed(normal, shared) is not None
    rarest = min(([mask for mask in normal if not mask & drive]
                  for drive in bits(shared)), key=len)
    return any(_some_share_none(normal, count - 1, shared & mask) for mask in rarest)
