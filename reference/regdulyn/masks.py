"""Sets of drives as masks: bit 0 (value 1) is drive 1.

Kept apart so that no other module shifts by a drive number.
"""

from functools import lru_cache
from typing import Iterable, Iterator

MAX_DRIVES = 64


def bit(drive: int) -> int:
    """The set of one drive."""
    return 1 << (drive - 1)


def all_drives(n: int) -> int:
    """The whole frame of n drives."""
    return (1 << n) - 1


def size(mask: int) -> int:
    """How many drives the set holds."""
    return mask.bit_count()


def bits(mask: int) -> Iterator[int]:
    """The one-drive sets within a set, rising."""
    while mask:
        lowest = mask & -mask
        yield lowest
        mask ^= lowest


@lru_cache(maxsize=4096)
def drives(mask: int) -> tuple[int, ...]:
    """The drive numbers of a set, rising."""
    return tuple(one.bit_length() for one in bits(mask))


def mask_of(numbers: Iterable[int]) -> int:
    """The set of the given drive numbers."""
    mask = 0
    for drive in numbers:
        mask |= bit(drive)
    return mask


def is_part(small: int, large: int) -> bool:
    """Whether every drive of the first set is in the second."""
    return small & ~large == 0


def smallest(groups: Iterable[int]) -> list[int]:
    """Drops repeats and each group that holds another; orders by mask."""
    kept: list[int] = []
    for mask in sorted(set(groups), key=size):
        if not any(is_part(small, mask) for small in kept):
            kept.append(mask)
    return sorted(kept)


def largest(groups: Iterable[int]) -> list[int]:
    """Drops repeats and each group within another; orders by mask."""
    kept: list[int] = []
    for mask in sorted(set(groups), key=size, reverse=True):
        if not any(is_part(mask, large) for large in kept):
            kept.append(mask)
    return sorted(kept)
