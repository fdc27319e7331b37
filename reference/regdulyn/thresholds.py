"""A table from two numbers: at most t of the n drives drop out, so its survivor
sets are all groups of n - t drives (document 02, request i).
"""

from itertools import combinations
from math import comb

from .masks import mask_of
from .refusals import Refusal
from .tables import MAX_SETS, check_drives, normal_table


def threshold_table(n: int, t: int) -> list[int]:
    """The normal table of all groups of n - t drives: 3, 31, 32, then 13, which is
    met as by every table."""
    check_drives(n)
    if t >= n:
        raise Refusal(31)
    if comb(n, n - t) > MAX_SETS:
        raise Refusal(32)
    frame = range(1, n + 1)
    return normal_table(n, [mask_of(group) for group in combinations(frame, n - t)])
