"""Domains: the values that an integer may have, upwards, as a `range` or a tuple."""
from __future__ import annotations

from collections.abc import Iterable
from math import gcd
from typing import Union

Domain = Union[range, tuple[int, ...]]

# Up to so many values, or pairs of them, what comes of them is listed one by one.
LISTED = 20_000


def domain_of(values: Iterable[int]) -> Domain:
    """The different values upwards: as a range where their gaps are equal."""
    ascending = tuple(sorted(set(values)))
    if len(ascending) < 2:
        return range(ascending[0], ascending[0] + 1) if ascending else ()
    gap = ascending[1] - ascending[0]
    even = range(ascending[0], ascending[-1] + 1, gap)
    return even if len(even) == len(ascending) and tuple(even) == ascending else ascending


def multiple(domain: Domain, factor: int, constant: int) -> Domain:
    """The values times a factor that isn't 0, and more by a constant."""
    if isinstance(domain, range):
        ends = sorted((factor * domain[0] + constant, factor * domain[-1] + constant))
        return range(ends[0], ends[1] + 1, abs(factor) * domain.step)
    return tuple(sorted(factor * it + constant for it in domain))


def gap_of(domain: Domain) -> int:
    """A number that divides each gap between two values, and 0 where there is one value."""
    if len(domain) < 2:
        return 0
    return domain.step if isinstance(domain, range) else 1


def sums(first: Domain, second: Domain, low: int, high: int) -> Domain:
    """Values from low to high, among which is each sum of two values that lies there."""
    gap = gcd(gap_of(first), gap_of(second)) or 1
    if len(first) * len(second) > LISTED or closes(first, second) or closes(second, first):
        return between(first, second, gap, low, high)
    found = {one + other for one in first for other in second}
    return domain_of(it for it in found if low <= it <= high)


def closes(fine: Domain, coarse: Domain) -> bool:
    """Whether the sums of two ranges are even, since the first one fills the gaps of the second."""
    if not (isinstance(fine, range) and isinstance(coarse, range)):
        return False
    gap, wide = gap_of(fine) or gap_of(coarse), gap_of(coarse)
    return gap > 0 and wide % gap == 0 and fine[-1] - fine[0] + gap >= wide


def between(first: Domain, second: Domain, gap: int, low: int, high: int) -> range:
    """The numbers with a gap from the least sum of two values on, as far as from low to high."""
    least = first[0] + second[0]
    if low > least:
        least += -(-(low - least) // gap) * gap
    return range(least, min(high, first[-1] + second[-1]) + 1, gap)


def is_small(first: Domain, second: Domain) -> bool:
    """Whether the pairs of values of two integers are listed one by one."""
    return len(first) * len(second) <= LISTED
