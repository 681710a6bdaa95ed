"""Things in bins, and rectangles that don't overlap."""
from __future__ import annotations

from collections.abc import Iterable, Sequence
from itertools import combinations
from typing import TYPE_CHECKING, Optional

from .bounds import Bounds, Conflict, Propagator
from .composed import Composed
from .expressions import (
    IntegerVariable,
    Number,
    NumberLike,
    Sum,
    Truth,
    any_of,
    flatten,
    number_of,
    same_length,
    weighted_sum,
    whole,
)
from .lines import refused
from .propagators import AtMostZero
from .sequences import value_precede

if TYPE_CHECKING:
    from .presolve import Presolve


def bin_loads(places: Iterable[NumberLike], sizes: Iterable[int], bins: int) -> list[Sum]:
    """What the bins 0, 1 and so on hold, as numbers: the sizes of what is placed in each."""
    each, taken = [number_of(it) for it in places], [whole(it, "a size") for it in sizes]
    same_length("bin_loads", each, taken)
    return [weighted_sum(taken, [it == place for it in each]) for place in range(bins)]


class BinPacking(Composed):
    """Each bin holds no more than it can."""

    def __init__(self, places: Sequence[Number], sizes: Sequence[int], capacities: Sequence[Number], in_order: bool):
        self.places, self.sizes, self.capacities = places, sizes, capacities
        loads = bin_loads(places, sizes, len(capacities))
        parts: list[Truth] = [load <= most for load, most in zip(loads, capacities)]
        parts += [(it >= 0) & (it < len(capacities)) for it in places]
        if in_order:
            order = sorted(range(len(sizes)), key=lambda it: -sizes[it])
            parts.append(value_precede([places[it] for it in order], range(len(capacities))))
        super().__init__(f"bin_packing of {', '.join(str(it) for it in places[:4])}", parts)

    def presolve(self, presolve: Presolve) -> None:
        super().presolve(presolve)
        if all(isinstance(it, IntegerVariable) for it in self.places):
            most = [presolve.sides(it)[1] for it in self.capacities]
            made = Packing(self.places, self.sizes, most)
            presolve.bounds.add(made, *self.places, *presolve.watched(*most))


class Packing(Propagator):
    """How many bins are needed at least for what isn't placed yet, and what fits into none."""

    def __init__(self, places: Sequence[Number], sizes: Sequence[int], capacities: Sequence[AtMostZero]):
        self.places, self.sizes, self.capacities = places, sizes, capacities
        self.size = 4 * len(places) + 2 * len(capacities)

    def run(self, bounds: Bounds) -> None:
        capacities = [-it.least(bounds) for it in self.capacities]
        held = [0] * len(capacities)
        loose = []
        for place, size in zip(self.places, self.sizes):
            at = bounds.low[place]
            if bounds.is_fixed(place) and 0 <= at < len(held):
                held[at] += size
            else:
                loose.append((place, size))
        if any(taken > most for taken, most in zip(held, capacities)):
            raise Conflict
        usable = self.usable(bounds, [place for place, _ in loose], held)
        self.check(capacities, held, [size for _, size in loose], usable)

    def usable(self, bounds: Bounds, loose: Sequence[Number], held: Sequence[int]) -> list[int]:
        """The bins that hold something or that something may still be placed in."""
        low = min((bounds.low[it] for it in loose), default=len(held))
        high = max((bounds.high[it] for it in loose), default=-1)
        return [at for at, it in enumerate(held) if it or low <= at <= high]

    def check(
        self, capacities: Sequence[int], held: Sequence[int], loose: Sequence[int], usable: Sequence[int]
    ) -> None:
        """The bins that can be used hold it all."""
        room = sum(capacities[it] for it in usable)
        things = sorted([*loose, *(it for it in held if it)], reverse=True)
        most = max((capacities[it] for it in usable), default=0)
        if sum(things) > room or bins_needed(things, most) > len(usable):
            raise Conflict


def bins_needed(things: Sequence[int], most: int) -> int:
    """How many bins of one capacity are needed at least, by the things of half a bin and more and
    those that fit beside none of them; the things come in falling order."""
    needed = 0
    for least in {0, *(it for it in things if 2 * it <= most)}:
        alone = [it for it in things if it > most - least]
        large = [it for it in things if 2 * it > most and it <= most - least]
        small = sum(it for it in things if 2 * it <= most and it >= least)
        beside = small - (len(large) * most - sum(large))
        more = -(-beside // most) if beside > 0 and most > 0 else 0
        needed = max(needed, len(alone) + len(large) + more)
    return needed


def bin_packing(
    places: Iterable[NumberLike],
    sizes: Iterable[int],
    capacities: Iterable[NumberLike],
    in_order: bool = False,
) -> Truth:
    """Each thing lies in the bin of its place, counted from 0, and no bin holds more than it can.

    Where the bins are alike, `in_order` has them used in the order of their largest things, so that
    packings that differ only in the bins' numbers are one.
    """
    each, taken = [number_of(it) for it in places], [whole(it, "a size") for it in sizes]
    most = [number_of(it) for it in capacities]
    same_length("bin_packing", each, taken)
    if min(taken, default=0) < 0:
        raise refused("bin_packing: a size is negative")
    if in_order and len({None if flatten(it)[0] else flatten(it)[1] for it in most}) > 1:
        raise refused("bin_packing: bins of several capacities have no order; leave out in_order")
    return BinPacking(each, taken, most, in_order)


def knapsack(
    amounts: Iterable[NumberLike],
    sizes: Iterable[int],
    capacity: NumberLike,
    profits: Optional[Iterable[int]] = None,
    profit: Optional[NumberLike] = None,
) -> Truth:
    """So much of each thing takes no more than the capacity; with profits, it yields the profit."""
    each = [number_of(it) for it in amounts]
    parts = [weighted_sum(sizes, each) <= capacity]
    if profits is not None and profit is not None:
        parts.append(weighted_sum(profits, each) == profit)
    return Composed(f"knapsack of {', '.join(str(it) for it in each[:4])}", parts)


def rectangles(
    xs: Iterable[NumberLike],
    ys: Iterable[NumberLike],
    widths: Iterable[NumberLike],
    heights: Iterable[NumberLike],
) -> Truth:
    """Rectangles from their corners at x and y on don't overlap: of each two one lies left of the
    other, or below it. Weight: four comparisons for each pair."""
    sides = [[number_of(it) for it in each] for each in (xs, ys, widths, heights)]
    for it in sides[1:]:
        same_length("rectangles", sides[0], it)
    boxes = [*zip(*sides)]
    parts = [
        any_of([a + w <= c, c + u <= a, b + h <= d, d + v <= b])
        for (a, b, w, h), (c, d, u, v) in combinations(boxes, 2)
    ]
    return Composed(f"rectangles at {', '.join(str(it) for it in sides[0][:4])}", parts)
