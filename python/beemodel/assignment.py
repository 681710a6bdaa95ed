"""What an assignment or a round costs, by the duals of the assignment.

A price for each row and each column is taken from the costs. Where each column is taken just once,
the cost is the sum of these prices and of what is left of the costs taken, none of which is below 0
by the Hungarian method: so the prices together are a lower bound, and what is left has few values.
"""
from __future__ import annotations

from collections.abc import Iterable, Sequence
from typing import TYPE_CHECKING

from .circuits import Circuit
from .differing import AllDifferent
from .expressions import AllOf, Number, NumberLike, Truth, members, number_of, total, whole
from .functions import Element
from .linear import integer_of_sum
from .lines import refused

if TYPE_CHECKING:
    from .model import Model
    from .presolve import Presolve
    from .translation import Integer, Translation


def hungarian(costs: Sequence[Sequence[int]]) -> tuple[list[int], list[int]]:
    """Prices of rows and of columns, whose sum in no place is above the cost there, and which come
    to the least cost of an assignment."""
    size = len(costs)
    rows, columns, row_of = [0] * (size + 1), [0] * (size + 1), [size] * (size + 1)
    for row in range(size):
        row_of[size] = row
        way = Augmenting(costs, rows, columns, row_of)
        way.run()
    return rows[:size], columns[:size]


class Augmenting:
    """The search for a column for one more row; place `size` stands for no column."""

    def __init__(self, costs: Sequence[Sequence[int]], rows: list[int], columns: list[int], row_of: list[int]):
        self.costs, self.rows, self.columns, self.row_of = costs, rows, columns, row_of
        self.size = len(costs)
        self.slack = [1 << 62] * self.size
        self.came = [self.size] * self.size
        self.seen = [False] * (self.size + 1)

    def run(self) -> None:
        """Goes on until a free column is reached, and takes the way back to it."""
        at = self.size
        while self.row_of[at] < self.size:
            self.seen[at] = True
            self.relax(at)
            at = self.nearest()
        while at < self.size:
            self.row_of[at] = self.row_of[self.came[at]]
            at = self.came[at]
        self.row_of[self.size] = self.size

    def relax(self, at: int) -> None:
        """What the columns that aren't seen cost from a column's row."""
        row = self.row_of[at]
        for column in range(self.size):
            left = self.costs[row][column] - self.rows[row] - self.columns[column]
            if not self.seen[column] and left < self.slack[column]:
                self.slack[column], self.came[column] = left, at

    def nearest(self) -> int:
        """The column of the least slack, behind a change of the prices by it."""
        unseen = [it for it in range(self.size) if not self.seen[it]]
        at = min(unseen, key=lambda it: self.slack[it])
        change = self.slack[at]
        for column in range(self.size + 1):
            if self.seen[column]:
                self.rows[self.row_of[column]] += change
                if column < self.size:
                    self.columns[column] -= change
            elif column < self.size:
                self.slack[column] -= change
        return at


class AssignmentCost(Number):
    """What stands in each row at its member's place, together. `is_round` tells that no place is
    its own member."""

    def __init__(self, places: Sequence[Number], costs: Sequence[Sequence[int]], is_round: bool):
        self.places, self.is_round = places, is_round
        self.plain = total(Element(row, it) for row, it in zip(costs, places))
        barred = 1 + 2 * sum(max((abs(it) for it in row), default=0) for row in costs) if is_round else 0
        raised = [
            [barred if is_round and at == it else cost for it, cost in enumerate(row)]
            for at, row in enumerate(costs)
        ]
        rows, columns = hungarian(raised)
        left = [
            [0 if is_round and at == it else cost - rows[at] - columns[it] for it, cost in enumerate(row)]
            for at, row in enumerate(costs)
        ]
        base = sum(rows) + sum(columns)
        self.reduced = total(Element(row, it) for row, it in zip(left, places)) + base

    def __str__(self) -> str:
        return f"cost of {', '.join(str(it) for it in self.places[:4])}"

    def value(self, values: dict[str, int | bool]) -> int:
        return self.plain.value(values)

    def is_permuted(self, model: Model) -> bool:
        """Whether a model states that each place is taken just once."""
        parts = (part for it in model.constraints for part in members(it.truth, AllOf))
        return any(self.is_about(it) for it in parts)

    def is_about(self, constraint: Truth) -> bool:
        """Whether a constraint is about these places, and under no conditions."""
        if isinstance(constraint, Circuit):
            numbers = constraint.successors
        elif isinstance(constraint, AllDifferent) and not self.is_round and constraint.conditions is None:
            numbers = constraint.numbers
        else:
            return False
        return [id(it) for it in numbers] == [id(it) for it in self.places]

    def integer(self, translation: Translation) -> Integer:
        is_permuted = not translation.is_apart and self.is_permuted(translation.model)
        made = self.reduced if is_permuted else self.plain
        if self in translation.ends:
            translation.ends[made] = translation.ends[self]
        return integer_of_sum(translation, made)

    def bound(self, presolve: Presolve) -> None:
        super().bound(presolve)
        presolve.relate(self.plain - self, "eq")
        if self.is_permuted(presolve.model):
            presolve.relate(self.reduced - self, "eq")


def assignment_cost(places: Iterable[NumberLike], costs: Iterable[Sequence[int]]) -> Number:
    """What an assignment costs: together what stands in each row of a table at the row's place.

    Where the model states by `all_different` of the same list that each place is taken just once,
    it is written as a least cost and what each row adds to that. Weight: as that of a sum of
    `element`.
    """
    return cost_of("assignment_cost", places, costs, False)


def circuit_cost(successors: Iterable[NumberLike], costs: Iterable[Sequence[int]]) -> Number:
    """What a round costs: together what stands in each row of a table at the place that is next;
    for a list that the model states to be a `circuit`."""
    return cost_of("circuit_cost", successors, costs, True)


def cost_of(
    name: str, places: Iterable[NumberLike], costs: Iterable[Sequence[int]], is_round: bool
) -> AssignmentCost:
    """The cost of a list by a table of as many rows and columns."""
    each = [number_of(it) for it in places]
    rows = [[whole(it, "a cost") for it in row] for row in costs]
    if [len(it) for it in rows] != [len(each)] * len(each):
        raise refused(f"{name}: the costs are no table of {len(each)} by {len(each)}")
    return AssignmentCost(each, rows, is_round)
