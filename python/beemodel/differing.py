"""Numbers that differ."""
from __future__ import annotations

from collections.abc import Iterable, Sequence
from typing import TYPE_CHECKING, Optional

from . import weights
from .composed import Composed
from .expressions import Number, NumberLike, Truth, TruthLike, number_of, same_length, truth_of

if TYPE_CHECKING:
    from .presolve import Presolve
    from .translation import Translation


class AllDifferent(Truth):
    """Members at two places differ, or those whose conditions are true."""

    def __init__(self, numbers: Sequence[Number], conditions: Optional[Sequence[Truth]]):
        self.numbers, self.conditions = numbers, conditions

    def __str__(self) -> str:
        return f"all_different of {', '.join(str(it) for it in self.numbers[:4])}"

    def holds(self, values: dict[str, int | bool]) -> bool:
        taken = [it.value(values) for it in self.numbers]
        if self.conditions is not None:
            taken = [it for it, is_in in zip(taken, self.conditions) if is_in.holds(values)]
        return len(set(taken)) == len(taken)

    def post(self, translation: Translation) -> None:
        parts = [translation.integer(it) for it in self.numbers]
        terms = [it.term for it in parts]
        weight = weights.all_different([it.steps for it in parts])
        if self.conditions is None:
            translation.say(weight, "int_array_allDiff", terms)
        else:
            literals = [translation.literal(it) for it in self.conditions]
            translation.say(weight, "int_array_allDiffCond", terms, literals)

    def presolve(self, presolve: Presolve) -> None:
        if self.conditions is None:
            presolve.differ(self.numbers)

    def literal(self, translation: Translation) -> str:
        if self.conditions is not None:
            raise translation.fault(
                "all_different with conditions stands alone, in no other expression"
            )
        parts = [translation.integer(it) for it in self.numbers]
        made = translation.fresh_boolean()
        weight = weights.all_different_truth([it.steps for it in parts])
        translation.say(weight, "int_array_allDiff_reif", [it.term for it in parts], made)
        return made


def all_different(
    numbers: Iterable[NumberLike], conditions: Optional[Iterable[TruthLike]] = None
) -> Truth:
    """No two of the list are equal; with conditions, no two whose conditions are true.

    Weight: 21 for each value of each member; where it stands in another expression, 7 for each
    value of each pair of members.
    """
    members = [number_of(it) for it in numbers]
    if conditions is None:
        return AllDifferent(members, None)
    truths = [truth_of(it) for it in conditions]
    same_length("all_different", members, truths)
    return AllDifferent(members, truths)


def inverse(places: Iterable[NumberLike], things: Iterable[NumberLike]) -> Truth:
    """Two lists that undo each other: where the first one has j at i, the second one has i at j.
    Weight: 4 for each pair, and the values of each member as Booleans."""
    first, second = [number_of(it) for it in places], [number_of(it) for it in things]
    same_length("inverse", first, second)
    size = len(first)
    parts = [(it >= 0) & (it < size) for it in (*first, *second)]
    parts += [
        (first[at] == other) == (second[other] == at) for at in range(size) for other in range(size)
    ]
    return Composed("inverse", parts, [AllDifferent(first, None), AllDifferent(second, None)])
