"""One round through all places."""
from __future__ import annotations

from collections.abc import Iterable, Sequence
from itertools import combinations, permutations
from typing import TYPE_CHECKING

from .differing import AllDifferent
from .expressions import Number, NumberLike, Truth, number_of
from .linear import equality

if TYPE_CHECKING:
    from .presolve import Presolve
    from .translation import Translation


class Circuit(Truth):
    """The numbers are the successors of places 0, 1 and so on in one round through all of them."""

    def __init__(self, successors: Sequence[Number]):
        self.successors = successors

    def __str__(self) -> str:
        return f"circuit of {', '.join(str(it) for it in self.successors[:4])}"

    def holds(self, values: dict[str, int | bool]) -> bool:
        goes_to = [it.value(values) for it in self.successors]
        place, seen = 0, set()
        while place not in seen and 0 <= place < len(goes_to):
            seen.add(place)
            place = goes_to[place]
        return place == 0 and len(seen) == len(goes_to)

    def literal(self, translation: Translation) -> str:
        raise translation.fault("circuit stands alone, in no other expression")

    def post(self, translation: Translation) -> None:
        size = len(self.successors)
        goes = [
            [equality(translation, number, place) for place in range(size)]
            for number in self.successors
        ]
        for number, row in enumerate(goes):
            translation.clause([it for place, it in enumerate(row) if place != number or size == 1])
            if size > 1:
                translation.clause([translation.negation(row[number])])
        AllDifferent(self.successors, None).post(translation)
        self.post_order(translation, goes)

    def presolve(self, presolve: Presolve) -> None:
        AllDifferent(self.successors, None).presolve(presolve)
        size = len(self.successors)
        for place, it in enumerate(self.successors):
            presolve.relate(-it, "leq")
            presolve.relate(it - size + 1, "leq")
            if size > 1:
                presolve.relate(it - place, "neq")

    def post_order(self, translation: Translation, goes: list[list[str]]) -> None:
        """The places but 0 stand in an order, and each but the last goes to one behind it."""
        others = range(1, len(goes))
        before: dict[tuple[int, int], str] = {}
        for one, other in combinations(others, 2):
            before[one, other] = translation.fresh_boolean()
            before[other, one] = translation.negation(before[one, other])
        for one, other in permutations(others, 2):
            for goes_on in (goes[one][other], goes[0][one], goes[other][0]):
                translation.clause([translation.negation(goes_on), before[one, other]])
        for one, two, three in combinations(others, 3):
            round_trip = [before[one, two], before[two, three], before[three, one]]
            translation.clause(round_trip)
            translation.clause([translation.negation(it) for it in round_trip])


def circuit(successors: Iterable[NumberLike]) -> Truth:
    """The members say, for the places 0, 1 and so on, which place is next in one round through
    all."""
    return Circuit([number_of(it) for it in successors])
