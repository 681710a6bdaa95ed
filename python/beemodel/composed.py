"""Constraints that are written as others, with what these imply for the presolve alone."""
from __future__ import annotations

from collections.abc import Sequence
from typing import TYPE_CHECKING

from .expressions import AllOf, Truth, members

if TYPE_CHECKING:
    from .presolve import Presolve
    from .translation import Translation


class Composed(Truth):
    """All of some constraints under one name; what is implied is told to the presolve, and not
    written."""

    def __init__(self, name: str, parts: Sequence[Truth], implied: Sequence[Truth] = ()):
        self.name, self.whole, self.implied = name, AllOf(tuple(parts)), implied

    def __str__(self) -> str:
        return self.name

    def holds(self, values: dict[str, int | bool]) -> bool:
        return self.whole.holds(values)

    def literal(self, translation: Translation) -> str:
        return translation.literal(self.whole)

    def post(self, translation: Translation) -> None:
        self.whole.post(translation)

    def refuse(self, translation: Translation) -> None:
        self.whole.refuse(translation)

    def presolve(self, presolve: Presolve) -> None:
        for it in (*members(self.whole, AllOf), *self.implied):
            it.presolve(presolve)
