"""Lists in the order of words."""
from __future__ import annotations

from collections.abc import Iterable, Sequence
from typing import TYPE_CHECKING

from . import weights
from .expressions import Number, NumberLike, Truth, number_of, same_length, truth_of

if TYPE_CHECKING:
    from .translation import Translation


class Lexicographic(Truth):
    """One list stands before another one, or is equal to it where that is allowed."""

    def __init__(self, first: Sequence[Number], second: Sequence[Number], is_strict: bool):
        self.first, self.second, self.is_strict = first, second, is_strict

    def __str__(self) -> str:
        sign = "<" if self.is_strict else "<="
        return f"lexicographic {', '.join(map(str, self.first[:3]))} {sign} ..."

    def holds(self, values: dict[str, int | bool]) -> bool:
        first, second = ([it.value(values) for it in side] for side in (self.first, self.second))
        return first < second if self.is_strict else first <= second

    def write(self, translation: Translation, ending: str, truth: list[str]) -> None:
        """Writes the statement."""
        order = "lexLt" if self.is_strict else "lex"
        both = self.first, self.second
        if all(isinstance(it, Truth) for side in both for it in side):
            sides = [[translation.literal(truth_of(it)) for it in side] for side in both]
            weight = weights.lexicographic([(1, 1)] * len(self.first))
            translation.say(weight, f"bool_arrays_{order}{ending}", *sides, *truth)
            return
        first, second = ([translation.integer(it) for it in side] for side in both)
        weight = weights.lexicographic([(x.steps, y.steps) for x, y in zip(first, second)])
        lists = [it.term for it in first], [it.term for it in second]
        translation.say(weight, f"int_arrays_{order}{ending}", *lists, *truth)

    def post(self, translation: Translation) -> None:
        self.write(translation, "", [])

    def literal(self, translation: Translation) -> str:
        made = translation.fresh_boolean()
        self.write(translation, "_reif", [made])
        return made


def lex_less_or_equal(first: Iterable[NumberLike], second: Iterable[NumberLike]) -> Truth:
    """The first list stands before the second, as words do, or is equal to it. Weight: 10 for each
    value of each pair of members."""
    return lexicographic(first, second, False)


def lex_less(first: Iterable[NumberLike], second: Iterable[NumberLike]) -> Truth:
    """The first list stands before the second, as words do. Weight: 10 for each value of each
    pair."""
    return lexicographic(first, second, True)


def lexicographic(
    first: Iterable[NumberLike], second: Iterable[NumberLike], is_strict: bool
) -> Truth:
    """Two lists of one length in order."""
    one, other = [number_of(it) for it in first], [number_of(it) for it in second]
    same_length("lexicographic order", one, other)
    return Lexicographic(one, other, is_strict)
