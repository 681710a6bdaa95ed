"""Comparisons of one integer with constants, made once and shared.

The Boolean "x is at least v" of one statement `int_geq_reif` costs five for each value of x, so
that those of all values would cost the square. Where many are asked, x is split into the lesser of
x and a middle value and the greater of them, which the compilation finds to be the same variables,
and each half again.
"""
from __future__ import annotations

from typing import TYPE_CHECKING, Optional

from . import weights

if TYPE_CHECKING:
    from .translation import Integer, Translation

# Which places of a domain are asked for, each with the Boolean "at least the value at this place".
Wanted = dict[int, str]


class Plan:
    """How the cuts between two places of a domain are made: one by one, or in two halves."""

    def __init__(self, first: int, last: int, wanted: list[int]):
        self.first, self.last, self.wanted = first, last, wanted
        self.halves: Optional[tuple[Plan, Plan]] = None
        steps = last - first
        self.weight = len(wanted) * weights.order(steps, 0)
        if len(wanted) > 1 and steps > 3:
            self.split((first + last) // 2)

    def split(self, middle: int) -> None:
        """Takes two halves where that is lighter."""
        low = Plan(self.first, middle, [it for it in self.wanted if it <= middle])
        high = Plan(middle, self.last, [it for it in self.wanted if it > middle])
        weight = sum(self.half_weight(it) for it in (low, high) if it.wanted)
        if weight < self.weight:
            self.weight, self.halves = weight, (low, high)

    def half_weight(self, half: Plan) -> int:
        """What a half adds: its declaration, what makes it, and its own cuts."""
        steps = half.last - half.first
        made = weights.greatest([self.last - self.first, 0], steps)
        return weights.declared(steps) + made + half.weight

    def write(self, translation: Translation, integer: Integer, wanted: Wanted) -> None:
        """Writes the statements; the integer has the values of this plan's places."""
        if self.halves is None:
            weight = weights.order(len(integer.domain) - 1, 0)
            for place in self.wanted:
                bound = integer.domain[place - self.first]
                translation.channel(weight, "int_geq_reif", integer.term, bound, wanted[place])
            return
        for half, name in zip(self.halves, ("int_min", "int_max")):
            if half.wanted:
                half.write(translation, self.half(translation, integer, half, name), wanted)

    def half(self, translation: Translation, integer: Integer, half: Plan, name: str) -> Integer:
        """Writes the integer of a half."""
        domain = integer.domain[half.first - self.first : half.last - self.first + 1]
        made = translation.fresh_integer(domain)
        middle = domain[-1] if name == "int_min" else domain[0]
        weight = weights.greatest([len(integer.domain) - 1, 0], len(domain) - 1)
        translation.channel(weight, name, integer.term, middle, made.term)
        return made


class Cuts:
    """The Booleans of one integer that were asked for: at least a value, and equal to it."""

    def __init__(self, integer: Integer):
        self.integer = integer
        self.at_least: Wanted = {}
        self.equal: Wanted = {}

    def write(self, translation: Translation) -> None:
        """Writes what each of the Booleans is, in the lighter of two ways."""
        steps = len(self.integer.domain) - 1
        alone = Plan(0, steps, sorted(self.at_least))
        ends = {it + more for it in self.equal for more in (0, 1)}
        together = Plan(0, steps, sorted(ends | set(self.at_least)))
        fresh = len(ends - set(self.at_least))
        price = together.weight + fresh + len(self.equal) * weights.conjunction(2)
        if alone.weight + len(self.equal) * weights.equal(steps, 0) <= price:
            alone.write(translation, self.integer, self.at_least)
            self.write_equal_alone(translation)
        else:
            for place in sorted(ends - set(self.at_least)):
                self.at_least[place] = translation.fresh_boolean()
            together.write(translation, self.integer, self.at_least)
            self.write_equal_between(translation)

    def write_equal_alone(self, translation: Translation) -> None:
        """Each equality by a statement of its own."""
        term, domain = self.integer
        for place, name in self.equal.items():
            weight = weights.equal(len(domain) - 1, 0)
            translation.channel(weight, "int_eq_reif", term, domain[place], name)

    def write_equal_between(self, translation: Translation) -> None:
        """Equal to a value is at least this one and not at least the next."""
        for place, name in self.equal.items():
            low, high = self.at_least[place], translation.negation(self.at_least[place + 1])
            translation.channel(weights.conjunction(2), "bool_and_reif", low, high, name)
