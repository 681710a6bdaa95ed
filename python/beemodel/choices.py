"""Truths of which just one holds, in sums: together they are one integer.

`x == 1`, `x == 2` and so on are such truths, and Booleans of which the model states that just one
is true. A sum with a price for each of them has one term, whose values are the prices.
"""
from __future__ import annotations

from collections.abc import Iterable
from typing import TYPE_CHECKING, Optional

from .domains import domain_of
from .expressions import (
    AllOf,
    BooleanVariable,
    Comparison,
    IntegerVariable,
    Number,
    Truth,
    flatten,
    members,
    truth_of,
)

if TYPE_CHECKING:
    from .translation import Integer, Translation

# So many prices of one choice are a term of their own.
FEWEST = 3


def choice_of(truth: Truth) -> Optional[list[BooleanVariable]]:
    """The Booleans of which a constraint says that just one is true, if it says that."""
    if not isinstance(truth, Comparison) or truth.relation != "eq":
        return None
    atoms, constant = flatten(truth.number)
    factors = {*atoms.values()}
    is_one = len(factors) == 1 and constant == -next(iter(factors))
    found = [it for it in atoms if isinstance(it, BooleanVariable)]
    return found if is_one and len(found) == len(atoms) else None


def choices_of(truths: Iterable[Truth]) -> dict[Number, tuple[Number, ...]]:
    """For Booleans of which just one is true all of these, as the constraints say it."""
    found: dict[Number, tuple[Number, ...]] = {}
    for truth in truths:
        for part in members(truth, AllOf):
            choice = choice_of(part)
            if choice and not any(it in found for it in choice):
                found.update(dict.fromkeys(choice, tuple(choice)))
    return found


class Priced(Number):
    """The price of the term that is true of some of which at most one is, or 0 where none is; where
    they are so many as `size`, one is."""

    def __init__(self, prices: dict[str, int], size: int):
        self.prices, self.size = prices, size

    def integer(self, translation: Translation) -> Integer:
        support: dict[int, list[str]] = {}
        for literal, price in self.prices.items():
            support.setdefault(price, []).append(literal)
        if len(self.prices) < self.size:
            others = [translation.negation(it) for it in self.prices]
            support.setdefault(0, []).append(translation.conjunction(others))
        made = translation.fresh_integer(domain_of(support))
        channel_prices(translation, made, support)
        return made


def channel_prices(translation: Translation, made: Integer, support: dict[int, list[str]]) -> None:
    """Writes that an integer has a price just where one of its truths holds, of all of which one
    does."""
    for price, literals in support.items():
        has_it = translation.equals(made, price)
        for literal in literals:
            translation.clause([translation.negation(literal), has_it])
        translation.clause([translation.negation(has_it), *literals])


def gathered(translation: Translation, atoms: dict[Number, int]) -> dict[Number, int]:
    """The terms of a sum, with one for each choice that has several prices in it."""
    groups: dict[Number, dict[Number, int]] = {}
    for atom, factor in atoms.items():
        whole = whole_of(translation, atom)
        if whole is not None:
            groups.setdefault(whole, {})[atom] = factor
    groups = {whole: prices for whole, prices in groups.items() if is_priced(translation, whole, prices)}
    if not groups:
        return atoms
    taken = {atom for prices in groups.values() for atom in prices}
    kept = {atom: factor for atom, factor in atoms.items() if atom not in taken}
    for whole, prices in groups.items():
        kept[priced(translation, whole, prices)] = 1
    return kept


def is_priced(translation: Translation, whole: Number, prices: dict[Number, int]) -> bool:
    """Whether prices are a term of their own: there are a few of them, and they aren't one price of
    all Booleans of a choice, as in the constraint that states it."""
    is_all = len(prices) == len(translation.choices.get(whole, ()))
    return len(prices) >= FEWEST and not (is_all and len({*prices.values()}) == 1)


def whole_of(translation: Translation, atom: Number) -> Optional[Number]:
    """What stands for the choice of which a truth is one: the integer, or the first Boolean."""
    if atom in translation.choices:
        return translation.choices[atom][0]
    if not isinstance(atom, Comparison) or atom.relation != "eq":
        return None
    inner, _ = flatten(atom.number)
    variable = next(iter(inner)) if len(inner) == 1 else None
    return variable if isinstance(variable, IntegerVariable) else None


def priced(translation: Translation, whole: Number, prices: dict[Number, int]) -> Number:
    """The number that has these prices, made once."""
    of: dict[str, int] = {}
    for truth, price in prices.items():
        literal = translation.literal(truth_of(truth))
        of[literal] = of.get(literal, 0) + price
    of.pop("false", None)
    key = tuple(sorted(of.items()))
    if key not in translation.priced:
        values = translation.domains.get(getattr(whole, "name", ""), ())
        translation.priced[key] = Priced(of, len(translation.choices.get(whole, values)))
    return translation.priced[key]
