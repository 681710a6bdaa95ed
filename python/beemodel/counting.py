"""How many truths of a list hold, and how many numbers have a value."""
from __future__ import annotations

from collections.abc import Iterable, Mapping
from typing import Optional

from .composed import Composed
from .expressions import (
    IntegerVariable,
    Number,
    NumberLike,
    Truth,
    TruthLike,
    any_of,
    number_of,
    total,
    truth_of,
)
from .lines import refused


def exactly(count: NumberLike, truths: Iterable[TruthLike]) -> Truth:
    """So many of the list are true; the count may be a variable."""
    return total(truth_of(it) for it in truths) == count


def at_least(count: NumberLike, truths: Iterable[TruthLike]) -> Truth:
    """So many of the list or more are true."""
    return total(truth_of(it) for it in truths) >= count


def at_most(count: NumberLike, truths: Iterable[TruthLike]) -> Truth:
    """So many of the list or fewer are true."""
    return total(truth_of(it) for it in truths) <= count


def exactly_one(truths: Iterable[TruthLike]) -> Truth:
    """Just one of the list is true."""
    return exactly(1, truths)


def at_most_one(truths: Iterable[TruthLike]) -> Truth:
    """None or one of the list is true."""
    return at_most(1, truths)


def count(numbers: Iterable[NumberLike], value: NumberLike) -> Number:
    """How many of the list have a value."""
    return total(number_of(it) == value for it in numbers)


def among(numbers: Iterable[NumberLike], values: Iterable[int]) -> Number:
    """How many of the list have one of the values."""
    kept = [*values]
    return total(any_of(number_of(it) == value for value in kept) for it in numbers)


def global_cardinality(
    numbers: Iterable[NumberLike], counts: Mapping[int, NumberLike], closed: bool = False
) -> Truth:
    """Of the list so many have each value; where it is closed, none has another value."""
    each = [number_of(it) for it in numbers]
    parts = [count(each, value) == number for value, number in counts.items()]
    if closed:
        parts += [any_of(it == value for value in counts) for it in each]
    implied = total(counts.values())
    return Composed(
        "global_cardinality", parts, [implied == len(each) if closed else implied <= len(each)]
    )


def number_of_values(
    numbers: Iterable[NumberLike], values: Optional[Iterable[int]] = None
) -> Number:
    """How many values the list has. The values need to be told where the list has expressions."""
    each = [number_of(it) for it in numbers]
    kept = values
    if kept is None:
        kept = {value for it in each if isinstance(it, IntegerVariable) for value in it.domain}
        if not all(isinstance(it, IntegerVariable) for it in each):
            raise refused("number_of_values: the list has expressions; tell their values=")
    return total(any_of(it == value for it in each) for value in sorted(kept))


def at_most_values(
    most: NumberLike, numbers: Iterable[NumberLike], values: Optional[Iterable[int]] = None
) -> Truth:
    """The list has so many values or fewer."""
    return number_of_values(numbers, values) <= most
