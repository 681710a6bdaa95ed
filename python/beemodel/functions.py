"""Numbers that are functions of others: product, quotient, remainder, absolute value, greatest,
least, element."""
from __future__ import annotations

from collections.abc import Callable, Iterable, Sequence
from typing import TYPE_CHECKING, Any, Optional

from . import weights
from .choices import channel_prices
from .domains import LISTED, Domain, domain_of, is_small
from .expressions import (
    AllOf,
    Number,
    NumberLike,
    Sum,
    Truth,
    TruthLike,
    number_of,
    truth_of,
    whole,
)
from .linear import equality, integer_of_sum, values_of
from .lines import refused
from .propagators import AtMostZero, Entry, Greatest, Multiple, Term

if TYPE_CHECKING:
    from .presolve import Presolve
    from .translation import Integer, Translation

    Parts = dict[int, Integer]


def results(
    operation: Callable[[int, int], int], first: Domain, second: Domain, ends: Iterable[int]
) -> Domain:
    """The values of an operation: one by one for small domains, and else all between the least and
    the greatest of some results."""
    if is_small(first, second):
        return domain_of(operation(one, other) for one in first for other in second)
    ends = [*ends]
    return range(min(ends), max(ends) + 1)


class Operation(Number):
    """A function of two numbers."""

    sign = ""

    def __init__(self, first: Number, second: Number):
        self.first, self.second = first, second

    def __str__(self) -> str:
        return f"({self.first} {self.sign} {self.second})"


class Product(Operation):
    """The product. Weight: 10 for each pair of values."""

    sign = "*"

    def value(self, values: dict[str, int | bool]) -> int:
        return self.first.value(values) * self.second.value(values)

    def integer(self, translation: Translation) -> Integer:
        if isinstance(self.first, Truth) and isinstance(self.second, Truth):
            parts = [translation.literal(it) for it in (self.first, self.second)]
            return translation.integer_of_literal(translation.conjunction(parts))
        x, y = translation.integer(self.first), translation.integer(self.second)
        for constant, other in ((x, self.second), (y, self.first)):
            if constant.steps == 0:
                return integer_of_sum(translation, Sum(((constant.low, other),)))
        made = translation.fresh_integer(translation.within(self, self.products(x, y)))
        weight = weights.product(x.steps, y.steps, made.steps)
        translation.say(weight, "int_times", x.term, y.term, made.term)
        return made

    def bound(self, presolve: Presolve) -> None:
        sides = presolve.sides(self.first), presolve.sides(self.second)
        super().bound(presolve)
        watched = presolve.watched(sides[0][0], sides[1][0])
        presolve.bounds.add(Multiple(self, *sides), self, *watched)

    def products(self, x: Integer, y: Integer) -> Domain:
        """The values of the product."""
        if x.term == y.term:
            return domain_of(it * it for it in x.domain)
        ends = [one * other for one in (x.low, x.high) for other in (y.low, y.high)]
        return results(lambda one, other: one * other, x.domain, y.domain, ends)


class Division(Operation):
    """A quotient or a remainder."""

    name = ""

    def operands(self, translation: Translation) -> tuple[Integer, Integer]:
        """The dividend and the divisor, whose domains have to be those that the language
        divides."""
        x, y = translation.integer(self.first), translation.integer(self.second)
        if x.low < 0:
            raise translation.fault(f"the dividend {self.first} may be {x.low}, which is below 0")
        if y.low < 1:
            raise translation.fault(f"the divisor {self.second} may be {y.low}, which is below 1")
        return x, y

    def divided(
        self, translation: Translation, x: Integer, y: Integer, domain: Domain, other: int
    ) -> Integer:
        """Writes the division, whose other result, of the two, has so many steps."""
        made = translation.fresh_integer(translation.within(self, domain))
        weight = other + weights.division(x.steps, y.steps, made.steps, other)
        translation.say(weight, self.name, x.term, y.term, made.term)
        return made


class Quotient(Division):
    """The quotient, rounded down. Weight: 20 for each pair of values."""

    sign, name = "//", "int_div"

    def value(self, values: dict[str, int | bool]) -> int:
        return self.first.value(values) // self.second.value(values)

    def integer(self, translation: Translation) -> Integer:
        x, y = self.operands(translation)
        ends = [x.low // y.high, x.high // y.low]
        domain = results(lambda one, other: one // other, x.domain, y.domain, ends)
        return self.divided(translation, x, y, domain, min(x.high, y.high - 1))


class Remainder(Division):
    """The remainder. Weight: 20 for each pair of values."""

    sign, name = "%", "int_mod"

    def value(self, values: dict[str, int | bool]) -> int:
        return self.first.value(values) % self.second.value(values)

    def integer(self, translation: Translation) -> Integer:
        x, y = self.operands(translation)
        ends = [0, min(x.high, y.high - 1)]
        domain = results(lambda one, other: one % other, x.domain, y.domain, ends)
        return self.divided(translation, x, y, domain, x.high // y.low)


class Absolute(Number):
    """The absolute value. Weight: about 9 for each value."""

    def __init__(self, number: Number):
        self.number = number

    def __str__(self) -> str:
        return f"abs({self.number})"

    def value(self, values: dict[str, int | bool]) -> int:
        return abs(self.number.value(values))

    def integer(self, translation: Translation) -> Integer:
        x = translation.integer(self.number)
        if x.low >= 0:
            return x
        if len(x.domain) <= LISTED:
            domain = domain_of(abs(it) for it in x.domain)
        else:
            domain = range(0, max(-x.low, x.high) + 1)
        made = translation.fresh_integer(translation.within(self, domain))
        weight = weights.greatest([x.steps, x.steps], made.steps)
        translation.say(weight, "int_abs", x.term, made.term)
        return made

    def bound(self, presolve: Presolve) -> None:
        low, high = presolve.ends(self.number)
        presolve.bounds.know(self, max(0, low, -high), max(-low, high))
        presolve.relate(self.number - self, "leq")
        presolve.relate(-self.number - self, "leq")


class Extreme(Number):
    """The greatest or the least of a list that isn't empty."""

    def __init__(self, numbers: Sequence[Number], name: str):
        if not numbers:
            raise refused(f"{name}imum of no numbers: the list has to have a member")
        self.numbers, self.name = numbers, name

    def __str__(self) -> str:
        return f"{self.name}imum of {', '.join(str(it) for it in self.numbers[:4])}"

    def value(self, values: dict[str, int | bool]) -> int:
        choose = max if self.name == "max" else min
        return choose(it.value(values) for it in self.numbers)

    def integer(self, translation: Translation) -> Integer:
        parts = [translation.integer(it) for it in self.numbers]
        if len(parts) == 1:
            return parts[0]
        made = translation.fresh_integer(translation.within(self, self.extremes(parts)))
        weight = weights.greatest([it.steps for it in parts], made.steps)
        name = f"int_array_{self.name}"
        translation.say(weight, name, [it.term for it in parts], made.term)
        return made

    def bound(self, presolve: Presolve) -> None:
        sign = 1 if self.name == "max" else -1
        super().bound(presolve)
        members = [AtMostZero(*presolve.terms(-sign * it)) for it in self.numbers]
        made = Greatest(Term(sign, self), members)
        presolve.bounds.add(made, self, *presolve.watched(*members))
        for it in self.numbers:
            presolve.relate(sign * (it - self), "leq")
        self.bound_average(presolve, sign)

    def bound_average(self, presolve: Presolve, sign: int) -> None:
        """The greatest is at least the average; that says more where members share what they are
        made of."""
        members = Sum(tuple((sign, it) for it in self.numbers), 0)
        whole_sum = members - sign * len(self.numbers) * self
        terms, _ = presolve.terms(whole_sum)
        if not all(isinstance(it, Term) for it in terms):
            presolve.relate(whole_sum, "leq")

    def extremes(self, parts: list[Integer]) -> Domain:
        """The values that a greatest, or a least, member can have."""
        choose = max if self.name == "max" else min
        ends = choose(it.low for it in parts), choose(it.high for it in parts)
        if sum(len(it.domain) for it in parts) > LISTED:
            return range(ends[0], ends[1] + 1)
        values = {value for it in parts for value in it.domain}
        return domain_of(it for it in values if ends[0] <= it <= ends[1])


class Element(Number):
    """What stands at a place of a list of numbers or expressions, counted from 0."""

    def __init__(self, numbers: Sequence[NumberLike], index: Number):
        self.numbers = [number_of(it) for it in numbers]
        self.index = index

    def __str__(self) -> str:
        return f"element at {self.index}"

    def value(self, values: dict[str, int | bool]) -> int:
        return self.numbers[self.index.value(values)].value(values)

    def places(self, translation: Translation) -> dict[int, str]:
        """The places that are possible, each with the Boolean that says whether it is taken."""
        places = values_of(translation, self.index)
        last = len(self.numbers) - 1
        if places[0] < 0 or places[-1] > last:
            raise translation.fault(
                f"the place {self.index} may be from {places[0]} to {places[-1]}, and the list has "
                f"the places 0 to {last}"
            )
        return {it: equality(translation, self.index, it) for it in places}

    def integer(self, translation: Translation) -> Integer:
        at_place = self.places(translation)
        parts = {it: translation.integer(self.numbers[it]) for it in at_place}
        values = domain_of(v for it in parts.values() for v in it.domain)
        made = translation.fresh_integer(translation.within(self, values))
        if all(it.steps == 0 for it in parts.values()):
            self.channel_numbers(translation, made, parts, at_place)
        else:
            self.channel_integers(translation, made, parts, at_place)
        return made

    def bound(self, presolve: Presolve) -> None:
        place = presolve.sides(self.index)[0]
        sides = {at: presolve.sides(it) for at, it in enumerate(self.numbers)}
        super().bound(presolve)
        parts = [below for below, _ in sides.values()]
        watched = presolve.watched(place, *parts)
        presolve.bounds.add(Entry(self, place, sides), self, *watched)

    def channel_numbers(
        self, translation: Translation, made: Integer, parts: Parts, at_place: dict[int, str]
    ) -> None:
        """At each place the element has its number, and each number is that of a place."""
        support: dict[int, list[str]] = {}
        for place, part in parts.items():
            support.setdefault(part.low, []).append(at_place[place])
        channel_prices(translation, made, support)

    def channel_integers(
        self, translation: Translation, made: Integer, parts: Parts, at_place: dict[int, str]
    ) -> None:
        """At each place the element is the integer there."""
        for place, part in parts.items():
            is_it = self.same(translation, made, part)
            translation.clause([translation.negation(at_place[place]), is_it])

    def same(self, translation: Translation, made: Integer, part: Integer) -> str:
        """Whether the element is an integer."""
        if part.steps == 0:
            return translation.equals(made, part.low)
        is_it = translation.fresh_boolean()
        weight = weights.equal(made.steps, part.steps)
        translation.say(weight, "int_eq_reif", made.term, part.term, is_it)
        return is_it


class Entry2(Element):
    """What stands in a row and a column of a table of numbers or expressions."""

    def __init__(self, rows: Sequence[Sequence[NumberLike]], row: Number, column: Number):
        super().__init__([it for each in rows for it in each], row * len(rows[0]) + column)
        self.row, self.column, self.height, self.width = row, column, len(rows), len(rows[0])

    def places(self, translation: Translation) -> dict[int, str]:
        sides = values_of(translation, self.row), values_of(translation, self.column)
        for name, values, most in zip(("row", "column"), sides, (self.height, self.width)):
            if values[0] < 0 or values[-1] >= most:
                raise translation.fault(
                    f"the {name} may be from {values[0]} to {values[-1]}, and the table has 0 to {most - 1}"
                )
        rows = [(it, equality(translation, self.row, it)) for it in sides[0]]
        columns = [(it, equality(translation, self.column, it)) for it in sides[1]]
        return {
            row * self.width + column: translation.conjunction([is_row, is_column])
            for row, is_row in rows
            for column, is_column in columns
        }


def maximum(numbers: Iterable[NumberLike]) -> Number:
    """The greatest of a list. Weight: 4 to 5 for each value of each member."""
    return Extreme([number_of(it) for it in numbers], "max")


def minimum(numbers: Iterable[NumberLike]) -> Number:
    """The least of a list. Weight: 4 to 5 for each value of each member."""
    return Extreme([number_of(it) for it in numbers], "min")


def absolute(number: NumberLike) -> Number:
    """The absolute value; `abs` gives the same. Weight: about 9 for each value."""
    return Absolute(number_of(number))


def if_then_else(condition: TruthLike, first: NumberLike, second: NumberLike) -> Number:
    """The first one where the condition holds, and else the second one: a truth where both are, and
    else a number. Weight: as `element` of two members."""
    truth = truth_of(condition)
    if isinstance(first, (Truth, bool)) and isinstance(second, (Truth, bool)):
        return AllOf((truth.implies(first), (~truth).implies(second)))
    return Element([second, first], truth)


def element(numbers: Sequence[Any], index: NumberLike, column: Optional[NumberLike] = None) -> Number:
    """What stands in a list at a place, counted from 0; the place's domain has to lie in the list.
    With a column, what stands in a table's row at a column.

    Weight with numbers: 3 for each place and each different number, and the values of the place and
    the element as Booleans. With expressions: 15 for each value of each member.
    """
    if column is not None:
        rows = [[*it] for it in numbers]
        if not rows or not rows[0] or any(len(it) != len(rows[0]) for it in rows):
            raise refused("element: the rows of the table have no one length")
        return Entry2(rows, number_of(index), number_of(column))
    if isinstance(index, Number):
        return Element(numbers, index)
    place = whole(index, "the place")
    if not 0 <= place < len(numbers):
        raise refused(f"the place {place}: the list has the places 0 to {len(numbers) - 1}")
    return number_of(numbers[place])
