"""Variables, numbers and truths: what a script writes with Python's operators.

Nothing is translated here. An expression keeps what it was made of, says its value under given
values, and is written out in statements once it stands in a model (`translation.py`).
"""
from __future__ import annotations

from collections.abc import Iterable, Iterator, Sequence
from typing import TYPE_CHECKING, Optional, Union

from .lines import refused

if TYPE_CHECKING:
    from .domains import Domain
    from .presolve import Presolve
    from .translation import Integer, Translation

GREATEST = 1_073_741_824

# Beyond this no value of an expression is asked for.
FARTHEST = 1 << 62


class Number:
    """An expression that has an integer: a variable, a sum, a Boolean as 0 or 1, or a function's
    value."""

    __hash__ = object.__hash__

    def __add__(self, other: NumberLike) -> Sum:
        return Sum(((1, self), (1, number_of(other))))

    __radd__ = __add__

    def __neg__(self) -> Sum:
        return Sum(((-1, self),))

    def __sub__(self, other: NumberLike) -> Sum:
        return Sum(((1, self), (-1, number_of(other))))

    def __rsub__(self, other: NumberLike) -> Sum:
        return Sum(((1, number_of(other)), (-1, self)))

    def __mul__(self, other: NumberLike) -> Number:
        if isinstance(other, Number):
            from .functions import Product

            return Product(self, other)
        return Sum(((whole(other, self), self),))

    __rmul__ = __mul__

    def __floordiv__(self, other: NumberLike) -> Number:
        from .functions import Quotient

        return Quotient(self, number_of(other))

    def __rfloordiv__(self, other: NumberLike) -> Number:
        return number_of(other) // self

    def __mod__(self, other: NumberLike) -> Number:
        from .functions import Remainder

        return Remainder(self, number_of(other))

    def __rmod__(self, other: NumberLike) -> Number:
        return number_of(other) % self

    def __abs__(self) -> Number:
        from .functions import Absolute

        return Absolute(self)

    def __le__(self, other: NumberLike) -> Truth:
        return Comparison(self - other, "leq")

    def __lt__(self, other: NumberLike) -> Truth:
        return Comparison(self - other + 1, "leq")

    def __ge__(self, other: NumberLike) -> Truth:
        return Comparison(other - self, "leq")

    def __gt__(self, other: NumberLike) -> Truth:
        return Comparison(other - self + 1, "leq")

    def __eq__(self, other: object) -> Truth:  # type: ignore[override]
        return Comparison(self - number_of(other), "eq")

    def __ne__(self, other: object) -> Truth:  # type: ignore[override]
        return Comparison(self - number_of(other), "neq")

    def __bool__(self) -> bool:
        raise refused(
            f"{self}: an expression has no truth value in Python; write &, |, ~ and implies in "
            "place of and, or, not and if, (a < b) & (b < c) in place of a < b < c, and maximum "
            "and minimum in place of max and min"
        )

    def __index__(self) -> int:
        raise refused(
            f"{self}: a whole number is wanted here, and an expression has no value yet; what stands in a "
            "list at its place is element(list, place)"
        )

    def __getitem__(self, place: object) -> Number:
        raise refused(f"{self}: this is one expression, and a list is wanted here")

    def __truediv__(self, other: object) -> Number:
        raise refused(f"{self}: numbers are whole, and // divides them")

    def __pow__(self, other: object) -> Number:
        raise refused(f"{self}: a power is written as a product")

    def __and__(self, other: TruthLike) -> Truth:
        return truth_of(self) & other

    def __or__(self, other: TruthLike) -> Truth:
        return truth_of(self) | other

    def __xor__(self, other: TruthLike) -> Truth:
        return truth_of(self) ^ other

    def __invert__(self) -> Truth:
        return ~truth_of(self)

    def implies(self, other: TruthLike) -> Truth:
        """If this, a truth, then that."""
        return truth_of(self).implies(other)

    def __str__(self) -> str:
        return "an expression"

    def __repr__(self) -> str:
        return f"<{self}>"

    def value(self, values: dict[str, int | bool]) -> int:
        """The integer that this is where the variables have these values."""
        raise NotImplementedError

    def integer(self, translation: Translation) -> Integer:
        """The integer of the written model that has this expression's value."""
        raise NotImplementedError

    def bound(self, presolve: Presolve) -> None:
        """Tells the presolve within what bounds this lies, and what moves them."""
        presolve.bounds.know(self, -FARTHEST, FARTHEST)


NumberLike = Union[Number, int]


def whole(value: object, near: object) -> int:
    """The value, which has to be a whole number."""
    if isinstance(value, int):
        return int(value)
    if isinstance(value, Number):
        raise refused(f"{near}: {value} is an expression, and a number is wanted here")
    if hasattr(value, "__index__"):
        return int(value.__index__())
    hint = "; count in the smallest unit" if hasattr(value, "__float__") else ""
    raise refused(f"{near}: {value!r} is no whole number{hint}")


def number_of(value: object) -> Number:
    """The value as an expression."""
    if isinstance(value, Number):
        return value
    return Sum((), whole(value, "an expression"))


def same_length(name: str, first: Sequence[object], second: Sequence[object]) -> None:
    """Refuses lists of different lengths."""
    if len(first) != len(second):
        raise refused(f"{name}: the lists have {len(first)} and {len(second)} members")


class Sum(Number):
    """Parts, each multiplied by a whole number, and a constant."""

    def __init__(self, parts: tuple[tuple[int, Number], ...], constant: int = 0):
        self.parts = parts
        self.constant = constant
        self.flat: Optional[tuple[dict[Number, int], int]] = None

    def __str__(self) -> str:
        coefficients, constant = flatten(self)
        terms = [
            f"{factor}*{atom}" if factor != 1 else str(atom)
            for atom, factor in [*coefficients.items()][:4]
        ]
        shown = [*terms, "..."] if len(coefficients) > 4 else terms
        return " + ".join([*shown, str(constant)] if constant or not shown else shown)

    def value(self, values: dict[str, int | bool]) -> int:
        coefficients, constant = flatten(self)
        return constant + sum(factor * atom.value(values) for atom, factor in coefficients.items())

    def integer(self, translation: Translation) -> Integer:
        from .linear import integer_of_sum

        return integer_of_sum(translation, self)


def flatten(number: Number) -> tuple[dict[Number, int], int]:
    """The coefficients of what a sum is made of, in its order, and its constant, which are made once
    and left as they are. Linear in the parts."""
    if not isinstance(number, Sum):
        return flattened(number) if isinstance(number, Not) else ({number: 1}, 0)
    if number.flat is None:
        number.flat = flattened(number)
    return number.flat


def flattened(number: Number) -> tuple[dict[Number, int], int]:
    """The coefficients of what an expression is made of, and its constant."""
    coefficients: dict[Number, int] = {}
    constant = 0
    stack = [(1, number)]
    while stack:
        factor, part = stack.pop()
        if isinstance(part, Sum):
            constant += factor * part.constant
            stack += [(factor * each, inner) for each, inner in part.parts[::-1]]
        elif isinstance(part, Not):
            constant += factor
            stack.append((-factor, part.part))
        else:
            coefficients[part] = coefficients.get(part, 0) + factor
    if 0 in coefficients.values():
        return {atom: factor for atom, factor in coefficients.items() if factor}, constant
    return coefficients, constant


def total(numbers: Iterable[NumberLike]) -> Sum:
    """The sum of a list. Python's own `sum` gives the same."""
    return Sum(tuple((1, number_of(it)) for it in numbers))


def weighted_sum(coefficients: Iterable[int], numbers: Iterable[NumberLike]) -> Sum:
    """The sum of each number times the coefficient at its place. The lists have one length."""
    factors, parts = list(coefficients), list(numbers)
    same_length("weighted_sum", factors, parts)
    return Sum(tuple((whole(factor, it), number_of(it)) for factor, it in zip(factors, parts)))


class IntegerVariable(Number):
    """A declared integer: its name, its values upwards, the line that declares it, and how it is
    shown."""

    def __init__(self, name: str, domain: Domain, line: str, shown: str = ""):
        self.name = name
        self.domain = domain
        self.line = line
        self.shown = shown or name

    def __str__(self) -> str:
        return self.shown

    def __repr__(self) -> str:
        is_range = isinstance(self.domain, range) and self.domain.step == 1
        values = f"{self.domain[0]}..{self.domain[-1]}" if is_range else str([*self.domain])
        return f"<{self} in {values}>"

    def value(self, values: dict[str, int | bool]) -> int:
        return int(value_of(self, values))

    def integer(self, translation: Translation) -> Integer:
        return translation.declared(self)

    def bound(self, presolve: Presolve) -> None:
        presolve.bounds.know_domain(self, self.domain)


def value_of(
    variable: IntegerVariable | BooleanVariable, values: dict[str, int | bool]
) -> int | bool:
    """The value of a variable by its name."""
    if variable.name not in values:
        raise refused(f"{variable} is a variable of another model, declared at {variable.line}")
    return values[variable.name]


class Truth(Number):
    """An expression that is true or false. Among numbers it is 1 or 0."""

    __hash__ = object.__hash__

    def __and__(self, other: TruthLike) -> Truth:
        return AllOf((self, truth_of(other)))

    __rand__ = __and__

    def __or__(self, other: TruthLike) -> Truth:
        return AnyOf((self, truth_of(other)))

    __ror__ = __or__

    def __xor__(self, other: TruthLike) -> Truth:
        return Odd((self, truth_of(other)))

    __rxor__ = __xor__

    def __invert__(self) -> Truth:
        return Not(self)

    def implies(self, other: TruthLike) -> Truth:
        """If this then that. Costs what `~self | other` does."""
        return AnyOf((Not(self), truth_of(other)))

    def __eq__(self, other: object) -> Truth:  # type: ignore[override]
        if isinstance(other, (Truth, bool)):
            return Not(Odd((self, truth_of(other))))
        return super().__eq__(other)

    def __ne__(self, other: object) -> Truth:  # type: ignore[override]
        if isinstance(other, (Truth, bool)):
            return Odd((self, truth_of(other)))
        return super().__ne__(other)

    def value(self, values: dict[str, int | bool]) -> int:
        return int(self.holds(values))

    def integer(self, translation: Translation) -> Integer:
        return translation.integer_of_literal(self.literal(translation))

    def holds(self, values: dict[str, int | bool]) -> bool:
        """Whether this is true where the variables have these values."""
        raise NotImplementedError

    def literal(self, translation: Translation) -> str:
        """The Boolean term of the written model that has this truth."""
        raise NotImplementedError

    def post(self, translation: Translation) -> None:
        """Writes that this is true."""
        translation.clause([translation.literal(self)])

    def refuse(self, translation: Translation) -> None:
        """Writes that this is false."""
        translation.clause([translation.negation(translation.literal(self))])

    def bound(self, presolve: Presolve) -> None:
        presolve.bounds.know(self, 0, 1)

    def presolve(self, presolve: Presolve) -> None:
        """Tells the presolve that this is true."""
        presolve.fix(self)


TruthLike = Union[Truth, bool]


def truth_of(value: object) -> Truth:
    """The value as an expression."""
    if isinstance(value, Truth):
        return value
    if isinstance(value, bool):
        return Constant(value)
    raise refused(f"{value}: this is no Boolean, and &, |, ~ and implies want Booleans")


class Constant(Truth):
    """True or false."""

    def __init__(self, is_true: bool):
        self.is_true = is_true

    def __str__(self) -> str:
        return str(self.is_true)

    def holds(self, values: dict[str, int | bool]) -> bool:
        return self.is_true

    def literal(self, translation: Translation) -> str:
        return "true" if self.is_true else "false"

    def bound(self, presolve: Presolve) -> None:
        presolve.bounds.know(self, int(self.is_true), int(self.is_true))


class BooleanVariable(Truth):
    """A declared Boolean: its name, the line that declares it, and how it is shown."""

    def __init__(self, name: str, line: str, shown: str = ""):
        self.name = name
        self.line = line
        self.shown = shown or name

    def __str__(self) -> str:
        return self.shown

    def holds(self, values: dict[str, int | bool]) -> bool:
        return bool(value_of(self, values))

    def literal(self, translation: Translation) -> str:
        return translation.known(self)


class Not(Truth):
    """The negation."""

    def __init__(self, part: Truth):
        self.part = part

    def __str__(self) -> str:
        return f"~{self.part}"

    def __invert__(self) -> Truth:
        return self.part

    def holds(self, values: dict[str, int | bool]) -> bool:
        return not self.part.holds(values)

    def literal(self, translation: Translation) -> str:
        return translation.negation(translation.literal(self.part))

    def post(self, translation: Translation) -> None:
        self.part.refuse(translation)

    def refuse(self, translation: Translation) -> None:
        self.part.post(translation)


def members(whole_list: Truth, kind: type[AllOf] | type[AnyOf]) -> Iterator[Truth]:
    """The members of a list with those of the lists of its kind among them, in order."""
    stack = [whole_list]
    while stack:
        part = stack.pop()
        if isinstance(part, (AllOf, AnyOf)) and isinstance(part, kind):
            stack.extend(reversed(part.parts))
        else:
            yield part


class AllOf(Truth):
    """All parts are true."""

    def __init__(self, parts: tuple[Truth, ...]):
        self.parts = parts

    def __str__(self) -> str:
        return " & ".join(f"({it})" for it in self.parts[:3])

    def holds(self, values: dict[str, int | bool]) -> bool:
        return all(it.holds(values) for it in members(self, AllOf))

    def literal(self, translation: Translation) -> str:
        return translation.conjunction([translation.literal(it) for it in members(self, AllOf)])

    def post(self, translation: Translation) -> None:
        for it in members(self, AllOf):
            it.post(translation)

    def refuse(self, translation: Translation) -> None:
        parts = [translation.literal(it) for it in members(self, AllOf)]
        translation.clause([translation.negation(it) for it in parts])

    def bound(self, presolve: Presolve) -> None:
        super().bound(presolve)
        presolve.clause([presolve.literal(~it) for it in members(self, AllOf)], (self, False))


class AnyOf(Truth):
    """Some part is true."""

    def __init__(self, parts: tuple[Truth, ...]):
        self.parts = parts

    def __str__(self) -> str:
        return " | ".join(f"({it})" for it in self.parts[:3])

    def holds(self, values: dict[str, int | bool]) -> bool:
        return any(it.holds(values) for it in members(self, AnyOf))

    def literal(self, translation: Translation) -> str:
        parts = [translation.literal(it) for it in members(self, AnyOf)]
        return translation.disjunction(parts)

    def post(self, translation: Translation) -> None:
        translation.clause([translation.literal(it) for it in members(self, AnyOf)])

    def refuse(self, translation: Translation) -> None:
        for it in members(self, AnyOf):
            it.refuse(translation)

    def bound(self, presolve: Presolve) -> None:
        super().bound(presolve)
        presolve.clause([presolve.literal(it) for it in members(self, AnyOf)], (self, True))

    def presolve(self, presolve: Presolve) -> None:
        presolve.clause([presolve.literal(it) for it in members(self, AnyOf)])


class Odd(Truth):
    """An odd number of parts is true."""

    def __init__(self, parts: tuple[Truth, ...]):
        self.parts = parts

    def __str__(self) -> str:
        return " ^ ".join(f"({it})" for it in self.parts[:3])

    def holds(self, values: dict[str, int | bool]) -> bool:
        return sum(it.holds(values) for it in self.parts) % 2 == 1

    def literal(self, translation: Translation) -> str:
        return translation.parity([translation.literal(it) for it in self.parts])

    def post(self, translation: Translation) -> None:
        translation.odd([translation.literal(it) for it in self.parts])

    def refuse(self, translation: Translation) -> None:
        translation.odd([*(translation.literal(it) for it in self.parts), "true"])


def all_of(parts: Iterable[TruthLike]) -> Truth:
    """All of a list are true. Weight: that of its members where it is stated alone, else 3 for each."""
    return AllOf(tuple(truth_of(it) for it in parts))


def any_of(parts: Iterable[TruthLike]) -> Truth:
    """Some of a list is true. Weight: 1 for each member where it is stated alone, else 3."""
    return AnyOf(tuple(truth_of(it) for it in parts))


def xor(parts: Iterable[TruthLike]) -> Truth:
    """An odd number of a list is true. Weight: 13 for each member."""
    return Odd(tuple(truth_of(it) for it in parts))


class Comparison(Truth):
    """A number stands in a relation to 0: `leq`, `eq` or `neq`."""

    def __init__(self, number: Number, relation: str):
        self.number = number
        self.relation = relation

    def __str__(self) -> str:
        signs = {"leq": "<=", "eq": "==", "neq": "!="}
        return f"{self.number} {signs[self.relation]} 0"

    def __invert__(self) -> Truth:
        if self.relation == "leq":
            return Comparison(1 - self.number, "leq")
        return Comparison(self.number, "neq" if self.relation == "eq" else "eq")

    def holds(self, values: dict[str, int | bool]) -> bool:
        value = self.number.value(values)
        return {"leq": value <= 0, "eq": value == 0, "neq": value != 0}[self.relation]

    def literal(self, translation: Translation) -> str:
        from .linear import literal_of_comparison

        return literal_of_comparison(translation, self)

    def post(self, translation: Translation) -> None:
        from .linear import post_comparison

        post_comparison(translation, self)

    def refuse(self, translation: Translation) -> None:
        (~self).post(translation)

    def bound(self, presolve: Presolve) -> None:
        super().bound(presolve)
        presolve.relate(self.number, self.relation, (self, True))

    def presolve(self, presolve: Presolve) -> None:
        presolve.relate(self.number, self.relation)
