"""Sums: how a comparison of a sum becomes statements.

Booleans are turned so that their coefficients are positive, and terms with one coefficient are
added first, by halves. Where a sum is stated, its bound says how great a part of it can be, and no
partial sum has more values.
"""
from __future__ import annotations

from collections.abc import Iterable
from itertools import groupby
from math import gcd
from typing import TYPE_CHECKING, NamedTuple, Optional, Union

from . import weights
from .choices import gathered
from .domains import Domain, multiple, sums
from .expressions import Comparison, IntegerVariable, Number, Sum, Truth, flatten
from .translation import Integer

if TYPE_CHECKING:
    from .translation import Translation


class Term(NamedTuple):
    """A factor and what it multiplies: a Boolean term, or an integer."""

    factor: int
    of: Union[str, Integer]

    @property
    def domain(self) -> Domain:
        return range(0, 2) if isinstance(self.of, str) else self.of.domain

    @property
    def name(self) -> str:
        return self.of if isinstance(self.of, str) else self.of.term

    @property
    def values(self) -> Domain:
        """The values of the product."""
        return multiple(self.domain, self.factor, 0)

    @property
    def shape(self) -> weights.Shape:
        return weights.scaled(self.factor, weights.shape_of(self.domain))


def low_of(terms: Iterable[Term]) -> int:
    """The least value of a sum by its terms' domains."""
    return sum(it.factor * it.domain[0 if it.factor > 0 else -1] for it in terms)


def high_of(terms: Iterable[Term]) -> int:
    """The greatest value of a sum by its terms' domains."""
    return sum(it.factor * it.domain[-1 if it.factor > 0 else 0] for it in terms)


def terms_of(translation: Translation, number: Number) -> tuple[list[Term], int]:
    """The terms of a sum, each name once, and its constant."""
    factors: dict[str, int] = {}
    integers: dict[str, Integer] = {}
    atoms, constant = flatten(number)
    for atom, factor in gathered(translation, atoms).items():
        made = literal_or_integer(translation, atom)
        if made in ("true", "false"):
            constant += factor * (made == "true")
        elif isinstance(made, str):
            constant += factor if made[0] == "-" else 0
            name = made.lstrip("-")
            factors[name] = factors.get(name, 0) + (-factor if made[0] == "-" else factor)
        elif made.steps == 0:
            constant += factor * made.low
        else:
            integers[made.term] = made
            factors[made.term] = factors.get(made.term, 0) + factor
    return turned(translation, factors, integers, constant)


def literal_or_integer(translation: Translation, atom: Number) -> Union[str, Integer]:
    """What an atom of a sum is in the written model: a Boolean term or an integer."""
    if isinstance(atom, Truth):
        return translation.literal(atom)
    integer = translation.integer(atom)
    return translation.literal_of_integer.get(integer.term, integer)


def turned(
    translation: Translation, factors: dict[str, int], integers: dict[str, Integer], constant: int
) -> tuple[list[Term], int]:
    """The terms, in which a Boolean with a negative factor stands negated."""
    terms = []
    for name, factor in factors.items():
        if not factor:
            continue
        if name in integers:
            terms.append(Term(factor, integers[name]))
        elif factor > 0:
            terms.append(Term(factor, name))
        else:
            constant += factor
            terms.append(Term(-factor, translation.negation(name)))
    return terms, constant


class Stated(NamedTuple):
    """That a sum of terms stands in a relation to a bound, the factors having no common divisor."""

    terms: list[Term]
    relation: str
    bound: int

    def decided(self) -> Optional[bool]:
        """Its truth, where the domains tell."""
        low, high = low_of(self.terms), high_of(self.terms)
        if self.relation == "leq":
            return True if high <= self.bound else False if low > self.bound else None
        if low <= self.bound <= high and low < high:
            return None
        return (low == self.bound == high) == (self.relation == "eq")

    def is_count(self) -> bool:
        """Whether it counts Booleans."""
        return all(it.factor == 1 and isinstance(it.of, str) for it in self.terms)


def stated(translation: Translation, comparison: Comparison) -> Union[Stated, bool]:
    """A comparison with its constant at the right side and the common divisor taken out, or its
    truth."""
    terms, constant = terms_of(translation, comparison.number)
    divisor = gcd(*(it.factor for it in terms)) or 1
    if comparison.relation != "leq" and constant % divisor:
        return comparison.relation == "neq"
    terms = [Term(it.factor // divisor, it.of) for it in terms]
    made = Stated(terms, comparison.relation, -constant // divisor)
    is_true = made.decided()
    return made if is_true is None else is_true


def literal_of_comparison(
    translation: Translation, comparison: Comparison, offered: Optional[str] = None
) -> str:
    """The Boolean term that is true where a comparison is; one that is offered where none is made
    yet and one is needed."""
    atoms, constant = flatten(comparison.number)
    variable = next(iter(atoms)) if len(atoms) == 1 else None
    if isinstance(variable, IntegerVariable):
        term = Term(atoms[variable], translation.integer(variable))
        if comparison.relation != "neq":
            return literal_of_term(translation, term, comparison.relation, -constant)
        return translation.negation(literal_of_term(translation, term, "eq", -constant))
    it = stated(translation, comparison)
    if isinstance(it, bool):
        return "true" if it else "false"
    if it.relation == "neq":
        equal = Stated(it.terms, "eq", it.bound)
        offered = translation.negation(offered) if offered else None
        return translation.negation(literal_of(translation, equal, offered))
    return literal_of(translation, it, offered)


def tie(translation: Translation, comparison: Comparison, literal: str) -> None:
    """Writes that a Boolean term is true just where a comparison is."""
    made = literal_of_comparison(translation, comparison, literal)
    if made in ("true", "false"):
        translation.clause([literal if made == "true" else translation.negation(literal)])
    elif made != literal:
        translation.say(4, "bool_eq", made, literal)


def literal_of(translation: Translation, it: Stated, offered: Optional[str] = None) -> str:
    """The Boolean term of a comparison by `leq` or `eq` that the domains leave open."""
    if len(it.terms) == 1:
        return literal_of_term(translation, it.terms[0], it.relation, it.bound)
    if it.is_count() and (it.bound == 0 or it.bound == len(it.terms) - (it.relation == "leq")):
        names = [term.name for term in it.terms]
        if it.bound == 0:
            return translation.conjunction([translation.negation(name) for name in names])
        all_true = translation.conjunction(names)
        return all_true if it.relation == "eq" else translation.negation(all_true)
    left = [term for term in it.terms if term.factor > 0]
    right = [Term(-term.factor, term.of) for term in it.terms if term.factor < 0]
    if not left and it.relation == "leq":
        other = Stated(right, "leq", -it.bound - 1)
        return translation.negation(literal_of_sides(translation, other, []))
    if not left:
        return literal_of_sides(translation, Stated(right, "eq", -it.bound), [])
    return literal_of_sides(translation, Stated(left, it.relation, it.bound), right, offered)


def literal_of_term(translation: Translation, term: Term, relation: str, bound: int) -> str:
    """The Boolean term that is true where one multiplied term is at most, or equal to, a number."""
    if isinstance(term.of, str):
        values = 0, term.factor
        holds = [it <= bound if relation == "leq" else it == bound for it in values]
        if holds[0] == holds[1]:
            return "true" if holds[0] else "false"
        return term.of if holds[1] else translation.negation(term.of)
    if relation == "eq":
        return "false" if bound % term.factor else translation.equals(term.of, bound // term.factor)
    if term.factor < 0:
        return translation.at_least(term.of, -(bound // -term.factor))
    return translation.negation(translation.at_least(term.of, bound // term.factor + 1))


def literal_of_sides(
    translation: Translation, left: Stated, right: list[Term], offered: Optional[str] = None
) -> str:
    """The truth of a sum that stands in a relation to another one plus a bound; all factors are
    positive."""
    first = sum_of(translation, left.terms)
    if not right:
        return literal_of_term(translation, first, left.relation, left.bound)
    second = sum_of(translation, right)
    key = (left.relation, first.factor, first.name, second.factor, second.name, left.bound)
    if key not in translation.literals:
        made = offered or translation.fresh_boolean()
        compare(translation, first, second, left, made)
        translation.literals[key] = made
    return translation.literals[key]


def compare(translation: Translation, first: Term, second: Term, left: Stated, made: str) -> None:
    """Writes that a Boolean is the truth of a comparison of two multiplied integers and a bound."""
    if first.factor == 1 and is_first_shifted(translation, first, second, left.bound):
        x = shifted(translation, integer_of(translation, first), 1, -left.bound)
        y = shifted(translation, integer_of(translation, second), second.factor, 0)
    else:
        x = shifted(translation, integer_of(translation, first), first.factor, 0)
        y = shifted(translation, integer_of(translation, second), second.factor, left.bound)
    weigh = weights.order if left.relation == "leq" else weights.equal
    translation.say(weigh(x.steps, y.steps), f"int_{left.relation}_reif", x.term, y.term, made)


def is_first_shifted(translation: Translation, first: Term, second: Term, bound: int) -> bool:
    """Whether a bound is added to the first side of a comparison: where that is made already, or
    the other one isn't and has more values."""
    if shift_key(first, 1, -bound) in translation.integers:
        return True
    is_made = shift_key(second, second.factor, bound) in translation.integers
    return not is_made and len(first.domain) <= len(second.domain)


def shift_key(term: Term, factor: int, constant: int) -> object:
    """By what a term that is multiplied and shifted is found again."""
    return "shifted", term.name, factor, constant


def integer_of(translation: Translation, term: Term) -> Integer:
    """The integer that a term multiplies."""
    return translation.integer_of_literal(term.of) if isinstance(term.of, str) else term.of


def shifted(translation: Translation, integer: Integer, factor: int, constant: int) -> Integer:
    """The integer times a factor, and more by a constant, made once. The compilation makes its
    variables those of the integer itself."""
    if factor == 1 and constant == 0:
        return integer
    key = ("shifted", integer.term, factor, constant)
    if key not in translation.integers:
        made = translation.fresh_integer(multiple(integer.domain, factor, constant))
        say_linear(translation, "eq", [Term(factor, integer), Term(-1, made)], -constant)
        translation.integers[key] = made
    return translation.integers[key]


def say_linear(
    translation: Translation, relation: str, terms: list[Term], right: Union[int, Integer]
) -> None:
    """Writes that a sum stands in a relation to a number or an integer."""
    shape = weights.CONSTANT if isinstance(right, int) else weights.shape_of(right.domain)
    weight = weights.linear(relation, [it.shape for it in terms], shape)
    names = [integer_of(translation, it).term for it in terms]
    factors = [it.factor for it in terms]
    if sorted(factors) == [-1, 1] and right == 0 and relation != "eq":
        first, second = names if factors[0] == 1 else reversed(names)
        translation.say(weight, f"int_{relation}", first, second)
        return
    end: Union[int, str] = right if isinstance(right, int) else right.term
    translation.say(weight, f"int_array_lin_{relation}", factors, names, end)


# Partial sums.


def sum_of(
    translation: Translation,
    terms: list[Term],
    low: Optional[int] = None,
    high: Optional[int] = None,
) -> Term:
    """A multiplied integer that is the sum of terms, where the model's other statements hold it
    between low and high."""
    least, most = low_of(terms), high_of(terms)
    low, high = max(least, least if low is None else low), min(most, most if high is None else high)
    if len(terms) == 1:
        return terms[0]
    key = ("sum", tuple(sorted((it.factor, it.name) for it in terms)), low, high)
    if key not in translation.partial_sums:
        common = gcd(*(it.factor for it in terms))
        divided = [Term(it.factor // common, it.of) for it in terms]
        made = fresh_sum(translation, divided, -(-low // common), high // common)
        translation.partial_sums[key] = Term(common, made)
    return translation.partial_sums[key]


def fresh_sum(translation: Translation, terms: list[Term], low: int, high: int) -> Integer:
    """A fresh integer that is the sum of at least two terms, and lies between low and high."""
    names = [it.of for it in terms if it.factor == 1 and isinstance(it.of, str)]
    if len(names) == len(terms) and low <= 0 and high >= len(terms):
        made = translation.fresh_integer(range(0, len(terms) + 1))
        weight = weights.counted(len(names), len(names))
        translation.say(weight, "bool_array_sum_eq", names, made.term)
        return made
    parts = [*parts_of(translation, terms, low, high)]
    made = translation.fresh_integer(sums(parts[0].values, parts[1].values, low, high))
    say_linear(translation, "eq", parts, made)
    return made


def parts_of(translation: Translation, terms: list[Term], low: int, high: int) -> tuple[Term, Term]:
    """The sums of the terms' two halves, where the whole lies between low and high."""
    first, second = halves(terms)
    ends = low_of(first), high_of(first), low_of(second), high_of(second)
    return (
        sum_of(translation, first, low - ends[3], high - ends[2]),
        sum_of(translation, second, low - ends[1], high - ends[0]),
    )


def halves(terms: list[Term]) -> tuple[list[Term], list[Term]]:
    """The terms in two halves, those with one factor together."""
    ordered = sorted(terms, key=lambda it: (abs(it.factor), len(it.domain)))
    groups = [[*group] for _, group in groupby(ordered, key=lambda it: abs(it.factor))]
    if len(groups) == 1:
        middle = len(ordered) // 2
        return ordered[:middle], ordered[middle:]
    middle = len(groups) // 2
    return sum(groups[:middle], []), sum(groups[middle:], [])


# Sums that are stated.


def post_comparison(translation: Translation, comparison: Comparison) -> None:
    """Writes that a comparison holds."""
    it = stated(translation, comparison)
    if isinstance(it, bool):
        translation.clause(["true" if it else "false"])
    elif len(it.terms) == 1:
        translation.clause([literal_of_comparison(translation, comparison)])
    elif not (it.is_count() and post_small_count(translation, it)):
        post_sum(translation, it)


def post_small_count(translation: Translation, it: Stated) -> bool:
    """Writes that so many Booleans are true, where clauses say it. The answer is whether they
    do."""
    names = [term.name for term in it.terms]
    negated = [translation.negation(name) for name in names]
    size = len(names)
    if it.relation == "neq" and it.bound in (0, size):
        translation.clause(names if it.bound == 0 else negated)
    elif it.relation != "neq" and it.bound == 0:
        for name in negated:
            translation.clause([name])
    elif it.relation == "eq" and it.bound == size:
        for name in names:
            translation.clause([name])
    elif it.relation == "leq" and it.bound == size - 1:
        translation.clause(negated)
    elif it.relation != "neq" and it.bound == 1:
        translation.at_most_one(names)
        if it.relation == "eq":
            translation.clause(names)
    elif it.relation == "eq" and it.bound == size - 1:
        translation.at_most_one(negated)
        translation.clause(negated)
    else:
        return False
    return True


def post_sum(translation: Translation, it: Stated) -> None:
    """Writes that a sum of at least two terms stands in a relation to a bound."""
    terms = sorted(it.terms, key=lambda term: term.shape[1])
    low = it.bound if it.relation == "eq" else low_of(terms)
    high = it.bound if it.relation != "neq" else high_of(terms)
    if len(terms) == 2 or len(terms) == 3 and it.relation == "eq":
        parts = terms
    elif it.relation == "eq" or 2 * terms[-1].shape[1] > sum(term.shape[1] for term in terms):
        parts = without_widest(translation, terms, it.relation, low, high)
    else:
        parts = [*parts_of(translation, terms, low, high)]
    say_linear(translation, it.relation, parts, it.bound)


def without_widest(
    translation: Translation, terms: list[Term], relation: str, low: int, high: int
) -> list[Term]:
    """The sums of all terms but the last one, which is the widest, and behind them that one."""
    widest = terms[-1]
    low, high = low - widest.values[-1], high - widest.values[0]
    if relation == "eq":
        return [*parts_of(translation, terms[:-1], low, high), widest]
    return [sum_of(translation, terms[:-1], low, high), widest]


# Sums as integers.


def integer_of_sum(translation: Translation, number: Sum) -> Integer:
    """The integer of a sum: the one variable that it is, or a fresh one."""
    terms, constant = terms_of(translation, number)
    if not terms:
        return Integer(translation.numeral(constant), range(constant, constant + 1))
    low, high = translation.ends.get(number, (low_of(terms) + constant, high_of(terms) + constant))
    whole = sum_of(translation, terms, low - constant, high - constant)
    return shifted(translation, integer_of(translation, whole), whole.factor, constant)


def values_of(translation: Translation, number: Number) -> Domain:
    """The values of an expression, without an integer of its own where it has one term."""
    terms, constant = terms_of(translation, number)
    if len(terms) == 1:
        return multiple(terms[0].domain, terms[0].factor, constant)
    return translation.integer(number).domain


def least_of(translation: Translation, number: Number) -> int:
    """The least value of an expression by the domains."""
    terms, constant = terms_of(translation, number)
    return constant + low_of(terms)


def equality(translation: Translation, number: Number, value: int) -> str:
    """The Boolean term that is true where an expression has a value."""
    return literal_of_comparison(translation, Comparison(number - value, "eq"))


def at_least(translation: Translation, number: Number, value: int) -> str:
    """The Boolean term that is true where an expression is at least a value."""
    return literal_of_comparison(translation, Comparison(value - number, "leq"))
