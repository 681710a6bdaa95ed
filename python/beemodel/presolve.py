"""What the constraints of a model say of its domains, before anything is written.

Each constraint is told to propagators, and these narrow bounds until nothing moves. Every step is
implied by the constraints, so that no solution is lost. The bound of what is sought is found by
trying: where a value of it leads to a conflict, it is better than any solution has.
"""
from __future__ import annotations

from collections.abc import Iterable, Sequence
from typing import TYPE_CHECKING, NamedTuple, Optional

from .bounds import Bounds, Conflict
from .choices import choices_of
from .cliques import cliques_of
from .domains import Domain
from .expressions import (
    AllOf,
    BooleanVariable,
    Comparison,
    IntegerVariable,
    Not,
    Number,
    Truth,
    flatten,
    members,
)
from .propagators import AtMostZero, Choice, Clause, Differ, Literal, Prices, Relation, Term, make_true

if TYPE_CHECKING:
    from .model import Goal, Model, Placed

# So much work is done at most: a few seconds.
LIMIT = 1_000_000

# Comparisons of an integer of so many values with constants are prices by its value.
PRICED = 500


class Presolve:
    """The bounds of one model, as its constraints are told."""

    def __init__(self, model: Model, domains: dict[str, Domain], limit: int = LIMIT):
        self.model, self.bounds = model, Bounds(limit)
        self.choices = choices_of(it.truth for it in model.constraints)
        for name, domain in domains.items():
            if not domain:
                raise Conflict
            self.bounds.know_domain(model.variables[name], domain)

    # Constraints.

    def hold(self, truths: Iterable[Truth]) -> None:
        """Takes in that each of some truths holds."""
        for truth in truths:
            for it in members(truth, AllOf):
                it.presolve(self)

    def relate(self, number: Number, relation: str, literal: Optional[Literal] = None) -> Relation:
        """Takes in that a number stands in a relation to 0, or a literal that says whether it
        does."""
        terms, constant = self.terms(number)
        made = Relation(terms, constant, relation, literal)
        self.bounds.add(made, *made.watched())
        return made

    def clause(self, literals: Sequence[Literal], whole: Optional[Literal] = None) -> None:
        """Takes in that some literal is true, or a literal that says whether one is."""
        own = [whole[0]] if whole else []
        self.bounds.add(Clause(literals, whole), *own, *(it[0] for it in literals))

    def differ(self, numbers: Sequence[Number]) -> None:
        """Takes in that no two of some numbers are equal."""
        each = [self.sides(it) for it in numbers]
        self.bounds.add(Differ(each), *self.watched(*(below for below, _ in each)))

    def fix(self, truth: Truth) -> None:
        """Takes in that a truth holds, by its literal."""
        make_true(self.bounds, self.literal(truth))

    # Expressions.

    def literal(self, truth: Truth) -> Literal:
        """The literal of a truth, which is told to the bounds at the first asking."""
        if isinstance(truth, Not):
            atom, sign = self.literal(truth.part)
            return atom, not sign
        self.know(truth)
        return truth, True

    def know(self, atom: Number) -> None:
        """Tells a number to the bounds, where it isn't known to them."""
        if atom not in self.bounds.low:
            atom.bound(self)

    def terms(self, number: Number) -> tuple[list[Term | Prices | Choice], int]:
        """The terms of a sum, and its constant."""
        atoms, constant = flatten(number)
        prices: dict[Number, dict[int, int]] = {}
        choices: dict[Number, dict[Number, int]] = {}
        plain: list[Term | Prices | Choice] = []
        for atom, factor in atoms.items():
            variable = self.variable_of(atom)
            if variable is not None and isinstance(atom, Comparison):
                self.price(prices, variable, atom, factor)
            elif atom in self.choices:
                choices.setdefault(self.choices[atom][0], {})[atom] = factor
            else:
                self.know(atom)
                plain.append(Term(factor, atom))
        for variable, price in prices.items():
            rising = sorted((it, value) for value, it in price.items())
            plain.append(Prices(variable, rising))
        for first, chosen in choices.items():
            self.choose(plain, chosen, len(self.choices[first]))
        return plain, constant

    def choose(
        self, terms: list[Term | Prices | Choice], price: dict[Number, int], size: int
    ) -> None:
        """The terms of Booleans of which at most one is true, and just one where these are all; of
        the constraint that states it, one for each."""
        for it in price:
            self.know(it)
        if len(price) == size and len({*price.values()}) > 1:
            terms.append(Choice(price))
        else:
            terms.extend(Term(factor, it) for it, factor in price.items())

    def variable_of(self, atom: Number) -> Optional[Number]:
        """The integer of few values that an atom compares with a constant, if it does."""
        if not isinstance(atom, Comparison):
            return None
        inner, _ = flatten(atom.number)
        variable = next(iter(inner)) if len(inner) == 1 else None
        if isinstance(variable, IntegerVariable) and len(self.bounds.domains.get(variable, ())) in range(1, PRICED):
            return variable
        return None

    def price(
        self,
        prices: dict[Number, dict[int, int]],
        variable: Number,
        atom: Comparison,
        factor: int,
    ) -> None:
        """Adds the price of a comparison for each value of its integer where it holds."""
        inner, constant = flatten(atom.number)
        price, domain = prices.setdefault(variable, {}), self.bounds.domains[variable]
        if atom.relation == "eq":
            value, rest = divmod(-constant, inner[variable])
            if not rest and value in domain:
                price[value] = price.get(value, 0) + factor
            return
        for value in domain:
            left = inner[variable] * value + constant
            if left <= 0 if atom.relation == "leq" else left != 0:
                price[value] = price.get(value, 0) + factor

    def sides(self, number: Number) -> tuple[AtMostZero, AtMostZero]:
        """A sum by what it is at least, and its negation."""
        terms, constant = self.terms(number)
        return AtMostZero(terms, constant), AtMostZero([it.negated() for it in terms], -constant)

    def watched(self, *sides: AtMostZero) -> list[Number]:
        """What some sums are about."""
        return [atom for side in sides for it in side.terms for atom in it.watched()]

    def ends(self, number: Number) -> tuple[int, int]:
        """The least and the greatest value of an expression."""
        below, above = self.sides(number)
        return below.least(self.bounds), -above.least(self.bounds)

    # What is sought.

    def is_possible(self, number: Number, most: int) -> bool:
        """Whether no conflict is seen where a number is at most a value."""
        below, _ = self.sides(number)
        self.bounds.run()
        mark = len(self.bounds.trail)
        try:
            below.narrow(self.bounds, -most)
            self.bounds.run()
        except Conflict:
            return False
        finally:
            self.bounds.undo(mark)
        return True

    def least_possible(self, number: Number) -> int:
        """The least value of a number that leads to no conflict, by halving."""
        low, high = self.ends(number)
        while low < high and self.bounds.work < self.bounds.limit:
            middle = (low + high) // 2
            if self.is_possible(number, middle):
                high = middle
            else:
                low = middle + 1
        return low


class Left(NamedTuple):
    """What a presolve leaves: values of variables, Booleans that are sure, and bounds of functions
    and of what is sought. `is_possible` is false where it has seen that there is no solution; where
    `is_apart` is true each constraint is written as if there were no other."""

    domains: dict[str, Domain]
    sure: dict[BooleanVariable, bool]
    ends: dict[Number, tuple[int, int]]
    is_possible: bool = True
    is_apart: bool = False


def presolved(domains: dict[str, Domain], model: Model, rest: Sequence[Placed], goal: Optional[Goal]) -> Left:
    """What is left of a model whose variables have these domains."""
    try:
        return left_of(told_of(domains, model, rest, goal), model, goal)
    except Conflict:
        return Left(domains, {}, {}, False)


def told_of(
    domains: dict[str, Domain], model: Model, rest: Sequence[Placed], goal: Optional[Goal]
) -> Presolve:
    """The presolve of a model, to which its constraints are told, and by it the bound of what is
    sought."""
    told = Presolve(model, domains)
    told.hold(it.truth for _, it in rest)
    for clique in cliques_of(it.truth for _, it in rest):
        told.differ(clique)
    for variable in model.variables.values():
        told.know(variable)
    told.bounds.run()
    is_least = goal is not None and goal.direction == "minimize"
    for number in goal.objectives if goal else ():
        least = told.least_possible(number if is_least else -number)
        told.relate((least - number) if is_least else (number + least), "leq")
        told.bounds.run()
    return told


def left_of(told: Presolve, model: Model, goal: Optional[Goal]) -> Left:
    """What is left of the variables, and the bounds of all else."""
    bounds, domains, sure, ends = told.bounds, {}, {}, {}
    for name, variable in model.variables.items():
        if isinstance(variable, IntegerVariable):
            domains[name] = bounds.domain(variable)
        elif bounds.is_fixed(variable):
            sure[variable] = bounds.low[variable] == 1
    for atom, low in bounds.low.items():
        if not isinstance(atom, (IntegerVariable, Truth)):
            ends[atom] = low, bounds.high[atom]
    for number in goal.objectives if goal else ():
        ends[number] = told.ends(number)
    return Left(domains, sure, ends)
