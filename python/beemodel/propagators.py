"""Propagators: what constraints say of the bounds of what they are about.

A literal is a truth and a sign; a term is what a sum adds: a number times a factor, or prices by
the value of one integer or by which of some Booleans is the true one.
"""
from __future__ import annotations

from bisect import bisect_left, bisect_right
from collections.abc import Sequence
from typing import NamedTuple, Optional

from .bounds import Bounds, Conflict, Propagator
from .expressions import Number

Literal = tuple[Number, bool]

# Values of a wider domain aren't ruled out one by one.
LISTED = 2_000


def is_true(bounds: Bounds, literal: Literal) -> Optional[bool]:
    """The truth of a literal, where it is known."""
    atom, sign = literal
    if bounds.low[atom] < bounds.high[atom]:
        return None
    return (bounds.low[atom] == 1) == sign


def make_true(bounds: Bounds, literal: Literal) -> None:
    """States that a literal is true."""
    bounds.fix(literal[0], int(literal[1]))


class Term(NamedTuple):
    """A number times a factor."""

    factor: int
    atom: Number

    def least(self, bounds: Bounds) -> int:
        return self.factor * (bounds.low if self.factor > 0 else bounds.high)[self.atom]

    def keep_below(self, bounds: Bounds, most: int) -> None:
        """The term is at most a value."""
        if self.factor > 0:
            bounds.at_most(self.atom, most // self.factor)
        else:
            bounds.at_least(self.atom, -(most // -self.factor))

    def negated(self) -> Term:
        return Term(-self.factor, self.atom)

    def watched(self) -> list[Number]:
        return [self.atom]


class Prices:
    """A price for each value of one integer: that of some values, rising, and 0 for the others."""

    def __init__(self, atom: Number, rising: list[tuple[int, int]]):
        self.atom, self.rising = atom, rising
        self.price = {value: price for price, value in rising}
        self.is_cost = not rising or rising[0][0] >= 0
        self.span = max(0, rising[-1][0]) - min(0, rising[0][0]) if rising else 0

    def least(self, bounds: Bounds) -> int:
        low, high, known = bounds.low[self.atom], bounds.high[self.atom], self.price
        if low == high:
            return known.get(low, 0)
        if self.is_cost and (low not in known or high not in known):
            return 0
        holes, is_free = bounds.holes.get(self.atom, ()), None
        for price, value in self.rising:
            if price >= 0 and is_free is None:
                is_free = self.is_free(bounds)
            if is_free and price >= 0:
                return 0
            if low <= value <= high and value not in holes:
                return price
        return 0

    def is_free(self, bounds: Bounds) -> bool:
        """Whether a value may be taken that has no price."""
        if bounds.low[self.atom] not in self.price or bounds.high[self.atom] not in self.price:
            return True
        return any(it not in self.price for it in bounds.values(self.atom))

    def keep_below(self, bounds: Bounds, most: int) -> None:
        """Values that cost more are ruled out."""
        for at in range(len(self.rising) - 1, -1, -1):
            price, value = self.rising[at]
            if price <= most:
                break
            bounds.remove(self.atom, value)
        if most < 0:
            for value in [*bounds.values(self.atom)]:
                if value not in self.price:
                    bounds.remove(self.atom, value)

    def negated(self) -> Prices:
        return Prices(self.atom, [(-price, value) for price, value in reversed(self.rising)])

    def watched(self) -> list[Number]:
        return [self.atom]


class Choice(NamedTuple):
    """A price for each of some Booleans of which just one is true."""

    price: dict[Number, int]

    def least(self, bounds: Bounds) -> int:
        left = [price for atom, price in self.price.items() if bounds.high[atom]]
        if not left:
            raise Conflict
        taken = [price for atom, price in self.price.items() if bounds.low[atom]]
        return taken[0] if taken else min(left)

    def keep_below(self, bounds: Bounds, most: int) -> None:
        """Booleans that cost more are false."""
        for atom, price in self.price.items():
            if price > most:
                bounds.fix(atom, 0)

    def negated(self) -> Choice:
        return Choice({atom: -price for atom, price in self.price.items()})

    def watched(self) -> list[Number]:
        return [*self.price]


class AtMostZero:
    """Terms and a constant whose sum is 0 or less."""

    def __init__(self, terms: Sequence[Term | Prices | Choice], constant: int):
        self.terms, self.constant = terms, constant
        are_prices = all(isinstance(it, Prices) for it in terms)
        spans = [it.span for it in terms if isinstance(it, Prices)]
        self.widest = max(spans, default=0) if are_prices else None
        rising = [(it.atom, it.rising) for it in terms if isinstance(it, Prices) and len(it.rising) == 1]
        self.single = [(atom, *each[0]) for atom, each in rising] if len(rising) == len(terms) else []

    def variable(self) -> Optional[Number]:
        """The number to which the constant is added, where the sum is no other."""
        only = self.terms[0] if len(self.terms) == 1 else None
        return only.atom if isinstance(only, Term) and only.factor == 1 else None

    def least(self, bounds: Bounds) -> int:
        """The least that the sum can be."""
        return self.constant + sum(self.each(bounds))

    def each(self, bounds: Bounds) -> list[int]:
        """The least that each term can be."""
        if not self.single:
            return [it.least(bounds) for it in self.terms]
        low, high, holes, found = bounds.low, bounds.high, bounds.holes, []
        for atom, price, value in self.single:
            first, last = low[atom], high[atom]
            if first == last:
                found.append(price if first == value else 0)
            elif price >= 0 or not first <= value <= last or value in holes.get(atom, ()):
                found.append(0)
            else:
                found.append(price)
        return found

    def narrow(self, bounds: Bounds, more: int = 0) -> None:
        """No term is greater than what the least of the others, and so much more, leaves to it."""
        each = self.each(bounds)
        slack = -self.constant - more - sum(each)
        if slack < 0:
            raise Conflict
        if self.widest is None or slack < self.widest:
            for term, least in zip(self.terms, each):
                term.keep_below(bounds, least + slack)


class Relation(Propagator):
    """That a sum is at most 0, is 0 or isn't 0, or a literal that says whether it is so."""

    def __init__(
        self, terms: Sequence[Term | Prices | Choice], constant: int, relation: str, literal: Optional[Literal]
    ):
        self.relation, self.literal = relation, literal
        self.below = AtMostZero(terms, constant)
        self.above = AtMostZero([it.negated() for it in terms], -constant)
        self.size = 1 + 3 * len(terms)

    def watched(self) -> list[Number]:
        own = [self.literal[0]] if self.literal else []
        return [*own, *(atom for it in self.below.terms for atom in it.watched())]

    def run(self, bounds: Bounds) -> None:
        holds = True if self.literal is None else is_true(bounds, self.literal)
        if holds is None:
            self.decide(bounds)
        else:
            self.narrow(bounds, self.relation if holds else self.opposite())

    def opposite(self) -> str:
        """The relation that the negation has."""
        return {"leq": "gt", "eq": "neq", "neq": "eq"}[self.relation]

    def decide(self, bounds: Bounds) -> None:
        """Makes the literal true or false where the bounds tell."""
        low, high = self.below.least(bounds), -self.above.least(bounds)
        if self.relation == "leq":
            holds = True if high <= 0 else False if low > 0 else None
        else:
            is_zero = True if low == high == 0 else False if low > 0 or high < 0 else None
            holds = is_zero if self.relation == "eq" or is_zero is None else not is_zero
        if holds is not None and self.literal is not None:
            atom, sign = self.literal
            make_true(bounds, (atom, sign == holds))

    def narrow(self, bounds: Bounds, relation: str) -> None:
        """The sum stands in a relation to 0."""
        if relation == "leq":
            self.below.narrow(bounds)
        elif relation == "gt":
            self.above.narrow(bounds, 1)
        elif relation == "eq":
            self.below.narrow(bounds)
            self.above.narrow(bounds)
        else:
            self.differ(bounds)

    def differ(self, bounds: Bounds) -> None:
        """Where one term alone is open, it isn't the value that would make the sum 0."""
        rest, still_open = self.below.constant, None
        for term in self.below.terms:
            least = term.least(bounds)
            if least == -term.negated().least(bounds):
                rest += least
            elif still_open is not None:
                return
            else:
                still_open = term
        if still_open is None and rest == 0:
            raise Conflict
        if isinstance(still_open, Term) and rest % still_open.factor == 0:
            bounds.remove(still_open.atom, -rest // still_open.factor)


class Clause(Propagator):
    """That some literal is true, or a literal that says whether one is."""

    def __init__(self, literals: Sequence[Literal], whole: Optional[Literal]):
        self.literals, self.whole = literals, whole
        self.size = 1 + len(literals)

    def run(self, bounds: Bounds) -> None:
        known = [is_true(bounds, it) for it in self.literals]
        holds = True if self.whole is None else is_true(bounds, self.whole)
        if True in known:
            if holds is False:
                raise Conflict
            if holds is None and self.whole is not None:
                make_true(bounds, self.whole)
            return
        if holds is False:
            for it in self.literals:
                make_true(bounds, (it[0], not it[1]))
            return
        still_open = [it for it, value in zip(self.literals, known) if value is None]
        if holds and len(still_open) == 1:
            make_true(bounds, still_open[0])
        elif not still_open and holds:
            raise Conflict
        elif not still_open and self.whole is not None:
            make_true(bounds, (self.whole[0], not self.whole[1]))


class Greatest(Propagator):
    """A number is the greatest of some sums, all of which are at most that number."""

    def __init__(self, made: Term, members: Sequence[AtMostZero]):
        self.made, self.members = made, members
        self.size = sum(1 + len(it.terms) for it in members)

    def run(self, bounds: Bounds) -> None:
        most = [-it.least(bounds) for it in self.members]
        self.made.keep_below(bounds, max(most))
        least = self.made.least(bounds)
        can_be = [it for it, high in zip(self.members, most) if high >= least]
        if not can_be:
            raise Conflict
        if len(can_be) == 1:
            member = can_be[0]
            member.narrow(bounds, least)


class Entry(Propagator):
    """A number is what stands at a place of a list of numbers with their own bounds."""

    def __init__(self, made: Number, place: AtMostZero, members: dict[int, tuple[AtMostZero, AtMostZero]]):
        self.made, self.place, self.members = made, place, members
        self.above = AtMostZero([it.negated() for it in place.terms], -place.constant)
        self.size = 2 * len(members)

    def run(self, bounds: Bounds) -> None:
        low, high = self.place.least(bounds), -self.above.least(bounds)
        ends = [
            (below.least(bounds), -above.least(bounds))
            for place, (below, above) in self.members.items()
            if low <= place <= high
        ]
        if not ends:
            raise Conflict
        bounds.at_least(self.made, min(it[0] for it in ends))
        bounds.at_most(self.made, max(it[1] for it in ends))
        self.rule_out(bounds)

    def rule_out(self, bounds: Bounds) -> None:
        """A place that is one variable isn't one whose member lies elsewhere."""
        if len(self.place.terms) != 1 or not isinstance(self.place.terms[0], Term):
            return
        factor, atom = self.place.terms[0]
        for place, (below, above) in self.members.items():
            value, rest = divmod(place - self.place.constant, factor)
            is_out = below.least(bounds) > bounds.high[self.made] or -above.least(bounds) < bounds.low[self.made]
            if is_out and not rest:
                bounds.remove(atom, value)


class Multiple(Propagator):
    """A number is the product of two sums."""

    size = 8

    def __init__(self, made: Number, first: tuple[AtMostZero, AtMostZero], second: tuple[AtMostZero, AtMostZero]):
        self.made, self.first, self.second = made, first, second

    def run(self, bounds: Bounds) -> None:
        ends = [(below.least(bounds), -above.least(bounds)) for below, above in (self.first, self.second)]
        products = [one * other for one in ends[0] for other in ends[1]]
        bounds.at_least(self.made, min(products))
        bounds.at_most(self.made, max(products))
        for side, (low, high) in ((self.first, ends[1]), (self.second, ends[0])):
            if low > 0 and ends[0][0] >= 0 and ends[1][0] >= 0:
                self.divide(bounds, side, low, high)

    def divide(self, bounds: Bounds, side: tuple[AtMostZero, AtMostZero], low: int, high: int) -> None:
        """A factor beside one from low to high, neither of which is negative."""
        below, above = side
        below.narrow(bounds, -(bounds.high[self.made] // low))
        above.narrow(bounds, -(-bounds.low[self.made] // high))


class Differ(Propagator):
    """Sums that differ: so many of them lie in an interval, at most, as it has values."""

    def __init__(self, members: Sequence[tuple[AtMostZero, AtMostZero]]):
        self.members = members
        self.size = 2 * len(members) + len(members) ** 2 // 4

    def run(self, bounds: Bounds) -> None:
        low = [below.least(bounds) for below, _ in self.members]
        high = [-above.least(bounds) for _, above in self.members]
        self.rule_out_fixed(bounds, low, high)
        for at, least in enumerate(self.narrowed(low, high)):
            if least > low[at]:
                above = self.members[at][1]
                above.narrow(bounds, least)
        turned = self.narrowed([-it for it in high], [-it for it in low])
        for at, least in enumerate(turned):
            if -least < high[at]:
                below = self.members[at][0]
                below.narrow(bounds, least)

    def rule_out_fixed(self, bounds: Bounds, low: list[int], high: list[int]) -> None:
        """What one member is no other one is."""
        taken = {value: at for at, value in enumerate(low) if value == high[at]}
        if len(taken) < sum(one == other for one, other in zip(low, high)):
            raise Conflict
        for at, (below, _) in enumerate(self.members):
            if low[at] < high[at] and len(below.terms) == 1 and isinstance(below.terms[0], Term):
                factor, atom = below.terms[0]
                for value in taken:
                    place, rest = divmod(value - below.constant, factor)
                    if low[at] <= value <= high[at] and not rest:
                        bounds.remove(atom, place)

    def narrowed(self, low: list[int], high: list[int]) -> list[int]:
        """Lower bounds: an interval that is full of others has no place for one that begins in
        it."""
        least = [*low]
        by_high = sorted(range(len(low)), key=lambda it: high[it])
        for first in sorted(set(low), reverse=True):
            count = 0
            for at in by_high:
                count += low[at] >= first
                if low[at] >= first and count > high[at] - first + 1:
                    raise Conflict
                if low[at] >= first and count == high[at] - first + 1:
                    self.leave(least, low, high, (first, high[at]))
        return least

    def leave(self, least: list[int], low: list[int], high: list[int], full: tuple[int, int]) -> None:
        """Members that begin in a full interval and may end behind it begin behind it."""
        for at, begin in enumerate(low):
            if full[0] <= begin <= full[1] < high[at]:
                least[at] = max(least[at], full[1] + 1)


class Rows(Propagator):
    """Variables are together those of a row."""

    def __init__(self, atoms: Sequence[Number], rows: Sequence[tuple[int, ...]]):
        self.atoms, self.rows = atoms, rows
        self.columns = [{*it} for it in zip(*rows)]
        self.size = (1 + len(atoms)) * (1 + len(rows))

    def run(self, bounds: Bounds) -> None:
        left, columns = self.rows, self.columns
        allowed = [{it for it in each if bounds.may_be(atom, it)} for atom, each in zip(self.atoms, columns)]
        if allowed != columns:
            left = [row for row in left if all(map(set.__contains__, allowed, row))]
            columns = [{*it} for it in zip(*left)]
        if not left:
            raise Conflict
        for atom, column in zip(self.atoms, columns):
            bounds.at_least(atom, min(column))
            bounds.at_most(atom, max(column))
            if atom in bounds.domains and bounds.high[atom] - bounds.low[atom] < LISTED:
                for value in [*bounds.values(atom)]:
                    if value not in column:
                        bounds.remove(atom, value)


def between(values: Sequence[int], low: int, high: int) -> Sequence[int]:
    """The ascending values from low to high."""
    return values[bisect_left(values, low) : bisect_right(values, high)]
