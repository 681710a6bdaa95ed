"""Bounds of the integers of a text by its linear statements, once some names have values.

They only make a text lighter in which a part of a solution is kept: what is found in it is checked
in the whole text.
"""
from __future__ import annotations

import re
from collections import deque
from collections.abc import Iterable, Iterator, Mapping
from typing import NamedTuple, Optional

from .answers import Values
from .texts import Declared

# So many statements at most are looked at before the bounds are taken as they are.
MOST = 200_000

ARGUMENT = re.compile(r"\[[^\]]*\]|[^,\[\]]+")
RELATION = re.compile(r"(int|int_array_lin)_(leq|lt|geq|gt|eq|neq)(_reif)?\((.*)\)")
CONTRARY = {"leq": "gt", "gt": "leq", "lt": "geq", "geq": "lt", "eq": "neq", "neq": "eq"}

Terms = list[tuple[int, str]]
# Names that lie between two numbers.
Ends = dict[str, tuple[int, int]]


class Linear(NamedTuple):
    """A sum that is at most a number, where a literal is true or there is none."""

    terms: Terms
    most: int
    condition: Optional[str] = None


class Extreme(NamedTuple):
    """A name that is the greatest or the least of others."""

    name: str
    parts: list[str]
    is_greatest: bool


def listed(argument: str) -> list[str]:
    """The members of a list."""
    return [it for it in argument[1:-1].split(",") if it]


def at_most(terms: Terms, relation: str, right: int, condition: Optional[str]) -> Iterator[Linear]:
    """A sum that stands in a relation to a number, as sums that are at most one."""
    if relation in ("leq", "lt", "eq"):
        yield Linear(terms, right - (relation == "lt"), condition)
    if relation in ("geq", "gt", "eq"):
        yield Linear([(-factor, it) for factor, it in terms], -right - (relation == "gt"), condition)


def compared(found: re.Match[str]) -> Iterator[Linear]:
    """What a statement of a relation says."""
    kind, relation, is_truth, inner = found.groups()
    parts = ARGUMENT.findall(inner)
    truth = parts.pop() if is_truth else None
    if kind == "int":
        terms = [(1, parts[0]), (-1, parts[1])]
    else:
        factors, names, right = parts
        terms = [*zip(map(int, listed(factors)), listed(names)), (-1, right)]
    constant = sum(factor * int(it) for factor, it in terms if is_numeral(it))
    named = [(factor, it) for factor, it in terms if not is_numeral(it)]
    yield from at_most(named, relation, -constant, truth)
    if truth is not None:
        yield from at_most(named, CONTRARY[relation], -constant, negation(truth))


def is_numeral(it: str) -> bool:
    """Whether a term is a numeral."""
    return it.lstrip("-").isdigit()


def negation(literal: str) -> str:
    """The other literal of a Boolean."""
    return literal[1:] if literal[0] == "-" else f"-{literal}"


class Windows:
    """The linear statements of a text, and the bounds that follow from them."""

    def __init__(self, lines: Iterable[str], domains: Mapping[str, Declared]):
        self.linear: list[Linear] = []
        self.extremes: list[Extreme] = []
        for line in lines:
            self.read(line)
        self.bounds = {
            it: (domain[0], domain[-1]) for it, domain in domains.items() if not isinstance(domain, type)
        }
        self.places: dict[str, list[int]] = {it: [] for it in self.bounds}
        for at, it in enumerate(self.linear):
            for _, name in it.terms:
                if name in self.places:
                    self.places[name].append(at)

    def read(self, line: str) -> None:
        """Takes an item of the text."""
        if found := RELATION.fullmatch(line):
            self.linear += compared(found)
        elif line.startswith("int_plus("):
            parts = ARGUMENT.findall(line[9:-1])
            if not any(map(is_numeral, parts)):
                self.linear += at_most([*zip((1, 1, -1), parts)], "eq", 0, None)
        elif line.startswith(("int_array_max(", "int_array_min(")):
            names, name = ARGUMENT.findall(line[14:-1])
            parts, is_greatest = listed(names), line[10:13] == "max"
            if not any(map(is_numeral, [*parts, name])):
                sign = 1 if is_greatest else -1
                self.linear += [Linear([(sign, it), (-sign, name)], 0) for it in parts]
                self.extremes.append(Extreme(name, parts, is_greatest))

    def narrowed(self, values: Values, ends: Ends) -> Optional[Ends]:
        """The bounds where some names have values or ends; none where they can't have them."""
        bounds = {**self.bounds, **ends}
        true = {it if value else f"-{it}" for it, value in values.items() if isinstance(value, bool)}
        for name, value in values.items():
            if name in bounds:
                bounds[name] = value, value
        holds = [it.condition is None or it.condition in true for it in self.linear]
        waiting = deque(at for at, it in enumerate(holds) if it)
        queued = [*holds]
        for _ in range(MOST):
            if not waiting:
                if not self.settle(bounds, holds, waiting, queued):
                    break
                continue
            at = waiting.popleft()
            queued[at] = False
            changed = narrow(self.linear[at], bounds)
            if changed is None:
                return None
            self.wake(changed, holds, waiting, queued)
        return bounds if all(low <= high for low, high in bounds.values()) else None

    def wake(
        self, names: Iterable[str], holds: list[bool], waiting: deque[int], queued: list[bool]
    ) -> None:
        """Has the statements looked at again in which names stand."""
        for name in names:
            for at in self.places[name]:
                if holds[at] and not queued[at]:
                    queued[at] = True
                    waiting.append(at)

    def settle(
        self,
        bounds: Ends,
        holds: list[bool],
        waiting: deque[int],
        queued: list[bool],
    ) -> bool:
        """Bounds greatest and least ones by their parts. The answer is whether a bound changed."""
        changed = []
        for it in self.extremes:
            low, high = bounds[it.name]
            if it.is_greatest:
                made = low, min(high, max(bounds[part][1] for part in it.parts))
            else:
                made = max(low, min(bounds[part][0] for part in it.parts)), high
            if made != (low, high):
                bounds[it.name] = made
                changed.append(it.name)
        self.wake(changed, holds, waiting, queued)
        return bool(waiting)


def narrow(it: Linear, bounds: Ends) -> Optional[list[str]]:
    """Narrows the names of a statement. The answer is which were; none where it can't hold."""
    slack, changed = it.most, []
    for factor, name in it.terms:
        low, high = bounds[name]
        slack -= factor * (low if factor > 0 else high)
    if slack < 0:
        return None
    for factor, name in it.terms:
        low, high = bounds[name]
        if factor > 0 and low + slack // factor < high:
            bounds[name] = low, low + slack // factor
            changed.append(name)
        elif factor < 0 and high - slack // -factor > low:
            bounds[name] = high - slack // -factor, high
            changed.append(name)
    return changed
