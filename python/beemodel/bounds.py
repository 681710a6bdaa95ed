"""Bounds of variables and functions, which propagators move until nothing moves any more.

Each propagator watches what it is about, and runs again when a bound of that has moved. Every step
is implied by what the propagators stand for, so it may end at any time: what was found by then
holds. Steps are kept on a trail, so that they can be taken back.
"""
from __future__ import annotations

from bisect import bisect_left, bisect_right
from collections import deque
from collections.abc import Iterator
from typing import Any

from .domains import Domain, domain_of
from .expressions import Number


class Conflict(Exception):
    """Nothing is left that meets the constraints."""


class Propagator:
    """What narrows bounds; `size` is about how many steps a run takes."""

    size = 1
    is_waiting = False

    def run(self, bounds: Bounds) -> None:
        """Narrows the bounds by what this stands for."""
        raise NotImplementedError


class Bounds:
    """The least and the greatest value of each number, values between that are ruled out, and who
    waits for a run."""

    def __init__(self, limit: int):
        self.low: dict[Number, int] = {}
        self.high: dict[Number, int] = {}
        self.domains: dict[Number, Domain] = {}
        self.holes: dict[Number, set[int]] = {}
        self.watching: dict[Number, list[Propagator]] = {}
        self.waiting: deque[Propagator] = deque()
        self.trail: list[tuple[Any, ...]] = []
        self.work, self.limit = 0, limit

    # Who watches what.

    def know(self, atom: Number, low: int, high: int) -> None:
        """Takes in a number that lies between two values."""
        if low > high:
            raise Conflict
        self.low[atom], self.high[atom] = low, high

    def know_domain(self, atom: Number, domain: Domain) -> None:
        """Takes in a variable with its values."""
        self.know(atom, domain[0], domain[-1])
        self.domains[atom] = domain

    def add(self, propagator: Propagator, *watched: Number) -> None:
        """Takes in a propagator and lets it run once."""
        for atom in dict.fromkeys(watched):
            self.watching.setdefault(atom, []).append(propagator)
        self.enqueue(propagator)

    def drop(self, propagator: Propagator, *watched: Number) -> None:
        """Forgets a propagator that waits for no run."""
        for atom in dict.fromkeys(watched):
            self.watching[atom].remove(propagator)

    def enqueue(self, propagator: Propagator) -> None:
        """Lets a propagator wait for a run."""
        if not propagator.is_waiting:
            propagator.is_waiting = True
            self.waiting.append(propagator)

    def wake(self, atom: Number) -> None:
        """Lets those run that watch a number."""
        for it in self.watching.get(atom, ()):
            if not it.is_waiting:
                it.is_waiting = True
                self.waiting.append(it)

    def run(self) -> None:
        """Runs those that wait, until none does or the work is spent."""
        while self.waiting:
            it = self.waiting.popleft()
            it.is_waiting = False
            self.work += it.size
            if self.work <= self.limit:
                it.run(self)

    # Steps.

    def at_least(self, atom: Number, value: int) -> None:
        """The number is a value or more."""
        if value <= self.low[atom]:
            return
        value = self.next_value(atom, value)
        if value > self.high[atom]:
            raise Conflict
        self.trail.append((self.low, atom, self.low[atom]))
        self.low[atom] = value
        self.wake(atom)

    def at_most(self, atom: Number, value: int) -> None:
        """The number is a value or less."""
        if value >= self.high[atom]:
            return
        value = self.value_before(atom, value)
        if value < self.low[atom]:
            raise Conflict
        self.trail.append((self.high, atom, self.high[atom]))
        self.high[atom] = value
        self.wake(atom)

    def fix(self, atom: Number, value: int) -> None:
        """The number is this value."""
        self.at_least(atom, value)
        self.at_most(atom, value)
        if self.low[atom] != value or self.high[atom] != value:
            raise Conflict

    def remove(self, atom: Number, value: int) -> None:
        """The number isn't this value."""
        if value == self.low[atom]:
            self.at_least(atom, value + 1)
        elif value == self.high[atom]:
            self.at_most(atom, value - 1)
        elif atom in self.domains and self.low[atom] < value < self.high[atom]:
            holes = self.holes.setdefault(atom, set())
            if value not in holes:
                holes.add(value)
                self.trail.append((holes, value))
                self.wake(atom)

    def next_value(self, atom: Number, value: int) -> int:
        """The least value that is left from this one on."""
        domain, holes = self.domains.get(atom), self.holes.get(atom, ())
        if domain is None:
            return value
        place = bisect_left(domain, value)
        while place < len(domain) and domain[place] in holes:
            place += 1
        if place == len(domain):
            raise Conflict
        return domain[place]

    def value_before(self, atom: Number, value: int) -> int:
        """The greatest value that is left up to this one."""
        domain, holes = self.domains.get(atom), self.holes.get(atom, ())
        if domain is None:
            return value
        place = bisect_right(domain, value) - 1
        while place >= 0 and domain[place] in holes:
            place -= 1
        if place < 0:
            raise Conflict
        return domain[place]

    def undo(self, mark: int) -> None:
        """Takes back the steps behind a length of the trail."""
        while len(self.trail) > mark:
            step = self.trail.pop()
            if len(step) == 2:
                step[0].discard(step[1])
            else:
                step[0][step[1]] = step[2]
        for it in self.waiting:
            it.is_waiting = False
        self.waiting.clear()

    # What is left.

    def is_fixed(self, atom: Number) -> bool:
        """Whether one value is left."""
        return self.low[atom] == self.high[atom]

    def values(self, atom: Number) -> Iterator[int]:
        """The values that are left, upwards."""
        low, high, holes = self.low[atom], self.high[atom], self.holes.get(atom, ())
        domain = self.domains.get(atom, range(low, high + 1))
        left = domain[bisect_left(domain, low) : bisect_right(domain, high)]
        return (it for it in left if it not in holes) if holes else iter(left)

    def may_be(self, atom: Number, value: int) -> bool:
        """Whether a value of the domain is left."""
        is_within = self.low[atom] <= value <= self.high[atom]
        return is_within and value not in self.holes.get(atom, ())

    def domain(self, atom: Number) -> Domain:
        """The values that are left of a variable."""
        domain = self.domains[atom]
        if not self.holes.get(atom):
            return domain[bisect_left(domain, self.low[atom]) : bisect_right(domain, self.high[atom])]
        return domain_of(self.values(atom))
