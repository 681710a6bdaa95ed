"""Where a cube is split: look-ahead by unit propagation, over literals of the model's names."""
from __future__ import annotations

import time
from collections.abc import Iterable
from itertools import islice
from typing import NamedTuple, Optional

from .clauses import Compiled

# So many literals of integers, and as many of Booleans, are tried; none more behind so many seconds.
TRIED, SECONDS = 8, 0.3


class Choice(NamedTuple):
    """A literal that splits a cube, and whether unit propagation refutes it, and its negation."""

    literal: int
    is_refuted: tuple[bool, bool]


class Propagator:
    """Unit propagation over clauses: two watched literals in each long one, and a list of what each literal implies
    by those of two. Lists are read by literals, so that negative ones count from the end."""

    def __init__(self, variables: int, clauses: Iterable[list[int]]):
        size = 2 * variables + 1
        self.value = [0] * size
        self.implied: list[list[int]] = [[] for _ in range(size)]
        self.watching: list[list[list[int]]] = [[] for _ in range(size)]
        self.trail: list[int] = []
        units = []
        self.is_open = True
        for clause in clauses:
            self.is_open &= bool(clause)
            if len(clause) == 1:
                units += clause
            elif len(clause) == 2:
                self.implied[-clause[0]].append(clause[1])
                self.implied[-clause[1]].append(clause[0])
            elif clause:
                for it in clause[:2]:
                    self.watching[it].append(clause)
        self.is_open = self.is_open and self.assume(units)

    def assume(self, literals: Iterable[int]) -> bool:
        """Makes literals true and all that they imply. The answer is whether no clause is false."""
        at = len(self.trail)
        if not all([self.set(it) for it in literals]):
            return False
        while at < len(self.trail):
            literal = self.trail[at]
            at += 1
            if not all([self.set(it) for it in self.implied[literal]]) or not self.visit(-literal):
                return False
        return True

    def set(self, literal: int) -> bool:
        """Makes a literal true, unless it has a value. The answer is whether it is true."""
        if not self.value[literal]:
            self.value[literal], self.value[-literal] = 1, -1
            self.trail.append(literal)
        return self.value[literal] > 0

    def visit(self, literal: int) -> bool:
        """Looks at the clauses that watch a literal, now that it is false."""
        value, clauses = self.value, self.watching[literal]
        kept = self.watching[literal] = []
        for at, clause in enumerate(clauses):
            if clause[0] == literal:
                clause[0], clause[1] = clause[1], literal
            place = 0
            if value[clause[0]] <= 0:
                place = next((k for k in range(2, len(clause)) if value[clause[k]] >= 0), 0)
            if place:
                clause[1], clause[place] = clause[place], literal
                self.watching[clause[1]].append(clause)
                continue
            kept.append(clause)
            if not self.set(clause[0]):
                kept += clauses[at + 1 :]
                return False
        return True

    def undo(self, length: int) -> None:
        """Takes back what became true behind so many literals."""
        for it in self.trail[length:]:
            self.value[it] = self.value[-it] = 0
        del self.trail[length:]

    def probe(self, literal: int) -> Optional[int]:
        """How many literals one makes true, or nothing where it makes a clause false."""
        length = len(self.trail)
        is_open = self.assume([literal])
        gained = len(self.trail) - length
        self.undo(length)
        return gained if is_open else None


class LookAhead:
    """Splits cubes of the clauses of a model."""

    def __init__(self, compiled: Compiled):
        self.count = [0] * (compiled.variables + 1)
        for clause in compiled.clauses:
            for it in clause:
                self.count[abs(it)] += 1
        names = {abs(it) for it in compiled.booleans.values()}
        self.booleans = sorted(names, key=lambda it: -self.count[it])
        self.steps = list({it.steps: [s for s, _ in it.steps] for it in compiled.integers.values()}.values())
        self.propagator = Propagator(compiled.variables, [list(it) for it in compiled.clauses])
        self.root = len(self.propagator.trail)

    def take_bound(self, literal: int) -> bool:
        """Assumes a bound from here on. The answer is whether unit propagation leaves anything that meets it."""
        self.propagator.undo(self.root)
        self.propagator.is_open = self.propagator.is_open and self.propagator.assume([literal])
        self.root = len(self.propagator.trail)
        return self.propagator.is_open

    def enter(self, cube: Iterable[int]) -> Optional[int]:
        """Assumes a cube in place of the one before. The answer is how many variables have no value, or nothing where
        unit propagation refutes the cube."""
        self.propagator.undo(self.root)
        if not (self.propagator.is_open and self.propagator.assume(cube)):
            return None
        return len(self.count) - 1 - len(self.propagator.trail)

    def choose(self, cube: Iterable[int]) -> Optional[Choice]:
        """The literal whose sides become shortest. There is none where unit propagation refutes the cube, or every
        variable has a value."""
        if self.enter(cube) is None:
            return None
        best, found, end = -1, None, time.monotonic() + SECONDS
        for literal in self.candidates():
            one, other = self.propagator.probe(literal), self.propagator.probe(-literal)
            if one is None or other is None:
                return Choice(literal, (one is None, other is None))
            if one * other > best:
                best, found = one * other, Choice(literal, (False, False))
            if time.monotonic() > end:
                break
        return found

    def candidates(self) -> list[int]:
        """Literals that are tried: the middle steps of the widest integers, and the Booleans that occur most; where no
        name is open, the variable that occurs most."""
        value = self.propagator.value
        middles = []
        for steps in self.steps:
            still_open = [it for it in steps if not value[it]]
            if still_open:
                middle = still_open[len(still_open) // 2]
                middles.append((-len(still_open) * self.count[abs(middle)], middle))
        found = [middle for _, middle in sorted(middles)[:TRIED]]
        found += list(islice((it for it in self.booleans if not value[it]), TRIED))
        if not found:
            rest = [it for it in range(1, len(self.count)) if not value[it]]
            found = sorted(rest, key=lambda it: -self.count[it])[:1]
        return found
