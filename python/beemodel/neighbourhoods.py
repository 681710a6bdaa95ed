"""Which part of a solution is kept while the rest of it is sought anew.

A text of a model tells which names stand together in a statement, and which of the layer's own
names tells a relation of two integers, as which of two tasks comes first. A neighbourhood is a set
of names that are free: at random, near each other in the statements, or by values that are close.
In the others either the values are kept, or only such relations, so that a whole plan can move.
"""
from __future__ import annotations

import random
import re
from collections.abc import Callable, Sequence
from typing import NamedTuple, Optional

from .answers import Values
from .texts import DECLARATION, declarations, fixing, goal_of
from .windows import Ends, Windows

NAME = re.compile(r"[A-Za-z_]\w*")

# A statement with more names of the script says little of which belong together.
MOST = 24

Names = frozenset[str]


class Kind(NamedTuple):
    """How the free names are chosen, and whether relations are kept in place of values."""

    choice: str
    keeps_relations: bool


CHOICES = ("near", "close", "random")


class Structure:
    """The names of a text and what they have to do with each other."""

    def __init__(self, text: str):
        self.lines = text.splitlines()
        self.domains = declarations(text)
        self.goal = goal_of(text)
        self.places = {
            next(it for it in found.groups() if it and not re.match(r"[-\d]", it)): at
            for at, line in enumerate(self.lines)
            if (found := DECLARATION.match(line))
        }
        sought = {*self.goal.names}
        self.own = [it for it in self.domains if it[0] != "_" and it not in sought]
        self.integers = {it for it in self.own if self.domains[it] is not bool}
        self.roots: dict[str, Names] = {it: frozenset((it,)) for it in self.own}
        self.groups: list[Names] = []
        self.groups_of: dict[str, list[int]] = {it: [] for it in self.own}
        self.find_roots()
        self.relations = self.find_relations()
        self.windows = Windows(self.lines, self.domains)

    def statements(self) -> list[list[str]]:
        """The names of each statement."""
        kept = (it for it in self.lines[:-1] if not it.startswith(("new_", "bool2int")))
        return [[name for name in NAME.findall(it[it.index("(") :])] for it in kept]

    def find_roots(self) -> None:
        """Which names of the script each name is made of, where they are few, and which of them
        stand in a statement together."""
        each = self.statements()
        known: set[Names] = set()
        for turn in range(3):
            for names in each:
                told = [self.roots[it] for it in names if it in self.roots]
                roots = frozenset().union(*told[: MOST + 1])
                if not roots or len(roots) > MOST:
                    continue
                for it in names:
                    if it in self.domains and it not in self.roots and it not in self.goal.names:
                        self.roots[it] = roots
                if turn == 2 and len(roots) > 1 and roots not in known:
                    known.add(roots)
                    self.groups.append(roots)
        for at, group in enumerate(self.groups):
            for it in group:
                self.groups_of[it].append(at)

    def find_relations(self) -> dict[str, Names]:
        """The Booleans that tell how two integers or more stand to each other, with these; and
        Booleans of the script that imply one of them."""
        found = {}
        for name, domain in self.domains.items():
            roots = self.roots.get(name, frozenset()) & self.integers
            if domain is bool and len(roots) > 1:
                found[name] = roots
        for names in self.statements():
            together = [it for it in names if it in found]
            if 1 < len(names) < 4 and together:
                for it in names:
                    if it in self.roots and it not in self.integers and it not in found:
                        found[it] = found[together[0]]
        return found

    def kinds(self) -> list[Kind]:
        """The kinds of neighbourhoods that there are."""
        ways = (True, False) if self.relations else (False,)
        return [Kind(choice, way) for way in ways for choice in CHOICES]

    # Which names are free.

    def free(self, kind: Kind, count: int, values: Values, chance: random.Random) -> set[str]:
        """So many free names."""
        names = [it for it in self.own if it in self.integers] if kind.keeps_relations else self.own
        if count >= len(names):
            return set(names)
        chosen: Callable[..., set[str]] = getattr(self, f"free_{kind.choice}")
        return chosen(names, count, values, chance)

    def free_random(
        self, names: Sequence[str], count: int, values: Values, chance: random.Random
    ) -> set[str]:
        """Names at random."""
        return set(chance.sample(names, count))

    def free_close(
        self, names: Sequence[str], count: int, values: Values, chance: random.Random
    ) -> set[str]:
        """Names whose values are closest to that of one at random; others of one value at random."""
        middle = int(values[chance.choice(names)])
        far = {it: (abs(int(values[it]) - middle), chance.random()) for it in names}
        return set(sorted(names, key=far.__getitem__)[:count])

    def free_near(
        self, names: Sequence[str], count: int, values: Values, chance: random.Random
    ) -> set[str]:
        """Names that stand in statements together, from one at random on."""
        allowed, listed = set(names), [chance.choice(names)]
        found = set(listed)
        for _ in range(20 * count):
            if len(found) >= count:
                return found
            groups = self.groups_of[chance.choice(listed)]
            group = self.groups[chance.choice(groups)] if groups else frozenset()
            more = sorted((group & allowed) - found)
            chance.shuffle(more)
            listed += more[: count - len(found)]
            found.update(more[: count - len(found)])
        rest = sorted(allowed - found)
        return found | set(chance.sample(rest, min(len(rest), count - len(found))))

    # The text in which the rest is kept.

    def kept(self, kind: Kind, free: set[str], values: Values) -> Values:
        """The values that are kept."""
        names = [it for it in self.own if it not in free]
        if kind.keeps_relations:
            names = [it for it in names if it not in self.integers and it not in self.relations]
            names += [it for it, roots in self.relations.items() if not roots & free]
        return {it: values[it] for it in names}

    def text(self, kept: Values, better: Ends, goal: str) -> Optional[str]:
        """The text in which values are kept, some names lie between ends, and the goal is another
        one; none where its linear statements can't hold."""
        bounds = self.windows.narrowed(kept, better)
        if bounds is None:
            return None
        lines = self.lines[:-1]
        for name, at in self.places.items():
            if name in bounds and lines[at].startswith("new_int"):
                lines[at] = self.declaration(name, *bounds[name])
        lines += [fixing(*it) for it in kept.items() if isinstance(it[1], bool)]
        for name, (low, high) in better.items():
            if not lines[self.places[name]].startswith("new_int"):
                lines += [f"int_geq({name},{low})", f"int_leq({name},{high})"]
        return "\n".join([*lines, goal]) + "\n"

    def declaration(self, name: str, low: int, high: int) -> str:
        """The declaration of an integer between two bounds."""
        domain = self.domains[name]
        if isinstance(domain, range) and domain.step == 1:
            return f"new_int({name},{low},{high})"
        assert not isinstance(domain, type)
        values = [str(it) for it in domain if low <= it <= high]
        return f"new_int({name},[{','.join(values)}])" if values else self.lines[self.places[name]]
