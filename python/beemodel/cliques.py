"""Variables of which each two are stated to differ, found greedily among the pairs that are."""
from __future__ import annotations

from collections.abc import Iterable
from typing import Optional

from .expressions import AllOf, Comparison, IntegerVariable, Truth, flatten, members

Pair = tuple[IntegerVariable, IntegerVariable]


def pair_of(truth: Truth) -> Optional[Pair]:
    """The two variables of which a constraint says that they differ, if it says that."""
    if not isinstance(truth, Comparison) or truth.relation != "neq":
        return None
    atoms, constant = flatten(truth.number)
    if constant or sorted(atoms.values()) not in ([-1, 1], [1, -1]):
        return None
    first, second = atoms
    if isinstance(first, IntegerVariable) and isinstance(second, IntegerVariable):
        return first, second
    return None


def cliques_of(truths: Iterable[Truth]) -> list[list[IntegerVariable]]:
    """From each variable on a list of at least three, of which each two are stated to differ; the
    variables with most pairs are taken first."""
    near: dict[IntegerVariable, dict[IntegerVariable, None]] = {}
    for truth in truths:
        for pair in map(pair_of, members(truth, AllOf)):
            for one, other in (pair, pair[::-1]) if pair else ():
                near.setdefault(one, {})[other] = None
    found: dict[frozenset[int], list[IntegerVariable]] = {}
    for variable in near:
        clique = grown(variable, near)
        if len(clique) > 2:
            found.setdefault(frozenset(map(id, clique)), clique)
    return [*found.values()]


def grown(
    first: IntegerVariable, near: dict[IntegerVariable, dict[IntegerVariable, None]]
) -> list[IntegerVariable]:
    """A clique with a variable, to which those with most pairs are added that differ from all."""
    clique, left = [first], near[first]
    while left:
        best = max(left, key=lambda it: len(near[it]))
        clique.append(best)
        left = {it: None for it in left if it in near[best]}
    return clique
