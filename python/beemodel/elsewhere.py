"""Names that other libraries have for what this one has, told where they are looked for."""
from __future__ import annotations

from collections.abc import Iterable
from typing import Optional

# By the name without its case, underscores, and a leading `add` or `new`.
ELSEWHERE = {
    "alldiff": "all_different(xs)",
    "alldistinct": "all_different(xs)",
    "distinct": "all_different(xs)",
    "allowedassignments": "table(xs, rows)",
    "forbiddenassignments": "~table(xs, rows)",
    "automaton": "regular(xs, start, accepting, steps)",
    "disjunctive": "no_overlap(tasks)",
    "intervalvar": "interval(start, duration)",
    "optionalintervalvar": "interval(start, duration, present)",
    "nooverlap2d": "rectangles(xs, ys, widths, heights)",
    "diffn": "rectangles(xs, ys, widths, heights)",
    "nvalue": "number_of_values(xs)",
    "gcc": "global_cardinality(xs, counts)",
    "boolvar": 'model.bool("x")',
    "boolean": 'model.bool("x")',
    "binaryvar": 'model.bool("x")',
    "intvar": 'model.int("x", 1, 5)',
    "integer": 'model.int("x", 1, 5)',
    "variable": 'model.int("x", 1, 5)',
    "intvarfromdomain": 'model.int("x", [1, 4, 9])',
    "boolor": "any_of(truths)",
    "or": "any_of(truths)",
    "booland": "all_of(truths)",
    "and": "all_of(truths)",
    "boolxor": "a ^ b",
    "xor": "a ^ b",
    "not": "~a",
    "implication": "a.implies(b)",
    "implies": "a.implies(b)",
    "onlyenforceif": "a.implies(b)",
    "if": "a.implies(b)",
    "max": "maximum(xs)",
    "maxequality": "maximum(xs)",
    "min": "minimum(xs)",
    "minequality": "minimum(xs)",
    "abs": "abs(x)",
    "absequality": "abs(x)",
    "multiplicationequality": "x * y",
    "divisionequality": "x // y",
    "moduloequality": "x % y",
    "linearexpr": "weighted_sum(factors, xs)",
    "scalprod": "weighted_sum(factors, xs)",
    "weightedsum": "weighted_sum(factors, xs)",
    "sum": "total(xs)",
    "lpsum": "total(xs)",
    "quicksum": "total(xs)",
    "multiplecircuit": "circuit(successors)",
    "hamiltoniancircuit": "circuit(successors)",
    "lexless": "lex_less(xs, ys)",
    "constraint": "model.add(truth)",
    "st": "model.add(truth)",
    "subjectto": "model.add(truth)",
    "hint": "model.solve(start={x: 3})",
    "cpmodel": "Model()",
    "problem": "Model()",
    "lpproblem": "Model()",
    "cpsolver": "model.solve()",
    "solver": "model.solve()",
    "optimize": "model.solve()",
    "check": "model.solve()",
    "objective": "model.minimize(cost)",
    "optional": "model.bool(name) and implies",
}  # fmt: skip


def plain(name: str) -> str:
    """The name without its case, underscores, and a leading `add` or `new`."""
    text = name.replace("_", "").lower()
    text = text.removeprefix("model.")
    return text[3:] if text.startswith(("add", "new")) and len(text) > 3 else text


def hint(name: str, names: Iterable[str]) -> Optional[str]:
    """What is to be written in place of a name that is not there; none where nothing is like it."""
    if name.startswith("__"):
        return None
    own = {plain(it): it for it in names}
    text = plain(name)
    if text in own:
        return own[text]
    if text in ELSEWHERE:
        return ELSEWHERE[text]
    from difflib import get_close_matches

    close = get_close_matches(text, own, 1, 0.75)
    return own[close[0]] if close else None


def told(name: str, instead: Optional[str]) -> str:
    """That there is no such name, and what there is."""
    return f"there is no `{name}`" + (f"; `{instead}`" if instead else "")
