"""Numbers that are together those of a row."""
from __future__ import annotations

from collections import Counter
from collections.abc import Iterable, Sequence
from typing import TYPE_CHECKING, Optional

from . import weights
from .expressions import IntegerVariable, Number, NumberLike, Truth, number_of, same_length, whole
from .linear import equality, values_of
from .propagators import Rows

if TYPE_CHECKING:
    from .presolve import Presolve
    from .translation import Translation

# A step from a state by a cell to a state.
Step = tuple[int, str, int]


class Cells(dict[int, str]):
    """Whether a number has a value, each made once."""

    def __init__(self, translation: Translation, number: Number):
        super().__init__()
        self.translation, self.number = translation, number

    def __missing__(self, value: int) -> str:
        self[value] = equality(self.translation, self.number, value)
        return self[value]


class Table(Truth):
    """The numbers of a list are together those of a row."""

    def __init__(self, numbers: Sequence[Number], rows: Sequence[tuple[int, ...]]):
        self.numbers, self.rows = numbers, rows
        self.row_set: Optional[set[tuple[int, ...]]] = None

    def __str__(self) -> str:
        return f"table of {', '.join(str(it) for it in self.numbers[:4])}"

    def holds(self, values: dict[str, int | bool]) -> bool:
        if self.row_set is None:
            self.row_set = set(self.rows)
        return tuple(it.value(values) for it in self.numbers) in self.row_set

    def cells(self, translation: Translation) -> list[tuple[str, ...]]:
        """Of each row that the domains allow, for each number whether it is the row's."""
        domains = [set(values_of(translation, it)) for it in self.numbers]
        known = [Cells(translation, number) for number in self.numbers]
        kept = [it for it in dict.fromkeys(self.rows) if all(map(set.__contains__, domains, it))]
        rows = [tuple(cells[value] for cells, value in zip(known, row)) for row in kept]
        return [row for row in rows if "false" not in row]

    def post(self, translation: Translation) -> None:
        rows = self.cells(translation)
        if all(len({*row} - {"true"}) < 2 for row in rows):
            translation.clause([translation.conjunction(row) for row in rows])
            return
        layers = layers_of(rows)
        if 3 * weight_by_ways(layers) < 2 * len(rows) * (2 + 3 * len(layers)):
            Ways(translation).post(layers)
            return
        chosen = [translation.fresh_boolean() for _ in rows]
        translation.clause(chosen)
        for cells in zip(*rows):
            supported(translation, zip(cells, chosen))

    def refuse(self, translation: Translation) -> None:
        for row in self.cells(translation):
            translation.clause([translation.negation(it) for it in row])

    def presolve(self, presolve: Presolve) -> None:
        if all(isinstance(it, IntegerVariable) for it in self.numbers):
            presolve.bounds.add(Rows(self.numbers, self.rows), *self.numbers)

    def literal(self, translation: Translation) -> str:
        rows = [translation.conjunction(row) for row in self.cells(translation)]
        return translation.disjunction(rows)


def supported(translation: Translation, pairs: Iterable[tuple[str, str]]) -> None:
    """A number has a value just where one of that value's rows, or steps, is taken."""
    support: dict[str, list[str]] = {}
    for cell, taken in pairs:
        support.setdefault(cell, []).append(taken)
    support.pop("true", None)
    for cell, each in support.items():
        if each != [cell]:
            translation.is_any_of(cell, each)


def layers_of(rows: Sequence[tuple[str, ...]]) -> list[list[Step]]:
    """The rows as ways through states: beginnings that the same ends may follow lead to one state.
    For each column the steps, from state 0 of the first one on."""
    behind, layers = dict.fromkeys(rows, 0), []
    for _ in rows[0]:
        following: dict[tuple[str, ...], list[tuple[str, int]]] = {}
        for front, state in behind.items():
            following.setdefault(front[:-1], []).append((front[-1], state))
        known: dict[tuple[tuple[str, int], ...], int] = {}
        behind = {
            front: known.setdefault(tuple(sorted(each)), len(known)) for front, each in following.items()
        }
        layers.append([(state, cell, to) for each, state in known.items() for cell, to in each])
    return layers[::-1]


def weight_by_ways(layers: Sequence[Sequence[Step]]) -> int:
    """What ways through states weigh: a Boolean for each state that several steps lead to, and for
    each of several steps from one."""
    weight = len(layers[0]) + 3 * sum(map(len, layers[1:]))
    for at, steps in enumerate(layers[1:]):
        into = Counter(to for _, _, to in layers[at])
        out = Counter(state for state, _, _ in steps)
        weight += sum(1 + weights.conjunction(it) for it in into.values() if it > 1)
        weight += sum(it + weights.conjunction(it) for it in out.values() if it > 1)
    return weight


class Ways:
    """Rows as ways through states, as they are written: a state is reached just where a step to it
    is taken, and just where one from it is; a step that is the only one to, or from, a state is
    that state's Boolean."""

    def __init__(self, translation: Translation):
        self.translation = translation

    def post(self, layers: Sequence[Sequence[Step]]) -> None:
        """Writes that one of the ways is gone."""
        self.translation.clause([cell for _, cell, _ in layers[0]])
        taken = [(to, cell) for _, cell, to in layers[0]]
        for steps in layers[1:]:
            taken = self.post_layer(steps, self.reached(taken))

    def reached(self, taken: Iterable[tuple[int, str]]) -> dict[int, str]:
        """The states by the steps that lead to them."""
        into: dict[int, list[str]] = {}
        for to, step in taken:
            into.setdefault(to, []).append(step)
        return {state: self.of_steps(each) for state, each in into.items()}

    def of_steps(self, steps: list[str]) -> str:
        """The Boolean of a state that is reached just where one of some steps is taken."""
        if len(steps) == 1:
            return steps[0]
        made = self.translation.fresh_boolean()
        self.translation.is_any_of(made, steps)
        return made

    def post_layer(self, steps: Sequence[Step], states: dict[int, str]) -> list[tuple[int, str]]:
        """Writes the steps of a column. The answer is where each leads, and its Boolean."""
        out: dict[int, list[tuple[str, int]]] = {}
        for state, cell, to in steps:
            out.setdefault(state, []).append((cell, to))
        cells, taken = [], []
        for state, each in out.items():
            names = self.steps_from(states[state], len(each))
            cells += [(cell, name) for name, (cell, _) in zip(names, each)]
            taken += [(to, name) for name, (_, to) in zip(names, each)]
        supported(self.translation, cells)
        return taken

    def steps_from(self, state: str, count: int) -> list[str]:
        """The Booleans of so many steps from a state, one of which is taken just where it is
        reached."""
        if count == 1:
            return [state]
        made = [self.translation.fresh_boolean() for _ in range(count)]
        if state == "true":
            self.translation.clause(made)
        else:
            self.translation.is_any_of(state, made)
        return made


def table(numbers: Iterable[NumberLike], rows: Iterable[Sequence[int]]) -> Truth:
    """The numbers of a list are together those of one of the rows; `~table(..)` rules rows out.

    Weight: 3 for each cell, and the values of each member as Booleans; of rows that are ruled out 1
    for each cell.
    """
    members = [number_of(it) for it in numbers]
    taken = [whole_row(it) for it in rows]
    for row in taken:
        same_length("table", members, row)
    return Table(members, taken)


def whole_row(row: Sequence[int]) -> tuple[int, ...]:
    """A row of whole numbers."""
    if {*map(type, row)} == {int}:
        return tuple(row)
    return tuple(whole(cell, "a cell of a table") for cell in row)
