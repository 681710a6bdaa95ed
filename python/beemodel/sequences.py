"""Lists in which the order matters: windows, runs, precedence of values, automata."""
from __future__ import annotations

from collections.abc import Hashable, Iterable, Mapping, Sequence
from itertools import pairwise
from typing import TYPE_CHECKING, Optional

from .bounds import Bounds, Propagator
from .composed import Composed
from .expressions import (
    IntegerVariable,
    Number,
    NumberLike,
    Truth,
    TruthLike,
    all_of,
    number_of,
    total,
    truth_of,
    whole,
)
from .linear import Term, equality, say_linear, values_of
from .lines import refused

if TYPE_CHECKING:
    from .presolve import Presolve
    from .translation import Integer, Translation


def increasing(numbers: Iterable[NumberLike], strictly: bool = False) -> Truth:
    """Each of the list is at most the next one, or less than it."""
    each = [number_of(it) for it in numbers]
    return all_of(one < other if strictly else one <= other for one, other in pairwise(each))


def sliding_sum(low: int, high: int, window: int, numbers: Iterable[NumberLike]) -> Truth:
    """Of each so many in a row the sum lies from low to high."""
    each = [number_of(it) for it in numbers]
    sums = [total(each[at : at + window]) for at in range(len(each) - window + 1)]
    return Composed("sliding_sum", [part for it in sums for part in (it >= low, it <= high)])


class Running(Truth):
    """At most so many of each so many in a row are true, and so many of all: by counts of the first
    ones, each of which is an integer."""

    def __init__(self, most: int, window: int, truths: Sequence[Truth], whole_count: int):
        self.most, self.window, self.truths, self.whole_count = most, window, truths, whole_count

    def __str__(self) -> str:
        return f"sequence of {self.most} in {self.window}"

    def greatest(self, length: int) -> int:
        """How many of so many in a row can be true."""
        return length // self.window * self.most + min(length % self.window, self.most)

    def holds(self, values: dict[str, int | bool]) -> bool:
        each = [it.holds(values) for it in self.truths]
        windows = (each[at : at + self.window] for at in range(len(each) - self.window + 1))
        return sum(each) == self.whole_count and all(sum(it) <= self.most for it in windows)

    def literal(self, translation: Translation) -> str:
        raise translation.fault("sequence with a number of all stands alone")

    def counts(self, translation: Translation) -> list[Integer]:
        """How many of the first ones are true, with values that leave enough to the rest."""
        size, made = len(self.truths), []
        for at in range(size + 1):
            low = max(0, self.whole_count - self.greatest(size - at))
            high = min(self.greatest(at), self.whole_count)
            domain = range(low, high + 1) if at else range(0, min(0, -low) + 1)
            made.append(translation.fresh_integer(domain))
        return made

    def post(self, translation: Translation) -> None:
        counts = self.counts(translation)
        for at, it in enumerate(self.truths):
            more = Term(1, translation.literal(it))
            say_linear(translation, "eq", [Term(1, counts[at]), more], counts[at + 1])
        for before, behind in zip(counts, counts[self.window :]):
            say_linear(translation, "leq", [Term(1, behind), Term(-1, before)], self.most)

    def presolve(self, presolve: Presolve) -> None:
        presolve.relate(total(self.truths) - self.whole_count, "eq")
        for at in range(len(self.truths) - self.window + 1):
            presolve.relate(total(self.truths[at : at + self.window]) - self.most, "leq")


def sequence(most: int, window: int, truths: Iterable[TruthLike], total_of: Optional[int] = None) -> Truth:
    """At most so many of each so many in a row are true; with `total_of`, so many of all are."""
    each = [truth_of(it) for it in truths]
    if window < 1 or most < 0:
        raise refused(f"sequence: at most {most} of {window} in a row")
    if total_of is None:
        return sliding_sum(0, most, window, each) if window <= len(each) else total(each) <= most
    return Running(most, window, each, whole(total_of, "the number of all"))


class Precede(Propagator):
    """Values that come in an order: none is there before those before it may have been."""

    def __init__(self, atoms: Sequence[Number], values: Sequence[int]):
        self.atoms, self.values = atoms, values
        self.size = len(atoms) * (1 + len(values))

    def run(self, bounds: Bounds) -> None:
        most = -1
        for atom in self.atoms:
            low, high, holes = bounds.low[atom], bounds.high[atom], bounds.holes.get(atom, ())
            left = [at for at, it in enumerate(self.values) if low <= it <= high and it not in holes]
            for at in left:
                if at > most + 1:
                    bounds.remove(atom, self.values[at])
            most = max(most, *(at for at in left if at <= most + 1), -1)


class ValuePrecede(Truth):
    """Each of some values stands in the list only behind the value before it."""

    def __init__(self, numbers: Sequence[Number], values: Sequence[int]):
        self.numbers, self.values = numbers, values

    def __str__(self) -> str:
        return f"value_precede of {', '.join(str(it) for it in self.numbers[:4])}"

    def holds(self, values: dict[str, int | bool]) -> bool:
        place, reached = {value: at for at, value in enumerate(self.values)}, -1
        for it in self.numbers:
            at = place.get(it.value(values), -1)
            if at > reached + 1:
                return False
            reached = max(reached, at)
        return True

    def literal(self, translation: Translation) -> str:
        parts = self.links(translation)
        return translation.conjunction([translation.disjunction(it) for it in parts])

    def post(self, translation: Translation) -> None:
        for it in self.links(translation):
            translation.clause(it)

    def links(self, translation: Translation) -> list[list[str]]:
        """For each value and each place: the value isn't there, or the value before it is at one of
        the places before."""
        made = []
        for before, value in pairwise(self.values):
            seen = "false"
            for number in self.numbers:
                it = equality(translation, number, value)
                made.append([translation.negation(it), seen])
                seen = translation.disjunction([seen, equality(translation, number, before)])
        return made

    def presolve(self, presolve: Presolve) -> None:
        if all(isinstance(it, IntegerVariable) for it in self.numbers):
            presolve.bounds.add(Precede(self.numbers, self.values), *self.numbers)


def value_precede(numbers: Iterable[NumberLike], values: Iterable[int]) -> Truth:
    """Each of the values stands in the list only behind the value before it, as interchangeable
    values do in one of their orders. Weight: 20 for each value and each place."""
    return ValuePrecede([number_of(it) for it in numbers], [whole(it, "a value") for it in values])


State = Hashable
# Where each state leads by each value.
Steps = dict[tuple[State, int], State]


class Regular(Truth):
    """The list leads an automaton from its start to a state that it accepts."""

    def __init__(
        self,
        numbers: Sequence[Number],
        start: State,
        accepting: set[State],
        steps: Mapping[State, Mapping[int, State]],
    ):
        self.numbers, self.start, self.accepting, self.steps = numbers, start, accepting, steps

    def __str__(self) -> str:
        return f"regular of {', '.join(str(it) for it in self.numbers[:4])}"

    def holds(self, values: dict[str, int | bool]) -> bool:
        state = self.start
        for it in self.numbers:
            following = self.steps.get(state, {})
            if it.value(values) not in following:
                return False
            state = following[it.value(values)]
        return state in self.accepting

    def literal(self, translation: Translation) -> str:
        raise translation.fault("regular stands alone, in no other expression")

    def layers(self, translation: Translation) -> list[dict[tuple[State, int], State]]:
        """The steps at each place that lie on a way from the start to an accepted state."""
        reached, layers = {self.start: None}, []
        for it in self.numbers:
            domain = [*values_of(translation, it)]
            steps = {
                (state, value): self.steps[state][value]
                for state in reached
                for value in domain
                if value in self.steps.get(state, {})
            }
            layers.append(steps)
            reached = dict.fromkeys(steps.values())
        useful = self.accepting
        for at in reversed(range(len(layers))):
            layers[at] = {key: to for key, to in layers[at].items() if to in useful}
            useful = {state for state, _ in layers[at]}
        return layers

    def post(self, translation: Translation) -> None:
        layers = self.layers(translation)
        if not all(layers) or (not layers and self.start not in self.accepting):
            translation.clause([])
            return
        names = {self.start: "true"}
        for number, steps in zip(self.numbers, layers):
            names = self.post_layer(translation, number, steps, names)

    def post_layer(
        self, translation: Translation, number: Number, steps: Steps, names: dict[State, str]
    ) -> dict[State, str]:
        """Writes the steps at one place from the states before it. The answer is those behind
        it."""
        reached = [*dict.fromkeys(steps.values())]
        behind = {it: "true" if len(reached) == 1 else translation.fresh_boolean() for it in reached}
        sources: dict[State, list[str]] = {}
        for state, to in dict.fromkeys((state, to) for (state, _), to in steps.items()):
            sources.setdefault(to, []).append(names[state])
        for to, before in sources.items():
            translation.clause([translation.negation(behind[to]), *before])
        for value in values_of(translation, number):
            self.post_value(translation, equality(translation, number, value), value, steps, (names, behind))
        return behind

    def post_value(
        self,
        translation: Translation,
        has_it: str,
        value: int,
        steps: Steps,
        names: tuple[dict[State, str], dict[State, str]],
    ) -> None:
        """Writes where the states lead by one value, and that it is one of a state that has it."""
        before, behind = names
        isn_t = translation.negation(has_it)
        for state, name in before.items():
            if (state, value) in steps:
                to = behind[steps[state, value]]
                translation.clause([translation.negation(name), isn_t, to])
            else:
                translation.clause([translation.negation(name), isn_t])
        translation.clause([isn_t, *(before[state] for state, it in steps if it == value)])


def regular(
    numbers: Iterable[NumberLike],
    start: State,
    accepting: Iterable[State],
    steps: Mapping[State, Mapping[int, State]],
) -> Truth:
    """The list leads an automaton from its start to an accepting state; `steps[state][value]` is
    the state behind a value. Weight: 5 for each state and value at each place."""
    return Regular([number_of(it) for it in numbers], start, {*accepting}, steps)
