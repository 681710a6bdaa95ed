"""Tasks one at a time: no two of them overlap."""
from __future__ import annotations

from collections.abc import Iterable, Sequence
from itertools import combinations
from typing import TYPE_CHECKING, Optional

from .bounds import Bounds, Conflict, Propagator
from .expressions import AllOf, AnyOf, Comparison, Truth, flatten, whole
from .intervals import Interval, Span, Watched
from .linear import least_of, literal_of_comparison, stated, tie
from .lines import refused

if TYPE_CHECKING:
    from .presolve import Presolve
    from .translation import Translation

# Of a task when it can begin, how long it takes, when it begins at the latest or has ended, and its
# place.
Part = tuple[int, int, int, int]

# Before all times.
LONG_AGO = -(1 << 62)

# Of more tasks only pairs and windows are looked at.
MANY = 40

Gaps = Optional[Sequence[Sequence[int]]]


class NoOverlap(Truth):
    """Of two tasks one ends before the other one begins, and the set-up time between them lies
    there."""

    def __init__(self, tasks: Sequence[Interval], gaps: Gaps):
        self.tasks, self.gaps = tasks, gaps

    def __str__(self) -> str:
        return f"no_overlap of {', '.join(str(it.start) for it in self.tasks[:4])}"

    def gap(self, one: int, other: int) -> int:
        """The set-up time of a task behind another one."""
        return self.gaps[one][other] if self.gaps else 0

    def orders(self, one: int, other: int) -> tuple[Comparison, Comparison]:
        """That a task ends before another one begins, and the other way about."""
        first, second = self.tasks[one], self.tasks[other]
        return (
            Comparison(first.end + self.gap(one, other) - second.start, "leq"),
            Comparison(second.end + self.gap(other, one) - first.start, "leq"),
        )

    def apart(self, one: int, other: int) -> Truth:
        """That two tasks don't overlap."""
        absent = [~it.present for it in (self.tasks[one], self.tasks[other]) if it.present is not None]
        return AnyOf((*self.orders(one, other), *absent))

    def pairs(self) -> list[tuple[int, int]]:
        """Two tasks at a time."""
        return [*combinations(range(len(self.tasks)), 2)]

    def holds(self, values: dict[str, int | bool]) -> bool:
        return all(self.apart(*it).holds(values) for it in self.pairs())

    def literal(self, translation: Translation) -> str:
        return translation.literal(AllOf(tuple(self.apart(*it) for it in self.pairs())))

    def post(self, translation: Translation) -> None:
        self.post_ends(translation)
        for one, other in self.pairs():
            first, second = self.tasks[one], self.tasks[other]
            key = ("apart", first.key(), second.key(), self.gap(one, other), self.gap(other, one))
            if key not in translation.literals:
                translation.literals[key] = "true"
                self.post_pair(translation, one, other)

    def post_ends(self, translation: Translation) -> None:
        """Makes the integer of each task's end, which all pairs with the task share."""
        for it in self.tasks if self.gaps is None and len(self.tasks) > 2 else ():
            if [*flatten(it.end)[0].values()] == [1]:
                translation.integer(it.end)

    def post_pair(self, translation: Translation, one: int, other: int) -> None:
        """Writes that two tasks don't overlap, by one Boolean where just one order is possible at a
        time."""
        first, second = self.tasks[one], self.tasks[other]
        gaps = self.gap(one, other) + self.gap(other, one)
        is_sure = first.present is None and second.present is None
        lasting = least_of(translation, first.duration) + least_of(translation, second.duration)
        if is_sure and lasting + gaps > 0:
            post_either(translation, *self.orders(one, other))
        else:
            self.apart(one, other).post(translation)

    def presolve(self, presolve: Presolve) -> None:
        tasks = [Watched(it, presolve) for it in self.tasks]
        made = Disjunctive(tasks, self.gaps)
        presolve.bounds.add(made, *(atom for it in tasks for atom in it.about))


def post_either(translation: Translation, first: Comparison, second: Comparison) -> None:
    """Writes that one of two comparisons holds, which never hold both: one Boolean says which."""
    known = [stated(translation, it) for it in (first, second)]
    if known[0] is True or known[1] is True:
        return
    if known[0] is False:
        second.post(translation)
    elif known[1] is False:
        first.post(translation)
    else:
        before = translation.defined(lambda it: literal_of_comparison(it, first))
        tie(translation, second, translation.negation(before))


class Disjunctive(Propagator):
    """What a list of tasks, one at a time, says of their starts and ends."""

    def __init__(self, tasks: Sequence[Watched], gaps: Gaps):
        self.tasks, self.gaps = tasks, gaps
        count = len(tasks)
        self.size = 2 * count * count + (count**3 // 4 if count <= MANY else 0)

    def run(self, bounds: Bounds) -> None:
        done = [at for at, it in enumerate(self.tasks) if it.is_done(bounds)]
        spans = [self.tasks[it].span(bounds) for it in done]
        gaps = [[self.gaps[one][other] for other in done] for one in done] if self.gaps else None
        for at, first in zip(done, earliest(spans, gaps)):
            self.tasks[at].begin_from(bounds, first)
        spans = [self.tasks[it].span(bounds) for it in done]
        turned = [[row[at] for row in gaps] for at in range(len(done))] if gaps else None
        for at, last in zip(done, earliest([it.turned() for it in spans], turned)):
            self.tasks[at].end_by(bounds, -last)


def earliest(spans: Sequence[Span], gaps: Gaps) -> list[int]:
    """When each of some tasks can begin, as they are done one at a time."""
    rising = sorted((it.first, it.duration, it.latest, at) for at, it in enumerate(spans))
    first = [
        max(it.first, after_predecessors(rising, gaps, at, it.first + it.duration))
        for at, it in enumerate(spans)
    ]
    falling = [(begin, duration, begin_by + duration, at) for begin, duration, begin_by, at in rising[::-1]]
    for end in {it.last for it in spans}:
        push_behind(falling, end, first)
    return first


def after_predecessors(rising: Sequence[Part], gaps: Gaps, at: int, done: int) -> int:
    """When those have ended that can't be done behind a task that is done then at the earliest."""
    end = least = LONG_AGO
    for first, duration, latest, other in rising:
        if other == at:
            continue
        if done + (gaps[at][other] if gaps else 0) > latest:
            end = (first if first > end else end) + duration
            least = max(least, first + duration + gaps[other][at]) if gaps else least
    return max(end, least)


def push_behind(falling: Sequence[Part], end: int, first: list[int]) -> None:
    """Those that must have ended by a time fill windows up to it; a task that doesn't fit in before
    they have ended is done behind them."""
    others = [it for it in falling if it[2] > end and it[1]] if len(falling) <= MANY else []
    longest = max((it[1] for it in others), default=0)
    taken, done_by = 0, LONG_AGO
    for begin, duration, last, _ in falling:
        if last > end:
            continue
        taken += duration
        done_by = max(done_by, begin + taken)
        if done_by > end:
            raise Conflict
        for start, length, _, other in others if begin + taken + longest > end else ():
            if min(begin, start) + taken + length > end and first[other] < done_by:
                first[other] = done_by


def no_overlap(tasks: Iterable[Interval], setup: Gaps = None) -> Truth:
    """Of each two tasks one ends before the other one begins; with set-up times the first one and
    `setup[i][j]`, where task i is before task j.

    One Boolean for each pair says which one is first; all that ask for it share it. Weight: 20 for
    each value, for each pair.
    """
    each = [*tasks]
    for it in each:
        if not isinstance(it, Interval):
            raise refused(f"no_overlap: {it} is no interval; write interval(start, duration)")
    gaps = None if setup is None else [[whole(it, "a set-up time") for it in row] for row in setup]
    if gaps is not None and [len(row) for row in gaps] != [len(each)] * len(each):
        raise refused(f"no_overlap: the set-up times are no table of {len(each)} by {len(each)}")
    if gaps is not None and min((it for row in gaps for it in row), default=0) < 0:
        raise refused("no_overlap: a set-up time is negative")
    return NoOverlap(each, gaps)
