"""Tasks as intervals: a start, a duration, and whether a task is done at all."""
from __future__ import annotations

from typing import TYPE_CHECKING, NamedTuple, Optional

from .bounds import Bounds
from .expressions import Number, NumberLike, Truth, TruthLike, flatten, number_of, truth_of
from .lines import refused
from .propagators import Literal, is_true

if TYPE_CHECKING:
    from .presolve import Presolve
    from .translation import Translation


class Interval:
    """A task that begins at a start and takes a duration; where it has a truth it is done only if
    that holds."""

    def __init__(self, start: Number, duration: Number, present: Optional[Truth] = None):
        self.start, self.duration, self.present = start, duration, present
        self.end = start + duration

    def __repr__(self) -> str:
        return f"interval({self.start}, {self.duration})"

    def key(self) -> tuple[object, ...]:
        """What tells it from other intervals: intervals of the same parts are one."""
        atoms, constant = flatten(self.duration)
        return self.start, constant if not atoms else self.duration, self.present

    def is_done(self, values: dict[str, int | bool]) -> bool:
        """Whether the task is done where the variables have these values."""
        return self.present is None or self.present.holds(values)


def interval(start: NumberLike, duration: NumberLike, present: Optional[TruthLike] = None) -> Interval:
    """A task from a start on, as long as its duration; one with a truth is optional, and done where
    that holds."""
    length = number_of(duration)
    atoms, constant = flatten(length)
    if not atoms and constant < 0:
        raise refused(f"interval: the duration {constant} is negative")
    return Interval(number_of(start), length, None if present is None else truth_of(present))


class Span(NamedTuple):
    """From when on a task can begin, until when it has ended, and how long it takes at least."""

    first: int
    last: int
    duration: int

    def turned(self) -> Span:
        """The same with time running backwards."""
        return Span(-self.last, -self.first, self.duration)

    @property
    def latest(self) -> int:
        """When it begins at the latest."""
        return self.last - self.duration


class Watched:
    """An interval as propagators see it."""

    def __init__(self, task: Interval, presolve: Presolve):
        self.start, self.end = presolve.sides(task.start), presolve.sides(task.end)
        self.duration = presolve.sides(task.duration)[0]
        self.present: Optional[Literal] = None if task.present is None else presolve.literal(task.present)
        self.about = presolve.watched(self.start[0], self.duration)
        self.shift = self.start[0].constant
        self.atom = self.start[0].variable() if not self.duration.terms else None
        self.about += [self.present[0]] if self.present else []

    def is_done(self, bounds: Bounds) -> bool:
        """Whether it is sure that the task is done."""
        return self.present is None or is_true(bounds, self.present) is True

    def span(self, bounds: Bounds) -> Span:
        """The times between which the task is done."""
        if self.atom is not None:
            length = max(0, self.duration.constant)
            end = bounds.high[self.atom] + self.shift + self.duration.constant
            return Span(bounds.low[self.atom] + self.shift, end, length)
        first, last = self.start[0].least(bounds), -self.end[1].least(bounds)
        return Span(first, last, max(0, self.duration.least(bounds)))

    def begin_from(self, bounds: Bounds, time: int) -> None:
        """The task begins at a time or later."""
        if self.atom is not None:
            bounds.at_least(self.atom, time - self.shift)
            return
        self.start[1].narrow(bounds, time)

    def end_by(self, bounds: Bounds, time: int) -> None:
        """The task has ended at a time."""
        if self.atom is not None:
            bounds.at_most(self.atom, time - self.duration.constant - self.shift)
            return
        self.end[0].narrow(bounds, -time)
