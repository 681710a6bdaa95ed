"""What of a plan is shown: bars of tasks in rows, or a grid, as values of an answer."""
from __future__ import annotations

from collections.abc import Iterable, Mapping, Sequence
from typing import TYPE_CHECKING, Any, NamedTuple, Optional, Union

from .answers import Values, read
from .expressions import Number, Truth

if TYPE_CHECKING:
    from .answers import Answer


class Bar(NamedTuple):
    """A task: its name, when it starts, and when it has ended."""

    name: str
    start: int
    end: int


class Row(NamedTuple):
    """A row of a Gantt chart: its name, and its bars in lanes, in each of which none overlap."""

    name: str
    lanes: list[list[Bar]]


class Gantt(NamedTuple):
    """A Gantt chart."""

    rows: list[Row]

    def bars(self) -> list[Bar]:
        """All bars."""
        return [bar for row in self.rows for lane in row.lanes for bar in lane]

    def span(self) -> tuple[int, int]:
        """From the first start, or 0 where that is not below it, to the last end."""
        bars = self.bars()
        first = min((it.start for it in bars), default=0)
        return min(0, first), max([first + 1, *(it.end for it in bars)])


class Grid(NamedTuple):
    """Cells by row and column; each is a text, or whether it is true."""

    rows: list[str]
    columns: list[str]
    cells: dict[tuple[str, str], Union[str, bool]]


Plan = Union[Gantt, Grid]


def plan_of(answer: Answer, plan: Any = None) -> Optional[Plan]:
    """What is to be shown, or the tasks of the model's resources; none where there is neither."""
    values = answer.known_values()
    if plan is None:
        tasks = {} if answer.model is None else resources(answer.model.constraints)
        return gantt(tasks, values) if tasks else None
    if isinstance(plan, Mapping):
        first = next(iter(plan), None)
        parts = plan.values()
        if isinstance(first, tuple):
            return grid(plan, values)
        if all(isinstance(it, Mapping) for it in parts):
            return grid({(row, it): cells[it] for row, cells in plan.items() for it in cells}, values)
        if all(isinstance(it, Sequence) and all(map(is_task, it)) for it in parts):
            return gantt(plan, values)
        if all(map(is_task, parts)):
            return gantt({str(name): [it] for name, it in plan.items()}, values)
        return grid({(name, "value"): it for name, it in plan.items()}, values)
    listed = list(plan)
    if all(map(is_task, listed)):
        return gantt({name_of(it): [it] for it in listed}, values)
    cells = {(at, place): it for at, row in enumerate(listed) for place, it in enumerate(row)}
    return grid(cells, values)


# Gantt charts.


def is_task(it: Any) -> bool:
    """Whether it has a start and a duration, or is a tuple of a name, a start and a duration."""
    return hasattr(it, "start") and hasattr(it, "duration") or isinstance(it, tuple) and len(it) == 3


def name_of(task: Any) -> str:
    """The name of a task: its own one, or that of its start."""
    if isinstance(task, tuple) and not hasattr(task, "start"):
        return str(task[0])
    return str(getattr(task, "name", None) or task.start)


def number(of: Any, values: Values) -> int:
    """The value of an expression or a number."""
    return int(read(values, of)) if isinstance(of, (Number, str)) else int(of)


def bar(task: Any, values: Values) -> Optional[Bar]:
    """The bar of a task; none of a task that is not done."""
    present = getattr(task, "present", None)
    if present is not None and not number(present, values):
        return None
    is_tuple = isinstance(task, tuple) and not hasattr(task, "start")
    begin, length = task[1:] if is_tuple else (task.start, task.duration)
    start = number(begin, values)
    return Bar(name_of(task), start, start + number(length, values))


def lanes(bars: Iterable[Bar]) -> list[list[Bar]]:
    """The bars by their start, each in the first lane that is free then."""
    made: list[list[Bar]] = []
    for it in sorted(bars, key=lambda it: (it.start, it.end)):
        free = next((lane for lane in made if lane[-1].end <= it.start), None)
        if free is None:
            made.append([it])
        else:
            free.append(it)
    return made or [[]]


def gantt(tasks: Mapping[str, Iterable[Any]], values: Values) -> Gantt:
    """The chart of tasks by the names of their rows."""
    rows = []
    for name, each in tasks.items():
        bars = (bar(it, values) for it in each)
        rows.append(Row(str(name), lanes(it for it in bars if it is not None)))
    return Gantt(rows)


def resources(constraints: Iterable[Any]) -> dict[str, list[Any]]:
    """The tasks of each constraint that has some, under its name or its number."""
    found: dict[str, list[Any]] = {}
    for it in constraints:
        truth = it.truth
        tasks = getattr(truth, "tasks", None)
        if tasks is None and hasattr(truth, "starts") and hasattr(truth, "durations"):
            each = zip(truth.starts, truth.durations)
            tasks = [(str(start), start, duration) for start, duration in each]
        if tasks and all(map(is_task, tasks)):
            name = getattr(it, "name", None) or f"resource {len(found) + 1}"
            found[name] = list(tasks)
    return found


# Grids.


def cell(of: Any, values: Values) -> Union[str, bool]:
    """What a cell shows: the value of an expression, or the text that stands there."""
    if isinstance(of, Truth):
        return bool(of.holds(values))
    if isinstance(of, Number):
        return str(of.value(values))
    return of if isinstance(of, bool) else str(of)


def grid(cells: Mapping[Any, Any], values: Values) -> Grid:
    """The grid of cells by row and column: the first part of a key, and what stands behind it."""
    made = {
        (str(row), " ".join(map(str, rest))): cell(it, values) for (row, *rest), it in cells.items()
    }
    rows, columns = (list(dict.fromkeys(key[at] for key in made)) for at in (0, 1))
    return Grid(rows, columns, made)
