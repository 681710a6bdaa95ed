"""Plans in a terminal: a Gantt chart, a grid, or a table of the values."""
from __future__ import annotations

from collections.abc import Sequence
from typing import TYPE_CHECKING, Any

from .plans import Bar, Gantt, Grid, plan_of

if TYPE_CHECKING:
    from .answers import Answer


def shown(answer: Answer, plan: Any = None, width: int = 100) -> str:
    """The verdict and the plan in lines that are at most so wide."""
    if answer.values is None:
        return answer.summary()
    made = plan_of(answer, plan)
    if isinstance(made, Gantt):
        lines = gantt_lines(made, width)
    elif isinstance(made, Grid):
        lines = grid_lines(made)
    else:
        lines = table_lines(answer.shown_values(), width)
    return "\n".join([answer.summary(), *lines])


def step_of(span: int, places: int) -> int:
    """1, 2 or 5 times a power of ten, so that a span has at most so many steps."""
    step = 1
    while span > places * step:
        step *= 2 if str(step)[0] in "15" else 1
        if span > places * step and str(step)[0] == "2":
            step = step * 5 // 2
    return step


def gantt_lines(chart: Gantt, width: int) -> list[str]:
    """A row for each lane, below a line of the times."""
    first, last = chart.span()
    names = [row.name for row in chart.rows]
    margin = min(max(map(len, names), default=0), width // 3)
    room = max(10, width - margin - 1)
    scale = min(room / (last - first), 6.0)
    step = step_of(last - first, max(1, int(scale * (last - first) / 6)))
    times = [" "] * (room + 8)
    for time in range(first - first % -step, last + 1, step):
        at = int((time - first) * scale)
        times[at : at + len(str(time))] = str(time)
    lines = [" " * (margin + 1) + "".join(times).rstrip()]
    for row in chart.rows:
        for number, lane in enumerate(row.lanes):
            name = row.name[:margin] if number == 0 else ""
            lines.append(f"{name:{margin}} {lane_line(lane, first, scale)}".rstrip())
    return lines


def lane_line(lane: Sequence[Bar], first: int, scale: float) -> str:
    """The bars of a lane: `[name===]`, `[]` or `#`."""
    line = ""
    for it in lane:
        at, end = int((it.start - first) * scale), int((it.end - first) * scale)
        length = end - at
        text = f"[{it.name[: length - 2]:=<{max(0, length - 2)}}]" if length > 1 else "#" * length
        line = line.ljust(at) + text
    return line


def grid_lines(grid: Grid) -> list[str]:
    """The grid with its columns' names above; true is `x` and false `.`."""
    texts = {key: {True: "x", False: "."}.get(it, str(it)) if isinstance(it, bool) else it
             for key, it in grid.cells.items()}  # fmt: skip
    margin = max(map(len, grid.rows), default=0)
    wide = {
        column: max(len(column), *(len(texts.get((row, column), "")) for row in grid.rows))
        for column in grid.columns
    }
    lines = [" ".join([" " * margin, *(f"{it:{wide[it]}}" for it in grid.columns)]).rstrip()]
    for row in grid.rows:
        cells = [f"{texts.get((row, it), ''):{wide[it]}}" for it in grid.columns]
        lines.append(" ".join([f"{row:{margin}}", *cells]).rstrip())
    return lines


def table_lines(values: Sequence[tuple[str, str]], width: int) -> list[str]:
    """Names and values in columns, which are read downwards."""
    name = max((len(it) for it, _ in values), default=0)
    value = max((len(it) for _, it in values), default=0)
    count = max(1, (width + 3) // (name + value + 4))
    height = -(-len(values) // count)
    texts = [f"{it:{name}} {told:>{value}}" for it, told in values]
    return ["   ".join(texts[at::height]) for at in range(height)]
