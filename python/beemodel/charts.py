"""Charts as SVG that stands in a page: tasks in rows, grids, and how the best value fell."""
from __future__ import annotations

import re
from collections.abc import Iterable, Sequence
from html import escape

from .answers import Step
from .plans import Bar, Gantt, Grid
from .showing import step_of

# Fill colours on which dark text can be read, told apart by most who see few colours.
COLOURS = (
    "#9ecae9", "#ffbf79", "#88d27a", "#f2cf5b", "#ff9d98", "#83bcb6", "#d6a5c9", "#d8b5a5",
    "#bab0ac", "#b6cf8e", "#c5b0e6", "#f5b3a1",
)  # fmt: skip
WIDTH, LANE, LETTER = 960, 26, 6.6


STYLE = """
svg.chart { display: block; max-width: 100%; height: auto; font: 12px system-ui, "DejaVu Sans", sans-serif }
.chart text { fill: #1c2733 } .chart text.tick { fill: #5d6b78 } .chart text.bar { font-size: 11.5px }
.chart .line { stroke: #e3e8ec } .chart .curve { fill: none; stroke: #2166ac; stroke-width: 2 }
.chart .dot { fill: #2166ac } .chart .bound { stroke: #1a7f4b; stroke-width: 1.5; stroke-dasharray: 5 4 }
table.grid { border-collapse: collapse; font-variant-numeric: tabular-nums }
.grid th, .grid td { padding: 3px 8px; border: 1px solid #dfe5ea; text-align: center; white-space: nowrap;
  font-weight: normal; color: #1c2733 }
.grid tbody th { text-align: right } .grid td.yes { background: #9ecae9 } .grid td.no { color: #c3ccd4 }
"""


def label(text: str, letters: float) -> str:
    """The text, safe in a page: where it has more letters its last number, or else its first
    letters."""
    if len(text) <= letters:
        return escape(text)
    number = re.search(r"\d+\W*$", text)
    if number and len(number[0]) <= letters:
        return escape(number[0])
    return escape(text[: int(letters) - 1] + "…") if letters >= 4 else ""


def family(name: str) -> str:
    """What tasks that are of one colour have in common: the name without its last number."""
    return re.sub(r"[\W_]*\d+\W*$", "", name) or name


def colours_of(names: Iterable[str]) -> dict[str, str]:
    """A colour for each name: one for each family, or, where there is one family, for each name."""
    listed = list(dict.fromkeys(names))
    families = list(dict.fromkeys(map(family, listed)))
    if len(families) == 1:
        return {it: COLOURS[at % len(COLOURS)] for at, it in enumerate(listed)}
    places = {it: at for at, it in enumerate(families)}
    return {it: COLOURS[places[family(it)] % len(COLOURS)] for it in listed}


def svg(width: float, height: float, parts: Iterable[str], what: str) -> str:
    """A picture."""
    inner = "\n".join(parts)
    return (
        f'<svg class="chart" viewBox="0 0 {width:g} {height:g}" width="{width:g}" role="img" '
        f'aria-label="{escape(what)}">\n{inner}\n</svg>'
    )


def ticks(first: int, last: int, places: int) -> range:
    """Round numbers from the first one to the last one."""
    step = step_of(max(1, last - first), places)
    return range(first - first % -step, last + 1, step)


def gantt(chart: Gantt) -> str:
    """Tasks in rows, with a line at each round time."""
    first, last = chart.span()
    longest = max((len(row.name) for row in chart.rows), default=0)
    margin = min(220.0, 16 + LETTER * longest)
    scale = (WIDTH - margin - 12) / (last - first)
    height = 26 + sum(LANE * len(row.lanes) + 4 for row in chart.rows)
    parts = []
    for time in ticks(first, last, 12):
        x = margin + (time - first) * scale
        parts.append(f'<line class="line" x1="{x:.1f}" y1="20" x2="{x:.1f}" y2="{height}"/>')
        parts.append(f'<text class="tick" x="{x:.1f}" y="13" text-anchor="middle">{time}</text>')
    colours = colours_of(it.name for it in chart.bars())
    y = 24.0
    for row in chart.rows:
        high = LANE * len(row.lanes) + 4
        parts.append(f'<line class="line" x1="0" y1="{y - 2:g}" x2="{WIDTH}" y2="{y - 2:g}"/>')
        named = label(row.name, (margin - 12) / LETTER)
        parts.append(f'<text x="{margin - 8:g}" y="{y + 17:g}" text-anchor="end">{named}</text>')
        for lane in row.lanes:
            parts += [bar(it, margin, first, scale, y, colours[it.name]) for it in lane]
            y += LANE
        y += high - LANE * len(row.lanes)
    return svg(WIDTH, height, parts, "the plan as a Gantt chart")


def bar(it: Bar, margin: float, first: int, scale: float, y: float, colour: str) -> str:
    """A task, with its name where that fits."""
    x, width = margin + (it.start - first) * scale, max(1.5, (it.end - it.start) * scale - 1)
    told = f"{escape(it.name)}: {it.start} to {it.end}"
    letters = (width - 6) / LETTER
    named = label(it.name, letters)
    text = f'<text class="bar" x="{x + 4:.1f}" y="{y + 16:g}">{named}</text>' if named else ""
    return (
        f'<g><title>{told}</title><rect x="{x:.1f}" y="{y + 1:g}" width="{width:.1f}" '
        f'height="{LANE - 4}" rx="3" fill="{colour}"/>{text}</g>'
    )


def grid(it: Grid) -> str:
    """A grid, as a table: true is a filled cell, and each other text has a colour of its own where
    they are few."""
    texts = list(dict.fromkeys(cell for cell in it.cells.values() if isinstance(cell, str)))
    colours = dict(zip(sorted(texts), COLOURS)) if len(texts) <= len(COLOURS) else {}
    head = "".join(f'<th scope="col">{escape(column)}</th>' for column in it.columns)
    lines = [f'<table class="grid"><thead><tr><td></td>{head}</tr></thead><tbody>']
    for row in it.rows:
        cells = "".join(cell(it.cells.get((row, column), ""), colours) for column in it.columns)
        lines.append(f'<tr><th scope="row">{escape(row)}</th>{cells}</tr>')
    return "\n".join([*lines, "</tbody></table>"])


def cell(it: str | bool, colours: dict[str, str]) -> str:
    """A cell."""
    if isinstance(it, bool):
        return '<td class="yes" title="true">✓</td>' if it else '<td class="no" title="false">·</td>'
    colour = f' style="background:{colours[it]}"' if it in colours and it else ""
    return f"<td{colour}>{escape(it)}</td>"


class Frame:
    """Where a point of a chart stands: learned clauses across, values upwards."""

    def __init__(self, clauses: int, low: int, high: int):
        self.clauses, self.low, self.high = clauses, low, high
        self.left, self.right, self.top, self.bottom = 64.0, WIDTH - 16.0, 16.0, 200.0

    def x(self, count: float) -> float:
        """How far right."""
        return self.left + (self.right - self.left) * count / self.clauses

    def y(self, value: float) -> float:
        """How far down."""
        return self.top + (self.bottom - self.top) * (self.high - value) / max(1, self.high - self.low)

    def point(self, count: float, value: float) -> str:
        """A point of a line."""
        return f"{self.x(count):.1f},{self.y(value):.1f}"

    def level(self, kind: str, value: int, what: str = "") -> str:
        """A line at a value."""
        y = f"{self.y(value):.1f}"
        title = f"<title>{what}</title>" if what else ""
        return f'<line class="{kind}" x1="{self.left}" y1="{y}" x2="{self.right}" y2="{y}">{title}</line>'

    def axes(self) -> list[str]:
        """Lines at round values, and the numbers of both axes."""
        parts = []
        for value in ticks(self.low, self.high, 5):
            place = f'x="{self.left - 8}" y="{self.y(value) + 4:.1f}" text-anchor="end"'
            parts += [self.level("line", value), f'<text class="tick" {place}>{value:,}</text>']
        for count in ticks(0, self.clauses, 8):
            place = f'x="{self.x(count):.1f}" y="{self.bottom + 18}" text-anchor="middle"'
            parts.append(f'<text class="tick" {place}>{count:,}</text>')
        place = f'x="{WIDTH / 2}" y="{self.bottom + 36}" text-anchor="middle"'
        return [*parts, f'<text class="tick" {place}>learned clauses</text>']


def curve(steps: Sequence[Step], end: int, bound: int | None) -> str:
    """The best value of the first objective against learned clauses, and its bound."""
    values = [it.objectives[0] for it in steps]
    ends = [*values, *([] if bound is None else [bound])]
    frame = Frame(max(end, steps[-1].count_of_clauses, 1), min(ends), max(ends))
    untils = [*(it.count_of_clauses for it in steps[1:]), frame.clauses]
    points = [
        frame.point(count, value)
        for it, value, until in zip(steps, values, untils)
        for count in (it.count_of_clauses, until)
    ]
    limit = [] if bound is None else [frame.level("bound", bound, f"bound {bound}")]
    line = f'<polyline class="curve" points="{" ".join(points)}"/>'
    x, y = points[0].split(",")
    dot = f'<circle class="dot" cx="{x}" cy="{y}" r="3"/>'
    parts = [*frame.axes(), *limit, line, dot]
    return svg(WIDTH, frame.bottom + 42, parts, "the best value against learned clauses")
