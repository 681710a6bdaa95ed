"""Draws rows of results as an SVG: lines over two axes, by powers of ten or evenly; or two programs' seconds side by
side, a line for each instance."""
import math

# The plots beside docs/MEASURED.md: of which table, which columns are drawn, and how they are called.
PLOTS = {
    "compile": {
        "name": "compile",
        "columns": ("size", "seconds"),
        "least": 2,
        "titles": ("size of the model", "CPU seconds"),
    },
    "cactus": {
        "name": "cactus",
        "columns": ("files", "seconds"),
        "least": 2,
        "titles": ("files that are solved", "CPU seconds for each"),
        "even": True,
    },
}
# Two programs beside each other: of which table, by which columns a row is named, and of each program its name, the
# columns of its seconds, which are added, and that of what it answered.
PAIRS = {
    "users": {
        "name": "users",
        "named": ("family", "instance"),
        "sides": (
            ("the Python layer and bee", ("layer s", "bee s"), "verdict"),
            ("MiniZinc and gecode", ("gecode s",), "gecode's verdict"),
        ),
        "title": "CPU seconds",
    },
}
STEP = 10
WIDE, HIGH, LEFT, LOW = 560, 360, 60, 44
COLOURS = ("#1b6ca8", "#c0392b", "#2e8b57", "#8e44ad", "#d68910", "#16a085", "#7f8c8d", "#2c3e50", "#e377c2")

# Of two programs: the height of a row and of what stands above all, and what less is drawn as.
ROW, ABOVE, LEAST = 22, 34, 0.05


def escaped(text):
    return text.replace("&", "&amp;").replace("<", "&lt;")


def number(cell):
    """The number that a cell begins with, or none."""
    digits = cell.split(" ")[0].replace(",", "").replace("over", "")
    try:
        return float(digits)
    except ValueError:
        return None


def mark(power):
    """A power of ten in digits."""
    return f"{10**power:,}" if power >= 0 else f"{10.0**power:g}"


def lines_of(rows, columns, least):
    """The points of each name in the first column, of those that have enough."""
    head, *rows = rows
    places = [head.index(it) for it in columns]
    out, name = {}, ""
    for row in rows:
        name = row[0] or name
        point = tuple(number(row[at]) for at in places)
        if None not in point and min(point) > 0:
            out.setdefault(name, []).append(point)
    return {name: points for name, points in out.items() if len(points) >= least}


def curve(name, dots, at):
    """A line through its points, and its name in the legend, of which it is the line with this number."""
    colour = COLOURS[at % len(COLOURS)]
    path = " ".join(f"{x:.1f},{y:.1f}" for x, y in dots)
    out = [f'<polyline points="{path}" fill="none" stroke="{colour}" stroke-width="1.5"/>']
    out += [f'<circle cx="{x:.1f}" cy="{y:.1f}" r="2.5" fill="{colour}"/>' for x, y in dots]
    y = 20 + 16 * at
    ends = f'x1="{WIDE + 6}" y1="{y - 4}" x2="{WIDE + 22}" y2="{y - 4}"'
    out.append(f'<line {ends} stroke="{colour}" stroke-width="3"/>')
    out.append(f'<text x="{WIDE + 27}" y="{y}">{escaped(name)}</text>')
    return out


def drawn(table_of, name, columns, least, titles, even=False):
    """The text of the plot; where it is even, its first axis goes by steps of ten and not by powers."""
    lines = lines_of(table_of(name), columns, least)
    powers = math.log10, lambda it: 10.0**it, mark
    steps = lambda it: it / STEP, lambda it: it * STEP, lambda it: str(it * STEP)
    ways = (steps if even else powers, powers)
    spans = []
    for axis, (scaled, _, _) in enumerate(ways):
        values = [scaled(point[axis]) for points in lines.values() for point in points]
        spans.append((math.floor(min(values)), math.ceil(max(values))))

    def place(point):
        parts = [(way[0](it) - low) / (high - low) for it, (low, high), way in zip(point, spans, ways)]
        return LEFT + parts[0] * (WIDE - LEFT - 10), HIGH - LOW - parts[1] * (HIGH - LOW - 10)

    full = WIDE + 40 + round(5.7 * max(map(len, lines)))
    size = f'viewBox="0 0 {full} {HIGH}" font-family="sans-serif" font-size="11"'
    out = [f'<svg xmlns="http://www.w3.org/2000/svg" {size}>']
    out += [f'<rect width="{full}" height="{HIGH}" fill="#ffffff"/>']
    for axis, (low, high) in enumerate(spans):
        _, back, told = ways[axis]
        for power in range(low, high + 1):
            ends = [[way[1](it[at]) for it, way in zip(spans, ways)] for at in (0, 1)]
            for end in ends:
                end[axis] = back(power)
            (x1, y1), (x2, y2) = map(place, ends)
            out.append(f'<line x1="{x1:.1f}" y1="{y1:.1f}" x2="{x2:.1f}" y2="{y2:.1f}" stroke="#dddddd"/>')
            at = (x1, HIGH - LOW + 16, "middle") if axis == 0 else (LEFT - 6, y1 + 4, "end")
            out.append(f'<text x="{at[0]:.1f}" y="{at[1]:.1f}" text-anchor="{at[2]}">{told(power)}</text>')
    out.append(f'<text x="{(LEFT + WIDE) / 2}" y="{HIGH - 8}" text-anchor="middle">{titles[0]}</text>')
    out.append(f'<text transform="translate(14,{HIGH / 2}) rotate(-90)" text-anchor="middle">{titles[1]}</text>')
    for at, (name, points) in enumerate(lines.items()):
        out += curve(name, [place(point) for point in points], at)
    return "\n".join([*out, "</svg>"]) + "\n"


def pairs_of(rows, named, sides):
    """The name of each row, and of each side its seconds, or none, and whether it was stopped. A name that is the row's
    above is left out."""
    head, *rows = rows
    out, above, of = [], None, lambda row, column: row[head.index(column)]
    for row in rows:
        group, one = (of(row, it) for it in named)
        times = []
        for _, columns, verdict in sides:
            parts = [number(of(row, it)) for it in columns]
            seconds = None if None in parts else max(sum(parts), LEAST)
            times.append((seconds, of(row, verdict) == "stopped"))
        out.append(("" if group == above else group, "" if one == group else one, times))
        above = group
    return out


def ticks(least, most):
    """The numbers 1, 2 and 5 and their tenfolds from the last one that isn't above `least` to the first that isn't
    below `most`."""
    marks = [first * 10.0**power for power in range(-3, 6) for first in (1, 2, 5)]
    low = max((it for it in marks if it <= least * 1.0001), default=marks[0])
    high = min((it for it in marks if it >= most / 1.0001), default=marks[-1])
    return [it for it in marks if low <= it <= high]


def dot(x, y, colour, stopped):
    """A full dot; where it was stopped an empty one with an arrow to the right."""
    if not stopped:
        return f'<circle cx="{x:.1f}" cy="{y:.1f}" r="4" fill="{colour}"/>'
    arrow = f'M{x + 4:.1f} {y:.1f} h14 m-4 -3 l4 3 l-4 3'
    ring = f'<circle cx="{x:.1f}" cy="{y:.1f}" r="3.5" fill="#ffffff" stroke="{colour}" stroke-width="1.5"/>'
    return f'{ring}<path d="{arrow}" fill="none" stroke="{colour}" stroke-width="1.5"/>'


def paired(table_of, name, named, sides, title):
    """The text of the plot of two programs."""
    rows = pairs_of(table_of(name), named, sides)
    known = [seconds for *_, times in rows for seconds, _ in times if seconds is not None]
    marks = ticks(min(known), max(known))
    left, wide, foot = 170, 720, ABOVE + ROW * len(rows)
    span = math.log10(marks[-1] / marks[0])
    place = lambda it: left + 12 + math.log10(it / marks[0]) / span * (wide - left - 44)
    size = f'viewBox="0 0 {wide} {foot + 44}" font-family="sans-serif" font-size="11"'
    out = [f'<svg xmlns="http://www.w3.org/2000/svg" {size}>']
    out += [f'<rect width="{wide}" height="{foot + 44}" fill="#ffffff"/>']
    for it in marks:
        x = place(it)
        out.append(f'<line x1="{x:.1f}" y1="{ABOVE}" x2="{x:.1f}" y2="{foot}" stroke="#dddddd"/>')
        out.append(f'<text x="{x:.1f}" y="{foot + 16}" text-anchor="middle">{it:g}</text>')
    out.append(f'<text x="{(left + wide) / 2}" y="{foot + 36}" text-anchor="middle">{title}</text>')
    heads = [*((it, COLOURS[at], False) for at, (it, *_) in enumerate(sides)), ("stopped there", COLOURS[6], True)]
    for at, (words, colour, stopped) in enumerate(heads):
        out.append(dot(left + 20 + 190 * at, 16, colour, stopped))
        out.append(f'<text x="{left + (46 if stopped else 32) + 190 * at}" y="20">{escaped(words)}</text>')
    for at, (group, one, times) in enumerate(rows):
        y = ABOVE + ROW * (at + 0.5)
        if group:
            top = ABOVE + ROW * at
            out.append(f'<line x1="6" y1="{top}" x2="{wide - 6}" y2="{top}" stroke="#bbbbbb"/>')
        out.append(f'<text x="10" y="{y + 4}">{escaped(group.replace("_", " "))}</text>')
        out.append(f'<text x="{left - 4}" y="{y + 4}" text-anchor="end">{escaped(one)}</text>')
        for side, (seconds, stopped) in enumerate(times):
            if seconds is not None:
                out.append(dot(place(seconds), y + 8 * side - 4, COLOURS[side], stopped))
    return "\n".join([*out, "</svg>"]) + "\n"
