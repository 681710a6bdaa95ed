"""A plan as one page that needs no other file: how sure it is, what it is, and how it came about."""
from __future__ import annotations

import re
import subprocess
import tempfile
from collections import Counter
from collections.abc import Iterable
from html import escape
from pathlib import Path
from typing import TYPE_CHECKING, Any, NamedTuple, Optional

from . import charts
from .answers import Run
from .plans import Gantt, plan_of
from .texts import goal_of

if TYPE_CHECKING:
    from .answers import Answer

# So many lines of a script and rows of a notebook's table are shown.
LINES, ROWS = 20, 50

STYLE = """
:root { color-scheme: light; --ink: #1c2733; --soft: #5d6b78; --rule: #dfe5ea; --good: #1a7f4b; --open: #9a6200; }
* { box-sizing: border-box }
body { margin: 0; background: #f4f6f8; color: var(--ink); font: 15px/1.5 system-ui, "DejaVu Sans", sans-serif }
main { max-width: 1060px; margin: 0 auto; padding: 24px 16px 48px }
h1 { margin: 0 0 4px; font-size: 26px } h2 { margin: 0 0 12px; font-size: 18px }
section { margin: 16px 0; padding: 18px 20px; background: #fff; border: 1px solid var(--rule); border-radius: 8px;
  overflow-x: auto }
.facts { display: flex; flex-wrap: wrap; gap: 10px 32px; margin: 14px 0 0; padding: 0 }
.facts div { min-width: 90px } .facts dt { color: var(--soft); font-size: 13px }
.facts dd { margin: 0; font-size: 19px; font-variant-numeric: tabular-nums }
.badge { display: inline-block; margin-right: 8px; padding: 1px 10px; border-radius: 11px; color: #fff; font-size: 14px;
  background: var(--good) } .badge.open { background: var(--open) }
.soft { color: var(--soft) } p { margin: 6px 0 }
table { border-collapse: collapse; font-variant-numeric: tabular-nums }
th, td { padding: 3px 12px 3px 0; text-align: left; border-bottom: 1px solid var(--rule); font-weight: normal }
td.number, th.number { text-align: right }
thead th { color: var(--soft); font-size: 13px }
.values { max-height: 420px; overflow: auto; border: 1px solid var(--rule); border-radius: 6px }
.values { width: fit-content; max-width: 100% } .values th, .values td { padding: 3px 24px 3px 12px }
.values thead th { position: sticky; top: 0; background: #fff }
input { width: 280px; max-width: 100%; margin: 0 0 10px; padding: 6px 10px; border: 1px solid #b9c4cd;
  border-radius: 6px; font: inherit }
.share { display: inline-block; height: 10px; background: #9ecae9; border-radius: 2px }
"""

SCRIPT = """
const search = document.getElementById("search"), told = document.getElementById("told");
const rows = [...document.querySelectorAll("#values tbody tr")];
search.addEventListener("input", () => {
  const words = search.value.toLowerCase().split(/\\s+/).filter(Boolean);
  let shown = 0;
  for (const row of rows) {
    const text = row.textContent.toLowerCase();
    row.hidden = !words.every(word => text.includes(word));
    shown += !row.hidden;
  }
  told.textContent = shown + " of " + rows.length;
});
"""


class Compiled(NamedTuple):
    """What a compilation did: equations by rule, splits, encodings, variables and clauses, and the
    least and the greatest value of the first objective that it left."""

    equations: dict[str, int]
    splits: int
    encodings: int
    variables: int
    clauses: int
    objective: Optional[tuple[int, int]]


def compiled(run: Run) -> Optional[Compiled]:
    """What `bee compile` tells of the text that was answered; none where it does not."""
    with tempfile.TemporaryDirectory(prefix="beemodel-") as room:
        model = Path(room, "model.bee")
        model.write_text(run.text, encoding="ascii")
        words = [run.program, "compile", str(model)]
        with subprocess.Popen(words, stdout=subprocess.PIPE, stderr=subprocess.DEVNULL, text=True) as child:
            assert child.stdout is not None
            return read_compiled(child.stdout, next(iter(goal_of(run.text).names), None))


def read_compiled(lines: Iterable[str], objective: Optional[str]) -> Optional[Compiled]:
    """What the comments at the head of a compiled text tell."""
    rules: Counter[str] = Counter()
    steps: Counter[str] = Counter()
    ends, sizes = None, None
    for line in lines:
        if line.startswith("c led "):
            words = line.split(" ", 5)
            steps[words[2]] += 1
            rules.update([words[4]] if words[2] == "eq" else [])
        elif objective is not None and line.startswith(f"c int {objective} "):
            base = int(line.split()[3])
            ends = base, base + sum(map(int, re.findall(r":(\d+)", line)))
        elif line.startswith("p cnf "):
            sizes = [int(it) for it in line.split()[2:]]
    if sizes is None:
        return None
    return Compiled(dict(rules), steps["split"], steps["enc"], sizes[0], sizes[1], ends)


# Parts of the page.


def section(title: str, *parts: str) -> str:
    """A part with a title."""
    return f"<section>\n<h2>{escape(title)}</h2>\n" + "\n".join(parts) + "\n</section>"


def facts(pairs: Iterable[tuple[str, object]]) -> str:
    """Numbers with their names."""
    each = (f"<div><dt>{escape(name)}</dt><dd>{escape(str(it))}</dd></div>" for name, it in pairs)
    return f'<dl class="facts">{"".join(each)}</dl>'


def table(head: list[str], rows: Iterable[Iterable[str]], numbers: Iterable[int] = ()) -> str:
    """A table whose cells are safe already; some columns have numbers."""
    kinds = {at: ' class="number"' for at in numbers}
    top = "".join(f'<th scope="col"{kinds.get(at, "")}>{escape(it)}</th>' for at, it in enumerate(head))
    lines = [
        "<tr>" + "".join(f"<td{kinds.get(at, '')}>{it}</td>" for at, it in enumerate(row)) + "</tr>"
        for row in rows
    ]
    body = "\n".join(lines)
    return f"<table><thead><tr>{top}</tr></thead><tbody>\n{body}\n</tbody></table>"


def badge(answer: Answer) -> str:
    """The verdict, and what was checked."""
    said = {
        "OPTIMUM": "No solution is better. Solution and proof were accepted by bee check.",
        "SATISFIABLE": "The solution was accepted by bee check.",
        "UNSATISFIABLE": "There is no solution. The proof was accepted by bee check.",
        "UNKNOWN": "The solution was accepted by bee check; there may be better ones.",
    }[answer.verdict]
    is_open = answer.verdict == "UNKNOWN"
    if is_open and not answer.objectives:
        said = "The search ended before it had a solution."
    return f'<p><span class="badge{" open" if is_open else ""}">{answer.verdict}</span>{said}</p>'


def head_facts(answer: Answer) -> list[tuple[str, object]]:
    """What is told at the top."""
    told: list[tuple[str, object]] = []
    names = ["Objective", "Second objective"] if len(answer.objectives) > 1 else ["Objective"]
    told += [(name, f"{value:,}") for name, value in zip(names, answer.objectives)]
    if answer.bound is not None:
        told.append(("Bound", f"{answer.bound:,}"))
    if answer.verdict == "UNKNOWN" and answer.objective and answer.bound is not None:
        gap = abs(answer.objective - answer.bound) / abs(answer.objective)
        told.append(("Gap to the bound", f"{100 * gap:.1f} %"))
    if answer.run is not None:
        told.append(("Search", f"{answer.run.seconds:.1f} s"))
    if answer.stopped is not None:
        ends = {"seconds": "time limit", "interrupt": "interrupt", "budget": "budget of clauses"}
        told.append(("Ended by", ends[answer.stopped]))
    return told


def drawn(answer: Answer, plan: Any) -> list[str]:
    """The plan as a chart or a grid, where there is one to be shown."""
    made = None if answer.values is None else plan_of(answer, plan)
    if made is None:
        return []
    return [charts.gantt(made) if isinstance(made, Gantt) else charts.grid(made)]


def value_rows(answer: Answer, most: Optional[int] = None) -> list[list[str]]:
    """The names and the values."""
    return [[escape(name), it] for name, it in answer.shown_values()[:most]]


def values_part(answer: Answer) -> list[str]:
    """The values as a table that can be searched."""
    if answer.values is None:
        return []
    count = len(answer.values)
    box = '<input id="search" type="search" placeholder="Search names and values" aria-label="Search">'
    return [
        section(
            "Values",
            f'{box} <span class="soft" id="told">{count} of {count}</span>',
            f'<div class="values" id="values">{table(["name", "value"], value_rows(answer))}</div>',
        )
    ]


def weight_part(answer: Answer) -> list[str]:
    """What the lines of the script weigh."""
    if answer.model is None:
        return []
    shares = answer.model.heaviest(10**9)
    weight = sum(it for _, it in shares) or 1
    rows = [
        [
            escape(line),
            f"{share:,}",
            f"{100 * share / weight:.1f} %",
            f'<span class="share" style="width:{max(1, 300 * share // weight)}px"></span>',
        ]
        for line, share in shares[:LINES]
    ]
    rest = len(shares) - LINES
    more = [f'<p class="soft">and {rest} more lines</p>'] if rest > 0 else []
    told = f"<p>The model weighs {weight:,} of 67,108,864.</p>"
    return [section("What the model weighs", told, table(["line", "weight", "share", ""], rows, [1, 2]), *more)]


def compiled_part(made: Optional[Compiled]) -> list[str]:
    """What the compilation did."""
    if made is None:
        return []
    rules = [(f"Equations by {rule}", f"{count:,}") for rule, count in sorted(made.equations.items())]
    rest = {"Splits": made.splits, "Encodings": made.encodings, "Variables": made.variables, "Clauses": made.clauses}
    return [section("What the compilation did", facts([*rules, *((name, f"{it:,}") for name, it in rest.items())]))]


def search_part(answer: Answer) -> list[str]:
    """How the best value came about, and how long the proof is."""
    run = answer.run
    if run is None:
        return []
    parts = []
    if run.steps:
        end = answer.count_of_clauses or run.steps[-1].count_of_clauses
        parts.append(charts.curve(run.steps, end, answer.bound))
    if run.proof.bytes:
        size = {"Bytes of the answer": run.proof.bytes, "Lines of the ledger": run.proof.ledger,
                "Lines of the proof": run.proof.lines}  # fmt: skip
        parts.append(facts((name, f"{it:,}") for name, it in size.items()))
    return [section("Search and proof", *parts)] if parts else []


def page(answer: Answer, plan: Any = None, title: str = "Plan") -> str:
    """The whole page."""
    made = None if answer.run is None else compiled(answer.run)
    if made is not None and made.objective is not None and answer.verdict == "UNKNOWN" and answer.run:
        low, high = made.objective
        answer.bound = high if goal_of(answer.run.text).direction == "maximize" else low
    top = f"<h1>{escape(title)}</h1>\n{badge(answer)}\n{facts(head_facts(answer))}"
    shown = drawn(answer, plan)
    parts = [*([section("Plan", *shown)] if shown else []), *values_part(answer), *weight_part(answer)]
    parts += [*compiled_part(made), *search_part(answer)]
    script = f"<script>{SCRIPT}</script>\n" if answer.values is not None else ""
    return (
        f'<!DOCTYPE html>\n<html lang="en">\n<head>\n<meta charset="utf-8">\n'
        f'<meta name="viewport" content="width=device-width, initial-scale=1">\n'
        f"<title>{escape(title)}</title>\n<style>{STYLE}{charts.STYLE}</style>\n</head>\n<body>\n<main>\n{top}\n"
        + "\n".join(parts)
        + f"\n</main>\n{script}</body>\n</html>\n"
    )


def fragment(answer: Answer, plan: Any = None) -> str:
    """What a notebook shows: the verdict, the plan, and the first values."""
    rows = value_rows(answer, ROWS)
    rest = len(answer.values or {}) - len(rows)
    more = f"<p>and {rest} more</p>" if rest > 0 else ""
    values = f"<details><summary>Values</summary>{table(['name', 'value'], rows)}{more}</details>"
    parts = [*drawn(answer, plan), *([values] if rows else [])]
    inner = [f"<p><b>{escape(answer.summary())}</b></p>", *parts]
    return f"<style>{charts.STYLE}</style><div>" + "\n".join(inner) + "</div>"
