#!/usr/bin/env python3
"""Puts the tables of bench/results/NAME.tsv into docs/MEASURED.md, and the plots beside it. On the page

    <!-- NAME [column, column ..] [only: word; word ..] -->
    <!-- end -->

stand around the table of NAME.tsv with these columns, by their heads, or all; and with the rows alone whose first cell
begins with one of the words. With `--check` it only tells whether page and plots are so, and ends with 1 where not."""
import os
import re
import sys

from plot import PAIRS, PLOTS, drawn, paired

TOP = os.path.dirname(os.path.dirname(os.path.realpath(__file__)))
PAGE = f"{TOP}/docs/MEASURED.md"
MARKED = re.compile(r"(<!-- (\w+)((?:\s+\[[^\]]*\])*) -->\n).*?(<!-- end -->)", re.S)


def table_of(name):
    """The remarks and the rows of a table of results, the head first. An empty first cell is that of the row above."""
    with open(f"{TOP}/bench/results/{name}.tsv", encoding="utf-8") as source:
        lines = source.read().rstrip("\n").split("\n")
    remarks = dict(line[2:].split(": ", 1) for line in lines if line.startswith("# ") and ": " in line)
    return remarks, [line.split("\t") for line in lines if not line.startswith("#")]


def chosen(name, words):
    """The rows of a table, head first, with the columns and rows that the words choose."""
    head, *rows = table_of(name)[1]
    full, last = [], ""
    for row in rows:
        last = row[0] or last
        full.append((last, row))
    columns = list(range(len(head)))
    for word in words:
        if word.startswith("only: "):
            fronts = [it.strip() for it in word[6:].split(";")]
            full = [it for it in full if any(it[0].startswith(front) for front in fronts)]
        elif word == "last":
            full = [it for it, after in zip(full, [*full[1:], ("", [])]) if after[0] != it[0]]
        else:
            columns = [head.index(it.strip()) for it in word.split(";")]
    out, above = [[head[at] for at in columns]], None
    for first, row in full:
        named = [first if first != above else "", *row[1:]]
        above = first
        out.append([named[at] if at < len(named) else "" for at in columns])
    return out


def shown(name, words):
    """A table in the letters of a page."""
    head, *rows = chosen(name, words)
    return "".join(f"|{'|'.join(row)}|\n" for row in [head, ["---"] * len(head), *rows])


def page(text):
    """The page with its tables anew."""
    put = lambda m: m[1] + shown(m[2], re.findall(r"\[([^\]]*)\]", m[3])) + m[4]
    return MARKED.sub(put, text)


def main():
    with open(PAGE, encoding="utf-8") as source:
        old = source.read()
    made = {PAGE: page(old)}
    for name, how in PLOTS.items():
        made[f"{TOP}/docs/{name}.svg"] = drawn(lambda it: table_of(it)[1], **how)
    for name, how in PAIRS.items():
        made[f"{TOP}/docs/{name}.svg"] = paired(lambda it: table_of(it)[1], **how)
    stale = []
    for path, text in made.items():
        if not os.path.exists(path) or open(path, encoding="utf-8").read() != text:
            stale.append(os.path.relpath(path, TOP))
            if "--check" not in sys.argv:
                with open(path, "w", encoding="utf-8") as target:
                    target.write(text)
    if "--check" in sys.argv and stale:
        print(f"not as tools/results.py makes them: {', '.join(stale)}", file=sys.stderr)
        return 1
    return 0


if __name__ == "__main__":
    sys.exit(main())
