#!/usr/bin/env python3
"""Keeps what a script that measures prints: record.py NAME COMMAND .. runs the command, shows what it prints, and
writes the rows of its table to bench/results/NAME.tsv, behind lines that say the command, the commit, the machine and
the date. Cells of a row stand apart by ", ", by tabs, or in columns; other lines are kept as remarks.
`tools/results.py` then puts the tables into docs/MEASURED.md."""
import datetime
import os
import re
import subprocess
import sys

HERE = os.path.dirname(os.path.realpath(__file__))


def aligned(lines):
    """The rows of lines whose columns stand apart by places that are blank in all of them. A column that has words in
    the head alone is the beginning of the next one's name."""
    wide = max(map(len, lines))
    full = [line.ljust(wide) for line in lines]
    blank = [all(line[at] == " " for line in full) for at in range(wide)] + [True]
    ends = [at for at in range(wide) if not blank[at] and blank[at + 1]]
    starts = [at for at in range(wide) if not blank[at] and (at == 0 or blank[at - 1])]
    columns = [[line[start : end + 1].strip() for line in full] for start, end in zip(starts, ends)]
    out = []
    for column in columns:
        if out and not any(out[-1][1:]):
            column[0] = f"{out.pop()[0]} {column[0]}"
        out.append(column)
    return [list(row) for row in zip(*out)]


def rows_of(lines):
    """The rows of a table, and the other lines: cells stand apart by ", " or by tabs, or they are aligned."""
    for mark in ("\t", ", "):
        head = next((line for line in lines if line.count(mark) > 2), None)
        if head is not None:
            width = head.count(mark)
            kept = [line for line in lines if line.count(mark) == width]
            return [line.split(mark) for line in kept], [line for line in lines if line.count(mark) != width]
    kept = [line for line in lines if len(re.findall(r"  +", line)) > 2]
    return aligned(kept) if kept else [], [line for line in lines if line not in kept]


def said(*words):
    return subprocess.run(words, cwd=HERE, capture_output=True, text=True, check=False).stdout.strip()


def machine():
    """How many processors of which kind."""
    with open("/proc/cpuinfo", encoding="utf-8") as source:
        kind = re.search(r"model name\s*: (.*)", source.read())
    load = os.getloadavg()[0]
    return f"{os.cpu_count()} processors, {kind[1] if kind else 'of an unknown kind'}, load {load:.0f} at the end"


def main():
    name, command = sys.argv[1], sys.argv[2:]
    lines = []
    with subprocess.Popen(command, stdout=subprocess.PIPE, text=True) as run:
        for line in run.stdout:
            print(line, end="", flush=True)
            lines.append(line.rstrip("\n"))
    rows, remarks = rows_of(lines)
    if run.returncode or not rows:
        sys.exit(f"record.py: the command ended with {run.returncode}, and is not kept")
    out = [f"# command: {' '.join(command)}", f"# commit: {said('git', 'rev-parse', '--short', 'HEAD')}",
        f"# machine: {machine()}", f"# date: {datetime.date.today()}"]
    out += [f"# remark: {line}" for line in remarks if line]
    out += ["\t".join(row) for row in rows]
    with open(f"{HERE}/results/{name}.tsv", "w", encoding="utf-8") as target:
        target.write("\n".join(out) + "\n")


if __name__ == "__main__":
    main()
