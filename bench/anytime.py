#!/usr/bin/env python3
"""Best values after some CPU seconds: anytime.py [--seconds 5,15,60] [--by solve,improve,gecode] [--jobs N]
[INSTANCE ..]

The instances are job shops of the literature (`shops.json`: ft10 and la01 to la05; each task has its job and machine,
no two tasks of a machine overlap, the last end is least), exams80 (80 exams in as few slots as can be, those with
common students in different ones, at most 300 seats a slot), and tour20 (the shortest round through 20 towns). Each is
written once with `beemodel`, for `model.solve` and `model.improve`, and once in MiniZinc with a search for gecode: the
earliest start, the smallest domain, the greatest regret first. The end of a plan made task by task bounds the starts of
a job shop; in MiniZinc twice that does, since gecode finds no plan within the narrower bounds.

A line is printed for each: the optimum where it is known, and the best value known by then, `-` where there is none,
with `*` where the optimum was shown.

CPU seconds are those of all processes of a run, Python's and MiniZinc's own included, so that other work on the machine
counts little; so several runs go side by side, one fewer than there are processors, or `--jobs`. With three the whole
takes eight minutes at most on a quiet machine. BEE names the program; without MiniZinc on the PATH gecode is left out.
"""
import argparse
import json
import math
import os
import random
import select
import shutil
import signal
import subprocess
import sys
import tempfile
import time
from concurrent.futures import ThreadPoolExecutor
from itertools import combinations

TOP = os.path.dirname(os.path.dirname(os.path.realpath(__file__)))
TICKS = os.sysconf("SC_CLK_TCK")


def shops():
    """The job shops by name."""
    with open(f"{TOP}/bench/shops.json", encoding="utf-8") as source:
        return json.load(source)


def one_by_one(jobs):
    """The last end where a task that can begin first does, of the job with most work left."""
    free, ready, at = {}, [0] * len(jobs), [0] * len(jobs)
    for _ in range(sum(map(len, jobs))):
        left = [it for it, job in enumerate(jobs) if at[it] < len(job)]
        begun = {it: max(ready[it], free.get(jobs[it][at[it]][0], 0)) for it in left}
        job = min(left, key=lambda it: (begun[it], -sum(hours for _, hours in jobs[it][at[it] :])))
        machine, hours = jobs[job][at[job]]
        ready[job] = free[machine] = begun[job] + hours
        at[job] += 1
    return max(ready)


def exams():
    """Sizes, and pairs with common students."""
    chance = random.Random(80)
    sizes = [chance.randint(5, 60) for _ in range(80)]
    return sizes, [pair for pair in combinations(range(80), 2) if chance.random() < 0.15]


def towns():
    """Distances."""
    chance = random.Random(20)
    places = [(chance.randint(0, 50), chance.randint(0, 50)) for _ in range(20)]
    return [[round(math.dist(one, other)) for other in places] for one in places]


SLOTS, SEATS = 20, 300
INSTANCES = ["ft10", "la01", "la02", "la03", "la04", "la05", "exams80", "tour20"]


# With beemodel.


def shop_model(jobs, most=None):
    """A job shop, whose last end is at most what a plan made task by task has, or `most`."""
    from beemodel import Model, interval, maximum, no_overlap

    model, end, on, last = Model(), most or one_by_one(jobs), {}, []
    for number, job in enumerate(jobs):
        before = 0
        for place, (machine, hours) in enumerate(job):
            start = model.int(f"s{number}_{place}", 0, end - hours)
            model.add(start >= before)
            before = start + hours
            on.setdefault(machine, []).append(interval(start, hours))
        last.append(before)
    model.add(no_overlap(tasks) for tasks in on.values())
    model.minimize(maximum(last))
    return model


def exam_model():
    """The exams."""
    from beemodel import Model, maximum, total

    sizes, pairs = exams()
    model = Model()
    slot = [model.int(f"exam{it}", 1, SLOTS) for it in range(len(sizes))]
    model.add(slot[one] != slot[other] for one, other in pairs)
    for at in range(1, SLOTS + 1):
        model.add(total(size * (it == at) for size, it in zip(sizes, slot)) <= SEATS)
    model.minimize(maximum(slot))
    return model


def tour_model():
    """The tour."""
    from beemodel import Model, circuit, element, total

    far, model = towns(), Model()
    places = range(len(far))
    next_one = [model.int(f"from{it}", [to for to in places if to != it]) for it in places]
    model.add(circuit(next_one))
    model.minimize(total(element(far[it], next_one[it]) for it in places))
    return model


def model_of(instance):
    """The model of an instance."""
    if instance == "exams80":
        return exam_model()
    return tour_model() if instance == "tour20" else shop_model(shops()[instance]["jobs"])


def run(way, instance):
    """Solves or betters an instance, and prints each better value."""
    sys.path.insert(0, f"{TOP}/python")
    model = model_of(instance)
    told = {"on_solution": lambda found: print(found.objective, flush=True)}
    answer = model.solve(**told) if way == "solve" else model.improve(None, steps=100_000, **told)
    print("done" if answer.verdict == "OPTIMUM" else "end", flush=True)


# In MiniZinc.


def shop_text(jobs):
    """A job shop."""
    lines, on, end = ['include "disjunctive.mzn";'], {}, 2 * one_by_one(jobs)
    lines.append(f"var 0..{end}: end;")
    for number, job in enumerate(jobs):
        done, whole = 0, sum(hours for _, hours in job)
        for place, (machine, hours) in enumerate(job):
            lines.append(f"var {done}..{end - whole + done}: s{number}_{place};")
            if place:
                lines.append(f"constraint s{number}_{place - 1} + {job[place - 1][1]} <= s{number}_{place};")
            done += hours
            on.setdefault(machine, []).append((f"s{number}_{place}", hours))
        lines.append(f"constraint s{number}_{len(job) - 1} + {job[-1][1]} <= end;")
    for tasks in on.values():
        names, hours = zip(*tasks)
        lines.append(f"constraint disjunctive([{','.join(names)}], {list(hours)});")
    starts = ",".join(f"s{number}_{place}" for number, job in enumerate(jobs) for place in range(len(job)))
    last = "int_search([end], input_order, indomain_min)"
    search = f"seq_search([int_search([{starts}], smallest, indomain_min), {last}])"
    return [*lines, f"solve :: {search} minimize end;", 'output ["\\(end)\\n"];']


def exam_text():
    """The exams."""
    sizes, pairs = exams()
    lines = [f"array[0..{len(sizes) - 1}] of var 1..{SLOTS}: slot;"]
    lines += [f"array[0..{len(sizes) - 1}] of int: size = array1d(0..{len(sizes) - 1}, {sizes});"]
    lines += [f"constraint slot[{one}] != slot[{other}];" for one, other in pairs]
    lines.append(f"constraint forall(t in 1..{SLOTS})(sum(i in index_set(slot))(size[i] * (slot[i] == t)) <= {SEATS});")
    lines.append(f"var 1..{SLOTS}: end;\nconstraint end = max(slot);")
    search = "int_search(slot, first_fail, indomain_min)"
    return [*lines, f"solve :: {search} minimize end;", 'output ["\\(end)\\n"];']


def tour_text():
    """The tour."""
    far = towns()
    rows = "|".join(",".join(map(str, row)) for row in far)
    count = len(far)
    return [
        'include "circuit.mzn";',
        f"array[1..{count},1..{count}] of int: far = [|{rows}|];",
        f"array[1..{count}] of var 1..{count}: to;",
        "constraint circuit(to);",
        f"var 0..{sum(map(max, far))}: cost;",
        f"constraint cost = sum(i in 1..{count})(far[i, to[i]]);",
        "solve :: int_search(to, max_regret, indomain_min) minimize cost;",
        'output ["\\(cost)\\n"];',
    ]


def text_of(instance):
    """The model of an instance in MiniZinc."""
    if instance == "exams80":
        lines = exam_text()
    else:
        lines = tour_text() if instance == "tour20" else shop_text(shops()[instance]["jobs"])
    return "\n".join(lines) + "\n"


# Runs.


def cpu_seconds(group):
    """The CPU seconds of the processes of a group, and of those of their children that have ended."""
    ticks = 0
    for name in filter(str.isdigit, os.listdir("/proc")):
        try:
            with open(f"/proc/{name}/stat", encoding="ascii", errors="replace") as source:
                words = source.read().rpartition(")")[2].split()
        except OSError:
            continue
        if int(words[2]) == group:
            ticks += sum(map(int, words[11:15]))
    return ticks / TICKS


def lines_until(child, limit):
    """The lines of a run as they come, each with the CPU seconds by then, up to the limit."""
    rest, spent = b"", 0.0
    while spent < limit:
        ready = select.select([child.stdout], [], [], 0.25)[0]
        spent = max(spent, cpu_seconds(child.pid))
        chunk = os.read(child.stdout.fileno(), 65536) if ready else None
        if chunk == b"":
            return
        *whole, rest = (rest + (chunk or b"")).split(b"\n")
        yield from ((line.decode(), spent) for line in whole)


def curve(words, marks):
    """The best value by each mark, and whether it was shown to be the optimum."""
    told, shown = [], None
    child = subprocess.Popen(words, stdout=subprocess.PIPE, stderr=subprocess.DEVNULL, process_group=0)
    try:
        for line, spent in lines_until(child, marks[-1]):
            if line.lstrip("-").isdigit():
                told.append((spent, int(line)))
            elif line in ("done", "=========="):
                shown = spent
    finally:
        try:
            os.killpg(child.pid, signal.SIGKILL)
        except ProcessLookupError:
            pass
        child.wait()
        child.stdout.close()
    cells = []
    for mark in marks:
        values = [value for spent, value in told if spent <= mark]
        cells.append(f"{values[-1] if values else '-'}{'*' if shown is not None and shown <= mark else ''}")
    return cells


def words_of(way, instance, folder):
    """The words of a run."""
    if way != "gecode":
        return [sys.executable, "-B", os.path.realpath(__file__), "--run", way, instance]
    path = f"{folder}/{instance}.mzn"
    with open(path, "w", encoding="ascii") as out:
        out.write(text_of(instance))
    return ["minizinc", "--solver", "gecode", "-a", "--soln-sep", "", path]


def main():
    parser = argparse.ArgumentParser(description=__doc__, formatter_class=argparse.RawDescriptionHelpFormatter)
    parser.add_argument("--seconds", default="5,15,60")
    parser.add_argument("--by", default="solve,improve,gecode")
    parser.add_argument("--jobs", type=int, default=max(1, (os.cpu_count() or 2) - 1))
    parser.add_argument("--run", help=argparse.SUPPRESS)
    parser.add_argument("instances", nargs="*", default=INSTANCES)
    given = parser.parse_args()
    if given.run:
        return run(given.run, given.instances[0])
    marks = [float(it) for it in given.seconds.split(",")]
    print("instance\toptimum\tby\t" + "\t".join(f"{it:g} s" for it in marks))
    ways = [it for it in given.by.split(",") if it != "gecode" or shutil.which("minizinc")]
    begun = time.monotonic()
    with tempfile.TemporaryDirectory() as folder, ThreadPoolExecutor(given.jobs) as pool:
        runs = [(instance, way) for instance in given.instances for way in ways]
        each = pool.map(lambda it: curve(words_of(it[1], it[0], folder), marks), runs)
        for (instance, way), cells in zip(runs, each):
            print(instance, shops().get(instance, {}).get("optimum", ""), way, *cells, sep="\t", flush=True)
    print(f"{time.monotonic() - begun:.0f} s of wall-clock time", file=sys.stderr)
    return None


if __name__ == "__main__":
    main()
