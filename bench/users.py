"""Instances that people know, as a user writes them in Python, beside MiniZinc with gecode.

    python3 bench/users.py [--seconds 60] [--jobs 1] [NAME ..]

Each family is written from plain words with the layer's constraints, no bound by hand, and as a MiniZinc model with
the same words. For each instance a line: its weight, the bytes of its text, CPU seconds of the layer and of `bee
solve`, what it answers, CPU seconds of MiniZinc and gecode together, what they answer, and the commit that was
measured. A run that takes more than so many seconds of CPU time is stopped; so many instances go side by side as there
are jobs. Names are those of families or of instances; of others the rows of `results/users.tsv` are kept. BEE names the
program; INSTANCES a folder of the instances, ../shared/instances.
"""
import argparse
import json
import multiprocessing
import os
import resource
import subprocess
import sys
import tempfile
import time
from pathlib import Path

TOP = Path(__file__).resolve().parents[1]
sys.path.insert(0, str(TOP / "python"))

from beemodel import (  # noqa: E402
    Model,
    ModelError,
    any_of,
    bin_loads,
    bin_packing,
    circuit,
    count,
    element,
    interval,
    maximum,
    no_overlap,
    regular,
    total,
    weighted_sum,
)
from beemodel.running import program_of  # noqa: E402
from users_minizinc import DATA, MODELS  # noqa: E402

INSTANCES = Path(os.environ.get("INSTANCES") or TOP.parent / "shared/instances")


def job_shop(model, jobs):
    """Each job's steps in order, each machine one at a time; all done as early as can be."""
    horizon = sum(duration for steps in jobs for _, duration in steps)
    machines, ends = {}, []
    for job, steps in enumerate(jobs):
        before = 0
        for step, (machine, duration) in enumerate(steps):
            start = model.int(f"start_{job}_{step}", 0, horizon)
            model.add(start >= before)
            before = start + duration
            machines.setdefault(machine, []).append(interval(start, duration))
        ends.append(before)
    for tasks in machines.values():
        model.add(no_overlap(tasks))
    model.minimize(maximum(ends))


def open_shop(model, jobs):
    """Each job on each machine, in any order, one at a time."""
    horizon = sum(map(sum, jobs))
    tasks = [
        [interval(model.int(f"start_{job}_{at}", 0, horizon), it) for at, it in enumerate(durations)]
        for job, durations in enumerate(jobs)
    ]
    for alone in [*tasks, *zip(*tasks)]:
        model.add(no_overlap(alone))
    model.minimize(maximum(it.end for row in tasks for it in row))


def curriculum(model, data):
    """Courses in periods behind what they want, with the load of each period within bounds."""
    periods, low, high, fewest, most = data["spec"]
    period = {it: model.int(it, 1, periods) for it in data["courses"]}
    for course, before in data["prerequisites"]:
        model.add(period[before] < period[course])
    loads = []
    for now in range(1, periods + 1):
        loads.append(weighted_sum(data["courses"].values(), [it == now for it in period.values()]))
        number = count(period.values(), now)
        model.add(loads[-1] >= low, loads[-1] <= high, number >= fewest, number <= most)
    model.minimize(maximum(loads))


def bins(model, data):
    """Things into as few bins as can be."""
    sizes = data["sizes"]
    place = [model.int(f"bin_{it}", 0, len(sizes) - 1) for it in range(len(sizes))]
    model.add(bin_packing(place, sizes, [data["capacity"]] * len(sizes), in_order=True))
    model.minimize(maximum(place) + 1)


def steel(model, data):
    """Orders to slabs, at most two colours on a slab, and the least loss."""
    capacities, orders = data["capacities"], data["orders"]
    loss = [min(it for it in [0, *capacities] if it >= load) - load for load in range(max(capacities) + 1)]
    slab = [model.int(f"slab_{it}", 0, len(orders) - 1) for it in range(len(orders))]
    load = [model.int(f"load_{it}", 0, max(capacities)) for it in range(len(orders))]
    held = bin_loads(slab, [size for size, _ in orders], len(orders))
    model.add(one == other for one, other in zip(load, held))
    colours = {}
    for at, (_, colour) in enumerate(orders):
        colours.setdefault(colour, []).append(slab[at])
    for it in range(len(orders)):
        has = [any_of(one == it for one in same) for same in colours.values()]
        model.add(total(has) <= 2)
    model.minimize(total(element(loss, it) for it in load))


def warehouses(model, data):
    """Which warehouse supplies each shop, and which are open."""
    costs = data["supply_cost"]
    supplier = [model.int(f"supplier_{it}", 0, len(data["capacity"]) - 1) for it in range(len(costs))]
    is_open = [model.bool(f"open_{it}") for it in range(len(data["capacity"]))]
    for at, most in enumerate(data["capacity"]):
        model.add(count(supplier, at) <= most)
        model.add((it == at).implies(is_open[at]) for it in supplier)
    supply = total(element(row, it) for row, it in zip(costs, supplier))
    model.minimize(supply + data["fixed_cost"] * total(is_open))


def runs(lengths):
    """An automaton of lines with runs of these lengths: its start, what it accepts, its steps."""
    steps, state = {0: {0: 0}}, 0
    for at, length in enumerate(lengths):
        for _ in range(length):
            steps[state][1] = state + 1
            state += 1
            steps[state] = {}
        if at < len(lengths) - 1:
            steps[state][0] = state + 1
            state += 1
        steps.setdefault(state, {})[0] = state
    return 0, [state], steps


def nonogram(model, data):
    """A picture from the lengths of its runs."""
    height, width = len(data["rows"]), len(data["columns"])
    cells = [[model.bool(f"cell_{row}_{column}") for column in range(width)] for row in range(height)]
    for line, lengths in [*zip(cells, data["rows"]), *zip(zip(*cells), data["columns"])]:
        model.add(regular(line, *runs(lengths)))


def tour(model, data):
    """The shortest round."""
    distances = data["distances"]
    size = len(distances)
    to = [model.int(f"to_{it}", 0, size - 1) for it in range(size)]
    model.add(circuit(to))
    model.minimize(total(element(row, it) for row, it in zip(distances, to)))


FAMILIES = {
    "job_shop": job_shop,
    "open_shop": open_shop,
    "bacp": curriculum,
    "bin_packing": bins,
    "steel_mill": steel,
    "warehouses": warehouses,
    "nonogram": nonogram,
    "tour": tour,
}


def instances():
    """Each instance: its family, its name, and its data."""
    for family in FAMILIES:
        data = json.loads((INSTANCES / f"{family}.json").read_text())
        if family == "steel_mill":
            for size in (8, 12, 20, len(data["orders"])):
                yield family, str(size), {**data, "orders": data["orders"][:size]}
        elif family == "warehouses":
            yield family, "", data
        else:
            for name, it in data.items():
                yield family, name, it.get("jobs", it) if family.endswith("shop") else it


def run(words, seconds, text=None):
    """What a program writes, and the CPU seconds that it took; it is stopped after so many."""

    def limit():
        resource.setrlimit(resource.RLIMIT_CPU, (seconds, seconds + 1))

    before = resource.getrusage(resource.RUSAGE_CHILDREN)
    ran = subprocess.run(words, input=text, capture_output=True, text=True, preexec_fn=limit)
    after = resource.getrusage(resource.RUSAGE_CHILDREN)
    return ran.stdout, after.ru_utime + after.ru_stime - before.ru_utime - before.ru_stime


def ours(family, data, seconds):
    """What the layer and `bee` take, and what they answer."""
    begun, model = time.process_time(), Model()
    FAMILIES[family](model, data)
    try:
        asked = model.asked()
        text = model.checked_text(asked.written)
    except ModelError as why:
        return ["refused", "", f"{time.process_time() - begun:.1f}", "", str(why)[:60]]
    layer = time.process_time() - begun
    said, spent = run([program_of(None), "solve", "stdin"], seconds, text)
    verdict = said.split("\n")[1] if "\n" in said else "stopped"
    return [asked.written.weight(), len(text), f"{layer:.1f}", f"{spent:.1f}", verdict]


def gecode(family, data, seconds):
    """What MiniZinc and gecode take together, and what they answer."""
    with tempfile.TemporaryDirectory() as folder:
        path = Path(folder, "model.mzn")
        path.write_text(DATA[family](data) + MODELS[family])
        said, spent = run(["minizinc", "--solver", "gecode", str(path)], seconds)
    lines = said.split("\n")
    is_done = "==========" in lines or family == "nonogram" and "found" in lines
    return [f"{spent:.1f}", "OPTIMUM " + lines[0] if is_done else "stopped"]


HEAD = "family,instance,weight,bytes,layer s,bee s,verdict,gecode s,gecode's verdict,commit".split(",")


def kept():
    """The rows that are known, by family and instance."""
    path = TOP / "bench/results/users.tsv"
    lines = path.read_text().splitlines() if path.exists() else []
    rows = [it.split("\t") for it in lines if not it.startswith("#")]
    return {(row[0], row[1]): row for row in rows[1:]}


def row(task):
    """The row of an instance: the one that is kept, or what is measured in so many seconds."""
    family, name, data, seconds, known, commit = task
    if seconds is None:
        return known
    return [family, name, *ours(family, data, seconds), *gecode(family, data, seconds), commit]


def main():
    parser = argparse.ArgumentParser(description=__doc__, formatter_class=argparse.RawDescriptionHelpFormatter)
    parser.add_argument("--seconds", type=int, default=60)
    parser.add_argument("--jobs", type=int, default=1)
    parser.add_argument("names", nargs="*", metavar="NAME")
    asked, known, tasks = parser.parse_args(), kept(), []
    words = ["git", "-C", str(TOP), "rev-parse", "--short", "HEAD"]
    commit = subprocess.run(words, capture_output=True, text=True).stdout.strip()
    for family, name, data in instances():
        name = name or family
        is_asked = not asked.names or family in asked.names or name in asked.names
        tasks.append((family, name, data, asked.seconds if is_asked else None, known.get((family, name)), commit))
    print("\t".join(HEAD), flush=True)
    with multiprocessing.Pool(asked.jobs, maxtasksperchild=1) as pool:
        for it in filter(None, pool.imap(row, tasks, chunksize=1)):
            print(*it, sep="\t", flush=True)


if __name__ == "__main__":
    main()
