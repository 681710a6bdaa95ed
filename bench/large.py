#!/usr/bin/env python3
"""Times solvers on clauses that were compiled from models, 50,000 and more: large.py BEE [NAME ..]. `bee sat` stands
beside minisat, the same without its preprocessing (plain), and cadical without its own (`--plain`). The solvers take
turns; the least user's seconds of RUNS turns (3) count, and a run is stopped after SECONDS_EACH seconds (60). A line
for each file: its variables and clauses, what was found, the clauses that `bee sat` learned and the conflicts of
plain, the propagations of plain each second, the seconds of each, the peak memory of `bee sat` in megabytes, and the
seconds of `bee sat` beside those of each other. Behind them stand the geometric means of these. It ends with an error
where two don't find the same."""
import math, os, re, resource, shutil, subprocess, sys, tempfile

import models, optima

# Seconds after which a run is stopped, and how many turns there are.
LIMIT = int(os.environ.get("SECONDS_EACH", "60"))
RUNS = int(os.environ.get("RUNS", "3"))

# Job shops of Lawrence (1984): for each job its steps, each as machine.hours. The least ends are 666, 655 and 597.
SHOPS = {
    "la01": (
        "1.21 0.53 4.95 3.55 2.34, 0.21 3.52 4.16 2.26 1.71, "
        "3.39 4.98 1.42 2.31 0.12, 1.77 0.55 4.79 2.66 3.77, "
        "0.83 3.34 2.64 1.19 4.37, 1.54 2.43 4.79 0.92 3.62, "
        "3.69 4.77 1.87 2.87 0.93, 2.38 0.60 1.41 3.24 4.83, "
        "3.17 1.49 4.25 0.44 2.98, 4.77 3.79 2.43 1.75 0.96"
    ),
    "la02": (
        "0.20 3.87 1.31 4.76 2.17, 4.25 2.32 0.24 1.18 3.81, "
        "1.72 2.23 4.28 0.58 3.99, 2.86 1.76 4.97 0.45 3.90, "
        "4.27 0.42 3.48 2.17 1.46, 1.67 0.98 4.48 3.27 2.62, "
        "4.28 1.12 3.19 0.80 2.50, 1.63 0.94 2.98 3.50 4.80, "
        "4.14 0.75 2.50 1.41 3.55, 4.72 2.18 1.37 3.79 0.61"
    ),
    "la03": (
        "1.23 2.45 0.82 4.84 3.38, 2.21 1.29 0.18 4.41 3.50, "
        "2.38 3.54 4.16 0.52 1.52, 4.37 0.54 2.74 1.62 3.57, "
        "4.57 0.81 1.61 3.68 2.30, 4.81 0.79 1.89 2.89 3.11, "
        "3.33 2.20 0.91 4.20 1.66, 4.24 1.84 0.32 2.55 3.8, "
        "4.56 0.7 3.54 2.64 1.39, 4.40 1.83 0.19 2.8 3.7"
    ),
}

def lawrence(name):
    """The model of a job shop."""
    jobs = SHOPS[name].split(", ")
    optima.JOBS[name] = [[tuple(map(int, step.split("."))) for step in job.split()] for job in jobs]
    return optima.jobs(name)

def golomb(marks, most):
    """A ruler that is not longer than a number."""
    lines = [f"new_int(m{i},{i},{most})" for i in range(1, marks)]
    lines += [f"int_lt(m{i},m{i + 1})" for i in range(1, marks - 1)]
    apart = [f"m{i}" for i in range(1, marks)]
    for i in range(1, marks):
        for j in range(i + 1, marks):
            lines += [f"new_int(d{i}_{j},1,{most})", f"int_plus(m{i},d{i}_{j},m{j})"]
            apart.append(f"d{i}_{j}")
    return lines + [f"int_array_allDiff([{','.join(apart)}])", f"solve minimize m{marks - 1}"]

def assignment(most):
    """Twenty workers and tasks with costs to a hundred, of which all together are not above a number."""
    return [f"new_int(cost,0,{most})" if line.startswith("new_int(cost,") else line for line in optima.costs(20)]

# The lines of each model, and the value that is to be bettered, if one is. A text stays below the 16,777,216 bytes that
# `bee sat` reads.
FILES = {
    "costs20-165": (lambda: assignment(200), 165),
    "costs20-180": (lambda: assignment(200), 180),
    "golomb9-44": (lambda: golomb(9, 48), 44),
    "golomb9-47": (lambda: golomb(9, 48), 47),
    "la01-666": (lambda: lawrence("la01"), 666),
    "la01-680": (lambda: lawrence("la01"), 680),
    "la02-655": (lambda: lawrence("la02"), 655),
    "la02-680": (lambda: lawrence("la02"), 680),
    "la03-597": (lambda: lawrence("la03"), 597),
    "la03-620": (lambda: lawrence("la03"), 620),
    "knapsack30": (lambda: optima.knapsack(30), optima.best_knapsack(30)),
    "queens64": (lambda: [*models.queens(64), "solve satisfy"], None),
    "quasigroup35": (lambda: [*models.quasigroup(35), "solve satisfy"], None),
    "tour20-380": (lambda: optima.plans.tour(20), 380),
    "catalogue200-680": (lambda: optima.plans.catalogue(200), 680),
}

OTHERS = {
    "minisat": ["minisat"], "plain": ["minisat", "-no-pre"], "cadical": ["cadical", "--plain", "-n"],
}

def timed(words):
    """The seconds, the peak memory in megabytes, and what was written."""
    with tempfile.TemporaryFile() as out:
        child = subprocess.Popen(words, stdout=out, stderr=subprocess.DEVNULL,
            preexec_fn=lambda: resource.setrlimit(resource.RLIMIT_CPU, (LIMIT, LIMIT)))
        _, _, usage = os.wait4(child.pid, 0)
        out.seek(0)
        return usage.ru_utime, usage.ru_maxrss / 1024, out.read().decode()

def told(text):
    found = re.search(r"^(?:s )?(SATISFIABLE|UNSATISFIABLE)", text, re.M)
    return "-" if not found else "sat" if found[1] == "SATISFIABLE" else "unsat"

def number(pattern, text):
    found = re.search(pattern, text)
    return int(found[1]) if found else 0

def written(bee, name, folder):
    """The path of a file's clauses."""
    make, bound = FILES[name]
    model = os.path.join(folder, "model")
    with open(model, "w") as out:
        out.write("\n".join(make()) + "\n")
    words = [bee, "compile", model] if bound is None else [bee, "bound", model, "--", str(bound)]
    with open(model + ".cnf", "wb") as out:
        subprocess.run(words, stdout=out, stderr=subprocess.DEVNULL, check=True)
    return model + ".cnf"

def turns(bee, path):
    """What each solver's quickest run was, by name."""
    solvers = {"bee sat": [bee, "sat"], **{it: words for it, words in OTHERS.items() if shutil.which(words[0])}}
    best = {}
    for _ in range(RUNS):
        for name, words in solvers.items():
            run = timed([*words, path])
            best[name] = min(best.get(name, run), run)
    if len({told(text) for *_, text in best.values()} - {"-"}) > 1:
        sys.exit(f"{path}: two solvers differ")
    return best

def line(name, path, best):
    """A file's line, and the seconds of `bee sat` beside those of the others."""
    with open(path) as text:
        size = next(it for it in text if it.startswith("p ")).split()[2:]
    ours = best["bee sat"]
    proof = ours[2].splitlines()
    learned = sum(" d " not in it for it in proof[1:]) if told(ours[2]) == "unsat" else "-"
    plain = best["plain"]
    rate = number(r"propagations\s*: (\d+)", plain[2]) / max(plain[0], 0.001)
    over = {it: max(ours[0], 0.001) / max(run[0], 0.001) for it, run in best.items() if it != "bee sat"}
    seconds = [f"{run[0]:.2f}{'' if told(run[2]) != '-' else '+'}" for run in best.values()]
    shown = [name, *size, told(plain[2]), learned, number(r"conflicts\s*: (\d+)", plain[2]), f"{rate:.0f}", *seconds]
    return [*shown, f"{ours[1]:.0f}", *(f"{it:.2f}" for it in over.values())], over

def main():
    bee, *chosen = sys.argv[1:]
    names = ["bee sat", *(it for it, words in OTHERS.items() if shutil.which(words[0]))]
    heads = ["file", "variables", "clauses", "found", "learned", "conflicts", "each s", *names, "MB", *names[1:]]
    row = ("{:14}" + " {:>9}" * (len(heads) - 1)).format
    print(row(*heads))
    rows = []
    for name in chosen or FILES:
        with tempfile.TemporaryDirectory() as folder:
            path = written(bee, name, folder)
            cells, over = line(name, path, turns(bee, path))
        rows.append(over)
        print(row(*cells), flush=True)
    means = {it: math.exp(sum(math.log(row[it]) for row in rows) / len(rows)) for it in rows[0]}
    print("geometric means:", ", ".join(f"{mean:.2f} of {name}" for name, mean in means.items()))

if __name__ == "__main__":
    main()
