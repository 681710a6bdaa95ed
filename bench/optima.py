#!/usr/bin/env python3
"""Solves models with objectives and prints what that took: optima.py PROGRAM [FAMILY[:SIZE,..] ..].

A line for each model: its family and size, the verdict, the variables and clauses that are solved, the clauses that
were learned in the first derivation and in the second one, the solutions that rounds found, the CPU seconds, and the
best value that was told after 1, 5 and 20 wall-clock seconds. Without words all families are taken. Each answer is
checked, which isn't timed. A run is stopped after SECONDS_EACH seconds (60); of one that is stopped the best value
stands in place of the verdict.

Behind them, for a model with one objective and where cadical is there, the user's seconds of others on its clauses, as
`bee compile` and `bee bound` write them: of cadical from one value to the next better one, how often it was asked, and
of the last question alone, which has no solution, the seconds of cadical and of `bee sat`. Where these are as long as
`bee solve` took, the clauses make the model hard; where they are short, the order of decisions and of questions does.
"""
import os, random, re, resource, shutil, subprocess, sys, tempfile, threading, time

import plans

# Seconds after which a run is stopped.
LIMIT = int(os.environ.get("SECONDS_EACH", "60"))

def golomb(marks):
    ends = {3: 3, 4: 6, 5: 11, 6: 17, 7: 25, 8: 34, 9: 44, 10: 55}[marks] + 4
    names = ["m0"] + [f"m{i}" for i in range(1, marks)]
    lines = [f"new_int(m{i},{i},{ends})" for i in range(1, marks)]
    lines += [f"int_lt(m{i},m{i + 1})" for i in range(1, marks - 1)]
    apart = [f"m{i}" for i in range(1, marks)]
    for i in range(1, marks):
        for j in range(i + 1, marks):
            lines.append(f"new_int(d{i}_{j},1,{ends})")
            lines.append(f"int_plus(m{i},d{i}_{j},m{j})")
            apart.append(f"d{i}_{j}")
    lines.append(f"int_array_allDiff([{','.join(apart)}])")
    return lines + [f"solve minimize m{marks - 1}"]

def knapsack(size):
    chance = random.Random(size)
    weights = [chance.randint(5, 30) for _ in range(size)]
    values = [w + chance.randint(-3, 8) for w in weights]
    names = [f"x{i}" for i in range(size)]
    lines = [f"new_bool({x})" for x in names] + [f"new_int(v,0,{sum(values)})"]
    lines.append(f"bool_array_pb_leq([{','.join(map(str, weights))}],[{','.join(names)}],{sum(weights) // 2})")
    lines.append(f"bool_array_pb_eq([{','.join(map(str, values))}],[{','.join(names)}],v)")
    return lines + ["solve maximize v"]

# Each job as pairs of a machine and a time. The six by six instance is that of Fisher and Thompson (1963).
JOBS = {
    3: [[(0, 3), (1, 2), (2, 2)], [(0, 2), (2, 1), (1, 4)], [(1, 4), (2, 3), (0, 1)]],
    6: [
        [(2, 1), (0, 3), (1, 6), (3, 7), (5, 3), (4, 6)],
        [(1, 8), (2, 5), (4, 10), (5, 10), (0, 10), (3, 4)],
        [(2, 5), (3, 4), (5, 8), (0, 9), (1, 1), (4, 7)],
        [(1, 5), (0, 5), (2, 5), (3, 3), (4, 8), (5, 9)],
        [(2, 9), (1, 3), (4, 5), (5, 4), (0, 3), (3, 1)],
        [(1, 3), (3, 3), (5, 9), (0, 10), (4, 4), (2, 1)],
    ],
}

def shop(size):
    """The jobs: those above, those of a shop with that name, and at random SIZE jobs on 8 machines, or on 5 where SIZE
    is 10."""
    if isinstance(size, str):
        return plans.shops()[size]
    if size in JOBS:
        return JOBS[size]
    chance, machines = random.Random(size), 5 if size == 10 else 8
    return [[(m, chance.randint(1, 9)) for m in chance.sample(range(machines), machines)] for _ in range(size)]

def one_by_one(size):
    """The hours where each task is begun as early as it can be, the jobs in turn."""
    free, ready, listed = {}, [0] * len(shop(size)), shop(size)
    for step in range(len(listed[0])):
        for j, job in enumerate(listed):
            machine, hours = job[step]
            ready[j] = free[machine] = max(ready[j], free.get(machine, 0)) + hours
    return max(ready)

def jobs(size):
    horizon = {3: 15, 6: 65}.get(size) or one_by_one(size)
    lines, tasks = [f"new_int(end,0,{horizon})"], {}
    for j, job in enumerate(shop(size)):
        before = None
        for machine, hours in job:
            s, e = f"s{j}_{machine}", f"e{j}_{machine}"
            lines += [f"new_int({s},0,{horizon - hours})", f"new_int({e},{hours},{horizon})"]
            lines.append(f"int_plus({s},{hours},{e})")
            if before:
                lines.append(f"int_leq({before},{s})")
            before = e
            tasks.setdefault(machine, []).append((s, e))
        lines.append(f"int_leq({before},end)")
    for machine, held in sorted(tasks.items()):
        for i, (s, e) in enumerate(held):
            for t, f in held[i + 1 :]:
                one, other = f"{s}_{t}", f"{t}_{s}"
                lines += [f"new_bool({one})", f"int_leq_reif({e},{t},{one})"]
                lines += [f"new_bool({other})", f"int_leq_reif({f},{s},{other})"]
                lines.append(f"bool_array_or([{one},{other}])")
    return lines + ["solve minimize end"]

# Each worker one task: the least cost, and then the least time.
def assignment(size):
    chance = random.Random(size)
    names = [[f"x{i}_{j}" for j in range(size)] for i in range(size)]
    lines = [f"new_bool({x})" for row in names for x in row]
    for row in names + [list(column) for column in zip(*names)]:
        lines.append(f"bool_array_sum_eq([{','.join(row)}],1)")
    every = ",".join(x for row in names for x in row)
    for name, most in (("cost", 6), ("hours", 9)):
        numbers = [chance.randint(1, most) for _ in range(size * size)]
        lines.append(f"new_int({name},0,{most * size})")
        lines.append(f"bool_array_pb_eq([{','.join(map(str, numbers))}],[{every}],{name})")
    return lines + ["solve minimize cost then hours"]

# Each worker one task, with costs to 100.
def costs(size):
    lines = [line for line in assignment(size)[:-1] if "cost" not in line and "hours" not in line]
    chance = random.Random(size)
    every = ",".join(f"x{i}_{j}" for i in range(size) for j in range(size))
    numbers = ",".join(str(chance.randint(1, 100)) for _ in range(size * size))
    lines += [f"new_int(cost,0,{20 * size})", f"bool_array_pb_eq([{numbers}],[{every}],cost)"]
    return lines + ["solve minimize cost"]

ROOM = 100

def things(size):
    chance = random.Random(size)
    return [chance.randint(15, 60) for _ in range(size)]

def first_fit(size):
    """The bins that hold the things where each goes into the first one that has room, the greatest first."""
    bins = []
    for thing in sorted(things(size), reverse=True):
        at = next((k for k, room in enumerate(bins) if thing <= room), len(bins))
        bins += [ROOM] if at == len(bins) else []
        bins[at] -= thing
    return len(bins)

# Things in as few bins as hold them.
def packing(size):
    most, sizes = first_fit(size), things(size)
    lines = [f"new_bool(x{i}_{b})" for i in range(size) for b in range(most)] + [f"new_bool(u{b})" for b in range(most)]
    for i in range(size):
        lines.append(f"bool_array_sum_eq([{','.join(f'x{i}_{b}' for b in range(most))}],1)")
    for b in range(most):
        held = ",".join(f"x{i}_{b}" for i in range(size))
        lines.append(f"bool_array_pb_leq([{','.join(map(str, sizes))},{-ROOM}],[{held},u{b}],0)")
    lines += [f"bool_array_or([u{b - 1},-u{b}])" for b in range(1, most)]
    lines += [f"new_int(bins,0,{most})", f"bool_array_sum_eq([{','.join(f'u{b}' for b in range(most))}],bins)"]
    return lines + ["solve minimize bins"]

# The fewest queens that attack or stand on every square of a board.
def domination(size):
    squares = [(i, j) for i in range(size) for j in range(size)]
    lines = [f"new_bool(q{i}_{j})" for i, j in squares]
    for i, j in squares:
        near = [f"q{k}_{l}" for k, l in squares if k == i or l == j or abs(k - i) == abs(l - j)]
        lines.append(f"bool_array_or([{','.join(near)}])")
    lines += [f"new_int(queens,0,{size})"]
    lines.append(f"bool_array_sum_eq([{','.join(f'q{i}_{j}' for i, j in squares)}],queens)")
    return lines + ["solve minimize queens"]

def best_knapsack(size):
    """The greatest value, found by a table over the weights."""
    *_, leq, eq, _ = knapsack(size)
    weights, values = ([int(w) for w in line.split("[")[1].split("]")[0].split(",")] for line in (leq, eq))
    best = [0] * (int(leq.rstrip(")").split(",")[-1]) + 1)
    for weight, value in zip(weights, values):
        for room in range(len(best) - 1, weight - 1, -1):
            best[room] = max(best[room], best[room - weight] + value)
    return best[-1]

FAMILIES = {
    "golomb": (golomb, [5, 6, 7, 8]),
    "knapsack": (knapsack, [10, 20, 25, 30, 35]),
    "jobs": (jobs, [3, 6, 8, 10]),
    "assignment": (assignment, [4, 6, 8]),
    "costs": (costs, [10, 20]),
    "packing": (packing, [12, 20]),
    "domination": (domination, [6, 8]),
    "shops": (jobs, ["la01", "la02", "la03", "la04", "la05", "ft10"]),
    "exams": (plans.exams, [40, 80]),
    "roster": (plans.roster, [20, 30]),
    "prices": (plans.prices, [6, 8]),
    "catalogue": (plans.catalogue, [200, 300]),
    "league": (plans.league, [8, 12]),
    "project": (plans.project, [30]),
    "tour": (plans.tour, [14, 20]),
}

def limited():
    resource.setrlimit(resource.RLIMIT_CPU, (LIMIT, LIMIT))

def run(words, out):
    """Runs a program, its output into a file. The answer is its code and the user's seconds."""
    with open(out, "wb") as sink:
        child = subprocess.Popen(words, stdout=sink, stderr=subprocess.DEVNULL, preexec_fn=limited)
        _, status, usage = os.wait4(child.pid, 0)
    return os.waitstatus_to_exitcode(status), usage.ru_utime

def told(err, begun, found):
    """Takes the seconds and the value of each solution that is told."""
    for line in err:
        if line.startswith("bee: best "):
            found.append((time.monotonic() - begun, line[10:].rsplit(",", 1)[0]))

def answered(words, out):
    """As `run`, of `bee solve`; with the seconds and the value of each solution."""
    found, begun = [], time.monotonic()
    with open(out, "wb") as sink:
        child = subprocess.Popen(words, stdout=sink, stderr=subprocess.PIPE, text=True, preexec_fn=limited)
        reader = threading.Thread(target=told, args=(child.stderr, begun, found))
        reader.start()
        _, status, usage = os.wait4(child.pid, 0)
        reader.join()
    return os.waitstatus_to_exitcode(status), usage.ru_utime, found

def after(found, seconds):
    """The best value that was told by then."""
    return next((value for at, value in reversed(found) if at <= seconds), "-")

def read(path):
    with open(path) as text:
        return text.read()

def learned(lines):
    return sum(1 for line in lines if line.split()[1] != "d")

def counts(answer):
    """The clauses that were learned in both derivations."""
    lines = answer.splitlines()
    proof = lines.index("proof") if "proof" in lines else len(lines) - 1
    second = lines.index("second") if "second" in lines else len(lines) - 1
    return learned(lines[proof + 1:second]), learned(lines[second + 1:-1])

def by_cadical(program, model, name, folder):
    """What cadical takes from value to value of an objective: its seconds, the questions, and the seconds of the last
    one; and those of `bee sat` at that. A plus stands behind what was stopped."""
    cnf, values, out = (os.path.join(folder, it) for it in ("c", "v", "o"))
    run([program, "compile", model], cnf)
    total, asked = 0, 0
    while total < LIMIT:
        code, seconds = run(["cadical", "-q", cnf], values)
        total, asked = total + seconds, asked + 1
        if code == 20:
            _, ours = run([program, "sat", cnf], out)
            end = "" if "s UNSATISFIABLE" in read(out) else "+"
            return f"{total:.3f} {asked} {seconds:.3f} {ours:.3f}{end}"
        if code != 10:
            break
        run([program, "decode", cnf, values], out)
        value = re.search(rf"^{name} = (-?\d+)$", read(out), re.M)[1]
        run([program, "bound", model, "--", value], cnf)
    return f"{total:.3f}+ {asked} - -"

def solved(program, family, size, folder):
    """The line of a model."""
    model, answer, cnf = (os.path.join(folder, it) for it in ("m.bee", "m.answer", "m.cnf"))
    lines = FAMILIES[family][0](size)
    with open(model, "w") as out:
        out.write("\n".join(lines) + "\n")
    code, seconds, found = answered([program, "solve", "--progress", model], answer)
    run([program, "compile", model], cnf)
    header = next(line for line in read(cnf).splitlines() if line.startswith("p cnf")).split()[2:]
    row, rounds = f"{family:10} {size:>4}  ", len(found)
    if code == 0:
        verdict, (first, second) = read(answer).splitlines()[1], counts(read(answer))
        row += f"{verdict:18} {' '.join(header):16} {first:7} {second:6} {rounds:4} {seconds:8.3f} "
    else:
        best = f"best {after(found, LIMIT)}"
        row += f"{best:18} {' '.join(header):16} {'-':>7} {'-':>6} {rounds:4} {seconds:8.3f}+"
    row += "  " + "; ".join(after(found, it) for it in (1, 5, 20))
    if " then " not in lines[-1] and shutil.which("cadical"):
        row += "  " + by_cadical(program, model, lines[-1].split()[-1], folder)
    if code == 0:
        row += "  " + subprocess.run([program, "check", model, answer], capture_output=True, text=True).stdout.strip()
    return row

def sized(word):
    return int(word) if word.isdigit() else word

def main():
    program, chosen = sys.argv[1], sys.argv[2:] or list(FAMILIES)
    with tempfile.TemporaryDirectory() as folder:
        for family in chosen:
            family, _, sizes = family.partition(":")
            for size in map(sized, sizes.split(",")) if sizes else FAMILIES[family][1]:
                print(solved(program, family, size, folder), flush=True)

if __name__ == "__main__":
    main()
