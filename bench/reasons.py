#!/usr/bin/env python3
"""Seeks the cores of models without solution and prints what that took: reasons.py BEE [whole] [FAMILY[:SIZE,..] ..];
`core.sh` says what is printed."""
import os, random, re, shutil, sys, tempfile

from timing import Stopped, chosen, compact, compiled, exponent, least, ratio, shown, written

sys.path.insert(0, os.path.dirname(os.path.abspath(__file__)))
import models, optima


def joined(words):
    return "[" + ",".join(map(str, words)) + "]"


def pigeons(clauses):
    """Five pigeons in four holes, among so many loose clauses of three literals that are met together."""
    chance, names = random.Random(clauses), [f"v{i}" for i in range(max(20, clauses // 3))]
    places = [[f"p{i}_{j}" for j in range(4)] for i in range(5)]
    hidden = [f"bool_array_or({joined(row)})" for row in places]
    hidden += [f"bool_array_or([-{a},-{b}])" for column in zip(*places) for i, a in enumerate(column) for b in column[:i]]
    truths = {name: chance.random() < 0.5 for name in names}
    loose = []
    while len(loose) < clauses:
        three = [(name, chance.random() < 0.5) for name in chance.sample(names, 3)]
        if any(truths[name] == sign for name, sign in three):
            loose.append(f"bool_array_or({joined(('' if sign else '-') + name for name, sign in three)})")
    statements = hidden + loose
    chance.shuffle(statements)
    return [f"new_bool({it})" for it in names + [x for row in places for x in row]] + statements


def clique(nodes):
    """A graph of so many nodes in four colours, five of whose nodes have an edge two by two."""
    chance = random.Random(nodes)
    colour = [chance.randrange(4) for _ in range(nodes)]
    edges = set()
    while len(edges) < 2 * nodes:
        a, b = sorted(chance.sample(range(nodes), 2))
        if colour[a] != colour[b]:
            edges.add((a, b))
    five = sorted(chance.sample(range(nodes), 5))
    edges |= {(a, b) for a in five for b in five if a < b}
    shuffled = sorted(edges)
    chance.shuffle(shuffled)
    return [f"new_int(n{i},1,4)" for i in range(nodes)] + [f"int_neq(n{a},n{b})" for a, b in shuffled]


def timetable(statements):
    """Lessons of classes that have some hours to choose from, until there are so many statements; one teacher has more
    lessons than hours."""
    chance, lines, declared = random.Random(statements), [], []
    for group in range(statements // 40):
        lessons = [f"c{group}_{i}" for i in range(8)]
        declared += [f"new_int({it},1,20)" for it in lessons]
        times = chance.sample(range(1, 21), 8)
        pairs = [(a, b) for a in range(8) for b in range(a)]
        lines += [f"int_neq({lessons[a]},{lessons[b]})" for a, b in pairs]
        lines += [f"int_{'leq' if times[a] < times[b] else 'geq'}({lessons[a]},{lessons[b]})" for a, b in chance.sample(pairs, 12)]
    late = [f"late{i}" for i in range(4)]
    declared += [f"new_int({it},1,20)" for it in late]
    lines += [f"int_geq({it},18)" for it in late] + [f"int_array_allDiff({joined(late)})"]
    chance.shuffle(lines)
    return declared + lines


def jobs(size):
    """The job shop of three by three or six by six, an hour shorter than it can be."""
    lines = optima.jobs(size)[:-1]
    return [*lines, f"int_leq(end,{ {3: 11, 6: 55}[size] - 1})"]


def sudoku(order):
    """A sudoku, filled but for the holes in two fifths of its places, of which one has a digit that stands in its
    column."""
    chance, side = random.Random(order), order * order
    digit = [[(i * order + i // order + j) % side + 1 for j in range(side)] for i in range(side)]
    places = [[f"x{i}_{j}" for j in range(side)] for i in range(side)]
    boxes = [[places[a + i][b + j] for i in range(order) for j in range(order)] for a in range(0, side, order) for b in range(0, side, order)]
    lines = [f"int_array_allDiff({joined(it)})" for it in [*places, *zip(*places), *boxes]]
    given = chance.sample([(i, j) for i in range(side) for j in range(side)], side * side * 3 // 5)
    wrong = given[0]
    lines += [f"int_eq({places[i][j]},{digit[i][j] if (i, j) != wrong else digit[i][(j + order) % side]})" for i, j in given]
    return [f"new_int({x},1,{side})" for row in places for x in row] + lines


def chain(size):
    """So many implications in a row, of which the first Boolean is true and the last one false."""
    names = [models.name(n) for n in range(size)]
    chance = random.Random(size)
    lines = [f"bool_array_or([-{a},{b}])" for a, b in zip(names, names[1:])] + [f"bool_array_or([{names[0]}])", f"bool_array_or([-{names[-1]}])"]
    chance.shuffle(lines)
    return [f"new_bool({it})" for it in names] + lines


# The sizes of each family for a first look, and those of a whole run besides.
FAMILIES = {
    "pigeons": ([100, 300], [1000, 3000]),
    "clique": ([30, 100], [300, 1000]),
    "timetable": ([120, 400], [1200]),
    "jobs": ([3], [6]),
    "sudoku": ([2, 3], [4]),
    "chain": ([50, 200], [1000, 2000]),
}


def by_picomus(folder, cnf):
    """How many clauses picomus leaves of the compiled ones, and its seconds."""
    if not shutil.which("picomus"):
        return None, None
    out = f"{folder}/picomus"
    try:
        _, seconds = least(["picomus", compact(cnf, f"{folder}/it.compact")], out, (20,))
    except Stopped:
        return None, None
    with open(out) as told:
        return len(re.findall(r"^v [1-9]", told.read(), re.M)), seconds


def measured(bee, folder, family, size):
    """A line of the table; and the statements, with the seconds of both modes."""
    lines = globals()[family](size)
    model, cnf, text, answer = (f"{folder}/{name}" for name in ("it.bee", "it.cnf", "it.core", "it.answer"))
    written(model, [*lines, "solve satisfy"])
    compiled(bee, model, cnf)
    _, solve = least([bee, "solve", model], answer)
    _, core = least([bee, "core", model], text)
    with open(text) as told:
        verdict = told.read(200).split("\n")[1]
    if not verdict.startswith("CORE "):
        raise Stopped(f"the verdict is {verdict}")
    _, check = least([bee, "checkcore", model, text])
    left, picomus = by_picomus(folder, cnf)
    count = sum(not it.startswith("new_") for it in lines)
    print(f"{family}, {size}, {count}, {verdict.split(' ')[1]}, {os.path.getsize(text) / 1e6:.2f}, {shown(solve)}, {shown(core)}, {ratio(core, solve)}, "
        f"{shown(check)}, {left if left is not None else '-'}, {shown(picomus)}, {ratio(core, picomus)}", flush=True)
    return count, solve, core


def main():
    bee, *words = sys.argv[1:]
    print("family, size, statements, core, MB of the text, solve, core's seconds, core/solve, checkcore, clauses of picomus, picomus, core/picomus")
    grown = []
    with tempfile.TemporaryDirectory() as folder:
        for family, sizes in chosen(FAMILIES, words):
            points = []
            for size in sizes:
                try:
                    points.append(measured(bee, folder, family, size))
                except Stopped as why:
                    print(f"{family}, {size}, {why}", flush=True)
                    break
            grown.append(f"{family}: solve {exponent([(it[0], it[1]) for it in points])}, core {exponent([(it[0], it[2]) for it in points])}")
    print("growth exponents against the statements, where a run takes 0.02 s or more", *grown, sep="\n")


if __name__ == "__main__":
    main()
