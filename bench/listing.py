#!/usr/bin/env python3
"""Lists the solutions of models and prints what that took: listing.py BEE [whole] [FAMILY[:SIZE,..] ..]; `all.sh` says
what is printed."""
import os, re, shutil, subprocess, sys, tempfile

from timing import Stopped, chosen, compact, compiled, exponent, least, ratio, shown, written

HERE = os.path.dirname(os.path.abspath(__file__))
sys.path.insert(0, HERE)
import models

FLAT = 'include "alldifferent.mzn";\n'


def joined(words):
    return "[" + ",".join(map(str, words)) + "]"


def square(size):
    return [[f"x{i}_{j}" for j in range(size)] for i in range(size)]


def queens(size):
    """Queens on a board."""
    return models.queens(size), FLAT + f"""array[1..{size}] of var 1..{size}: q;
constraint alldifferent(q);
constraint alldifferent([q[i] + i | i in 1..{size}]);
constraint alldifferent([q[i] - i | i in 1..{size}]);
solve satisfy;
"""


def quasigroup(size):
    """Latin squares whose first row is given, and from order 6 on the first column as well."""
    places = square(size)
    given = [(0, j) for j in range(size)] + [(i, 0) for i in range(1, size) if size > 5]
    lines = [f"new_int({x},1,{size})" for row in places for x in row]
    lines += [f"int_array_allDiff({joined(line)})" for line in [*places, *zip(*places)]]
    lines += [f"int_eq({places[i][j]},{i + j + 1})" for i, j in given]
    fixed = "".join(f"constraint x[{i + 1},{j + 1}] = {i + j + 1};\n" for i, j in given)
    return lines, FLAT + f"""array[1..{size},1..{size}] of var 1..{size}: x;
constraint forall(i in 1..{size})(alldifferent([x[i,j] | j in 1..{size}]));
constraint forall(j in 1..{size})(alldifferent([x[i,j] | i in 1..{size}]));
{fixed}solve satisfy;
"""


def magic(size):
    """Magic squares; from order 4 on with 1 in a corner."""
    n, total = size, size * (size * size + 1) // 2
    corner = size > 3
    lines = [*models.magic(size), *(["int_eq(x0_0,1)"] if corner else [])]
    return lines, FLAT + f"""array[1..{n},1..{n}] of var 1..{n * n}: x;
constraint alldifferent([x[i,j] | i, j in 1..{n}]);
constraint forall(i in 1..{n})(sum(j in 1..{n})(x[i,j]) = {total} /\\ sum(j in 1..{n})(x[j,i]) = {total});
constraint sum(i in 1..{n})(x[i,i]) = {total} /\\ sum(i in 1..{n})(x[i,{n + 1} - i]) = {total};
{f"constraint x[1,1] = 1;" if corner else ""}solve satisfy;
"""


def subsets(total):
    """Subsets of 1 to 24 with a sum."""
    count = 24
    names = [f"b{i}" for i in range(1, count + 1)]
    lines = [f"new_bool({it})" for it in names] + [f"bool_array_pb_eq({joined(range(1, count + 1))},{joined(names)},{total})"]
    return lines, f"array[1..{count}] of var bool: b;\nconstraint sum(i in 1..{count})(i * bool2int(b[i])) = {total};\nsolve satisfy;\n"


def rulers(length):
    """Rulers of six marks, not longer than this, all of whose distances differ."""
    marks = 6
    lines = [f"new_int(m{i},{i},{length})" for i in range(1, marks)]
    lines += [f"int_lt(m{i},m{i + 1})" for i in range(1, marks - 1)]
    apart = [f"m{i}" for i in range(1, marks)]
    for i in range(1, marks):
        for j in range(i + 1, marks):
            lines += [f"new_int(d{i}_{j},1,{length})", f"int_plus(m{i},d{i}_{j},m{j})"]
            apart.append(f"d{i}_{j}")
    lines.append(f"int_array_allDiff({joined(apart)})")
    return lines, FLAT + f"""array[1..{marks - 1}] of var 1..{length}: m;
constraint forall(i in 1..{marks - 2})(m[i] < m[i+1]);
constraint alldifferent([m[i] | i in 1..{marks - 1}] ++ [m[j] - m[i] | i, j in 1..{marks - 1} where i < j]);
solve satisfy;
"""


def timetable(hours):
    """Two classes of four lessons each by the same four teachers in so many hours: 65,160 solutions in six of them."""
    lessons = [[f"{group}{teacher}" for teacher in range(1, 5)] for group in "ab"]
    lines = [f"new_int({it},1,{hours})" for group in lessons for it in group]
    lines += [f"int_array_allDiff({joined(group)})" for group in lessons]
    lines += [f"int_neq({a},{b})" for a, b in zip(*lessons)]
    return lines, FLAT + f"""array[1..4] of var 1..{hours}: a;
array[1..4] of var 1..{hours}: b;
constraint alldifferent(a) /\\ alldifferent(b) /\\ forall(i in 1..4)(a[i] != b[i]);
solve satisfy;
"""


def pigeons(size):
    """So many pigeons in one hole fewer, two by two: there is no solution."""
    lines = [f"new_int(p{i},1,{size - 1})" for i in range(size)]
    lines += [f"int_neq(p{i},p{j})" for i in range(size) for j in range(i)]
    return lines, f"""array[1..{size}] of var 1..{size - 1}: p;
constraint forall(i, j in 1..{size} where i < j)(p[i] != p[j]);
solve satisfy;
"""


# The sizes of each family for a first look, and those of a whole run besides.
FAMILIES = {
    "queens": ([6, 8, 10], [12]),
    "quasigroup": ([4, 5], [6]),
    "magic": ([3], [4]),
    "subsets": ([30, 40], [50, 60, 80, 150]),
    "rulers": ([17, 20], [25, 30]),
    "timetable": ([4, 5], [6]),
    "pigeons": ([6, 7], [8]),
}


class Beside:
    """The other solvers on one model."""

    def __init__(self, folder):
        self.folder = folder

    def gecode(self, text):
        """How many solutions fzn-gecode finds, and its seconds; flattening isn't timed."""
        if not (shutil.which("minizinc") and shutil.which("fzn-gecode")):
            return None, None
        source, flat, out = (f"{self.folder}/{name}" for name in ("it.mzn", "it.fzn", "gecode"))
        written(source, [text])
        words = ["minizinc", "-c", "--solver", "org.gecode.gecode", source, "--fzn", flat]
        subprocess.run(words, stdout=subprocess.DEVNULL, stderr=subprocess.DEVNULL, check=True)
        try:
            _, seconds = least(["fzn-gecode", "-a", flat], out)
        except Stopped:
            return None, None
        with open(out) as told:
            return sum(line.startswith("-----") for line in told), seconds

    def clasp(self, cnf):
        """How many valuations clasp finds of the variables that the clauses have, and its seconds."""
        if not shutil.which("clasp"):
            return None, None
        out = f"{self.folder}/clasp"
        try:
            _, seconds = least(["clasp", "0", "-q", compact(cnf, f"{self.folder}/it.compact")], out, (10, 20, 30))
        except Stopped:
            return None, None
        with open(out) as told:
            found = re.search(r"Models\s+:\s+(\d+)", told.read())
        return int(found[1]) if found else None, seconds


def measured(bee, folder, family, size):
    """A line of the table; and the solutions, with the seconds of the walk and of the whole."""
    lines, mzn = globals()[family](size)
    model, cnf, text = (f"{folder}/{name}" for name in ("it.bee", "it.cnf", "it.all"))
    written(model, [*lines, "solve satisfy"])
    compiled(bee, model, cnf)
    _, walk = least([bee, "all", model, "--budget", "1"], text, (0, 8))
    _, whole = least([bee, "all", model], text)
    with open(text) as told:
        count = int(next(line for place, line in enumerate(told) if place == 1).split(" ")[1])
    _, check = least([bee, "checkall", model, text])
    other, gecode = Beside(folder).gecode(mzn)
    valuations, clasp = Beside(folder).clasp(cnf)
    if other not in (None, count):
        raise Stopped(f"gecode finds {other} solutions, and the list has {count}")
    print(f"{family}, {size}, {count}, {os.path.getsize(text) / 1e6:.2f}, {shown(walk)}, {shown(whole)}, {shown(check)}, {ratio(check, whole)}, "
        f"{shown(gecode)}, {ratio(walk, gecode)}, {ratio(whole, gecode)}, {valuations if valuations is not None else '-'}, {shown(clasp)}, "
        f"{ratio(whole, clasp)}", flush=True)
    return count, walk, whole, check


def main():
    bee, *words = sys.argv[1:]
    print("family, size, solutions, MB of the list, walk, all, checkall, checkall/all, gecode, walk/gecode, all/gecode, "
        "valuations by clasp, clasp, all/clasp")
    grown = []
    with tempfile.TemporaryDirectory() as folder:
        for family, sizes in chosen(FAMILIES, words):
            points = []
            for size in sizes:
                try:
                    points.append(measured(bee, folder, family, size))
                except Stopped as why:
                    print(f"{family}, {size}, {why}", flush=True)
                    break
            told = [exponent([(it[0], it[at]) for it in points]) for at in (1, 2, 3)]
            grown.append(f"{family}: walk {told[0]}, all {told[1]}, checkall {told[2]}")
    print("growth exponents against the solutions, where a run takes 0.02 s or more", *grown, sep="\n")


if __name__ == "__main__":
    main()
