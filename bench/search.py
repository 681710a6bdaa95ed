#!/usr/bin/env python3
"""Times solvers on the same files: search.py SEARCH BEE [FAMILY[:SIZE-SEED,..] ..]. Each file is solved by the program
of `search.sh` (none where SEARCH is -), by `bee sat`, by minisat, by the same without its preprocessing (plain), and by
cadical and picosat as Debian has them; the least of RUNS runs (3), or one where it takes more than ten seconds, in the
user CPU seconds. A run is stopped after SECONDS_EACH seconds (60), and a plus stands behind these. A
line for each file: what was found, the clauses that were learned, the conflicts of minisat, the seconds of each, and
those of `bee sat` beside those of minisat, of plain and of cadical, where one of both ended. Behind them stand the
geometric means of these over the files of each family, over all that have a solution, all that have none, and all, and
behind each in brackets the same over the files at which one of both takes a second or more. It ends with an error where
two don't find the same."""
import math, os, re, resource, shutil, subprocess, sys, tempfile, time

HERE = os.path.dirname(os.path.abspath(__file__))
# Seconds after which a run is stopped, and how many runs there are.
LIMIT = int(os.environ.get("SECONDS_EACH", "60"))
RUNS = int(os.environ.get("RUNS", "3"))

# The files of each family: SIZE and SEED of `cnfs.py`.
FAMILIES = {
    "random": [(200, 1), (200, 2), (200, 3), (200, 4), (250, 1), (250, 2), (250, 3), (250, 4)],
    "planted": [(300, 1), (300, 2), (350, 3), (350, 5), (350, 6), (400, 4)],
    "colours": [(300, 1), (400, 2), (400, 5), (400, 6)],
    "pigeons": [(8, 0), (9, 0), (10, 0)],
    "parity": [(24, 1), (26, 1), (26, 2)],
    "mitre": [(5, 0), (6, 0), (7, 0)],
    "factoring": [(13, 3), (14, 1), (15, 2), (16, 3)],
    "pebbling": [(20, 0), (30, 0)],
    "langford": [(9, 0), (10, 0), (20, 0), (24, 0), (28, 0)],
    "costas": [(11, 0), (12, 0), (13, 0), (14, 0)],
    "latin": [(30, 1), (30, 5), (33, 2), (35, 3)],
    "quasigroup": [(20, 0), (30, 0)],
    "spoiled": [(20, 0), (30, 0)],
    "sudoku": [(25, 1), (25, 2)],
    "golomb": [(7, 25), (7, 24), (8, 34), (8, 33)],
    "jobs": [(6, 55), (6, 54), (8, 70)],
    "packing": [(12, 0), (16, 0), (16, 1)],
    "magic": [(4, 0), (5, 0)],
    "golfers": [(4, 3), (5, 3)],
    "designs": [(9, 1), (13, 1)],
    "knapsack": [(20, 0), (20, 1), (25, 0), (25, 1)],
}

OTHERS = {"plain": ["minisat", "-no-pre"], "cadical": ["cadical", "-q", "-n"], "picosat": ["picosat", "-n"]}
COLUMNS = ("search", "bee sat", "minisat", *OTHERS)
# What stands beside `bee sat`.
BESIDE = ("minisat", "plain", "cadical")

SAT, UNSAT, UNKNOWN = "sat", "unsat", "-"


def timed(words, given=None):
    """The seconds, and what was written."""
    with tempfile.TemporaryFile() as out, open(given or os.devnull, "rb") as source:
        child = subprocess.Popen(words, stdin=source, stdout=out, stderr=subprocess.DEVNULL,
            preexec_fn=lambda: resource.setrlimit(resource.RLIMIT_CPU, (LIMIT, LIMIT)))
        _, status, usage = os.wait4(child.pid, 0)
        out.seek(0)
        return usage.ru_utime, out.read().decode()


def least(words, given=None):
    runs = [timed(words, given)]
    while len(runs) < RUNS and runs[0][0] < 10:
        runs.append(timed(words, given))
    return min(runs)


def told(text):
    """What a solver's text says."""
    found = re.search(r"^(?:s )?(SATISFIABLE|UNSATISFIABLE)", text, re.M)
    return UNKNOWN if not found else SAT if found[1] == "SATISFIABLE" else UNSAT


def number(pattern, text):
    found = re.search(pattern, text)
    return int(found[1]) if found else 0


def compared(program, bee, path):
    """What was found, the clauses that were learned, the conflicts of minisat, and each solver's seconds, by name."""
    seconds, found, learned = {}, {}, UNKNOWN
    if program != UNKNOWN:
        seconds["search"], text = least([program], path)
        words = text.split()
        found["search"] = UNKNOWN if len(words) < 2 else SAT if words[0] == "true" else UNSAT
        learned = int(words[1]) if len(words) > 1 else 0
    seconds["bee sat"], text = least([bee, "sat", path])
    found["bee sat"] = told(text)
    if found["bee sat"] == UNSAT and learned == UNKNOWN:
        learned = sum(" d " not in line for line in text.splitlines()[1:])
    seconds["minisat"], text = least(["minisat", path, os.devnull])
    found["minisat"], beside = told(text), number(r"conflicts\s*: (\d+)", text)
    for name, command in OTHERS.items():
        if shutil.which(command[0]):
            seconds[name], text = least([*command, path])
            found[name] = told(text)
    if len({it for it in found.values() if it != UNKNOWN}) > 1:
        sys.exit(f"{path}: {found}")
    return found, learned, beside, seconds


def written(bee, family, size, seed, folder):
    """The path of a file of a family."""
    path = os.path.join(folder, "it")
    subprocess.run([sys.executable, os.path.join(HERE, "cnfs.py"), family, str(size), str(seed), path], check=True)
    with open(path) as text:
        if text.read(5) == "p cnf":
            return path
    with open(path + ".cnf", "wb") as out:
        subprocess.run([bee, "compile", path], stdout=out, check=True)
    return path + ".cnf"


def ratios(found, seconds):
    """The seconds of `bee sat` beside those of each other that was there, and whether one of both takes a second."""
    over = {}
    for name in BESIDE:
        if name in seconds and (found[name] != UNKNOWN or found["bee sat"] != UNKNOWN):
            ours, theirs = seconds["bee sat"], seconds[name]
            over[name] = max(ours, 0.001) / max(theirs, 0.001), max(ours, theirs) >= 1
    return over


def mean(numbers):
    return math.exp(sum(map(math.log, numbers)) / len(numbers))


def means(rows):
    """The geometric means over some files: over all, and over those that take a second."""
    for name in BESIDE:
        here = [row[name] for row in rows if name in row]
        long = [number for number, is_long in here if is_long]
        all_of_them = f"{mean([number for number, _ in here]):.2f}" if here else UNKNOWN
        yield all_of_them + (f" ({mean(long):.2f})" if long else "")


def shown(found, seconds, name):
    return UNKNOWN if name not in seconds else f"{seconds[name]:.3f}{'' if found[name] != UNKNOWN else '+'}"


def verdict(found):
    return next((it for it in found.values() if it != UNKNOWN), UNKNOWN)


def main():
    program, bee, *chosen = sys.argv[1:]
    row = "{:10} {:>5} {:>4} {:6} {:>9} {:>9} {:>8} {:>8} {:>8} {:>8} {:>8} {:>8} {:>12} {:>12} {:>12}".format
    print(row("family", "size", "seed", "found", "learned", "minisat", *COLUMNS, *BESIDE))
    begun, all_rows, kinds = time.time(), [], {SAT: [], UNSAT: [], UNKNOWN: []}
    with tempfile.TemporaryDirectory() as folder:
        for family in chosen or FAMILIES:
            family, _, sizes = family.partition(":")
            files = [tuple(map(int, it.split("-"))) for it in sizes.split(",")] if sizes else FAMILIES[family]
            rows = []
            for size, seed in files:
                found, learned, beside, seconds = compared(program, bee, written(bee, family, size, seed, folder))
                over = ratios(found, seconds)
                rows.append(over)
                kinds[verdict(found)].append(over)
                took = [shown(found, seconds, it) for it in COLUMNS]
                told_over = [f"{over[it][0]:.2f}" if it in over else UNKNOWN for it in BESIDE]
                print(row(family, size, seed, verdict(found), learned, beside, *took, *told_over), flush=True)
            all_rows += rows
            print(row(family, len(rows), "", "mean", *[""] * 8, *means(rows)), flush=True)
    for kind, rows in kinds.items():
        if rows:
            print(row("", len(rows), "", kind, *[""] * 8, *means(rows)))
    print(row("all", len(all_rows), "", "mean", *[""] * 8, *means(all_rows)))
    print(f"{time.time() - begun:.0f} s of wall-clock time, {RUNS} runs at most of {LIMIT} s at most")


if __name__ == "__main__":
    main()
