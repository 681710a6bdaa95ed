#!/usr/bin/env python3
"""Times the program over `clause_rings` that `rings.sh` builds: watches.py PROGRAM. For a chain of implications and for
random clauses of three literals it prints the clauses; the literals that became true where each variable is decided to
be false in turn, unless it has a value; the user CPU seconds that this and its propagation took, as a
share of what 1 + N such rounds take above one, where N rounds have ten million clauses, so that the reading, the
watching of the clauses and the first round aren't in it; the nanoseconds for each literal; and the propagations a
second beside those of minisat without its preprocessing on the same file, from what it tells, in the seconds behind its
reading. Each is the least of five runs. Where valgrind is there a second table has, for each literal, the instructions
of the second and third round and their misses of a cache of a megabyte and of one of 32 behind it: other work on the
machine changes none of these. Before both stand the bytes of memory for each clause and literal, from the peaks of runs
that differ in one of them; and the peak where half of a million clauses go and as many come again, beside that before.
With GLIBC_TUNABLES=glibc.malloc.hugetlb=1 around it the arrays lie in large pages, where the system gives them to who
asks."""
import os, re, shutil, subprocess, sys, tempfile

HERE = os.path.dirname(os.path.abspath(__file__))
FAMILIES = ("implications", "sparse")
SIZES = (100_000, 1_000_000, 3_000_000)
RUNS = 5
WORK = 10_000_000
CACHES = ("--D1=1048576,16,64", "--LL=33554432,16,64")


def run(words, source):
    """What was written, the user's seconds, and the peak memory in bytes."""
    with tempfile.TemporaryFile() as out:
        child = subprocess.Popen(words, stdin=source, stdout=out, stderr=subprocess.DEVNULL)
        _, _, usage = os.wait4(child.pid, 0)
        out.seek(0)
        return out.read().decode(), usage.ru_utime, usage.ru_maxrss * 1024


def written(words, cnf, path):
    """The path of a file that tells what to do with a CNF."""
    with open(path, "w") as sink:
        sink.write(words + "\n")
        sink.writelines(cnf)
    return path


def asked(words, path):
    """The same of a program that reads such a file."""
    with open(path) as source:
        return run(words, source)


def decided(program, cnf, rounds):
    """The literals of a round, and its seconds: those of more rounds above those of one, shared out."""
    with open(cnf) as text:
        lines = text.readlines()
    paths = [written(f"decide {count}", lines, f"{cnf}.{count}") for count in (1, 1 + rounds)]
    one, more = zip(*([asked([program], path) for path in paths] for _ in range(RUNS)))
    literals = int(more[0][0]) - int(one[0][0])
    return literals // rounds, (min(it[1] for it in more) - min(it[1] for it in one)) / rounds


def counted(program, cnf):
    """The literals of two rounds above one, and their instructions and the misses of both caches, as valgrind counts
    them."""
    with open(cnf) as text:
        lines = text.readlines()
    told = []
    for rounds in (1, 3):
        sums = cnf + ".sums"
        words = ["valgrind", "--tool=cachegrind", *CACHES, f"--cachegrind-out-file={sums}", program]
        literals, *_ = asked(words, written(f"decide {rounds}", lines, cnf + ".in"))
        with open(sums) as text:
            found = text.read()
        names = re.search(r"^events: (.*)$", found, re.M)[1].split()
        events = dict(zip(names, map(int, re.search(r"^summary: (.*)$", found, re.M)[1].split())))
        told.append((int(literals), events["Ir"], events["D1mr"] + events["D1mw"], events["DLmr"] + events["DLmw"]))
    return [more - one for one, more in zip(*told)]


def minisat(path):
    """Propagations, and the seconds behind the reading."""
    runs = []
    for _ in range(RUNS):
        text, *_ = run(["minisat", "-no-pre", path, os.devnull], subprocess.DEVNULL)
        told = lambda pattern: float(re.search(pattern + r"\s*:\s*([0-9.]+)", text)[1])
        runs.append((told("CPU time") - told("Parse time"), told("propagations")))
    seconds, count = min(runs)
    return count, seconds


def speeds(program, paths):
    row = "{:13} {:>9} {:>9} {:>9} {:>9} {:>11} {:>9} {:>11} {:>7}".format
    print(row("family", "clauses", "literals", "seconds", "ns each", "a second", "minisat", "a second", "beside"))
    for family in FAMILIES:
        before = None
        for size in SIZES:
            literals, took = decided(program, paths[family, size], WORK // size)
            count, seconds = minisat(paths[family, size])
            took = max(took, 0.000001)
            ours, theirs = literals / took, count / max(seconds, 0.001)
            print(row(family, size, literals, f"{took:.4f}", f"{took / literals * 1e9:.1f}", f"{ours:,.0f}", f"{seconds:.3f}", f"{theirs:,.0f}", f"{ours / theirs:.2f}"), flush=True)
            if before:
                print(f"{family}: {took / before[1]:.1f} times the seconds for {size / before[0]:g} times the clauses, and {literals / before[2]:.1f} times the literals")
            before = size, took, literals


def counts(program, paths):
    row = "{:13} {:>9} {:>9} {:>12} {:>9} {:>9}".format
    print(row("family", "clauses", "literals", "instructions", "past 1 MB", "past 32"))
    for (family, size), path in paths.items():
        literals, *sums = counted(program, path)
        print(row(family, size, literals // 2, *(f"{it / literals:.2f}" for it in sums)), flush=True)


def memory(program, folder):
    peak = lambda what, count, size: asked([program], written(f"{what} {count} {size}", ["p cnf 1000000 0\n"], os.path.join(folder, "it")))[2]
    none, threes, tens = (peak("hold", *it) for it in ((0, 0), (1_000_000, 3), (1_000_000, 10)))
    literal = (tens - threes) / 7e6
    print(f"{(threes - none) / 1e6 - 3 * literal:.1f} bytes a clause, {literal:.2f} a literal")
    print(f"a million clauses of three literals: {threes / 1e6:.1f} MB; half of them deleted and as many added again: {peak('renew', 1_000_000, 3) / 1e6:.1f} MB")


with tempfile.TemporaryDirectory() as folder:
    # First of all, since what a child shows as its peak begins with that of its parent.
    memory(sys.argv[1], folder)
    paths = {(family, size): os.path.join(folder, f"{family}-{size}") for family in FAMILIES for size in SIZES}
    for (family, size), path in paths.items():
        subprocess.run([sys.executable, os.path.join(HERE, "cnfs.py"), family, str(size), "1", path], check=True)
    speeds(sys.argv[1], paths)
    if shutil.which("valgrind"):
        counts(sys.argv[1], paths)
