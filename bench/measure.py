#!/usr/bin/env python3
# Compiles models and prints what that took: measure.py PROGRAM FAMILY:SIZE,SIZE.. ..
# A line for each model: its family and size, the CPU seconds (the least of nine runs or more, or of as many as
# twenty seconds hold), the peak memory in MB, and beside both texts and an empty model's memory in bytes for each
# variable and literal; the variables, the clauses, the cores that were made, the ledger's lines and the equations among
# them; and the bytes of both texts. A family of several sizes then
# has its growth exponents from its first model to its last, of the seconds and of the memory against the size, and of
# the seconds against the bytes of both texts. A model that the program refuses, or that takes longer than ten minutes,
# ends its family.
import math, os, signal, subprocess, sys, tempfile

HERE = os.path.dirname(os.path.abspath(__file__))
LIMIT = 600

class Refused(Exception):
    pass

class Models:
    def __init__(self, program, folder):
        self.program = program
        self.path, self.out, self.err = (os.path.join(folder, it) for it in ("m.bee", "m.cnf", "err"))

    # A process of its own writes the model, so that this one stays small: what a child shows as its peak begins with
    # that of its parent.
    def write(self, family, size):
        subprocess.run([sys.executable, os.path.join(HERE, "models.py"), family, str(size), self.path], check=True)

    def run(self):
        with open(self.out, "wb") as out, open(self.err, "wb") as err:
            child = subprocess.Popen([self.program, "compile", self.path], stdout=out, stderr=err)
            signal.signal(signal.SIGALRM, lambda *_: child.kill())
            signal.alarm(LIMIT)
            _, status, usage = os.wait4(child.pid, 0)
            signal.alarm(0)
        if status:
            with open(self.err) as err:
                raise Refused(err.read().strip() or f"stopped after {usage.ru_utime + usage.ru_stime:.0f} s")
        return usage.ru_utime + usage.ru_stime, usage.ru_maxrss * 1024

    def least(self):
        runs = [self.run()]
        while sum(seconds for seconds, _ in runs) < (20 if len(runs) < 9 else 1):
            runs.append(self.run())
        return min(runs)

    # Variables, clauses, literals, cores (the ledger's greatest id, since each core is split or encoded at the end),
    # the lines of the ledger, and those of them that are equations. Each equation answers a question; how many more
    # were asked the program doesn't know, for its counter takes no memory: the bound is proved.
    def counts(self):
        variables = clauses = literals = cores = lines = equations = 0
        with open(self.out) as text:
            for line in text:
                if line.startswith("p cnf"):
                    variables, clauses = map(int, line.split()[2:])
                elif line.startswith("c led"):
                    lines += 1
                    kind, core = line.split()[2:4]
                    equations += kind == "eq"
                    cores = max(cores, int(core))
                elif not line.startswith("c"):
                    literals += line.count(" ")
        return variables, clauses, literals, cores, lines, equations

def exponents(first, last):
    def growth(of, against):
        return f"{math.log(last[of] / first[of]) / math.log(last[against] / first[against]):.2f}"
    return f"seconds {growth('seconds', 'size')}, memory {growth('peak', 'size')}, seconds against the bytes {growth('seconds', 'bytes')}"

def measure(models, base, family, sizes):
    measured = []
    for size in sizes:
        models.write(family, size)
        try:
            seconds, peak = models.least()
        except Refused as why:
            print(f"{family:10} {size:7}  {why}", flush=True)
            break
        variables, clauses, literals, cores, lines, equations = models.counts()
        read, written = os.path.getsize(models.path), os.path.getsize(models.out)
        beside = (peak - base - read - written) / max(1, variables + literals)
        print(
            f"{family:10} {size:7}  {seconds:8.3f}  {peak / 1e6:7.1f}  {beside:10.1f}"
            f"  {variables:9}  {clauses:9}  {cores:9}  {lines:9}  {equations:9}  {read:11}  {written:10}",
            flush=True,
        )
        measured.append({"size": size, "seconds": seconds, "peak": peak, "bytes": read + written})
    if len(measured) > 1:
        return f"{family}: {exponents(measured[0], measured[-1])}"

def main(program, families):
    with tempfile.TemporaryDirectory() as folder:
        models = Models(program, folder)
        models.write("empty", 0)
        _, base = models.run()
        print("family        size   seconds  peak MB  bytes/item  variables    clauses      cores     ledger  equations  model bytes  text bytes")
        told = []
        for it in families:
            family, _, sizes = it.partition(":")
            told.append(measure(models, base, family, [int(size) for size in sizes.split(",")]))
        print("growth exponents", *(it for it in told if it), sep="\n")

main(sys.argv[1], sys.argv[2:])
