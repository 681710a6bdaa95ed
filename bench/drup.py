#!/usr/bin/env python3
"""Times checkers of DRUP proofs: drup.py BEE [FAMILY[:SIZE-SEED,..] ..]. The clauses of a family are those of
`cnfs.py`, and their proofs those of cadical by `--plain --no-binary`. The family `chain` has SIZE implications in a
row, and a proof by hand with SEED lines, of which line k is shown from implication k on by each one behind it. Each
file is checked by `bee drup`, and by drat-trim, forward, where it is there; the least of three runs, in user CPU
seconds. A line for each file: the bytes of the clauses, the lines and bytes of the proof, what is propagated, as it is
known of chains and else `-`, what cadical propagated as it sought the proof, its seconds, and those of the checkers. It
stops with an error where a proof isn't accepted."""
import os, re, resource, shutil, subprocess, sys, tempfile

HERE = os.path.dirname(os.path.abspath(__file__))

# The files of each family: SIZE and SEED of `cnfs.py`; the implications and the lines of a chain.
FAMILIES = {
    "random": [(100, 1), (150, 2), (200, 1), (200, 3)],
    "pigeons": [(7, 0), (8, 0), (9, 0)],
    "parity": [(20, 1), (24, 1)],
    "mitre": [(4, 0), (5, 0), (6, 0)],
    "pebbling": [(20, 0), (30, 0)],
    "chain": [(10_000, 100), (10_000, 1_000), (100_000, 10), (100_000, 100), (100_000, 1_000), (400_000, 10), (400_000, 100)],
}


def timed(words, out):
    """The exit code and the seconds of a command."""
    before = resource.getrusage(resource.RUSAGE_CHILDREN).ru_utime
    with open(out, "wb") as sink:
        code = subprocess.run(words, stdout=sink, stderr=subprocess.STDOUT).returncode
    return code, resource.getrusage(resource.RUSAGE_CHILDREN).ru_utime - before


def chain(size, lines, cnf, proof):
    """How many literals are made true by implications."""
    last, one, other = size + 1, size + 2, size + 3
    with open(cnf, "w") as out:
        out.write(f"p cnf {other} {size + 4}\n")
        out.writelines(f"-{v} {v + 1} 0\n" for v in range(1, last))
        out.writelines(f"{a} {b} 0\n" for a in (one, -one) for b in (other, -other))
    with open(proof, "w") as out:
        out.writelines(f"-{v} {last} 0\n" for v in range(1, lines + 1))
        out.write(f"{one} 0\n")
    return sum(last - v for v in range(1, lines + 1))


def solved(family, size, seed, cnf, proof, log):
    """What cadical propagated, and its seconds."""
    subprocess.run([sys.executable, os.path.join(HERE, "cnfs.py"), family, str(size), str(seed), cnf], check=True)
    code, seconds = timed(["cadical", "--plain", "--no-binary", "-n", cnf, proof], log)
    if code != 20:
        sys.exit(f"{family} {size}-{seed}: cadical ended with {code}")
    return int(re.search(r"propagations:\s+(\d+)", open(log).read())[1]), seconds


def checked(words, log, accepted):
    runs = [timed(words, log) for _ in range(3)]
    if not re.search(accepted, open(log).read(), re.M):
        sys.exit(f"{' '.join(words)}: not accepted")
    return min(seconds for _, seconds in runs)


def main():
    bee, chosen = sys.argv[1], sys.argv[2:] or list(FAMILIES)
    print("file, bytes, lines, bytes of the proof, propagated, propagated by cadical, its seconds, bee drup, drat-trim")
    with tempfile.TemporaryDirectory() as folder:
        cnf, proof, log = (os.path.join(folder, name) for name in ("cnf", "proof", "log"))
        for word in chosen:
            family, _, rest = word.partition(":")
            files = [tuple(map(int, it.split("-"))) for it in rest.split(",")] if rest else FAMILIES[family]
            for size, seed in files:
                known = by_cadical = seconds = "-"
                if family == "chain":
                    known = chain(size, seed, cnf, proof)
                else:
                    by_cadical, seconds = solved(family, size, seed, cnf, proof, log)
                    seconds = f"{seconds:.2f}"
                with open(proof) as text:
                    lines = sum(1 for _ in text)
                ours = checked([bee, "drup", cnf, proof], log, "^ACCEPTED$")
                other = checked(["drat-trim", cnf, proof, "-f"], log, "^s VERIFIED") if shutil.which("drat-trim") else None
                print(f"{family} {size}-{seed}, {os.path.getsize(cnf)}, {lines}, {os.path.getsize(proof)}, {known}, {by_cadical}, {seconds}, {ours:.3f}, "
                    + ("-" if other is None else f"{other:.3f}"), flush=True)


main()
