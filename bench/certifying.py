#!/usr/bin/env python3
"""Makes answers of the refutations of another solver and prints what that took: certifying.py BEE [whole]
[FAMILY[:SIZE,..] ..]; `certify.sh` says what is printed."""
import os, re, subprocess, sys, tempfile

from timing import Stopped, chosen, compiled, exponent, least, ratio, shown, written

HERE = os.path.dirname(os.path.abspath(__file__))
sys.path.insert(0, HERE)
import cnfs


def clauses(family, size, seed, folder):
    """A model of the clauses of a family of `cnfs.py`."""
    path = f"{folder}/family"
    subprocess.run([sys.executable, os.path.join(HERE, "cnfs.py"), family, str(size), str(seed), path], check=True)
    with open(path) as source:
        head, *lines = source.read().splitlines()
    yield from (f"new_bool(v{v})" for v in range(1, int(head.split()[2]) + 1))
    for line in lines:
        literals = (word.replace("-", "-v") if word[0] == "-" else f"v{word}" for word in line.split()[:-1])
        yield f"bool_array_or([{','.join(literals)}])"


def random_(size, folder):
    return clauses("random", size, 1, folder)


def pigeons(size, folder):
    return clauses("pigeons", size, 0, folder)


def parity(size, folder):
    return clauses("parity", size, 1, folder)


def mitre(size, folder):
    return clauses("mitre", size, 0, folder)


def jobs(hours, folder):
    """The job shop of six by six within so many hours, of which it needs 55."""
    return [it for it in cnfs.jobs(6, hours) if not it.startswith("solve")]


# The sizes of each family for a first look, and those of a whole run besides.
FAMILIES = {
    "random": ([100, 150], [200, 220, 240]),
    "pigeons": ([7, 8], [9, 10]),
    "parity": ([18, 20], [22, 24]),
    "mitre": ([4], [5, 6]),
    "jobs": ([54], []),
}


def refuted(cnf, proof, log):
    """What cadical propagated, and its seconds."""
    _, seconds = least(["cadical", "--plain", "--no-binary", "-n", cnf, proof], log, (20,))
    with open(log) as told:
        return int(re.search(r"propagations:\s+(\d+)", told.read())[1]), seconds


def hinted(answer, path):
    """The derivation of an answer, as a refutation with hints."""
    with open(answer) as source, open(path, "w") as text:
        inside = False
        for line in source:
            if line == "end\n":
                break
            if inside:
                text.write(line)
            inside = inside or line == "proof\n"


def lines_in(path):
    with open(path) as text:
        return sum(1 for _ in text)


def measured(bee, folder, family, size):
    """A line of the table; and what was propagated, with the seconds of the modes."""
    names = ("it.bee", "it.cnf", "it.drup", "it.log", "it.answer", "it.lrat")
    model, cnf, proof, log, answer, hints = (f"{folder}/{name}" for name in names)
    written(model, [*globals()[family + "_" * (family == "random")](size, folder), "solve satisfy"])
    compiled(bee, model, cnf)
    propagated, cadical = refuted(cnf, proof, log)
    _, drup = least([bee, "drup", cnf, proof])
    _, certify = least([bee, "certify", model, proof], answer)
    hinted(answer, hints)
    _, again = least([bee, "certify", model, hints], log)
    _, check = least([bee, "check", model, answer])
    print(f"{family}, {size}, {lines_in(proof)}, {os.path.getsize(proof)}, {propagated}, {shown(cadical)}, {shown(drup)}, {ratio(drup, cadical)}, "
        f"{shown(certify)}, {ratio(certify, cadical)}, {lines_in(answer)}, {os.path.getsize(answer)}, {lines_in(hints)}, {os.path.getsize(hints)}, "
        f"{shown(again)}, {ratio(again, cadical)}, {shown(check)}", flush=True)
    return propagated, drup, certify


def main():
    bee, *words = sys.argv[1:]
    print("family, size, lines of the proof, its bytes, propagated by cadical, cadical, drup, drup/cadical, certify, certify/cadical, lines of the document, "
        "its bytes, lines with hints, their bytes, certify with hints, that/cadical, check")
    grown = []
    with tempfile.TemporaryDirectory() as folder:
        for family, sizes in chosen(FAMILIES, words):
            points = []
            for size in sizes:
                try:
                    points.append(measured(bee, folder, family, size))
                except Stopped as why:
                    print(f"{family}, {size}, {why}", flush=True)
                    break
            grown.append(f"{family}: drup {exponent([(it[0], it[1]) for it in points])}, certify {exponent([(it[0], it[2]) for it in points])}")
    print("growth exponents against what cadical propagated, where a run takes 0.02 s or more", *grown, sep="\n")


if __name__ == "__main__":
    main()
