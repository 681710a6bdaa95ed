#!/usr/bin/env python3
"""Times `bee check` beside `bee solve` over what that writes: solved.py PROGRAM [FAMILY ..]. What is printed stands in
`check.sh`."""
import os, subprocess, sys, tempfile

sys.path.insert(0, os.path.dirname(os.path.abspath(__file__)))
import answers, models, optima

SATISFY = "solve satisfy"


def pigeons(size):
    yield from answers.Pigeons(size - 1).model()
    yield SATISFY


def quasigroup(size):
    yield from models.quasigroup(size)
    yield SATISFY


def spoiled(size):
    """A Latin square in which two places of a row are to have one value."""
    yield from models.quasigroup(size)
    yield "int_eq(x0_0,x0_1)"
    yield SATISFY


def count(size):
    yield from models.count(size)
    yield SATISFY


def beside_least(make):
    """A model beside an integer whose least value is sought, so that the whole ledger stands in the answer."""

    def model(size):
        yield "new_int(least,0,1)"
        yield from make(size)
        yield "solve minimize least"

    return model


def queens(size):
    """Queens of which the first two stand in one diagonal."""
    yield from models.queens(size)
    yield from ("int_eq(q0,1)", "int_eq(q1,2)", SATISFY)


def cornered(size):
    """Queens that all stand in the lower half of the board but for one."""
    yield from models.queens(size)
    yield from (f"int_leq(q{n},{size // 2})" for n in range(size - 1))
    yield SATISFY


FAMILIES = {
    "pigeons": (pigeons, [7, 8, 9]),
    "quasigroup": (quasigroup, [15]),
    "spoiled": (spoiled, [15]),
    "count": (count, [2000]),
    "certified": (beside_least(models.count), [2000]),
    "golomb": (optima.golomb, [7]),
    "queens": (queens, [16]),
    "cornered": (cornered, [16]),
}


def chosen_family(word):
    """The model and the sizes of a family: one of these, or one of those that are compiled, as `greatest:500,1000`."""
    name, _, sizes = word.partition(":")
    if not sizes:
        return name, *FAMILIES[name]
    return name, beside_least(getattr(models, name)), [int(size) for size in sizes.split(",")]


def timed(words, path):
    """What the program wrote is at the path; its CPU seconds, and its exit code."""
    with open(path, "wb") as out:
        child = subprocess.Popen(words, stdout=out)
        _, status, usage = os.wait4(child.pid, 0)
    return usage.ru_utime + usage.ru_stime, os.waitstatus_to_exitcode(status)


def parts(lines):
    """How many lines of the ledger and of derivations there are."""
    if b"ledger" not in lines:
        return 0, 0
    ledger, proof = lines.index(b"ledger"), lines.index(b"proof")
    return proof - ledger - 1, len(lines) - proof - 2 - lines[proof:].count(b"second")


def main():
    program, *chosen = sys.argv[1:]
    row = "{:11} {:>5}  {:15} {:>8} {:>8} {:>10} {:>8} {:>8} {:>6}".format
    print(row("family", "size", "verdict", "ledger", "proof", "bytes", "solve", "check", "beside"))
    with tempfile.TemporaryDirectory() as folder:
        model, answer, told = (os.path.join(folder, name) for name in ("model", "answer", "told"))
        for family, make, sizes in map(chosen_family, chosen or FAMILIES):
            for size in sizes:
                with open(model, "w") as out:
                    out.write("\n".join(make(size)) + "\n")
                solving, code = min(timed([program, "solve", model], answer) for _ in range(3))
                if code:
                    sys.exit(f"{family} {size}: solve ended with {code}")
                checking, code = min(timed([program, "check", model, answer], told) for _ in range(3))
                verdict = open(told).read().strip()
                if code:
                    sys.exit(f"{family} {size}: {verdict}")
                lines = open(answer, "rb").read().split(b"\n")[:-1]
                ledger, proof = parts(lines)
                print(row(family, size, verdict.removeprefix("ACCEPTED "), ledger, proof, os.path.getsize(answer), f"{solving:.3f}", f"{checking:.3f}", f"{checking / max(solving, 0.001):.2f}"), flush=True)


if __name__ == "__main__":
    main()
