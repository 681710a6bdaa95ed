#!/usr/bin/env python3
"""Runs the program on the largest texts that it takes, and on the same at a tenth of their size: loads.py PROGRAM
FOLDER [LOAD ..]. What the loads are stands in `load.sh`. A line for each run: the load and the mode, the bytes of the
text, the exit code with the line on standard error, the bytes written, the CPU seconds and the peak memory, and
behind the second run how many times more seconds and memory that took."""
import os, resource, subprocess, sys

sys.path.insert(0, os.path.dirname(os.path.abspath(__file__)))
import models

MOST = 16_777_216
# A run is stopped after so many seconds, and has so many bytes of memory.
SECONDS = 600
MEMORY = 8 * 2**30
GOAL = "\nsolve satisfy\n"


def filled(size, front, repeated, back):
    """A text of so many bytes, of pieces that are made from their numbers and joined by commas where they stand in a
    list."""
    yield front
    left = size - len(front) - len(back) - len(GOAL)
    number, pieces = 0, []
    while True:
        piece = repeated(number)
        if len(piece) > left:
            break
        left -= len(piece)
        pieces.append(piece)
        number += 1
        if len(pieces) == 65536:
            yield "".join(pieces)
            pieces = []
    yield "".join(pieces)
    yield back + " " * left + GOAL


def text_of(front, repeated, back=""):
    return lambda size: filled(size, front, repeated, back)


def listed(front, term, back):
    return text_of(front, lambda n: ("," if n else "") + term(n), back)


def lines(make):
    """A model of so many lines."""
    return lambda size: ("\n".join(make(size)) + GOAL for _ in range(1))


def chain(size):
    """Equal Booleans, all in one line."""
    names = [models.name(n) for n in range(size)]
    yield "".join(f"new_bool({name})" for name in names)
    yield "".join(f"bool_eq({a},{b})" for a, b in zip(names, names[1:]))


def copied(size, front, first, line):
    """A text of so many bytes that adds one clause again and again behind its front, which tells how often."""
    count = (size - 60) // (len(line) + 5)
    yield front.format(count=count)
    for begin in range(0, count, 65536):
        yield "".join(f"{n + first} {line}" for n in range(begin, min(count, begin + 65536)))
    yield "end\n"


def document(size):
    return copied(size, "bee 1\nUNKNOWN {count}\nledger\nenc 1\nproof\n", 2, "1 2 0 1 0\n")


def listing(size):
    """A list of the three solutions of a clause, behind whose blocks the clause is added again and again."""
    three = "".join(f"solution\na = {a}\nb = {b}\n" for a, b in (("true", "true"), ("true", "false"), ("false", "true")))
    return copied(size, f"bee all 1\nPARTIAL 3 {{count}}\n{three}ledger\nenc 1\nproof\n", 5, "1 2 0 1 0\n")


def conflict_text(size):
    return copied(size, "bee core 1\nUNKNOWN {count}\nstatement 3\nledger\nenc 1\nproof\n", 2, "1 2 0 1 0\n")


def refutation(size):
    """Lines of a refutation that add a clause that is known and delete it, and never show the empty one."""
    for _ in range(0, size, 1_000_000):
        yield ("1 2 1 2 1 2 1 2 0\n" + "d 1 2 0\n" * 12) * (1_000_000 // 114)


def one_line(size):
    """A document whose first line has so many bytes."""
    for _ in range(size // 1_000_000):
        yield "bee 1 " * 166_666 + "    "
    yield "\n"


def among(size):
    """So many statements of two names, two of which can't be met together."""
    yield "new_bool(a)\nnew_bool(b)\n" + "bool_eq(a,b)\n" * (size // 2) + "bool_eq(a,-b)\n" + "bool_eq(a,b)\n" * (size // 2)
    yield GOAL


def sought(size):
    """So many integers of four values each, one of which is to be least."""
    yield "".join(f"new_int(i{n:x},0,3)\n" for n in range(size)) + "solve minimize i0\n"


def sums(size):
    """A pseudo-Boolean file of so many bytes: three of four literals, again and again."""
    lines = (f"+1 x{1 + n % 997} +1 ~x{1 + n % 991} +1 x{1 + n % 983} >= 1 ;\n" for n in range(size))
    for line in lines:
        size -= len(line)
        if size < 0:
            break
        yield line


def terms(size):
    """A pseudo-Boolean file of one sum of so many variables."""
    yield "".join(f"+1 x{n} " for n in range(1, size + 1)) + ">= 1 ;\n"


THREE = "new_bool(a)\nnew_bool(b)\nnew_bool(c)\n"
PAIR = "new_bool(a)\nnew_bool(b)\nbool_array_or([a,b])\nsolve satisfy\n"

# The modes that read a text behind a model, which is that of a pair.
BEHIND_A_MODEL = ("check", "checkall", "checkcore", "certify")
BOTH = ["compile", "solve"]
SHORT = [*BOTH, "all", "core", "weigh"]

# A load with its text, its full size and the modes in which it is run.
LOADS = {
    "one name": (text_of("new_bool(", lambda n: "n", ")"), MOST, BOTH),
    "names": (text_of("", lambda n: f"new_bool(b{n:x})\n"), MOST, [*BOTH, "weigh"]),
    "integers": (text_of("", lambda n: f"new_int(i{n:x},0,3)\n"), MOST, [*BOTH, "weigh"]),
    "one numeral": (text_of("new_int(i,0,", lambda n: "0", "7)"), MOST, BOTH),
    "values": (listed("new_int(i,[", lambda n: str(n), "])"), MOST, BOTH),
    "values downwards": (listed("new_int(i,[", lambda n: str(9_999_999 - 3 * n), "])"), MOST, BOTH),
    "one value": (listed("new_int(i,[", lambda n: "7", "])"), MOST, SHORT),
    "one clause": (listed("new_bool(a)\nbool_array_or([", lambda n: "a", "])"), MOST, SHORT),
    "constants": (listed("int_array_sum_geq([", lambda n: "11", "],5)"), MOST, SHORT),
    "coefficients": (lambda size: pairs_of_lists(size), MOST, SHORT),
    "statements": (text_of("new_bool(a)\nnew_bool(b)\n", lambda n: "bool_eq(a,b)\n"), MOST, BOTH),
    "clauses": (text_of(THREE, lambda n: "bool_array_or([a,-b,c])\n"), MOST, SHORT),
    "one comment": (text_of("%", lambda n: "c"), MOST, SHORT),
    "comments": (text_of("", lambda n: "%\n"), MOST, SHORT),
    "gaps": (text_of("", lambda n: " \t\r\n"), MOST, SHORT),
    "too long": (text_of("", lambda n: "%\n"), MOST + 1, ["compile"]),
    "brackets": (text_of("", lambda n: "["), MOST, ["compile"]),
    "weight below": (lines(lambda size: [f"new_int(i,0,{size})"]), 22_369_620, BOTH),
    "weight above": (lines(lambda size: [f"new_int(i,0,{size})"]), 22_369_623, ["compile"]),
    "chain": (lines(chain), 500_000, BOTH),
    "half": (lines(models.count), 16_000, BOTH),
    "sum": (lines(models.added), 16_000, ["compile"]),
    "different": (lines(models.differing), 1_000, ["compile"]),
    "solutions": (lines(lambda size: [f"new_int(i,1,{size})"]), 5_000, ["all"]),
    "two solutions": (lines(chain), 200_000, ["all"]),
    "among": (among, 100_000, ["core"]),
    "sought": (sought, 500_000, ["bound", "weigh"]),
    "sums": (sums, 6_000_000, ["opbmodel", "opb"]),
    "terms": (terms, 900_000, ["opbmodel", "opb"]),
    "document": (document, 500_000_000, ["check"]),
    "list": (listing, 500_000_000, ["checkall"]),
    "core": (conflict_text, 500_000_000, ["checkcore"]),
    "refutation": (refutation, 500_000_000, ["certify"]),
    "one line": (one_line, 500_000_000, list(BEHIND_A_MODEL)),
}


def pairs_of_lists(size):
    """A linear sum of two long lists of constants."""
    count = (size - 60) // 4
    yield f"int_array_lin_geq({models.joined('2' * count)},{models.joined('3' * count)},5)" + GOAL


def measure(program, words, sink):
    """A run under `time`, which is small: the peak of a process counts from what its parent had."""
    timed = ["/usr/bin/time", "-q", "-o", sink + ".time", "-f", "%U %S %M", "timeout", str(SECONDS), program, *words]
    with open(sink, "wb") as out, open(sink + ".err", "wb") as err:
        limit = lambda: resource.setrlimit(resource.RLIMIT_AS, (MEMORY, MEMORY))
        code = subprocess.call(timed, stdout=out, stderr=err, preexec_fn=limit)
    with open(sink + ".err", "rb") as told:
        line = told.read(200).decode(errors="replace").strip()
    line = line or ("stopped" if code == 124 else "")
    user, system, peak = open(sink + ".time").read().split()
    return code, line, os.path.getsize(sink), float(user) + float(system), int(peak) / 1024


def main():
    program, folder, *chosen = sys.argv[1:]
    row = "{:17} {:9} {:>11} {:>5} {:>12} {:>9} {:>9}  {}".format
    behind = "beside a tenth, and the line on standard error"
    print(row("load", "mode", "text", "code", "written", "seconds", "peak MB", behind), flush=True)
    for name, (make, most, modes) in LOADS.items():
        if chosen and name not in chosen:
            continue
        earlier = {}
        for size in (most // 10, most):
            text = os.path.join(folder, "text")
            with open(text, "w") as sink:
                sink.writelines(make(size))
            for mode in modes:
                words = [mode, text]
                if mode in BEHIND_A_MODEL:
                    model = os.path.join(folder, "model")
                    with open(model, "w") as sink:
                        sink.write(PAIR)
                    words = [mode, model, text]
                words += ["1"] * (mode == "bound")
                code, line, written, seconds, peak = measure(program, words, os.path.join(folder, "written"))
                beside = ""
                if mode in earlier:
                    beside = f"{seconds / max(earlier[mode][0], 0.01):.1f} and {peak / earlier[mode][1]:.1f}  "
                earlier[mode] = (seconds, peak)
                taken = f"{seconds:.2f}", f"{peak:.1f}", beside + line
                print(row(name, mode, os.path.getsize(text), code, written, *taken), flush=True)


if __name__ == "__main__":
    main()
