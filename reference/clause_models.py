#!/usr/bin/env python3
"""Tries `bee sat`, `bee drup` and `bee queens` on clauses and boards at random: clause_models.py [COUNT [SEED
[PROCESSES [FIRST]]]], 500 sets of clauses of seed 1 by three processes without words. Compared are, with trying all
values,
  sat      the values or the proof, with a large budget and with one of 1 to 4: each clause is true, or each line is a
           step of LRAT and one adds the empty clause; as many additions as the budget where it says UNKNOWN
  drup     the lines of such a proof without ids and hints, as they stand and with a byte, a line and a number changed:
           accepted, or the line that is refused, by the reading of `drup_reading.py`
  queens   on a board of 4 to 12 rows, as the number of the trial says: no two attack each other
BEE names another program that is tried. Wants python3."""
import itertools

from answer_reading import Proof, Refused
from drup_reading import drup
from fuzz_changes import CHANGES
from trials import tried, want


def made(chance):
    """So many variables, and clauses over them, as lists of literals; about as many as may be met."""
    count = chance.randint(1, 9)
    clauses = []
    for _ in range(round(count * chance.choice((1, 2, 3.5, 4.3, 5.5)))):
        length = chance.choice((1, 2, 2, 3, 3, 3))
        clauses.append([chance.choice((1, -1)) * chance.randint(1, count) for _ in range(length)])
    if chance.random() < 0.02:
        clauses.append([])
    return count, clauses


def text_of(chance, count, clauses):
    """The clauses in the DIMACS format, with comments, gaps, and clauses over several lines."""
    lines = ["c made at random"] * chance.randint(0, 1) + [f"p cnf {count} {len(clauses)}"]
    for clause in clauses:
        lines.append(chance.choice((" ", " ", "  ", "\n", "\t")).join(map(str, [*clause, 0])))
    return "\n".join(lines) + chance.choice(("\n", "", "\n%\n0\n"))


def ordered(clauses):
    """The clauses as they get their ids: in order, none with a literal and its negation, and none twice."""
    kept = (tuple(sorted(set(it), key=lambda l: (abs(l), l))) for it in clauses)
    return [list(it) for it in dict.fromkeys(kept) if not any(-l in it for l in it)]


def satisfies(values, clauses):
    return all(any(l in values for l in clause) for clause in clauses)


def has_values(count, clauses):
    every = itertools.product((False, True), repeat=count)
    return any(satisfies({v + 1 if it else -v - 1 for v, it in enumerate(values)}, clauses) for values in every)


def compare_sat(trial, path, words=()):
    """What `sat` writes of the clauses: the verdict, and the lines of its proof."""
    code, told = trial.run("sat", path, *words, codes=(0, 8))
    first, *lines = told.split(b"\n")[:-1]
    want((code == 8) == (first == b"s UNKNOWN"), f"{first!r} with the exit code {code}")
    trial.counts[first.decode()[2:]] += 1
    if first == b"s SATISFIABLE":
        values = [int(it) for it in lines[0].split()[1:-1]]
        want([abs(it) for it in values] == list(range(1, trial.vars + 1)), f"the values {values}")
        want(satisfies(set(values), trial.clauses), f"the values {values} satisfy no such clauses")
        return first, []
    proof = Proof(trial.vars, ordered(trial.clauses))
    for place, line in enumerate(lines, 1):
        want(proof.take(line), f"line {place} of the proof is no step: {line!r}")
    if code == 8:
        want(proof.additions == int(words[1]), f"{proof.additions} additions, and the budget is {words[1]}")
    else:
        want(frozenset() in proof.known and not trial.has_values, f"{first!r}, and there are values")
    return first, lines


def compare_drup(trial, path, lines):
    """What `drup` says of the literals of these lines, and of changes of them."""
    clauses = [line.split(b" ")[1:] for line in lines if b" d " not in line]
    text = b"".join(b" ".join(words[: words.index(b"0") + 1]) + b"\n" for words in clauses)
    for change in [None, *CHANGES, *CHANGES]:
        told = change(trial.chance, text + b"\n" * (b"\n" not in text)) if change else text
        try:
            drup(trial.vars, trial.clauses, told)
            wanted = "ACCEPTED"
        except Refused as refused:
            wanted = f"REFUSED {refused.args[0]}"
        trial.compare("drup", path, told, wanted, change.__name__ if change else "nothing")


def compare_queens(trial):
    """A board: one queen in each row, and no two in a column or a diagonal."""
    size = 4 + trial.index % 9
    _, told = trial.run("queens", str(size))
    line = next(it for it in told.decode().split("\n") if it.startswith("columns"))
    columns = [int(it) for it in line.split(" ")[1:]]
    for kind in (columns, [c + r for r, c in enumerate(columns)], [c - r for r, c in enumerate(columns)]):
        want(len(set(kind)) == size and set(columns) == set(range(1, size + 1)), f"queens in {columns}")
    trial.counts["boards"] += 1


def make(trial):
    trial.vars, trial.clauses = made(trial.chance)
    trial.has_values = has_values(trial.vars, trial.clauses)
    path = trial.path("cnf", text_of(trial.chance, trial.vars, trial.clauses).encode())
    first, lines = compare_sat(trial, path)
    wanted = b"s SATISFIABLE" if trial.has_values else b"s UNSATISFIABLE"
    want(first == wanted, f"{first!r}, and by trying all {wanted!r}")
    compare_drup(trial, path, lines)
    budget = str(trial.chance.randint(1, 4))
    compare_sat(trial, path, ("--budget", budget, *["--no-restart"] * trial.chance.randint(0, 1)))
    if trial.index % 10 == 0:
        compare_queens(trial)


if __name__ == "__main__":
    tried(make, 500)
