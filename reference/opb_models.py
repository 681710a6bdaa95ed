#!/usr/bin/env python3
"""Tries `bee opb`, `bee opbmodel` and `bee weigh` on small pseudo-Boolean files, made at random from a seed:
opb_models.py [COUNT [SEED [PROCESSES [FIRST]]]], 500 files of seed 1 by three processes without words. Compared are,
with the reading of `opb_reading.py` and trying all assignments,
  opbmodel   the text of the model
  opb        the answer, by `check` over that text: its verdict, its values and their cost; with a budget of 1 to 4 the
             count where it says UNKNOWN
  weigh      the items of that text: the heaviest first, their shares, and their sum where all of them are told
  faults     the file with a byte, a line or a number changed: the line and the kind, or the text of the model
BEE names another program that is tried. Wants python3."""
import re

from fuzz_changes import CHANGES
from opb_reading import best, count_of, fault, made, model, read, total
from trials import tried, want

LIMIT = 67_108_864


def compare_answer(trial, path, wanted, words=()):
    """The answer to a file, beside what trying all assignments finds."""
    code, answer = trial.run("opb", path, *words, codes=(0, 8))
    _, told = trial.run("check", trial.path("model", wanted.encode()), trial.path("answer", answer))
    verdict = told.decode().removeprefix("ACCEPTED ").strip()
    trial.counts[verdict.split(" ")[0]] += 1
    if code == 8:
        want(verdict == f"UNKNOWN {words[1]}", f"{verdict}, and the budget is {words[1]}")
        return
    solutions, least = trial.solutions, trial.least
    right = "UNSATISFIABLE" if not solutions else "SATISFIABLE" if trial.objective is None else f"OPTIMUM {least}"
    want(verdict == right, f"{verdict}, and by trying all {right}")
    if solutions:
        told = dict(re.findall(r"^(\w+) = (\S+)$", answer.decode(), re.M))
        values = tuple(told[f"x{i}"] == "true" for i in range(1, trial.count + 1))
        want(values in solutions, f"{values} is no solution")
        cost = None if trial.objective is None else total(trial.objective, values)
        want(cost == least and told.get("o") == (None if least is None else str(least)), f"{values} cost {cost}")


def compare_weight(trial, wanted):
    _, told = trial.run("weigh", trial.path("model", wanted.encode()))
    first, *items = told.decode().splitlines()
    weight = int(re.fullmatch(rf"weight (\d+) of {LIMIT}", first)[1])
    told = [tuple(map(int, re.fullmatch(r"item (\d+) (\d+) (\d+)%", it).groups())) for it in items]
    count = wanted.count("\n") - 1
    want(len(told) == min(10, count), f"{len(told)} items of {count}")
    want([it[:2] for it in told] == sorted((it[:2] for it in told), key=lambda it: (-it[1], it[0])), f"the order of {told}")
    want(all(share == (100 * one // weight if weight else 0) for _, one, share in told), f"the shares of {told}")
    want(count > 10 or sum(it[1] for it in told) == weight, f"{told} are not {weight}")


def compare_change(trial, text):
    """A changed file: its fault, or its model."""
    wanted = fault(text)
    codes = (0,) if wanted is None else (3,)
    code, told = trial.run("opbmodel", trial.path("changed", text), codes=codes)
    trial.counts["changed files with a fault" if code else "changed files without a fault"] += 1
    if wanted is None:
        objective, constraints = read(text.decode("latin-1"))
        want(told.decode() == model(objective, constraints, count_of(objective, constraints)), f"{told[:300]!r}")
    else:
        want(trial.told == f"bee: model: {wanted}\n", f"{trial.told!r}, and the reading says {wanted}")


def make(trial):
    text = made(trial.chance)
    trial.objective, constraints = read(text)
    trial.count = count_of(trial.objective, constraints)
    trial.solutions, trial.least = best(trial.objective, constraints, trial.count)
    wanted = model(trial.objective, constraints, trial.count)
    path = trial.path("opb", text.encode())
    _, told = trial.run("opbmodel", path)
    want(told.decode() == wanted, f"{told!r} for {wanted!r}")
    compare_answer(trial, path, wanted)
    compare_answer(trial, path, wanted, ("--budget", str(trial.chance.randint(1, 4))))
    compare_weight(trial, wanted)
    for change in CHANGES:
        compare_change(trial, change(trial.chance, text.encode() + b"\n"))


if __name__ == "__main__":
    tried(make, 500)
