#!/usr/bin/env python3
"""Tries `bee core` on small models without a solution, made at random from a seed: core_models.py [COUNT [SEED
[PROCESSES [FIRST]]]], 300 models of seed 1 by three processes without words; one in six is left with its solutions.
Each model has a statement of a given kind, all kinds in turn. Compared are
  core       the text, with a large budget and with one of 1 to 4: SATISFIABLE exactly where trying all assignments
             finds a solution; of the statements of a CORE, that no assignment in the domains meets them, and that
             without any one of them some assignment does; the budget where it says UNKNOWN
  checkcore  each text, as it stands and with a byte, a line and a number changed: the verdict, or the line that is
             refused, by the reading of `conflict_reading.py`; and each such text of the same statements with a ledger
             of steps in any order
BEE names another program that is tried. Wants python3."""
import itertools

from answer_reading import Refused
from conflict_reading import ConflictText, only, statement_numbers
from fuzz_changes import CHANGES, wandered
from ledger_reading import Compilation
from refuting import conflict_text
from small_models import KINDS, Maker
from trials import tried, want

# Statements that declare nothing.
OTHERS = [kind for kind in KINDS if kind != "bool2int"]


def assignments(model, numbers):
    """The assignments in the domains that meet these statements."""
    part = only(model, numbers)
    for values in itertools.product(*model.domains.values()):
        if part.holds(dict(zip(model.domains, values))):
            yield values


def made_model(trial, is_satisfiable):
    """A model of a given kind of statement, with more statements until it has no solution, unless it may have one."""
    kinds = list(KINDS)
    while True:
        maker = Maker(trial.chance, kinds[trial.index % len(kinds)])
        model = maker.model
        for _ in range(0 if is_satisfiable else 14):
            model.tests = None
            if next(model.solutions(), None) is None:
                break
            maker.state(trial.chance.choice(OTHERS))
        model.tests = None
        trial.has_solution = next(model.solutions(), None) is not None
        if trial.has_solution == is_satisfiable:
            return maker


def witnesses_of(model, core):
    """For each statement an assignment that meets the others, or none; and whether none meets all."""
    witnesses = {n: next(assignments(model, set(core) - {n}), None) for n in core}
    return witnesses, next(assignments(model, set(core)), None) is None


def reading(trial, text):
    """What the reading says of the text of a core, and its statements."""
    said = ConflictText(trial.model, text)
    try:
        return f"ACCEPTED {said.verdict()}", said.named
    except Refused as refused:
        return f"REFUSED {refused.args[0]}", None


def compare_core(trial, path, text, changed="nothing"):
    """What `checkcore` says of a text; and that an accepted one is true."""
    wanted, core = reading(trial, text)
    if wanted.startswith("ACCEPTED SAT"):
        want(trial.has_solution, "there is no solution")
    elif wanted.startswith("ACCEPTED CORE"):
        witnesses, has_none = witnesses_of(trial.model, core)
        want(has_none, f"an assignment meets the statements {core}")
        want(None not in witnesses.values(), f"the core {core} has a smaller one in it: {witnesses}")
    trial.compare("checkcore", path, text, wanted, changed)
    return wanted


def compare_changes(trial, path, text):
    for change in CHANGES:
        for _ in range(2):
            compare_core(trial, path, change(trial.chance, text), change.__name__)


def make(trial):
    maker = made_model(trial, trial.index % 6 == 5)
    trial.model = maker.model
    path = trial.path("model", maker.text().encode())
    _, whole = trial.run("core", path)
    said, core = compare_core(trial, path, whole), reading(trial, whole)[1]
    want(said.startswith("ACCEPTED SAT" if trial.has_solution else "ACCEPTED CORE"), f"{said} of what core wrote")
    trial.counts[said.split(" ")[1]] += 1
    compare_changes(trial, path, whole)
    budget = trial.chance.randint(1, 4)
    words = ["--budget", str(budget), *["--no-restart"] * trial.chance.randint(0, 1)]
    code, spent = trial.run("core", path, *words, codes=(0, 8))
    said = compare_core(trial, path, spent)
    want(said.startswith("ACCEPTED"), f"the reading of what core wrote: {said}")
    is_right = said == f"ACCEPTED UNKNOWN {budget}" if code else "UNKNOWN" not in said
    want(is_right, f"{said} with the exit code {code} and the budget {budget}")
    compare_changes(trial, path, spent)
    trial.counts["UNKNOWN"] += code == 8
    if not trial.has_solution:
        trial.counts["statements"] += len(statement_numbers(trial.model))
        trial.counts["statements of cores"] += len(core)
        compare_made(trial, path, core)


def compare_made(trial, path, core):
    """The same statements behind a ledger of any steps."""
    ledger = wandered(trial.chance, Compilation(only(trial.model, core)), trial.chance.choice((2, 10, 40)))
    made = conflict_text(trial.chance, trial.model, core, ledger, witnesses_of(trial.model, core)[0])
    if made is not None:
        is_taken = compare_core(trial, path, made, "ledger").startswith("ACCEPTED")
        want(is_taken, "the reading refuses a text that was made")
        compare_changes(trial, path, made)


if __name__ == "__main__":
    tried(make, 300)
