#!/usr/bin/env python3
"""Tries `bee all` on small models, made at random from a seed: all_models.py [COUNT [SEED [PROCESSES [FIRST]]]], 500
models of seed 1 by three processes without words. Each model has a statement of a given kind, all kinds in turn.
Compared are, with the solutions that trying all assignments finds:
  all        the list, with a large budget and with one of 1 to 4: each solution once, all of them where it says ALL,
             and the budget where it says PARTIAL
  checkall   each list, as it stands and with a byte, a line, a number and a line of its ledger changed: the verdict,
             or the line that is refused, by the reading of `list_reading.py`; and each such list with a ledger of
             steps in any order
BEE names another program that is tried. Wants python3."""
from answer_reading import Refused
from fuzz_changes import CHANGES, one_step, wandered
from ledger_reading import Compilation, Steps
from list_reading import ListText
from refuting import list_text
from small_models import KINDS, Maker
from trials import tried, want

# So many solutions a model has, at most: each is read again for each change.
MOST = 300


def reading(trial, text):
    """What the reading says of a list, and the solutions that it read."""
    said = ListText(trial.model, Steps(trial.compilation), text)
    try:
        return f"ACCEPTED {said.verdict()}", said.listed
    except Refused as refused:
        return f"REFUSED {refused.args[0]}", None


def compare_list(trial, path, text, changed="nothing"):
    """What `checkall` says of a list; and that an accepted one is true."""
    wanted, listed = reading(trial, text)
    if listed is not None:
        want(set(listed) <= trial.known, f"{wanted}, but no solution is {set(listed) - trial.known}")
        is_all = len(listed) == len(trial.known)
        want("PARTIAL" in wanted or is_all, f"{wanted}, and there are {len(trial.known)} solutions")
    trial.compare("checkall", path, text, wanted, changed)
    return wanted


def compare_changes(trial, path, text):
    for change in CHANGES:
        compare_list(trial, path, change(trial.chance, text), change.__name__)
    changed, _ = one_step(trial.chance, text, trial.compilation)
    if changed is not None:
        compare_list(trial, path, changed, "one_step")


def make(trial):
    kinds = list(KINDS)
    while True:
        maker = Maker(trial.chance, kinds[trial.index % len(kinds)])
        trial.model, trial.known = maker.model, set(maker.model.solutions())
        if len(trial.known) <= MOST:
            break
    trial.compilation = Compilation(trial.model)
    path = trial.path("model", maker.text().encode())
    _, whole = trial.run("all", path)
    is_all = compare_list(trial, path, whole) == f"ACCEPTED ALL {len(trial.known)}"
    want(is_all, f"the list says {whole[:60]!r}, and there are {len(trial.known)}")
    compare_changes(trial, path, whole)
    budget = trial.chance.randint(1, 4)
    words = ["--budget", str(budget), *["--no-restart"] * trial.chance.randint(0, 1)]
    code, spent = trial.run("all", path, *words, codes=(0, 8))
    said = compare_list(trial, path, spent)
    want(said.startswith("ACCEPTED"), f"the reading of what all wrote: {said}")
    is_spent = "PARTIAL" in said and said.endswith(f" {budget}")
    want(is_spent if code else "PARTIAL" not in said, f"{said} with the exit code {code} and the budget {budget}")
    trial.counts["PARTIAL" if code else "ALL"] += 1
    compare_changes(trial, path, spent)
    trial.counts["solutions"] += len(trial.known)
    ledger = wandered(trial.chance, trial.compilation, trial.chance.choice((2, 10, 40)))
    made = list_text(trial.chance, trial.compilation, trial.model, sorted(trial.known), ledger)
    if made is not None:
        is_taken = compare_list(trial, path, made, "ledger").startswith("ACCEPTED")
        want(is_taken, "the reading refuses a list that was made")
        compare_changes(trial, path, made)


if __name__ == "__main__":
    tried(make, 500)
