#!/usr/bin/env python3
"""Tries `bee certify` on small models, made at random from a seed: certify_models.py [COUNT [SEED [PROCESSES
[FIRST]]]], 500 models of seed 1 by three processes without words. Each model has a statement of a given kind, all
kinds in turn, and one objective at most. cadical is asked for values of the clauses, and where something is sought for
better ones, by `bee bound`, until it refutes that there are any. Compared are
  decode   the solution that the values tell: one of those that trying all assignments finds
  bound    the solutions of the clauses with "better than": those of the model with a better objective
  certify  what cadical found, as it stands and with a byte, a line and a number changed: the verdict, or the line that
           is refused, by the reading of `found_reading.py`; each document by that of `answer_reading.py` and by `bee
           check`, and its verdict beside all assignments
  hints    the same of the same refutation with hints (LRAT), which the document has
BEE names another program that is tried. Wants python3 and cadical."""
import re, subprocess

from answer_reading import Answer, Compiled, Refused
from clause_search import Search
from fuzz_changes import CHANGES
from found_reading import better, found
from ledger_reading import Compilation, Steps
from lrat_reading import with_hints
from small_models import KINDS, Maker
from trials import tried, want


def cadical(trial, cnf):
    """Values of clauses, as a text, or a refutation."""
    path, proof = trial.path("asked", cnf), trial.path("proof", b"")
    ran = subprocess.run(["cadical", "-q", "--plain", "--no-binary", path, proof], capture_output=True, timeout=600)
    want(ran.returncode in (10, 20), f"cadical ended with {ran.returncode}")
    trial.counts["asked of cadical"] += 1
    if ran.returncode == 10:
        return ran.stdout, None
    with open(proof, "rb") as source:
        return None, source.read()


def compare_bound(trial, cnf, value):
    """The clauses with "better than" beside all solutions."""
    told = set(Search(Compiled(cnf), trial.chance).solutions())
    wanted = {it for it in trial.known if trial.model.is_better(trial.model.objective(it), [value])}
    want(told == wanted, f"the clauses better than {value} have {sorted(told)}, wanted {sorted(wanted)}")
    trial.counts["bounds"] += 1


def sought(trial, path, cnf):
    """What cadical finds: values, or none, and a refutation, or none."""
    text, proof = cadical(trial, cnf)
    best = text
    while text is not None:
        best = text
        _, told = trial.run("decode", trial.path("cnf", trial.cnf), trial.path("values", text))
        env = dict(line.split(" = ") for line in told.decode().splitlines())
        values = tuple({"true": True, "false": False}.get(env[name], env[name]) for name in trial.model.domains)
        values = tuple(it if isinstance(it, bool) else int(it) for it in values)
        want(values in trial.known, f"{values} is no solution")
        if not trial.model.objectives:
            return best, b""
        value = trial.model.objective(values)[0]
        _, bounded = trial.run("bound", path, "--", str(value))
        compare_bound(trial, bounded, value)
        text, proof = cadical(trial, bounded)
    return best, proof


def reading(trial, text):
    try:
        return "ACCEPTED " + found(trial.model, trial.compiled, text)
    except Refused as refused:
        return f"REFUSED {refused.args[0]}"


def is_true(trial, verdict):
    """Whether a verdict is that of trying all assignments."""
    if verdict.startswith("OPTIMUM"):
        return bool(trial.known) and trial.model.best(trial.known) == [int(verdict.split(" ")[1])]
    return (verdict == "SATISFIABLE") == bool(trial.known)


def compare_found(trial, path, text, changed="nothing"):
    """What `certify` makes of a text."""
    wanted = reading(trial, text)
    code, told = trial.run("certify", path, trial.path("second", text), codes=(0, 1))
    trial.counts[f"certify, {changed.replace('_', ' ')} changed, {wanted.split(' ')[0].lower()}"] += 1
    if code:
        want(told.decode() == wanted + "\n", f"certify: {told!r}, wanted {wanted!r}")
        return wanted
    said = "ACCEPTED " + Answer(trial.model, Steps(trial.compilation), told).verdict()
    want(said == wanted, f"certify: a document of {said!r}, wanted {wanted!r}")
    want(is_true(trial, said.split(" ", 1)[1]), f"{said} is not true")
    trial.compare("check", path, told, wanted, "document")
    return wanted


def hints_of(trial, path, said, values, whole):
    """What was found, with the refutation that the document has in the place of cadical's; none where it has none."""
    _, answer = trial.run("certify", path, trial.path("second", whole))
    more = []
    if values and trial.model.objectives:
        more = better(trial.model, trial.compiled, int(said.split(" ")[2]))
    proof = with_hints(answer, len(trial.compiled.clauses), len(more))
    return (values or b"") + proof if proof else None


def make(trial):
    kinds, draws = list(KINDS), 0
    while True:
        maker, draws = Maker(trial.chance, kinds[trial.index % len(kinds)]), draws + 1
        trial.known = set(maker.model.solutions())
        if len(maker.model.objectives) < 2 and (trial.known or draws > 3):
            break
    trial.model, text = maker.model, maker.text()
    path = trial.path("model", text.encode())
    _, trial.cnf = trial.run("compile", path)
    trial.compiled, trial.compilation = Compiled(trial.cnf), Compilation(trial.model)
    values, proof = sought(trial, path, trial.cnf)
    whole = (values or b"") + proof
    said = compare_found(trial, path, whole)
    want(said.startswith("ACCEPTED"), f"{said} of what cadical found")
    trial.counts[said.split(" ")[1]] += 1
    hinted = hints_of(trial, path, said, values, whole)
    if hinted:
        same = compare_found(trial, path, hinted, "form")
        want(same == said, f"{same} with hints, {said} without")
    for text in [whole, *([values, proof] if values and proof else []), *([hinted] if hinted else [])]:
        compare_found(trial, path, text, "part")
        for change in CHANGES:
            whole = text + b"\n" * (not re.search(b"\n", text))
            compare_found(trial, path, change(trial.chance, whole), change.__name__)


if __name__ == "__main__":
    tried(make, 500)
