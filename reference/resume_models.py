#!/usr/bin/env python3
"""Tries `bee resume` on small models, made at random from a seed: resume_models.py [COUNT [SEED [PROCESSES [FIRST]]]],
500 models of seed 1 by three processes without words. Each model has a statement of a given kind, all kinds in turn.
Compared are, for each text of values to begin with, the line that is refused by the reading of `wish_reading.py`, and
else the answer, by that of `answer_reading.py` and by `bee check`, and its verdict beside all assignments; also with a
budget of 1 to 4. Where the values are a solution, that is the one that is found first: of a model that seeks nothing it
is the answer, and `--progress` tells it before any other. The texts are
  solution   the lines of a solution, in some order, behind other values of some of its names, or some of the lines
  values     values at random, of the domains
  answer     the answer of `bee solve`, what `--progress` told, and either one cut
  changed    each of them with a byte, a line and a number changed
BEE names another program that is tried. Wants python3."""
import subprocess

from answer_reading import Answer, Refused
from fuzz_changes import CHANGES
from ledger_reading import Compilation, Steps
from small_models import KINDS, Maker
from trials import tried, want
from wish_reading import wished


def line_of(name, value):
    """The line of a value."""
    return f"{name} = {({True: 'true', False: 'false'}[value]) if isinstance(value, bool) else value}\n".encode()


def lines_of(trial, values):
    """A line for each name, in some order."""
    lines = [line_of(*it) for it in zip(trial.model.domains, values)]
    if trial.chance.random() < 0.5:
        trial.chance.shuffle(lines)
    return lines


def random_values(trial):
    return [trial.chance.choice(domain) for domain in trial.model.domains.values()]


def is_true(trial, verdict):
    """Whether a verdict is that of trying all assignments."""
    words = verdict.split(" ")
    if words[0] == "OPTIMUM":
        return bool(trial.known) and trial.model.best(trial.known) == [int(it) for it in words[1:]]
    return words[0] == "UNKNOWN" or (words[0] == "SATISFIABLE") == bool(trial.known)


def compare_answer(trial, path, told, code):
    """The answer that comes of values that are taken."""
    verdict = Answer(trial.model, Steps(trial.compilation), told).verdict()
    want(is_true(trial, verdict), f"{verdict} is not true")
    want(verdict.startswith("UNKNOWN") == (code == 8), f"{verdict} ended with {code}")
    trial.compare("check", path, told, f"ACCEPTED {verdict}")


def compare(trial, path, text, kind, *options):
    """What `resume` makes of a text; the answer, where it is none that is refused."""
    try:
        wished(trial.model, text)
        wanted = None
    except Refused as refused:
        wanted = f"REFUSED {refused.args[0]}\n"
    code, told = trial.run("resume", path, trial.path("wish", text), *options, codes=(0, 1, 8))
    trial.counts[f"resume, {kind}, {'refused' if wanted else 'taken'}"] += 1
    if wanted:
        want(told.decode() == wanted and code == 1, f"resume: {told!r} and {code}, wanted {wanted!r}")
        return None
    want(code != 1, f"resume: {told!r}, wanted an answer")
    compare_answer(trial, path, told, code)
    return told


def told_first(trial, path, text):
    """The lines of the values that `--progress` tells first, none where it tells none."""
    words = [trial.program, "resume", path, trial.path("wish", text), "--progress"]
    ran = subprocess.run(words, stdin=subprocess.DEVNULL, capture_output=True, timeout=600)
    trial.counts["runs"] += 1
    lines = ran.stderr.split(b"\n")
    heads = [place for place, line in enumerate(lines) if line.startswith(b"bee: best")]
    return sorted(lines[heads[0] + 1 :][: len(trial.model.domains)]) if heads else None, ran


def compare_found(trial, path, solution):
    """A solution that is wished for is found first."""
    lines = lines_of(trial, solution)
    others = [line_of(*it) for it in zip(trial.model.domains, random_values(trial))]
    more = trial.chance.sample(others, trial.chance.randint(0, len(others)))
    text = b"".join(more + lines)
    told = compare(trial, path, text, "solution")
    whole = sorted(line[:-1] for line in lines)
    if not trial.model.objectives:
        found = sorted(told.split(b"\n")[2 : 2 + len(lines)])
        want(found == whole, f"resume found {found}, wished {whole}")
        return text
    first, _ = told_first(trial, path, text)
    want(first == whole, f"resume told {first} first, wished {whole}")
    return text


def make(trial):
    kinds, draws = list(KINDS), 0
    while True:
        maker, draws = Maker(trial.chance, kinds[trial.index % len(kinds)]), draws + 1
        trial.known = list(maker.model.solutions())
        if trial.known or draws > 3:
            break
    trial.model, text = maker.model, maker.text()
    trial.compilation = Compilation(trial.model)
    path = trial.path("model", text.encode())
    texts = [b"".join(lines_of(trial, random_values(trial)))]
    if trial.known:
        solution = trial.chance.choice(trial.known)
        texts.append(compare_found(trial, path, solution))
        lines = lines_of(trial, solution)
        texts.append(b"".join(trial.chance.sample(lines, trial.chance.randint(0, len(lines)))))
    _, ran = told_first(trial, path, texts[0])
    texts += [ran.stdout, ran.stderr]
    for text in texts:
        compare(trial, path, text, "whole")
        compare(trial, path, text, "few clauses", "--budget", str(trial.chance.randint(1, 4)))
        compare(trial, path, text[: trial.chance.randint(0, len(text))], "cut")
        for change in CHANGES:
            compare(trial, path, change(trial.chance, text + b"\n" * (b"\n" not in text)), change.__name__)


if __name__ == "__main__":
    tried(make, 500)
