#!/usr/bin/env python3
"""Tries every mode of the program on small texts, made at random from a seed: every_mode.py [COUNT [SEED [PROCESSES]]],
10,000 of each kind of seed 1 by three processes without words. One after another it runs
  fuzz.sh            compile, decode, solve, check
  all_models.py      all, checkall
  core_models.py     core, checkcore
  certify_models.py  certify, bound, over what cadical found
  resume_models.py   resume
  opb_models.py      opb, opbmodel, weigh
  clause_models.py   sat, drup, queens
each over so many, whose heads say what is compared, and shows what they tell. The last line has all models, runs and
differences together. BEE names another program that is tried. Wants python3 and cadical."""
import os, re, subprocess, sys

from trials import TOP, program

SCRIPTS = (
    "fuzz.sh", "all_models.py", "core_models.py", "certify_models.py", "resume_models.py", "opb_models.py",
    "clause_models.py",
)


def counted(script, words):
    """Runs a script, and gives the numbers of its models, runs and differences."""
    print(f"{script} {' '.join(words)}", flush=True)
    first = [] if script.endswith(".sh") else [sys.executable]
    how = {**os.environ, "BEE": program()}
    child = subprocess.Popen([*first, f"{TOP}/reference/{script}", *words], stdout=subprocess.PIPE, text=True, env=how)
    counts = dict.fromkeys(("models", "runs", "differences"), 0)
    for line in child.stdout:
        print(line, end="", flush=True)
        # What is told last counts.
        if told := re.match(r" *(\d+) (models|runs|differences)\b", line):
            counts[told[2]] = int(told[1])
    if child.wait() and not counts["differences"]:
        counts["differences"] = 1
    return counts


def main():
    words = sys.argv[1:4]
    words += ["10000", "1", "3"][len(words) :]
    each = [counted(script, words) for script in SCRIPTS]
    models, runs, differences = (sum(it[name] for it in each) for name in ("models", "runs", "differences"))
    print(f"every mode, seed {words[1]}: {models} models, {runs} runs, {differences} differences", flush=True)
    sys.exit(1 if differences else 0)


if __name__ == "__main__":
    main()
