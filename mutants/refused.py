#!/usr/bin/env python3
"""Tries mutants that are no must-fail edits: refused.py [CRATE[/NAME] ..], all without words.

Each stands in mutants/CRATE/NAME.edit, in the form of a must-fail edit, behind a line `rows: CRATE_OF_ROWS` where rows
refuse it. It goes into a copy of the crates, and the tests of these rows are run without proof (`rt try --test`), or,
where they are transcripts, the program that plays them: those that the line names behind the crate, or all. Where there
is no such line only the prover refuses it, and `rt must-fail` tries it in that copy, over the libraries that stand
proved in the repository. A line is printed for each: `refused` and by which tests, or by how many runs of which
transcripts or because these have no end, or `NOT REFUSED`, or why it could not be tried; and the CPU seconds.
JOBS of them are tried side by side (one without it). It ends with 1 where one was not refused. Wants python3 and rt.
"""
import os
import re
import resource
import shutil
import subprocess
import sys
import tempfile
from concurrent.futures import ThreadPoolExecutor

TOP = os.path.dirname(os.path.dirname(os.path.abspath(__file__)))
ROWS = re.compile(r"^rows: (\w+)((?: [\w.]+)*)$", re.M)
FAILED = re.compile(r"^test (\S+) \.\.\. (?!ok)", re.M)
RESULT = re.compile(r"^test result: ", re.M)
# What a program of rows says of a run that its transcript has otherwise, and of a transcript.
OTHERWISE = re.compile(r"before line \d+: ")
PLAYED = re.compile(r"\d+ runs of (\S+)$")
# How long the transcripts may take, and what is said where they take longer. The gate waits for two minutes, for a
# program that is not checked while it runs.
SECONDS = "300"
ENDLESS = "checked: no-answer: the program did not end within the time limit"


def changed(text, folder):
    """The texts of the files that a body changes, by their paths."""
    path, old, texts = "", "", {}
    for line in text.splitlines():
        word, _, rest = line.partition(": ")
        if word == "file":
            path = f"{folder}/{rest}"
            with open(path, encoding="utf-8") as source:
                texts.setdefault(path, source.read())
        elif word == "old":
            old = rest
        elif line.startswith("new:"):
            if texts[path].count(old) != 1:
                raise ValueError(f"an old text stands in {path} {texts[path].count(old)} times")
            texts[path] = texts[path].replace(old, rest)
    return texts


def said_in(folder, *words):
    """What a command prints, where it is run in a folder, without its colours of text."""
    how = {"cwd": folder, "stdin": subprocess.DEVNULL, "stdout": subprocess.PIPE, "stderr": subprocess.STDOUT}
    return subprocess.run(words, **how, errors="replace", check=False).stdout


def by_program(folder, names):
    """How many runs of which transcripts are otherwise, of those of these names or of all, and whether all of them were
    played."""
    if not names:
        with open(f"{folder}/args", encoding="utf-8") as source:
            names = source.read().split()
    data = [word for name in names for word in ("--data", f"{name}=data/{name}")]
    said = said_in(folder, "rt", "try", "--steps", "1", "--seconds", SECONDS, *data, "--", *names)
    otherwise, failed, played = 0, [], []
    for line in said.splitlines():
        otherwise += bool(OTHERWISE.match(line))
        transcript = PLAYED.match(line)
        if transcript:
            played.append(transcript[1])
            failed += [f"{otherwise} of {transcript[1]}"] * bool(otherwise)
            otherwise = 0
    if ENDLESS in said:
        failed.append(f"no end after {SECONDS} seconds")
    return said, failed, played == names


def by_tests(folder):
    """What fails of a crate's tests, and whether all of them were run."""
    said = said_in(folder, "rt", "try", "--test")
    return said, FAILED.findall(said), bool(RESULT.search(said))


def by_rows(rows, names, crate, text, room):
    """What a crate of rows, or some transcripts of it, say of a body."""
    for path, body in changed(text, f"{room}/crates/{crate}").items():
        with open(path, "w", encoding="utf-8") as target:
            target.write(body)
    folder = f"{room}/crates/{rows}"
    is_program = os.path.exists(f"{folder}/src/main.rt")
    said, failed, is_whole = by_program(folder, names) if is_program else by_tests(folder)
    if failed:
        return True, f"refused by {rows}: {', '.join(failed)}"
    if is_whole:
        return False, f"NOT REFUSED by {rows}"
    return False, f"not tried by {rows}: {said.strip().splitlines()[-1:]}"


def by_proof(crate, text, room):
    """What the prover says of a body, which is the crate's only edit in the copy."""
    os.makedirs(f"{room}/crates/{crate}/must-fail")
    with open(f"{room}/crates/{crate}/must-fail/body.edit", "w", encoding="utf-8") as target:
        target.write(text)
    said = said_in(room, "rt", "must-fail", crate)
    refused = re.search(r"refused, as it must be.*", said)
    if refused:
        return True, f"refused by the prover{refused[0][len('refused, as it must be'):]}"
    return False, f"NOT REFUSED by the prover: {said.strip().splitlines()[-1:]}"


def tried(crate, name):
    """Whether a body is refused, and the line that says so."""
    with open(f"{TOP}/mutants/{crate}/{name}.edit", encoding="utf-8") as source:
        text = source.read()
    rows = ROWS.search(text)
    left_out = ["must-fail", "unproved", "*.log"] + ["out"] * bool(rows)
    with tempfile.TemporaryDirectory(prefix="bodies-") as room:
        shutil.copytree(f"{TOP}/crates", f"{room}/crates", ignore=shutil.ignore_patterns(*left_out))
        for file in ("crates.txt", "HANDLES"):
            shutil.copy(f"{TOP}/{file}", room)
        try:
            is_refused, line = by_rows(rows[1], rows[2].split(), crate, text, room) if rows else by_proof(crate, text, room)
        except (ValueError, OSError) as fault:
            is_refused, line = False, f"not tried: {fault}"
    return is_refused, f"{crate}/{name}: {line}"


def named(words):
    """The bodies that the words name, by crate and name."""
    for crate in sorted(os.listdir(f"{TOP}/mutants")):
        if os.path.isdir(f"{TOP}/mutants/{crate}"):
            for name in sorted(it[:-5] for it in os.listdir(f"{TOP}/mutants/{crate}") if it.endswith(".edit")):
                if not words or crate in words or f"{crate}/{name}" in words:
                    yield crate, name


def main(words):
    for word in words:
        if not [*named([word])]:
            sys.exit(f"refused.py: no body is named by {word}")
    all_refused = True
    with ThreadPoolExecutor(int(os.environ.get("JOBS", "1"))) as pool:
        for is_refused, line in pool.map(lambda it: tried(*it), [*named(words)]):
            print(line, flush=True)
            all_refused = all_refused and is_refused
    used = resource.getrusage(resource.RUSAGE_CHILDREN)
    print(f"CPU seconds: {used.ru_utime + used.ru_stime:.0f}")
    return 0 if all_refused else 1


if __name__ == "__main__":
    sys.exit(main(sys.argv[1:]))
