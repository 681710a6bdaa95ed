#!/usr/bin/env python3
"""Lists the places where a kind of thing is named, and so where another one of its kind is added: places.py [KIND ..],
all kinds without words. One of each kind stands for the others: the statement `int_abs`, the form `Prod` and the
compound form `AllDiff`, the equations of conjunctions, the mode `decode`, the length of a stretch between restarts, the
option `--no-restart`. With `--count` it prints one line for each kind alone; with `--write` it puts the counts into
CONTRIBUTING.md: those of code, definitions and proofs together, and of all."""
import os
import re
import subprocess
import sys

TOP = os.path.dirname(os.path.dirname(os.path.realpath(__file__)))
# What names one of the kind: in code, definitions and proofs, and in rows, pages and scripts.
KINDS = {
    "statement": r"\bAbsolute\b(?! values)|\bint_abs\b",
    "form": r"\bProd\b",
    "compound": r"\bAllDiff\b",
    "rule": r"\b(conj_equations|by_conj)\b",
    "mode": r"\b(Decode|DecodeMode|decode_mode)\b|\"decode\"|`bee decode|^\| `decode`|^\$ decode",
    "schedule": r"\b(stretch_length|stretches_total)\b",
    "option": r"no-restart|\bno_restart\b|\bSearchOptions \{",
}
# Where these stand, in the order in which they are told: each with what is looked for in a path.
PARTS = (
    ("code", r"^crates/(?!\w+_rows/|core_words/)\w+/src/"),
    ("definitions", r"^crates/\w+/specs/"),
    ("proofs", r"^crates/\w+/proofs/"),
    ("rows", r"^crates/(\w+_rows|core_words)/"),
    ("crates.txt", r"^crates\.txt$"),
    ("program", r"^bee$"),
    ("pages", r"^docs/(CORES|FORMATS|LANGUAGE|PROVED)\.md$"),
    ("python", r"^python/beemodel/"),
    ("reference", r"^reference/\w+\.py$"),
    ("bench", r"^bench/\w+\.py$"),
)


def named(kind):
    """The paths of the files that name one of the kind, by part."""
    where = ["crates", "crates.txt", "docs", "README.md", "python", "reference", "bench", "bee"]
    words = ["git", "grep", "-lP", KINDS[kind], "--", *where]
    paths = subprocess.run(words, cwd=TOP, capture_output=True, text=True, check=True).stdout.split()
    parts = {part: [it for it in paths if re.match(rule, it)] for part, rule in PARTS}
    return {part: found for part, found in parts.items() if found}


def write():
    """Puts the counts of each kind behind its word on the page."""
    path = f"{TOP}/CONTRIBUTING.md"
    with open(path, encoding="utf-8") as source:
        page = source.read()
    for kind in KINDS:
        parts = named(kind)
        own = sum(len(found) for part, found in parts.items() if part in ("code", "definitions", "proofs"))
        both = dict.fromkeys((own, sum(map(len, parts.values()))))
        page = re.sub(rf"(`{kind}`[^:]*: )\d+(, \d+)?", lambda m: m[1] + ", ".join(map(str, both)), page)
    with open(path, "w", encoding="utf-8") as target:
        target.write(page)


def main():
    if "--write" in sys.argv:
        return write()
    words = [it for it in sys.argv[1:] if not it.startswith("--")]
    for kind in words or KINDS:
        parts = named(kind)
        counts = ", ".join(f"{part} {len(found)}" for part, found in parts.items())
        print(f"{kind}: {sum(map(len, parts.values()))} files ({counts})")
        if "--count" not in sys.argv:
            for found in parts.values():
                for path in found:
                    print(f"  {path}")


if __name__ == "__main__":
    main()
