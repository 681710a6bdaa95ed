#!/usr/bin/env python3
"""How many files each solver solves within how many CPU seconds, of which a cactus plot is made: cactus.py BEE [FAMILY ..].
It solves the files of `search.py` by `bee sat`, minisat with and without preprocessing, and cadical, and prints a row for
each solver and number of files: the seconds of the last of that many, the quickest first. A run is stopped after
SECONDS_EACH seconds (60)."""
import shutil
import sys
import tempfile

import search

SOLVERS = {
    "bee sat": lambda bee, path: [bee, "sat", path],
    "minisat": lambda bee, path: ["minisat", path, "/dev/null"],
    "minisat without preprocessing": lambda bee, path: ["minisat", "-no-pre", path, "/dev/null"],
    "cadical": lambda bee, path: ["cadical", "-q", "-n", path],
}
# What is less is told as this.
LEAST = 0.001


def main(bee, *families):
    times = {name: [] for name, words in SOLVERS.items() if shutil.which(words(bee, "")[0])}
    for family in families or search.FAMILIES:
        for size, seed in search.FAMILIES[family]:
            with tempfile.TemporaryDirectory() as folder:
                path = search.written(bee, family, size, seed, folder)
                for name, seconds in times.items():
                    took, text = search.timed(SOLVERS[name](bee, path))
                    if search.told(text) != search.UNKNOWN:
                        seconds.append(max(took, LEAST))
    print("solver\tfiles\tseconds\tof")
    count = sum(len(search.FAMILIES[it]) for it in families or search.FAMILIES)
    for name, seconds in times.items():
        for solved, took in enumerate(sorted(seconds), 1):
            print(f"{name}\t{solved}\t{took:.3f}\t{count}")


if __name__ == "__main__":
    main(*sys.argv[1:])
