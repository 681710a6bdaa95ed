#!/usr/bin/env python3
"""Writes what `check.sh` measures: answers.py FAMILY SIZE FILE. The first line says whether the document is given, made
by compiling, or made of so many lines; then comes the model, and a given document behind a line of its own."""
import os, sys

sys.path.insert(0, os.path.dirname(os.path.abspath(__file__)))
import models


class Pigeons:
    """One pigeon more than holes. The variable of pigeon i in hole j is i * holes + j + 1."""

    def __init__(self, holes):
        self.holes = holes
        self.clauses, self.apart = [], {}
        for pigeon in range(holes + 1):
            self.clauses.append([self.at(pigeon, hole) for hole in range(holes)])
        for hole in range(holes):
            for second in range(holes + 1):
                for first in range(second):
                    self.clauses.append([-self.at(first, hole), -self.at(second, hole)])
                    self.apart[first, second, hole] = len(self.clauses)
        self.last = len(self.clauses)
        self.lines = []

    def at(self, pigeon, hole):
        return pigeon * self.holes + hole + 1

    def name(self, literal):
        return ("-" if literal < 0 else "") + models.name(abs(literal) - 1)

    def model(self):
        yield from (f"new_bool({models.name(n)})" for n in range((self.holes + 1) * self.holes))
        yield from (f"bool_array_or({models.joined(map(self.name, clause))})" for clause in self.clauses)

    def refute(self, placed):
        """Adds the clause that the first pigeons aren't placed like this, and gives its id."""
        pigeon, hints, needed = len(placed), [], []
        for hole in range(self.holes):
            if hole in placed:
                hints.append(self.apart[placed.index(hole), pigeon, hole])
            else:
                needed.append(self.refute(placed + [hole]))
        self.last += 1
        literals = [-self.at(i, hole) for i, hole in enumerate(placed)]
        self.lines.append([self.last, *literals, 0, *hints, *needed, pigeon + 1, 0])
        if needed:
            self.lines.append([self.last, "d", *needed, 0])
        return self.last

    def document(self):
        self.refute([])
        yield from ("bee 1", "UNSATISFIABLE", "ledger")
        yield from (f"enc {n + 1}" for n in range(len(self.clauses)))
        yield "proof"
        yield from (" ".join(map(str, line)) for line in self.lines)
        yield "end"


def case(family, size):
    if family == "pigeons":
        pigeons = Pigeons(size)
        yield "given"
        yield from pigeons.model()
        yield from ("solve satisfy", "document")
        yield from pigeons.document()
    elif family == "text":
        yield from (f"lines {size}", "solve satisfy")
    else:
        yield "compile"
        yield from getattr(models, family)(size)
        yield "solve satisfy"


if __name__ == "__main__":
    family, size, path = sys.argv[1:]
    with open(path, "w") as sink:
        for line in case(family, int(size)):
            sink.write(line + "\n")
