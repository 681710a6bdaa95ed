"""The compiled text of a model: its clauses, and the literals of its names."""
from __future__ import annotations

from pathlib import Path
from typing import NamedTuple, Optional


class Integer(NamedTuple):
    """A declared integer: its least value, and its steps, each a literal and what it adds where it is true."""

    base: int
    steps: tuple[tuple[int, int], ...]

    def literals_of(self, value: int) -> list[int]:
        """What the steps are where the integer has a value."""
        found, reached = [], self.base
        for literal, weight in self.steps:
            reached += weight
            found.append(literal if value >= reached else -literal)
        return found


class Compiled:
    """What `bee compile` wrote."""

    def __init__(self, path: Path):
        self.path = path
        self.booleans: dict[str, int] = {}
        self.integers: dict[str, Integer] = {}
        self.variables = 0
        self.clauses: list[list[int]] = []
        with open(path) as text:
            for line in text:
                self.take(line)

    def take(self, line: str) -> None:
        words = line.split()
        if words[0] == "p":
            self.variables = int(words[2])
        elif words[0] != "c":
            self.clauses.append([int(it) for it in words[:-1]])
        elif words[1] == "bool" and words[3] not in "TF":
            self.booleans[words[2]] = int(words[3])
        elif words[1] == "int":
            steps = [it.split(":") for it in words[4:]]
            each = tuple((int(atom), int(weight)) for atom, weight in steps if atom not in "TF")
            self.integers[words[2]] = Integer(int(words[3]), each)

    def literals_of(self, values: dict[str, int | bool]) -> list[int]:
        """What the values of names make true."""
        found = []
        for name, literal in self.booleans.items():
            found.append(literal if values[name] else -literal)
        for name, integer in self.integers.items():
            found += integer.literals_of(int(values[name]))
        return found

    def write_for_workers(self, folder: Path, share: float) -> None:
        """The size, the clauses and the share, as `worker.sh` reads them."""
        (folder / "share").write_text(f"{int(share)}\n")
        (folder / "size").write_text(f"{self.variables} {len(self.clauses)}\n")
        with open(folder / "clauses", "w") as text:
            for clause in self.clauses:
                text.write(f"{' '.join(map(str, clause))} 0\n".lstrip())


def last_clause(path: Path, count: int) -> Optional[list[int]]:
    """The clause that `bee bound` wrote behind the clauses of the compiled text, or nothing where there are no more
    than these."""
    size, last = 0, ""
    with open(path) as text:
        for line in text:
            if line.startswith("p "):
                size = int(line.split()[3])
            last = line
    return [int(it) for it in last.split()[:-1]] if size > count else None
