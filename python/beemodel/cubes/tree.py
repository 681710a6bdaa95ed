"""The tree of cubes, and the journal that it is made of again."""
from __future__ import annotations

import os
from collections.abc import Iterator
from pathlib import Path
from typing import NamedTuple, Optional, TextIO

ROOT = "c"


class Cube(NamedTuple):
    """A cube: its name, that of the whole and `0` or `1` for each literal, the literals, and the number with which the
    ids of its lines begin, which is 0 until it is given to a worker."""

    name: str
    literals: tuple[int, ...]
    number: int = 0

    def __str__(self) -> str:
        return f"{self.name} ({' '.join(map(str, self.literals))})"


class Tree:
    """Which cubes are split by which literal, and which are refuted: by a worker, or by unit propagation alone."""

    def __init__(self) -> None:
        self.split: dict[str, int] = {}
        self.refuted: set[str] = set()
        self.closed: set[str] = set()
        self.numbers: dict[str, int] = {}
        self.last_number = 0

    def cube(self, name: str) -> Cube:
        """The cube of a name."""
        signs = zip(range(len(ROOT), len(name)), name[len(ROOT) :])
        literals = (self.split[name[:at]] * (1 if side == "0" else -1) for at, side in signs)
        return Cube(name, tuple(literals), self.numbers.get(name, 0))

    def leaves(self, name: str = ROOT) -> Iterator[str]:
        """The cubes that are not split, the first side first."""
        waiting = [name]
        while waiting:
            name = waiting.pop()
            if name in self.split:
                waiting += [f"{name}1", f"{name}0"]
            else:
                yield name

    def open_leaves(self) -> list[str]:
        """The cubes that are neither split nor refuted."""
        return [it for it in self.leaves() if it not in self.refuted and it not in self.closed]

    def close_all(self) -> None:
        """Nothing is left: unit propagation refutes the whole."""
        self.split.clear()
        self.refuted.clear()
        self.closed.add(ROOT)

    def take(self, words: list[str]) -> None:
        """What a line of a journal says of the tree."""
        match words:
            case ["split", name, literal]:
                self.split[name] = int(literal)
            case ["closed", name]:
                self.closed.add(name)
            case ["given", name, number]:
                self.numbers[name] = self.last_number = int(number)
            case ["refuted", name, *_]:
                self.refuted.add(name)
            case ["refused", name, *_]:
                self.refuted.discard(name)


class Journal:
    """A file to which each thing that happened is added, so that a run can go on where another one ended."""

    def __init__(self, path: Path, tree: Tree):
        self.path, self.tree = path, tree
        self.best: Optional[int] = None
        self.model = ""
        self.file: Optional[TextIO] = None

    def read(self) -> None:
        """Takes what a journal says. A last line that is cut short is passed over, and so is what none writes."""
        if not self.path.exists():
            return
        text = self.path.read_text(errors="replace")
        for line in text[: text.rfind("\n") + 1].splitlines():
            self.take(line.split())

    def take(self, words: list[str]) -> None:
        match words:
            case ["model", sum_of_text]:
                self.model = sum_of_text
            case ["best", value]:
                self.best = int(value)
            case _:
                self.tree.take(words)

    def start(self, sum_of_text: str) -> None:
        """Opens the file for what is added. A line that was cut short ends here."""
        self.path.parent.mkdir(parents=True, exist_ok=True)
        cut = self.path.exists() and not self.path.read_bytes().endswith(b"\n") and self.path.stat().st_size > 0
        self.file = open(self.path, "a")
        self.file.write("\n" if cut else "")
        if not self.model:
            self.add("model", sum_of_text)

    def add(self, *words: object) -> None:
        """Adds a line, and takes it."""
        assert self.file is not None
        told = [str(it) for it in words]
        self.file.write(" ".join(told) + "\n")
        self.file.flush()
        os.fsync(self.file.fileno())
        self.take(told)

    def close(self) -> None:
        if self.file is not None:
            self.file.close()
