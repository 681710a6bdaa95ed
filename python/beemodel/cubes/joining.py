"""One refutation of all clauses, of the parts that workers wrote."""
from __future__ import annotations

from bisect import bisect_right
from collections.abc import Iterator
from pathlib import Path
from typing import NamedTuple, Optional, TextIO

from .clauses import Compiled
from .hints import Hints
from .tree import ROOT, Cube, Tree


# The ids of a part's lines are its cube's number times this and a number below.
PART = 10**7


class Joined(NamedTuple):
    """Where each cube's lines begin in the joined text, lowest first, and how many bytes it has."""

    starts: list[int]
    names: list[str]
    bytes: int

    def cube_of(self, line: int) -> Optional[str]:
        """The cube that a line belongs to, counted from 1."""
        at = bisect_right(self.starts, line) - 1
        return self.names[at] if at >= 0 else None


class NoHints(Exception):
    """What should be shown by unit propagation is not, or a part is no text of lines with hints."""

    def __init__(self, name: str):
        super().__init__(name)
        self.name = name


def order(tree: Tree) -> Iterator[str]:
    """The cubes, both sides of one before itself."""
    waiting = [(ROOT, False)]
    while waiting:
        at, are_sides_done = waiting.pop()
        if at in tree.refuted or at in tree.closed or are_sides_done:
            yield at
        else:
            waiting += [(at, True), (f"{at}1", False), (f"{at}0", False)]


class Plain:
    """Lines without hints: the cube's negated literals stand behind those of each line of a part."""

    def __init__(self, tree: Tree, parts: Path):
        self.tree, self.parts = tree, parts

    def order(self) -> Iterator[str]:
        """The cubes that are written, all of them."""
        return order(self.tree)

    def lines(self, name: str) -> Iterator[str]:
        """What is written for a cube."""
        behind = "".join(f"{-it} " for it in self.tree.cube(name).literals) + "0\n"
        if name in self.tree.refuted:
            with open(self.parts / name, errors="replace") as text:
                for line in text:
                    if not line.startswith("c"):
                        yield line.rstrip("\n").removesuffix("0") + behind
        yield behind


class Shown(NamedTuple):
    """How a cube is refuted: the clause that leaves it out, of some of its negated literals; the ids of clauses of the
    text that show it; the sides whose clauses do, or the one whose clause it is; and the bytes of all parts that this
    needs."""

    clause: frozenset[int]
    hints: list[int] = []
    sides: tuple[str, ...] = ()
    bytes: int = 0


class Hinted:
    """Lines with hints. A part has the ids and the clauses that the joined text has, under ids that begin with its
    cube's number; those of the clauses that close the tree begin with the next number that no cube has.

    A cube is often refuted without some of its literals. Where it is without the last one, its clause leaves out the
    other side as well, whose parts are not written."""

    def __init__(self, tree: Tree, parts: Path, compiled: Compiled, bound: Optional[list[int]]):
        self.tree, self.parts = tree, parts
        self.count = len(compiled.clauses)
        self.clauses = compiled.clauses + ([] if bound is None else [bound])
        self.hints, self.bound = Hints(compiled, bound), bound[0] if bound else None
        # The id that the next clause has; the ids of cubes' clauses; those of bounds; and how cubes are refuted.
        self.next = (tree.last_number + 1) * PART
        self.ids: dict[str, int] = {}
        self.bounds = {bound[0]: self.count + 1} if bound else {}
        self.shown: dict[str, Shown] = {}

    def order(self) -> Iterator[str]:
        """The cubes that are written: those that the whole needs, the sides of each before itself."""
        for name in order(self.tree):
            self.shown[name] = self.how(name)
        needed = [ROOT]
        for name in needed:
            needed += self.shown[name].sides
        return reversed(needed)

    def how(self, name: str) -> Shown:
        """How a cube is refuted, once it is known of its sides."""
        literals = self.tree.cube(name).literals
        if self.bound is not None and -self.bound in literals:
            # The bound makes what the cube leaves out true.
            return Shown(frozenset([self.bound]))
        if name in self.tree.refuted:
            last = last_line(self.parts / name)
            clause = frozenset(map(int, clause_of(name, last)))
            if not clause <= {-it for it in literals} or not is_of(self.tree.cube(name), last):
                raise NoHints(name)
            return Shown(clause, bytes=(self.parts / name).stat().st_size)
        if name in self.tree.closed:
            hints = self.hints.refute(literals)
            if hints is None:
                raise NoHints(name)
            used = {literal for it in hints for literal in self.clauses[it - 1]}
            return Shown(frozenset(-it for it in literals if -it in used), hints)
        return self.by_sides(name)

    def by_sides(self, name: str) -> Shown:
        """How a cube that is split is refuted: by the shorter one of those sides that need not the literal of the
        split, or by both."""
        literal, sides = self.tree.split[name], (f"{name}0", f"{name}1")
        alone = [it for it, own in zip(sides, (-literal, literal)) if own not in self.shown[it].clause]
        if alone:
            side = min(alone, key=lambda it: self.shown[it].bytes)
            return self.shown[side]._replace(hints=[], sides=(side,))
        one, other = self.shown[sides[0]], self.shown[sides[1]]
        clause = (one.clause | other.clause) - {literal, -literal}
        return Shown(clause, [], sides, one.bytes + other.bytes)

    def lines(self, name: str) -> Iterator[str]:
        """What is written for a cube."""
        shown = self.shown[name]
        if len(shown.sides) == 1:
            self.ids[name] = self.ids[shown.sides[0]]
        elif self.bound is not None and shown == Shown(frozenset([self.bound])):
            self.ids[name] = self.count + 1
        elif name in self.tree.refuted:
            yield from self.part(self.tree.cube(name))
        else:
            hints = shown.hints or [self.ids[it] for it in shown.sides]
            yield self.added(name, sorted(shown.clause, key=abs), hints)

    def added(self, name: str, literals: list[int], hints: list[int]) -> str:
        """A clause under the next id."""
        self.ids[name] = self.next
        self.next += 1
        return f"{self.ids[name]} {' '.join(map(str, [*literals, 0, *hints]))} 0\n"

    def part(self, cube: Cube) -> Iterator[str]:
        """The lines of a part, whose ids are those of its cube, and the last of which is the clause that leaves the
        cube out."""
        last, restated = "", None
        with open(self.parts / cube.name, errors="replace") as text:
            for line in text:
                if line.startswith("c bound"):
                    bound = bound_of(line)
                    yield from self.bound_line(cube.name, bound)
                    restated = self.restated(bound)
                if line.startswith("c"):
                    continue
                if not is_of(cube, line):
                    raise NoHints(cube.name)
                last = line
                line = line if restated is None else restated.line(line)
                if line:
                    yield line
        self.ids[cube.name] = int(last.partition(" ")[0])

    def restated(self, bound: Optional[int]) -> Optional[Restated]:
        """What restates lines of a worker that had another bound, or none."""
        if self.bound is None or self.bound == bound:
            return None
        number = None if bound is None else self.bounds[bound]
        return Restated(self.bound, self.count + 1, number)

    def bound_line(self, name: str, bound: Optional[int]) -> Iterator[str]:
        """The bound that a worker had, where another one is better by now: it follows from that one."""
        if bound is not None and bound not in self.bounds:
            hints = self.hints.refute([-bound])
            if hints is None:
                raise NoHints(name)
            yield self.added(f"bound {bound}", [bound], hints)
            self.bounds[bound] = self.ids[f"bound {bound}"]


def bound_of(line: str) -> Optional[int]:
    """The bound that a part says that its worker had."""
    words = line.split()
    return int(words[2]) if len(words) > 2 else None


def is_of(cube: Cube, line: str) -> bool:
    """Whether the id of a line is one of a cube's."""
    number = line.partition(" ")[0]
    return number.isdecimal() and int(number) // PART == cube.number


def last_line(part: Path) -> str:
    """The last line of a part that says something of clauses, or nothing where there is none."""
    size, end = 1 << 12, part.stat().st_size
    with open(part, "rb") as text:
        while True:
            text.seek(max(0, end - size))
            # What is read may begin within a line.
            lines = text.read().split(b"\n")[0 if size >= end else 1 :]
            found = [it for it in lines if it and not it.startswith(b"c")]
            if found or size >= end:
                return found[-1].decode(errors="replace") if found else ""
            size *= 4


def clause_of(name: str, line: str) -> list[str]:
    """The literals of a line with hints."""
    words = line.split()
    if words[-1:] != ["0"] or "0" not in words[1:-1]:
        raise NoHints(name)
    found = words[1 : words.index("0", 1)]
    if not all(it.removeprefix("-").isdecimal() for it in found):
        raise NoHints(name)
    return found


class Restated:
    """Lines of a part whose worker had a weaker bound, or none, restated so that they follow once the bound, whose id
    is `own`, is true from the start: it is the first hint of each. A clause that it makes true is left out, since it
    tells nothing then. `number` is the id of the worker's bound, which its lines name `own`."""

    def __init__(self, bound: int, own: int, number: Optional[int]):
        self.bound, self.own = str(bound), str(own)
        self.number = self.own if number is None else str(number)
        self.gone: set[str] = set()

    def line(self, line: str) -> str:
        """A line of the part; empty where it is left out."""
        head, _, hints = line.partition(" 0 ")
        number, *clause = head.split()
        if self.bound in clause:
            self.gone.add(number)
            return ""
        kept = [self.number if it == self.own else it for it in hints.split() if it not in self.gone]
        return f"{head} 0 {self.own} {' '.join(kept)}\n"


def join(lines: Plain | Hinted, values: Optional[Path], to: TextIO) -> Joined:
    """Writes the joined text: the values of the best solution, where there is one, and then a refutation."""
    starts, names, count = [], [], 1
    if values is not None:
        kept = [it for it in values.read_text().splitlines(True) if it.startswith(("s ", "v "))]
        to.writelines(kept)
        count += len(kept)
    for name in lines.order():
        starts.append(count)
        names.append(name)
        for it in lines.lines(name):
            to.write(it)
            count += 1
    to.flush()
    return Joined(starts, names, to.tell())
