"""The run: cubes are made, handed to workers, split again, and what comes back is put together."""
from __future__ import annotations

import heapq
import os
import shutil
import time
from collections.abc import Callable
from pathlib import Path
from typing import NamedTuple, Optional, Protocol

from ..answers import ProgramError, Values
from .clauses import Compiled, last_clause
from .engines import Ended
from .joining import Hinted, Joined, NoHints, Plain, join
from .lookahead import LookAhead
from .machines import tell
from .program import Bee, Goal
from .tree import Cube, Journal, Tree

# A worker that was asked to stop, and has not, is asked again behind so many seconds.
PATIENCE = 10.0


class Engine(Protocol):
    """What runs workers."""

    workers: int

    def queue(self, cubes: list[Cube], avoided: str = "-") -> None: ...
    def next(self, seconds: float) -> Optional[Ended]: ...
    def stop(self, name: str) -> None: ...
    def bound(self, literal: int) -> None: ...
    def name_of(self, machine: str) -> str: ...
    def leave_out(self, machine: str) -> bool: ...


class OutOfTime(Exception):
    """The time of a run is spent."""


class NoEngine:
    """What stands in the engine's place until the run begins."""

    workers = 0

    def queue(self, cubes: list[Cube], avoided: str = "-") -> None: ...
    def next(self, seconds: float) -> Optional[Ended]: ...
    def stop(self, name: str) -> None: ...
    def bound(self, literal: int) -> None: ...

    def name_of(self, machine: str) -> str:
        return machine

    def leave_out(self, machine: str) -> bool:
        return False


class Settings(NamedTuple):
    """How many cubes are made first, whether the workers' lines have hints, behind how many seconds a cube may be split
    again, how often one that failed runs again, whether progress is told, when the run ends by the clock of `time`, and
    what takes the values of each better solution."""

    cubes: int
    are_hinted: bool = False
    share: float = 5.0
    retries: int = 3
    progress: bool = False
    until: Optional[float] = None
    on_values: Optional[Callable[[Values], object]] = None


class Outcome(NamedTuple):
    """What a worker's output ends with, and the seconds of its processor."""

    what: str
    seconds: float


def outcome_of(path: Path) -> Outcome:
    """The last lines of a worker's output. Where these are not there it is cut short."""
    if not path.exists():
        return Outcome("failed", 0.0)
    with open(path, "rb") as text:
        text.seek(max(0, path.stat().st_size - 200))
        lines = text.read().decode(errors="replace").splitlines()
    seconds = 0.0
    for line in lines:
        if line.startswith("c times "):
            seconds = sum(map(seconds_of, line.split()[2:]))
    last = lines[-1].split() if lines else []
    return Outcome(last[2] if last[:2] == ["c", "end"] else "failed", seconds)


def seconds_of(told: str) -> float:
    """Seconds as `times` tells them: `1m2.5s`."""
    minutes, seconds = told.rstrip("s").split("m")
    return 60 * int(minutes) + float(seconds)


class Conquest:
    """One model, whose cubes are refuted, or one of which has a solution."""

    def __init__(self, bee: Bee, goal: Goal, folder: Path, journal: Journal, settings: Settings):
        self.bee, self.goal, self.folder = bee, goal, folder
        self.journal, self.settings = journal, settings
        self.tree: Tree = journal.tree
        self.compiled = Compiled(folder / "compiled")
        self.look_ahead = LookAhead(self.compiled)
        self.parts, self.values = folder / "parts", folder / "values"
        self.parts.mkdir(exist_ok=True)
        self.started: dict[str, float] = {}
        self.waiting: list[str] = []
        self.stopping: dict[str, float] = {}
        self.failures: dict[str, int] = {}
        self.unreached: dict[str, int] = {}
        self.seconds: dict[str, float] = {}
        self.is_found, self.is_closed = False, False
        self.bound: Optional[list[int]] = None
        self.told, self.told_at = "", 0.0
        self.wall_clock = 0.0
        self.engine: Engine = NoEngine()

    # Cubes are made.

    def split(self, name: str) -> bool:
        """Splits a cube, or closes it where unit propagation refutes it. The answer is whether it did either."""
        choice = self.look_ahead.choose(self.tree.cube(name).literals)
        if choice is None:
            is_closed = self.look_ahead.enter(self.tree.cube(name).literals) is None
            if is_closed:
                self.journal.add("closed", name)
            return is_closed
        self.journal.add("split", name, choice.literal)
        for side, is_refuted in enumerate(choice.is_refuted):
            if is_refuted:
                self.journal.add("closed", f"{name}{side}")
        return True

    def make_cubes(self) -> None:
        """Splits until there are as many cubes as are to be made first, the one with most open variables first. Where
        some are refuted a run goes on, and its cubes stay."""
        if self.journal.best is not None:
            self.take_bound()
        if self.tree.refuted:
            return
        heap = [(-self.open_variables(it), it) for it in self.tree.open_leaves()]
        heapq.heapify(heap)
        while heap and len(heap) < self.settings.cubes:
            _, name = heapq.heappop(heap)
            if not self.split(name):
                continue
            for it in self.tree.leaves(name):
                if it not in self.tree.closed:
                    heapq.heappush(heap, (-self.open_variables(it), it))

    def open_variables(self, name: str) -> int:
        return self.look_ahead.enter(self.tree.cube(name).literals) or 0

    def split_again(self, name: str) -> list[str]:
        """Splits a cube in two that are both open, where it can be. The answer is what has to be run."""
        while self.split(name):
            open_leaves = [it for it in self.tree.leaves(name) if it not in self.tree.closed]
            if len(open_leaves) != 1:
                return open_leaves
            name = open_leaves[0]
        return [name]

    # Workers are given cubes.

    def run(self, engine: Engine) -> None:
        """Runs until every cube is refuted, or a solution is found where any serves."""
        self.engine, begun = engine, time.monotonic()
        if self.bound:
            engine.bound(self.bound[0])
        self.queue(self.tree.open_leaves())
        while self.tree.open_leaves() and not self.is_found:
            if self.settings.until is not None and time.monotonic() > self.settings.until:
                raise OutOfTime
            if self.is_closed:
                self.tree.close_all()
                break
            end = engine.next(0.5)
            if end is not None and (end.name in self.started or end.name in self.waiting):
                self.take(end)
            self.stop_long_ones()
            self.show()
        self.show(always=True)
        self.wall_clock += time.monotonic() - begun

    def queue(self, names: list[str], avoided: str = "-") -> None:
        """Hands cubes to the engine, which begins them in this order as workers are free."""
        if not names:
            return
        for it in names:
            self.journal.add("given", it, self.tree.last_number + 1)
        self.engine.queue([self.tree.cube(it) for it in names], avoided)
        self.waiting += names
        self.start_waiting()

    def start_waiting(self) -> None:
        """Which cubes run by now: the engine begins as many as it has workers."""
        while self.waiting and len(self.started) < self.engine.workers:
            self.started[self.waiting.pop(0)] = time.monotonic()

    def stop_long_ones(self) -> None:
        """Where workers have nothing to do, stops as many cubes that are past their share, the longest first."""
        now, idle = time.monotonic(), self.engine.workers - len(self.started)
        share = self.settings.share
        long_ones = sorted((since, it) for it, since in self.started.items() if now > since + share)
        asked = [it for it, since in self.stopping.items() if now > since + PATIENCE]
        others = [it for _, it in long_ones if it not in self.stopping]
        for name in asked + others[: max(0, idle - len(self.stopping))]:
            self.stopping[name] = now
            self.engine.stop(name)

    # What comes back is taken.

    def take(self, end: Ended) -> None:
        """Takes what a worker wrote."""
        path = self.folder / "out" / f"{end.name}.out"
        outcome = outcome_of(path)
        if self.started.pop(end.name, None) is None:
            self.waiting.remove(end.name)
        self.stopping.pop(end.name, None)
        machine = self.engine.name_of(end.machine)
        worker = f"{machine}/{end.slot}"
        self.seconds[worker] = self.seconds.get(worker, 0.0) + outcome.seconds
        if outcome.what == "refuted":
            path.replace(self.parts / end.name)
            self.journal.add("refuted", end.name, machine, f"{outcome.seconds:.2f}")
        elif outcome.what == "found":
            self.take_values(end, path)
        elif outcome.what == "stopped":
            self.queue(self.split_again(end.name))
        elif outcome.what == "bound":
            self.queue([end.name])
        else:
            self.take_failure(end)
        if outcome.what != "failed":
            self.unreached.pop(end.machine, None)
        path.unlink(missing_ok=True)
        self.start_waiting()

    def take_values(self, end: Ended, path: Path) -> None:
        """Takes a solution, where it is one: its cube runs again for a better one."""
        found = self.bee.decode(self.compiled.path, path, self.folder / "names")
        if found is None:
            self.fail(end, "its values satisfy not all clauses")
            return
        if self.goal.direction == "satisfy":
            path.replace(self.values)
            self.is_found = True
            return
        value = int(found[self.goal.objectives[0]])
        if self.goal.is_better(value, self.journal.best):
            path.replace(self.values)
            self.journal.add("best", value)
            self.hand_on(found)
            self.take_bound()
        self.queue([end.name])

    def hand_on(self, values: Values) -> None:
        """Hands a better solution to who asked for it."""
        if self.settings.on_values is not None:
            self.settings.on_values(values)

    def take_bound(self) -> None:
        """Tells the workers what is better than the best value. Where nothing can be, all cubes are refuted."""
        assert self.journal.best is not None
        self.bee.bound(self.journal.best, self.folder / "bounded")
        clause = last_clause(self.folder / "bounded", len(self.compiled.clauses))
        self.bound = clause
        self.is_closed = clause == [] or (clause is not None and not self.look_ahead.take_bound(clause[0]))
        if clause:
            self.engine.bound(clause[0])

    def take_failure(self, end: Ended) -> None:
        """Has a cube run again, elsewhere where that can be. A machine that twice in a row can't be reached is given
        no more cubes."""
        told = (self.folder / "out" / f"{end.name}.err")
        lines = told.read_text(errors="replace").split("\n") if told.exists() else []
        why = next((it for it in lines if it), f"its worker ended with code {end.code}")
        if end.code == 255 and end.machine in self.unreached:
            self.leave_out(end.machine)
        if end.code == 255:
            self.unreached[end.machine] = 1
        self.fail(end, why)

    def leave_out(self, machine: str) -> None:
        if self.engine.leave_out(machine):
            tell(f"{self.engine.name_of(machine)} can't be reached: it is given no more cubes")
        if not self.engine.workers:
            raise ProgramError("no machine is left")

    def fail(self, end: Ended, why: str) -> None:
        """Tells that a cube failed, and has it run again, unless that was often enough."""
        count = self.failures[end.name] = self.failures.get(end.name, 0) + 1
        machine = self.engine.name_of(end.machine)
        tell(f"cube {self.tree.cube(end.name)} failed on {machine}: {why}")
        if count > self.settings.retries:
            raise ProgramError(f"cube {end.name} failed {count} times")
        self.queue([end.name], end.machine)

    # What was found is put together.

    def finish(self, answer: Path) -> bool:
        """Joins the parts and makes the answer. Where a part is refused, its cube is open again, and the answer is
        no."""
        found = self.folder / "found"
        joined, bad, begun = None, None, time.process_time()
        if self.is_found:
            shutil.copy(self.values, found)
        else:
            try:
                joined = self.join(found)
            except NoHints as fault:
                bad = fault.name
        took, below = time.process_time() - begun, os.times().children_user
        line = 0 if bad else self.bee.certify(found, answer)
        if not bad and line == 0:
            if self.settings.progress:
                size, below = found.stat().st_size, os.times().children_user - below
                tell(f"the workers were done in {self.wall_clock:.1f} seconds")
                tell(f"{size} bytes, joined in {took:.1f} seconds and certified in {below:.1f}, of CPU time")
            found.unlink()
            return True
        bad = bad or (joined.cube_of(line) if joined else None)
        if bad not in self.tree.refuted:
            raise ProgramError(f"bee certify refuses line {line} of {found}, of {bad}")
        tell(f"cube {self.tree.cube(bad)} runs again: its part is no refutation")
        count = self.failures[bad] = self.failures.get(bad, 0) + 1
        if count > self.settings.retries:
            raise ProgramError(f"cube {bad} failed {count} times")
        self.journal.add("refused", bad)
        return False

    def join(self, found: Path) -> Joined:
        """Writes what was found as one text."""
        values = self.values if self.journal.best is not None else None
        lines: Hinted | Plain = Plain(self.tree, self.parts)
        if self.settings.are_hinted:
            lines = Hinted(self.tree, self.parts, self.compiled, self.bound)
        with open(found, "w") as to:
            return join(lines, values, to)

    def show(self, always: bool = False) -> None:
        """Tells progress, once a second at most."""
        now = time.monotonic()
        if not self.settings.progress or (now < self.told_at + 1 and not always):
            return
        tree, best = self.tree, self.journal.best
        done = len(tree.refuted) + len(tree.closed)
        words = f"{done} done, {len(tree.open_leaves())} open, {len(tree.split)} split"
        words += "" if best is None else f"; best {best}"
        told = ", ".join(f"{worker} {it:.1f}" for worker, it in sorted(self.seconds.items()))
        words += f"; seconds: {told or 0}"
        if words != self.told:
            tell(words)
            self.told, self.told_at = words, now
