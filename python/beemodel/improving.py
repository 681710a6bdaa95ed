"""A large neighbourhood search: a part of the best solution is kept, and the rest is sought anew."""
from __future__ import annotations

import random
import sys
import tempfile
import time
from collections.abc import Mapping
from pathlib import Path
from typing import Optional

from .answers import Answer, Found, Proof, Step, Value, Values
from .neighbourhoods import Kind, Structure
from .program import program_of
from .running import (
    Limits,
    Folder,
    Search,
    Watch,
    known_answer,
    resumes,
    search,
    search_answer,
    stated_first,
    whole_answer,
    wished,
    wishes_file,
    with_run,
)
from .windows import Ends

# Learned clauses: of the first search for a solution, of the first steps, and of the last call
# where no time bounds it.
FIRST, EACH, LAST = 100, 400, 20_000
# The share of the seconds behind which the last call begins.
SHARE = 0.8
# Behind so many steps without a better solution the steps may learn twice as many clauses.
PATIENCE = 24


class Improvement:
    """A search in the neighbourhoods of the best solution."""

    def __init__(self, text: str, asked: Limits, seed: int, at: Path):
        self.text, self.asked, self.at = text, asked, at
        self.begun = time.monotonic()
        self.structure = Structure(text)
        self.goal = self.structure.goal
        self.chance = random.Random(seed)
        self.best: Optional[Found] = None
        self.steps: list[Step] = []
        self.stopped: Optional[str] = None
        self.count_of_clauses = 0
        self.budget = EACH
        self.idle = 0
        kinds = self.structure.kinds()
        self.shares = {it: 0.3 for it in kinds}
        self.scores = {it: 2.0 for it in kinds}

    def seconds(self) -> float:
        """The time since the search began."""
        return time.monotonic() - self.begun

    def left(self, share: float = 1.0) -> Optional[float]:
        """The seconds that are left of a share of them."""
        seconds = self.asked.seconds
        return None if seconds is None else max(0.0, share * seconds - self.seconds())

    def take(self, found: Found) -> None:
        """Takes a better solution."""
        objectives = tuple(int(found.values[it]) for it in self.goal.names)
        if self.best is not None and not self.goal.is_better(objectives, self.best.objectives):
            return
        count = self.count_of_clauses + found.count_of_clauses
        self.best = Found(objectives, found.values, count, self.seconds())
        self.steps.append(Step(objectives, count, self.best.seconds))
        if self.asked.progress:
            told = " ".join(map(str, objectives))
            print(f"bee: best {told}, {count} clauses learned, {self.seconds():.1f} s", file=sys.stderr)
        if self.asked.on_found is not None:
            self.asked.on_found(self.best)

    def searched(self, text: str, budget: int, share: float) -> Search:
        """A search whose better solutions are taken."""
        how = Limits(budget, self.left(share), self.take, False, self.asked.program)
        found = search(text, how, self.at)
        self.count_of_clauses += found.watch.count_of_clauses
        return found

    def first(self) -> Optional[Answer]:
        """Seeks a solution to begin with. The answer is there where it is whole already."""
        budget = FIRST
        while self.best is None:
            found = self.searched(self.text, budget, 1.0)
            self.stopped = found.ended.stopped
            if self.stopped is not None:
                return None
            if found.ended.code == 0:
                return whole_answer(found, "solve", self.asked.program)
            whole_answer(found, "solve", self.asked.program)
            budget *= 2
        return None

    # Steps.

    def step(self, number: int) -> bool:
        """Seeks a better solution in a neighbourhood of the best one. The answer is whether there
        is none, as in the whole model."""
        assert self.best is not None
        kind = self.chance.choices(list(self.scores), list(self.scores.values()))[0]
        count = max(2, round(self.shares[kind] * len(self.structure.own)))
        free = self.structure.free(kind, count, self.best.values, self.chance)
        kept = self.structure.kept(kind, free, self.best.values)
        text = self.structure.text(kept, *self.better(number))
        outcome = "none" if text is None else self.tried(text)
        self.learn(kind, outcome)
        return outcome == "none" and not kept

    def tried(self, text: str) -> str:
        """How a search ended: `better`, `none` where there is no solution, `spent` or `stopped`."""
        before = self.best
        found = self.searched(text, self.budget, SHARE)
        self.stopped = found.ended.stopped
        if self.best is not before:
            return "better"
        if self.stopped is not None:
            return "stopped"
        return "none" if found.ended.code == 0 else "spent"

    def better(self, number: int) -> tuple[Ends, str]:
        """Ends of the objectives of a better solution, and the goal: of two objectives by turns the
        first one is better, or the second one alone."""
        assert self.best is not None
        names, values = list(self.goal.names), self.best.objectives
        ends: Ends = {}
        if len(names) > 1 and number % 2:
            ends[names.pop(0)] = values[0], values[0]
        name, value = names[0], values[-len(names)]
        low, high = self.structure.windows.bounds[name]
        ends[name] = (value + 1, high) if self.goal.direction == "maximize" else (low, value - 1)
        return ends, f"solve {self.goal.direction} {' then '.join(names)}"

    def learn(self, kind: Kind, outcome: str) -> None:
        """Makes neighbourhoods larger where they were searched to the end, and smaller where they
        were not."""
        factor = {"none": 1.3, "spent": 0.85}.get(outcome, 1.0)
        self.shares[kind] = min(1.0, self.shares[kind] * factor)
        gain = 1.0 if outcome == "better" else 0.0
        self.scores[kind] = max(0.2, 0.9 * self.scores[kind] + gain)
        self.idle = 0 if outcome == "better" else self.idle + 1
        if self.idle == PATIENCE:
            self.idle, self.budget = 0, 2 * self.budget

    def go(self, steps: Optional[int]) -> None:
        """Steps until there is no better solution, or the time or the steps are spent."""
        number = 0
        while self.stopped is None and (steps is None or number < steps):
            if self.left(SHARE) == 0.0:
                return
            is_best = self.step(number)
            if is_best and len(self.goal.names) == 1:
                return
            number += 1
        if self.stopped == "seconds":
            self.stopped = None

    def run(self, wishes: Values, steps: Optional[int]) -> Optional[Answer]:
        """Everything but the last call. The answer is there where it is whole already."""
        try:
            if wishes:
                how = self.asked._replace(on_found=self.take, progress=False)
                found, self.stopped = stated_first(self.text, wishes, how, self.at)
                if found is not None:
                    self.take(found)
            whole = self.first() if self.best is None and self.stopped is None else None
            if whole is None and self.best is not None:
                self.go(steps)
            return whole
        except KeyboardInterrupt:
            self.stopped = "interrupt"
            return None

    # The end.

    def last(self, at: Path) -> Answer:
        """The call that takes the whole model in the time that is left, and its answer, or the best
        solution that is known."""
        left, best = self.left(), self.best
        if self.stopped is None and left != 0.0:
            budget = LAST if left is None else None
            how = Limits(budget, left, self.take, False, self.asked.program)
            start = None
            if best is not None and resumes(program_of(self.asked.program)):
                start = wishes_file(best.values, at)
            return self.told(search_answer(self.text, how, at, start, best))
        stopped = self.stopped or "seconds"
        if best is None and stopped == "interrupt":
            raise KeyboardInterrupt
        answer = known_answer(self.text, self.count_of_clauses, best, self.asked, at)
        watch = Watch(self.text, self.asked)
        return self.told(with_run(answer, self.text, self.asked, watch, Proof(), stopped))

    def told(self, answer: Answer) -> Answer:
        """The answer with what the whole search told."""
        if answer.run is not None:
            answer.run = answer.run._replace(steps=tuple(self.steps), seconds=self.seconds())
        return answer


def improve_text(
    text: str,
    asked: Limits,
    seed: int = 0,
    steps: Optional[int] = None,
    start: Optional[Mapping[str, Value]] = None,
    folder: Folder = None,
) -> Answer:
    """Seeks better and better solutions of the text of a model with one or two objectives.

    It ends after the seconds of `asked` or so many steps; where neither is given, 100 steps.
    """
    if steps is None and asked.seconds is None:
        steps = 100
    with tempfile.TemporaryDirectory(prefix="beemodel-") as room:
        at, place = Path(folder or room), Path(room, "steps")
        at.mkdir(parents=True, exist_ok=True)
        place.mkdir()
        made = Improvement(text, asked, seed, place)
        whole = made.run(wished(text, start or {}), steps)
        if whole is None:
            return made.last(at)
        return made.told(with_run(whole, text, asked, Watch(text, asked), Proof(), None))
