"""What `bee` is asked: clauses, a first look, values of names, bounds, and the answer."""
from __future__ import annotations

import re
import subprocess
from pathlib import Path
from typing import NamedTuple, Optional

from ..answers import ProgramError, Values, value_of
from ..lines import ModelError


class Goal(NamedTuple):
    """What is sought: `satisfy`, `minimize` or `maximize`, and the objectives."""

    direction: str
    objectives: tuple[str, ...]

    def is_better(self, value: int, than: Optional[int]) -> bool:
        return than is None or (value < than if self.direction == "minimize" else value > than)


GOAL = r"\bsolve\s+(satisfy|minimize|maximize)\b\s*(\w+)?\s*(?:then\s+(\w+))?\s*$"


def goal_of(text: str) -> Goal:
    """The goal of the text of a model that is in form."""
    found = re.search(GOAL, without_comments(text))
    assert found is not None
    return Goal(found[1], tuple(it for it in found.groups()[1:] if it))


def without_comments(text: str) -> str:
    return re.sub(r"%.*", "", text)


def first_of(text: str, goal: Goal) -> str:
    """The model whose only objective is the first one."""
    return re.sub(GOAL, f"solve {goal.direction} {goal.objectives[0]}\n", without_comments(text))


def second_of(text: str, goal: Goal, best: int) -> str:
    """The model in which the first objective has its best value, and the second one is sought."""
    first, second = goal.objectives
    sought = f"int_eq({first},{best})\nsolve {goal.direction} {second}\n"
    return re.sub(GOAL, sought, without_comments(text))


class Bee:
    """The program, asked about one model."""

    def __init__(self, program: str, model: Path):
        self.program, self.model = program, model

    def run(self, words: list[str], to: Path) -> tuple[int, str]:
        """Calls the program, with its output to a file. The answer is the exit code and what it told."""
        with open(to, "wb") as output:
            ran = subprocess.run(
                [self.program, *words], stdout=output, stderr=subprocess.PIPE, text=True, check=False
            )
        lines = [it for it in ran.stderr.splitlines() if "is not proved" not in it]
        return ran.returncode, "\n".join(lines)

    def must(self, words: list[str], to: Path, codes: tuple[int, ...] = (0,)) -> int:
        """As `run`, where other exit codes are errors."""
        code, told = self.run(words, to)
        if code == 3:
            raise ModelError(told)
        if code not in codes:
            raise ProgramError(f"bee {words[0]} ended with code {code}: {told or 'without a word'}")
        return code

    def compile(self, to: Path) -> None:
        self.must(["compile", str(self.model)], to)

    def bound(self, value: int, to: Path) -> None:
        """The clauses, and one more: that the objective is better than a value."""
        self.must(["bound", str(self.model), "--", str(value)], to)

    def look(self, budget: int, to: Path) -> bool:
        """Solves for so many learned clauses. The answer is whether that was enough."""
        return self.must(["solve", str(self.model), "--budget", str(budget)], to, (0, 8)) == 0

    def decode(self, compiled: Path, values: Path, to: Path) -> Optional[Values]:
        """The values of names, where a solver's satisfy the clauses."""
        code, _ = self.run(["decode", str(compiled), str(values)], to)
        return values_of(to) if code == 0 else None

    def certify(self, found: Path, to: Path) -> int:
        """Makes the answer. It is 0, or the number of the first line that fails."""
        if self.must(["certify", str(self.model), str(found)], to, (0, 1)) == 0:
            return 0
        return int(to.read_text().split()[1])


def values_of(path: Path) -> Values:
    """The values of names in what `bee decode` or `bee solve` wrote."""
    values: Values = {}
    with open(path) as lines:
        for line in lines:
            if line == "ledger\n":
                break
            told = value_of(line)
            values.update([told] if told else [])
    return values
