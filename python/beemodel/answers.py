"""What the program answered and its check accepted: answers, lists of solutions, cores."""
from __future__ import annotations

import re
from collections.abc import Iterator, Sequence
from dataclasses import dataclass
from pathlib import Path
from typing import TYPE_CHECKING, Any, NamedTuple, Optional, Union, overload

from .expressions import Number, Truth

if TYPE_CHECKING:
    from .model import Constraint, Model

# A value, and the values of a solution by name.
Value = Union[int, bool]
Values = dict[str, Value]

VALUE_LINE = re.compile(r"(\w+) = (true|false|-?\d+)\n?")


class ProgramError(Exception):
    """The program could not be called, or gave no answer that its check accepts."""


@dataclass(frozen=True)
class Found:
    """A solution that a search told while it went on. It is checked once the search has ended.

    `objectives` has the values of the goal's objectives, `count_of_clauses` how many clauses were
    learned by then, and `seconds` is the time since the search began.
    """

    objectives: tuple[int, ...]
    values: Values
    count_of_clauses: int
    seconds: float

    @property
    def objective(self) -> Optional[int]:
        """The value of the first objective, where there is one."""
        return self.objectives[0] if self.objectives else None

    def __getitem__(self, of: Union[str, Number]) -> Value:
        """The value of a name or of an expression."""
        return read(self.values, of)


class Step(NamedTuple):
    """A better value, when it was found: by how many learned clauses, and by how many seconds."""

    objectives: tuple[int, ...]
    count_of_clauses: int
    seconds: float


class Run(NamedTuple):
    """How an answer came about: the text that was answered, the program, what the search told, its
    seconds, how long the proof is, and why the search ended before it was done, if it did."""

    text: str
    program: str
    steps: tuple[Step, ...]
    seconds: float
    proof: Proof
    stopped: Optional[str] = None


class Proof(NamedTuple):
    """The bytes of an answer, and the lines of its ledger and of its derivations."""

    bytes: int = 0
    ledger: int = 0
    lines: int = 0


def read(values: Values, of: Union[str, Number]) -> Value:
    """The value of a name or of an expression under the values of a solution."""
    if isinstance(of, str):
        return values[of]
    if not isinstance(of, Number):
        raise TypeError(f"{of!r} is neither a name nor an expression")
    return of.holds(values) if isinstance(of, Truth) else of.value(values)


class Answer:
    """An answer: the verdict, the optimum, and the values where there are some.

    The check accepted it, but for a search that was stopped before it had a solution: then there
    is nothing to check, and `is_checked` is false.
    """

    def __init__(self, verdict: str, numbers: tuple[int, ...], values: Optional[Values]):
        self.verdict = verdict
        self.optimum = numbers if verdict == "OPTIMUM" else None
        self.count_of_clauses = numbers[0] if verdict == "UNKNOWN" else None
        self.values = values
        self.is_checked = True
        self.objectives: tuple[int, ...] = self.optimum or ()
        self.bound: Optional[int] = self.optimum[0] if self.optimum else None
        self.model: Optional[Model] = None
        self.run: Optional[Run] = None

    @property
    def objective(self) -> Optional[int]:
        """The value of the first objective under the values, where the goal has one."""
        return self.objectives[0] if self.objectives else None

    @property
    def stopped(self) -> Optional[str]:
        """Why the search ended before it was done: `seconds`, `interrupt` or `budget`."""
        if self.run is not None and self.run.stopped is not None:
            return self.run.stopped
        return "budget" if self.verdict == "UNKNOWN" else None

    def __repr__(self) -> str:
        return f"<Answer {self.summary()}>"

    def summary(self) -> str:
        """The verdict and the numbers behind it, and for `UNKNOWN` what is known."""
        if self.verdict != "UNKNOWN":
            return " ".join([self.verdict, *map(str, self.optimum or ())])
        if self.values is None:
            parts = ["no solution known"]
        else:
            parts = ["checked", *self.objective_parts()]
        parts += [] if self.bound is None else [f"bound {self.bound}"]
        return ", ".join([self.verdict, *parts])

    def objective_parts(self) -> list[str]:
        """The values of the objectives in words."""
        return [f"objective {' then '.join(map(str, self.objectives))}"] if self.objectives else []

    def __bool__(self) -> bool:
        """Whether there is a solution."""
        return self.values is not None

    def __getitem__(self, of: Union[str, Number]) -> Value:
        """The value of a name or of an expression."""
        return read(self.known_values(), of)

    def known_values(self) -> Values:
        """The values by name; an error where there are none."""
        if self.values is None:
            raise ProgramError(f"the answer is {self.verdict}, and has no values")
        return self.values

    def unmet(self) -> list[tuple[int, Constraint]]:
        """The soft constraints that don't hold under the values, each with its weight."""
        values = self.known_values()
        wishes = () if self.model is None else self.model.wishes
        return [(price, it) for price, it in wishes if not it.truth.holds(values)]

    def shown_values(self) -> list[tuple[str, str]]:
        """The names as they are shown, with the values."""
        variables = {} if self.model is None else self.model.variables
        each = (self.values or {}).items()
        return [
            (str(variables.get(name, name)), str(it).lower() if isinstance(it, bool) else str(it))
            for name, it in each
        ]

    def _repr_html_(self) -> str:
        """What a notebook shows."""
        from .reports import fragment

        return fragment(self)

    def show(self, plan: Any = None, width: int = 100) -> None:
        """Prints the plan: a Gantt chart of intervals, a grid, or else a table of the values.

        `plan` is a list of intervals, or lists of them by the name of their row; or a dictionary of
        variables and expressions by row and column. Where it is left out, it is the intervals of
        the model, if there are any.
        """
        from .showing import shown

        print(shown(self, plan, width))

    def report(self, path: Union[str, Path], plan: Any = None, title: str = "Plan") -> Path:
        """Writes one page that needs no other file: the plan, as `show` takes it, the values, what
        the model weighs, what the compilation did, and how the search went."""
        from .reports import page

        at = Path(path)
        at.write_text(page(self, plan, title), encoding="utf-8")
        return at


class Solutions(Sequence[Answer]):
    """A list of solutions that `bee checkall` accepted: each once, and all of them where it is
    complete.

    Members are answers, whose values are read by name or expression; `values` has those of each
    solution by name.
    """

    def __init__(self, verdict: str, numbers: tuple[int, ...], values: list[Values]):
        self.verdict = verdict
        self.is_complete = verdict == "ALL"
        self.count_of_clauses = None if self.is_complete else numbers[1]
        self.values = values

    def __repr__(self) -> str:
        return f"<Solutions {self.verdict} {len(self)}>"

    def __len__(self) -> int:
        return len(self.values)

    @overload
    def __getitem__(self, place: int) -> Answer: ...

    @overload
    def __getitem__(self, place: slice) -> list[Answer]: ...

    def __getitem__(self, place: Union[int, slice]) -> Union[Answer, list[Answer]]:
        """The solution at a place, or those of a slice."""
        if isinstance(place, slice):
            return [Answer("SATISFIABLE", (), it) for it in self.values[place]]
        return Answer("SATISFIABLE", (), self.values[place])

    def __iter__(self) -> Iterator[Answer]:
        return (Answer("SATISFIABLE", (), it) for it in self.values)


class Core:
    """The text of a core that `bee checkcore` accepted. The verdict is `CORE`, `SATISFIABLE` or
    `UNKNOWN`.

    Behind `CORE`, `statements` has the numbers of the statements, as they stand in the text of the
    model, and `constraints` the constraints that these state: what was added, and the line of the
    script that did. Behind `SATISFIABLE`, `values` has a solution.
    """

    def __init__(self, verdict: str, numbers: tuple[int, ...], values: Optional[Values] = None):
        self.verdict = verdict
        self.count_of_clauses = numbers[0] if verdict == "UNKNOWN" else None
        self.values = values
        self.statements: Optional[list[int]] = None
        self.constraints: Optional[list[Constraint]] = None

    def __repr__(self) -> str:
        return f"<Core {self.verdict}>"

    def __bool__(self) -> bool:
        """Whether there is a core."""
        return self.verdict == "CORE"

    def __str__(self) -> str:
        """A line for each constraint, where there is a core; else the verdict."""
        return "\n".join(map(str, self.constraints)) if self.constraints else self.verdict


# Reading what the program wrote.


def value_of(line: str) -> Optional[tuple[str, Value]]:
    """The name and the value that a line tells, if it tells one's."""
    found = VALUE_LINE.fullmatch(line)
    if not found:
        return None
    return found[1], found[2] == "true" if found[2] in ("true", "false") else int(found[2])


def value_line(name: str, value: Value) -> str:
    """The line that tells the value of a name."""
    return f"{name} = {str(value).lower() if isinstance(value, bool) else value}\n"


def numbers_of(verdict: Sequence[str]) -> tuple[int, ...]:
    """The numbers behind the first word of a verdict."""
    return tuple(int(it) for it in verdict[1:])


def read_answer(verdict: list[str], answer: Path) -> Answer:
    """The answer that was accepted with these words."""
    values: Values = {}
    best: Optional[tuple[int, ...]] = None
    with open(answer, encoding="ascii") as lines:
        for line in lines:
            if line in ("ledger\n", "end\n"):
                break
            if line.startswith("best "):
                best = numbers_of(line.split())
            elif told := value_of(line):
                values[told[0]] = told[1]
    has_values = verdict[0] in ("SATISFIABLE", "OPTIMUM") or best is not None
    made = Answer(verdict[0], numbers_of(verdict), values if has_values else None)
    made.objectives = best or made.objectives
    return made


def read_list(verdict: list[str], answer: Path) -> Solutions:
    """The list that was accepted with these words."""
    each: list[Values] = []
    with open(answer, encoding="ascii") as lines:
        for line in lines:
            if line == "ledger\n":
                break
            if line == "solution\n":
                each.append({})
            elif told := value_of(line):
                each[-1][told[0]] = told[1]
    return Solutions(verdict[0], numbers_of(verdict), each)


def read_core(verdict: list[str], answer: Path) -> Core:
    """The text of a core that was accepted with these words."""
    values: Values = {}
    statements: list[int] = []
    core = Core(verdict[0], numbers_of(verdict))
    with open(answer, encoding="ascii") as lines:
        for line in lines:
            if line == "ledger\n":
                break
            if told := value_of(line):
                values[told[0]] = told[1]
            if line.startswith("statement "):
                statements.append(int(line.split()[1]))
    core.values = values if verdict[0] == "SATISFIABLE" else None
    core.statements = statements if core else None
    return core


def proof_of(answer: Path) -> Proof:
    """How long an answer is: its bytes, the lines of its ledger, and those of its derivations."""
    size = ledger = lines = 0
    part = ""
    with open(answer, "rb") as text:
        for line in text:
            size += len(line)
            if line in (b"ledger\n", b"proof\n", b"second\n", b"end\n"):
                part = line.decode().strip()
            elif part == "ledger":
                ledger += 1
            elif part in ("proof", "second"):
                lines += 1
    return Proof(size, ledger, lines)
