"""Calls of the program: a search that may be stopped, what it told, and the check of what it found."""
from __future__ import annotations

import re
import sys
import tempfile
import time
from collections.abc import Callable, Iterable, Mapping
from functools import lru_cache
from pathlib import Path
from typing import NamedTuple, Optional, Union

from .answers import (
    Answer,
    Core,
    Found,
    Proof,
    ProgramError,
    Run,
    Solutions,
    Step,
    Value,
    Values,
    proof_of,
    read_answer,
    read_core,
    read_list,
    value_line,
    value_of,
)
from .lines import ModelError
from .program import Ended, call, pass_on, program_of, watched
from .texts import SATISFY, declarations, document, fits, fixing, goal_of, with_goal, with_items

__all__ = ["Answer", "Core", "ProgramError", "Solutions", "Value", "Values", "call", "program_of", "value_of"]

HEAD = re.compile(r"bee: best (-?\d+)(?: (-?\d+))?, (\d+) clauses learned")
COUNT = re.compile(r"bee: (\d+) clauses learned")

# A search that begins from values that are stated first learns so many clauses at most.
FIRST_CLAUSES = 10_000

OnFound = Callable[[Found], object]
Folder = Union[str, Path, None]
# A file of hosts, or their names.
Hosts = Union[str, Path, Iterable[str]]


class Limits(NamedTuple):
    """How a search is run: the budget of learned clauses, the wall-clock seconds, what better
    solutions are handed to, whether its progress is shown, and the program."""

    budget: Optional[int] = None
    seconds: Optional[float] = None
    on_found: Optional[OnFound] = None
    progress: bool = False
    program: Optional[str] = None


class Watch:
    """What a search tells on standard error: whole solutions, each better than what is known."""

    def __init__(self, text: str, asked: Limits, known: Optional[Found] = None):
        self.names = len(declarations(text))
        self.goal = goal_of(text)
        self.asked = asked
        self.begun = time.monotonic()
        self.count_of_clauses = 0
        self.best = known
        self.steps: list[Step] = []
        self.head: Optional[re.Match[str]] = None
        self.values: Values = {}

    def seconds(self) -> float:
        """The time since the search began."""
        return time.monotonic() - self.begun

    def take(self, line: str) -> bool:
        """Takes the next line. The answer is whether it tells something else than progress."""
        told = value_of(line) if self.head is not None else None
        if told is not None:
            self.values[told[0]] = told[1]
        elif head := HEAD.fullmatch(line):
            self.head, self.values, self.count_of_clauses = head, {}, int(head[3])
        elif counted := COUNT.fullmatch(line):
            self.count_of_clauses = int(counted[1])
            self.show(line)
        else:
            return pass_on(line)
        if self.head is not None and len(self.values) == self.names:
            self.end_block(self.head)
        return False

    def end_block(self, head: re.Match[str]) -> None:
        """Hands the solution on whose last value was told."""
        self.head = None
        numbers = tuple(int(it) for it in head.groups()[:2] if it is not None)
        if self.best is not None and not self.goal.is_better(numbers, self.best.objectives):
            return
        self.best = Found(numbers, self.values, self.count_of_clauses, self.seconds())
        self.steps.append(Step(numbers, self.count_of_clauses, self.best.seconds))
        self.show(head[0])
        if self.asked.on_found is not None:
            self.asked.on_found(self.best)

    def take_values(self, values: Values) -> None:
        """Takes the values of a solution, where it is better than what is known."""
        numbers = tuple(int(values[it]) for it in self.goal.names)
        if self.best is not None and not self.goal.is_better(numbers, self.best.objectives):
            return
        self.best = Found(numbers, values, 0, self.seconds())
        self.steps.append(Step(numbers, 0, self.best.seconds))
        if self.asked.on_found is not None:
            self.asked.on_found(self.best)

    def show(self, line: str) -> None:
        """Shows a line of the program and the seconds, where that is wanted."""
        if self.asked.progress:
            sys.stderr.write(f"{line}, {self.seconds():.1f} s\n")
            sys.stderr.flush()


class Search(NamedTuple):
    """A search that has ended, what it told, and where its text and its answer stand."""

    ended: Ended
    watch: Watch
    model: Path
    answer: Path


def words_of(asked: Limits) -> list[str]:
    """The options of a search."""
    return [] if asked.budget is None else ["--budget", str(asked.budget)]


def search(
    text: str,
    asked: Limits,
    at: Path,
    start: Optional[Path] = None,
    known: Optional[Found] = None,
) -> Search:
    """Runs `bee solve` on a text, or `bee resume` from the values of a file, where a solution may
    be known already."""
    model, answer = at / "model.bee", at / "model.answer"
    model.write_text(text, encoding="ascii")
    watch = Watch(text, asked, known)
    limit = None if asked.seconds is None else watch.begun + asked.seconds
    words = [program_of(asked.program), "solve" if start is None else "resume", str(model)]
    words += [] if start is None else [str(start)]
    ended = watched([*words, *words_of(asked), "--progress"], answer, watch.take, limit)
    return Search(ended, watch, model, answer)


def accepted(program: Optional[str], mode: str, model: Path, answer: Path) -> list[str]:
    """The words with which a mode accepts what stands in a file; an error where it doesn't."""
    line = answer.with_suffix(".check")
    code, told = call([program_of(program), mode, str(model), str(answer)], line)
    said = line.read_text(encoding="ascii").strip()
    if code != 0 or not said.startswith("ACCEPTED "):
        raise ProgramError(f"bee {mode} did not accept the answer: {said or told or code}")
    return said.split()[1:]


def check_values(text: str, values: Values, program: Optional[str], at: Path) -> None:
    """Has values checked as a solution of a text, whatever its goal is; an error where they are
    none. Both texts stay in the folder, as `best.bee` and `best.answer`."""
    model, answer = at / "best.bee", at / "best.answer"
    model.write_text(with_goal(text, SATISFY), encoding="ascii")
    answer.write_text(document(values), encoding="ascii")
    accepted(program, "check", model, answer)


def known_answer(text: str, count: int, best: Optional[Found], asked: Limits, at: Path) -> Answer:
    """The answer of a search that ended before it was done, behind so many learned clauses: the
    best solution, checked, or none."""
    made = Answer("UNKNOWN", (count,), None)
    if best is None:
        made.is_checked = False
        return made
    check_values(text, best.values, asked.program, at)
    told = tuple(int(best.values[name]) for name in goal_of(text).names)
    if told != best.objectives:
        raise ProgramError(f"bee solve told the objectives {best.objectives} for values of {told}")
    made.values, made.objectives = best.values, told
    return made


def bound_of(text: str, answer: Answer) -> Optional[int]:
    """The best bound of the first objective that is known: the optimum, or else the end of its
    domain."""
    goal = goal_of(text)
    if answer.optimum is not None or not goal.names or answer.verdict == "UNSATISFIABLE":
        return answer.bound
    domain = declarations(text)[goal.names[0]]
    assert not isinstance(domain, type)
    return domain[-1] if goal.direction == "maximize" else domain[0]


def whole_answer(found: Search, mode: str, program: Optional[str]) -> Optional[Answer]:
    """The answer that a search wrote and the check accepted, and none where either was stopped."""
    if found.ended.stopped is not None:
        return None
    if found.ended.code not in (0, 8):
        raise refusal(mode, found.ended)
    try:
        return read_answer(accepted(program, "check", found.model, found.answer), found.answer)
    except KeyboardInterrupt:
        if found.watch.best is None:
            raise
        return None


def search_answer(
    text: str, asked: Limits, at: Path, start: Optional[Path] = None, known: Optional[Found] = None
) -> Answer:
    """The answer of a search, or the solution that is known already where that is better."""
    found = search(text, asked, at, start, known)
    answer = whole_answer(found, "solve" if start is None else "resume", asked.program)
    best, proof, stopped = found.watch.best, Proof(), found.ended.stopped
    if answer is None:
        found.answer.unlink()
        stopped = stopped or "interrupt"
        if best is None and stopped == "interrupt":
            raise KeyboardInterrupt
        answer = known_answer(text, found.watch.count_of_clauses, best, asked, at)
    else:
        proof = proof_of(found.answer)
        if answer.verdict == "UNKNOWN" and best is not None and best is known:
            answer = known_answer(text, answer.count_of_clauses or 0, best, asked, at)
    return with_run(answer, text, asked, found.watch, proof, stopped)


def with_run(
    answer: Answer, text: str, asked: Limits, watch: Watch, proof: Proof, stopped: Optional[str]
) -> Answer:
    """The answer with its bound and how it came about."""
    answer.bound = bound_of(text, answer)
    program = program_of(asked.program)
    answer.run = Run(text, program, tuple(watch.steps), watch.seconds(), proof, stopped)
    return answer


def solve_text(
    text: str,
    budget: Optional[int] = None,
    program: Optional[str] = None,
    folder: Folder = None,
    seconds: Optional[float] = None,
    on_found: Optional[OnFound] = None,
    progress: bool = False,
    start: Optional[Mapping[str, Value]] = None,
) -> Answer:
    """Solves the text of a model and checks the answer. With a folder, the texts stay there.

    After so many seconds, or by an interrupt, the search is ended, and the best solution known by
    then is checked. The search begins from the values of `start`.
    """
    asked = Limits(budget, seconds, on_found, progress, program)
    with tempfile.TemporaryDirectory(prefix="beemodel-") as room:
        at = Path(folder or room)
        at.mkdir(parents=True, exist_ok=True)
        if start:
            answer = begun_answer(text, asked, at, start)
        else:
            answer = search_answer(text, asked, at)
    if answer.verdict == "SATISFIABLE" and answer.values is not None and on_found is not None:
        on_found(Found((), answer.values, 0, answer.run.seconds if answer.run else 0.0))
    return answer


def begun_answer(text: str, asked: Limits, at: Path, start: Mapping[str, Value]) -> Answer:
    """The answer of a search that begins from values: by `bee resume`, or, where the program has no
    such mode, behind a search in a copy of the text in which the values are stated."""
    wishes, watch = wished(text, start), Watch(text, asked)
    if resumes(program_of(asked.program)):
        answer = search_answer(text, asked, at, wishes_file(wishes, at))
        if answer.values is not None or answer.verdict != "UNKNOWN":
            return answer
        # It was ended before it came upon the values.
        known, _ = stated_first(text, wishes, asked, at)
        if known is None:
            return answer
        made = known_answer(text, answer.count_of_clauses or 0, known, asked, at)
        return with_run(made, text, asked, watch, Proof(), answer.stopped)
    known, stopped = stated_first(text, wishes, asked, at)
    if known is not None and (stopped == "interrupt" or not known.objectives):
        answer = known_answer(text, known.count_of_clauses, known, asked, at)
        if not known.objectives:
            answer.verdict, answer.count_of_clauses, stopped = "SATISFIABLE", None, None
        return with_run(answer, text, asked, watch, Proof(), stopped)
    left = None if asked.seconds is None else max(0.0, asked.seconds - watch.seconds())
    return search_answer(text, asked._replace(seconds=left), at, None, known)


def wished(text: str, start: Mapping[str, Value]) -> Values:
    """The values to begin with that are in the domains of the text."""
    domains = declarations(text)
    return {it: value for it, value in start.items() if it in domains and fits(value, domains[it])}


def wishes_file(values: Values, at: Path) -> Path:
    """A file of values to begin with, as `bee resume` reads it."""
    path = at / "start.values"
    path.write_text("".join(value_line(*it) for it in values.items()), encoding="ascii")
    return path


@lru_cache(maxsize=None)
def resumes(program: str) -> bool:
    """Whether the program has the mode `resume`."""
    with tempfile.TemporaryDirectory(prefix="beemodel-") as room:
        model, values = Path(room, "model.bee"), Path(room, "start.values")
        model.write_text(f"new_bool(x)\n{SATISFY}\n", encoding="ascii")
        values.write_text(value_line("x", True), encoding="ascii")
        words = [program, "resume", str(model), str(values)]
        return watched(words, Path(room, "answer"), lambda line: False).code == 0


def stated_first(
    text: str, wishes: Values, asked: Limits, at: Path
) -> tuple[Optional[Found], Optional[str]]:
    """The best solution in a copy of the text that states values, by a search of few clauses, and
    why that was stopped.

    Where all names of the script have values nothing is left to search, and the time isn't bounded;
    else it is a third of the seconds.
    """
    is_whole = all(it in wishes for it in declarations(text) if not it.startswith("_"))
    seconds = None if is_whole or asked.seconds is None else asked.seconds / 3
    place = at / "start"
    place.mkdir(exist_ok=True)
    how = asked._replace(budget=min(asked.budget or FIRST_CLAUSES, FIRST_CLAUSES), seconds=seconds)
    found = search(with_items(text, [fixing(*it) for it in wishes.items()]), how, place)
    answer, stopped, best = whole_answer(found, "solve", asked.program), found.ended.stopped, found.watch.best
    if stopped == "interrupt" and best is None:
        raise KeyboardInterrupt
    if best is None and answer is not None and answer.values is not None:
        best = Found(answer.objectives, answer.values, 0, found.watch.seconds())
    return best, stopped


def cubes_text(text: str, jobs: int, hosts: Optional[Hosts], asked: Limits, folder: Folder) -> Answer:
    """Answers the text of a model by workers side by side, and checks the answer. With a folder, the
    texts stay there. At the limit, or by an interrupt, the best solution is checked that is known."""
    from .cubes import OutOfTime, solve_in_cubes

    watch, stopped, proof = Watch(text, asked), None, Proof()
    with tempfile.TemporaryDirectory(prefix="beemodel-") as room:
        at = Path(folder or Path(room, "cubes"))
        try:
            answer = solve_in_cubes(
                text,
                jobs,
                listed_hosts(hosts, Path(room)),
                program=asked.program,
                folder=at,
                progress=asked.progress,
                until=None if asked.seconds is None else watch.begun + asked.seconds,
                on_values=watch.take_values,
            )
            proof = proof_of(at / "answer") if (at / "answer").exists() else proof
        except OutOfTime:
            stopped = "seconds"
        except KeyboardInterrupt:
            if watch.best is None:
                raise
            stopped = "interrupt"
        if stopped is not None:
            answer = known_answer(text, 0, watch.best, asked, Path(folder or room))
    answer.objectives = answer.optimum or answer.objectives
    if answer.verdict == "SATISFIABLE" and answer.values is not None and asked.on_found is not None:
        asked.on_found(Found((), answer.values, 0, watch.seconds()))
    return with_run(answer, text, asked, watch, proof, stopped)


def listed_hosts(hosts: Optional[Hosts], room: Path) -> Optional[Path]:
    """The file of hosts, made in a folder where they are a list."""
    if hosts is None or isinstance(hosts, (str, Path)):
        return None if hosts is None else Path(hosts)
    listed = room / "hosts"
    listed.write_text("".join(f"{it}\n" for it in hosts))
    return listed


def run_checked(
    modes: tuple[str, str], text: str, budget: Optional[int], program: Optional[str], at: Path
) -> tuple[list[str], Path]:
    """Calls a mode on the text of a model, and another one that checks what it wrote. The answer is
    the words that were accepted, and where what was written stands."""
    at.mkdir(parents=True, exist_ok=True)
    model, answer = at / "model.bee", at / "model.answer"
    model.write_text(text, encoding="ascii")
    mode, checking = modes
    words = [program_of(program), mode, str(model), *words_of(Limits(budget))]
    code, told = call(words, answer)
    if code not in (0, 8):
        raise refusal(mode, Ended(code, told))
    return accepted(program, checking, model, answer), answer


def all_text(
    text: str, budget: Optional[int] = None, program: Optional[str] = None, folder: Folder = None
) -> Solutions:
    """Lists the solutions of the text of a model and checks the list. With a folder, the texts stay
    there."""
    with tempfile.TemporaryDirectory(prefix="beemodel-") as room:
        return read_list(*run_checked(("all", "checkall"), text, budget, program, Path(folder or room)))


def core_text(
    text: str, budget: Optional[int] = None, program: Optional[str] = None, folder: Folder = None
) -> Core:
    """Finds a core of the text of a model and checks it. With a folder, the texts stay there."""
    with tempfile.TemporaryDirectory(prefix="beemodel-") as room:
        said = run_checked(("core", "checkcore"), text, budget, program, Path(folder or room))
        return read_core(*said)


def refusal(mode: str, ended: Ended) -> Exception:
    """What an exit code and a line on standard error mean."""
    if ended.code == 3:
        return ModelError(ended.told)
    return ProgramError(f"bee {mode} ended with code {ended.code}: {ended.told or 'without a word'}")
