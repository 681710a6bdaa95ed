"""A model's answer by many workers: what is looked at first, the run, and the answer's check."""
from __future__ import annotations

import fcntl
import hashlib
import shutil
import tempfile
from collections.abc import Callable, Iterator
from contextlib import contextmanager
from pathlib import Path
from typing import Any, NamedTuple, Optional, Union

from ..answers import Answer, ProgramError, Values, read_answer
from ..program import program_of
from .clauses import Compiled
from .conquest import Conquest, Settings
from .engines import GnuParallel, Slurm
from .machines import (
    Machine,
    forget_all,
    need_programs,
    prepare_all,
    quiet_environment,
    read_hosts,
    tell,
    this_machine,
)
from .program import Bee, Goal, first_of, goal_of, second_of, values_of
from .tree import Journal, Tree

# So many cubes are made first for each worker, and so many clauses are learned by the first look.
CUBES_PER_WORKER, LOOK = 8, 1000


class Request(NamedTuple):
    """What is asked: the number of workers here, or on each host that has none of its own; the hosts; Slurm; the
    workers' solver; the rest as the words of the command say it; and from a script when the run ends, by the clock
    `time.monotonic`, and what takes the values of each better solution."""

    jobs: int = 1
    hosts: Optional[Path] = None
    slurm: bool = False
    worker: str = "bee"
    solver: Optional[str] = None
    program: Optional[str] = None
    cubes: Optional[int] = None
    share: float = 5.0
    look: int = LOOK
    retries: int = 3
    journal: Optional[Path] = None
    resume: bool = False
    progress: bool = False
    away: str = "/tmp"
    until: Optional[float] = None
    on_values: Optional[Callable[[Values], object]] = None


class Answered(NamedTuple):
    """A model's text and the document that answers it."""

    model: Path
    answer: Path


def solve_all(text: str, folder: Path, request: Request) -> list[Answered]:
    """Answers a model: of two objectives first the first one, and then the second one over a model in which the first
    is stated."""
    quiet_environment()
    folder = folder.resolve()
    with locked(folder):
        compiled(text, folder, request)
        goal = goal_of(text)
        if len(goal.objectives) < 2:
            return [solve_one(text, folder, "", request)]
        first_text, at = first_of(text, goal), folder / "first"
        compiled(first_text, at, request)
        first = solve_one(first_text, at, ".first", request)
        verdict, *values = verdict_of(first.answer)
        if verdict != "OPTIMUM":
            return [first]
        tell(f"{goal.objectives[0]} is {values[0]} at best; {goal.objectives[1]} is sought where it is that")
        second_text, at = second_of(text, goal, int(values[0])), folder / "second"
        compiled(second_text, at, request)
        return [first, solve_one(second_text, at, ".second", request)]


def compiled(text: str, folder: Path, request: Request) -> None:
    """Has the program compile a model, which tells its faults. An answer to another model is removed."""
    folder.mkdir(exist_ok=True)
    model = folder / "model.bee"
    if not model.exists() or model.read_text() != text:
        (folder / "answer").unlink(missing_ok=True)
    model.write_text(text)
    Bee(program_of(request.program), model).compile(folder / "compiled")


@contextmanager
def locked(folder: Path) -> Iterator[None]:
    """Keeps others out of the folder of work."""
    folder.mkdir(parents=True, exist_ok=True)
    with open(folder / "lock", "w") as lock:
        try:
            fcntl.flock(lock, fcntl.LOCK_EX | fcntl.LOCK_NB)
        except OSError as fault:
            raise ProgramError(f"another run works in {folder}") from fault
        yield


def verdict_of(answer: Path) -> list[str]:
    """The words of the second line of an answer."""
    with open(answer) as text:
        text.readline()
        return text.readline().split()


def solve_one(text: str, folder: Path, ending: str, request: Request) -> Answered:
    """Answers a compiled model with one objective, or none. A run that goes on has the answer that there is."""
    made = Answered(folder / "model.bee", folder / "answer")
    if request.resume and made.answer.exists() and accepted(made, request.program):
        return made
    made.answer.unlink(missing_ok=True)
    journal_at = Path(f"{request.journal}{ending}") if request.journal else folder / "journal"
    journal = open_journal(text, folder, journal_at, request)
    bee, goal = Bee(program_of(request.program), made.model), goal_of(text)
    machines = machines_of(folder, request)
    try:
        conquest = Conquest(bee, goal, folder, journal, settings_of(request, machines))
        start_machines(conquest, machines, request)
        if not look_first(conquest, request.look, made.answer):
            conquer(conquest, machines, request, made.answer)
    finally:
        journal.close()
    journal_at.unlink()
    shutil.rmtree(folder / "parts")
    forget_all(machines)
    return made


def open_journal(text: str, folder: Path, at: Path, request: Request) -> Journal:
    """The journal of a new run, or of one that goes on."""
    journal = Journal(at, Tree())
    sum_of_text = hashlib.sha256(text.encode()).hexdigest()
    if request.resume:
        journal.read()
    elif at.exists():
        raise ProgramError(f"{at} is the journal of a run that has not ended: --resume goes on with it")
    if journal.model not in ("", sum_of_text):
        raise ProgramError(f"{at} is the journal of another model")
    lost = {it for it in journal.tree.refuted if not (folder / "parts" / it).exists()}
    journal.tree.refuted -= lost
    if not (folder / "values").exists():
        journal.best = None
    journal.start(sum_of_text)
    return journal


def machines_of(folder: Path, request: Request) -> list[Machine]:
    """The machines that have workers."""
    if request.hosts is None:
        return [this_machine(folder, request.jobs)]
    return read_hosts(request.hosts, folder, request.jobs, request.away)


def settings_of(request: Request, machines: list[Machine]) -> Settings:
    workers = sum(it.slots for it in machines)
    cubes = CUBES_PER_WORKER * workers if request.cubes is None else request.cubes
    is_hinted = request.worker == "bee"
    told = (request.progress, request.until, request.on_values)
    return Settings(cubes, is_hinted, request.share, request.retries, *told)


def start_machines(conquest: Conquest, machines: list[Machine], request: Request) -> None:
    """Looks whether all machines and programs are there, and sends what the workers need."""
    need_programs(["sbatch", "squeue"] if request.slurm else ["parallel", "flock"])
    (conquest.folder / "out").mkdir(exist_ok=True)
    conquest.compiled.write_for_workers(conquest.folder, request.share)
    prepare_all(machines, request.worker, [solver_of(it, request) for it in machines], conquest.folder)


def solver_of(machine: Machine, request: Request) -> str:
    """Where the workers' solver is on a machine."""
    if request.worker == "bee" and not request.solver and machine.is_here:
        return program_of(request.program)
    return request.solver or request.worker


def look_first(conquest: Conquest, budget: int, answer: Path) -> bool:
    """Has `bee solve` look for an answer, unless a run goes on. The answer is whether it found one; the best solution
    that it came upon is where the workers begin."""
    journal = conquest.journal
    if budget == 0 or journal.tree.split or journal.best is not None:
        return False
    looked = conquest.folder / "look"
    if conquest.bee.look(budget, looked):
        looked.replace(answer)
        return True
    values = values_of(looked)
    if values and conquest.goal.objectives:
        take_first_values(conquest, values)
    return False


def take_first_values(conquest: Conquest, values: Values) -> None:
    """Makes values of the clauses of those of the names."""
    folder, compiled = conquest.folder, conquest.compiled
    units = compiled.literals_of(values)
    with open(folder / "named", "w") as text:
        text.write(f"p cnf {compiled.variables} {len(compiled.clauses) + len(units)}\n")
        text.writelines(f"{' '.join(map(str, it))} 0\n".lstrip() for it in [*compiled.clauses, *([u] for u in units)])
    code, _ = conquest.bee.run(["sat", str(folder / "named")], folder / "named.values")
    if code or conquest.bee.decode(compiled.path, folder / "named.values", folder / "names") is None:
        return
    (folder / "named.values").replace(conquest.values)
    conquest.journal.add("best", values[conquest.goal.objectives[0]])
    conquest.hand_on(values)


def conquer(conquest: Conquest, machines: list[Machine], request: Request, answer: Path) -> None:
    """Runs the cubes until there is an answer."""
    conquest.make_cubes()
    engine: Slurm | GnuParallel
    if request.slurm:
        engine = Slurm(conquest.folder, request.jobs)
    else:
        engine = GnuParallel(conquest.folder, machines)
    try:
        conquest.run(engine)
        while not conquest.finish(answer):
            conquest.run(engine)
    finally:
        engine.close()


def accepted(made: Answered, program: Optional[str]) -> list[str]:
    """The words of the verdict, where `bee check` accepts an answer."""
    to = made.answer.with_name("check")
    code, _ = Bee(program_of(program), made.model).run(["check", str(made.model), str(made.answer)], to)
    return to.read_text().split()[1:] if code == 0 else []


def read_checked(made: list[Answered], program: Optional[str]) -> Answer:
    """Has `bee check` accept each document, and reads the answer of the last one."""
    numbers: list[int] = []
    for it in made:
        said = accepted(it, program)
        if not said:
            raise ProgramError(f"bee check did not accept {it.answer}")
        numbers += [int(number) for number in said[1:]]
    answer = read_answer(said, made[-1].answer)
    return Answer("OPTIMUM", tuple(numbers), answer.values) if answer.optimum else answer


def solve_in_cubes(
    text: str,
    jobs: int = 1,
    hosts: Union[str, Path, None] = None,
    program: Optional[str] = None,
    folder: Union[str, Path, None] = None,
    **more: Any,
) -> Answer:
    """Answers the text of a model by workers side by side, and has the answer checked.

    `jobs` is how many workers there are here, or on each machine of the file `hosts`. `more` are the other fields of
    `Request`. With a folder, the texts stay there, and so does the journal of a run that was ended. `OutOfTime` is
    raised where the time that `until` names has come.
    """
    listed = Path(hosts) if hosts is not None else None
    request = Request(jobs, listed, program=program, **more)
    if request.slurm and folder is None:
        raise ProgramError("Slurm wants a folder that its nodes see")
    with tempfile.TemporaryDirectory(prefix="beemodel-") as made:
        at = Path(folder if folder is not None else made)
        return read_checked(solve_all(text, at, request), program)
