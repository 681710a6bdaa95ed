"""Machines that run workers: which there are, whether they can be reached, and what they are sent."""
from __future__ import annotations

import hashlib
import os
import shlex
import shutil
import socket
import subprocess
import sys
from concurrent.futures import ThreadPoolExecutor
from pathlib import Path
from typing import NamedTuple

from ..answers import ProgramError

HERE = Path(__file__).resolve().parent

# Behind a line of this a text that is sent has ended.
MARK = "the end of what the command beemodel.cubes sends"

# What reaches a machine that is named without words of its own.
SSH = "ssh -o BatchMode=yes -o ConnectTimeout=10 -o ServerAliveInterval=5 -o ServerAliveCountMax=3"


class Machine(NamedTuple):
    """A machine: its number, its name, how many workers it has, the folder of work there, and `:` for this machine or
    the words that reach it."""

    number: int
    name: str
    slots: int
    folder: str
    login: str

    @property
    def is_here(self) -> bool:
        return self.login == ":"


def this_machine(folder: Path, jobs: int) -> Machine:
    return Machine(0, "here", jobs, str(folder / "here"), ":")


def read_hosts(listed: Path, folder: Path, jobs: int, away: str) -> list[Machine]:
    """The machines of a file, in the form of GNU parallel's `--sshloginfile`: a line for each, its number of workers
    and `/` before it where that isn't `jobs`; `:` for this machine; a name, or the words that reach it."""
    mark = hashlib.sha256(f"{socket.gethostname()} {folder}".encode()).hexdigest()[:12]
    found: list[Machine] = []
    for line in listed.read_text().splitlines():
        line = line.split("#")[0].strip()
        if not line:
            continue
        count, slash, rest = line.partition("/")
        slots, login = (int(count), rest) if slash and count.isdigit() else (jobs, line)
        if slots == 0:
            raise ProgramError(f"{listed}: {login} has no worker")
        if login == ":":
            found.append(this_machine(folder, slots)._replace(number=len(found)))
            continue
        words = login.split()
        reached = login if len(words) > 1 else f"{SSH} {login}"
        found.append(Machine(len(found), words[-1], slots, f"{away}/bee-cubes-{mark}", reached))
    if not found:
        raise ProgramError(f"{listed} names no host")
    return found


def on_machine(machine: Machine, script: str) -> subprocess.Popen[bytes]:
    """Starts a script on a machine, and doesn't wait for it."""
    words = ["sh", "-c", script] if machine.is_here else [*shlex.split(machine.login), script]
    null = subprocess.DEVNULL
    return subprocess.Popen(words, stdin=null, stdout=null, stderr=null, start_new_session=True)


def ran_on(machine: Machine, script: str, given: bytes = b"") -> tuple[int, str]:
    """Runs a script on a machine. The answer is the exit code, and what it told where that isn't 0."""
    words = ["sh", "-c", script] if machine.is_here else [*shlex.split(machine.login), script]
    ran = subprocess.run(words, input=given, capture_output=True, check=False)
    told = ran.stderr.decode(errors="replace").strip()
    return ran.returncode, told or f"code {ran.returncode}"


def look_at(machine: Machine, solver: str) -> None:
    """Looks whether a machine can be reached and has the solver."""
    code, told = ran_on(machine, f"command -v {shlex.quote(solver)} >/dev/null || exit 3")
    if code == 3:
        raise ProgramError(f"there is no {solver} on {'this machine' if machine.is_here else machine.name}")
    if code:
        raise ProgramError(f"host {machine.name} can't be reached: {told}")


def prepare(machine: Machine, kind: str, solver: str, made: Path) -> None:
    """Makes the folder of work of a machine, with what a worker reads."""
    texts = {it: (made / it).read_text() for it in ("size", "clauses", "share")}
    texts["worker.sh"] = (HERE / "worker.sh").read_text()
    texts["solver"] = f"{kind} {solver}\n"
    folder = shlex.quote(machine.folder)
    script = [f"set -e\nrm -rf {folder}\nmkdir -p {folder}\ncd {folder}\n"]
    script += [f"cat >{name} <<'{MARK}'\n{text}{MARK}\n" for name, text in texts.items()]
    code, told = ran_on(machine, "sh", "".join(script).encode())
    if code:
        raise ProgramError(f"{machine.name}: {told}")


def prepare_all(machines: list[Machine], kind: str, solvers: list[str], made: Path) -> None:
    """Makes all machines ready, side by side; none before each was looked at."""
    with ThreadPoolExecutor(max_workers=32) as pool:
        list(pool.map(look_at, machines, solvers))
        list(pool.map(lambda machine, solver: prepare(machine, kind, solver, made), machines, solvers))


def forget_all(machines: list[Machine]) -> None:
    """Removes the folders of work of all machines."""
    with ThreadPoolExecutor(max_workers=32) as pool:
        list(pool.map(lambda it: ran_on(it, f"rm -rf {shlex.quote(it.folder)}"), machines))


def need_programs(names: list[str]) -> None:
    """Stops where a program isn't there."""
    for name in names:
        if shutil.which(name) is None:
            raise ProgramError(f"there is no {name} on this machine")
    if "parallel" in names:
        ran = subprocess.run(["parallel", "--plain", "--version"], capture_output=True, text=True, check=False)
        if not ran.stdout.startswith("GNU parallel"):
            raise ProgramError("the command parallel is not GNU parallel")


def tell(line: str) -> None:
    """A line on standard error."""
    sys.stderr.write(f"cubes: {line}\n")
    sys.stderr.flush()


def quiet_environment() -> None:
    """GNU parallel's own variable says nothing here."""
    os.environ.pop("PARALLEL", None)
