"""What runs the workers: GNU parallel on this machine and over SSH, and Slurm. Neither knows what a cube is."""
from __future__ import annotations

import os
import queue
import shlex
import shutil
import signal
import subprocess
import threading
import time
from contextlib import suppress
from pathlib import Path
from typing import NamedTuple, Optional

from .machines import HERE, Machine, on_machine
from .tree import Cube


# Tells of a cube, by the line that `slot.sh` was given, that nothing is known of it.
LOST = "(set -- {}; echo \"${1%% *} - 0 1\")"


class EngineError(Exception):
    """What runs the workers isn't there, or ended."""


class Ended(NamedTuple):
    """A worker that ended: its cube's name, its machine, which of the machine's workers it was, and its exit code."""

    name: str
    machine: str
    slot: str
    code: int


NOTHING = Ended("", "", "", 0)


def ended(line: str) -> Ended:
    name, machine, slot, code = line.split()
    return Ended(name, machine, slot, int(code))


class GnuParallel:
    """GNU parallel as a queue of cubes. What it runs takes a free slot of a machine, here or by the words that reach
    it."""

    def __init__(self, folder: Path, machines: list[Machine]):
        self.folder, self.machines = folder, machines
        self.names = {str(it.number): it.name for it in machines}
        self.workers = sum(it.slots for it in machines)
        self.ends: queue.SimpleQueue[Optional[Ended]] = queue.SimpleQueue()
        for it in [*folder.glob("gone.*"), *folder.glob("slot.*")]:
            it.unlink()
        slots = [f"{it.number} {it.folder} {it.login}\n" for it in machines for _ in range(it.slots)]
        (folder / "slots").write_text("".join(slots))
        (folder / "controller").write_text(f"{os.getpid()}\n")
        words = ["parallel", "--plain", "--will-cite", "--ungroup", "--jobs", str(self.workers)]
        # What was killed before it told its end is told here.
        words += [f"sh {shlex.quote(str(HERE / 'slot.sh'))} {shlex.quote(str(folder))} {{}} || {LOST}"]
        self.process = subprocess.Popen(
            words,
            stdin=subprocess.PIPE,
            stdout=subprocess.PIPE,
            text=True,
            bufsize=1,
            start_new_session=True,
        )
        self.listener = threading.Thread(target=self.listen, daemon=True)
        self.listener.start()

    def listen(self) -> None:
        assert self.process.stdout is not None
        for line in self.process.stdout:
            self.ends.put(ended(line))
        self.ends.put(None)

    def queue(self, cubes: list[Cube], avoided: str = "-") -> None:
        """Puts cubes behind those that wait. One that failed on a machine runs on another, where there is one."""
        assert self.process.stdin is not None
        others = [it for it in self.machines if str(it.number) != avoided]
        for it in cubes:
            literals = " ".join(map(str, it.literals))
            self.process.stdin.write(f"{it.name} {it.number} {avoided if others else '-'} {literals}\n")
        self.process.stdin.flush()

    def next(self, seconds: float) -> Optional[Ended]:
        """The next worker that ended, if one does within these seconds."""
        try:
            found = self.ends.get(timeout=seconds)
        except queue.Empty:
            found = NOTHING
        if not (self.folder / "slots").exists():
            raise EngineError(f"the folder of work {self.folder} is gone")
        if found is None:
            raise EngineError(f"GNU parallel ended with code {self.process.wait()}")
        return None if found is NOTHING else found

    def stop(self, name: str) -> None:
        """Has the worker of a cube stopped, wherever it is."""
        for it in self.machines:
            on_machine(it, f"true >{it.folder}/{name}.stop")

    def bound(self, literal: int) -> None:
        """Tells all workers a better bound."""
        for it in self.machines:
            on_machine(it, f"echo {literal} >{it.folder}/bound.new && mv {it.folder}/bound.new {it.folder}/bound")

    def name_of(self, machine: str) -> str:
        """What a machine is called, by its number."""
        return self.names.get(machine, machine)

    def leave_out(self, machine: str) -> bool:
        """Gives a machine no more cubes. The answer is whether it had some until now."""
        if all(str(it.number) != machine for it in self.machines):
            return False
        (self.folder / f"gone.{machine}").touch()
        self.machines = [it for it in self.machines if str(it.number) != machine]
        self.workers = sum(it.slots for it in self.machines)
        return True

    def close(self) -> None:
        """Ends all workers. Those on other machines end by themselves, once who started them is gone."""
        for it in [*processes_below(self.process.pid), self.process.pid]:
            try:
                os.kill(it, signal.SIGTERM)
            except OSError:
                pass
        try:
            self.process.wait(2)
        except subprocess.TimeoutExpired:
            self.process.kill()
            self.process.wait()
        # What a worker has left open on standard output may outlive them.
        self.listener.join(2)
        for stream in (self.process.stdin, self.process.stdout):
            if stream is not None and not self.listener.is_alive():
                with suppress(OSError):
                    stream.close()


def processes_below(process: int) -> list[int]:
    """The processes below one, whatever their groups are."""
    listed = subprocess.run(["ps", "-e", "-o", "pid=,ppid="], capture_output=True, text=True, check=False).stdout
    below: dict[int, list[int]] = {}
    for line in listed.splitlines():
        child, parent = map(int, line.split())
        below.setdefault(parent, []).append(child)
    found, waiting = [], [process]
    while waiting:
        each = below.get(waiting.pop(), [])
        found += each
        waiting += each
    return found


class Slurm:
    """Slurm: each batch of cubes is an array job, whose elements run on nodes that see the folder of work."""

    # So often, in seconds, the folder is looked at for workers that ended, and the jobs for those that are gone.
    LOOK, ASK = 0.3, 5.0

    def __init__(self, folder: Path, workers: int):
        self.folder, self.workers = folder, workers
        self.lists, self.asked = 0, time.monotonic()
        self.elements: dict[str, str] = {}
        self.missed: set[str] = set()
        shutil.rmtree(folder / "ended", ignore_errors=True)
        (folder / "ended").mkdir()

    def queue(self, cubes: list[Cube], avoided: str = "-") -> None:
        """Submits an array job of the cubes."""
        self.lists += 1
        listed = self.folder / f"array.{os.getpid()}.{self.lists}"
        listed.write_text("".join(f"{it.name} {it.number} {' '.join(map(str, it.literals))}\n" for it in cubes))
        words = ["sbatch", "--parsable", "--requeue", "--job-name=bee-cubes", "--output=/dev/null"]
        words += [f"--array=0-{len(cubes) - 1}%{self.workers}"]
        words += [] if avoided == "-" else [f"--exclude={avoided}"]
        words += [str(HERE / "task.sh"), str(self.folder), str(listed)]
        ran = subprocess.run(words, capture_output=True, text=True, check=False)
        if ran.returncode and avoided != "-":
            return self.queue(cubes)
        if ran.returncode:
            raise EngineError(f"sbatch: {ran.stderr.strip()}")
        job = ran.stdout.strip().split(";")[0]
        self.elements.update({it.name: f"{job}_{at}" for at, it in enumerate(cubes)})
        return None

    def next(self, seconds: float) -> Optional[Ended]:
        """The next worker that ended, if one does within these seconds."""
        end = time.monotonic() + seconds
        while True:
            for it in (self.folder / "ended").iterdir():
                if not it.name.endswith(".part"):
                    found = ended(it.read_text())
                    it.unlink()
                    self.elements.pop(found.name, None)
                    return found
            if time.monotonic() > self.asked + self.ASK:
                gone = self.gone()
                if gone is not None:
                    return gone
            if time.monotonic() > end:
                return None
            time.sleep(self.LOOK)

    def gone(self) -> Optional[Ended]:
        """A cube whose element Slurm no longer has, twice in a row, and that has not ended."""
        self.asked = time.monotonic()
        words = ["squeue", "--noheader", "--array", "--states=all", "--format=%i %T"]
        listed = subprocess.run(words, capture_output=True, text=True, check=False)
        if listed.returncode:
            return None
        states = dict(line.split() for line in listed.stdout.splitlines())
        living = {"PENDING", "RUNNING", "REQUEUED", "REQUEUE_HOLD", "COMPLETING", "CONFIGURING", "SUSPENDED"}
        missed = {name for name, element in self.elements.items() if states.get(element) not in living}
        twice = missed & self.missed
        self.missed = missed - twice
        for name in twice:
            self.elements.pop(name)
            return Ended(name, "-", "0", 1)
        return None

    def stop(self, name: str) -> None:
        """Has the worker of a cube stopped."""
        (self.folder / "here" / f"{name}.stop").touch()

    def bound(self, literal: int) -> None:
        """Tells all workers a better bound."""
        made = self.folder / "here" / "bound.new"
        made.write_text(f"{literal}\n")
        made.rename(self.folder / "here" / "bound")

    def name_of(self, machine: str) -> str:
        return machine

    def leave_out(self, machine: str) -> bool:
        """Slurm leaves out its own nodes."""
        return False

    def close(self) -> None:
        """Ends all workers."""
        jobs = sorted({it.split("_")[0] for it in self.elements.values()})
        if jobs:
            subprocess.run(["scancel", *jobs], capture_output=True, check=False)
