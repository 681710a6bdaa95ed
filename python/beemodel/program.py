"""The program: where it is, and how it is called, watched and ended."""
from __future__ import annotations

import os
import select
import shutil
import signal
import subprocess
import sys
import time
from collections.abc import Callable, Iterator
from contextlib import contextmanager, suppress
from pathlib import Path
from typing import IO, NamedTuple, Optional

from .answers import ProgramError

# Seconds that a program has to end once it is asked to.
GRACE = 2.0

# Takes a line of standard error. The answer is whether it is kept, as one that tells of a fault.
Teller = Callable[[str], bool]


class Ended(NamedTuple):
    """How a call ended: the exit code, what was told on standard error, and `seconds` or
    `interrupt` where it was ended before it was done."""

    code: int
    told: str
    stopped: Optional[str] = None


def places() -> list[str]:
    """Where the program may be beside the package: in its folder, and, where that is one of the
    repository, at its top."""
    package = Path(__file__).resolve().parent
    tops = [package.parents[1]] if package.parent.name == "python" else []
    return [str(it / "bee") for it in (package, *tops)]


def is_program(path: str) -> bool:
    """Whether there is a program at a path."""
    return os.path.isfile(path) and os.access(path, os.X_OK)


def program_of(program: Optional[str] = None) -> str:
    """Where the program is: the argument, the variable BEE, `bee` on the PATH, or beside the
    package."""
    for by, path in (("program=", program), ("the variable BEE", os.environ.get("BEE"))):
        if path:
            found = os.path.abspath(path) if is_program(path) else shutil.which(path)
            if found is None:
                raise ProgramError(f"there is no program at {path}, which {by} names")
            return found
    on_path = shutil.which("bee")
    if on_path is not None:
        return on_path
    for path in places():
        if is_program(path):
            return path
    raise ProgramError(
        "there is no program bee: none is named by program= or by the variable BEE, none is on "
        f"the PATH, and there is none at {' or '.join(places())}"
    )


@contextmanager
def running(words: list[str], output: IO[bytes]) -> Iterator[subprocess.Popen[bytes]]:
    """A call of the program, which is ended with the block. An interrupt of the terminal reaches
    Python alone: the program begins with that signal blocked."""
    process = None
    try:
        mask = signal.pthread_sigmask(signal.SIG_BLOCK, {signal.SIGINT})
        try:
            process = subprocess.Popen(words, stdout=output, stderr=subprocess.PIPE)
        except OSError as fault:
            raise ProgramError(f"{words[0]} can't be started: {fault.strerror}") from fault
        finally:
            signal.pthread_sigmask(signal.SIG_SETMASK, mask)
        yield process
    finally:
        if process is not None:
            end(process)


def below(parent: int) -> list[int]:
    """The processes that a process has begun, and those that these have, as `./bee` does where it
    builds the program."""
    children: dict[int, list[int]] = {}
    for path in Path("/proc").glob("[0-9]*/stat"):
        try:
            words = path.read_text(errors="replace").rpartition(")")[2].split()
        except OSError:
            continue
        children.setdefault(int(words[1]), []).append(int(path.parent.name))
    found = [parent]
    for pid in found:
        found += children.get(pid, [])
    return found[1:]


def ask_to_end(process: subprocess.Popen[bytes]) -> None:
    """Asks a process and those below it to end."""
    others = below(process.pid)
    process.terminate()
    for pid in others:
        with suppress(ProcessLookupError):
            os.kill(pid, signal.SIGTERM)


def end(process: subprocess.Popen[bytes]) -> None:
    """Ends a process that still runs, and waits until it has ended."""
    try:
        if process.poll() is None:
            ask_to_end(process)
            process.wait(GRACE)
    except BaseException as fault:
        process.kill()
        process.wait()
        if not isinstance(fault, subprocess.TimeoutExpired):
            raise
    finally:
        if process.stderr is not None:
            process.stderr.close()


def lines_of(process: subprocess.Popen[bytes], limit: Optional[float]) -> Iterator[str]:
    """The lines of standard error as they come; `TimeoutError` once the clock is at the limit."""
    assert process.stderr is not None
    descriptor, rest = process.stderr.fileno(), b""
    while True:
        left = None if limit is None else limit - time.monotonic()
        if left is not None and (left <= 0 or not select.select([descriptor], [], [], left)[0]):
            raise TimeoutError
        chunk = os.read(descriptor, 65536)
        if not chunk:
            break
        *whole, rest = (rest + chunk).split(b"\n")
        yield from (it.decode(errors="replace") for it in whole)
    if rest:
        yield rest.decode(errors="replace")


def watched(words: list[str], to: Path, on_line: Teller, limit: Optional[float] = None) -> Ended:
    """Calls the program, with its output to a file and each line of standard error to a function.

    It is ended once the clock is at the limit, or by an interrupt; else it goes on to its end. What
    the function raises ends it as well.
    """
    told: list[str] = []
    stopped = None
    with open(to, "wb") as output, running(words, output) as process:
        try:
            for line in lines_of(process, limit):
                told += [line] if on_line(line) else []
            process.wait()
        except TimeoutError:
            stopped = "seconds"
        except KeyboardInterrupt:
            stopped = "interrupt"
        if stopped is not None:
            ask_to_end(process)
            for line in drained(process):
                on_line(line)
    return Ended(process.returncode, "\n".join(told).strip(), stopped)


def drained(process: subprocess.Popen[bytes]) -> list[str]:
    """The lines that a process that is ending has left on standard error."""
    try:
        return list(lines_of(process, time.monotonic() + GRACE))
    except TimeoutError:
        return []


def pass_on(line: str) -> bool:
    """Keeps a line of standard error, and shows it, but for a fault of the model, which becomes an
    error."""
    if not line.startswith("bee: model:"):
        sys.stderr.write(f"{line}\n")
        sys.stderr.flush()
    return True


def call(words: list[str], to: Path) -> tuple[int, str]:
    """Calls the program, with its output to a file. The answer is the exit code and what it told on
    standard error, which is passed on as it comes. An interrupt ends the program, and is raised."""
    ended = watched(words, to, pass_on)
    if ended.stopped is not None:
        raise KeyboardInterrupt
    return ended.code, ended.told
