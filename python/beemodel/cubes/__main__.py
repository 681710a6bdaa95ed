"""The command: `python3 -m beemodel.cubes MODEL --jobs 8 > answer`."""
from __future__ import annotations

import argparse
import shutil
import signal
import sys
from pathlib import Path
from typing import Optional

from ..answers import ProgramError
from ..lines import ModelError
from .engines import EngineError
from .machines import tell
from .solving import LOOK, Request, solve_all


def words() -> argparse.ArgumentParser:
    """What the command takes."""
    made = argparse.ArgumentParser(prog="python3 -m beemodel.cubes", description=__doc__)
    made.add_argument("model", type=Path, help="the model")
    made.add_argument("--jobs", type=count, default=1, help="workers here, or on each host (1)")
    made.add_argument("--hosts", type=Path, help="a file of hosts, as GNU parallel's --sshloginfile")
    made.add_argument("--slurm", action="store_true", help="array jobs, whose nodes see the folder of work")
    made.add_argument("--worker", choices=("bee", "cadical"), default="bee", help="the solver (bee)")
    made.add_argument("--solver", help="where the solver is on each machine (here BEE, on hosts on the path)")
    made.add_argument("--program", help="bee (the variable BEE, or ./bee)")
    made.add_argument("--folder", type=Path, help="the folder of work (MODEL.cubes, removed at the end)")
    made.add_argument("--host-folder", default="/tmp", dest="away", help="where hosts have theirs (/tmp)")
    made.add_argument("--cubes", type=count, help="so many are made first (8 for each worker)")
    made.add_argument("--share", type=float, default=5.0, help="seconds behind which one is split again (5)")
    made.add_argument("--look", type=int, default=LOOK, help=f"clauses of the first look ({LOOK}); 0 for none")
    made.add_argument("--retries", type=int, default=3, help="how often a cube that failed runs again (3)")
    made.add_argument("--joblog", type=Path, dest="journal", help="the journal (in the folder of work)")
    made.add_argument("--resume", action="store_true", help="go on with the journal, where there is one")
    made.add_argument("--progress", action="store_true", help="tell what is done, on standard error")
    return made


def count(told: str) -> int:
    """A number from 1 on."""
    number = int(told)
    if number < 1:
        raise argparse.ArgumentTypeError(f"{told} is less than 1")
    return number


def stop(number: int, _: object) -> None:
    raise SystemExit(128 + number)


def answer(given: argparse.Namespace) -> Optional[str]:
    """Writes the answer. What is told is why there is none."""
    fields = {name: it for name, it in vars(given).items() if name not in ("model", "folder")}
    folder = given.folder or Path(f"{given.model.stem}.cubes")
    try:
        text = given.model.read_text()
        made = solve_all(text, folder, Request(**fields))
    except OSError as fault:
        return f"{fault.filename or folder}: {fault.strerror}"
    except (ProgramError, EngineError) as fault:
        return str(fault)
    for it in made:
        with open(it.answer) as document:
            shutil.copyfileobj(document, sys.stdout)
    sys.stdout.flush()
    if len(made) > 1:
        for it in made:
            tell(f"{it.answer} answers {it.model}")
    elif given.folder is None:
        shutil.rmtree(folder)
    return None


def main() -> int:
    for number in (signal.SIGINT, signal.SIGTERM, signal.SIGHUP):
        signal.signal(number, stop)
    given = words().parse_args()
    try:
        told = answer(given)
    except ModelError as fault:
        sys.stderr.write(f"{fault}\n")
        return 3
    except SystemExit as fault:
        tell("stopped; the same command with --resume goes on")
        return int(fault.code or 0)
    if told:
        tell(told)
        return 4
    return 0


if __name__ == "__main__":
    sys.exit(main())
