#!/usr/bin/env python3
"""Runs the gate, or another command, and tells what its proofs cost: gate.py [COMMAND ..], `.ci/run` without words, in
the folder where it is called.

Twice a second it looks at the processes below the command. The CPU seconds of each one that checks or builds a
crate are added up by crate and kind: the proof; the proof with tests; and mutants, which are the proof once more
and what changes with each. What it says at the end on standard error: the command's exit code and wall-clock seconds;
CPU minutes by kind, of all processes, and of those that the host of a virtual machine took; and a line for
each crate, the dearest first, with the seconds of each kind, the minutes from when to when it was proved, and the most
memory that one of its processes had. What lives for less than half a second may be missed. It wants a machine that does
nothing else, a clean clone, and nothing kept of earlier runs. Wants python3 and Linux."""
import os, signal, subprocess, sys, time

TICK = os.sysconf("SC_CLK_TCK")
PAGE = os.sysconf("SC_PAGE_SIZE")
KINDS = ("proof", "tests", "edits")


class Process:
    """What is known of a process: its crate and kind, and what it took so far."""

    def __init__(self, number, root):
        words = read(f"/proc/{number}/cmdline").split("\0")
        self.crate = words[words.index("--crate-name") + 1] if "--crate-name" in words[:-1] else None
        # A mutant is checked in a copy of its crate, outside the repository.
        is_copy = not os.readlink(f"/proc/{number}/cwd").startswith(f"{root}/")
        self.kind = "edits" if is_copy else "tests" if "--test" in words else "proof"
        self.began = self.ended = time.monotonic()
        self.seconds = self.memory = 0

    def look(self, user, system, pages):
        self.ended = time.monotonic()
        self.seconds = (user + system) / TICK
        self.memory = max(self.memory, pages * PAGE)


def read(path):
    with open(path, encoding="utf-8", errors="replace") as source:
        return source.read()


def stolen():
    """Seconds that the host took from all processors so far."""
    return int(read("/proc/stat").split("\n")[0].split()[8]) / TICK


def look(top, root, seen):
    """Looks at each process below the one with the number top."""
    parents, stats = {}, {}
    for number in filter(str.isdigit, os.listdir("/proc")):
        try:
            fields = read(f"/proc/{number}/stat").rpartition(")")[2].split()
        except OSError:
            continue
        parents[int(number)], stats[int(number)] = int(fields[1]), fields
    for number, fields in stats.items():
        above = number
        while above not in (top, 0, 1):
            above = parents.get(above, 0)
        if above != top:
            continue
        # A number is given again once its process has ended.
        key = number, fields[19]
        try:
            if key not in seen:
                seen[key] = Process(number, root)
        except OSError:
            continue
        seen[key].look(int(fields[11]), int(fields[12]), int(fields[21]))


def told(seen, begun):
    """A line for each crate."""
    crates = {}
    for it in seen.values():
        if it.crate:
            crates.setdefault(it.crate, []).append(it)
    seconds = lambda some, kind: sum(it.seconds for it in some if it.kind == kind)
    for name, some in sorted(crates.items(), key=lambda it: -sum(process.seconds for process in it[1])):
        own = [it for it in some if it.kind == "proof"] or some
        first, last = (min(it.began for it in own) - begun) / 60, (max(it.ended for it in own) - begun) / 60
        yield (f"{name:20}" + "".join(f" {seconds(some, kind):7.0f}" for kind in KINDS)
            + f"   {first:5.1f} to {last:5.1f}   {max(it.memory for it in some) / 1e9:4.1f} GB")


def main(words):
    root, seen, begun, taken = os.getcwd(), {}, time.monotonic(), stolen()
    command = subprocess.Popen(words or [".ci/run"])
    try:
        while command.poll() is None:
            look(command.pid, root, seen)
            time.sleep(0.5)
    except KeyboardInterrupt:
        # What was seen is told, however often it is interrupted before the command ends.
        signal.signal(signal.SIGINT, signal.SIG_IGN)
        command.wait()
    clock = time.monotonic() - begun
    say = lambda line: print(line, file=sys.stderr)
    say(f"gate.py: ended with {command.returncode} after {clock:.0f} s of wall-clock time")
    minutes = {kind: sum(it.seconds for it in seen.values() if it.crate and it.kind == kind) / 60 for kind in KINDS}
    say("gate.py: CPU minutes: " + ", ".join(f"{kind} {minutes[kind]:.1f}" for kind in KINDS)
        + f"; of all processes {sum(it.seconds for it in seen.values()) / 60:.1f}; taken by the host"
        + f" {(stolen() - taken) / 60:.1f}")
    say(f"{'crate':20}" + "".join(f" {kind:>7}" for kind in KINDS) + "   minutes          memory")
    for line in told(seen, begun):
        say(line)
    return command.returncode


if __name__ == "__main__":
    sys.exit(main(sys.argv[1:]))
