"""What the benches of modes share: seconds of runs, the least of some, and how they grow."""
import math, os, resource, subprocess, sys

# Seconds after which a run is stopped.
LIMIT = int(os.environ.get("SECONDS_EACH", "60"))


class Stopped(Exception):
    """A run took longer than it may, or ended with another code."""


def timed(words, out=os.devnull, codes=(0,)):
    """The exit code, and the user CPU seconds."""
    with open(out, "wb") as sink:
        child = subprocess.Popen(words, stdin=subprocess.DEVNULL, stdout=sink, stderr=subprocess.DEVNULL,
            preexec_fn=lambda: resource.setrlimit(resource.RLIMIT_CPU, (LIMIT, LIMIT)))
        _, status, usage = os.wait4(child.pid, 0)
    code = os.waitstatus_to_exitcode(status)
    if code not in codes:
        raise Stopped(f"{os.path.basename(words[0])} {words[1]} ended with {code} after {usage.ru_utime:.1f} s")
    return code, usage.ru_utime


def least(words, out=os.devnull, codes=(0,)):
    """The exit code and the least seconds of three runs; of one where that takes more than ten."""
    runs = [timed(words, out, codes)]
    while len(runs) < 3 and runs[0][1] < 10:
        runs.append(timed(words, out, codes))
    return runs[0][0], min(seconds for _, seconds in runs)


def shown(seconds):
    return "-" if seconds is None else f"{seconds:.3f}"


def ratio(one, other):
    """How many times as long one took as the other, where that took long enough to be told."""
    return "-" if one is None or other is None or max(one, other) < 0.02 else f"{one / max(other, 0.001):.2f}"


def exponent(points):
    """How seconds grow with a size from the first point on that takes long enough to the last one."""
    told = [(size, seconds) for size, seconds in points if seconds is not None and seconds >= 0.02]
    if len(told) < 2 or told[-1][0] <= told[0][0]:
        return "-"
    return f"{math.log(told[-1][1] / told[0][1]) / math.log(told[-1][0] / told[0][0]):.2f}"


def compiled(bee, model, cnf):
    """Writes the clauses of a model."""
    timed([bee, "compile", model], cnf)


def compact(cnf, path):
    """Writes clauses without the variables that no clause has, which are free, and without comment lines."""
    numbers, lines = {}, []
    with open(cnf) as source:
        for line in source:
            if line[0] not in "cp":
                literals = [int(word) for word in line.split()[:-1]]
                lines.append([numbers.setdefault(abs(l), len(numbers) + 1) * (1 if l > 0 else -1) for l in literals])
    clauses = (" ".join(map(str, [*line, 0])) for line in lines)
    return written(path, [f"p cnf {len(numbers)} {len(lines)}", *clauses])


def written(path, lines):
    """Writes the lines of a text, and gives its path."""
    with open(path, "w") as sink:
        sink.writelines(f"{line}\n" for line in lines)
    return path


def chosen(families, words):
    """The families that words name, each with its sizes: FAMILY or FAMILY:SIZE,SIZE; the word `whole` takes all sizes
    of those that are named, and without it those of each family that are for a first look."""
    whole = "whole" in words
    named = [it for it in words if it != "whole"] or list(families)
    for word in named:
        family, _, sizes = word.partition(":")
        if family not in families:
            sys.exit(f"no family {family}; there are {', '.join(families)}")
        small, more = families[family]
        yield family, [int(it) for it in sizes.split(",")] if sizes else [*small, *(more if whole else [])]
