"""Runs the program on texts, several models side by side, and counts what came of it. A script hands `tried` what is
done with one of its models; the program is BEE, or the one that `./bee` builds."""
import collections, multiprocessing, os, random, subprocess, sys, tempfile

TOP = os.path.dirname(os.path.dirname(os.path.abspath(__file__)))


class Difference(Exception):
    """The program says one thing, and the reading another."""


def want(holds, what):
    if not holds:
        raise Difference(what)


def program():
    """Where the program is; it is built where there is none yet."""
    if "BEE" in os.environ:
        return os.environ["BEE"]
    subprocess.run([f"{TOP}/bee", "compile", f"{TOP}/examples/pigeonhole.bee"], stdout=subprocess.DEVNULL, check=True)
    return f"{TOP}/crates/bee/out/bee"


class Trial:
    """One model: its texts, and the runs of the program on them."""

    def __init__(self, program, folder, seed, index):
        self.program, self.folder, self.index = program, folder, index
        self.chance = random.Random(f"{seed}:{index}")
        self.counts = collections.Counter()
        self.texts = {}

    def path(self, name, text):
        """Where a text stands, which is written now."""
        path = os.path.join(self.folder, f"{os.getpid()}.{name}")
        self.texts[name] = text
        with open(path, "wb") as sink:
            sink.write(text)
        return path

    def run(self, *words, codes=(0,)):
        """The exit code, and what was written; on standard error, which is kept, nothing stands where the code is 0 or
        8, and else something."""
        ran = subprocess.run([self.program, *words], stdin=subprocess.DEVNULL, capture_output=True, timeout=600)
        self.counts["runs"] += 1
        code, self.told = ran.returncode, ran.stderr.decode()
        want(code in codes, f"{words[0]} ended with {code}: {self.told[-300:]!r}")
        want(bool(self.told) == (code not in (0, 8)), f"{words[0]} told {self.told[:300]!r}")
        return code, ran.stdout

    def compare(self, mode, model, text, wanted, changed="nothing"):
        """What a checking mode says of a text, beside what the reading says."""
        code, told = self.run(mode, model, self.path("second", text), codes=(0, 1))
        is_told = told.decode() == wanted + "\n" and code == wanted.startswith("REFUSED")
        want(is_told, f"{mode}: {told!r} and {code}, wanted {wanted!r}")
        self.counts[f"{mode}, {changed.replace('_', ' ')} changed, {wanted.split(' ')[0].lower()}"] += 1


def attempt(job):
    """What comes of one model: its number, its counts, and the difference, if there is one, whose texts are kept."""
    make, program, folder, seed, index = job
    trial = Trial(program, folder, seed, index)
    try:
        make(trial)
        trial.counts["models"] += 1
        return index, trial.counts, None
    except Exception as error:
        for name, text in trial.texts.items():
            with open(os.path.join(folder, f"failure-{index}.{name}"), "wb") as sink:
                sink.write(text)
        return index, trial.counts, f"{type(error).__name__}: {error}"


def tried(make, count):
    """Tries models: SCRIPT [COUNT [SEED [PROCESSES [FIRST]]]]. Ends with 1 where there was a difference."""
    words = sys.argv[1:5]
    count, seed, processes, first = (int(word) for word in words + [str(count), "1", "3", "0"][len(words) :])
    folder = tempfile.mkdtemp()
    jobs = [(make, program(), folder, seed, index) for index in range(first, first + count)]
    counts, failures = collections.Counter(), 0
    with multiprocessing.Pool(processes, maxtasksperchild=200) as pool:
        for index, one, failure in pool.imap_unordered(attempt, jobs, 2):
            counts += one
            if failure:
                failures += 1
                print(f"model {index} of seed {seed}: {failure[:2000]}", flush=True)
    for name, number in sorted(counts.items()):
        print(f"{number:9} {name}")
    print(f"{failures:9} differences" + (f", whose texts are in {folder}" if failures else ""))
    if not failures:
        subprocess.run(["rm", "-r", folder], check=True)
    sys.exit(1 if failures else 0)
