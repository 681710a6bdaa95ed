#!/usr/bin/env python3
"""Tries the program on small models, made at random: fuzz.py PROGRAM COUNT SEED FOLDER [PROCESSES [FIRST]]. What is
compared with what stands in `fuzz.sh`. Each failure is told at once, and its texts are kept in FOLDER."""
import collections, multiprocessing, os, random, subprocess, sys

sys.path.insert(0, os.path.dirname(os.path.abspath(__file__)))
from answer_reading import Answer, Compiled, Refused, values
from clause_search import Search
from fuzz_changes import CHANGES, atom_words, document, one_step, wandered
from ledger_reading import Compilation, Steps
from rule_reading import is_implied
from small_models import KINDS, Maker


class Difference(Exception):
    """The program says one thing, and the reading another."""


class Trial:
    """One model, and what the program makes of it."""

    def __init__(self, program, folder, seed, index):
        self.program, self.folder = program, folder
        self.chance = random.Random(f"{seed}:{index}")
        kinds = list(KINDS)
        for _ in range(3):
            maker = Maker(self.chance, kinds[index % len(kinds)])
            self.model, self.text = maker.model, maker.text()
            self.known = list(self.model.solutions())
            if self.known:
                break
        self.compilation = Compilation(self.model)
        self.counts = collections.Counter()
        self.texts = {}
        self.runs = []
        self.awaited = []

    def path(self, name, content=None):
        path = os.path.join(self.folder, f"{os.getpid()}.{name}")
        if content is not None:
            self.texts[name] = content
            with open(path, "wb") as sink:
                sink.write(content)
        return path

    def start(self, *words):
        """Begins a run, beside others."""
        number = len(self.runs)
        with open(self.path(f"{number}.out"), "wb") as out, open(self.path(f"{number}.err"), "wb") as err:
            self.runs.append(subprocess.Popen([self.program, *words], stdin=subprocess.DEVNULL, stdout=out, stderr=err))
        self.counts["runs"] += 1
        return number, words[0]

    def end(self, run, codes=(0,)):
        """What a run wrote."""
        number, mode = run
        code = self.runs[number].wait(timeout=600)
        out, err = (open(self.path(f"{number}.{end}"), "rb").read() for end in ("out", "err"))
        self.want(code in codes, f"{mode} ended with {code}: {err[-300:]!r}")
        # Where a line is refused, and only there, a line says why.
        self.want(bool(err) == (code == 1), f"{mode} wrote on standard error: {err[:300]!r}")
        return out

    def stop(self):
        for run in self.runs:
            if run.poll() is None:
                run.kill()
                run.wait()

    def compare_later(self, run, compare):
        self.awaited.append((run, compare))

    def compare_all(self):
        for run, compare in self.awaited:
            compare(self.end(run, (0, 1)).decode())

    @staticmethod
    def want(holds, what):
        if not holds:
            raise Difference(what)

    def go(self):
        model = self.path("model", self.text.encode())
        budget = self.chance.randint(1, 4)
        words = ["--budget", str(budget)] + ["--no-restart"] * self.chance.randint(0, 1)
        compiling, solving = self.start("compile", model), self.start("solve", model)
        giving_up = self.start("solve", model, *words)
        self.best = self.model.best(self.known) if self.model.objectives and self.known else None
        self.cnf_text = self.end(compiling)
        self.compare_clauses()
        self.compare_ledger()
        self.compare_answer(model, self.end(solving))
        spent = self.end(giving_up, (0, 8))
        is_spent, verdict = self.runs[giving_up[0]].returncode == 8, spent.split(b"\n")[1]
        self.want(is_spent == verdict.startswith(b"UNKNOWN"), "the exit code is that of another verdict")
        self.want(not is_spent or verdict == b"UNKNOWN %d" % budget, "another budget")
        self.compare_answer(model, spent)
        self.compare_documents(model)
        self.compare_all()
        self.count_model()
        return self.counts

    def count_model(self):
        """What the model has: its statements, domains and goal."""
        self.counts["models"] += 1
        for name, args in self.model.items:
            listed = name == "new_int" and isinstance(args[1], list)
            self.counts[f"statement {name}{' with a list' if listed else ''}"] += 1
        then = " then" * (len(self.model.objectives) == 2)
        self.counts[f"goal {self.model.direction or 'satisfy'}{then}"] += 1

    def compare_clauses(self):
        self.compiled = Compiled(self.cnf_text)
        self.want(list(self.compiled.names) == list(self.model.domains), "other names")
        found = Search(self.compiled, self.chance).solutions()
        known = {tuple(s) for s in self.known}
        self.want(set(found) == known, f"compiled: {sorted(found)}, known: {sorted(known)}")
        self.counts["solutions"] += len(found)
        if found:
            self.compare_values(self.chance.choice(list(found.values())))

    def compare_values(self, true):
        cnf = self.path("cnf", self.cnf_text)
        literals = sorted(true, key=abs)
        if self.chance.random() < 0.5:
            self.chance.shuffle(literals)
        cut = self.chance.randint(0, len(literals))
        parts = [["v", *literals[:cut]], ["v", *literals[cut:], 0]]
        lines = ["c found", "s SATISFIABLE", *(" ".join(map(str, part)) for part in parts)]
        text = ("\n".join(lines) + "\n").encode()
        self.compare_decoding(cnf, text, True)
        for change in CHANGES:
            self.compare_decoding(cnf, change(self.chance, text))

    def compare_decoding(self, cnf, text, whole=False):
        try:
            true = values(self.compiled, text)
            shown = {True: "true", False: "false"}
            told = self.compiled.told(true)
            wanted = "".join(f"{name} = {shown[v] if isinstance(v, bool) else v}\n" for name, v in told)
            self.counts["values taken"] += 1
        except Refused as refused:
            self.want(not whole, "the reading refuses values that it made")
            wanted = f"REFUSED {refused.args[0]}\n"
            self.counts["values refused"] += 1
        run = self.start("decode", cnf, self.path(f"{len(self.runs)}.values", text))
        self.compare_later(run, lambda told: self.want(told == wanted, f"decode: {told!r}, wanted {wanted!r}"))

    def is_true(self, verdict):
        """Whether a verdict is that of trying all assignments."""
        kind, *numbers = verdict.split(" ")
        if kind == "UNKNOWN":
            return True
        if kind == "OPTIMUM":
            return self.best is not None and [int(n) for n in numbers] == self.best
        return (kind == "SATISFIABLE") == bool(self.known)

    def compare_ledger(self):
        """Makes the steps of the compiled text's ledger, which lead to its clauses and its names."""
        steps = Steps(self.compilation)
        for place, line in enumerate(self.compiled.ledger, 1):
            state = steps.state
            self.want(steps.apply(line), f"line {place} of the ledger is no step: {line!r}")
            words = line.decode().split(" ")
            core = state.core(int(words[1]))
            self.counts[f"step {' '.join(words[:1] + words[2:3])} {core[0]}"] += 1
            if words[0] == "eq":
                is_shown = is_implied(core, *atom_words(words[3:])) is not False
                self.want(is_shown, f"line {place} of the ledger is not implied: {line!r}")
        are_same = steps.cnf() == (self.compiled.vars, self.compiled.clauses)
        self.want(are_same, f"the clauses of the ledger are {steps.cnf()}")
        are_kept = all(steps.entry(name) == entry for name, entry in self.compiled.names.items())
        self.want(are_kept, "names stand for something else at the ledger's end")

    def compare_answer(self, model, text):
        """A document of `solve`, as it stands and with changes."""
        verdict = self.reading(text)
        self.want(verdict[0] == "ACCEPTED", f"the reading of what solve wrote: {verdict}")
        self.counts[verdict[1].split(" ")[0]] += 1
        self.compare_changes(model, text, 2)

    def compare_documents(self, model):
        """Documents that `solve` does not write: one behind the whole ledger of the compilation, and one behind a
        ledger of any steps."""
        wander = wandered(self.chance, self.compilation, self.chance.choice((2, 10, 40)))
        for kind, ledger in (("compiled", self.compiled.ledger), ("wandering", wander)):
            text = document(self.chance, self.compilation, self.model, ledger)
            if text is not None:
                verdict = self.reading(text)
                self.want(verdict[0] == "ACCEPTED", f"the reading of a document that was made: {verdict}")
                self.counts[f"document of a {kind} ledger"] += 1
                self.compare_changes(model, text, 1)

    def compare_changes(self, model, text, times):
        self.compare_check(model, text, "nothing")
        for change in CHANGES:
            for _ in range(times):
                self.compare_check(model, change(self.chance, text), change.__name__)
        for _ in range(times):
            changed, place = one_step(self.chance, text, self.compilation)
            if changed is not None:
                self.compare_check(model, changed, "one_step", place)

    def reading(self, text):
        try:
            return "ACCEPTED", Answer(self.model, Steps(self.compilation), text).verdict()
        except Refused as refused:
            return "REFUSED", str(refused.args[0])

    def compare_check(self, model, text, changed, place=0):
        run = self.start("check", model, self.path(f"{len(self.runs)}.answer", text))
        self.compare_later(run, lambda told: self.compare_told(told, text, changed, place))

    def compare_told(self, told, text, changed, place):
        wanted = self.reading(text)
        self.want(told == f"{wanted[0]} {wanted[1]}\n", f"check: {told!r}, wanted {wanted}")
        self.want(wanted[0] == "REFUSED" or self.is_true(wanted[1]), f"{wanted[1]} is not true")
        self.counts[f"check, {changed.replace('_', ' ')} changed, {wanted[0].lower()}"] += 1
        if changed == "one_step":
            line = wanted[0] == "ACCEPTED" or int(wanted[1]) > place
            self.counts[f"check, one step changed, which is {'one' if line else 'none'}"] += 1


def attempt(job):
    program, folder, seed, index = job
    trial = Trial(program, folder, seed, index)
    try:
        return index, trial.go(), None
    except Exception as error:
        for name, content in trial.texts.items():
            with open(os.path.join(folder, f"failure-{index}.{name}"), "wb") as sink:
                sink.write(content)
        return index, trial.counts, f"{type(error).__name__}: {error}"
    finally:
        trial.stop()


def tell(counts, failures):
    """The counts, those of statements and of steps several in a row."""
    short = {}
    for name, number in sorted(counts.items()):
        kind, _, rest = name.partition(" ")
        if kind in ("statement", "step"):
            short.setdefault(kind, []).append(f"{rest} {number}")
        else:
            print(f"{number:9} {name}")
    for kind, each in short.items():
        print(f"of each {kind}: {', '.join(each)}")
    missing = [f"statement {name}" for name in KINDS if not counts[f"statement {name}"]]
    print(f"{failures:9} differences" + (f"; missing: {', '.join(missing)}" if missing else ""), flush=True)


def main():
    program, count, seed, folder, *more = sys.argv[1:]
    processes, first = (int(word) for word in (more + ["3", "0"][len(more) :]))
    jobs = ((program, folder, seed, index) for index in range(first, first + int(count)))
    counts, failures = collections.Counter(), 0
    with multiprocessing.Pool(processes, maxtasksperchild=200) as pool:
        for done, (index, one, failure) in enumerate(pool.imap_unordered(attempt, jobs, 4), 1):
            counts += one
            if failure:
                failures += 1
                print(f"model {index} of seed {seed}: {failure[:2000]}", flush=True)
            if done % 500 == 0:
                print(f"after {done} models: {counts['runs']} runs, {failures} differences", flush=True)
            if done % 2000 == 0:
                tell(counts, failures)
    print("in all:")
    tell(counts, failures)
    sys.exit(1 if failures else 0)


if __name__ == "__main__":
    main()
