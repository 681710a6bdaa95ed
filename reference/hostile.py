#!/usr/bin/env python3
"""Cuts and changes texts that the program reads behind a model or clauses: hostile.py [CHANGES [SEED [PROCESSES [KIND
..]]]], 10,000 changes of the texts of each kind by three processes of seed 1 without words. The texts are small ones
of each verdict, written by the program, or by another solver. Each is cut at every byte, and changed at places at
random: a byte, a line or a number, also several times. What the program says of it, `ACCEPTED` or the line that is
refused, is compared with the reading of this folder. The kinds:
  answer   `bee check` beside `answer_reading.py`
  list     `bee checkall` beside `list_reading.py`
  core     `bee checkcore` beside `conflict_reading.py`
  values   `bee decode` beside `answer_reading.py`
  drup     `bee drup` beside `drup_reading.py`
  found    `bee certify` beside `found_reading.py`
  wish     `bee resume` beside `wish_reading.py`, and its answer beside `answer_reading.py`
  opb      `bee opbmodel` beside `opb_reading.py`: the text of the model, or the line and the kind of the fault
BEE names another program that is tried. Wants python3, and cadical for `values`, `drup` and `found`."""
import multiprocessing, random, subprocess, sys, tempfile

from answer_reading import Answer, Compiled, Refused, values
from conflict_reading import ConflictText
from drup_reading import drup
from fuzz_changes import CHANGES
from found_reading import found
from ledger_reading import Compilation, Steps
from list_reading import ListText
from model_reading import model_of
from opb_reading import count_of, fault, model, read
from trials import program
from wish_reading import wished

PIGEONS = "".join(f"new_int(p{i},1,3)\n" for i in range(4)) + "int_array_allDiff([p0,p1,p2,p3])\nsolve satisfy\n"
TASKS = "new_int(first,1,3)\nnew_int(second,1,3)\nint_lt(first,second)\nsolve minimize second\n"
TWO = "new_int(x,0,4)\nnew_int(y,-2,2)\nint_plus(x,y,2)\nint_neq(x,1)\nsolve maximize x then y\n"
THREE = "new_bool(a)\nnew_bool(b)\nnew_bool(c)\n"
WORTH = "bool_array_pb_leq([3,4,5],[a,b,c],8)\nbool_array_pb_eq([3,4,5],[a,b,c],u)\n"
KNAPSACK = f"{THREE}new_int(u,0,12)\n{WORTH}solve maximize u\n"
LISTED = "new_int(x,[-3,0,7])\nnew_bool(b)\nbool2int(b,i)\nint_array_lin_neq([2,1],[x,i],0)\nsolve satisfy\n"
BROKEN = "new_int(x,1,3)\nnew_bool(b)\nint_gt(x,1)\nint_lt(x,3)\nint_neq(x,2)\nbool_array_or([b,-b])\nsolve satisfy\n"
CLAUSES = THREE + "".join(
    f"bool_array_or([{x}a,{y}b,{z}c])\n" for x in ("", "-") for y in ("", "-") for z in ("", "-")
) + "solve satisfy\n"
EMPTY = "solve satisfy\n"
CADICAL = ("cadical", "-q", "--plain", "--no-binary")
FILES = (
    "* two of three\nmin: +3 x1 +2 x2 -4 ~x3 ;\n+1 x1 +1 x2 +1 ~x3 >= 2 ;\n+1 x1 +1 x3 <= 1 ;\n",
    "+2 x1 -3 ~x2 +2 x1 = 1;\r\n* none\n>= 0 ;\n= -03 ;",
    "",
)
MODELS = (PIGEONS, TASKS, TWO, KNAPSACK, LISTED, BROKEN, CLAUSES, EMPTY)


class Bases:
    """The texts that are cut and changed."""

    def __init__(self, program, folder):
        self.program, self.folder, self.count = program, folder, 0

    def path(self, text):
        self.count += 1
        path = f"{self.folder}/text{self.count}"
        with open(path, "wb") as sink:
            sink.write(text)
        return path

    def run(self, *words):
        return subprocess.run([self.program, *words], capture_output=True, check=False).stdout

    def written(self, mode):
        """What a mode writes of each model, with a large budget and with one clause."""
        for text in MODELS:
            path = self.path(text.encode())
            for told in dict.fromkeys((self.run(mode, path), self.run(mode, path, "--budget", "1"))):
                yield text, path, told

    def answer(self):
        return self.written("solve")

    def wish(self):
        return self.written("solve")

    def list(self):
        return self.written("all")

    def core(self):
        return self.written("core")

    def solved(self):
        """The clauses of each model, what cadical writes of them, and its refutation, if there is one."""
        for text in MODELS:
            cnf = self.run("compile", self.path(text.encode()))
            path, proof = self.path(cnf), f"{self.folder}/proof"
            told = subprocess.run([*CADICAL, path, proof], capture_output=True, check=False)
            yield text, cnf, path, told.stdout, open(proof, "rb").read() if told.returncode == 20 else None

    def opb(self):
        return [(None, None, text.encode()) for text in FILES]

    def values(self):
        return [(cnf, path, told) for _, cnf, path, told, proof in self.solved() if proof is None]

    def drup(self):
        return [(cnf, path, proof) for _, cnf, path, _, proof in self.solved() if proof is not None]

    def found(self):
        """Values alone, a refutation alone, and of one objective the values of `bee solve` and a refutation of better
        ones."""
        for text, cnf, _, told, proof in self.solved():
            if "then" not in text and "minimize" not in text and "maximize" not in text:
                yield (text, cnf), self.path(text.encode()), told if proof is None else proof
            elif "then" not in text:
                yield (text, cnf), self.path(text.encode()), self.best(text, cnf, told)

    def best(self, text, cnf, told):
        """Values that are best, and the refutation of better ones."""
        model, compiled, path = model_of(text), Compiled(cnf), self.path(text.encode())
        while True:
            value = compiled.names[model.objectives[0]].value(values(compiled, told))
            asked, proof = self.path(self.run("bound", path, "--", str(value))), f"{self.folder}/proof"
            ran = subprocess.run([*CADICAL, asked, proof], capture_output=True, check=False)
            if ran.returncode == 20:
                return told + open(proof, "rb").read()
            told = ran.stdout


def said(reading):
    """What a reading says: its words, or the first line that fails."""
    try:
        told = reading()
        return "ACCEPTED" if told is None else told
    except Refused as refused:
        return f"REFUSED {refused.args[0]}"


class Kept:
    """What is made of a model once."""

    def __init__(self, kind, source):
        self.kind = kind
        if kind == "opb":
            return
        if kind in ("values", "drup"):
            self.compiled = Compiled(source)
            return
        if kind == "found":
            source, compiled = source
            self.compiled = Compiled(compiled)
        self.model = model_of(source)
        self.compilation = Compilation(self.model)

    def said(self, text):
        return said(lambda: getattr(self, self.kind)(text))

    def answer(self, text):
        return "ACCEPTED " + Answer(self.model, Steps(self.compilation), text).verdict()

    def list(self, text):
        return "ACCEPTED " + ListText(self.model, Steps(self.compilation), text).verdict()

    def core(self, text):
        return "ACCEPTED " + ConflictText(self.model, text).verdict()

    def values(self, text):
        values(self.compiled, text)

    def drup(self, text):
        drup(self.compiled.vars, self.compiled.clauses, text)

    def found(self, text):
        return "ACCEPTED " + found(self.model, self.compiled, text)

    def wish(self, text):
        wished(self.model, text)

    def opb(self, text):
        told = fault(text)
        if told is not None:
            return f"REFUSED: bee: model: {told}"
        objective, constraints = read(text.decode("latin-1"))
        return model(objective, constraints, count_of(objective, constraints))

    def told(self, ran):
        """What the program said: the document of `certify` by its verdict, as the reading has it."""
        if self.kind == "opb":
            return ran.stdout.decode() if ran.returncode == 0 else f"REFUSED: {ran.stderr.decode().strip()}"
        if ran.returncode == 0 and self.kind == "found":
            return self.answer(ran.stdout)
        if ran.returncode == 0 and self.kind == "wish":
            return self.answer(ran.stdout).split(" ")[0]
        if ran.returncode == 0 and self.kind == "values":
            return "ACCEPTED"
        return ran.stdout.decode().split("\n")[0]


MODES = {
    "answer": "check",
    "list": "checkall",
    "core": "checkcore",
    "values": "decode",
    "drup": "drup",
    "found": "certify",
    "wish": "resume",
    "opb": "opbmodel",
}


def compared(job):
    """Texts beside what they are made of: how many were accepted and refused, and the first one of which two things are
    said."""
    program, kind, source, path, texts = job
    kept, counts = Kept(kind, source), [0, 0]
    with tempfile.NamedTemporaryFile() as second:
        for text in texts:
            wanted = kept.said(text)
            second.seek(0)
            second.truncate()
            second.write(text)
            second.flush()
            words = [program, MODES[kind], *[path] * (path is not None), second.name]
            ran = subprocess.run(words, capture_output=True, timeout=600, check=False)
            told, code = kept.told(ran), 3 if kind == "opb" else 1
            if told != wanted or ran.returncode != code * wanted.startswith("REFUSED"):
                return counts, f"{kind}, of {source!r}: {text!r}: {told!r} with {ran.returncode}, wanted {wanted!r}"
            counts[wanted.startswith("REFUSED")] += 1
    return counts, None


def changed(chance, text):
    """A text with a change, or a few."""
    for _ in range(chance.choice((1, 1, 1, 2, 4))):
        text = chance.choice(CHANGES)(chance, text + b"\n" * (b"\n" not in text))
    return text


def jobs(program, kind, bases, times, chance):
    """Some texts a job: the text itself, its cuts, and as many changes as fall to it."""
    texts = list(getattr(bases, kind)())
    for source, path, text in texts:
        tried = [text[:n] for n in range(len(text) + 1)]
        tried += [changed(chance, text) for _ in range(times // len(texts) + 1)]
        for at in range(0, len(tried), 200):
            yield program, kind, source, path, tried[at : at + 200]


def main():
    words = sys.argv[1:]
    times, seed, processes = (int(it) for it in words[:3] + ["10000", "1", "3"][len(words[:3]) :])
    failed, where = 0, program()
    with tempfile.TemporaryDirectory() as folder, multiprocessing.Pool(processes) as pool:
        for kind in words[3:] or MODES:
            counts = [0, 0]
            every = list(jobs(where, kind, Bases(where, folder), times, random.Random(f"{seed}:{kind}")))
            for one, failure in pool.imap_unordered(compared, every):
                counts = [a + b for a, b in zip(counts, one)]
                if failure:
                    failed += 1
                    print(failure[:3000], flush=True)
            print(f"{kind}: {counts[0]} texts accepted, {counts[1]} refused at the line of the reading", flush=True)
    print(f"{failed} differences")
    sys.exit(1 if failed else 0)


if __name__ == "__main__":
    main()
