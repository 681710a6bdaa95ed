#!/usr/bin/env python3
"""Compiles models in which names in the middle of a statement are bound, so that its core tells equations in runs:
bound_middle.py PROGRAM COUNT SEED FOLDER [PROCESSES [FIRST]]. What is tried stands in `bound_middle.sh`. Each failure
is told at once, and its model is kept in FOLDER."""
import collections, multiprocessing, os, random, subprocess, sys

sys.path.insert(0, os.path.dirname(os.path.abspath(__file__)))
from answer_reading import Compiled
from core_reading import meets, variables
from ledger_reading import Compilation
from rule_reading import MOST, stated
from small_models import KINDS, Model, word


class Difference(Exception):
    """The program says one thing, and the reading another."""


class BoundMaker:
    """Makes a model with one statement of a kind over names of its own, some of which other statements bind."""

    def __init__(self, chance, kind):
        self.chance, self.kind, self.model = chance, kind, Model()
        self.length = chance.randint(3, 9)
        self.args = [self.term(letter) for letter in KINDS[kind]]
        bindings = [binding for _ in range(chance.choice((1, 2, 2, 3))) for binding in self.binding()]
        cut = chance.choice((0, 0, len(bindings)))
        self.model.items += bindings[:cut] + [(kind, self.args)] + bindings[cut:]

    def declared(self, values):
        name = f"n{len(self.model.domains)}"
        self.model.domains[name] = values
        if isinstance(values[0], bool):
            self.model.items.append(("new_bool", [name]))
        elif values == list(range(values[0], values[-1] + 1)):
            self.model.items.append(("new_int", [name, str(values[0]), str(values[-1])]))
        else:
            self.model.items.append(("new_int", [name, [str(v) for v in values]]))
        return name

    def boolean(self):
        return self.chance.choice(("", "", "-")) + self.declared([False, True])

    def integer(self, least):
        low = max(least, self.chance.choice((0, 0, 0, 1, -2)))
        span = range(low, low + self.chance.randint(2, 8))
        if self.chance.random() < 0.2:
            span = sorted(self.chance.sample(span, max(2, len(span) - 2)))
        return self.declared(list(span))

    def term(self, letter):
        """A term, or a list of as many as were chosen."""
        if letter == "X":
            return self.boolean()
        if letter in "IDE":
            return self.integer({"I": -2, "D": 0, "E": 1}[letter])
        if letter == "c":
            return [str(self.chance.choice((1, 1, 2, 3, -1, -2))) for _ in range(self.length)]
        return [self.boolean() if letter == "x" else self.integer(-2) for _ in range(self.length)]

    def middle(self):
        """A name in the middle of an argument, or the argument itself."""
        named = [arg for arg in self.args if not isinstance(arg, list) or not arg[0].lstrip("-").isdigit()]
        arg = self.chance.choice(named)
        if isinstance(arg, list):
            arg = arg[min(max(round(self.chance.gauss(len(arg) / 2, 1)), 0), len(arg) - 1)]
        return arg.lstrip("-")

    def binding(self):
        """A statement that binds a name: to a value, at an end, or to another name."""
        name, other = self.middle(), self.middle()
        values = self.model.domains[name]
        if isinstance(values[0], bool):
            if name != other and isinstance(self.model.domains[other][0], bool) and self.chance.random() < 0.2:
                return [("bool_eq", [name, other])]
            return [("bool_eq", [name, self.chance.choice(("true", "false"))])]
        value = str(self.chance.choice([values[0], values[-1], self.chance.choice(values)]))
        if name != other and not isinstance(self.model.domains[other][0], bool) and self.chance.random() < 0.2:
            return [("int_eq", [name, other])]
        return [(self.chance.choice(("int_eq", "int_eq", "int_leq", "int_geq")), [name, value])]

    def text(self):
        return "".join(f"{name}({','.join(map(word, args))})\n" for name, args in self.model.items) + "solve satisfy\n"


def is_table_silent(core):
    """Whether a core of few variables implies no equation; it ends with the valuation that leaves none."""
    names = variables(core)
    if len(names) > MOST:
        return True
    told, all_true, digit = dict.fromkeys(names, 0), 0, 1
    for choice in range(2 ** len(names)):
        true = {v if choice >> place & 1 else -v for place, v in enumerate(names)}
        if meets(core, true):
            all_true |= digit
            for v in names:
                told[v] |= digit if v in true else 0
            digit <<= 1
            atoms = [all_true, *told.values()]
            if len({*atoms, *(all_true ^ each for each in atoms)}) == 2 * len(atoms):
                return True
    return False


def is_silent(core):
    """Whether no rule states an equation of a core."""
    return not stated("order", core) and not stated("form", core) and is_table_silent(core)


class Replay:
    """The states of a ledger, of which each is closed where a core is split or encoded, and at the end."""

    def __init__(self, model, counts):
        compilation = Compilation(model)
        self.state, self.counts, self.silent = compilation.first, counts, set()
        self.names, self.last, self.row = compilation.names, None, 0

    def want(self, holds, what):
        if not holds:
            raise Difference(what)

    def close(self, place):
        """Asks each pending core that was not asked since the last equation."""
        if self.state.bottom:
            return
        for number in self.state.pending:
            if number not in self.silent:
                core = self.state.core(number)
                self.want(is_silent(core), f"before line {place} core {number} tells more: {core}")
                self.silent.add(number)
        self.counts["closed states"] += 1

    def count(self, words, core):
        """An equation that follows another one of its core."""
        self.row = self.row + 1 if self.last == words[1] else 0
        self.last = words[1]
        self.counts["equations"] += 1
        if self.row:
            self.counts["equations behind another of their core"] += 1
            self.counts[f"behind another: {words[2]} {core[0]}"] += 1

    def step(self, place, line):
        words = line.decode().split(" ")
        if words[0] == "eq":
            self.count(words, self.state.pending[int(words[1])])
            self.silent.clear()
        else:
            self.last = None
            self.close(place)
        behind = self.state.step(line)
        self.want(behind is not None, f"line {place} of the ledger is no step: {line!r}")
        self.state = behind


def compiled(program, path):
    done = subprocess.run([program, "compile", path], stdin=subprocess.DEVNULL, capture_output=True, timeout=600)
    if done.returncode:
        raise Difference(f"compile ended with {done.returncode}: {done.stderr[-300:]!r}")
    return Compiled(done.stdout)


def attempt(job):
    program, folder, seed, index = job
    chance, kinds = random.Random(f"{seed}:{index}"), list(KINDS)
    made = BoundMaker(chance, kinds[index % len(kinds)])
    path = os.path.join(folder, f"{index}.bee")
    counts = collections.Counter(models=1)
    with open(path, "w") as sink:
        sink.write(made.text())
    try:
        text = compiled(program, path)
        replay = Replay(made.model, counts)
        for place, line in enumerate(text.ledger, 1):
            replay.step(place, line)
        replay.close(len(text.ledger) + 1)
        replay.want(replay.state.bottom or not replay.state.pending, "cores are left at the ledger's end")
        replay.want(replay.state.cnf() == (text.vars, text.clauses), "the ledger leads to other clauses")
        counts["contradictions"] += replay.state.bottom
        counts["lines"] += len(text.ledger)
        os.remove(path)
        return index, counts, None
    except Exception as error:
        return index, counts, f"{made.kind}: {type(error).__name__}: {error}"


def tell(counts, failures):
    for name, number in sorted(counts.items()):
        print(f"{number:9} {name}")
    print(f"{failures:9} differences", flush=True)


def main():
    program, count, seed, folder, *more = sys.argv[1:]
    processes, first = (int(word) for word in (more + ["3", "0"][len(more) :]))
    jobs = ((program, folder, seed, index) for index in range(first, first + int(count)))
    counts, failures = collections.Counter(), 0
    with multiprocessing.Pool(processes, maxtasksperchild=200) as pool:
        for done, (index, one, failure) in enumerate(pool.imap_unordered(attempt, jobs, 4), 1):
            counts += one
            if failure:
                failures += 1
                print(f"model {index} of seed {seed}: {failure[:2000]}", flush=True)
            if done % 500 == 0:
                print(f"after {done} models: {failures} differences", flush=True)
    tell(counts, failures)
    sys.exit(1 if failures else 0)


if __name__ == "__main__":
    main()
