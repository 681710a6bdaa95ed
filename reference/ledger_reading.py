"""Lowers a model of `small_models.py`, and makes the steps of ledger lines, as `docs/CORES.md` has both, with code of
its own."""
import re, typing

from clause_reading import clauses, in_order
from core_reading import resolved, trimmed
from integers import Integer, boolean, fresh, opposite
from part_reading import Parts, is_basic, sums
from rule_reading import is_instance
from small_models import is_numeral

# The relation of a comparison: whether r is negated, the form, and whether its sides are exchanged.
COMPARISONS = {
    "leq": (False, "LeqR", False),
    "geq": (False, "LeqR", True),
    "lt": (True, "LeqR", True),
    "gt": (True, "LeqR", False),
    "eq": (False, "EqR", False),
    "neq": (True, "EqR", False),
}


def comparison(relation, r, i, j):
    negated, form, exchanged = COMPARISONS[relation]
    return (form, opposite(r) if negated else r, *((j, i) if exchanged else (i, j)))


class Lowering:
    """The variables and the cores of a model, and what each name stands for."""

    def __init__(self, model):
        self.variables, self.cores, self.names = 0, [], {}
        for name, args in model.items:
            self.lower(name, args)

    def add(self, *core):
        self.cores.append(core)

    def atom(self):
        self.variables += 1
        return self.variables

    def integer(self, values):
        made = fresh(values, self.variables + 1)
        self.variables += len(made.steps)
        return made

    def truth(self, term):
        """The atom of a Boolean term."""
        if term in ("true", "false"):
            return "T" if term == "true" else "F"
        return opposite(self.names[term[1:]]) if term[0] == "-" else self.names[term]

    def truths(self, terms):
        return tuple(map(self.truth, terms))

    def number(self, term):
        """The integer of an integer term."""
        return Integer(int(term)) if is_numeral(term) else self.names[term]

    def numbers(self, terms):
        return tuple(map(self.number, terms))

    def lower(self, name, args):
        if name == "new_bool":
            self.names[args[0]] = self.atom()
        elif name == "new_int":
            listed = isinstance(args[1], list)
            values = sorted(set(map(int, args[1]))) if listed else range(int(args[1]), int(args[2]) + 1)
            self.names[args[0]] = self.integer(values)
            self.add("Ladder", self.names[args[0]])
        elif name == "bool2int":
            self.bool2int(*args)
        elif name == "bool_eq":
            self.add("Parity", self.truths(args), False)
        elif m := re.fullmatch("bool_(?:array_)?(or|and|xor|iff)(_reif)?", name):
            *lists, z = args if m[2] else [*args, "true"]
            xs = lists[0] if isinstance(lists[0], list) else lists
            self.join(m[1], bool(m[2]), self.truths(xs), self.truth(z))
        elif m := re.fullmatch("int_(leq|geq|eq|lt|gt|neq)(_reif)?", name):
            self.add(*comparison(m[1], self.truth(args[2]) if m[2] else "T", *self.numbers(args[:2])))
        elif m := re.fullmatch("bool_array_sum_(.*)", name):
            self.count(m[1], self.truths(args[0]), self.number(args[1]))
        elif m := re.fullmatch("bool_array_pb_(.*)", name):
            self.sum(m[1], args[0], map(boolean, self.truths(args[1])), self.number(args[2]))
        elif m := re.fullmatch("int_array_lin_(.*)", name):
            self.sum(m[1], args[0], self.numbers(args[1]), self.number(args[2]))
        elif m := re.fullmatch("int_array_(?:sum_(.*)|plus)", name):
            self.sum(m[1] or "eq", [1] * len(args[0]), self.numbers(args[0]), self.number(args[1]))
        elif "Diff" in name:
            if name.endswith("_reif"):
                self.differ(*args)
            else:
                self.add("AllDiff", self.numbers(args[0]), self.conditions(*args))
        elif m := re.fullmatch("(bool|int)_arrays_lex(Lt)?(_reif)?", name):
            read = (lambda side: tuple(map(boolean, self.truths(side)))) if m[1] == "bool" else self.numbers
            front, back = (read(side) for side in args[:2])
            self.add("Lex", self.truth(args[2]) if m[3] else "T", bool(m[2]), front, back)
        else:
            self.arithmetic(name, args)

    def bool2int(self, x, i):
        if i in self.names:
            self.add("EqR", "T", self.number(i), boolean(self.truth(x)))
        else:
            self.names[i] = boolean(self.truth(x))

    def join(self, kind, told, xs, z):
        """What a list of Booleans comes to, told by another one."""
        denied = tuple(map(opposite, xs))
        if kind == "or":
            self.add("Conj", opposite(z), denied) if told else self.add("Clause", xs)
        elif kind == "and":
            self.add("Conj", z, xs)
        elif kind == "xor":
            self.add("Parity", (*xs, z), False) if told else self.add("Parity", xs, True)
        elif told:
            a, b = self.atom(), self.atom()
            self.add("Conj", a, xs)
            self.add("Conj", b, denied)
            self.add("Conj", opposite(z), (-a, -b))
        else:
            for x in xs[1:]:
                self.add("Parity", (xs[0], x), False)

    def count(self, relation, xs, i):
        if relation == "eq":
            self.add("Count", xs, i)
            return
        z = self.integer(range(len(xs) + 1))
        self.add("Count", xs, z)
        self.add(*comparison(relation, "T", z, i))

    def sum(self, relation, factors, ints, i):
        summands = [a.multiple(int(factor)) for factor, a in zip(factors, ints)] + [i.negated()]
        k = sum(a.base for a in summands if not a.steps)
        queue = [a for a in summands if a.steps]
        if relation == "eq":
            self.add("Sum", tuple(queue), -k)
            return
        while len(queue) > 2:
            a, b = queue[:2]
            z = self.integer(sums(a, b))
            self.add("Sum3", a, b, z)
            queue = queue[2:] + [z]
        x, y = queue + [Integer(0)] * (2 - len(queue))
        self.add(*comparison(relation, "T", x.shifted(k), y.negated()))

    def conditions(self, terms, xs=None):
        return ("T",) * len(terms) if xs is None else self.truths(xs)

    def differ(self, terms, z):
        """Whether all differ."""
        ints = self.numbers(terms)
        equal = []
        for j, b in enumerate(ints):
            for a in ints[j + 1 :]:
                equal.append(self.atom())
                self.add("EqR", equal[-1], b, a)
        self.add("Conj", self.truth(z), tuple(-e for e in equal))

    def arithmetic(self, name, args):
        if name == "int_abs":
            i, j = self.numbers(args)
            self.add("Max", (i, i.negated()), j)
            return
        ints, k = (args[0] if isinstance(args[0], list) else args[:-1]), self.number(args[-1])
        ints, kind = self.numbers(ints), name.split("_")[-1]
        if kind == "plus":
            self.add("Sum3", *ints, k)
        elif kind == "times":
            self.add("Prod", *ints, k)
        elif kind == "div":
            i, j = ints
            self.add("DivMod", i, j, k, self.integer(range(min(i.high, j.high - 1) + 1)))
        elif kind == "mod":
            i, j = ints
            self.add("DivMod", i, j, self.integer(range(i.high // j.low + 1)), k)
        elif kind == "max":
            self.add("Max", ints, k)
        elif kind == "min":
            self.add("Max", tuple(a.negated() for a in ints), k.negated())
        else:
            raise ValueError(name)


class Made(typing.NamedTuple):
    """Clauses behind those that were made before."""

    before: typing.Optional["Made"]
    clauses: list


class State(typing.NamedTuple):
    """A state of a compilation: the label of each variable from 1 on, the pending cores by their ids, how many ids
    there are, clauses, and bottom."""

    labels: tuple
    pending: dict
    ids: int
    made: typing.Optional[Made]
    bottom: bool

    def label(self, atom):
        """An atom as the store has it."""
        if isinstance(atom, str):
            return atom
        told = self.labels[abs(atom) - 1]
        return told if atom > 0 else opposite(told)

    def core(self, number):
        """A pending core as the store has it."""
        return trimmed(resolved(self.pending[number], self.label))

    def equal(self, a, b):
        """The state behind an equation of two labels."""
        if a == opposite(b):
            return self._replace(bottom=True)
        if isinstance(a, str) or (not isinstance(b, str) and self.is_weaker(b, a)):
            a, b = b, a
        told = b if a > 0 else opposite(b)
        mine = abs(a)

        def after(label):
            return label if isinstance(label, str) or abs(label) != mine else told if label > 0 else opposite(told)

        return self._replace(labels=tuple(map(after, self.labels)))

    def is_weaker(self, a, b):
        """Whether it is the first one whose class takes the label of the other's."""
        mine, other = (sum(not isinstance(l, str) and abs(l) == abs(atom) for l in self.labels) for atom in (a, b))
        return mine < other or (mine == other and abs(a) > abs(b))

    def split(self, number):
        parts = Parts(self.core(number), len(self.labels))
        pending = {i: core for i, core in self.pending.items() if i != number}
        pending.update(enumerate(parts.made, self.ids + 1))
        labels = self.labels + tuple(range(len(self.labels) + 1, parts.variable + 1))
        return self._replace(labels=labels, pending=pending, ids=self.ids + len(parts.made))

    def encode(self, number):
        pending = {i: core for i, core in self.pending.items() if i != number}
        return self._replace(pending=pending, made=Made(self.made, clauses(self.core(number))))

    def step(self, line):
        """The state behind a ledger line; none where something stands against it."""
        words = line.split(b" ")
        name = (words[1:2] or [b""])[0]
        if self.bottom or not re.fullmatch(rb"[1-9][0-9]*", name) or int(name) not in self.pending:
            return None
        number = int(words[1])
        if words == [b"split", words[1]]:
            return None if is_basic(self.core(number)) else self.split(number)
        if words == [b"enc", words[1]]:
            return self.encode(number) if is_basic(self.core(number)) else None
        if len(words) != 5 or words[0] != b"eq" or words[2] not in (b"order", b"form", b"table"):
            return None
        a, b = map(atom_of, words[3:])
        return self.equal(a, b) if is_instance(words[2].decode(), self.core(number), a, b) else None

    def cnf(self):
        """The number of variables, and the clauses in order."""
        if self.bottom:
            return len(self.labels), [[]]
        groups, made = [], self.made
        while made:
            groups.append(made.clauses)
            made = made.before
        return len(self.labels), in_order([clause for group in reversed(groups) for clause in group], self.label)


def atom_of(word):
    """The atom that a word tells; none where it is none."""
    if word in (b"T", b"F"):
        return word.decode()
    return int(word) if re.fullmatch(rb"-?[1-9][0-9]*", word) else None


class Compilation:
    """The states that ledgers of one model lead to; those that were reached are kept."""

    def __init__(self, model):
        lowered = Lowering(model)
        pending = dict(enumerate(lowered.cores, 1))
        self.names = lowered.names
        self.first = State(tuple(range(1, lowered.variables + 1)), pending, len(pending), None, False)
        # The state stands beside what it leads to, so that its number stays its own.
        self.behind, self.told = {}, {}

    def step(self, state, line):
        """The state behind a ledger line; none where the line is no step."""
        key = (id(state), line)
        if key not in self.behind:
            self.behind[key] = (state, state.step(line))
        return self.behind[key][1]

    def cnf(self, state):
        """The number of variables, and the clauses in order."""
        if id(state) not in self.told:
            self.told[id(state)] = (state, state.cnf())
        return self.told[id(state)][1]


class Steps:
    """How far a ledger has come."""

    def __init__(self, compilation):
        self.compilation, self.state = compilation, compilation.first

    def apply(self, line):
        """Makes a step, or tells that the line is none."""
        behind = self.compilation.step(self.state, line)
        if behind is None:
            return False
        self.state = behind
        return True

    def cnf(self):
        return self.compilation.cnf(self.state)

    def entry(self, name):
        """What a name stands for in the last state: an atom or an integer."""
        entry = self.compilation.names[name]
        return entry.resolved(self.state.label).trimmed() if isinstance(entry, Integer) else self.state.label(entry)

    def block(self, values):
        """The clause, in order, that leaves out the assignment of these values and no other."""
        atoms = []
        for entry, value in zip(self.compilation.names.values(), values):
            if isinstance(entry, Integer):
                atoms += [opposite(entry.at(value)), entry.at(value + 1)]
            else:
                atoms.append(opposite(entry) if value else entry)
        return in_order([atoms], self.state.label)[0]
