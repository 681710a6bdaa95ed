"""Reads the texts of `docs/FORMATS.md` with code of its own: compiled texts, values of a solver, and answers to a model
of `small_models.py`, whose ledger lines `ledger_reading.py` takes."""
import re

from integers import Integer, is_true, opposite

MOST = 2**63


class Refused(Exception):
    """A text isn't valid: its first line that fails."""


def lines_of(text):
    """The lines that end with a line feed."""
    return text.split(b"\n")[:-1]


def number(word, low=-MOST, high=MOST - 1):
    """The number that a word tells as it has to, in a range; or none."""
    if not re.fullmatch(rb"0|-?[1-9][0-9]*", word):
        return None
    told = int(word)
    return told if low <= told <= high else None


class Compiled:
    """A compiled text, with what each name stands for: an atom or an Integer."""

    def __init__(self, text):
        self.names, self.ledger, self.clauses, self.vars = {}, [], [], 0
        for line in lines_of(text):
            words = line.decode().split(" ")
            if words[:2] == ["c", "bool"]:
                self.names[words[2]] = self.atom(words[3])
            elif words[:2] == ["c", "int"]:
                steps = [word.rsplit(":", 1) for word in words[4:]]
                self.names[words[2]] = Integer(int(words[3]), tuple((self.atom(a), int(w)) for a, w in steps))
            elif words[:2] == ["c", "led"]:
                self.ledger.append(line[len(b"c led ") :])
            elif words[0] == "p":
                self.vars = int(words[2])
            elif words[0] != "c":
                self.clauses.append([int(word) for word in words[:-1]])

    @staticmethod
    def atom(word):
        return word if word in ("T", "F") else int(word)

    def told(self, true):
        """What each name has where these literals are true."""
        for name, entry in self.names.items():
            yield name, entry.value(true) if isinstance(entry, Integer) else is_true(entry, true)


class Proof:
    """How far a derivation has come."""

    def __init__(self, variables, clauses):
        self.vars, self.last, self.additions = variables, len(clauses), 0
        self.live = {n + 1: c for n, c in enumerate(clauses)}
        self.known = {frozenset(c) for c in clauses}

    def take(self, line):
        """Takes a line, or tells that it is none."""
        words = line.split(b" ")
        if words[1:2] == [b"d"]:
            return words[-1] == b"0" and number(words[0], 0, 2**64 - 1) is not None and self.delete(words[2:-1])
        numbers = [number(word) for word in words[1:]]
        if None in numbers or numbers[-1:] != [0] or numbers.count(0) != 2:
            return False
        middle = numbers.index(0)
        return self.add(number(words[0], 1, 2**64 - 1), numbers[:middle], numbers[middle + 1 : -1])

    def delete(self, words):
        ids = [number(word, 1, 2**64 - 1) for word in words]
        return None not in ids and all(self.live.pop(i, None) is not None for i in ids)

    def add(self, name, literals, hints):
        variables = {abs(l) for l in literals}
        if name is None or name <= self.last:
            return False
        if len(variables) < len(literals) or not all(1 <= v <= self.vars for v in variables):
            return False
        if not self.follows(literals, hints):
            return False
        self.live[name], self.last = literals, name
        self.known.add(frozenset(literals))
        self.additions += 1
        return True

    def follows(self, literals, hints):
        true = {-l for l in literals}
        for place, hint in enumerate(hints):
            if hint not in self.live:
                return False
            left = [l for l in self.live[hint] if -l not in true]
            if place == len(hints) - 1:
                return not left
            if len(left) != 1 or left[0] in true:
                return False
            true.add(left[0])
        return False

    def shows(self, atom):
        return atom == "T" or frozenset() in self.known or (atom != "F" and frozenset([atom]) in self.known)


class Lines:
    """Takes the lines of a text of a model, one after another. Raises Refused with the first one that fails."""

    def __init__(self, model, text):
        self.model = model
        self.rest = text.split(b"\n")
        self.tail = self.rest.pop()
        self.rest.reverse()
        self.place = 0

    def next(self):
        self.place += 1
        if not self.rest:
            raise Refused(self.place)
        return self.rest.pop()

    def want(self, holds):
        if not holds:
            raise Refused(self.place)

    def want_end(self, line):
        """The line is the last one, and nothing stands behind it."""
        self.want(line == b"end")
        if self.rest or self.tail:
            raise Refused(self.place + 1)

    def value(self, line, name):
        """The value of a name that a line tells, one of its domain; or none."""
        values, words = self.model.domains[name], line.split(b" = ")
        if len(words) != 2 or words[0] != name.encode():
            return None
        told = {b"false": False, b"true": True}.get(words[1]) if isinstance(values[0], bool) else number(words[1])
        return told if told in values else None

    def solution(self, line):
        """The values of all names from this line on, and the line behind them."""
        env = {}
        for name in self.model.domains:
            env[name] = self.value(line, name)
            self.want(env[name] is not None)
            line = self.next()
        return env, line

    def ledger(self, line, steps):
        """Makes the steps of a ledger that begins with this line."""
        self.want(line == b"ledger")
        line = self.next()
        while line != b"proof":
            self.want(steps.apply(line))
            line = self.next()

    def derivation(self, proof):
        """Takes the lines of a derivation, and gives the one behind it."""
        line = self.next()
        while proof.take(line):
            line = self.next()
        return line


class Answer(Lines):
    """Reads an answer, line by line. `verdict` gives the words of its verdict, and raises Refused with the first line
    that fails."""

    def __init__(self, model, steps, text):
        super().__init__(model, text)
        self.steps = steps

    def verdict(self):
        goals = len(self.model.objectives)
        self.want(self.next() == (b"bee 2" if goals == 2 else b"bee 1"))
        words = self.next().split(b" ")
        kind, numbers = words[0], words[1:]
        self.want(kind in (b"SATISFIABLE", b"UNSATISFIABLE", b"OPTIMUM", b"UNKNOWN"))
        bounds, spent = None, None
        if kind == b"OPTIMUM":
            bounds = self.bounds(numbers)
        elif kind == b"UNKNOWN":
            self.want(len(numbers) == 1)
            spent = number(numbers[0], 1, MOST - 1)
            self.want(spent is not None)
        else:
            self.want(not numbers and (kind == b"UNSATISFIABLE" or not goals))
        line = self.next()
        if kind == b"UNKNOWN" and line.startswith(b"best "):
            bounds = self.bounds(line.split(b" ")[1:])
            line = self.next()
        if kind == b"SATISFIABLE" or bounds is not None:
            line = self.best(line, bounds)
        if kind != b"SATISFIABLE":
            line = self.certificate(line, kind, bounds, spent)
        self.want_end(line)
        return " ".join(word.decode() for word in words)

    def bounds(self, words):
        numbers = [number(word) for word in words]
        self.want(None not in numbers and numbers and len(numbers) == len(self.model.objectives))
        return numbers

    def best(self, line, bounds):
        """A solution whose objectives have these values, where there are some."""
        env, line = self.solution(line)
        self.want(self.model.holds(env))
        self.want(bounds is None or [env[name] for name in self.model.objectives] == bounds)
        return line

    def certificate(self, line, kind, bounds, spent):
        self.ledger(line, self.steps)
        variables, clauses = self.steps.cnf()
        proof = Proof(variables, clauses)
        line = self.derivation(proof)
        additions = proof.additions
        if line == b"second":
            self.want(bounds is not None and len(bounds) == 2 and proof.shows(self.bound(0, bounds)))
            more = {"T": [], "F": [[]]}.get(self.settled(bounds[0]), [[self.settled(bounds[0])]])
            proof = Proof(variables, clauses + more)
            line = self.derivation(proof)
            additions += proof.additions
        elif kind == b"OPTIMUM":
            self.want(len(bounds) == 1)
        if kind == b"UNSATISFIABLE":
            self.want(proof.shows("F"))
        elif kind == b"UNKNOWN":
            self.want(additions == spent)
        else:
            self.want(proof.shows(self.bound(len(bounds) - 1, bounds)))
        return line

    def bound(self, place, bounds):
        """The atom that says that an objective is no better."""
        entry = self.steps.entry(self.model.objectives[place])
        return opposite(entry.at(bounds[place] + 1)) if self.model.direction == "maximize" else entry.at(bounds[place])

    def settled(self, bound):
        entry = self.steps.entry(self.model.objectives[0])
        return entry.at(bound) if self.model.direction == "maximize" else opposite(entry.at(bound + 1))


def values(compiled, text):
    """The true literals that the text of a solver's values tells. Raises Refused with the first line that fails."""
    lines, true, solved, done, place = lines_of(text), set(), False, False, 0
    for place, line in enumerate(lines, 1):
        words = re.split(rb"[ \t\r]+", line)
        words = [word for word in words if word]
        if not words or words[0] == b"c":
            continue
        if done or (words != [b"s", b"SATISFIABLE"] if not solved else words[0] != b"v"):
            raise Refused(place)
        if not solved:
            solved = True
            continue
        for word in words[1:]:
            literal = number(word)
            if done or literal is None or abs(literal) > compiled.vars or literal in true or -literal in true:
                raise Refused(place)
            if literal:
                true.add(literal)
                continue
            done = True
            if len(true) < compiled.vars or not all(any(l in true for l in clause) for clause in compiled.clauses):
                raise Refused(place)
    if not done or not text.endswith(b"\n"):
        raise Refused(place + 1)
    return true
