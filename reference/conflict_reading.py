"""Reads the text of a conflict, a part of a model's statements that no assignment meets, as `docs/FORMATS.md` has it, with
code of its own."""
from answer_reading import MOST, Lines, Proof, number
from ledger_reading import Compilation, Steps
from small_models import Model


def statement_numbers(model):
    """The numbers of the statements: items are counted from 1, declarations among them."""
    return [n for n, (name, _) in enumerate(model.items, 1) if name not in ("new_bool", "new_int")]


def declares(model, number):
    """Whether the item of a number is a `bool2int` whose integer no item before it declares."""
    name, args = model.items[number - 1]
    before = {it[0] for kind, it in model.items[: number - 1] if kind in ("new_bool", "new_int")}
    before |= {it[1] for kind, it in model.items[: number - 1] if kind == "bool2int"}
    return name == "bool2int" and args[1] not in before


def only(model, numbers):
    """The model with these statements alone: a `bool2int` outside of them that declares its integer leaves the
    declaration of an integer from 0 to 1."""
    part = Model()
    part.domains = model.domains
    for n, (name, args) in enumerate(model.items, 1):
        if name in ("new_bool", "new_int") or n in numbers:
            part.items.append((name, args))
        elif declares(model, n):
            part.items.append(("new_int", (args[1], "0", "1")))
    return part


class ConflictText(Lines):
    """Reads the text of a conflict, line by line. `verdict` gives the words of its verdict, and raises Refused with the
    first line that fails; `named` has the numbers of the statements that were named."""

    def __init__(self, model, text):
        super().__init__(model, text)
        self.named = []

    def verdict(self):
        self.want(self.next() == b"bee core 1")
        words = self.next().split(b" ")
        kind, count = words[0], self.count(words)
        if kind == b"SATISFIABLE":
            self.witness(self.model, self.next(), b"end")
            line = b"end"
        else:
            line = self.certificate(self.statements(self.next(), kind, count), kind, count)
            if kind == b"CORE":
                line = self.witnesses(line)
        self.want_end(line)
        return " ".join(word.decode() for word in words)

    def count(self, words):
        """The number that the verdict has."""
        least, most = {b"CORE": (0, 2**64 - 1), b"UNKNOWN": (1, MOST - 1)}.get(words[0], (None, None))
        if words == [b"SATISFIABLE"]:
            return None
        self.want(least is not None and len(words) == 2)
        count = number(words[1], least, most)
        self.want(count is not None)
        return count

    def statements(self, line, kind, count):
        """Takes the statements of the part, and gives the line behind them."""
        numbers, words = set(statement_numbers(self.model)), line.split(b" ")
        while words[0] == b"statement" and len(words) == 2:
            named = number(words[1], 1, 2**64 - 1)
            self.want(named in numbers and (not self.named or named > self.named[-1]))
            self.want(kind == b"UNKNOWN" or len(self.named) < count)
            self.named.append(named)
            line = self.next()
            words = line.split(b" ")
        self.want(kind == b"UNKNOWN" or len(self.named) == count)
        return line

    def certificate(self, line, kind, count):
        """Takes the ledger of the part and a derivation, and gives the line behind them."""
        steps = Steps(Compilation(only(self.model, self.named)))
        self.ledger(line, steps)
        proof = Proof(*steps.cnf())
        line = self.derivation(proof)
        self.want(proof.shows("F") if kind == b"CORE" else proof.additions == count)
        return line

    def witnesses(self, line):
        """Takes for each statement of the part an assignment that meets the others, and gives the line behind them."""
        for place, left_out in enumerate(self.named):
            self.want(line == b"without %d" % left_out)
            behind = self.named[place + 1 : place + 2]
            line = b"without %d" % behind[0] if behind else b"end"
            self.witness(only(self.model, set(self.named) - {left_out}), self.next(), line)
        return line

    def witness(self, model, line, behind):
        """Takes an assignment that meets all statements of a model, where this line stands behind it."""
        env, line = self.solution(line)
        self.want(model.holds(env) and line == behind)
