"""Texts that the program does not write: lists and cores behind ledgers of any steps, with refutations of a plain
search, and such as were given up."""
from conflict_reading import only
from ledger_reading import Compilation, Steps

# So many clauses a refutation has, at most.
MOST = 2000


class Refutation:
    """A search by cases, whose refuted cases are the lines of a proof."""

    def __init__(self, variables, clauses):
        self.variables, self.clauses = variables, dict(enumerate(clauses, 1))
        self.last, self.lines = len(clauses), []

    def conflict(self, case):
        """The ids of clauses that are unit in turn, and of one that is false then; a literal where none is."""
        true, hints = set(case), []
        while True:
            for number, clause in self.clauses.items():
                left = {l for l in clause if -l not in true}
                if not left:
                    return [*hints, number], None
                if len(left) == 1 and not left & true:
                    hints.append(number)
                    true |= left
                    break
            else:
                open_ones = [l for c in self.clauses.values() if not set(c) & true for l in c if -l not in true]
                return None, (open_ones[0] if open_ones else None)

    def refute(self, case):
        """The id of the clause that excludes a case; none where something satisfies the clauses in it."""
        hints, literal = self.conflict(case)
        if hints is None:
            if literal is None or len(self.lines) > MOST:
                return None
            for side in (literal, -literal):
                if self.refute([*case, side]) is None:
                    return None
            return self.refute(case)
        self.last += 1
        self.clauses[self.last] = [-l for l in case]
        self.lines.append(" ".join(map(str, [self.last, *self.clauses[self.last], 0, *hints, 0])))
        return self.last

    def proof(self):
        """The lines that end in the empty clause; none where there is no such proof, or a long one alone."""
        return self.lines if [] in self.clauses.values() or self.refute([]) is not None else None


def repeated(chance, variables, clauses):
    """A proof that is given up: clauses again, and some with a literal more."""
    lines = []
    for name in range(len(clauses) + 1, len(clauses) + chance.randint(1, 4) + 1):
        hint = chance.randrange(len(clauses))
        missing = sorted(set(range(1, variables + 1)) - set(map(abs, clauses[hint])))
        more = [chance.choice((v, -v)) for v in chance.sample(missing, min(chance.choice((0, 1)), len(missing)))]
        lines.append(" ".join(map(str, [name, *clauses[hint], *more, 0, hint + 1, 0])))
    return lines


def value_lines(model, values):
    shown = {True: "true", False: "false"}
    return [f"{name} = {shown[v] if isinstance(v, bool) else v}" for name, v in zip(model.domains, values)]


def joined(lines):
    return "\n".join([*lines, ""]).encode()


def list_text(chance, compilation, model, solutions, ledger):
    """A valid list: ALL where the clauses of the ledger and the blocks of all solutions have a short refutation, and
    else PARTIAL with some of them. None where there is no clause."""
    steps, listed = Steps(compilation), chance.sample(solutions, len(solutions))
    for line in ledger:
        steps.apply(line)
    variables, clauses = steps.cnf()
    proof = Refutation(variables, clauses + [steps.block(it) for it in listed]).proof()
    verdict = f"ALL {len(listed)}"
    if proof is None or chance.random() < 0.3:
        listed = listed[: chance.randint(0, len(listed))]
        clauses = clauses + [steps.block(it) for it in listed]
        if not clauses:
            return None
        proof = repeated(chance, variables, clauses)
        verdict = f"PARTIAL {len(listed)} {len(proof)}"
    told = [line for it in listed for line in ["solution", *value_lines(model, it)]]
    return joined(["bee all 1", verdict, *told, "ledger", *(it.decode() for it in ledger), "proof", *proof, "end"])


def conflict_text(chance, model, numbers, ledger, witnesses):
    """A valid text of a conflict, these statements of the model: CORE where the clauses of the ledger have a short
    refutation, and else UNKNOWN. None where there is no clause. Each statement has its witness, which is an assignment
    that meets the others."""
    steps = Steps(Compilation(only(model, numbers)))
    for line in ledger:
        steps.apply(line)
    variables, clauses = steps.cnf()
    proof = Refutation(variables, clauses).proof()
    behind = [line for n in numbers for line in [f"without {n}", *value_lines(model, witnesses[n])]]
    verdict = f"CORE {len(numbers)}"
    if proof is None:
        if not clauses:
            return None
        proof, behind = repeated(chance, variables, clauses), []
        verdict = f"UNKNOWN {len(proof)}"
    told = [f"statement {n}" for n in numbers]
    lines = ["ledger", *(it.decode() for it in ledger), "proof", *proof, *behind, "end"]
    return joined(["bee core 1", verdict, *told, *lines])
