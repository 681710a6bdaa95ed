#!/usr/bin/env python3
"""Runs the test files of other projects through the program: peers.py BEE FOLDER ..; each FOLDER is an unpacked source
tree, as `apt-get source cadical minisat+ clasp` leaves it. What is found below it:
  *.cnf    solved by `bee sat` and by cadical; values are tried on the clauses, a refutation goes through `bee drup`
           and, where it is there, drat-trim. Comment lines are left out first, since cadical's own ones are not
           always a word apart.
  *.trace  calls of cadical's interface; the clauses and assumptions of each call that solves become a CNF, as above
  *.opb    answered by `bee opb` and `bee check`, beside clasp's verdict; the older spelling `+1*v1` is made `+1 x1`
A line for each file where something differs or was stopped after SECONDS_EACH seconds (60), and the numbers of each
outcome. It ends with an error where a verdict or a proof differs. A text that the program refuses by its format counts
as refused, and is named."""
import collections, os, re, resource, shutil, subprocess, sys, tempfile

LIMIT = int(os.environ.get("SECONDS_EACH", "60"))
SAT, UNSAT, STOPPED, REFUSED, DIFFERS = "SATISFIABLE", "UNSATISFIABLE", "stopped", "refused", "differs"


def ran(words):
    """What is written, and the exit code."""
    limit = lambda: resource.setrlimit(resource.RLIMIT_CPU, (LIMIT, LIMIT))
    done = subprocess.run(words, stdin=subprocess.DEVNULL, capture_output=True, preexec_fn=limit)
    return done.stdout.decode(errors="replace"), done.returncode


def found_below(folder, ending):
    return sorted(os.path.join(at, name) for at, _, names in os.walk(folder) for name in names if name.endswith(ending))


def without_comments(path):
    with open(path, errors="replace") as text:
        return "".join(line for line in text if not line.startswith("c"))


def clauses_of(text):
    """The clauses of a CNF, as sets."""
    words = [word for line in text.split("\n") if not line.lstrip().startswith("p") for word in line.split()]
    clauses, literals = [], set()
    for word in words[:words.index("%")] if "%" in words else words:
        if word == "0":
            clauses.append(literals)
            literals = set()
        else:
            literals.add(int(word))
    return clauses


def respelled(path):
    """A pseudo-Boolean file without `*` between a number and a variable, with variables x1, x2 .., and the head that
    others want."""
    numbers = {}
    named = lambda found: f" {found[1]}x{numbers.setdefault(found[2], len(numbers) + 1)}"
    with open(path) as text:
        lines = [line for line in text if not line.startswith("*")]
    text = re.sub(r"\s*\*?\s*(~?)([A-Za-z]\w*)\b(?!:)", named, "".join(lines))
    return f"* #variable= {len(numbers)} #constraint= {text.count(';') - text.count('min:')}\n{text}"


def values_of(answer):
    return {int(word) for line in answer.split("\n") if line.startswith("v ") for word in line.split()[1:]}


class Peers:
    """A program, and a folder for what is written meanwhile."""

    def __init__(self, bee, room):
        self.bee, self.room = bee, room

    def kept(self, name, text):
        path = os.path.join(self.room, name)
        with open(path, "w") as out:
            out.write(text)
        return path

    def shown(self, cnf, text, answer):
        """The outcome where the verdicts agree: whether the answer's values, or its refutation, hold."""
        verdict, _, proof = answer.partition("\n")
        if verdict == f"s {SAT}":
            values = values_of(answer)
            return SAT if all(values & clause for clause in clauses_of(text)) else DIFFERS
        # DRUP lines: without ids and hints, deletions left out
        lines = [line.split() for line in proof.split("\n") if line and line.split()[1:2] != ["d"]]
        drup = self.kept("drup", "".join(" ".join(words[1:words.index("0") + 1]) + "\n" for words in lines) + "0\n")
        checks = [([self.bee, "drup", cnf, drup], "^ACCEPTED")]
        if shutil.which("drat-trim"):
            # it calls a CNF that holds the empty clause, or units that contradict, trivial
            checks.append((["drat-trim", cnf, drup, "-f"], "^s VERIFIED|trivial UNSAT"))
        for words, accepted in checks:
            said, code = ran(words)
            if not re.search(accepted, said, re.M):
                return STOPPED if code < 0 else DIFFERS
        return UNSAT

    def solved(self, text):
        """The outcome of a CNF."""
        cnf = self.kept("cnf", text)
        answer, code = ran([self.bee, "sat", cnf])
        other, beside = ran(["cadical", "-q", "-f", cnf])
        told = re.match(r"s (SATISFIABLE|UNSATISFIABLE)\n", answer)
        if code < 0 or beside < 0 or beside == 152:
            return STOPPED
        if not told:
            return REFUSED
        return self.shown(cnf, text, answer) if f"s {told[1]}" in other.split("\n") else DIFFERS

    def replayed(self, path):
        """The outcome of each call of a trace that solves."""
        clauses, assumed, open_clause = [], [], []
        with open(path) as text:
            for words in map(str.split, text):
                # the number of the call stands first
                call, given = words[1] if words[1:] else "", words[2:]
                if call == "add" and given != ["0"]:
                    open_clause.append(given[0])
                elif call == "add":
                    clauses.append(open_clause)
                    open_clause = []
                elif call == "assume":
                    assumed.append(given)
                elif call == "solve":
                    known = [*clauses, *assumed]
                    most = max((abs(int(it)) for clause in known for it in clause), default=0)
                    lines = "".join(" ".join([*clause, "0"]) + "\n" for clause in known)
                    yield self.solved(f"p cnf {most} {len(known)}\n{lines}")
                    assumed = []

    def answered(self, path):
        """The outcome of a pseudo-Boolean file."""
        path = self.kept("opb", respelled(path))
        answer, code = ran([self.bee, "opb", path])
        if code < 0 or code in (8, 152):
            return STOPPED
        if not answer:
            return REFUSED
        verdict = answer.split("\n")[1].split()[0]
        model = self.kept("model", ran([self.bee, "opbmodel", path])[0])
        checked = ran([self.bee, "check", model, self.kept("answer", answer)])[0]
        other = ran(["clasp", "--outf=1", path])[0] if shutil.which("clasp") else ""
        beside = re.search(r"^s (.*)$", other, re.M)
        agrees = not beside or beside[1].split()[0] == verdict or beside[1] == "UNKNOWN"
        return verdict if checked.startswith("ACCEPTED") and agrees else DIFFERS


def main(bee, *folders):
    is_well = True
    with tempfile.TemporaryDirectory() as room:
        peers = Peers(bee, room)
        for folder in folders:
            counted = collections.Counter()
            works = [(it, "cnf", lambda path: [peers.solved(without_comments(path))]) for it in found_below(folder, ".cnf")]
            works += [(it, "trace", peers.replayed) for it in found_below(folder, ".trace")]
            works += [(it, "opb", lambda path: [peers.answered(path)]) for it in found_below(folder, ".opb")]
            for path, kind, outcomes in works:
                for outcome in outcomes(path):
                    counted[kind, outcome] += 1
                    if outcome in (STOPPED, REFUSED, DIFFERS):
                        print(f"{os.path.relpath(path, folder)}: {outcome}", flush=True)
                    is_well = is_well and outcome != DIFFERS
            told = ", ".join(f"{kind} {outcome} {count}" for (kind, outcome), count in sorted(counted.items()))
            print(f"{os.path.basename(os.path.normpath(folder))}: {told or 'no files'}", flush=True)
    return 0 if is_well else 1


if __name__ == "__main__":
    sys.exit(main(*sys.argv[1:]))
