"""Makes pseudo-Boolean files and times `bee opb` on them beside other solvers; `opb.sh` says how it is called."""
import os
import random
import resource
import shutil
import subprocess
import sys
import tempfile

MOST = int(os.environ.get("SECONDS_EACH", "60"))


def total(terms):
    return " ".join(f"{c:+d} {x}" for c, x in terms)


def spelled(objective, constraints):
    # other solvers want the numbers of variables and constraints in the first line
    names = {name.lstrip("~") for terms in [objective or [], *(it[0] for it in constraints)] for _, name in terms}
    lines = [f"* #variable= {max(int(name[1:]) for name in names)} #constraint= {len(constraints)}"]
    lines += [f"min: {total(objective)} ;"] if objective else []
    return "\n".join(lines + [f"{total(terms)} {relation} {bound} ;" for terms, relation, bound in constraints]) + "\n"


def edges_of(chance, nodes, degree):
    edges = set()
    while len(edges) < nodes * degree // 2:
        a, b = chance.sample(range(1, nodes + 1), 2)
        edges.add((min(a, b), max(a, b)))
    return sorted(edges)


def knapsack():
    for count in (20, 30, 40):
        chance = random.Random(count)
        things = [(chance.randint(5, 60), chance.randint(5, 60)) for _ in range(count)]
        weights = [(weight, f"x{i}") for i, (weight, _) in enumerate(things, 1)]
        uses = [(-use, f"x{i}") for i, (_, use) in enumerate(things, 1)]
        yield count, spelled(uses, [(weights, "<=", sum(w for w, _ in weights) // 2)])


def cover():
    for members in (40, 60, 80):
        chance = random.Random(members)
        sets = [(chance.randint(1, 9), set(chance.sample(range(members), chance.randint(3, 8)))) for _ in range(200)]
        sets[0] = (9, sets[0][1] | set(range(members)) - set().union(*(s for _, s in sets)))
        constraints = [([(1, f"x{i}") for i, (_, s) in enumerate(sets, 1) if m in s], ">=", 1) for m in range(members)]
        yield members, spelled([(price, f"x{i}") for i, (price, _) in enumerate(sets, 1)], constraints)


def vertices():
    for nodes in (60, 100, 140, 200):
        edges = edges_of(random.Random(nodes), nodes, 4)
        constraints = [([(1, f"x{a}"), (1, f"x{b}")], ">=", 1) for a, b in edges]
        yield nodes, spelled([(1, f"x{i}") for i in range(1, nodes + 1)], constraints)


def colours():
    for nodes, count in ((30, 4), (60, 4), (90, 4)):
        edges = edges_of(random.Random(nodes), nodes, 5)
        named = lambda node, colour: f"x{(node - 1) * count + colour + 1}"
        constraints = [([(1, named(n, c)) for c in range(count)], "=", 1) for n in range(1, nodes + 1)]
        constraints += [([(1, named(a, c)), (1, named(b, c))], "<=", 1) for a, b in edges for c in range(count)]
        constraints += [([(1, named(n, c)) for n in range(1, nodes + 1)], "<=", -(-nodes // count)) for c in range(count)]
        yield nodes, spelled(None, constraints)


def pigeons():
    for holes in (7, 8, 9):
        named = lambda pigeon, hole: f"x{pigeon * holes + hole + 1}"
        constraints = [([(1, named(p, h)) for h in range(holes)], ">=", 1) for p in range(holes + 1)]
        constraints += [([(1, named(p, h)) for p in range(holes + 1)], "<=", 1) for h in range(holes)]
        yield holes, spelled(None, constraints)


FAMILIES = {f.__name__: f for f in (knapsack, cover, vertices, colours, pigeons)}


def timed(words, out):
    """What a call prints, its exit code, and its CPU seconds."""
    before = resource.getrusage(resource.RUSAGE_CHILDREN)
    try:
        with open(out, "wb") as file:
            code = subprocess.run(words, stdout=file, stderr=subprocess.STDOUT, timeout=MOST).returncode
    except subprocess.TimeoutExpired:
        code = None
    after = resource.getrusage(resource.RUSAGE_CHILDREN)
    with open(out, errors="replace") as file:
        text = file.read()
    return text, code, after.ru_utime + after.ru_stime - before.ru_utime - before.ru_stime


def told(text, code):
    """The verdict of an answer, or of another solver's lines."""
    if code is None:
        return f"over {MOST} s"
    lines = text.split("\n")
    if lines[0] == "bee 1":
        return lines[1]
    costs = [line[2:] for line in lines if line.startswith("o ")]
    status = next((line[2:] for line in lines if line.startswith("s ")), lines[0][:40])
    return f"{status} {costs[-1]}" if costs else status


def main(bee, *words):
    others = {"clasp": ["clasp", "--outf=1"], "minisat+": ["minisat+"]}
    with tempfile.TemporaryDirectory() as folder:
        file, model, answer, out = (f"{folder}/{name}" for name in ("file.opb", "model.bee", "answer", "out"))
        for name in words or FAMILIES:
            for size, text in FAMILIES[name]():
                with open(file, "w") as it:
                    it.write(text)
                timed([bee, "opbmodel", file], model)
                wrote, code, seconds = timed([bee, "opb", file], answer)
                print(f"{name} {size}: bee opb {seconds:.2f} s, {told(wrote, code)}, {os.path.getsize(answer)} bytes", end="")
                if code in (0, 8):
                    checked, _, seconds = timed([bee, "check", model, answer], out)
                    print(f"; check {seconds:.2f} s, {checked.strip()}", end="")
                for other, call in others.items():
                    if shutil.which(call[0]):
                        wrote, code, seconds = timed([*call, file], out)
                        print(f"; {other} {seconds:.2f} s, {told(wrote, code)}", end="")
                print(flush=True)


if __name__ == "__main__":
    main(*sys.argv[1:])
