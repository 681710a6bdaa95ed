"""Reads pseudo-Boolean files, as `docs/FORMATS.md` has them, with code of its own: what they say, the text of their
model, their first fault, and their best assignments by trying all. Makes small ones at random."""
import itertools
import re

HOLDS = {">=": lambda a, b: a >= b, "<=": lambda a, b: a <= b, "=": lambda a, b: a == b}
NAMES = {">=": "geq", "<=": "leq", "=": "eq"}


def tokens(text):
    """The words of a file whose lines that begin with `*` say nothing."""
    lines = [line for line in text.split("\n") if not line.startswith("*")]
    return " ".join(lines).replace(";", " ; ").split()


def terms(words):
    """A sum: pairs of a coefficient and a literal, which is its index and whether it is the variable itself."""
    return [(int(c), (int(re.sub(r"\D", "", l)), not l.startswith("~"))) for c, l in zip(words[::2], words[1::2])]


def read(text):
    """The objective, or none, and the constraints of a file."""
    objective, constraints, part = None, [], []
    for word in tokens(text):
        if word != ";":
            part.append(word)
            continue
        if part[0] == "min:":
            objective = terms(part[1:])
        else:
            constraints.append((terms(part[:-2]), part[-2], int(part[-1])))
        part = []
    return objective, constraints


def count_of(objective, constraints):
    """The greatest index of a file, and so the number of its variables."""
    sums = [objective or [], *(it for it, _, _ in constraints)]
    return max((index for it in sums for _, (index, _) in it), default=0)


def total(sought, values):
    return sum(c for c, (index, positive) in sought if values[index - 1] == positive)


def best(objective, constraints, count):
    """The assignments that satisfy a file, and the least cost where there is an objective."""
    every = itertools.product((False, True), repeat=count)
    found = {v for v in every if all(HOLDS[r](total(s, v), b) for s, r, b in constraints)}
    return found, None if objective is None else min((total(objective, v) for v in found), default=None)


def model(objective, constraints, count):
    """The text of a file's model."""
    def sides(sought):
        literals = ",".join(("" if positive else "-") + f"x{index}" for _, (index, positive) in sought)
        return f"[{','.join(str(c) for c, _ in sought)}],[{literals}]"

    lines = [f"new_bool(x{i})" for i in range(1, count + 1)]
    if objective is not None:
        low, high = sum(min(c, 0) for c, _ in objective), sum(max(c, 0) for c, _ in objective)
        lines += [f"new_int(o,{low},{high})", f"bool_array_pb_eq({sides(objective)},o)"]
    lines += [f"bool_array_pb_{NAMES[r]}({sides(s)},{b})" for s, r, b in constraints]
    return "\n".join(lines + ["solve satisfy" if objective is None else "solve minimize o"]) + "\n"


# Which tokens fit where, and what fits next: N a number, L a literal, R a comparison.
PLACES = {
    "begin": {"min:": "sought", "N": "literal", "R": "bound"},
    "sought": {"N": "sought literal", ";": "constraint"},
    "sought literal": {"L": "sought"},
    "constraint": {"N": "literal", "R": "bound"},
    "literal": {"L": "terms"},
    "terms": {"N": "literal", "R": "bound"},
    "bound": {"N": "end"},
    "end": {";": "constraint"},
}
KINDS = {"N": rb"[+-]?[0-9]+", "L": rb"~?x[1-9][0-9]*", "R": rb">=|<=|=", "min:": rb"min:", ";": rb";"}
MOST, GREATEST_INDEX = 1_073_741_824, 1_000_000


def places(text):
    """The tokens of a file with their lines."""
    for place, line in enumerate(text.split(b"\n"), 1):
        if not line.startswith(b"*"):
            yield from ((place, it) for it in re.findall(rb";|[^ \t\r;]+", line))


def fault(text):
    """The first fault of a file, as the program tells it, or none."""
    at, sums = "begin", [0, 0]
    for place, token in places(text):
        fits = [kind for kind in PLACES[at] if re.fullmatch(KINDS[kind], token)]
        if not fits:
            return f"line {place}: syntax"
        value = int(re.sub(rb"[~x]", b"", token)) if fits[0] in "NL" else 0
        if at == "sought" and fits[0] == "N":
            sums[value < 0] += abs(value)
        if abs(value) > (GREATEST_INDEX if fits[0] == "L" else MOST) or max(sums) > MOST:
            return f"line {place}: number"
        at = PLACES[at][fits[0]]
    last = text.count(b"\n") + 1
    return None if at in ("begin", "constraint") else f"line {last}: syntax"


def spelled(chance, sought):
    def number(c):
        return ("+" if c >= 0 and chance.random() < 0.7 else "") + str(c)

    return " ".join(f"{number(c)} {'' if positive else '~'}x{index}" for c, (index, positive) in sought)


def made(chance):
    """A file at random: negative coefficients, negated and repeated literals, sums without a term, all three
    comparisons, comments and gaps."""
    count = chance.randint(1, 7)

    def some():
        literals = [(chance.randint(1, count), chance.random() < 0.6) for _ in range(chance.choice((0, 1, 2, 3, 4, 6)))]
        return [(chance.randint(-6, 6), literal) for literal in literals]

    lines = ["* made at random"] if chance.random() < 0.5 else []
    if chance.random() < 0.6:
        lines.append(f"min: {spelled(chance, some())} ;")
    planted = [chance.random() < 0.5 for _ in range(count)]
    for _ in range(chance.randint(0, 4)):
        sought = some()
        bound = total(sought, planted) + chance.choice((0, 0, 0, 0, 1, -1, 3, -3))
        lines.append(f"{spelled(chance, sought)} {chance.choice(('>=', '<=', '='))} {bound}{chance.choice((' ;', ';'))}")
    if lines and lines[0][0] == "*":
        return "\n".join(lines)
    return chance.choice(("\n", "\n", " ", "\n*\n", "\r\n")).join(lines)
