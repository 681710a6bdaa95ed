#!/usr/bin/env python3
"""Times the heaviest model of each statement: heaviest.py [KIND:SHAPE:FORM ..]; each part of a word may be a pattern as
`int_*`, or left out, and without words all are taken. A kind is a statement's name. A shape says what grows:
  copies  the number of statements, of Booleans, or of an integer that isn't a given one
  wide    the domains of the statement's integers; a list has two members
  long    the list, of Booleans or of integers of four values
A form says how:
  settled  over names of its own, so that no equation is told
  told     beside statements that bind the names one after another, so that each look tells an equation
  few      over four names
Each is made as large as the weight (67,108,864) and a text's length (16,777,216 bytes) let it be, by the numbers that
`bee weigh` tells, first of a sixty-fourth of the weight or of the length, then of an eighth, then whole (PARTS names
others: 64,8,1 without it). The first one that takes longer than SECONDS_EACH (600 without it) of CPU time ends its
row. A line for each: the size, bytes of the text, the weight in percent of the limit, and seconds of `compile` and of
`solve --budget 1`; `stopped` where they are too many. It ends with the rows that were stopped, and those whose whole
model would take more seconds than that by the growth of what was timed. BEE names another program that is timed. Wants
python3 and 8 GB of memory."""
import fnmatch, math, os, resource, subprocess, sys, tempfile

from models import joined

TOP = os.path.dirname(os.path.dirname(os.path.abspath(__file__)))
WEIGHT, BYTES = 67_108_864, 16_777_216
SECONDS = int(os.environ.get("SECONDS_EACH", "600"))
PARTS = [1 / int(it) for it in os.environ.get("PARTS", "64,8,1").split(",")]
MEMORY = 8 * 2**30
GOAL = "solve satisfy\n"
RELATIONS = ("leq", "geq", "eq", "lt", "gt", "neq")
JOINS = ("or", "and", "xor", "iff")
# A list of integers has this domain where it is long.
DIGITS = 4


def name(number):
    return f"v{number:x}"


def integers(names, low, high):
    return [f"new_int({it},{low},{high})" for it in names]


def booleans(names):
    return [f"new_bool({it})" for it in names]


def chained(names, is_true=True):
    """The first of these Booleans tells the next one, and so on; the first one is told last."""
    sign, other = ("-", "") if is_true else ("", "-")
    links = [f"bool_array_or([{sign}{a},{other}{b}])" for a, b in zip(names, names[1:])]
    return links + [f"bool_array_or([{other}{names[0]}])"]


def climbing(names, low, high):
    """Each of these integers is at least the one before, and the first one, told last, has the greatest value."""
    return [f"int_leq({a},{b})" for a, b in zip(names, names[1:])] + [f"int_geq({names[0]},{high})"]


def members(size, form):
    """The names that are declared, and the members of a list."""
    names = [name(n) for n in range(4 if form == "few" else size)]
    return names, [names[(n * n + n // 3) % len(names)] for n in range(size)] if form == "few" else names


# Of Booleans, one statement after another.


def copies(statement):
    """Statements over a Boolean, a next one, and a third one between them."""

    def make(size, form):
        names, listed = members(size + 1, form)
        yield from booleans([*names, "Z"])
        for a, b in zip(listed, listed[1:]):
            yield statement.format(a=a, b=b)
        if form == "told":
            yield f"bool_array_or([{names[0]}])"
            yield "bool_array_or([Z])"

    return make


def numbers_of(size, form):
    """`bool2int` of as many Booleans; told behind one another."""
    names = [name(n) for n in range(size)]
    yield from booleans(names)
    yield from (f"bool2int({it},I{it})" for it in names)
    if form == "told":
        yield from (f"int_leq(I{a},I{b})" for a, b in zip(names, names[1:]))
        yield f"bool_array_or([{names[0]}])"


def unequal(statement):
    """An integer that is none of so many values, one after another."""

    def make(size, form):
        yield from integers("x", 0, size)
        for value in range(size):
            yield statement.format(x="x", y=value)

    return make


# Of integers with wide domains: x and y beside others, and what makes y above x, or below.


def wide(statement, partner, low=0, result=None):
    """A statement of x, w and y; where each look tells an equation, beside a partner of x and y."""

    def make(size, form):
        yield from integers("xw" if "{w}" in statement else "x", low if low >= 0 else -size, size)
        yield from integers("y", 0 if low >= 0 else -size, result(size) if result else size)
        if "{z}" in statement:
            yield from booleans("z")
        yield statement.format(x="x", y="y", w="w", z="z")
        if form == "told":
            if "{z}" in statement:
                yield "bool_array_or([z])"
            yield partner

    return make


def triple(statement, partner, low=0):
    return wide(statement, partner, low, result=lambda size: 3 * size)


UP, DOWN = "int_lt(y,x)", "int_lt(x,y)"
# What makes two integers climb, or sink, past one another beside the statement that x REL y.
AGAINST = {"leq": UP, "lt": "int_leq(y,x)", "eq": UP, "geq": DOWN, "gt": "int_leq(x,y)", "neq": "int_eq(x,y)"}


# Of lists.


def listed_booleans(statement, bound=0, is_true=True, reified=False):
    """A list of Booleans, a coefficient for each, and a number."""

    def make(size, form):
        names, listed = members(size, form)
        yield from booleans(names + ["Z"] * reified)
        sign = "" if is_true else "-"
        coefficients = [1 + n % 10 for n in range(size)] if "{c}" in statement else [1] * size
        most = sum(coefficients)
        k = most + bound if form == "told" else most // 2
        yield statement.format(x=joined(sign + it for it in listed), c=joined(coefficients), k=k, z="Z")
        if form == "told":
            yield from chained(names, is_true)

    return make


def listed_integers(statement, bound=0, result=None):
    """A list of digits, a coefficient for each, and a number or a result."""

    def make(size, form):
        names, listed = members(size, form)
        yield from integers(names, 0, DIGITS - 1)
        coefficients = [1 + n % 10 for n in range(size)] if "{c}" in statement else [1] * size
        most = (DIGITS - 1) * sum(coefficients)
        if result:
            yield from integers(["Y"], 0, result(most))
        k = most + bound if form == "told" else most // 2
        yield statement.format(x=joined(listed), c=joined(coefficients), k=k, y="Y")
        if form == "told":
            yield from climbing(names, 0, DIGITS - 1)

    return make


def differing(statement):
    """As many integers of as many values that differ; told, as the first one has one value, the second two, and so
    on."""

    def make(size, form):
        names, listed = members(size, form)
        if form == "told":
            yield from (f"new_int({it},1,{n})" for n, it in enumerate(names, 1))
        else:
            yield from integers(names, 1, size if form == "settled" else DIGITS)
        truths = [f"B{it}" for it in names] if "{b}" in statement else []
        yield from booleans(truths + ["Z"] * ("{z}" in statement))
        yield statement.format(x=joined(listed), b=joined("B" + it for it in listed), z="Z")
        if form == "told":
            yield from (f"bool_array_or([{it}])" for it in truths + ["Z"] * ("{z}" in statement))

    return make


def ordered(statement, is_int):
    """An order of two lists; told, as the first one climbs."""

    def make(size, form):
        names, listed = members(2 * size, form)
        yield from integers(names, 0, DIGITS - 1) if is_int else booleans(names)
        yield from booleans(["Z"] * ("{z}" in statement))
        yield statement.format(x=joined(listed[:size]), y=joined(listed[size:]), z="Z")
        if form == "told":
            yield from climbing(names[:size], 0, DIGITS - 1) if is_int else chained(names[:size])
            yield from ["bool_array_or([Z])"] * ("{z}" in statement)

    return make


# The bound of a sum, less its greatest value, by which the last member alone is told where all others have theirs.
NEAR = {"leq": -1, "lt": 0, "eq": -1, "neq": -1, "geq": -1, "gt": -2}
# The forms of a long list, and of others.
LISTS, OTHERS = ("settled", "told", "few"), ("settled", "told")


def of_booleans():
    yield "bool2int", "copies", OTHERS, numbers_of
    yield "bool_eq", "copies", LISTS, copies("bool_eq({a},{b})")
    for join in JOINS:
        how = {"is_true": join != "or"}
        yield f"bool_{join}_reif", "copies", LISTS, copies(f"bool_{join}_reif({{a}},Z,{{b}})")
        for more, back in (("", ""), ("_reif", ",Z")):
            name = f"bool_array_{join}{more}"
            yield name, "long", LISTS, listed_booleans(f"{name}({{x}}{back})", reified=bool(more), **how)
    for relation in RELATIONS:
        for kind, words in (("sum", "{x},{k}"), ("pb", "{c},{x},{k}")):
            name = f"bool_array_{kind}_{relation}"
            yield name, "long", LISTS, listed_booleans(f"{name}({words})", NEAR[relation])


def of_relations():
    for relation in RELATIONS:
        low, partner = -1 if relation in ("geq", "gt") else 0, AGAINST[relation]
        for more, back in (("", ""), ("_reif", ",{z}")):
            name = f"int_{relation}{more}"
            yield name, "wide", OTHERS, wide(f"{name}({{x}},{{y}}{back})", partner)
        for kind, words, more in (("sum", "{x}", "[{x},{w}]"), ("lin", "{c},{x}", "[1,2],[{x},{w}]")):
            name = f"int_array_{kind}_{relation}"
            yield name, "wide", OTHERS, triple(f"{name}({more},{{y}})", partner, low)
            yield name, "long", LISTS, listed_integers(f"{name}({words},{{k}})", NEAR[relation])
    yield "int_neq", "copies", ("told",), unequal("int_neq({x},{y})")
    yield "int_eq_reif", "copies", ("told",), unequal("int_eq_reif({x},{y},false)")


def of_arithmetic():
    for kind, partner, times in (("plus", UP, 2), ("max", UP, 1), ("min", DOWN, 1)):
        name, greatest = f"int_array_{kind}", (lambda most: most) if kind == "plus" else lambda most: DIGITS - 1
        yield name, "long", LISTS, listed_integers(f"{name}({{x}},{{y}})", result=greatest)
        yield name, "wide", OTHERS, triple(f"{name}([{{x}},{{w}}],{{y}})", partner)
        made = wide(f"int_{kind}({{x}},{{w}},{{y}})", partner, result=lambda size, times=times: times * size)
        yield f"int_{kind}", "wide", OTHERS, made
    yield "int_times", "wide", OTHERS, wide("int_times({x},{w},{y})", UP, 1, result=lambda size: size * size)
    yield "int_div", "wide", OTHERS, wide("int_div({x},{w},{y})", DOWN, 1)
    yield "int_mod", "wide", OTHERS, wide("int_mod({x},{w},{y})", DOWN, 1)
    yield "int_abs", "wide", OTHERS, wide("int_abs({x},{y})", UP, -1, result=lambda size: size)


def of_lists():
    for more, back in (("", ""), ("_reif", ",{z}"), ("Cond", ",{b}")):
        name = f"int_array_allDiff{more}"
        yield name, "long", LISTS, differing(f"{name}({{x}}{back})")
    for kind in ("bool", "int"):
        for order in ("lex", "lexLt", "lex_reif", "lexLt_reif"):
            name, back = f"{kind}_arrays_{order}", ",{z}" * order.endswith("_reif")
            yield name, "long", LISTS, ordered(f"{name}({{x}},{{y}}{back})", kind == "int")
    for order in ("lex", "lexLt"):
        yield f"int_arrays_{order}", "wide", OTHERS, wide(f"int_arrays_{order}([{{x}},{{w}}],[{{y}},{{w}}])", UP)


def every():
    for one in (of_booleans, of_relations, of_arithmetic, of_lists):
        for kind, shape, forms, make in one():
            yield from ((kind, shape, form, make) for form in forms)


class Times:
    """Runs of the program on models in a folder."""

    def __init__(self, program, folder):
        self.program, self.folder = program, folder
        self.model = f"{folder}/m.bee"

    def write(self, make, size, form):
        with open(self.model, "w", encoding="ascii") as sink:
            for line in make(size, form):
                sink.write(line + "\n")
            sink.write(GOAL)
        return os.path.getsize(self.model)

    def weight(self):
        told = subprocess.run([self.program, "weigh", self.model], capture_output=True, check=False)
        if told.returncode:
            raise SystemExit(f"{self.model}: {told.stderr.decode()}")
        return int(told.stdout.split()[1])

    def share(self, make, size, form):
        """Which part of what may be a model of that size takes, by weight or length, and its bytes and weight."""
        length = self.write(make, size, form)
        weight = 0 if length > BYTES else self.weight()
        return max(length / BYTES, weight / WEIGHT), length, weight

    def sized(self, make, form, part):
        """Writes a model that takes about this part of what may be, and no more, and gives its size, bytes and
        weight."""
        low, high, size = 0, None, 8
        for _ in range(40):
            share, length, weight = self.share(make, size, form)
            if share <= part:
                low, kept = size, (size, length, weight)
                if share >= 0.9 * part:
                    break
            else:
                high = size
            if high is not None and high - low <= 1:
                break
            # Between linear and quadratic: a guess that is on the safe side soon, and near it in a few steps.
            guess = int(size * (part / max(share, 1e-9)) ** (1 if share > part else 0.6))
            size = max(low + 1, min(guess, 4 * size, high - 1 if high else guess))
        self.write(make, kept[0], form)
        return kept

    def seconds(self, *words):
        """The CPU seconds of a run, or none where it was stopped, and what stands on standard error."""

        def limits():
            resource.setrlimit(resource.RLIMIT_CPU, (SECONDS, SECONDS))
            resource.setrlimit(resource.RLIMIT_AS, (MEMORY, MEMORY))

        how = {"stdin": subprocess.DEVNULL, "stdout": subprocess.DEVNULL, "stderr": subprocess.PIPE}
        child = subprocess.Popen([self.program, *words], preexec_fn=limits, **how)
        told = child.stderr.read().decode().strip()
        _, status, usage = os.wait4(child.pid, 0)
        child.returncode = code = os.waitstatus_to_exitcode(status)
        taken = usage.ru_utime + usage.ru_stime
        return (None if code < 0 else taken), ("" if code < 0 else told)


def shown(seconds):
    return "stopped" if seconds is None else f"{seconds:.2f}"


# A line of what is printed.
LINE = "{:24} {:6} {:7} {:>9} {:>10} {:>6} {:>9} {:>9}  {}".format


def whole(points):
    """The seconds of a whole model, by the growth of the last two parts; none that grows less than its part."""
    (small, few), (large, many) = points[-2:] if len(points) > 1 else [(points[0][0] / 2, points[0][1] / 2), points[0]]
    growth = math.log(max(many, 0.01) / max(few, 0.01)) / math.log(large / small)
    return many * (1 / large) ** max(1, growth)


def row(times, kind, shape, form, make):
    """Times one form, up to the first size that is stopped. The answer is what is told of it at the end, if anything
    is."""
    points = []
    for part in PARTS:
        size, length, weight = times.sized(make, form, part)
        compiled, told = times.seconds("compile", times.model)
        solved = None
        if compiled is not None:
            solved, more = times.seconds("solve", times.model, "--budget", "1")
            told = told or more
        share = f"{100 * weight / WEIGHT:.1f}%"
        print(LINE(kind, shape, form, size, length, share, shown(compiled), shown(solved), told), flush=True)
        if solved is None:
            return f"stopped at 1/{1 / part:.0f}"
        points.append((max(weight / WEIGHT, length / BYTES), solved))
    return f"the whole one some {whole(points):.0f} s" if whole(points) > SECONDS else ""


def is_wanted(words, *what):
    return any(all(fnmatch.fnmatchcase(it, one or "*") for it, one in zip(what, word)) for word in words)


def main():
    words = [(word.split(":") + ["*", "*"])[:3] for word in sys.argv[1:]] or [["*", "*", "*"]]
    with tempfile.TemporaryDirectory() as folder:
        times, stopped = Times(program(), folder), []
        print(LINE("statement", "shape", "form", "size", "bytes", "weight", "compile", "solve", ""), flush=True)
        for kind, shape, form, make in every():
            told = row(times, kind, shape, form, make) if is_wanted(words, kind, shape, form) else ""
            if told:
                stopped.append(f"{kind}:{shape}:{form} {told}")
    print(f"{len(stopped)} pass {SECONDS} s" + "".join(f"\n  {it}" for it in stopped))


def program():
    """Where the program is; it is built where there is none yet."""
    if "BEE" in os.environ:
        return os.environ["BEE"]
    subprocess.run([f"{TOP}/bee", "compile", f"{TOP}/examples/pigeonhole.bee"], stdout=subprocess.DEVNULL, check=True)
    return f"{TOP}/crates/bee/out/bee"


if __name__ == "__main__":
    main()
