"""Each constraint, at random over small domains, beside the trying of all assignments."""
import itertools
import operator
import random
import unittest
from unittest import mock

from beemodel import (
    absolute,
    all_different,
    all_of,
    any_of,
    at_least,
    at_most,
    circuit,
    count,
    cumulative,
    element,
    exactly,
    interval,
    lex_less,
    lex_less_or_equal,
    maximum,
    minimum,
    no_overlap,
    table,
    total,
    weighted_sum,
)
from beemodel.resources import Cumulative
from trying import Case, compare, need_program

RELATIONS = [operator.le, operator.lt, operator.ge, operator.gt, operator.eq, operator.ne]
ROUNDS = 12


def setUpModule():
    need_program()


def a_domain(rng, size=4, low=-3):
    """A range or a list of a few values."""
    if rng.random() < 0.3:
        return sorted(rng.sample(range(low, low + 2 * size), rng.randint(1, size)))
    first = rng.randint(low, low + size)
    return range(first, first + rng.randint(1, size))


def integers(rng, count_of, size=4, low=-3):
    """Some integers by name."""
    return {f"x{it}": a_domain(rng, size, low) for it in range(count_of)}


def booleans(count_of):
    """Some Booleans by name."""
    return {f"b{it}": "bool" for it in range(count_of)}


def mixed(rng):
    """A few integers and Booleans."""
    size = rng.randint(0, 3)
    return {**integers(rng, size, 3), **booleans(rng.randint(0 if size else 1, 3))}


def linear(rng):
    """A sum with coefficients in a relation to a constant, which is near what the sum may be."""
    domains = mixed(rng)
    factors = [rng.choice([-3, -2, -1, -1, 1, 1, 2, 3]) for _ in domains]
    relation, bound = rng.choice(RELATIONS), rng.randint(-6, 6)

    def make(v):
        return [relation(weighted_sum(factors, v.values()), bound)]

    def means(values):
        return relation(sum(f * int(v) for f, v in zip(factors, values.values())), bound)

    return Case(domains, make, means)


def reified(rng):
    """The truth of a comparison is a Boolean."""
    inner = linear(rng)

    def make(v):
        return [v["t"] == inner.make({name: it for name, it in v.items() if name != "t"})[0]]

    def means(values):
        plain = {name: it for name, it in values.items() if name != "t"}
        return values["t"] == inner.means(plain)

    return Case({**inner.domains, "t": "bool"}, make, means)


def two_integers(rng):
    """Two integers compared, with coefficients, and the same in another expression."""
    domains = integers(rng, 2, 6)
    a, b, k = rng.choice([1, 1, 2, -1]), rng.choice([1, 1, 3, -2]), rng.randint(-3, 3)
    relation, is_turned = rng.choice(RELATIONS), rng.random() < 0.5

    def make(v):
        truth = relation(a * v["x0"] + k, b * v["x1"])
        return [~truth | (v["x0"] > 0) if is_turned else truth]

    def means(values):
        truth = relation(a * values["x0"] + k, b * values["x1"])
        return (not truth or values["x0"] > 0) if is_turned else truth

    return Case(domains, make, means)


def many_booleans(rng):
    """A count of up to seven Booleans, some negated, in a relation to a number."""
    size = rng.randint(2, 7)
    signs = [rng.random() < 0.7 for _ in range(size)]
    bound = rng.randint(0, size)
    return counted(signs, rng.choice(RELATIONS), bound, rng.random() < 0.3)


def counted(signs, relation, bound, is_reified):
    """A count of Booleans, some negated, stated or in another expression."""

    def make(v):
        counted_ones = total(b if sign else ~b for b, sign in zip(v.values(), signs))
        truth = relation(counted_ones, bound)
        return [truth | v["b0"] if is_reified else truth]

    def means(values):
        truth = relation(sum(b == sign for b, sign in zip(values.values(), signs)), bound)
        return truth or (is_reified and values["b0"])

    return Case(booleans(len(signs)), make, means)


def counts(rng):
    """`exactly`, `at_least` and `at_most` with a variable."""
    domains = {**booleans(rng.randint(1, 4)), "x": range(rng.randint(-1, 1), rng.randint(2, 5))}
    choose = rng.choice([(exactly, operator.eq), (at_least, operator.ge), (at_most, operator.le)])

    def make(v):
        return [choose[0](v["x"], [it for name, it in v.items() if name != "x"])]

    def means(values):
        return choose[1](sum(it for name, it in values.items() if name != "x"), values["x"])

    return Case(domains, make, means)


def counted_values(rng):
    """How many integers have a value."""
    domains, value, bound = integers(rng, 3), rng.randint(-2, 2), rng.randint(0, 2)

    def make(v):
        return [count(v.values(), value) == bound]

    return Case(domains, make, lambda values: [*values.values()].count(value) == bound)


def truths(rng):
    """Operators among Booleans, nested."""
    domains = booleans(4)
    shape = rng.randint(0, 7)

    def of(a, b, c, d, no):
        return [
            (a & b) | (no(c) & d),
            (a ^ b) ^ no(c),
            (a | b) == (c & d),
            (a ^ b) != no(c | d),
            no(a & no(b)) & (c | d),
            (a == no(b)) | (c != d),
            no((a | b) ^ (c | d) ^ (a & d)),
            (a & (b | (c & d))) == a,
        ][shape]

    def make(v):
        return [of(*v.values(), operator.invert)]

    return Case(domains, make, lambda values: of(*values.values(), operator.not_))


def implications(rng):
    """Implications between comparisons, lists of Booleans, and the constants."""
    domains = {**integers(rng, 2), **booleans(2)}
    bound = rng.randint(-2, 2)

    def make(v):
        x, y, a, b = v.values()
        return [
            (x < y).implies(a & b),
            a.implies(any_of([x >= bound, b, False])),
            (x == bound).implies(all_of([~b, True, y != bound])),
        ]

    def means(values):
        x, y, a, b = values.values()
        one = not x < y or (a and b)
        two = not a or x >= bound or b
        return one and two and (x != bound or (not b and y != bound))

    return Case(domains, make, means)


def different(rng):
    """All different, of expressions."""
    domains = integers(rng, 3, 3)
    form, shift = rng.randint(0, 2), rng.randint(-1, 1)

    def make(v):
        parts = [it + shift * at for at, it in enumerate(v.values())]
        if form == 0:
            return [all_different(parts)]
        return [all_different(parts) == (v["x0"] > 0)] if form == 1 else [~all_different(parts)]

    def means(values):
        parts = {it + shift * at for at, it in enumerate(values.values())}
        is_true = len(parts) == len(values)
        return is_true == ((values["x0"] > 0) if form == 1 else form == 0)

    return Case(domains, make, means)


def different_where(rng):
    """All different under conditions."""
    domains = {**integers(rng, 3, 3), **booleans(3)}

    def make(v):
        parts = [*v.values()]
        return [all_different(parts[:3], parts[3:])]

    def means(values):
        parts = [*values.values()]
        taken = [it for it, is_in in zip(parts[:3], parts[3:]) if is_in]
        return len(set(taken)) == len(taken)

    return Case(domains, make, means)


def ordered(rng):
    """Lists in the order of words."""
    is_strict, is_reified = rng.random() < 0.5, rng.random() < 0.5
    domains = booleans(6) if rng.random() < 0.3 else integers(rng, 4, 3)
    state, compared = (lex_less, operator.lt) if is_strict else (lex_less_or_equal, operator.le)

    def sides(parts):
        parts = [*parts]
        half = len(parts) // 2
        return parts[:half], parts[half:]

    def make(v):
        truth = state(*sides(v.values()))
        return [~truth if is_reified else truth]

    def means(values):
        return compared(*sides(values.values())) != is_reified

    return Case(domains, make, means)


def elements(rng):
    """What stands in a list of numbers at a place."""
    numbers = [rng.randint(-3, 3) for _ in range(rng.randint(1, 6))]
    shift = rng.randint(-1, 1)
    domains = {"i": range(shift, len(numbers) + shift), "x": a_domain(rng)}
    relation = rng.choice(RELATIONS)

    def make(v):
        return [relation(element(numbers, v["i"] - shift), v["x"])]

    def means(values):
        return relation(numbers[values["i"] - shift], values["x"])

    return Case(domains, make, means)


def elements_of_variables(rng):
    """What stands in a list of variables, numbers and Booleans at a place."""
    domains = {"i": range(0, 4), **integers(rng, 2, 3), "b": "bool", "z": a_domain(rng)}

    def make(v):
        return [element([v["x0"], v["x1"], 2, v["b"]], v["i"]) == v["z"]]

    def means(values):
        return [values["x0"], values["x1"], 2, values["b"]][values["i"]] == values["z"]

    return Case(domains, make, means)


def tables(rng):
    """Rows of numbers, stated and in another expression."""
    domains = integers(rng, 3, 3)
    rows = [tuple(rng.randint(-3, 3) for _ in domains) for _ in range(rng.randint(0, 12))]
    rows += [tuple(rng.choice([*it]) for it in domains.values()) for _ in range(rng.randint(0, 5))]
    is_reified = rng.random() < 0.4

    def make(v):
        truth = table(v.values(), rows)
        return [truth ^ (v["x0"] > 0) if is_reified else truth]

    def means(values):
        is_true = tuple(values.values()) in rows
        return is_true ^ (values["x0"] > 0) if is_reified else is_true

    return Case(domains, make, means)


def tasks(rng):
    """Tasks that share a resource."""
    size = rng.choice([1, 2, 3, 3])
    domains = {**integers(rng, size, 4, 0), "c": range(1, rng.randint(3, 4))}
    lengths = [rng.choice([0, 1, 2, 2, 3]) for _ in range(size)]
    demands = [rng.choice([0, 1, 1, 2, 3]) for _ in range(size)]

    def make(v):
        return [cumulative([v[f"x{it}"] for it in range(size)], lengths, demands, v["c"])]

    def means(values):
        starts = [values[f"x{it}"] for it in range(size)]
        return all(
            sum(d for s, length, d in zip(starts, lengths, demands) if s <= time < s + length)
            <= values["c"]
            for time in range(-5, 20)
        )

    return Case(domains, make, means)


def intervals_of(rng, size):
    """The domains of some tasks: starts, and for some of them durations and truths."""
    domains = integers(rng, size, 4, 0)
    lengths = [rng.choice([0, 1, 2, 2, 3, "d", "p"]) for _ in range(size)]
    for at, it in enumerate(lengths):
        if it == "d":
            domains[f"d{at}"] = range(rng.randint(0, 1), 3)
        elif it == "p":
            domains[f"p{at}"] = "bool"
    return domains, lengths


def task_of(v, at, length):
    """The start, the duration and the truth of a task, of variables or of values."""
    duration = v[f"d{at}"] if length == "d" else 2 if length == "p" else length
    return v[f"x{at}"], duration, v[f"p{at}"] if length == "p" else None


def tasks_apart(rng):
    """Tasks one at a time, some optional, with set-up times or without; stated or not."""
    size = rng.choice([1, 2, 3, 3])
    domains, lengths = intervals_of(rng, size)
    gaps = [[rng.randint(0, 2) for _ in range(size)] for _ in range(size)]
    setup, is_reified = rng.choice([None, gaps]), rng.random() < 0.2
    gaps = setup or [[0] * size] * size

    def make(v):
        each = [interval(*task_of(v, at, it)) for at, it in enumerate(lengths)]
        truth = no_overlap(each, setup)
        return [~truth] if is_reified else [truth, no_overlap(each[:2], setup and [row[:2] for row in gaps[:2]])]

    def means(values):
        each = [task_of(values, at, it) for at, it in enumerate(lengths)]
        done = [at for at, it in enumerate(each) if it[2] is not False]
        is_true = all(
            each[one][0] + each[one][1] + gaps[one][other] <= each[other][0]
            or each[other][0] + each[other][1] + gaps[other][one] <= each[one][0]
            for one, other in itertools.combinations(done, 2)
        )
        return is_true != is_reified

    return Case(domains, make, means)


def shared_intervals(rng):
    """Intervals that share a resource, with demands and a capacity that may be variables."""
    size = rng.choice([1, 2, 3])
    domains, lengths = intervals_of(rng, size)
    domains["c"] = range(rng.randint(0, 1), rng.randint(2, 3))
    demands = [rng.choice([0, 1, 1, 2, "c"]) for _ in range(size)]
    for at, it in enumerate(demands):
        if it == "c":
            domains[f"c{at}"] = range(0, 3)

    def demand(v, at):
        return v[f"c{at}"] if demands[at] == "c" else demands[at]

    def make(v):
        each = [interval(*task_of(v, at, it)) for at, it in enumerate(lengths)]
        return [cumulative(each, [demand(v, at) for at in range(size)], v["c"])]

    def means(values):
        each = [task_of(values, at, it) for at, it in enumerate(lengths)]
        return all(
            sum(
                demand(values, at)
                for at, (start, length, is_done) in enumerate(each)
                if start <= time < start + length and is_done is not False
            )
            <= (values["c"] if any(s <= time < s + n and p is not False for s, n, p in each) else 99)
            for time in range(-5, 20)
        )

    return Case(domains, make, means)


def rounds(rng):
    """One round through all places."""
    size = rng.choice([1, 2, 3, 4, 5, 5])
    domains = {f"x{it}": range(-1 if rng.random() < 0.2 else 0, size) for it in range(size)}
    if size == 5:
        domains = {name: [to for to in range(5) if name != f"x{to}"] for name in domains}

    def means(values):
        place, seen = 0, []
        for _ in range(size):
            place = values[f"x{place}"]
            if place < 0:
                return False
            seen.append(place)
        return sorted(seen) == [*range(size)] and seen[-1] == 0

    return Case(domains, lambda v: [circuit(v.values())], means)


FUNCTIONS = {
    "maximum": (lambda x, y, z: maximum([x, y + 1, z]), lambda x, y, z: max(x, y + 1, z)),
    "minimum": (lambda x, y, z: minimum([x, 2 * y, z]), lambda x, y, z: min(x, 2 * y, z)),
    "absolute": (lambda x, y, z: absolute(x - y), lambda x, y, z: abs(x - y)),
    "product": (lambda x, y, z: x * y, lambda x, y, z: x * y),
    "square": (lambda x, y, z: x * x - z, lambda x, y, z: x * x - z),
    "quotient": (lambda x, y, z: (x + 3) // (y + 4), lambda x, y, z: (x + 3) // (y + 4)),
    "remainder": (lambda x, y, z: (x + 3) % (y + 4), lambda x, y, z: (x + 3) % (y + 4)),
    "by a number": (
        lambda x, y, z: (x + 3) // 2 + (z + 3) % 3,
        lambda x, y, z: (x + 3) // 2 + (z + 3) % 3,
    ),
    "truths": (lambda x, y, z: (x > 0) * (y > 0) + z, lambda x, y, z: (x > 0) * (y > 0) + z),
    "truth times number": (lambda x, y, z: (x > 0) * z, lambda x, y, z: (x > 0) * z),
}


def function(name):
    """A function of three integers compared to a fourth one."""

    def generate(rng):
        domains, relation = {**integers(rng, 3, 4), "r": a_domain(rng, 5)}, rng.choice(RELATIONS)
        ours, plain = FUNCTIONS[name]

        def make(v):
            return [relation(ours(v["x0"], v["x1"], v["x2"]), v["r"])]

        def means(values):
            return relation(plain(values["x0"], values["x1"], values["x2"]), values["r"])

        return Case(domains, make, means)

    return generate


def wide(rng):
    """Many comparisons of one integer with constants."""
    low = rng.randint(-30, 0)
    domain = range(low, low + rng.randint(20, 60))
    if rng.random() < 0.4:
        domain = sorted(rng.sample(domain, 18))
    equal = rng.sample([*domain], rng.randint(0, 15))
    above = sorted(rng.sample([*domain], rng.randint(1, 6)))

    def make(v):
        marks = any_of(v["x"] == it for it in equal) ^ v["b"]
        return [marks == (total(v["x"] >= it for it in above) >= 2)]

    def means(values):
        marks = (values["x"] in equal) ^ values["b"]
        return marks == (sum(values["x"] >= it for it in above) >= 2)

    return Case({"x": domain, "b": "bool"}, make, means)


def alone(rng):
    """Constraints on one variable, which narrow its domain."""
    domains = {"x": range(-4, 9), "y": range(0, 3)}
    low, out, factor = rng.randint(-6, 4), rng.randint(-4, 8), rng.choice([-3, -2, 2, 3])

    def make(v):
        x = v["x"]
        return [(x >= low) & (x != out), factor * x <= 7, x != v["y"]]

    def means(values):
        x = values["x"]
        return x >= low and x != out and factor * x <= 7 and x != values["y"]

    return Case(domains, make, means)


GENERATORS = [
    linear,
    reified,
    two_integers,
    many_booleans,
    counts,
    counted_values,
    truths,
    implications,
    different,
    different_where,
    ordered,
    elements,
    elements_of_variables,
    tables,
    tasks,
    tasks_apart,
    shared_intervals,
    rounds,
    wide,
    alone,
]


class Constraints(unittest.TestCase):
    def run_all(self, generate, name, rounds_of=ROUNDS):
        """Compares some random cases; the seed is the name and the round."""
        for at in range(rounds_of):
            with self.subTest(constraint=name, round=at):
                rng = random.Random(f"{name} {at}")
                compare(self, generate(rng), rng)

    def test_tasks_by_starts(self):
        with mock.patch.object(Cumulative, "weight_by_tasks", lambda self, domains: -1):
            self.run_all(tasks, "tasks by starts")
            self.run_all(shared_intervals, "intervals by starts")

    def test_small_counts(self):
        """Each relation and each bound."""
        signs = [True, True, False, True]
        for relation, bound, is_reified in itertools.product(RELATIONS, range(5), (False, True)):
            with self.subTest(relation=relation.__name__, bound=bound, reified=is_reified):
                case = counted(signs, relation, bound, is_reified)
                compare(self, case, random.Random(0))

    def test_many_at_most_one(self):
        """More Booleans than are ruled out by pairs."""

        def generate(rng):
            domains = {"x": range(0, 24), "y": range(0, 24)}

            def make(v):
                both = [(v["x"] == it) & (v["y"] != it) for it in range(23)]
                return [at_most(1, [*both, v["y"] == 3])]

            def means(values):
                x, y = values["x"], values["y"]
                return (x < 23 and x != y) + (y == 3) <= 1

            return Case(domains, make, means)

        self.run_all(generate, "at most one", 1)


def add_tests():
    """A test for each generator and each function."""
    named = {it.__name__: (it, ROUNDS * (3 if it in (linear, reified) else 1)) for it in GENERATORS}
    named.update({f"function {name}": (function(name), 3) for name in FUNCTIONS})
    for name, (generate, rounds_of) in named.items():

        def run(self, generate=generate, name=name, rounds_of=rounds_of):
            self.run_all(generate, name, rounds_of)

        setattr(Constraints, f"test_{name.replace(' ', '_')}", run)


add_tests()

if __name__ == "__main__":
    unittest.main()
