"""Constraints over lists, packings and sequences, at random, beside the trying of all assignments."""
import itertools
import random
import unittest

from beemodel import (
    all_different,
    among,
    assignment_cost,
    at_most_values,
    bin_loads,
    bin_packing,
    circuit,
    circuit_cost,
    element,
    exactly_one,
    global_cardinality,
    if_then_else,
    increasing,
    inverse,
    knapsack,
    maximum,
    number_of_values,
    rectangles,
    regular,
    sequence,
    sliding_sum,
    table,
    value_precede,
    weighted_sum,
    xor,
)
from test_constraints import RELATIONS, a_domain, booleans, integers
from trying import Case, compare, need_program

ROUNDS = 10


def setUpModule():
    need_program()


def bins(rng):
    """Things in bins, whose capacities may be variables, and what a bin holds."""
    size, number = rng.randint(1, 4), rng.randint(1, 3)
    sizes = [rng.randint(0, 4) for _ in range(size)]
    domains = {f"x{it}": range(0, number + (rng.random() < 0.2)) for it in range(size)}
    is_alike, shape = rng.random() < 0.5, rng.randint(0, 2)
    capacities = [rng.randint(2, 5)] * number if is_alike else [rng.randint(0, 6) for _ in range(number)]
    if shape == 1:
        domains["c"] = range(0, 6)

    def make(v):
        places = [v[f"x{it}"] for it in range(size)]
        most = [v["c"], *capacities[1:]] if shape == 1 else capacities
        stated = [bin_packing(places, sizes, most, in_order=is_alike and shape != 1)]
        load = bin_loads(places, sizes, number)[0]
        return [*stated, load <= maximum([*places, 2])] if shape == 2 else stated

    def means(values):
        places = [values[f"x{it}"] for it in range(size)]
        most = [values["c"], *capacities[1:]] if shape == 1 else capacities
        loads = [sum(s for s, it in zip(sizes, places) if it == at) for at in range(number)]
        fits = max(places) < number and all(it <= limit for it, limit in zip(loads, most))
        in_order = [places[it] for it in sorted(range(size), key=lambda it: -sizes[it])]
        first = all(it <= max(in_order[:at], default=-1) + 1 for at, it in enumerate(in_order))
        small = loads[0] <= max([*places, 2]) if shape == 2 else True
        return fits and small and (first or not is_alike or shape == 1)

    return Case(domains, make, means)


def boxes(rng):
    """Rectangles that don't overlap, one of them of a variable width."""
    size = rng.randint(2, 3)
    domains = {f"{side}{it}": range(0, 3) for it in range(size) for side in "xy"}
    domains["x0"], domains["w"] = range(0, 2), range(1, 3)
    if size == 3:
        domains["y2"] = [1]
    widths = [rng.randint(1, 2) for _ in range(size)]
    heights = [rng.randint(1, 2) for _ in range(size)]

    def sides(v):
        return (
            [v[f"x{it}"] for it in range(size)],
            [v[f"y{it}"] for it in range(size)],
            [v["w"], *widths[1:]],
            heights,
        )

    def means(values):
        covered = [
            {(x + a, y + b) for a in range(w) for b in range(h)} for x, y, w, h in zip(*sides(values))
        ]
        return sum(map(len, covered)) == len(set().union(*covered))

    return Case(domains, lambda v: [rectangles(*sides(v))], means)


def knapsacks(rng):
    """Amounts that fit and yield a profit."""
    domains = {**integers(rng, 3, 3, 0), "p": a_domain(rng, 8, 0)}
    sizes, profits = ([rng.randint(0, 3) for _ in range(3)] for _ in range(2))
    most = rng.randint(1, 8)

    def make(v):
        *amounts, profit = v.values()
        return [knapsack(amounts, sizes, most, profits, profit)]

    def means(values):
        *amounts, profit = values.values()
        size, gained = (sum(f * it for f, it in zip(each, amounts)) for each in (sizes, profits))
        return size <= most and gained == profit

    return Case(domains, make, means)


def rising(rng):
    """Numbers in rising order, stated or not."""
    domains, strictly, is_turned = integers(rng, 4, 3), rng.random() < 0.5, rng.random() < 0.3

    def make(v):
        truth = increasing(v.values(), strictly)
        return [~truth if is_turned else truth]

    def means(values):
        each = [*values.values()]
        in_order = sorted(set(each)) if strictly else sorted(each)
        return (in_order == each) != is_turned

    return Case(domains, make, means)


def windows(rng):
    """Sums of windows."""
    domains = integers(rng, 5, 2, 0)
    low, high, window = rng.randint(-1, 3), rng.randint(1, 5), rng.randint(1, 4)

    def means(values):
        each = [*values.values()]
        return all(low <= sum(each[at : at + window]) <= high for at in range(6 - window))

    return Case(domains, lambda v: [sliding_sum(low, high, window, v.values())], means)


def rows_of_truths(rng):
    """At most some of so many in a row, and so many of all."""
    size = rng.randint(1, 7)
    most, window = rng.randint(0, 3), rng.randint(1, 4)
    number = rng.choice([None, rng.randint(0, size)])

    def make(v):
        return [sequence(most, window, v.values(), number)]

    def means(values):
        each = [*values.values()]
        rows = [each[at : at + window] for at in range(size)]
        return all(sum(it) <= most for it in rows) and number in (None, sum(each))

    return Case(booleans(size), make, means)


def precedence(rng):
    """Values that come in an order."""
    domains = integers(rng, 4, 4, 0)
    values_of = rng.sample(range(0, 4), rng.randint(1, 4))
    is_reified = rng.random() < 0.3

    def make(v):
        truth = value_precede(v.values(), values_of)
        return [truth ^ (v["x0"] == 1) if is_reified else truth]

    def means(values):
        each = [*values.values()]
        is_true = all(
            other not in each or (one in each and each.index(one) < each.index(other))
            for one, other in itertools.pairwise(values_of)
        )
        return is_true != (is_reified and values["x0"] == 1)

    return Case(domains, make, means)


def automata(rng):
    """A list that leads an automaton to an accepted state."""
    size = rng.randint(0, 5)
    domains = {f"x{it}": rng.choice(["bool", range(0, 3), [0, 2]]) for it in range(size)} or {"b": "bool"}
    steps = {
        state: {value: rng.randint(0, 3) for value in range(3) if rng.random() < 0.7}
        for state in range(4)
    }
    accepting = rng.sample(range(4), rng.randint(1, 3))

    def listed(v):
        return [*v.values()][:size]

    def means(values):
        state = 0
        for it in listed(values):
            state = steps.get(state, {}).get(int(it))
        return state in accepting

    return Case(domains, lambda v: [regular(listed(v), 0, accepting, steps)], means)


def numbers_of_values(rng):
    """How many members have some values, how many values there are, and how many each has."""
    domains, shape = {**integers(rng, 3, 3, 0), "n": range(0, 4)}, rng.randint(0, 4)
    kept = rng.sample(range(0, 5), 2)

    def make(v):
        *each, number = v.values()
        return [
            among(each, kept) == number,
            at_most_values(number, each),
            number_of_values([it + 1 for it in each], range(-3, 9)) == number,
            global_cardinality(each, {kept[0]: number, kept[1]: 1}),
            global_cardinality(each, {kept[0]: number, kept[1]: 3 - number}, closed=True),
        ][shape]

    def means(values):
        *each, number = values.values()
        counts = [each.count(it) for it in kept]
        return [
            sum(counts) == number,
            len(set(each)) <= number,
            len(set(each)) == number,
            counts == [number, 1],
            counts == [number, 3 - number] and sum(counts) == 3,
        ][shape]

    return Case(domains, lambda v: [make(v)], means)


def inverses(rng):
    """Two lists that undo each other."""
    size = rng.randint(1, 3)
    low = -1 if rng.random() < 0.2 else 0
    domains = {f"{side}{it}": range(low, size) for side in "ab" for it in range(size)}
    is_turned = size < 3 and rng.random() < 0.3

    def sides(v):
        each = [*v.values()]
        return each[:size], each[size:]

    def make(v):
        return [~inverse(*sides(v)) if is_turned else inverse(*sides(v))]

    def means(values):
        first, second = sides(values)
        is_true = all(0 <= it < size for it in first) and all(
            0 <= it < size and first[it] == at for at, it in enumerate(second)
        ) and all(second[it] == at for at, it in enumerate(first))
        return is_true != is_turned

    return Case(domains, make, means)


def choices(rng):
    """One of two by a condition; what stands in a table; an odd number of truths."""
    domains = {**integers(rng, 2, 3, 0), **booleans(3), "r": range(0, 2), "c": range(0, 3)}
    relation, shape = rng.choice(RELATIONS), rng.randint(0, 3)
    rows = [[rng.randint(0, 3) for _ in range(3)] for _ in range(2)]

    def make(v):
        x, y, a, b, c, row, column = v.values()
        rows_of = [rows[0], [x, y, 2]]
        return [
            relation(if_then_else(a, x, y + 1), 2),
            if_then_else(a, b, c),
            relation(element(rows, row, column), x),
            xor([a, b, c, element(rows_of, row, column) >= y]),
        ][shape]

    def means(values):
        x, y, a, b, c, row, column = values.values()
        entry = [rows[0], [x, y, 2]][row][column]
        return [
            relation(x if a else y + 1, 2),
            b if a else c,
            relation(rows[row][column], x),
            a ^ b ^ c ^ (entry >= y),
        ][shape]

    return Case(domains, lambda v: [make(v)], means)


def costs(rng):
    """What an assignment or a round costs, where the model states that it is one and where it
    doesn't."""
    size, is_round, is_stated = rng.randint(2, 3), rng.random() < 0.5, rng.random() < 0.8
    domains = {**{f"x{it}": range(0, size) for it in range(size)}, "c": range(-4, 20)}
    rows = [[rng.randint(-2, 9) for _ in range(size)] for _ in range(size)]
    relation = rng.choice(RELATIONS[:5])

    def make(v):
        *places, cost = v.values()
        of = circuit_cost if is_round else assignment_cost
        stated = [circuit(places) if is_round else all_different(places)] if is_stated else []
        return [*stated, relation(of(places, rows), cost)]

    def means(values):
        *places, cost = values.values()
        place = seen = 0
        for seen in range(1, size + 1):
            place = places[place]
            if place == 0:
                break
        is_one = (seen == size and place == 0) if is_round else len(set(places)) == size
        whole = sum(row[it] for row, it in zip(rows, places))
        return (is_one or not is_stated) and relation(whole, cost)

    return Case(domains, make, means)


def prices(rng):
    """Sums with a price for each of some truths of which just one holds."""
    size, is_stated = rng.randint(3, 4), rng.random() < 0.8
    domains = {"x": a_domain(rng, 5), **booleans(size), "s": range(-4, 9)}
    ours, more = ([rng.randint(-2, 3) for _ in range(size)] for _ in range(2))
    values_of = [rng.randint(-3, 3) for _ in range(size)]
    kept, relation = rng.randint(1, size), rng.choice(RELATIONS)

    def make(v):
        x, *each, most = v.values()
        marks = [x == it for it in values_of]
        stated = [exactly_one(each)] if is_stated else []
        return [*stated, relation(weighted_sum([*ours[:kept], *more], [*each[:kept], *marks]), most)]

    def means(values):
        x, *each, most = values.values()
        whole = sum(p * it for p, it in zip(ours[:kept], each))
        whole += sum(p * (x == it) for p, it in zip(more, values_of))
        return (sum(each) == 1 or not is_stated) and relation(whole, most)

    return Case(domains, make, means)


def forbidden_rows(rng):
    """Rows that are ruled out."""
    domains = integers(rng, 3, 3)
    rows = [tuple(rng.randint(-3, 3) for _ in domains) for _ in range(rng.randint(0, 9))]
    return Case(
        domains, lambda v: [~table(v.values(), rows)], lambda values: (*values.values(),) not in rows
    )


def alike_rows(rng):
    """Many rows, whose beginnings have few ends."""
    size = rng.randint(3, 4)
    domains = integers(rng, size, 4, -1)
    factors = [rng.randint(-2, 2) for _ in domains]
    low, high = sorted(rng.randint(-4, 8) for _ in range(2))
    every = itertools.product(range(-1, 4), repeat=size)
    rows = [it for it in every if low <= sum(f * x for f, x in zip(factors, it)) <= high and it[0] <= it[-1] + 1]
    rng.shuffle(rows)
    return Case(domains, lambda v: [table(v.values(), rows)], lambda values: (*values.values(),) in rows)


GENERATORS = [
    alike_rows,
    bins,
    boxes,
    knapsacks,
    rising,
    windows,
    rows_of_truths,
    precedence,
    automata,
    numbers_of_values,
    inverses,
    choices,
    costs,
    prices,
    forbidden_rows,
]


class GlobalConstraints(unittest.TestCase):
    pass


def add_tests():
    """A test for each generator; the seed is the name and the round."""
    for generate in GENERATORS:

        def run(self, generate=generate):
            for at in range(ROUNDS):
                with self.subTest(constraint=generate.__name__, round=at):
                    rng = random.Random(f"{generate.__name__} {at}")
                    compare(self, generate(rng), rng)

        setattr(GlobalConstraints, f"test_{generate.__name__}", run)


add_tests()

if __name__ == "__main__":
    unittest.main()
