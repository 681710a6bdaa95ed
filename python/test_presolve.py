"""What a presolve leaves, beside the trying of all assignments; and mutants of its steps that are too strong."""
import random
import unittest
from contextlib import contextmanager
from unittest import mock

import test_constraints
import test_global_constraints
from beemodel import (
    Model,
    all_different,
    bin_packing,
    cumulative,
    interval,
    maximum,
    minimum,
    no_overlap,
    weighted_sum,
)
from beemodel import assignment, bounds, choices, disjunctive, functions, packing, presolve
from beemodel import propagators, resources, sequences, shops, tables
from beemodel.guesses import Guessing
from trying import Case, assignments, compare, declare, need_program

GENERATORS = [
    *test_constraints.GENERATORS,
    *test_global_constraints.GENERATORS,
    *(test_constraints.function(it) for it in test_constraints.FUNCTIONS),
]
ROUNDS = 12


def loads(rng):
    """The greatest and the least load of a few places, with bounds."""
    domains = {**{f"x{it}": range(0, 3) for it in range(4)}, "m": range(0, 12)}
    sizes, most = [rng.randint(1, 4) for _ in range(4)], rng.randint(2, 9)

    def of(values, are):
        return [sum(s * int(are(values[f"x{it}"], at)) for it, s in enumerate(sizes)) for at in range(3)]

    def make(v):
        each = [weighted_sum(sizes, [v[f"x{it}"] == at for it in range(4)]) for at in range(3)]
        return [maximum(each) <= most, minimum(each) + 1 <= v["m"], maximum(each) >= v["m"]]

    def means(values):
        each = of(values, lambda one, other: one == other)
        return max(each) <= most and min(each) + 1 <= values["m"] <= max(each)

    return Case(domains, make, means)


def packed(rng):
    """Tight tasks, windows and bins, where the steps of the presolve have something to find."""
    shape, size = rng.randint(0, 3), 4
    most = rng.randint(4, 7)
    lengths = [rng.randint(1, 3) for _ in range(size)]
    demands = [rng.randint(1, 2) for _ in range(size)]
    domains = {f"x{it}": range(rng.randint(0, 1), rng.randint(2, most)) for it in range(size)}

    def make(v):
        each = [v[f"x{it}"] for it in range(size)]
        tasks = [interval(it, length) for it, length in zip(each, lengths)]
        return [
            [no_overlap(tasks[:3])],
            [cumulative(tasks, demands, 2)],
            [bin_packing(each, lengths, [3] * 7)],
            [all_different([*each[:3], each[3] + 1])],
        ][shape]

    def means(values):
        each = [values[f"x{it}"] for it in range(size)]
        at_work = [
            [it for it in range(size) if each[it] <= time < each[it] + lengths[it]] for time in range(12)
        ]
        return [
            all(sum(it < 3 for it in now) <= 1 for now in at_work),
            all(sum(demands[it] for it in now) <= 2 for now in at_work),
            all(sum(s for s, it in zip(lengths, each) if it == at) <= 3 for at in range(7)),
            len({*each[:3], each[3] + 1}) == size,
        ][shape]

    return Case(domains, make, means)


def shop(rng):
    """Two jobs of two steps, which go through two machines in either order."""
    lengths = [[rng.randint(1, 3) for _ in range(2)] for _ in range(2)]
    first, wait = [rng.randint(0, 1) for _ in range(2)], rng.randint(0, 2)
    domains = {f"x{job}{at}": range(0, 7) for job in range(2) for at in range(2)}

    def make(v):
        each = [[interval(v[f"x{job}{at}"], lengths[job][at]) for at in range(2)] for job in range(2)]
        machines = [[each[job][at ^ first[job]] for job in range(2)] for at in range(2)]
        return [*map(no_overlap, machines), *(it[0].end + wait <= it[1].start for it in each)]

    def means(values):
        each = [
            [(values[f"x{job}{at}"], values[f"x{job}{at}"] + lengths[job][at]) for at in range(2)]
            for job in range(2)
        ]
        pairs = [[each[job][at ^ first[job]] for job in range(2)] for at in range(2)]
        are_apart = all(one[1] <= other[0] or other[1] <= one[0] for one, other in pairs)
        return are_apart and all(it[0][1] + wait <= it[1][0] for it in each)

    return Case(domains, make, means)


def lost(case):
    """A solution that a presolve loses, if it loses one."""
    model = Model()
    variables = declare(model, case.domains)
    model.add(case.make(variables))
    domains, rest = model.narrowed()
    left = presolve.presolved(domains, model, rest, None)
    for values in assignments(case.domains):
        if not case.means(values):
            continue
        kept = all(values[name] in domain for name, domain in left.domains.items())
        kept &= all(values[it.name] == truth for it, truth in left.sure.items())
        kept &= all(low <= it.value(values) <= high for it, (low, high) in left.ends.items())
        if not (kept and left.is_possible):
            return values
    return None


def goal_of(rng):
    """A model with a goal, its domains, and its meaning and what is made least as functions."""
    case = rng.choice([packed, packed, loads, shop])(rng)
    model = Model()
    variables = declare(model, case.domains)
    model.add(case.make(variables))
    names = rng.sample([*case.domains], 3)
    sought = [
        lambda get, most: most([get(it) for it in names]),
        lambda get, most: get(names[0]) + 2 * get(names[1]) - get(names[2]),
    ][rng.randint(0, 1)]
    model.minimize(sought(variables.get, maximum))
    return model, case, lambda values: sought(values.get, max)


def misjudged(rng):
    """Whether the bounds of what is sought rule out its best value, or a plan isn't one."""
    model, case, sought = goal_of(rng)
    found = [sought(it) for it in assignments(case.domains) if case.means(it)]
    guessing = Guessing(model, model.goal)
    if not found:
        return guessing.planned() is not None
    if guessing.told is None:
        return True
    plan = guessing.planned()
    return guessing.least() > min(found) or (plan is not None and plan < min(found))


class Presolve(unittest.TestCase):
    def test_no_solution_is_lost(self):
        for generate in [*GENERATORS, *[loads, packed] * 3]:
            for at in range(ROUNDS):
                with self.subTest(constraint=generate.__name__, round=at):
                    rng = random.Random(f"presolve {generate.__name__} {at}")
                    self.assertIsNone(lost(generate(rng)))

    def test_what_is_sought_is_bounded(self):
        for at in range(60):
            with self.subTest(round=at):
                self.assertFalse(misjudged(random.Random(f"goal {at}")))

    def test_bounds_that_nobody_writes(self):
        """The average load, numbers that differ, the last of tasks one at a time, and a clique."""
        model = Model()
        x = model.ints("x", 4, 0, 2)
        each = [weighted_sum([3, 3, 2, 2], [it == at for it in x]) for at in range(3)]
        y = model.ints("y", 5, 1, 9)
        z = model.ints("z", 3, 0, 50)
        model.add(all_different(y), no_overlap(interval(it, 4) for it in z))
        colour = model.ints("colour", 6, 1, 6)
        model.add(one != other for at, one in enumerate(colour[:4]) for other in colour[:at])
        sought = [maximum(each), maximum(y), maximum(it + 4 for it in z), maximum(colour)]
        for number, least in zip(sought, [4, 5, 12, 4]):
            model.minimize(number)
            self.assertEqual(Guessing(model, model.goal).least(), least)


def stronger(of, name, change):
    """A patch of a function by one that changes its result."""
    plain = getattr(of, name)
    return mock.patch.object(of, name, lambda *them: change(plain(*them), *them))


def turned_down(plain, bounds_of, atom, value):
    return plain(bounds_of, atom, value - 1)


@contextmanager
def untried(of, name):
    """A plan without a step is taken as it is."""
    with mock.patch.object(of, name, lambda *them: None):
        with mock.patch.object(Model, "is_solution", lambda *them: True):
            yield


AT_MOST, NARROW = bounds.Bounds.at_most, propagators.AtMostZero.narrow

# Each takes a value away that the constraints allow: a patch, and what has to see it.
MUTANTS = {
    "an upper bound one too low": lambda: mock.patch.object(
        bounds.Bounds, "at_most", lambda *them: turned_down(AT_MOST, *them)
    ),
    "a sum's least value one too great": lambda: stronger(
        propagators.AtMostZero, "least", lambda it, *them: it + 1
    ),
    "the slack of a sum rounded": lambda: mock.patch.object(
        propagators.AtMostZero,
        "narrow",
        lambda self, of, more=0: NARROW(self, of, more + 1),
    ),
    "a price one too great": lambda: stronger(propagators.Prices, "least", lambda it, *them: it + 1),
    "the first term one too great": lambda: stronger(
        propagators.AtMostZero, "each", lambda it, *them: [it[0] + 1, *it[1:]] if it else it
    ),
    "a full interval that isn't": lambda: stronger(
        propagators.Differ, "narrowed", lambda it, *them: [1 + least for least in it]
    ),
    "tasks one at a time begin too late": lambda: stronger(
        disjunctive, "earliest", lambda it, *them: [1 + first for first in it]
    ),
    "predecessors that end too late": lambda: stronger(
        disjunctive, "after_predecessors", lambda it, *them: it + 1
    ),
    "a profile that is too high": lambda: stronger(
        resources, "past_profile", lambda it, spans, demands, most: [1 + first for first in it]
    ),
    "a place beside others too late": lambda: stronger(
        resources, "first_place", lambda it, *them: it + 1
    ),
    "an energy that is rounded up": lambda: mock.patch.object(
        resources, "check_windows", lambda spans, demands, most: WINDOWS(spans, demands, most - 1)
    ),
    "one bin more than is needed": lambda: stronger(packing, "bins_needed", lambda it, *them: it + 1),
    "values that come too early": lambda: stronger(
        sequences.Precede, "run", lambda it, self, of: of.at_most(self.atoms[-1], self.values[0])
    ),
    "a row that is forgotten": lambda: mock.patch.object(
        propagators.Rows, "__init__", lambda self, atoms, rows: ROWS(self, atoms, rows[:-1])
    ),
    "a variable without its greatest value": lambda: stronger(
        bounds.Bounds, "domain", lambda it, *them: it[:-1] if len(it) > 1 else it
    ),
    "a clause that takes its first literal": lambda: mock.patch.object(
        propagators.Clause, "run", lambda self, of: propagators.make_true(of, self.literals[0])
    ),
    "a dual that is none": lambda: stronger(
        assignment.AssignmentCost, "__init__", lambda it, self, *them: setattr(self, "reduced", self.reduced + 1)
    ),
    "a best value one too great": lambda: stronger(
        presolve.Presolve, "least_possible", lambda it, *them: it + 1
    ),
    "a plan that is tried on nothing": lambda: untried(shops.Drawing, "take_comparison"),
    "values that come too early by one": lambda: mock.patch.object(
        sequences, "max", lambda *them: max(*them) - 1, create=True
    ),
}
WINDOWS, ROWS = resources.check_windows, propagators.Rows.__init__


class Mutants(unittest.TestCase):
    def is_refused(self):
        """Whether some case sees that a value is lost."""
        for at in range(12):
            for generate in [loads, packed, *GENERATORS]:
                rng = random.Random(f"mutant {generate.__name__} {at}")
                if lost(generate(rng)) is not None:
                    return True
            if any(misjudged(random.Random(f"mutant {at} {it}")) for it in range(4)):
                return True
        return False

    def test_steps_that_are_too_strong_are_refused(self):
        for name, patch in MUTANTS.items():
            with self.subTest(mutant=name), patch():
                self.assertTrue(self.is_refused())


# The same of what is written, with the cases that see it by the program.
WRITTEN = {
    "a count that leaves too much to the rest": (
        test_global_constraints.rows_of_truths,
        lambda: stronger(sequences.Running, "greatest", lambda it, *them: max(0, it - 1)),
    ),
    "two tasks of which one is first and isn't": (
        test_constraints.tasks_apart,
        lambda: mock.patch.object(disjunctive, "tie", lambda translation, it, literal: it.post(translation)),
    ),
    "an element without one of its places": (
        test_constraints.elements,
        lambda: mock.patch.object(
            functions,
            "channel_prices",
            lambda translation, made, support: CHANNEL(
                translation, made, {price: each[:-1] or each for price, each in support.items()}
            ),
        ),
    ),
    "rows without their last step": (
        test_global_constraints.alike_rows,
        lambda: mock.patch.object(tables, "layers_of", lambda rows: [it[:-1] or it for it in LAYERS(rows)]),
    ),
    "rows whose steps lead to one state": (
        test_global_constraints.alike_rows,
        lambda: mock.patch.object(
            tables, "layers_of", lambda rows: [[(0, cell, 0) for _, cell, _ in it] for it in LAYERS(rows)]
        ),
    ),
    "a price that every truth has": (
        test_global_constraints.prices,
        lambda: stronger(choices, "domain_of", lambda it, *them: it[:1] if len(it) > 1 else it),
    ),
}
CHANNEL, LAYERS = choices.channel_prices, tables.layers_of


class Written(unittest.TestCase):
    def setUp(self):
        need_program()

    def test_statements_that_are_too_strong_are_refused(self):
        for name, (generate, patch) in WRITTEN.items():
            with self.subTest(mutant=name), patch(), self.assertRaises(AssertionError):
                for at in range(30):
                    rng = random.Random(f"{name} {at}")
                    compare(self, generate(rng), rng)


if __name__ == "__main__":
    unittest.main()
