"""Lists of all solutions, and constraints that cannot hold together."""
import inspect
import itertools
import os
import random
import stat
import tempfile
import unittest
from pathlib import Path

import test_constraints
from beemodel import Model, ModelError, ProgramError, all_different, exactly_one, total
from trying import PROGRAM, assignments, declare, need_program

# So many cases of each kind of constraint.
ROUNDS = 2


def setUpModule():
    need_program()


def line_here():
    """The file and the line that calls this."""
    frame = inspect.currentframe().f_back
    return f"{Path(frame.f_code.co_filename).name}:{frame.f_lineno}"


def pigeons(count, holes):
    """So many pigeons, of which no two have one of the holes."""
    model = Model()
    model.add(all_different([model.int(f"p{it}", 1, holes) for it in range(count)]))
    return model


def hard_pigeons():
    """Seven pigeons and six holes, said by pairs, so that no rule sees it."""
    model = Model()
    holes = [model.int(f"pigeon{it}", 1, 6) for it in range(7)]
    for one, other in itertools.combinations(holes, 2):
        model.add((one != other) | (one + other == 1))
    return model


def values_in_lists(case, model):
    """The solutions of a case, as `all` lists them and as trying all assignments finds them."""
    model.add(case.make(declare(model, case.domains)))
    listed = model.all(program=PROGRAM)
    return listed, [it for it in assignments(case.domains) if case.means(it)]


class Lists(unittest.TestCase):
    def test_each_constraint(self):
        """Every solution once, of each constraint at random."""
        generators = [*test_constraints.GENERATORS]
        generators += [test_constraints.function(it) for it in test_constraints.FUNCTIONS]
        for at, generate in itertools.product(range(ROUNDS), generators):
            case = generate(random.Random(at))
            if len(assignments(case.domains)) > 2_000:
                continue
            with self.subTest(constraint=generate.__name__, round=at):
                listed, known = values_in_lists(case, Model())
                self.assertTrue(listed.is_complete)
                self.assertCountEqual(map(str, listed.values), map(str, known))

    def test_values_of_names_and_expressions(self):
        model = Model()
        x, y, rain = model.int("x", 1, 3), model.int("y", 1, 3), model.bool("rain")
        model.add(x < y, rain.implies(x == 1))
        model.minimize(x)
        listed = model.all(program=PROGRAM)
        self.assertEqual((listed.verdict, len(listed), listed.count_of_clauses), ("ALL", 5, None))
        self.assertEqual(sorted(it[x + y] for it in listed), [3, 3, 4, 4, 5])
        self.assertEqual([*map(type, listed.values[0].values())], [int, int, bool])
        self.assertEqual(len(listed[1:3]), 2)

    def test_no_solution(self):
        listed = pigeons(4, 3).all(program=PROGRAM)
        self.assertEqual((listed.verdict, listed.values), ("ALL", []))
        self.assertFalse(listed)

    def test_spent_budget(self):
        listed = hard_pigeons().all(budget=1, program=PROGRAM)
        self.assertEqual((listed.verdict, listed.count_of_clauses), ("PARTIAL", 1))
        self.assertFalse(listed.is_complete)

    def test_texts_are_kept_in_a_folder(self):
        with tempfile.TemporaryDirectory() as room:
            pigeons(2, 2).all(program=PROGRAM, folder=room)
            self.assertEqual(Path(room, "model.answer").read_text()[:10], "bee all 1\n")

    def test_a_list_that_is_not_accepted_gives_nothing(self):
        """A program that leaves the last solution out behind the solver's back."""
        with tempfile.TemporaryDirectory() as room:
            false = Path(room, "bee")
            change = f'"{PROGRAM}" all "$2" | sed "s/^ALL 2/ALL 1/"'
            false.write_text(f'#!/bin/sh\nif [ "$1" = all ]; then {change}; exit 0; fi\n')
            with open(false, "a") as more:
                more.write(f'exec "{PROGRAM}" "$@"\n')
            os.chmod(false, stat.S_IRWXU)
            with self.assertRaisesRegex(ProgramError, "checkall did not accept .*: REFUSED"):
                pigeons(2, 2).all(program=str(false))


class Cores(unittest.TestCase):
    def test_lines_and_constraints(self):
        model = Model()
        x, y, z = (model.int(it, 1, 4) for it in "xyz")
        model.add(x < y)
        first = line_here()
        model.add(x != 2, z <= 3, y + z >= 3)
        model.add(y < z)
        last = line_here()
        model.add(x >= 3)
        core = model.core(program=PROGRAM)
        self.assertTrue(core)
        self.assertEqual(core.verdict, "CORE")
        numbers = [int(it.split(":")[1]) - 1 for it in (first, last)]
        found = [int(it.line.split(":")[1]) for it in core.constraints]
        self.assertEqual(found, [numbers[0], numbers[1], numbers[1] + 2])
        self.assertEqual(len(str(core).splitlines()), 3)
        self.assertGreaterEqual(len(core.statements), 3)

    def test_constraints_that_cannot_hold_together(self):
        """At random: no assignment meets those that are named, and some are left out."""
        left_out = 0
        for at in range(30):
            rng, model = random.Random(at), Model()
            names = {it: model.int(it, 0, 3) for it in "wxyz"}
            for _ in range(12):
                some = rng.sample([*names.values()], 2)
                bound, factor = rng.randint(-2, 5), rng.choice((1, -1, 2))
                model.add(some[0] + factor * some[1] <= bound)
                model.add((some[0] != bound) | (total(some) == bound))
            core = model.core(program=PROGRAM)
            tests = [it.truth for it in core.constraints or model.constraints]
            each = assignments({it: range(4) for it in names})
            is_met = any(all(it.holds(values) for it in tests) for values in each)
            with self.subTest(round=at):
                self.assertEqual(core.verdict, "SATISFIABLE" if is_met else "CORE")
            left_out += len(model.constraints) - len(tests)
        self.assertGreater(left_out, 100)

    def test_each_expression(self):
        """What an expression is states nothing: the comparison with it is named alone."""
        for at, generate in enumerate(test_constraints.GENERATORS):
            case = generate(random.Random(at))
            if len(assignments(case.domains)) > 2_000:
                continue
            model = Model()
            truths = case.make(declare(model, case.domains))
            model.add(truths)
            model.add(~it if not isinstance(it, bool) else not it for it in truths[:1])
            try:
                core = model.core(program=PROGRAM)
            except ModelError:
                continue  # this one stands in no other expression
            with self.subTest(constraint=generate.__name__):
                self.assertEqual(core.verdict, "CORE")
                self.assertLessEqual(len(core.constraints), len(model.constraints))

    def test_a_solution(self):
        model = Model()
        rain, sun = model.bool("rain"), model.bool("sun")
        model.add(exactly_one([rain, sun]), rain)
        core = model.core(program=PROGRAM)
        self.assertFalse(core)
        self.assertEqual((core.verdict, core.values), ("SATISFIABLE", {"rain": True, "sun": False}))
        self.assertEqual((core.constraints, str(core)), (None, "SATISFIABLE"))

    def test_spent_budget(self):
        core = hard_pigeons().core(budget=1, program=PROGRAM)
        self.assertEqual((core.verdict, core.count_of_clauses), ("UNKNOWN", 1))
        self.assertFalse(core)


if __name__ == "__main__":
    unittest.main()
