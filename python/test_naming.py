"""Arrays of variables, names of constraints, soft constraints, and what is told of faults."""
import unittest
from unittest import mock

from beemodel import (
    Model,
    ModelError,
    all_different,
    element,
    interval,
    maximum,
    no_overlap,
    table,
    total,
    translation,
)
from trying import PROGRAM, need_program


def setUpModule():
    need_program()


class Arrays(unittest.TestCase):
    def test_shapes(self):
        model = Model()
        x, works = model.ints("x", 3, 1, 5), model.bools("works", (2, 2))
        load = model.ints("load", ["a b", ("c", 1)], [0, 4])
        self.assertEqual([str(it) for it in x], ["x[0]", "x[1]", "x[2]"])
        self.assertEqual([[it.name for it in row] for row in works][1], ["works_1_0", "works_1_1"])
        self.assertEqual([it.name for it in load.values()], ["load_a_b", "load_c_1"])
        self.assertEqual(repr([x[1], works[0][1]]), "[<x[1] in 1..5>, <works[0, 1]>]")
        self.assertEqual(model.ints("none", 0, 1, 5), [])

    def test_names_are_free(self):
        model = Model()
        model.bool("x_1")
        model.ints("x", ["1", 1], 0, 1)
        unnamed = model.int(None, 0, 3), model.bool()
        self.assertEqual(len({*model.variables}), 5)
        self.assertTrue(all(model.variables[it.name] is it for it in unnamed))


class Blame(unittest.TestCase):
    def refused_model(self):
        model = Model()
        x = model.ints("x", 3, 1, 3)
        model.add(x[0] > x[1], name="first behind second")
        model.add(x[1] > x[2], name="second behind third")
        model.add(x[2] > 1)
        model.add(x[0] != x[2], name="first and third differ")
        return model

    def test_a_core_has_names(self):
        core = self.refused_model().core(program=PROGRAM)
        self.assertIn("test_naming.py", str(core))
        self.assertEqual({it.name for it in core.constraints}, {"first behind second", "second behind third", None})
        cures = self.refused_model().cures(core, program=PROGRAM)
        self.assertEqual({*cures}, {"first behind second", "second behind third"})

    def test_soft_constraints(self):
        model = Model()
        x = model.ints("x", 3, 1, 3)
        model.add(all_different(x))
        model.soft(x[0] == x[1], 5)
        model.soft(x[0] == 3, 2)
        model.soft(x[1] == 3, name="the second is 3")
        model.minimize(model.penalty)
        answer = model.solve(program=PROGRAM)
        self.assertEqual((answer.optimum, answer[x[0]]), ((6,), 3))
        unmet = [(price, it.name) for price, it in answer.unmet()]
        self.assertEqual(unmet, [(5, None), (1, "the second is 3")])

    def test_cures_have_prices(self):
        """Without the first name x can be 3, 3, 2, and without the second one 2, 1, 3."""
        model = self.refused_model()
        x = [*model.variables.values()]
        core = model.core(program=PROGRAM)
        self.assertEqual(model.prices(core, program=PROGRAM), dict.fromkeys(model.cures(core, program=PROGRAM), 0))
        model.soft(x[0] == x[1], 4)
        model.soft(x[2] == 3, 2)
        prices = model.prices(core, program=PROGRAM)
        self.assertEqual(prices, {"first behind second": 2, "second behind third": 4})

    def test_faults_tell_names(self):
        model, other = Model(), Model()
        x, strange = model.ints("x", 2, 1, 3), other.int("strange", 1, 3)
        for pattern, call in [
            ("maximum and minimum in place of max and min", lambda: max(x[0], x[1])),
            (r"y: x\[1\] is an expression, and a number is wanted", lambda: model.int("y", 1, x[1])),
            (r"a cell of a table: x\[0\] \+ 1 is an expression", lambda: table(x, [(1, x[0] + 1)])),
            (r"x\[0\]: a whole number is wanted here", lambda: [3, 1, 2][x[0]]),
            (r"x\[0\]: this is one expression, and a list is wanted", lambda: total(x[0])),
            (r"x\[1\]: this is one expression, and a list is wanted", lambda: all_different(x, x[1])),
            (r"x\[0\]: this is no Boolean", lambda: x[0] & (x[1] == 1)),
            (r"x\[0\]: this is no Boolean", lambda: x[0].implies(x[1] == 1)),
            (r"x\[1\]: numbers are whole, and // divides them", lambda: x[1] / 2),
            (r"x\[1\]: a power is written as a product", lambda: x[1] ** 2),
            ("strange is a variable of another model, declared at test_naming", lambda: strange.value({"x_0": 1})),
            ("no_overlap: .* is no interval", lambda: no_overlap([x[0]])),
        ]:
            with self.subTest(pattern=pattern):
                self.assertRaisesRegex(ModelError, pattern, call)

    def test_a_text_that_grows_too_long_is_refused(self):
        model = Model()
        x = model.ints("x", 4, 0, 30)
        model.add((one != other) | (one + other == 3) for one in x for other in x)
        with mock.patch.object(translation, "LONGEST", 500):
            self.assertRaisesRegex(ModelError, r"longest by then: test_naming.py:\d+ \d+", model.text)


class Guesses(unittest.TestCase):
    def shop(self):
        """Three tasks one at a time, of which two may end late."""
        model = Model()
        x = model.ints("x", 3, 0, 40)
        model.add(no_overlap(interval(it, 5) for it in x), x[0] + x[1] >= 24)
        model.minimize(maximum(it + 5 for it in x))
        return model

    def test_a_guess_that_is_too_low_is_doubled(self):
        for guess in (3, 16, 19, 20, 33, 60):
            with self.subTest(guess=guess):
                self.assertEqual(self.shop().solve(program=PROGRAM, at_most=guess).optimum, (20,))
        self.assertEqual(self.shop().solve(program=PROGRAM, presolve=False).optimum, (20,))

    def test_a_guess_where_there_is_no_solution(self):
        model = self.shop()
        x = [*model.variables.values()]
        model.add(element([9, 8, 9], x[0] % 3) == x[1], total(x) == 14)
        for guess in (None, 7):
            self.assertEqual(model.solve(program=PROGRAM, at_most=guess).verdict, "UNSATISFIABLE")

    def test_the_greatest_is_guessed_from_above(self):
        model = Model()
        x = model.ints("x", 2, 0, 9)
        model.add(2 * x[0] + 3 * x[1] <= 17)
        model.maximize(x[0] + 2 * x[1])
        for guess in (None, 14, 11, 3):
            self.assertEqual(model.solve(program=PROGRAM, at_least=guess).optimum, (11,))
        with self.assertRaisesRegex(ModelError, "solve: at_most bounds a goal that is stated by minimize"):
            model.solve(program=PROGRAM, at_most=3)


if __name__ == "__main__":
    unittest.main()
