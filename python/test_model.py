"""Goals, answers, weights, refusals, and examples of the repository rewritten."""
import inspect
import itertools
import os
import random
import re
import stat
import subprocess
import tempfile
import unittest
from pathlib import Path

import test_constraints
import test_global_constraints
from beemodel import Model, ModelError, ProgramError, all_different, element, exactly_one, maximum
from beemodel import weighted_sum, weights
from beemodel.running import solve_text
from trying import PROGRAM, TOP, assignments, declare, need_program


LISTED = [*test_constraints.GENERATORS, *test_global_constraints.GENERATORS]


def setUpModule():
    need_program()


def line_here():
    """The file and the line that calls this."""
    frame = inspect.currentframe().f_back
    return f"{Path(frame.f_code.co_filename).name}:{frame.f_lineno}"


def weighed(text):
    """The lines that `bee weigh` writes of a text."""
    words = [PROGRAM, "weigh", "stdin"]
    ran = subprocess.run(words, input=text, capture_output=True, text=True, check=True)
    return ran.stdout.splitlines()


class Texts(unittest.TestCase):
    def test_small_model(self):
        model = Model()
        first, second = model.int("first", 1, 3), model.int("second", 1, 3)
        rain = model.bool("rain")
        model.add(first <= second, first != second, rain)
        model.minimize(second, then=first)
        self.assertEqual(
            model.text(presolve=False),
            "new_int(first,1,3)\nnew_int(second,1,3)\nnew_bool(rain)\nint_leq(first,second)\n"
            "int_neq(first,second)\nbool_array_or([rain])\nsolve minimize second then first\n",
        )

    def test_constraints_on_one_variable_narrow_its_domain(self):
        model = Model()
        x = model.int("x", 0, 9)
        model.add((x >= 2) & (x != 4), 2 * x <= 13)
        self.assertEqual(model.text(), "new_int(x,[2,3,5,6])\nsolve satisfy\n")

    def test_comparisons_with_a_constant_are_shared(self):
        model = Model()
        x, a, b = model.int("x", 0, 5), model.bool("a"), model.bool("b")
        model.add((x >= 3).implies(a), (x < 3).implies(b), (2 * x >= 5) | a)
        self.assertEqual(model.text().count("_reif"), 1)

    def test_a_long_sum_is_linear(self):
        model = Model()
        bits = [model.bool(f"b{it}") for it in range(20_000)]
        model.add(sum(bits) >= 1)
        self.assertEqual(len(model.text().splitlines()), 20_002)


class Goals(unittest.TestCase):
    def test_best_values(self):
        """Random sums are made least or greatest, one and two of them."""
        for at in range(12):
            rng = random.Random(at)
            domains = {"x": range(-2, 3), "y": [0, 2, 5], "b": "bool"}
            factors = [[rng.randint(-2, 2) for _ in domains] for _ in range(3)]
            bound, direction = rng.randint(0, 6), rng.choice(["minimize", "maximize"])
            model = Model()
            parts = [weighted_sum(it, declare(model, domains).values()) for it in factors[:1]]
            parts += [weighted_sum(it, model.variables.values()) for it in factors[1:]]
            model.add(parts[0] <= bound)
            second = None if at % 3 == 0 else parts[2]
            getattr(model, direction)(parts[1], then=second)
            answer = model.solve(program=PROGRAM)
            values = [
                tuple(sum(f * int(v) for f, v in zip(it, them.values())) for it in factors)
                for them in assignments(domains)
            ]
            allowed = [it[1:] if second is not None else it[1:2] for it in values if it[0] <= bound]
            with self.subTest(round=at):
                if not allowed:
                    self.assertEqual(answer.verdict, "UNSATISFIABLE")
                    continue
                best = min(allowed) if direction == "minimize" else max(allowed)
                self.assertEqual((answer.verdict, answer.optimum), ("OPTIMUM", best))
                self.assertEqual(answer[parts[1]], best[0])

    def test_a_constant_objective(self):
        model = Model()
        x = model.int("x", 4, 4)
        model.maximize(x * 2)
        self.assertEqual(model.solve(program=PROGRAM).optimum, (8,))


class Answers(unittest.TestCase):
    def test_no_solution(self):
        model = Model()
        x = model.int("x", 1, 3)
        model.add(x > 3)
        answer = model.solve(program=PROGRAM)
        self.assertEqual((answer.verdict, answer.values), ("UNSATISFIABLE", None))
        self.assertFalse(answer)
        with self.assertRaises(ProgramError):
            answer["x"]

    def test_spent_budget(self):
        model = Model()
        holes = [model.int(f"pigeon{it}", 1, 7) for it in range(8)]
        for one, other in itertools.combinations(holes, 2):
            model.add((one != other) | (one + other == 1))
        answer = model.solve(budget=3, program=PROGRAM)
        self.assertEqual((answer.verdict, answer.count_of_clauses), ("UNKNOWN", 3))
        self.assertIsNone(answer.values)

    def test_texts_are_kept_in_a_folder(self):
        model = Model()
        model.bool("rain")
        with tempfile.TemporaryDirectory() as room:
            model.solve(program=PROGRAM, folder=room)
            self.assertEqual(Path(room, "model.bee").read_text(), model.text())
            self.assertEqual(Path(room, "model.answer").read_text()[:6], "bee 1\n")

    def test_an_answer_that_is_not_accepted_gives_nothing(self):
        """A program that changes a value behind the solver's back."""
        model = Model()
        x, y = model.int("x", 1, 3), model.int("y", 1, 3)
        model.add(x < y)
        with tempfile.TemporaryDirectory() as room:
            false = Path(room, "bee")
            change = f'"{PROGRAM}" solve "$2" | sed "s/^x = .*/x = 3/"'
            false.write_text(f'#!/bin/sh\nif [ "$1" = solve ]; then {change}; exit 0; fi\n')
            with open(false, "a") as more:
                more.write(f'exec "{PROGRAM}" "$@"\n')
            os.chmod(false, stat.S_IRWXU)
            with self.assertRaisesRegex(ProgramError, "did not accept the answer: REFUSED"):
                model.solve(program=str(false))

    def test_no_program(self):
        with self.assertRaisesRegex(ProgramError, "no program at /nowhere"):
            Model().solve(program="/nowhere/bee")


class Weights(unittest.TestCase):
    def test_weights_are_the_program_s(self):
        """Models of each constraint are made too heavy by one integer: the refusal tells."""
        heavy = "new_int(heavy,1,22369623)\nnew_bool(more)"
        generators = [*LISTED]
        generators += [test_constraints.function(it) for it in test_constraints.FUNCTIONS]
        for at, generate in enumerate(generators):
            case = generate(random.Random(at))
            model = Model()
            model.add(case.make(declare(model, case.domains)))
            with self.subTest(constraint=generate.__name__, round=at):
                with self.assertRaisesRegex(ModelError, "weight") as refused:
                    solve_text(f"{heavy}\n{model.text(presolve=False)}", program=PROGRAM)
                weight = int(re.search(r"weight (\d+)", str(refused.exception))[1])
                self.assertEqual(weight - 67_108_865, model.weight(presolve=False))

    def test_items_weigh_what_the_program_says(self):
        """`bee weigh` beside the layer's own weights, item by item, of light models and heavy ones."""
        for at, generate in enumerate(LISTED):
            case = generate(random.Random(at))
            model = Model()
            model.add(case.make(declare(model, case.domains)))
            if at % 2:
                model.int("heavy", 1, 22_369_623)
            is_narrowed = at % 3 == 0
            items = [*enumerate((it.weight for it in model.written(is_narrowed).items), 1)]
            whole = model.weight(is_narrowed)
            lines = [f"weight {whole} of {weights.LIMIT}"] + [
                f"item {number} {weight} {100 * weight // (whole or 1)}%"
                for number, weight in sorted(items, key=lambda it: -it[1])[:10]
            ]
            with self.subTest(constraint=generate.__name__, round=at):
                self.assertEqual(weighed(model.text(is_narrowed)), lines)

    def test_a_heavy_model_is_refused_with_its_lines(self):
        model = Model()
        x, y = model.int("x", 0, 3000), model.int("y", 0, 3000)
        line = line_here()
        model.add(x * y == 17)
        heaviest, share = model.heaviest(1)[0]
        self.assertEqual(heaviest.split(":")[1], str(int(line.split(":")[1]) + 1))
        self.assertGreater(share, weights.LIMIT)
        with self.assertRaisesRegex(ModelError, f"above 67108864; heaviest: {heaviest} {share}"):
            model.solve(program=PROGRAM)


class Refusals(unittest.TestCase):
    def refused(self, pattern, call):
        """The call is refused with a message that fits."""
        with self.assertRaisesRegex(ModelError, pattern):
            call()

    def test_names(self):
        model = Model()
        model.int("x", 1, 2)
        for name in ("", "1x", "_x", "a b", "é", "x-y", "true", 7):
            self.refused(r"test_model.py:\d+: .*name", lambda: model.bool(name))
        self.refused("x is declared already, at test_model.py", lambda: model.int("x", 1, 2))

    def test_domains(self):
        model = Model()
        self.refused("x: the domain has no value", lambda: model.int("x", 3, 1))
        self.refused("x: the domain has no value", lambda: model.int("x", []))
        self.refused("x: 1073741825 is beyond", lambda: model.int("x", [0, 1073741825]))
        self.refused("x: -1073741825 is beyond", lambda: model.int("x", -1073741825, 0))
        self.refused("x: 30000001 values weigh", lambda: model.int("x", 0, 30_000_000))
        self.refused("x: 1.5 is no whole number", lambda: model.int("x", 1, 1.5))

    def test_numbers_beyond_the_language(self):
        model = Model()
        x, y = model.int("x", 0, 1), model.int("y", 0, 1)
        model.add(3 * x + 5_000_000_000 * y <= 7)
        line = line_here().split(":")[1]
        pattern = rf"test_model.py:{int(line) - 1}: 3\*x \+ 5000000000\*y .*: the number 5000000000"
        self.refused(pattern, lambda: model.text(presolve=False))

    def test_expressions(self):
        model, other = Model(), Model()
        x, b, strange = model.int("x", -1, 5), model.bool("b"), other.int("z", 0, 3)
        here = r"test_model.py:\d+: "
        self.refused(here + "x: 1.5 is no whole number", lambda: x * 1.5)
        self.refused(here + "an expression: 'y' is no whole number", lambda: x + "y")
        self.refused(here + ".*no truth value in Python", lambda: 1 < x < 3)
        self.refused(here + "x: this is no Boolean", lambda: b & x)
        self.refused(here + "x: this is no Boolean", lambda: model.add(x))
        self.refused(here + "None: this is no Boolean", lambda: model.add(None))
        self.refused(here + "all_different: .* 1 and 2", lambda: all_different([x], [b, b]))
        self.refused(here + "maximum of no numbers", lambda: maximum([]))
        self.refused(here + "weighted_sum: .* 1 and 2", lambda: weighted_sum([1], [x, b]))
        self.refused(here + "the place -1: .* 0 to 1", lambda: element([4, 9], -1))
        self.refused(here + "the place 2: .* 0 to 1", lambda: element([4, 9], 2))
        model.add(x + strange == 4)
        self.refused(here + r".*x \+ z.*z is declared in another model", model.text)

    def test_division(self):
        model = Model()
        x, y = model.int("x", -1, 5), model.int("y", 0, 3)
        model.add(x // 2 == y)
        self.refused("the dividend x may be -1", model.text)
        model.add(x >= 0, (x + 1) % y == 0)
        self.refused("the divisor y may be 0", model.text)


def knapsack(model):
    """`examples/knapsack.bee`."""
    tent = model.int("tent", 0, 1)
    water, food, books, blankets = (
        model.int(it, 0, 3) for it in ("water", "food", "books", "blankets")
    )
    things = [tent, water, food, books, blankets]
    model.add(weighted_sum([4, 2, 3, 1, 2], things) <= 15, food <= water)
    model.maximize(weighted_sum([12, 5, 9, 2, 6], things))


def golomb_ruler(model):
    """`examples/golomb_ruler.bee`."""
    marks = [0, *(model.int(it, 1, 9) for it in ("second", "third", "fourth"))]
    model.add(one < other for one, other in zip(marks[1:], marks[2:]))
    distances = [other - one for one, other in itertools.combinations(marks, 2)]
    model.add(all_different(distances), (it >= 1 for it in distances))
    model.minimize(marks[3])


def send_more_money(model):
    """`examples/send_more_money.bee`, as one sum in place of the columns."""
    letters = {it: model.int(it, 1 if it in "sm" else 0, 9) for it in "sendmory"}

    def number(word):
        return sum(10**at * letters[it] for at, it in enumerate(reversed(word)))

    model.add(all_different(letters.values()))
    model.add(number("send") + number("more") == number("money"))


def job_shop(model):
    """`examples/job_shop.bee`."""
    jobs = {"a": [(1, 3), (2, 2), (3, 2)], "b": [(1, 2), (3, 1), (2, 4)], "c": [(2, 4), (3, 3)]}
    machines, ends = {}, []
    for job, tasks in jobs.items():
        before = 0
        for machine, hours in tasks:
            start = model.int(f"{job}{machine}", 0, 13 - hours)
            model.add(start >= before)
            machines.setdefault(machine, []).append((start, hours))
            before = start + hours
        ends.append(before)
    for tasks in machines.values():
        for (one, first), (other, second) in itertools.combinations(tasks, 2):
            model.add((one + first <= other) | (other + second <= one))
    model.minimize(maximum(ends))


def timetable(model):
    """`examples/timetable.bee`."""
    days = {"1": range(1, 6), "2": range(6, 11)}
    lessons = {}
    for group in "abc":
        own = {f"{it}{day}": days[day] for it in ("maths", "english") for day in days}
        own["physics1"] = [1, 2, 3, 4, 6, 7, 8, 9]
        own["physics2"] = [it + 1 for it in own["physics1"]]
        own |= {"sport": [3, 4, 5, 8, 9, 10], "music": range(1, 11)}
        mine = {f"{group}_{it}": model.int(f"{group}_{it}", own[it]) for it in own}
        model.add(all_different(mine.values()))
        model.add(mine[f"{group}_physics2"] == mine[f"{group}_physics1"] + 1)
        lessons |= mine

    def apart(pattern):
        model.add(all_different(it for name, it in lessons.items() if re.fullmatch(pattern, name)))

    apart("[ab]_maths.|c_sport")
    apart("c_(maths|physics).")
    apart("._english.")
    apart("[ab]_physics.")
    apart("._music|[ab]_sport")
    apart("._sport")
    apart("._physics.")
    model.add(lessons["c_maths1"] != 1, lessons["c_maths2"] != 6)
    model.add(lessons["c_physics1"] != 1, lessons["c_physics1"] != 6)
    model.add(lessons[f"a_maths{it}"] < lessons[f"a_english{it}"] for it in "12")
    out, music = model.int("out", 6, 10), model.int("music", 1, 10)
    last = [it for name, it in lessons.items() if re.fullmatch("._(.*2|sport|music)", name)]
    model.add(out == maximum(last))
    model.add(music == maximum(it for name, it in lessons.items() if "music" in name))
    model.minimize(out, then=music)


def seating(model):
    """`examples/seating.bee`, with a Boolean for each guest and seat."""
    guests = ("ada", "ben", "cleo", "dan")
    seats = {it: [model.bool(f"{it}_{at}") for at in range(1, 5)] for it in guests}
    model.add(exactly_one(it) for it in seats.values())
    model.add(exactly_one(column) for column in zip(*seats.values()))
    place = {it: weighted_sum(range(1, 5), row) for it, row in seats.items()}
    model.add(abs(place["ada"] - place["ben"]) > 1, abs(place["cleo"] - place["dan"]) == 1)
    model.add(place["dan"] != 1, place["dan"] != 4)


class Examples(unittest.TestCase):
    """The verdicts are those of the table in `examples/README.md`."""

    def answer(self, build):
        model = Model()
        build(model)
        return model.solve(program=PROGRAM)

    def test_verdicts(self):
        verdicts = {
            knapsack: "OPTIMUM 44",
            golomb_ruler: "OPTIMUM 6",
            job_shop: "OPTIMUM 11",
            timetable: "OPTIMUM 9 3",
            seating: "SATISFIABLE",
            send_more_money: "SATISFIABLE",
        }
        table = (TOP / "examples/README.md").read_text()
        for build, verdict in verdicts.items():
            with self.subTest(example=build.__name__):
                self.assertRegex(table, rf"`{build.__name__}.bee` .*\| {verdict} \|")
                answer = self.answer(build)
                numbers = [str(it) for it in answer.optimum or ()]
                self.assertEqual(" ".join([answer.verdict, *numbers]), verdict)

    def test_send_more_money_has_its_one_solution(self):
        values = self.answer(send_more_money).values
        self.assertEqual([values[it] for it in "sendmory"], [9, 5, 6, 7, 1, 0, 8, 2])


if __name__ == "__main__":
    unittest.main()
