"""Searches that are stopped, begun from values, and bettered; and where the program is sought."""
import contextlib
import io
import itertools
import operator
import os
import random
import re
import shutil
import signal
import stat
import subprocess
import sys
import tempfile
import textwrap
import time
import unittest
from pathlib import Path
from unittest import mock

from beemodel import Model, ModelError, ProgramError, all_different, maximum, total
from beemodel.neighbourhoods import Structure
from beemodel.program import places, program_of
from beemodel.running import solve_text
from trying import PROGRAM, TOP, need_program

# A sum is sought; and a program that never ends once it has told solutions of it.
TEXT = """\
new_int(x,1,3)
new_int(y,1,3)
new_int(sum,2,6)
int_plus(x,y,sum)
int_lt(x,y)
solve minimize sum
"""
ENDLESS = """\
#!/bin/sh
if [ "$1" = solve ]; then
  echo "bee: best 5, 3 clauses learned" >&2
  printf 'x = 2\\ny = 3\\nsum = 5\\n' >&2
  echo "bee: best 4, 7 clauses learned" >&2
  printf 'x = 1\\ny = VALUE\\nsum = 4\\n' >&2
  echo "bee: best 2, 9 clauses learned" >&2
  printf 'x = 1\\n' >&2
  sleep 1000 &
  echo $! > "$0.pid"
  wait
fi
exec "PROGRAM" "$@"
"""


def setUpModule():
    need_program()


def ruler(marks):
    """A Golomb ruler: of ten marks a shortest one takes the program minutes."""
    model = Model()
    ends = [model.int(f"mark{it}", 0, marks * marks) for it in range(marks)]
    model.add(one < other for one, other in zip(ends, ends[1:]))
    model.add(ends[0] == 0)
    pairs = itertools.combinations(ends, 2)
    apart = [model.int(f"apart{at}", 1, marks * marks) for at, _ in enumerate(pairs)]
    for it, (one, other) in zip(apart, itertools.combinations(ends, 2)):
        model.add(one + it == other)
    model.add(all_different(apart))
    model.minimize(ends[-1])
    return model, ends


def two():
    """Two integers whose sum, at least 2, is sought; the text has three names."""
    model = Model()
    x, y = model.int("x", 1, 3), model.int("y", 1, 3)
    model.add(x != y + 1)
    model.minimize(x + y)
    return model, x, y


def shop(jobs, machines, seed):
    """A job shop: each job has a task on each machine, and the last end is sought."""
    model, chance = Model(), random.Random(seed)
    tasks, on = [], {it: [] for it in range(machines)}
    for job in range(jobs):
        order = chance.sample(range(machines), machines)
        row = [(model.int(f"job{job}_{at}", 0, 60), chance.randint(1, 9)) for at in order]
        for (one, length), (other, _) in zip(row, row[1:]):
            model.add(one + length <= other)
        for machine, task in zip(order, row):
            on[machine].append(task)
        tasks.append(row)
    for held in on.values():
        for (one, length), (other, far) in itertools.combinations(held, 2):
            model.add((one + length <= other) | (other + far <= one))
    model.minimize(maximum(row[-1][0] + row[-1][1] for row in tasks))
    return model


def children():
    """The processes of this one that run."""
    ran = subprocess.run(["ps", "-o", "pid=", "--ppid", str(os.getpid())], capture_output=True)
    return len(ran.stdout.split()) - 1


def is_solution(model, values):
    """Whether the values satisfy every constraint."""
    return all(it.truth.holds(values) for it in model.constraints)


class Stopped(unittest.TestCase):
    def false_program(self, last="3"):
        """The endless program in a folder of its own."""
        folder = tempfile.TemporaryDirectory()
        self.addCleanup(folder.cleanup)
        path = Path(folder.name, "bee")
        path.write_text(ENDLESS.replace("PROGRAM", PROGRAM).replace("VALUE", last))
        path.chmod(stat.S_IRWXU)
        return str(path)

    def test_seconds(self):
        """The best values satisfy every constraint and are the last that the function got."""
        model, ends = ruler(10)
        found = []
        how = {"on_solution": found.append, "program": PROGRAM, "presolve": False}
        for seconds in (3, 12, 48):  # on a machine with much other work
            begun = time.monotonic()
            answer = model.solve(seconds=seconds, **how)
            self.assertLess(time.monotonic() - begun, 20 * seconds)
            self.assertEqual((answer.verdict, answer.stopped), ("UNKNOWN", "seconds"))
            self.assertEqual(children(), 0)
            if found:
                break
        self.assertTrue(answer.is_checked)
        self.assertEqual(answer.values, found[-1].values)
        self.assertEqual((answer.objective, answer[ends[-1]]), (found[-1].objective,) * 2)
        self.assertTrue(is_solution(model, answer.values))
        self.assertGreaterEqual(answer.objective, answer.bound)
        told = [it.objective for it in found]
        self.assertEqual(told, sorted(set(told), reverse=True))
        self.assertEqual(len(answer.run.steps), len(found))
        self.assertEqual(repr(answer), f"<Answer UNKNOWN, checked, objective {told[-1]}, bound {answer.bound}>")

    def test_a_part_of_a_solution_is_none(self):
        """The program's last solution is cut: the one before is the best."""
        answer = solve_text(TEXT, seconds=0.5, program=self.false_program())
        self.assertEqual(answer.values, {"x": 1, "y": 3, "sum": 4})
        self.assertEqual((answer.objective, answer.bound), (4, 2))
        self.assertEqual(answer.count_of_clauses, 9)
        self.assertEqual(children(), 0)

    def test_what_is_no_solution_is_not_kept(self):
        with self.assertRaisesRegex(ProgramError, "check did not accept .*: REFUSED"):
            solve_text(TEXT, seconds=0.5, program=self.false_program("2"))

    def test_no_solution_yet(self):
        model, _ = ruler(11)
        answer = model.solve(seconds=0.0, program=PROGRAM, presolve=False)
        self.assertEqual((answer.verdict, answer.values, answer.is_checked), ("UNKNOWN", None, False))
        self.assertRegex(repr(answer), r"^<Answer UNKNOWN, no solution known, bound \d+>$")

    def test_a_function_that_fails_ends_the_program(self):
        with self.assertRaises(ZeroDivisionError):
            solve_text(TEXT, on_found=lambda found: 1 / 0, program=self.false_program())
        self.assertEqual(children(), 0)

    def test_what_the_program_has_begun_is_ended(self):
        program = self.false_program()
        solve_text(TEXT, seconds=2, program=program)
        pid = int(Path(f"{program}.pid").read_text())
        for _ in range(100):
            try:
                state = Path(f"/proc/{pid}/stat").read_text().rpartition(")")[2].split()[0]
            except FileNotFoundError:
                return
            if state == "Z":
                return
            time.sleep(0.1)
        self.fail(f"the process {pid} still runs")

    def test_interrupt(self):
        """An interrupt that reaches Python alone, and one that reaches the group of processes."""
        script = """
            import sys
            sys.path.insert(0, sys.argv[1])
            import test_running
            told = lambda found: print(found.objective, found["x"], found["y"], flush=True)
            answer = test_running.solve_text(test_running.TEXT, on_found=told, program=sys.argv[2])
            print(repr(answer), answer.stopped, answer["sum"], test_running.children())
        """
        for is_group in (False, True):
            with self.subTest(group=is_group):
                words = [sys.executable, "-B", "-c", textwrap.dedent(script)]
                words += [str(TOP / "python"), self.false_program()]
                how = {"PYTHONPATH": str(TOP / "python"), **os.environ}
                child = subprocess.Popen(
                    words, stdout=subprocess.PIPE, text=True, process_group=0, env=how
                )
                told = [child.stdout.readline() for _ in range(2)]
                (os.killpg if is_group else os.kill)(child.pid, signal.SIGINT)
                rest, _ = child.communicate(timeout=60)
                self.assertEqual(told, ["5 2 3\n", "4 1 3\n"])
                line = "<Answer UNKNOWN, checked, objective 4, bound 2> interrupt 4 0\n"
                self.assertEqual((rest, child.returncode), (line, 0))

    def test_budget(self):
        model, ends = ruler(9)
        answer = model.solve(budget=20, program=PROGRAM)
        self.assertEqual((answer.verdict, answer.stopped), ("UNKNOWN", "budget"))
        self.assertEqual(answer.count_of_clauses, 20)
        self.assertTrue(answer.is_checked)
        if answer:
            self.assertEqual(answer.objective, answer[ends[-1]])
        self.assertGreater(answer.run.proof.lines, 19)

    def test_whole_answers_tell_objective_and_bound(self):
        model, x, y = two()
        found = []
        answer = model.solve(seconds=60, on_solution=found.append, program=PROGRAM)
        self.assertEqual((answer.verdict, answer.objective, answer.bound), ("OPTIMUM", 2, 2))
        self.assertEqual((found[-1][x], found[-1][x + y], answer.stopped), (1, 2, None))
        self.assertEqual(list(found[-1].values), ["x", "y"])

    def test_progress(self):
        """Shown on standard error alone where it is wanted, without the values."""
        for is_shown in (False, True):
            with contextlib.redirect_stderr(io.StringIO()) as told:
                solve_text(TEXT, seconds=0.5, progress=is_shown, program=self.false_program())
            lines = [re.sub(r"[\d.]+ s$", "s", it) for it in told.getvalue().splitlines()]
            heads = ["bee: best 5, 3 clauses learned, s", "bee: best 4, 7 clauses learned, s"]
            self.assertEqual(lines, heads if is_shown else [])

    def test_any_solution_is_handed_on_once(self):
        model, found = Model(), []
        model.add(model.int("x", 1, 3) > 2)
        model.solve(on_solution=found.append, program=PROGRAM)
        self.assertEqual([it.values for it in found], [{"x": 3}])

    def test_texts_of_the_best_one_are_kept_in_a_folder(self):
        with tempfile.TemporaryDirectory() as room:
            solve_text(TEXT, seconds=0.5, folder=room, program=self.false_program())
            words = [PROGRAM, "check", f"{room}/best.bee", f"{room}/best.answer"]
            ran = subprocess.run(words, capture_output=True, text=True)
            self.assertEqual(ran.stdout, "ACCEPTED SATISFIABLE\n")
            self.assertTrue(Path(room, "best.bee").read_text().endswith("\nsolve satisfy\n"))
            self.assertFalse(Path(room, "model.answer").exists())


class Begun(unittest.TestCase):
    def test_a_solution_is_never_lost(self):
        """One that the search by itself does not find by then."""
        model, _ = ruler(9)
        known = model.solve(budget=300, program=PROGRAM)
        by_variable = {it: known[name] for name, it in model.variables.items()}
        for start in (known, known.values, by_variable):
            answer = model.solve(seconds=0.001, start=start, program=PROGRAM)
            self.assertTrue(answer)
            self.assertLessEqual(answer.objective, known.objective)
            self.assertTrue(is_solution(model, answer.values))

    def test_what_is_no_solution_does_no_harm(self):
        model, x, y = two()
        for start in ({x: 3, y: 2}, {"x": 17}, {x: 2}, {}):
            with self.subTest(start=start):
                answer = model.solve(start=start, program=PROGRAM)
                self.assertEqual((answer.verdict, *answer.optimum), ("OPTIMUM", 2))

    def test_a_model_without_a_goal(self):
        model = Model()
        x, rain = model.int("x", 1, 9), model.bool("rain")
        model.add(rain.implies(x > 4))
        answer = model.solve(start={x: 7, rain: 1}, program=PROGRAM)
        self.assertEqual((answer.verdict, answer[x], answer[rain]), ("SATISFIABLE", 7, True))
        answer = model.solve(start={x: 2, rain: True}, program=PROGRAM)
        self.assertEqual(answer.verdict, "SATISFIABLE")

    def test_names_of_other_models(self):
        model, x, _ = two()
        other = Model().int("x", 1, 3)
        for start, told in (({"z": 1}, "no variable z"), ({other: 1}, "another model")):
            with self.assertRaisesRegex(ModelError, rf"test_running.py:\d+: start: .*{told}"):
                model.solve(start=start, program=PROGRAM)
        with self.assertRaisesRegex(ModelError, "start: x: 1.5 is no whole number"):
            model.solve(start={x: 1.5}, program=PROGRAM)


class Resumed(unittest.TestCase):
    """A program that has the mode `resume`: here one that keeps the values and solves."""

    def setUp(self):
        folder = tempfile.TemporaryDirectory()
        self.addCleanup(folder.cleanup)
        self.kept, self.program = Path(folder.name, "kept"), Path(folder.name, "bee")
        lines = ["#!/bin/sh", 'if [ "$1" = resume ]; then', f'  cp "$3" "{self.kept}"; model=$2; shift 3']
        lines += [f'  exec "{PROGRAM}" solve "$model" "$@"', "fi", f'exec "{PROGRAM}" "$@"']
        self.program.write_text("\n".join(lines) + "\n")
        self.program.chmod(stat.S_IRWXU)

    def test_values_are_handed_on(self):
        """By name, but for those that are in no domain of the text."""
        model = Model()
        x, y, rain = model.int("x", 1, 5), model.int("y", 1, 5), model.bool("rain")
        model.add(x + y > 6, rain.implies(x > y), y != 5)
        model.minimize(x - y)
        start = {x: 4, "y": 5, rain: 0}
        answer = model.solve(start=start, program=str(self.program), presolve=False)
        self.assertEqual((answer.verdict, answer.objective), ("OPTIMUM", -1))
        self.assertEqual(self.kept.read_text(), "x = 4\nrain = false\n")

    def test_a_solution_is_kept_where_the_search_is_ended_before_it(self):
        slow = self.program.read_text().replace("; model=", '; [ "$(wc -l <"$2")" -gt 2 ] && exec sleep 60; model=')
        self.program.write_text(slow)
        model, x, y = two()
        answer = model.solve(seconds=1, start={x: 3, y: 3}, program=str(self.program))
        self.assertEqual((answer.verdict, answer.stopped), ("UNKNOWN", "seconds"))
        self.assertEqual((answer.objective, answer[x], answer[y]), (6, 3, 3))

    def test_the_last_call_begins_with_the_best_plan(self):
        answer = shop(4, 3, 2).improve(60, steps=2, seed=1, program=str(self.program))
        self.assertEqual(answer.verdict, "OPTIMUM")
        told = dict(re.findall(r"(\w+) = (\w+)", self.kept.read_text()))
        self.assertLessEqual({*answer.values}, {*told})


class Cubes(unittest.TestCase):
    def test_jobs(self):
        if shutil.which("parallel") is None or shutil.which("flock") is None:
            self.skipTest("there is no GNU parallel")
        model, x, y = two()
        for how in ({"jobs": 2}, {"hosts": ["2/:"]}):
            answer = model.solve(program=PROGRAM, **how)
            self.assertEqual((answer.verdict, answer.objective, answer.bound), ("OPTIMUM", 2, 2))
            self.assertEqual((answer[x], answer[y]), (1, 1))

    def test_seconds(self):
        """The best plan that a worker found is kept, and no process is left."""
        if shutil.which("parallel") is None or shutil.which("flock") is None:
            self.skipTest("there is no GNU parallel")
        model, ends = ruler(11)
        found = []
        answer = model.solve(jobs=2, seconds=8, on_solution=found.append, program=PROGRAM)
        self.assertEqual((answer.verdict, answer.stopped), ("UNKNOWN", "seconds"))
        if found:
            self.assertEqual((answer.objective, answer.values), (found[-1].objective, found[-1].values))
            self.assertEqual(answer[ends[-1]], answer.objective)
            self.assertTrue(is_solution(model, answer.values))
        self.assertEqual(children(), 0)


class Improved(unittest.TestCase):
    def test_a_seed_is_repeatable(self):
        told = []
        for _ in range(2):
            answer = shop(5, 4, 3).improve(seconds=None, steps=6, seed=2, program=PROGRAM)
            told.append((repr(answer), answer.values, [it[:2] for it in answer.run.steps]))
        self.assertEqual(told[0], told[1])

    def test_never_worse(self):
        model = shop(6, 4, 1)
        start = model.solve(budget=60, program=PROGRAM)
        self.assertTrue(start)
        found = []
        answer = model.improve(10, start=start, steps=4, on_solution=found.append, program=PROGRAM)
        self.assertLessEqual(answer.objective, start.objective)
        self.assertTrue(is_solution(model, answer.values))
        told = [it.objective for it in found]
        self.assertEqual(told, sorted(set(told), reverse=True))
        self.assertEqual(children(), 0)

    def test_two_objectives(self):
        model = Model()
        xs = [model.int(f"x{it}", 0, 9) for it in range(6)]
        model.add(all_different(xs), xs[0] + xs[1] > 9)
        model.maximize(total(xs[:3]), then=xs[3] - xs[4])
        best = model.solve(program=PROGRAM)
        answer = model.improve(30, steps=8, seed=1, program=PROGRAM)
        self.assertEqual((answer.verdict, answer.optimum), (best.verdict, best.optimum))

    def test_a_model_without_a_goal(self):
        model = Model()
        model.int("x", 1, 3)
        with self.assertRaisesRegex(ModelError, "improve: the model has no goal"):
            model.improve(1, program=PROGRAM)

    def test_no_solution(self):
        model = Model()
        x = model.int("x", 1, 3)
        model.add(x > 2, (x == 1) | (x == 2))
        model.minimize(x)
        self.assertEqual(model.improve(30, program=PROGRAM).verdict, "UNSATISFIABLE")


class Neighbourhoods(unittest.TestCase):
    def test_no_solution_is_outside_of_the_bounds(self):
        """Relations at random, some of which hold where a Boolean does: beside trying all values."""
        narrower, signs = 0, {"leq": "le", "lt": "lt", "geq": "ge", "gt": "gt", "eq": "eq", "neq": "ne"}
        for seed in range(60):
            chance, names, lines, tests = random.Random(seed), "xyzm", [], []
            for _ in range(4):
                one, other = chance.sample(names, 2)
                relation, first, second = chance.choice([*signs]), chance.choice([1, 2]), chance.choice([1, -1, -3])
                if chance.random() < 0.5:
                    end, is_true = chance.randint(-3, 3), None
                    lines.append(f"int_array_lin_{relation}([{first},{second}],[{one},{other}],{end})")
                else:
                    first, second, end, is_true = 1, -1, 0, chance.choice([True, False])
                    lines.append(f"int_{relation}_reif({one},{other},{'' if is_true else '-'}b)")
                tests.append((getattr(operator, signs[relation]), one, other, first, second, end, is_true))
            declared = [f"new_int({it},-3,4)" for it in names] + ["new_bool(b)"]
            lines = [*declared, *lines, "int_array_max([x,y],m)", "int_plus(x,y,z)", "solve satisfy"]
            kept = {"b": chance.choice([False, True]), "x": chance.randint(-3, 4)}
            bounds = Structure("\n".join(lines) + "\n").windows.narrowed(kept, {"y": (-2, 4)})
            for y in range(-2, 5):
                at = {"x": kept["x"], "y": y, "z": kept["x"] + y, "m": max(kept["x"], y)}
                holds = -3 <= at["z"] <= 4 and all(
                    test(first * at[one] + second * at[other], end) == (is_true in (None, kept["b"]))
                    for test, one, other, first, second, end, is_true in tests
                )
                is_inside = bounds and all(bounds[it][0] <= at[it] <= bounds[it][1] for it in names)
                self.assertTrue(is_inside or not holds, (seed, at, bounds))
            narrower += bounds is None or bounds["y"] != (-2, 4)
        self.assertGreater(narrower, 30)

    def test_orders_are_kept(self):
        """Of a job shop the Booleans that tell which of two tasks is first are known."""
        structure = Structure(shop(3, 3, 0).text())
        self.assertEqual(len(structure.integers), 9)
        self.assertGreaterEqual(len(structure.relations), 18)
        ways = {it.keeps_relations for it in structure.kinds()}
        self.assertEqual(ways, {True, False})


class Places(unittest.TestCase):
    def test_order(self):
        """The argument, the variable, the path, the folder of the package."""
        with tempfile.TemporaryDirectory() as room:
            for name in ("argument/bee", "variable/bee", "path/bee"):
                at = Path(room, name)
                at.parent.mkdir()
                shutil.copy("/bin/true", at)
            how = {"BEE": f"{room}/variable/bee", "PATH": f"{room}/path"}
            with mock.patch.dict(os.environ, how):
                self.assertEqual(program_of(f"{room}/argument/bee"), f"{room}/argument/bee")
                self.assertEqual(program_of(), f"{room}/variable/bee")
                del os.environ["BEE"]
                self.assertEqual(program_of(), f"{room}/path/bee")
                os.environ["PATH"] = room
                self.assertEqual(program_of(), str(TOP / "bee"))

    def test_none(self):
        with mock.patch.dict(os.environ, {"BEE": "/nowhere/bee"}):
            with self.assertRaisesRegex(ProgramError, "no program at /nowhere/bee, which .* BEE"):
                program_of()
        nowhere = {"PATH": "/nowhere"}
        with mock.patch.dict(os.environ, nowhere, clear=True):
            with mock.patch("beemodel.program.places", return_value=["/here/bee"]):
                with self.assertRaisesRegex(ProgramError, "program=.* BEE.* PATH.* /here/bee"):
                    program_of()
        self.assertEqual(places()[1], str(TOP / "bee"))


if __name__ == "__main__":
    unittest.main()
