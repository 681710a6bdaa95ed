"""Cubes: how clauses are split, parts joined, faults borne and runs gone on with, over one machine."""
import io
import itertools
import os
import random
import shutil
import signal
import subprocess
import sys
import tempfile
import time
import unittest
from contextlib import redirect_stderr
from pathlib import Path

from beemodel import Model
from beemodel.answers import ProgramError
from beemodel.cubes import solve_in_cubes
from beemodel.cubes.clauses import Compiled
from beemodel.cubes.conquest import outcome_of
from beemodel.cubes.hints import Hints
from beemodel.cubes.joining import Hinted, NoHints, Restated, join
from beemodel.cubes.lookahead import LookAhead
from beemodel.cubes.program import Bee, first_of, goal_of, second_of
from beemodel.cubes.tree import Journal, Tree
from trying import PROGRAM, TOP, need_program

HAS_PARALLEL = shutil.which("parallel") is not None and shutil.which("flock") is not None
WORKER = TOP / "python/beemodel/cubes/worker.sh"
EXAMPLES = TOP / "examples"


def setUpModule():
    need_program()


def pigeons(count: int) -> str:
    """Pigeons, each in one of the holes, one fewer, and no two in one."""
    birds, holes = range(count), range(1, count)
    items = [f"new_bool(p{i}_{j})" for i in birds for j in holes]
    items += [f"bool_array_or([{','.join(f'p{i}_{j}' for j in holes)}])" for i in birds]
    for j in holes:
        items += [f"bool_array_or([-p{i}_{j},-p{k}_{j}])" for i, k in itertools.combinations(birds, 2)]
    return "\n".join([*items, "solve satisfy"]) + "\n"


def compiled_text(variables: int, clauses: list[list[int]]) -> str:
    """A compiled text whose names are some of the variables."""
    names = [f"c bool b{it} {it}" for it in range(1, variables + 1, 2)]
    lines = [" ".join(map(str, [*it, 0])) for it in clauses]
    return "\n".join(["c bee 1", *names, f"p cnf {variables} {len(clauses)}", *lines]) + "\n"


def satisfying(variables: int, clauses: list[list[int]]) -> list[set[int]]:
    """The literals that each satisfying assignment makes true."""
    each = itertools.product((1, -1), repeat=variables)
    sets = ({sign * it for sign, it in zip(signs, range(1, variables + 1))} for signs in each)
    return [it for it in sets if all(it & set(clause) for clause in clauses)]


class Folder(unittest.TestCase):
    """A test with a folder of its own."""

    def setUp(self):
        made = tempfile.TemporaryDirectory(prefix="test-cubes-")
        self.addCleanup(made.cleanup)
        self.at = Path(made.name)

    def compiled(self, text: str) -> Compiled:
        (self.at / "model.bee").write_text(text)
        Bee(PROGRAM, self.at / "model.bee").compile(self.at / "compiled")
        return Compiled(self.at / "compiled")


class Splitting(Folder):
    def test_each_solution_is_in_one_cube_and_closed_cubes_have_none(self):
        rng = random.Random(94)
        for _ in range(40):
            count = rng.randint(4, 9)
            draw = [rng.sample(range(1, count + 1), rng.randint(1, 3)) for _ in range(3 * count)]
            clauses = [[rng.choice((it, -it)) for it in clause] for clause in draw]
            (self.at / "compiled").write_text(compiled_text(count, clauses))
            solutions = satisfying(count, clauses)
            look_ahead, tree = LookAhead(Compiled(self.at / "compiled")), Tree()
            for _ in range(5):
                for name in tree.open_leaves():
                    self.split(look_ahead, tree, name)
            cubes = [set(tree.cube(it).literals) for it in tree.leaves()]
            closed = [set(tree.cube(it).literals) for it in tree.closed]
            for it in solutions:
                self.assertEqual(sum(cube <= it for cube in cubes), 1)
                self.assertFalse(any(cube <= it for cube in closed))

    def split(self, look_ahead: LookAhead, tree: Tree, name: str) -> None:
        choice = look_ahead.choose(tree.cube(name).literals)
        if choice is not None:
            tree.split[name] = choice.literal
            tree.closed |= {f"{name}{side}" for side in (0, 1) if choice.is_refuted[side]}
        elif look_ahead.enter(tree.cube(name).literals) is None:
            tree.closed.add(name)

    def test_hints_are_found_where_look_ahead_refutes(self):
        rng, refuted = random.Random(49), 0
        for _ in range(100):
            clauses = [[rng.choice((it, -it)) for it in rng.sample(range(1, 9), 3)] for _ in range(30)]
            (self.at / "compiled").write_text(compiled_text(8, clauses))
            compiled = Compiled(self.at / "compiled")
            cube = [rng.choice((it, -it)) for it in rng.sample(range(1, 9), 3)]
            is_refuted = LookAhead(compiled).enter(cube) is None
            hints = Hints(compiled).refute(cube)
            self.assertEqual(hints is not None, is_refuted)
            refuted += is_refuted
            self.assertTrue(hints is None or shown(compiled.clauses, cube, hints))
        self.assertGreater(refuted, 10)


def shown(clauses: list[list[int]], cube: list[int], hints: list[int]) -> bool:
    """Whether each hint in turn tells a literal, and the last one is false."""
    true = set(cube)
    for at, hint in enumerate(hints):
        still_open = [it for it in clauses[hint - 1] if -it not in true]
        if len(still_open) != (0 if at == len(hints) - 1 else 1):
            return False
        true.update(still_open)
    return True


class Goals(unittest.TestCase):
    def test_two_objectives_are_two_models(self):
        text = "new_int(a,1,3) % solve satisfy\nnew_int(b,1,3)\nsolve minimize a then b % the end\n"
        goal = goal_of(text)
        self.assertEqual((goal.direction, goal.objectives), ("minimize", ("a", "b")))
        self.assertEqual(goal_of(first_of(text, goal)).objectives, ("a",))
        second = second_of(text, goal, 2)
        self.assertIn("int_eq(a,2)\n", second)
        self.assertEqual(goal_of(second).objectives, ("b",))


class Journals(Folder):
    def test_what_was_added_is_read_again_but_for_a_line_that_is_cut(self):
        journal = Journal(self.at / "journal", Tree())
        journal.start("sum")
        journal.add("split", "c", 7)
        journal.add("refuted", "c0", "here", "1.00")
        journal.add("best", 12)
        journal.close()
        with open(self.at / "journal", "a") as file:
            file.write("refuted c")
        again = Journal(self.at / "journal", Tree())
        again.read()
        self.assertEqual((again.model, again.best), ("sum", 12))
        self.assertEqual((again.tree.split, again.tree.refuted), ({"c": 7}, {"c0"}))
        self.assertEqual(again.tree.open_leaves(), ["c1"])
        again.start("sum")
        again.add("closed", "c1")
        again.close()
        last = Journal(self.at / "journal", Tree())
        last.read()
        self.assertEqual(last.tree.open_leaves(), [])


class Joining(Folder):
    """Parts that workers wrote, one after another, with no engine."""

    def parts(self, kind: str, solver: str) -> tuple[Compiled, Tree]:
        compiled, tree = self.compiled(pigeons(5)), Tree()
        look_ahead = LookAhead(compiled)
        for name in ("c", "c0", "c1", "c01"):
            choice = look_ahead.choose(tree.cube(name).literals)
            tree.split[name] = choice.literal
        compiled.write_for_workers(self.at, 5)
        (self.at / "solver").write_text(f"{kind} {solver}\n")
        for number, name in enumerate(tree.leaves(), 1):
            tree.take(["given", name, str(number)])
            literals = map(str, tree.cube(name).literals)
            with open(self.at / f"part.{name}", "w") as part:
                words = ["sh", str(WORKER), str(self.at), name, str(number), str(os.getpid()), *literals]
                subprocess.run(words, stdout=part, check=True)
            self.assertEqual(outcome_of(self.at / f"part.{name}").what, "refuted")
            (self.at / f"part.{name}").rename(self.at / name)
            tree.refuted.add(name)
        return compiled, tree

    def certified(self, compiled: Compiled, tree: Tree) -> tuple[int, str]:
        with open(self.at / "found", "w") as to:
            joined = join(Hinted(tree, self.at, compiled, None), None, to)
        line = Bee(PROGRAM, self.at / "model.bee").certify(self.at / "found", self.at / "answer")
        return line, joined.cube_of(line) if line else ""

    def test_parts_with_hints_are_one_refutation(self):
        compiled, tree = self.parts("bee", PROGRAM)
        self.assertEqual(self.certified(compiled, tree), (0, ""))

    def test_a_part_beside_one_that_needs_not_the_split_is_left_out(self):
        compiled, tree = self.parts("bee", PROGRAM)
        lines = Hinted(tree, self.at, compiled, None)
        written = set(lines.order())
        unwritten = tree.refuted - written
        self.assertTrue(unwritten)
        for name in unwritten:
            sides = {name[:at] for at in range(1, len(name) + 1)} - written
            above = min(sides, key=len)[:-1]
            self.assertEqual(len(lines.shown[above].sides), 1)
        self.assertEqual(self.certified(compiled, tree), (0, ""))

    def test_lines_under_a_weaker_bound_are_restated(self):
        """The bound comes first, the worker's one by its id here, and what the bound makes true is gone."""
        restated = Restated(-7, 100, 200)
        lines = ["11 3 4 0 100 5 0\n", "12 -7 4 0 5 0\n", "13 4 0 12 11 0\n", "14 0 13 0\n"]
        told = ["11 3 4 0 100 200 5 0\n", "", "13 4 0 100 11 0\n", "14 0 100 13 0\n"]
        self.assertEqual([restated.line(it) for it in lines], told)

    def test_a_part_that_is_none_is_told_by_its_cube(self):
        compiled, tree = self.parts("bee", PROGRAM)
        for name in sorted(tree.refuted):
            kept = (self.at / name).read_text()
            lines = kept.splitlines(True)
            ends = [k for k, it in enumerate(lines) if not it.startswith("c")]
            others = [f"9{it}" if it[0] != "c" else it for it in lines]
            none = [it for it in lines if it.startswith("c")]
            for changed in (lines[: ends[-1]], none, others, ["c bound\n", "9 x\n"]):
                (self.at / name).write_text("".join(changed))
                with self.subTest(name=name, lines=len(changed)):
                    try:
                        line, at_fault = self.certified(compiled, tree)
                        self.assertNotEqual(line, 0)
                    except NoHints as fault:
                        at_fault = fault.name
                    self.assertTrue(name.startswith(at_fault), (name, at_fault))
            (self.at / name).write_text(kept)


@unittest.skipUnless(HAS_PARALLEL, "there is no GNU parallel")
class Commands(Folder):
    """The command as it is called."""

    def words(self, text: str, *words: str) -> list[str]:
        (self.at / "given.bee").write_text(text)
        fixed = ["--program", PROGRAM, "--folder", str(self.at / "work"), "--jobs", "2", "--cubes", "4"]
        return [sys.executable, "-m", "beemodel.cubes", str(self.at / "given.bee"), *fixed, *words]

    def environment(self) -> dict[str, str]:
        return {**os.environ, "PYTHONPATH": str(TOP / "python")}

    def run_command(self, text: str, *words: str) -> tuple[int, str]:
        """The exit code, and what was told; the document is in the file `answer`."""
        with open(self.at / "answer", "w") as answer:
            ran = subprocess.run(
                self.words(text, *words),
                stdout=answer,
                stderr=subprocess.PIPE,
                text=True,
                env=self.environment(),
                check=False,
            )
        return ran.returncode, ran.stderr

    def check(self, verdict: str) -> None:
        """That `bee check` accepts the document with this verdict."""
        words = [PROGRAM, "check", str(self.at / "given.bee"), str(self.at / "answer")]
        ran = subprocess.run(words, capture_output=True, text=True, check=False)
        self.assertEqual(ran.stdout, f"ACCEPTED {verdict}\n")

    def solver(self, script: str) -> str:
        """A solver that is the program, or does something else before: BEE is the program, ONCE a file that is not
        there at first, CNF the clauses."""
        made = self.at / "solver.sh"
        head = f"#!/bin/sh\nBEE={PROGRAM} ONCE={self.at}/once CNF=$2\n"
        made.write_text(f'{head}{script}\nexec "$BEE" "$@"\n')
        made.chmod(0o755)
        return str(made)

    def test_verdicts(self):
        cases = [
            (pigeons(7), "UNSATISFIABLE"),
            ((EXAMPLES / "send_more_money.bee").read_text(), "SATISFIABLE"),
            ((EXAMPLES / "knapsack.bee").read_text(), "OPTIMUM 44"),
        ]
        for text, verdict in cases:
            with self.subTest(verdict=verdict):
                code, told = self.run_command(text, "--look", "0")
                self.assertEqual((code, told), (0, ""))
                self.check(verdict)

    def test_the_first_look_may_be_the_answer_or_where_workers_begin(self):
        text = (EXAMPLES / "knapsack.bee").read_text()
        for budget in ("5", "1000"):
            code, told = self.run_command(text, "--look", budget)
            self.assertEqual((code, told), (0, ""))
            self.check("OPTIMUM 44")

    def test_two_objectives_are_two_documents(self):
        text = "new_int(a,1,3)\nnew_int(b,1,3)\nint_neq(a,b)\nsolve minimize a then b\n"
        code, told = self.run_command(text, "--look", "0")
        self.assertEqual(code, 0)
        self.assertIn("a is 1 at best", told)
        lines = (self.at / "answer").read_text().splitlines()
        self.assertEqual([it for it in lines if it.startswith("OPTIMUM")], ["OPTIMUM 1", "OPTIMUM 2"])
        for name in ("first", "second"):
            at = self.at / "work" / name
            words = [PROGRAM, "check", str(at / "model.bee"), str(at / "answer")]
            self.assertEqual(subprocess.run(words, capture_output=True, check=False).returncode, 0)
        before = (self.at / "answer").read_text()
        code, _ = self.run_command(text, "--look", "0", "--resume", "--solver", self.solver("exit 1"))
        self.assertEqual((code, (self.at / "answer").read_text()), (0, before))

    def test_from_a_script_answers_are_checked(self):
        text = "new_int(a,1,3)\nnew_int(b,1,3)\nint_neq(a,b)\nsolve minimize a then b\n"
        with redirect_stderr(io.StringIO()):
            answer = solve_in_cubes(text, jobs=2, program=PROGRAM, look=0)
        self.assertEqual((answer.verdict, answer.optimum), ("OPTIMUM", (1, 2)))
        self.assertEqual((answer["a"], answer["b"]), (1, 2))
        with self.assertRaises(ProgramError):
            solve_in_cubes(text, slurm=True, program=PROGRAM)
        model = Model()
        x, y = model.int("x", 0, 9), model.int("y", 0, 9)
        model.add(x + 2 * y >= 11)
        model.minimize(x + y)
        answer = model.solve(jobs=2, program=PROGRAM)
        self.assertEqual((answer.optimum, answer[x + y]), ((6,), 6))

    def test_a_cube_that_fails_once_runs_again_and_is_named(self):
        lying = 'echo "s UNSATISFIABLE"; echo "999999 0 1 0"; exit'
        cut = '"$BEE" "$@" | head -n 3; exit'
        values = 'echo "s SATISFIABLE"; echo "v 1 0"; exit'
        full = 'ulimit -f 1; "$BEE" "$@"; exit'
        for script in ("exit 1", "kill -9 $$", lying, cut, values, full):
            with self.subTest(script=script):
                solver = self.solver(f'if mkdir "$ONCE" 2>/dev/null; then {script}; fi')
                code, told = self.run_command(pigeons(7), "--look", "0", "--solver", solver)
                (self.at / "once").rmdir()
                self.assertEqual(code, 0, told)
                shutil.rmtree(self.at / "work")
                self.assertRegex(told, r"cube c[01]+ \(")
                self.check("UNSATISFIABLE")

    def test_what_is_killed_beside_the_worker_is_not_waited_for(self):
        """What runs the worker, so that nothing tells how its cube ended."""
        above = "ps -o ppid= -p $PPID"
        solver = self.solver(f'if mkdir "$ONCE" 2>/dev/null; then kill -9 $({above}); sleep 3; fi')
        code, told = self.run_command(pigeons(7), "--look", "0", "--solver", solver)
        self.assertEqual(code, 0, told)
        self.assertRegex(told, r"cube c[01]+ \(.*failed on -: its worker ended with code 1")
        self.check("UNSATISFIABLE")

    def test_a_run_whose_folder_is_taken_away_ends(self):
        words = self.words(pigeons(7), "--look", "0", "--solver", self.solver("sleep 60"))
        process = subprocess.Popen(words, stderr=subprocess.PIPE, stdout=subprocess.DEVNULL, env=self.environment())
        self.addCleanup(process.kill)
        for _ in range(600):
            if (self.at / "work/slot.1").exists():
                break
            time.sleep(0.1)
        shutil.rmtree(self.at / "work")
        _, told = process.communicate(timeout=60)
        self.assertEqual(process.returncode, 4)
        self.assertIn(b"is gone", told)

    def test_a_cube_that_always_fails_ends_the_run_and_keeps_the_journal(self):
        words = ["--look", "0", "--retries", "1", "--solver", self.solver("exit 1")]
        code, told = self.run_command(pigeons(7), *words)
        self.assertEqual(code, 4)
        self.assertIn("failed 2 times", told)
        code, told = self.run_command(pigeons(7), "--look", "0")
        self.assertEqual(code, 4)
        self.assertIn("--resume goes on with it", told)
        code, _ = self.run_command(pigeons(7), "--look", "0", "--resume")
        self.assertEqual(code, 0)
        self.check("UNSATISFIABLE")

    def test_a_run_that_is_ended_goes_on(self):
        """Three workers refute their cubes, and the others sleep."""
        for number in (signal.SIGINT, signal.SIGKILL):
            with self.subTest(signal=number):
                turns = " || ".join(f"mkdir {self.at}/{number}.{it} 2>/dev/null" for it in range(3))
                slow = self.solver(f"{turns} || exec sleep 60")
                words = self.words(pigeons(7), "--look", "0", "--cubes", "8", "--solver", slow)
                process = subprocess.Popen(words, stderr=subprocess.PIPE, env=self.environment())
                self.addCleanup(process.kill)
                self.wait_for_refuted(3)
                process.send_signal(number)
                process.wait()
                told = process.stderr.read()
                process.stderr.close()
                self.assertTrue(number == signal.SIGKILL or b"--resume goes on" in told)
                quick = self.solver(f'echo "$CNF" >>{self.at}/calls')
                code, told = self.run_command(pigeons(7), "--look", "0", "--solver", quick, "--resume")
                self.assertEqual((code, told), (0, ""))
                self.check("UNSATISFIABLE")
                self.assertEqual(len((self.at / "calls").read_text().splitlines()), 5)
                (self.at / "calls").unlink()

    def wait_for_refuted(self, count: int) -> None:
        journal = self.at / "work/journal"
        for _ in range(600):
            if journal.exists() and journal.read_text().count("\nrefuted") >= count:
                return
            time.sleep(0.1)
        self.fail("the workers did not begin")

    def test_a_cube_that_is_given_up_is_split_again(self):
        spent = self.solver('if mkdir "$ONCE" 2>/dev/null; then echo "s UNKNOWN"; exit 8; fi')
        code, told = self.run_command(pigeons(7), "--look", "0", "--cubes", "1", "--solver", spent, "--progress")
        self.assertEqual(code, 0, told)
        self.assertRegex(told, r"[1-9] split")
        self.assertNotIn("failed", told)
        self.check("UNSATISFIABLE")

    def test_a_cube_past_its_share_is_split_again(self):
        count = 'n=$(grep -c "^[0-9]* 0$" "$CNF"); m=$(grep -c "^-[0-9]* 0$" "$CNF")'
        slow = self.solver(f'{count}; if [ "$m" = 0 ] && [ "$n" -lt 3 ]; then exec sleep 60; fi')
        words = ["--look", "0", "--cubes", "1", "--share", "0.5", "--solver", slow, "--progress"]
        code, told = self.run_command(pigeons(7), *words)
        self.assertEqual(code, 0, told)
        self.assertRegex(told, r"[3-9] split")
        self.check("UNSATISFIABLE")

    def test_a_host_that_goes_away_is_left_out(self):
        away = self.at / "away.sh"
        away.write_text(f'#!/bin/sh\n[ -e {self.at}/away ] && exit 255\nsh -c "$1"\n')
        away.chmod(0o755)
        gone = self.solver(f'case $CNF in */bee-cubes-*) touch {self.at}/away; kill -9 $PPID;; esac')
        (self.at / "hosts").write_text(f"1/:\n1/sh {away}\n")
        words = ["--look", "0", "--hosts", str(self.at / "hosts"), "--host-folder", str(self.at), "--solver", gone]
        words += ["--cubes", "16"]
        code, told = self.run_command(pigeons(7), *words)
        self.assertEqual(code, 0, told)
        self.assertIn("is given no more cubes", told)
        self.check("UNSATISFIABLE")

    def test_bad_input_is_told_before_anything_runs(self):
        (self.at / "hosts").write_text("1/:\n2/false\n")
        (self.at / "empty").write_text("# none\n")
        (self.at / "idle").write_text("1/:\n0/other\n")
        cases = [
            ("new_bool(a)\nsolve minimize a\n", [], 3, "model: statement 2: kind"),
            (pigeons(5), ["--hosts", str(self.at / "hosts")], 4, "can't be reached"),
            (pigeons(5), ["--hosts", str(self.at / "empty")], 4, "names no host"),
            (pigeons(5), ["--hosts", str(self.at / "idle")], 4, "other has no worker"),
            (pigeons(5), ["--hosts", str(self.at / "nothing")], 4, "No such file"),
            (pigeons(5), ["--solver", "no-such-solver"], 4, "there is no no-such-solver on this machine"),
            (pigeons(5), ["--jobs", "0"], 2, "less than 1"),
        ]
        for text, words, code, line in cases:
            with self.subTest(line=line):
                shutil.rmtree(self.at / "work", ignore_errors=True)
                found, told = self.run_command(text, "--look", "0", *words)
                self.assertEqual(found, code, told)
                self.assertIn(line, told)
                self.assertFalse((self.at / "work/slots").exists())


if __name__ == "__main__":
    unittest.main()
