"""The models of `examples/`, each by its line in the table of their page."""
import re
import subprocess
import tempfile
import unittest
from pathlib import Path
from typing import NamedTuple

from trying import PROGRAM, TOP, need_program

FOLDER = TOP / "examples"


class Row(NamedTuple):
    """A model's file, its verdict, and how many variables and clauses it is compiled to."""

    name: str
    verdict: str
    variables: int
    clauses: int


def setUpModule():
    need_program()


def rows() -> list[Row]:
    """The lines of the table."""
    line = r"^\| `(\S+\.bee)` \|.*\| ([A-Z]+(?: -?\d+)*) \| (\d+) \| (\d+) \|$"
    found = re.findall(line, (FOLDER / "README.md").read_text(), re.M)
    return [Row(name, verdict, int(most), int(clauses)) for name, verdict, most, clauses in found]


def run(*words) -> subprocess.CompletedProcess:
    """A run of the program."""
    return subprocess.run([PROGRAM, *map(str, words)], capture_output=True, text=True)


class ModelFiles(unittest.TestCase):
    def test_each_model_has_a_line(self):
        self.assertEqual({it.name for it in FOLDER.glob("*.bee")}, {it.name for it in rows()})

    def test_variables_and_clauses(self):
        for row in rows():
            with self.subTest(model=row.name):
                ran = run("compile", FOLDER / row.name)
                self.assertEqual((ran.returncode, ran.stderr), (0, ""))
                found = re.search(r"^p cnf (\d+) (\d+)$", ran.stdout, re.M)
                self.assertEqual((int(found[1]), int(found[2])), (row.variables, row.clauses))

    def test_verdicts(self):
        for row in rows():
            with self.subTest(model=row.name), tempfile.TemporaryDirectory() as folder:
                model, answer = FOLDER / row.name, Path(folder, "answer")
                solved = run("solve", model)
                self.assertEqual((solved.returncode, solved.stderr), (0, ""))
                answer.write_text(solved.stdout)
                checked = run("check", model, answer)
                told = (checked.returncode, checked.stdout)
                self.assertEqual(told, (0, f"ACCEPTED {row.verdict}\n"))


if __name__ == "__main__":
    unittest.main()
