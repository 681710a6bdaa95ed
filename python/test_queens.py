"""Boards of queens: what is written for each size against what is compiled for the text of its model."""
import itertools
import re
import subprocess
import tempfile
import unittest
from pathlib import Path

from trying import PROGRAM, TOP, need_program

SIZES = range(4, 13)


def setUpModule():
    need_program()


def board(size: int) -> str:
    """The text of the model of so many queens."""
    rows = range(1, size + 1)
    lines = []
    for row in rows:
        lines.append(f"new_int(q{row},1,{size})")
        lines += [f"new_int(a{row},{1 + row},{size + row})", f"int_plus(q{row},{row},a{row})"]
        lines += [f"new_int(d{row},{1 - row},{size - row})", f"int_plus(q{row},-{row},d{row})"]
    for letter in "qad":
        names = ",".join(f"{letter}{row}" for row in rows)
        lines.append(f"int_array_allDiff([{names}])")
    return "\n".join([*lines, "solve satisfy", ""])


def run(*words) -> subprocess.CompletedProcess:
    """A run of the program."""
    return subprocess.run([PROGRAM, *map(str, words)], capture_output=True, text=True)


def stand_apart(columns: list[int]) -> bool:
    """Whether no two queens stand in one column or diagonal."""
    return all(
        left != right and abs(left - right) != below - above
        for (above, left), (below, right) in itertools.combinations(enumerate(columns), 2)
    )


def expected(size: int, columns: str) -> str:
    """The text for a board with this line of columns, by what its model is compiled to."""
    with tempfile.TemporaryDirectory() as folder:
        model = Path(folder, "m.bee")
        model.write_text(board(size))
        compiled = run("compile", model).stdout
    variables, clauses = re.search(r"^p cnf (\d+) (\d+)$", compiled, re.M).groups()
    ledger = re.findall(r"^c led (.*)$", compiled, re.M)
    equations = sum(line.startswith("eq ") for line in ledger)
    counts = [f"queens {size}", f"variables {variables}", f"clauses {clauses}", f"equations {equations}"]
    return "\n".join([*counts, "SATISFIABLE", columns, "ledger", *ledger, "end", ""])


class Boards(unittest.TestCase):
    def test_queens_stand_apart_with_the_numbers_and_the_ledger_of_their_model(self):
        for size in SIZES:
            with self.subTest(size=size):
                ran = run("queens", size)
                self.assertEqual((ran.returncode, ran.stderr), (0, ""))
                columns = ran.stdout.split("\n")[5]
                word, *numbers = columns.split(" ")
                self.assertEqual((word, len(numbers)), ("columns", size))
                self.assertLessEqual(set(map(int, numbers)), set(range(1, size + 1)))
                self.assertTrue(stand_apart([int(number) for number in numbers]))
                self.assertEqual(ran.stdout, expected(size, columns))

    def test_the_example_is_the_model(self):
        self.assertEqual((TOP / "examples/eight_queens.bee").read_text(), board(8))


if __name__ == "__main__":
    unittest.main()
