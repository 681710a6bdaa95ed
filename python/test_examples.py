"""The scripts of `python/examples`, each run as it stands."""
import os
import subprocess
import sys
import unittest
from pathlib import Path

from trying import PROGRAM, TOP, need_program

FIRST_LINES = {
    "roster": "OPTIMUM 0 1",
    "league": "OPTIMUM 4",
    "project": "OPTIMUM 17 83",
    "golfers": "SATISFIABLE",
    "packing": "OPTIMUM 5",
    "tour": "OPTIMUM 87",
    "exams": "OPTIMUM 4 22",
    "domination": "OPTIMUM 8",
    "configuration": "OPTIMUM 1080",
    "words": "OPTIMUM 68 6",
    "magic": "SATISFIABLE",
    "shop": "OPTIMUM 55",
    "curriculum": "OPTIMUM 8",
    "steel": "OPTIMUM 1",
    "warehouses": "OPTIMUM 383",
    "picture": "SATISFIABLE",
}


def setUpModule():
    need_program()


class Examples(unittest.TestCase):
    def test_first_lines(self):
        folder = TOP / "python/examples"
        self.assertEqual({it.stem for it in folder.glob("*.py")}, {*FIRST_LINES})
        how = {**os.environ, "BEE": PROGRAM, "PYTHONPATH": str(TOP / "python")}
        for name, line in FIRST_LINES.items():
            with self.subTest(example=name):
                words = [sys.executable, "-B", str(Path(folder, f"{name}.py"))]
                ran = subprocess.run(words, env=how, capture_output=True, text=True)
                self.assertEqual((ran.returncode, ran.stderr), (0, ""))
                self.assertEqual(ran.stdout.splitlines()[0], line)

    def test_the_page_has_the_roster(self):
        script = (TOP / "python/examples/roster.py").read_text()
        code = script[script.index("from beemodel") :]
        self.assertIn(f"```python\n{code}```", (TOP / "docs/PYTHON.md").read_text())


if __name__ == "__main__":
    unittest.main()
