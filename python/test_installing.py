"""The wheel of the package, its types, its help, and what is told of names that it does not have."""
import base64
import contextlib
import hashlib
import inspect
import io
import pydoc
import shutil
import subprocess
import sys
import tempfile
import unittest
import zipfile
from pathlib import Path

import beemodel
from beemodel import Model
from trying import PROGRAM, TOP, need_program

FOLDER = TOP / "python"
SCRIPT = """
import sys
sys.path.insert(0, sys.argv[1])
import beemodel
assert beemodel.__file__.startswith(sys.argv[1]), beemodel.__file__
model = beemodel.Model()
x = model.int("x", 1, 5)
model.maximize(x)
answer = model.improve(20, steps=1, program=sys.argv[2])
answer.show()
answer.report(sys.argv[3])
"""


def setUpModule():
    need_program()


def wheels():
    """What builds the wheel."""
    sys.path.insert(0, str(FOLDER))
    import wheels as found

    return found


class Wheel(unittest.TestCase):
    def setUp(self):
        folder = tempfile.TemporaryDirectory()
        self.addCleanup(folder.cleanup)
        self.folder = Path(folder.name)
        self.path = self.folder / wheels().build_wheel(folder.name)

    def test_it_holds_what_is_imported(self):
        """It is imported from the wheel alone, and solves, shows and reports."""
        page = self.folder / "plan.html"
        words = [sys.executable, "-I", "-B", "-c", SCRIPT, str(self.path), PROGRAM, str(page)]
        ran = subprocess.run(words, capture_output=True, text=True, cwd=self.folder)
        self.assertEqual((ran.returncode, ran.stderr), (0, ""))
        self.assertEqual(ran.stdout, "OPTIMUM 5\nx 5\n")
        self.assertIn("OPTIMUM", page.read_text())

    def test_files_and_hashes(self):
        with zipfile.ZipFile(self.path) as wheel:
            names = wheel.namelist()
            modules = {f"beemodel/{it.name}" for it in (FOLDER / "beemodel").glob("*.py")}
            about = {f"beemodel-1.0.0.dist-info/{it}" for it in ("METADATA", "WHEEL", "RECORD")}
            rest = {it for it in names if it.startswith("beemodel/") and it.count("/") > 1}
            self.assertEqual(set(names) - rest, modules | {"beemodel/py.typed"} | about)
            for line in wheel.read("beemodel-1.0.0.dist-info/RECORD").decode().splitlines()[:-1]:
                name, told, size = line.split(",")
                data = wheel.read(name)
                made = base64.urlsafe_b64encode(hashlib.sha256(data).digest()).decode().rstrip("=")
                self.assertEqual((told, int(size)), (f"sha256={made}", len(data)))

    def test_the_same_modules_make_the_same_wheel(self):
        with tempfile.TemporaryDirectory() as other:
            again = Path(other, wheels().build_wheel(other))
            self.assertEqual(again.read_bytes(), self.path.read_bytes())

    def test_version(self):
        self.assertEqual(wheels().project()["version"], beemodel.__version__)


class Help(unittest.TestCase):
    def test_each_name_is_described(self):
        told = pydoc.render_doc(beemodel, renderer=pydoc.plaintext)
        for name in beemodel.__all__:
            of = getattr(beemodel, name)
            self.assertIn(name, told)
            self.assertTrue(inspect.getdoc(of), name)
            members = vars(of).items() if inspect.isclass(of) else []
            for part, method in members:
                if callable(method) and part[0] != "_" and not issubclass(of, tuple):
                    self.assertTrue(inspect.getdoc(method), f"{name}.{part}")

    def test_the_example_of_the_help(self):
        lines = inspect.getdoc(beemodel).splitlines()
        code = "\n".join(it[4:] for it in lines if it.startswith("    "))
        code = code.replace("seconds=60", f"program={PROGRAM!r}")
        names = {}
        with contextlib.redirect_stdout(io.StringIO()):
            exec(code, names)
        self.assertEqual(names["answer"].optimum, (4,))

    def test_types(self):
        found = shutil.which("mypy", path="/usr/bin") or shutil.which("mypy")
        if found is None:
            self.skipTest("there is no mypy")
        with tempfile.TemporaryDirectory() as cache:
            words = [found, "--strict", "--cache-dir", cache, "beemodel"]
            ran = subprocess.run(words, cwd=FOLDER, capture_output=True, text=True)
        self.assertEqual(ran.returncode, 0, ran.stdout)


class Names(unittest.TestCase):
    def test_of_the_package(self):
        for name, instead in {
            "AllDifferent": "all_different",
            "alldiff": r"all_different\(xs\)",
            "IntVar": r"model.int\(\"x\", 1, 5\)",
            "AtMost": "at_most",
            "minimise": "model.minimize",
        }.items():
            with self.assertRaisesRegex(ImportError, f"there is no `{name}`; `{instead}`"):
                getattr(beemodel, name)
        with self.assertRaisesRegex(ImportError, "there is no `AllDifferent`; `all_different`"):
            from beemodel import AllDifferent  # noqa: F401
        self.assertFalse(hasattr(beemodel, "__hamster__"))
        self.assertFalse(hasattr(beemodel, "hamster"))

    def test_of_a_model(self):
        for name, instead in {
            "NewBoolVar": r"; `model.bool\(\"x\"\)`",
            "AddAllDifferent": "; `all_different`",
            "Maximize": "; `maximize`",
            "slove": "; `solve`",
            "hamster": "$",
        }.items():
            with self.assertRaisesRegex(AttributeError, f"there is no `{name}`{instead}"):
                getattr(Model(), name)


if __name__ == "__main__":
    unittest.main()
