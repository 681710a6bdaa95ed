"""The longest texts and longer ones, the most variables, a model cut at each byte, and what long lists weigh."""
import subprocess
import tempfile
import unittest
from pathlib import Path

from trying import PROGRAM, need_program

LONGEST = 16_777_216

MODEL = (
    b"new_bool(a) new_int(x,[-3,4])\nint_leq(x,-3)\nbool_array_or([a,-a,true]) bool2int(a,i)\n"
    b"solve minimize x\n"
)

# Words, other texts that they read, how the text begins, and what is written where it is not too long.
ROWS = [
    (["compile", "model"], {}, b"solve satisfy", b"c bee 1\np cnf 0 0\n"),
    (["core", "model"], {}, b"solve satisfy", b"bee core 1\nSATISFIABLE\nend\n"),
    (["opb", "model"], {}, b"1 x1 >= 1 ;\n", b"bee 1\nSATISFIABLE\nx1 = true\nend\n"),
    (["drup", "model", "proof"], {"proof": b""}, b"p cnf 2 1\n0\n", b"ACCEPTED\n"),
]

# Statements whose lists have three members 333 times, and what they weigh; the names before them weigh 21. That was
# counted anew by a program of its own, which goes over each pair of members.
LISTS = [
    ("int_array_allDiff_reif([{}],x)", "j,i,7", 23_315_995),
    ("int_array_sum_leq([{}],i)", "j,i,7", 2_493_693),
    ("bool_array_sum_geq([{}],i)", "x,x,x", 857_202),
    ("int_array_sum_eq([{}],i)", "j,i,7", 2_471_285),
]


def setUpModule():
    need_program()


def fault(front: bytes) -> str:
    """What is told of a front of a model: between two items the goal is missing, and within one its end is, at the
    line that was begun."""
    if not front or front.endswith((b"\n", b")", b") ")):
        return f"statement {front.count(b')') + 1}: goal"
    return f"line {front.count(10) + 1}: syntax"


class Texts(unittest.TestCase):
    def setUp(self):
        folder = tempfile.TemporaryDirectory()
        self.addCleanup(folder.cleanup)
        self.folder = Path(folder.name)

    def shown(self, words: list[str], **texts: bytes) -> tuple[int, bytes, bytes]:
        """What a run over texts shows, each by its name."""
        for name, text in texts.items():
            (self.folder / name).write_bytes(text)
        ran = subprocess.run([PROGRAM, *words], cwd=self.folder, capture_output=True)
        return ran.returncode, ran.stdout, ran.stderr

    def test_texts_have_a_greatest_length(self):
        for words, others, front, written in ROWS:
            with self.subTest(words=words):
                shown = self.shown(words, model=front.ljust(LONGEST), **others)
                self.assertEqual(shown, (0, written, b""))
                shown = self.shown(words, model=front.ljust(LONGEST + 1), **others)
                self.assertEqual(shown, (3, b"", b"bee: model: too long\n"))

    def test_variables_have_a_greatest_number(self):
        """Of that many the text is read, and of one more it is not; of none a value is told."""
        for number, end in [(67_108_864, (1, b"REFUSED 2\n")), (67_108_865, (3, b""))]:
            with self.subTest(number=number):
                text = f"c bee 1\nc int high -1073741824 1:2147483648\np cnf {number} 0\n".encode()
                shown = self.shown(["decode", "text", "values"], text=text, values=b"s SATISFIABLE\nv 0\n")
                self.assertEqual(shown[:2], end)

    def test_a_model_that_is_cut_has_a_fault(self):
        """Without the last line feed it is the same model."""
        for length in range(len(MODEL) - 1):
            with self.subTest(length=length):
                told = f"bee: model: {fault(MODEL[:length])}\n".encode()
                self.assertEqual(self.shown(["solve", "model"], model=MODEL[:length]), (3, b"", told))

    def test_long_lists_weigh_as_if_each_pair_were_counted(self):
        for form, members, weight in LISTS:
            with self.subTest(form=form):
                statement = form.format(",".join([members] * 333))
                model = f"new_bool(x) new_int(i,0,3) new_int(j,-1,4) {statement} solve satisfy\n"
                code, out, err = self.shown(["weigh", "model"], model=model.encode())
                first = f"weight {21 + weight} of 67108864\n".encode()
                self.assertEqual((code, out[: len(first)], err), (0, first, b""))


if __name__ == "__main__":
    unittest.main()
