"""What pages say of the code, beside the code: the crates, the words on standard error, the modes, the tables."""
import os
import re
import subprocess
import sys
import unittest

TOOLS = os.path.dirname(os.path.realpath(__file__))
TOP = os.path.dirname(TOOLS)
# Where the lines on standard error are written: causes, faults, and whole lines.
REASONS = "crates/bee_cli/src/reason.rt"
LINES = "crates/bee_cli/src/reporting.rt"
FAULTS = ("bound_mode", "certify_mode", "model_texts", "typed_model")


def text_of(path):
    with open(f"{TOP}/{path}", encoding="utf-8") as source:
        return source.read()


def plain(words):
    """Words with each number in them as N."""
    return re.sub(r"\{\w*\}", "N", words).strip()


def told_words():
    """Each cause, fault and line that the code may tell, but for those that only hand another one on."""
    told = set(re.findall(r'write!\(\s*f,\s*"([^"]*)"', text_of(REASONS)))
    told |= set(re.findall(r'"bee: ([^"{]*)\\n"', text_of(LINES)))
    for crate in FAULTS:
        told |= set(re.findall(r'#\[error\("([^"]*)"\)\]', text_of(f"crates/{crate}/src/fault.rt")))
    return {plain(it) for it in told if plain(it) != "N" and not re.fullmatch(r"[a-z]+: N", plain(it))}


def page_words():
    """The words in code letters of the part on standard error, each also behind `model: statement N: ` where the page
    has that once for a row of them."""
    page = text_of("docs/FORMATS.md").split("## Lines on standard error")[1]
    words = [re.sub(r"\s+", " ", it).strip() for it in re.findall(r"`([^`]*)`", page)]
    return {it.removeprefix("model: ") for it in words} | {f"statement N: {it}" for it in words} | set(words)


class Pages(unittest.TestCase):
    def made(self, script):
        """A script that makes a page finds it as it is."""
        words = [sys.executable, "-B", f"{TOOLS}/{script}", "--check"]
        run = subprocess.run(words, capture_output=True, text=True, check=False)
        self.assertEqual(run.returncode, 0, run.stderr)

    def test_the_crates(self):
        self.made("crates_page.py")

    def test_the_tables_of_figures(self):
        self.made("results.py")

    def test_words_on_standard_error(self):
        page = page_words()
        missing = sorted(it for it in told_words() if it not in page)
        self.assertEqual([], missing, "the code tells words that the page lacks")

    def test_no_other_causes(self):
        told = told_words()
        listed = text_of("docs/FORMATS.md").split("### Why a line is refused")[1].split("\n## ")[0].split("\n### ")[0]
        causes = {re.sub(r"\s+", " ", it) for it in re.findall(r"`([^`]*)`", listed) if not it.startswith("bee ")}
        other = sorted(it for it in causes if it not in told)
        self.assertEqual([], other, "the page has causes that the code doesn't tell")

    def test_the_usage_line(self):
        usage = re.search(r'b"bee: usage: (bee MODE[^"]*)\\n"', text_of(LINES))[1]
        for path in ("docs/FORMATS.md", "bee"):
            self.assertIn(usage, text_of(path), path)

    def test_the_modes(self):
        """The modes of the page are the words that the program obeys."""
        found = set(re.findall(r'is_word\("([a-z]+)", mode\)', text_of("crates/command_words/src/found.rt")))
        listed = set(re.findall(r"^\| `([a-z]+)` \|", text_of("docs/FORMATS.md"), re.M))
        self.assertEqual(found, listed)


if __name__ == "__main__":
    unittest.main()
