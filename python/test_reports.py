"""Plans that are shown: in a terminal, in a notebook, and as a page."""
import contextlib
import io
import re
import tempfile
import unittest
from html import unescape
from html.parser import HTMLParser
from pathlib import Path
from typing import NamedTuple

from beemodel import Answer, Model, all_different, cumulative, maximum
from beemodel.plans import Gantt, plan_of
from test_running import ruler
from trying import PROGRAM, need_program

# Tags that stand alone.
ALONE = {"meta", "input", "line", "rect", "circle", "polyline"}


class Task(NamedTuple):
    """What is asked of an interval."""

    name: str
    start: object
    duration: object
    present: object = None


class Page(HTMLParser):
    """The tags that are open, the cells of tables, and what is loaded from elsewhere."""

    def __init__(self, text):
        super().__init__()
        self.open, self.cells, self.loaded, self.tags = [], [], [], []
        self.feed(text)
        self.close()

    def handle_starttag(self, tag, attrs):
        self.tags.append(tag)
        self.loaded += [value for name, value in attrs if name in ("src", "href", "xlink:href")]
        if tag not in ALONE:
            self.open.append(tag)
        if tag in ("td", "th"):
            self.cells.append("")

    def handle_endtag(self, tag):
        if tag not in ALONE:
            assert self.open.pop() == tag, tag

    def handle_data(self, data):
        if self.open and self.open[-1] in ("td", "th"):
            self.cells[-1] += data


def setUpModule():
    need_program()


def house():
    """Three tasks of two workers, and a truth."""
    model = Model()
    walls, roof, fence = (model.int(it, 0, 9) for it in ("walls", "roof", "fence"))
    late = model.bool("late")
    model.add(walls + 4 <= roof, cumulative([walls, roof, fence], [4, 2, 3], [2, 1, 1], 2))
    model.add(late == (roof > 7))
    model.minimize(maximum([walls + 4, roof + 2, fence + 3]))
    return model, [Task("walls", walls, 4), Task("<roof>", roof, 2), Task("fence", fence, 3)]


def shown(answer, *plan, **how):
    """The lines that are printed."""
    with contextlib.redirect_stdout(io.StringIO()) as out:
        answer.show(*plan, **how)
    return out.getvalue().splitlines()


class Terminal(unittest.TestCase):
    @classmethod
    def setUpClass(cls):
        cls.model, cls.tasks = house()
        cls.answer = cls.model.solve(program=PROGRAM)
        cls.starts = {it.name: cls.answer[it.start] for it in cls.tasks}

    def test_intervals(self):
        lines = shown(self.answer, self.tasks)
        self.assertEqual(lines[0], "OPTIMUM 7")
        for line, it in zip(lines[2:], self.tasks):
            self.assertTrue(line.startswith(it.name))
            begun = 7 + 6 * self.starts[it.name]
            bar = f"[{it.name:=<{6 * it.duration - 2}}]"
            self.assertEqual(line[begun : begun + len(bar)], bar)

    def test_tasks_of_the_model(self):
        chart = plan_of(self.answer)
        self.assertIsInstance(chart, Gantt)
        self.assertEqual([row.name for row in chart.rows], ["resource 1"])
        for lane in chart.rows[0].lanes:
            for one, other in zip(lane, lane[1:]):
                self.assertLessEqual(one.end, other.start)
        self.assertEqual({it.name for it in chart.bars()}, {"walls", "roof", "fence"})
        self.assertEqual(chart.span(), (0, 7))

    def test_rows_with_tasks_and_absent_ones(self):
        absent = Task("absent", self.tasks[0].start, 4, self.model.variables["late"])
        rows = {"crew": [*self.tasks, absent], "none": []}
        chart = plan_of(self.answer, rows)
        self.assertEqual([len(row.lanes) for row in chart.rows], [2, 1])
        self.assertEqual(len(chart.bars()), 3)

    def test_narrow(self):
        self.assertLessEqual(max(map(len, shown(self.answer, self.tasks, width=30))), 34)

    def test_grid(self):
        roof = self.tasks[1].start
        starts = {"roof": roof, "w": self.tasks[0].start}
        cells = {(name, day): it > day for name, it in starts.items() for day in (5, 6)}
        lines = shown(self.answer, cells)
        marks = ["x" if self.starts["<roof>"] > day else "." for day in (5, 6)]
        self.assertEqual(lines[1:], ["     5 6", f"roof {' '.join(marks)}", "w    . ."])
        lines = shown(self.answer, [[roof, "text"], [roof + 1, True]])
        begun = self.answer[roof]
        told = [["0", str(begun), "text"], ["1", str(begun + 1), "x"]]
        self.assertEqual([line.split() for line in lines[2:]], told)
        self.assertEqual(shown(self.answer, {"a": {"b": roof}})[1:], ["  b", f"a {begun}"])
        self.assertEqual(shown(self.answer, {"a": roof})[1:], ["  value", f"a {begun}"])

    def test_table(self):
        model = Model()
        model.add(all_different(model.int(f"x{it}", 1, 9) for it in range(9)))
        answer = model.solve(program=PROGRAM)
        lines = shown(answer, width=40)
        self.assertLessEqual(max(map(len, lines)), 40)
        told = dict(re.findall(r"(x\d) (\d)", "\n".join(lines)))
        self.assertEqual(told, {name: str(it) for name, it in answer.values.items()})

    def test_no_solution(self):
        model = Model()
        x = model.int("x", 1, 2)
        model.add(x > 2)
        answer = model.solve(program=PROGRAM)
        self.assertEqual(shown(answer), ["UNSATISFIABLE"])
        self.assertIn("UNSATISFIABLE", answer._repr_html_())


class Pages(unittest.TestCase):
    def page(self, answer, *words):
        """The text of a page, whose tags are closed."""
        with tempfile.TemporaryDirectory() as room:
            text = answer.report(Path(room, "plan.html"), *words).read_text()
        page = Page(text)
        self.assertEqual(page.open, [])
        self.assertEqual(page.loaded, [])
        self.assertNotRegex(text, r"https?:|//\w|url\(|@import")
        return text, page

    def test_a_plan(self):
        """Each value once, everything escaped, and no address of another host."""
        model, tasks = house()
        answer = model.solve(program=PROGRAM)
        text, page = self.page(answer, tasks, "A <house> & more")
        self.assertIn("<h1>A &lt;house&gt; &amp; more</h1>", text)
        self.assertIn("&lt;roof&gt;", text)
        self.assertNotIn("<roof>", text)
        told = dict(zip(page.cells, page.cells[1:]))
        for name, value in answer.values.items():
            self.assertEqual(page.cells.count(name), 1)
            self.assertEqual(told[name], str(value).lower())
        self.assertEqual(page.tags.count("rect"), len(tasks))
        for part in ("OPTIMUM", "accepted by bee check", "What the model weighs", "test_reports.py:",
                     "Splits", "Clauses", "learned clauses", "Lines of the proof"):  # fmt: skip
            self.assertIn(part, unescape(text))
        self.assertIn(f"The model weighs {model.weight():,} of", text)

    def test_a_search_that_was_stopped(self):
        answer = ruler(8)[0].solve(budget=20, program=PROGRAM, presolve=False)
        self.assertEqual((answer.verdict, bool(answer)), ("UNKNOWN", True))
        text, _ = self.page(answer)
        for part in ("there may be better ones", "Gap to the bound", "budget of clauses"):
            self.assertIn(part, text)

    def test_a_grid_and_texts_of_a_user(self):
        model, _ = house()
        answer = model.solve(program=PROGRAM)
        cells = {("<b>", "&"): "<script>alert(1)</script>", ("c", "&"): model.variables["late"]}
        text, page = self.page(answer, cells)
        self.assertIn("&lt;script&gt;alert(1)&lt;/script&gt;", text)
        self.assertEqual(page.tags.count("script"), 1)
        self.assertEqual(page.tags.count("b"), 0)

    def test_without_values(self):
        model = Model()
        x = model.int("x", 1, 2)
        model.add(x > 2)
        text, page = self.page(model.solve(program=PROGRAM))
        self.assertIn("There is no solution.", text)
        self.assertEqual(page.tags.count("script"), 0)
        text, _ = self.page(Answer("UNKNOWN", (3,), None))
        self.assertIn("ended before it had a solution", text)

    def test_a_notebook(self):
        """The tags are closed, and no rule of style is about what stands around it."""
        model, _ = house()
        text = model.solve(program=PROGRAM)._repr_html_()
        page = Page(text)
        self.assertEqual(page.open, [])
        self.assertIn("<b>OPTIMUM 7</b>", text)
        rules = re.search("<style>(.*?)</style>", text, re.S)[1]
        for selectors in re.findall(r"(?:^|\})\s*([^{}]+?)\s*\{", rules):
            for it in selectors.split(","):
                self.assertRegex(it.strip(), r"^(svg)?\.chart|^(table)?\.grid")


if __name__ == "__main__":
    unittest.main()
