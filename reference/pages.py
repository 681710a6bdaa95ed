#!/usr/bin/env python3
"""Runs the commands of the pages in a clean clone, and compares what a page says was printed: pages.py [PAGE ..];
without words README.md, docs/LANGUAGE.md, docs/SOLVERS.md, docs/PYTHON.md and examples/README.md. The program is BEE,
or the one that `./bee` has built; the clone's `./bee` runs a copy of it.

What is run, in the order of a page and in one folder:
  a block that is set in by four blanks, and whose first word is that of a command, as a script; one before which a
  file is named is written to that file, and
  so is such a fence
  commands in the text itself, by `./bee` or another solver, unless they have a word in capitals, which stands for what
  the reader has
  a fence with a goal, by `bee solve` and `bee check`
  a fence in Python, as a script
What is compared:
  `prints X` in the text before a block, or behind it: a line that the block printed; behind it the first one, or the
  last
  a fence behind a block of commands: what it printed, or its end
  a fence's last comment: its verdict, and its values where they have no choice
  exit codes: 0; also 8 where a budget is named, and 10, 20 and 30 of other solvers, 1 of grep
A command that isn't there is told and passed over; what it runs in its turn, as a jar behind `java` or `parallel` in a
script, is taken for granted. Wants python3 and git; the other solvers of the pages where they are to be run."""
import os, re, shutil, subprocess, sys, tempfile

from trials import TOP, program

PAGES = ("README.md", "docs/LANGUAGE.md", "docs/SOLVERS.md", "docs/PYTHON.md", "examples/README.md")
SOLVERS = ("cadical", "picosat", "cryptominisat5", "clasp", "minisat", "java")
TOOLS = ("head", "sed", "grep", "awk", "python3", "for", "while", "cat")
# What stands for the reader's own: a word in capitals that is no part of a name.
OWN = r"(?<![\w.])(MODEL|FILE|FOLDER|INPUT|SECOND|VALUE|CLAUSES|N)(?![\w])"
# What a page takes for granted.
BEFORE = {"docs/SOLVERS.md": ["python3 bench/cnfs.py pigeons 6 0 problem.cnf"]}


def parts(text):
    """The parts of a page: `text`, `fence` with its language, and `block`, what is set in."""
    kept, fence, lines = [], None, text.split("\n")
    for line in lines:
        if fence is not None:
            if line == "```":
                kept.append(("fence", fence[0], "\n".join(fence[1:]) + "\n"))
                fence = None
            else:
                fence.append(line)
        elif line.startswith("```"):
            fence = [line[3:]]
        else:
            is_list = bool(kept) and kept[-1][0] == "text" and kept[-1][2].endswith("-\n")
            kind = "block" if line.startswith("    ") and not is_list else "text"
            if line.strip() or (kept and kept[-1][0] == "text"):
                if not kept or kept[-1][0] != kind:
                    kept.append((kind, "", ""))
                kept[-1] = (kind, "", kept[-1][2] + (line[4:] if kind == "block" else line) + "\n")
    return kept


class Page:
    """One page, run in a clone."""

    def __init__(self, name, folder):
        self.name, self.folder, self.faults, self.count = name, folder, 0, 0
        self.printed, self.missing = None, set()

    def fault(self, what):
        self.faults += 1
        print(f"{self.name}: {what}", flush=True)

    def is_command(self, script):
        first = re.match(r"(?:[A-Z]+=\S+ )*(\S+)", script)
        return bool(first) and (first[1].startswith("./bee") or first[1] in SOLVERS + TOOLS)

    def run(self, script):
        """Runs a script, and keeps what it printed."""
        wanted = [it for it in SOLVERS if re.search(rf"(^|\| |\$\(|&& ){it} ", script, re.M) and not shutil.which(it)]
        if wanted:
            self.missing.update(wanted)
            return
        trap = "trap 'echo \"code $? of $BASH_COMMAND\" >&2' ERR\nset -o errtrace\n"
        how = {**os.environ, "BEE": f"{self.folder}/crates/bee/out/bee"}
        called = {"cwd": self.folder, "stdin": subprocess.DEVNULL, "capture_output": True, "text": True, "env": how}
        ran = subprocess.run(["bash", "-c", trap + script], timeout=1200, check=False, **called)
        self.count += 1
        self.printed = ran.stdout
        for line in ran.stderr.splitlines():
            code = re.match(r"code (\d+) of (.*)", line)
            failed = code and not self.is_allowed(code[1], code[2], script)
            if failed or re.match(r"usage:", line) or re.search(r"command not found|No such file", line):
                self.fault(f"{line} in\n{script}")

    @staticmethod
    def is_allowed(code, command, script):
        """Whether a command of a script may end with this code."""
        is_told = code == "8" and "--budget" in script or code == "1" and "grep" in command
        return is_told or code in ("10", "20", "30")

    def compare_line(self, said):
        """The first line that was printed is what the page says, or the last one."""
        lines = self.printed.splitlines() or [""]
        if said not in (lines[0], lines[-1]):
            self.fault(f"printed {lines[-1]!r}, and the page says {said!r}")

    def compare_announced(self, before):
        """Each line that the text before a block says is printed is one of those that were, where its last sentence
        leads to the block."""
        leads, sentence = before.rstrip().endswith((":", ",")), re.split(r"\.\s", before.strip())[-1]
        for said in re.findall(r"\bprints `([^`]+)`", sentence) if leads else []:
            if self.printed is not None and said not in self.printed.splitlines():
                self.fault(f"printed {self.printed[:300]!r}, and the page says {said!r}")

    def compare_all(self, said):
        if self.printed is not None and not self.printed.endswith(said):
            self.fault(f"printed {self.printed!r}, and the page says {said!r}")

    def write(self, file, text):
        with open(os.path.join(self.folder, file), "w", encoding="utf-8") as sink:
            sink.write(text)

    def solve(self, text):
        """A model of the page, by solve and check, beside what its last comment says."""
        self.write("page.bee", text)
        self.run("bee=crates/bee/out/bee\n$bee solve page.bee > page.answer\n$bee check page.bee page.answer")
        said = (self.printed or "").strip()
        if not said.startswith("ACCEPTED"):
            self.fault(f"{said!r} of the answer to\n{text}")
            return
        told = re.split(r"^solve .*$", text, flags=re.M)[1].replace("\n%", " ").strip(" %\n")
        verdict = re.match(r"(OPTIMUM(?: -?\d+)+|UNSATISFIABLE)", told)
        if verdict and said != f"ACCEPTED {verdict[1]}":
            self.fault(f"{said!r}, and the page says {verdict[1]!r} of\n{text}")
        values = dict(re.findall(r"^(\w+) = (\S+)$", open(f"{self.folder}/page.answer").read(), re.M))
        if " or " not in told and " one of " not in told:
            for name, value in re.findall(r"\b(\w+) = (true|false|-?\d+)\b", told):
                if values.get(name) != value:
                    self.fault(f"{name} is {values.get(name)}, and the page says {value} of\n{text}")

    def inline(self, text):
        """The commands in the text."""
        for script in re.findall(r"`([^`]+)`", text):
            script = " ".join(script.split())
            is_command = re.match(rf"(\./bee \w+|{'|'.join(SOLVERS)}) \S", script) and not re.search(OWN, script)
            if is_command and "problem" not in script and ".." not in script:
                self.run(script)

    def go(self):
        with open(f"{TOP}/{self.name}", encoding="utf-8") as source:
            text = source.read()
        for script in BEFORE.get(self.name, []):
            self.run(script)
        before, kind_before = "", ""
        for kind, language, content in parts(text):
            file = re.search(r"`([\w.]+\.\w+)`[:,]?\s*$", before)
            commands = kind == "block" and self.is_command(content) and not re.search(OWN, content)
            if kind == "text":
                if kind_before == "commands":
                    told = re.search(r"^.{0,200}?\bprints? `([^`]+)`", content.strip().split("\n\n")[0], re.S)
                    if told and self.printed is not None:
                        self.compare_line(told[1])
                self.inline(content)
            elif file and not commands and kind in ("fence", "block") and language == "":
                self.write(file[1], content)
            elif commands:
                self.printed = None
                self.run(content)
                self.compare_announced(before)
            elif kind == "block" and before.rstrip().endswith("prints"):
                self.compare_all(content.rstrip("\n") + "\n")
            elif kind == "fence" and kind_before == "commands" and self.printed is not None:
                self.compare_all(content)
            elif kind == "fence" and language == "python":
                self.write("page.py", content)
                self.run("PYTHONPATH=python python3 page.py")
            elif kind == "fence" and re.search(r"^solve ", content, re.M):
                self.solve(content)
            before = content if kind == "text" else before if commands else ""
            kind_before = "commands" if commands else kind
        missing = f"; not there: {', '.join(sorted(self.missing))}" if self.missing else ""
        print(f"{self.name}: {self.count} scripts were run, {self.faults} faults{missing}", flush=True)
        return self.faults


def main():
    where = os.path.abspath(program())
    faults = 0
    with tempfile.TemporaryDirectory() as folder:
        clone = f"{folder}/bee"
        subprocess.run(["git", "clone", "-q", TOP, clone], check=True)
        os.makedirs(f"{clone}/crates/bee/out")
        shutil.copy(where, f"{clone}/crates/bee/out/bee")
        os.utime(f"{clone}/crates/bee/out/bee")
        for name in sys.argv[1:] or PAGES:
            faults += Page(name, clone).go()
    print(f"{faults} faults")
    sys.exit(1 if faults else 0)


if __name__ == "__main__":
    main()
