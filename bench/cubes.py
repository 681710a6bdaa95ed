#!/usr/bin/env python3
"""Times `python3 -m beemodel.cubes` over workers and cubes: cubes.py [MODEL ..].

A line for each run: the model; workers; cubes made first; wall-clock seconds until the answer stands, and until all
cubes were done; cubes refuted; CPU seconds of the workers together, and of the refuted cube that took most; the
wall-clock seconds that refuting these cubes in their order would take so many workers with a processor each; CPU
seconds of joining, `bee certify` and `bee check`; and bytes of the joined text. Without MODEL those of MODELS are made.
Each answer is checked.

JOBS ("1 2 4") and CUBES ("4 16 64 256") name others; WORKER is `bee` or `cadical`; BEE the program; no run begins
behind WITHIN seconds, and none lasts longer than until then. On a machine that does other work, CPU seconds and the
schedule say more than wall-clock seconds. Wants GNU parallel."""
import heapq, os, re, resource, shutil, subprocess, sys, tempfile, time
from pathlib import Path

TOP = Path(__file__).resolve().parents[1]
sys.path.insert(0, str(TOP / "bench"))
import anytime, cnfs, optima

BEE = os.environ.get("BEE") or str(TOP / "crates/bee/out/bee")
JOBS = [int(it) for it in os.environ.get("JOBS", "1 2 4").split()]
CUBES = [int(it) for it in os.environ.get("CUBES", "4 16 64 256").split()]
WORKER = os.environ.get("WORKER", "bee")
END = time.monotonic() + float(os.environ.get("WITHIN", "1e6"))


def pigeons(count):
    """Pigeons, one more than holes."""
    cnf = cnfs.Clauses()
    cnfs.pigeons(cnf, count, 0)
    return of_clauses(cnf)


def parity(size):
    """Two chains of exclusive ors that differ."""
    cnf = cnfs.Clauses()
    cnfs.parity(cnf, size, 1)
    return of_clauses(cnf)


def of_clauses(cnf):
    """A model of Booleans that has these clauses."""
    lines = [f"new_bool(v{it})" for it in range(1, cnf.count + 1)]
    for clause in cnf.list:
        lines.append(f"bool_array_or([{','.join(f'v{it}' if it > 0 else f'-v{-it}' for it in clause)}])")
    return [*lines, "solve satisfy"]


def shop(name):
    """A job shop of the literature that is to end an hour too early."""
    found = anytime.shops()[name]
    sys.path.insert(0, str(TOP / "python"))
    return anytime.shop_model(found["jobs"], found["optimum"] - 1).text().splitlines()


MODELS = {
    "pigeons-10": lambda: pigeons(10),
    "pigeons-11": lambda: pigeons(11),
    "parity-32": lambda: parity(32),
    "jobs-10": lambda: optima.jobs(10),
    "shop-la02": lambda: shop("la02"),
    "shop-la04": lambda: shop("la04"),
    "golomb-8": lambda: optima.golomb(8),
    "golomb-9": lambda: optima.golomb(9),
    "golomb-10": lambda: optima.golomb(10),
}


def children():
    return resource.getrusage(resource.RUSAGE_CHILDREN).ru_utime


def schedule(seconds, workers):
    """When the last of these ends, where each worker takes the next one."""
    ends = [0.0] * workers
    for it in seconds:
        heapq.heapreplace(ends, ends[0] + it)
    return max(ends)


def called(words, to, env):
    """The exit code of a call, which is ended once the time is spent, and what it told."""
    with subprocess.Popen(words, stdout=to, stderr=subprocess.PIPE, text=True, env=env) as process:
        try:
            _, told = process.communicate(timeout=max(1.0, END - time.monotonic()))
        except subprocess.TimeoutExpired:
            process.terminate()
            _, told = process.communicate()
    return process.returncode, told


def run(name, model, workers, cubes, folder):
    """One run, and its line."""
    journal, kept, answer = folder / "journal", folder / "kept", folder / "answer"
    shutil.rmtree(folder / "work", ignore_errors=True)
    for it in (journal, kept):
        it.unlink(missing_ok=True)
    journal.touch()
    os.link(journal, kept)
    words = [sys.executable, "-m", "beemodel.cubes", str(model), "--jobs", str(workers), "--cubes", str(cubes)]
    words += ["--worker", WORKER, "--program", BEE, "--look", os.environ.get("LOOK", "0"), "--progress", "--resume"]
    words += ["--joblog", str(journal), "--folder", str(folder / "work"), "--share", os.environ.get("SHARE", "5")]
    begun = time.monotonic()
    with open(answer, "w") as to:
        env = {**os.environ, "PYTHONPATH": str(TOP / "python")}
        code, told = called(words, to, env)
    wall = time.monotonic() - begun
    each = [float(it.split()[3]) for it in kept.read_text().splitlines() if it.startswith("refuted")]
    total = [float(it) for it in re.findall(r"\S+/\d+ ([\d.]+)", told.splitlines()[-3])] if each else []
    done = re.findall(r"the workers were done in (\S+) seconds", told)
    found = re.findall(r"(\d+) bytes, joined in (\S+) seconds and certified in (\S+),", told)
    if not found:
        print(f"{name} {workers} {cubes} {wall:.1f}: code {code}, {told.splitlines()[-1:]}", flush=True)
        return
    size, joined, certified = found[0]
    before = children()
    checked = subprocess.run([BEE, "check", str(model), str(answer)], capture_output=True, text=True)
    took = children() - before
    print(f"{name} {workers} {cubes} {wall:.1f} {done[0]} {len(each)} {sum(total):.1f} {max(each, default=0):.1f}",
        f"{schedule(each, workers):.1f} {joined} {certified} {took:.1f} {size} {checked.stdout.strip()}", flush=True)


def main():
    print("model workers cubes wall done refuted cpu most schedule joining certify check bytes verdict")
    with tempfile.TemporaryDirectory(prefix="bench-cubes-") as at:
        folder = Path(at)
        for name in sys.argv[1:] or list(MODELS):
            model = folder / "model.bee"
            model.write_text(Path(name).read_text() if name not in MODELS else "\n".join(MODELS[name]()) + "\n")
            for cubes in CUBES:
                for workers in JOBS:
                    if time.monotonic() < END:
                        run(Path(name).stem, model, workers, cubes, folder)


if __name__ == "__main__":
    main()
