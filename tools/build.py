#!/usr/bin/env python3
"""Proves the libraries of `bee` side by side, and then builds the program and places eight queens, as `rt run` does.

It calls the toolchain's own `rt`, and differs from `rt run` in four ways. Libraries that do not use one another are
proved at the same time, as `rt ci` proves them: one a processor, as many as memory holds, the longest chain first
(the variable RT_JOBS gives another number). A library holds its statements and not its proofs, again as in `rt ci`; its
proofs would be loaded for each crate above it, which can take longer than to prove that crate. What it holds fits those
alone over which it was made: so where one is made, all above it are made. The work of a proof is not kept beside it,
which would take a fifth of the time more; so the first `rt check` of a crate proves it once more. And the sum that `rt`
keeps of what a library is made from, itself and all below it, reads each crate once; `rt` reads a crate once for each
path that leads to it. Where a toolchain's `rt` is made of other parts, `rt run` builds all.
"""
import contextlib
import copy
import importlib.machinery
import importlib.util
import os
import shutil
import sys
import tempfile
import threading

sys.dont_write_bytecode = True
TOP = os.path.dirname(os.path.dirname(os.path.realpath(__file__)))
ARGUMENTS = ["queens", "8"]
# What is planned for the proof of a crate of memory at most, in bytes: by samples, `queens_model` takes 4.7 GB, and no
# other more than 2.7. `rt` reckons by the lines of a crate and of those below it, up to six times what the upper crates
# take, which then wait for one another.
MOST = 4_000_000_000
# How `rt` is told the kind of a task: it gives more than one job to a proof, and one to what it doesn't know.
LIBRARY = "library"
# How rattle is called for a library.
WORDS = ["--jobs", "1", "--statements"]


def load(path):
    """The command `rt` as a module."""
    loader = importlib.machinery.SourceFileLoader("rt", path)
    made = importlib.util.module_from_spec(importlib.util.spec_from_loader("rt", loader))
    sys.modules["rt"] = made
    loader.exec_module(made)
    return made


def read_once(plain):
    """The sum of a crate, for which each crate below is read once: the value is that of the plain sum."""
    looked = threading.local()

    def stamp(crate):
        sums = getattr(looked, "sums", None)
        if sums is None:
            looked.sums = {}
            try:
                return plain(crate)
            finally:
                looked.sums = None
        if crate.folder not in sums:
            sums[crate.folder] = plain(crate)
        return sums[crate.folder]

    return stamp


def forget_stale(libraries):
    """Forgets each library that is not as its sources are, and all above it. They come lowest first, and so do those of
    the answer, which were forgotten. All are forgotten before one is made, so that a build that is broken off leaves
    none that fits another than the one below it."""
    stale = {}
    for it in libraries:
        if not it.is_built() or any(below.name in stale for below in it.below()):
            stale[it.name] = it
            with contextlib.suppress(FileNotFoundError):
                os.remove(f"{it.folder}/out/rlib/stamp")
    return stale


def build_library(crate, given):
    """Proves a library, unless one below it failed, and prints what its proof said. The answer is whether it is
    proved."""
    if not all(given.get((it.name, LIBRARY), True) for it in crate.below()):
        return False
    crate = copy.copy(crate)
    with tempfile.TemporaryFile("w+", errors="replace") as crate.out:
        status = crate.build_rlib(WORDS, anew=False)
        crate.out.seek(0)
        print(f"== {crate.name}\n{crate.out.read()}", end="")
    print(f"build.py: {crate.name} {'failed' if status else 'proved'}", flush=True)
    return not status


def build_libraries(rt):
    """Proves the libraries that are not built yet. The answer is whether all are proved."""
    bee = rt.rtlib.Crate(os.getcwd(), TOP, {})
    libraries = bee.below()
    held = rt.rtlib.lock([*libraries, bee])
    for it in libraries:
        rt.rtlib.stop_on_links(it.folder)
    stale = forget_stale(libraries)
    tasks = {}
    for it in stale.values():
        waits = [(below.name, LIBRARY) for below in it.below() if below.name in stale]
        call = lambda given, _, crate=it: build_library(crate, given)
        tasks[it.name, LIBRARY] = (waits, it.count(rb"\n"), min(rt.need(it), MOST), call)
    given = rt.in_lanes(tasks)
    for it in held:
        os.close(it)
    return all(given.values())


def build(path):
    """Proves and builds all, by the parts of the command `rt` that stands at this path. The answer is an exit code."""
    rt = load(path)
    # The guard of what rt starts is set up by the first thread.
    rt.rtlib.guarded()
    rt.rtlib.Crate.stamp = read_once(rt.rtlib.Crate.stamp)
    rt.rtlib.libraries_keep = lambda: False
    if not build_libraries(rt):
        return 1
    return rt.main(["run", "--", *ARGUMENTS])


def main():
    path = shutil.which("rt")
    if path is None:
        print("build.py: the toolchain's command rt is not on the path", file=sys.stderr)
        return 127
    os.chdir(f"{TOP}/crates/bee")
    try:
        return build(os.path.realpath(path))
    except Exception as fault:
        # A toolchain whose rt is made of other parts still has the command itself, which proves one library after
        # another.
        print(f"build.py: not side by side ({type(fault).__name__}: {fault})", flush=True)
        os.execv(path, [path, "run", "--", *ARGUMENTS])


if __name__ == "__main__":
    sys.exit(main())
