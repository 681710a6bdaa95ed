#!/usr/bin/env bash
# Refuses the program memory. Words name the parts; without words both are taken:
#   runs      for each run below it counts how often memory is asked for, and runs it so often again, each time with
#             another one of these refused; and so often once more, with each one refused from there on. A run has to
#             end as it does with ample memory, or with code 6 and nothing on standard output. It prints how many ended
#             so and so, and of the latter how many told it on standard error, which those that could not even read
#             their words need not. The shelf counts an opening that finds no memory as a fault of reading, so at an
#             opening a run may end with code 4 as well; those ends are counted apart. It stops with an error at another
#             end.
#   asked     the same for a small program over the crate `learning_solver`, which asks one solver five times about
#             seven pigeons in six holes, under two assumptions and with three budgets, and asks once more, and once
#             more again, where memory is refused in a call. It has to give the answers that it gives with ample memory
#             and a log that a checker takes, or to end with code 1 and nothing on standard output, where memory is
#             refused outside the calls or in three of them. It prints how many ended so and so, and in how many a call
#             was refused memory and asked again.
# The runs are
#   times     solve, an optimum of a product of two integers
#   pigeons   solve --no-restart --budget 4096, four pigeons in three holes
#   pairs     check of a refutation of four clauses
#   half      compile, half of forty Booleans true
#   half      solve of the same
#   lists     compile, a parity, an at-most-one, an order of words and a sum, each of some members
#   lists     check of its optimum, whose ledger splits them
#   two       solve, two objectives
#   sum       decode, two integers from the values of their clauses
#   days      all and checkall of a model with six solutions, and all with one clause learned
#   broken    core and checkcore of a model whose core has three of eight statements
#   cover     opbmodel and opb of a pseudo-Boolean file
#   pairs     certify of a refutation of four clauses
#   least     certify of values that are best, bound, and weigh
#   clauses   sat and drup of four clauses
# What is refused is `malloc` and `realloc` of the C library, by a small library that is put before it. BEE names
# another program that is tried, ASKING another program of the second part, which else is proved and built over a copy
# of the crates, and PROCESSES how many runs go on at a time, three without it. Wants cc and python3, and rt.
set -eu
top=$(cd "$(dirname "${BASH_SOURCE[0]}")/.." && pwd)
folder=$(mktemp -d)
trap 'rm -rf "$folder"' EXIT
cat >"$folder/refusing.c" <<'C'
#include <stddef.h>
#include <stdio.h>
#include <stdlib.h>

void *__libc_malloc(size_t size);
void *__libc_realloc(void *old, size_t size);

static long asked, first, last;

static long number(const char *name) {
  const char *word = getenv(name);
  return word ? atol(word) : 0;
}

__attribute__((constructor)) static void begin(void) {
  first = number("REFUSED_FIRST");
  last = number("REFUSED_LAST");
  asked = 0;
}

static int refused(void) {
  asked++;
  return first <= asked && asked <= last;
}

void *malloc(size_t size) { return refused() ? NULL : __libc_malloc(size); }

void *realloc(void *old, size_t size) { return refused() ? NULL : __libc_realloc(old, size); }

__attribute__((destructor)) static void end(void) {
  const char *path = getenv("ASKED");
  long count = asked;
  FILE *file = path ? fopen(path, "w") : NULL;
  if (file) {
    fprintf(file, "%ld\n", count);
    fclose(file);
  }
}
C
cc -O2 -shared -fPIC -o "$folder/refusing.so" "$folder/refusing.c"

runs() {
  local program=${BEE:-$top/crates/bee/out/bee}
  [ -n "${BEE:-}" ] || "$top/bee" compile "$top/examples/pigeonhole.bee" >/dev/null
  python3 - "$program" "$folder" <<'PY'
import os, subprocess, sys
from multiprocessing.pool import ThreadPool

program, folder = sys.argv[1:]


def path(name, text):
    place = os.path.join(folder, name)
    with open(place, "w") as sink:
        sink.write(text)
    return place


def pigeons():
    names = [[f"p{i}{j}" for j in range(1, 4)] for i in range(1, 5)]
    yield from (f"new_bool({name})" for row in names for name in row)
    yield from (f"bool_array_or([{','.join(row)}])" for row in names)
    for hole in zip(*names):
        yield from (f"bool_array_or([-{hole[i]},-{hole[j]}])" for j in range(4) for i in range(j))


times = path("times.bee", "new_int(x,2,6)\nnew_int(y,2,6)\nint_times(x,y,12)\nint_lt(x,y)\nsolve minimize x\n")
holes = path("pigeons.bee", "\n".join([*pigeons(), "solve satisfy\n"]))
clauses = "".join(f"bool_array_or([{a},{b}])\n" for a, b in (("a", "b"), ("a", "-b"), ("-a", "b"), ("-a", "-b")))
pairs = path("pairs.bee", f"new_bool(a)\nnew_bool(b)\n{clauses}solve satisfy\n")
ledger = "".join(f"enc {n}\n" for n in range(1, 5))
refuted = path("pairs.answer", f"bee 1\nUNSATISFIABLE\nledger\n{ledger}proof\n5 1 0 1 2 0\n6 0 5 3 4 0\nend\n")
names = [f"b{n}" for n in range(40)]
bools = "".join(f"new_bool({n})\n" for n in names)
half = path("half.bee", f"{bools}bool_array_sum_eq([{','.join(names)}],20)\nsolve satisfy\n")
threes = "new_int(x,0,3)\nnew_int(y,0,3)\nnew_int(z,-3,0)\n"
two = path("two.bee", f"{threes}int_plus(x,y,3)\nint_plus(y,z,1)\nsolve maximize z then x\n")
sum_text = path("sum.cnf", "c bee 1\nc int x 0 1:1 2:1 3:1\nc int y 0 -3:1 -2:1 -1:1\np cnf 6 2\n1 -2 0\n2 -3 0\n")
found = path("sum.values", "c found\ns SATISFIABLE\nv 1 -2 -3\nv 4 5 -6 0\n")
lists = path(
    "lists.bee",
    "".join(f"new_bool({n})\n" for n in names[:24])
    + "".join(f"new_int(x{n},0,2)\n" for n in range(6))
    + f"bool_array_xor([{','.join(names[:9])}])\nbool_array_sum_leq([{','.join(names[6:17])}],1)\n"
    + f"bool_arrays_lex([{','.join(names[10:15])}],[{','.join(names[15:20])}])\n"
    + "int_array_sum_eq([x0,x1,x2,x3,x4,x5],7)\nsolve minimize x0\n",
)

def written(name, *words):
    return path(name, subprocess.run([program, *words], capture_output=True, text=True, check=True).stdout)


best = written("lists.answer", "solve", lists)
walk = "new_int(lunch,11,14)\nnew_int(lecture,9,12)\nnew_int(walk,9,16)\nint_geq(walk,11)\nint_geq(lecture,11)\n"
apart = "int_gt(lunch,walk)\nint_neq(walk,lecture)\nsolve minimize lunch\n"
days = path("days.bee", f"{walk}int_gt(lunch,lecture)\n{apart}")
broken = path("broken.bee", f"{walk}int_lt(lunch,lecture)\n{apart}")
listed, core = written("days.list", "all", days), written("broken.core", "core", broken)
cover = path("cover.opb", "min: +3 x1 +2 x2 +4 x3 ;\n+1 x1 +1 x2 +1 ~x3 >= 2 ;\n+1 x1 +1 x3 <= 1 ;\n")
drup = path("pairs.drup", "1 0\n")
least = path("least.bee", "new_int(x,0,2)\nint_neq(x,0)\nsolve minimize x\n")
least_found = path("least.values", "s SATISFIABLE\nv 1 -2 0\n")
clauses_text = path("pairs.cnf", "p cnf 2 4\n1 2 0\n1 -2 0\n-1 2 0\n-1 -2 0\n")
# Modes that read two texts.
SECONDS = ("check", "decode", "checkall", "checkcore", "certify", "resume", "drup")
RUNS = [
    ("times", ["solve", times]),
    ("pigeons", ["solve", holes, "--no-restart", "--budget", "4096"]),
    ("pairs", ["check", pairs, refuted]),
    ("half", ["compile", half]),
    ("half", ["solve", half]),
    ("lists", ["compile", lists]),
    ("lists", ["check", lists, best]),
    ("lists", ["resume", lists, best]),
    ("two", ["solve", two]),
    ("sum", ["decode", sum_text, found]),
    ("days", ["all", days]),
    ("days", ["all", days, "--budget", "1"]),
    ("days", ["checkall", days, listed]),
    ("broken", ["core", broken]),
    ("broken", ["checkcore", broken, core]),
    ("cover", ["opbmodel", cover]),
    ("cover", ["opb", cover]),
    ("pairs", ["certify", pairs, drup]),
    ("least", ["certify", least, least_found]),
    ("least", ["bound", least, "2"]),
    ("least", ["weigh", least]),
    ("clauses", ["sat", clauses_text]),
    ("clauses", ["drup", clauses_text, drup]),
]


def run(words, **given):
    env = dict(os.environ, LD_PRELOAD=os.path.join(folder, "refusing.so"), **given)
    done = subprocess.run([program, *words], env=env, capture_output=True, timeout=120)
    return done.returncode, done.stdout, done.stderr


TOLD, UNTOLD = ((6, b"", line) for line in (b"bee: out of memory\n", b""))
# An opening asks for a copy of the name, and the first one for the list of open files as well.
OPENING = (4, b"", b"bee: read fault\n")
print(f"{'run':8} {'mode':9} {'asked':>6}  {'one refused':46} each refused from there on")
failed = False
for name, words in RUNS:
    ample = run(words, ASKED=os.path.join(folder, "asked"))
    if ample[0] not in (0, 8):
        sys.exit(f"{name}: {words[0]} ended with {ample}")
    asked = int(open(os.path.join(folder, "asked")).read())
    openings = 3 if words[0] in SECONDS else 2
    shown, others = [], {}
    for forever in (False, True):
        with ThreadPool(int(os.environ.get("PROCESSES", 3))) as pool:
            last = asked if forever else 0
            refusing = lambda n: run(words, REFUSED_FIRST=str(n), REFUSED_LAST=str(max(n, last)))
            ends = pool.map(refusing, range(1, asked + 1))
        for n, end in enumerate(ends, 1):
            if end not in (ample, TOLD, UNTOLD) and (end != OPENING or ends.count(OPENING) > openings):
                others.setdefault(end, []).append(f"{n}{' and on' if forever else ''}")
        told, untold, read = (ends.count(it) for it in (TOLD, UNTOLD, OPENING))
        shown.append(f"{told} told, {untold} untold, {read} read, {ends.count(ample)} as with ample")
    print(f"{name:8} {words[0]:9} {asked:6}  {shown[0]:46} {shown[1]}", flush=True)
    for (code, out, err), numbers in sorted(others.items()):
        failed = True
        print(f"  another end, code {code}, {len(out)} bytes, {err[-200:]!r}: {', '.join(numbers)}", flush=True)
sys.exit(failed)
PY
}

asked() {
  local program=${ASKING:-} rows=$top/crates/search_rows bench=$folder/crates/asking
  if [ -z "$program" ]; then
    git init -q "$folder"
    tar -C "$top" --exclude=out -c crates crates.txt | tar -C "$folder" -x
    echo 'asking: bee_list order_ints proof_check clause_arena clause_rings search_watcher learning_solver' >>"$folder/crates.txt"
    mkdir -p "$bench/src" "$bench/proofs"
    cp "$rows/src/words.rt" "$bench/src/"
    cp -r "$rows/specs" "$bench/"
    cp -r "$rows/proofs/words" "$rows/proofs/Clauses.antt" "$rows/proofs/Lib.antt" "$bench/proofs/"
    find "$bench" -type f -exec sed -i 's/search_rows/asking/' {} +
    sed -i 's/Result<Cnf, Fail>/Result<Cnf, AllocError>/; s/Fail::new("no CNF")/AllocError/; /^use std::test::Fail;/d; s/pub(super) fn/pub(crate) fn/' "$bench/src/words.rt"
    cat >"$bench/src/main.rt" <<'RT'
//! Asks one solver five times about pigeons in one hole fewer, where variable 1 gives leave to stay outside. Where memory is refused in
//! a call, it asks again. Prints how often that was, what was answered, and whether a checker took the log.
#![tactic(auto)]

mod words;

ghost use Rattle.std.specs.Prelude.{◌≡◌, ◌≤◌, ◌^◌};
ghost use Rattle.order_ints.specs.Place.{InRange};
ghost use Rattle.clause_rings.specs.Clauses.{AreApartIn};

use bee_list::Sequence;
use learning_solver::{Found, Solver};
use order_ints::{Cnf, Lit};
use proof_check::{Checker, ProofLine, TakeFault};
use search_watcher::Silent;
use std::alloc::{AllocError, Global};
use std::io;
use words::{cnf_of, literal, literals};

/// How many holes there are.
const HOLES: i32 = 6;

/// How often one thing is asked.
const TIMES: u32 = 3;

/// The number of a literal that is to be true, and the budget.
static QUESTIONS: [(i32, u64); 5] = [
    (-1, 330),
    (1, 330),
    (-1, u64::MAX),
    (1, u64::MAX),
    (-2, u64::MAX),
];

/// The number of the variable of a pigeon in a hole, both counted from 0.
fn seat(pigeon: i32, hole: i32) -> i32 {
    pigeon.wrapping_mul(HOLES).wrapping_add(hole).wrapping_add(2)
}

/// Each pigeon sits in a hole, or may stay outside.
fn seated(alloc: Global) -> Result<Vec<Sequence<Lit>>, AllocError> {
    let mut clauses = Vec::new(alloc);
    for pigeon in 0..HOLES + 1 {
        let mut numbers = vec![in alloc; 1]?;
        for hole in 0..HOLES {
            numbers.push(seat(pigeon, hole))?;
        }
        clauses.push(Sequence::from_vec(literals(alloc, &numbers)?))?;
    }
    Ok(clauses)
}

/// No two sit in one.
fn push_rivals(alloc: Global, clauses: &mut Vec<Sequence<Lit>>, hole: i32) -> Result<(), AllocError> {
    for pigeon in 0..HOLES {
        for rival in pigeon + 1..HOLES + 1 {
            let pair = [seat(pigeon, hole).wrapping_neg(), seat(rival, hole).wrapping_neg()];
            clauses.push(Sequence::from_vec(literals(alloc, &pair)?))?;
        }
    }
    Ok(())
}

/// The clauses of the pigeons.
fn pigeons(alloc: Global) -> Result<Vec<Sequence<Lit>>, AllocError> {
    let mut clauses = seated(alloc)?;
    for hole in 0..HOLES {
        push_rivals(alloc, &mut clauses, hole)?;
    }
    Ok(clauses)
}

/// Asks a solver of so many variables.
fn asked(solver: &mut Solver<'_>, vars: u32, assumption: Lit, budget: u64) -> Result<Option<Found>, AllocError>
    requires { solver.old.cnf.vars ≡ vars }
    ensures { solver.new.cnf ≡ solver.old.cnf }
{
    if assumption.var < 1 || assumption.var > vars || solver.added() > budget {
        return Ok(None);
    }
    Ok(Some(solver.solve_watched(Some(assumption), budget, true, &mut Silent)?))
}

/// Asks until memory isn't refused, and counts how often it was.
fn ask(solver: &mut Solver<'_>, vars: u32, assumption: Lit, budget: u64, refused: &mut u32) -> Result<Option<Found>, AllocError>
    requires { solver.old.cnf.vars ≡ vars }
    ensures { solver.new.cnf ≡ solver.old.cnf }
{
    for _ in 0..TIMES {
        match asked(solver, vars, assumption, budget) {
            Ok(found) => return Ok(found),
            Err(AllocError) => *refused = refused.saturating_add(1),
        }
    }
    Err(AllocError)
}

/// An answer in a word.
fn word(found: Option<Found>) -> &'static str {
    match found {
        Some(Found::Sat(_)) => " true",
        Some(Found::Refuted(_)) => " refuted",
        Some(Found::Spent) => " spent",
        None => " unasked",
    }
}

/// Whether a checker takes all lines.
fn are_taken(alloc: Global, cnf: &Cnf, lines: &[ProofLine]) -> Result<bool, AllocError>
    requires vars { cnf.now.vars ≤ 2 ^ 27 }
    requires in_range { InRange cnf.now }
{
    let mut checker = Checker::with(alloc, cnf)?;
    for line in lines {
        match checker.take(line) {
            Ok(()) => {}
            Err(TakeFault::Memory) => return Err(AllocError),
            Err(TakeFault::Proof(_)) => return Ok(false),
        }
    }
    Ok(true)
}

/// Asks all questions, and tells the answers.
fn answers(alloc: Global, solver: &mut Solver<'_>, vars: u32, refused: &mut u32) -> Result<String, AllocError>
    requires { solver.old.cnf.vars ≡ vars }
    ensures { solver.new.cnf ≡ solver.old.cnf }
{
    let mut text = String::new(alloc);
    for question in &QUESTIONS {
        let found = ask(solver, vars, literal(question.0), question.1, refused)?;
        text.push_str(word(found))?;
    }
    Ok(text)
}

/// What is printed.
fn told(alloc: Global, cnf: &Cnf) -> Result<String, AllocError>
    requires vars { cnf.now.vars ≤ 2 ^ 27 }
    requires in_range { InRange cnf.now }
    requires apart { AreApartIn cnf.now }
{
    let mut solver = Solver::with(alloc, cnf)?;
    let mut refused = 0;
    let answers = answers(alloc, &mut solver, cnf.vars, &mut refused)?;
    let taken = are_taken(alloc, cnf, solver.log())?;
    let deleted = solver.log().iter().any(|line| matches!(line, ProofLine::Delete { .. }));
    format!(in alloc; "{refused}{answers} taken={taken} deleted={deleted}")
}

fn main(rt: HostRuntime) -> io::Result<()> {
    let alloc = rt.alloc();
    let cnf = cnf_of(43, pigeons(alloc)?)?;
    let text = told(alloc, &cnf)?;
    println!(rt; "{text}")
}
RT
    mkdir -p "$bench/proofs/ask" "$bench/proofs/answers"
    cat >"$bench/proofs/ask/Invariants.antt" <<'ANTT'
use Rattle.std.proofs.Common.{◌≡◌}
use Rattle.asking.proofs.ask.Given as goal

abbrev pub invariant-loop : goal.invariant-loop
invariant-loop l = l.solver.cnf ≡ l.fn.solver.cnf
ANTT
    cat >"$bench/proofs/answers/Invariants.antt" <<'ANTT'
use Rattle.std.proofs.Common.{◌≡◌}
use Rattle.asking.proofs.answers.Given as goal

abbrev pub invariant-loop-question : goal.invariant-loop-question
invariant-loop-question l = l.solver.cnf ≡ l.fn.solver.cnf
ANTT
    (cd "$bench" && rt run >"$folder/log" 2>&1) || { tail -n 20 "$folder/log" >&2; return 1; }
    program=$bench/out/asking
  fi
  python3 - "$program" "$folder" <<'PY'
import os, subprocess, sys
from collections import Counter
from multiprocessing.pool import ThreadPool

program, folder = sys.argv[1:]
AMPLE = b"0 spent true refuted true true taken=true deleted=true\n"


def run(**given):
    env = dict(os.environ, LD_PRELOAD=os.path.join(folder, "refusing.so"), **given)
    done = subprocess.run([program], env=env, capture_output=True, timeout=120)
    return done.returncode, done.stdout


def ending(end):
    """What an end comes to: whether a call was refused memory, where it answers as with ample memory, and else whether it gave up."""
    code, out = end
    refused, *told = out.split()
    return ("asked again" if int(refused) else "not asked again") if code == 0 and told[:-1] == AMPLE.split()[1:-1] else None


count = os.path.join(folder, "asked")
if run(ASKED=count) != (0, AMPLE):
    sys.exit("with ample memory the answers are others")
asked = int(open(count).read())
failed = False
print(f"memory is asked for {asked} times")
for forever in (False, True):
    with ThreadPool(int(os.environ.get("PROCESSES", 3))) as pool:
        ends = pool.map(lambda n: run(REFUSED_FIRST=str(n), REFUSED_LAST=str(10 * asked if forever else n)), range(1, asked + 1))
    told = ["gave up" if end == (1, b"") else ending(end) if end[1] else None for end in ends]
    failed = failed or None in told
    shown = ", ".join(f"{number} {what}" for what, number in sorted(Counter(what or "otherwise" for what in told).items()))
    print(f"{'each refused from there on' if forever else 'one refused'}: {shown}", flush=True)
    for n, (end, what) in enumerate(zip(ends, told), 1):
        if what is None:
            print(f"  another end, refused at {n}: {end}", flush=True)
sys.exit(failed)
PY
}

[ $# -gt 0 ] || set -- runs asked
for part in "$@"; do
  case $part in
    runs | asked) "$part" ;;
    *) echo "no part: $part" >&2; exit 1 ;;
  esac
done
