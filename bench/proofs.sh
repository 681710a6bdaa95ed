#!/usr/bin/env bash
# Times the checker of the crate `proof_check` on proofs whose lines follow chains of implications, and prints for each
# the lines, the hints, the literals that these name, and the seconds and rates of reading the text and of taking the
# lines. A literal looked at is one of a clause that a hint names, or one of the line's own. It builds a small program
# over a copy of the crates. Wants python3 and rt. `proofs.sh CNF LRAT` times one proof instead, such as that of `bee
# sat CNF` behind its first line.
set -eu
top=$(cd "$(dirname "${BASH_SOURCE[0]}")/.." && pwd)
folder=$(mktemp -d)
trap 'rm -rf "$folder"' EXIT
git init -q "$folder"
mkdir -p "$folder/crates/proof_bench/src"
for function in is_below are_below; do
  mkdir -p "$folder/crates/proof_bench/proofs/$function"
  sed 's/solver_rows\.proofs\.clauses/proof_bench.proofs/' "$top/crates/solver_rows/proofs/clauses/$function/Invariants.antt" \
    >"$folder/crates/proof_bench/proofs/$function/Invariants.antt"
done
cp -r "$top/crates/bee_list" "$top/crates/bee_text" "$top/crates/order_ints" "$top/crates/proof_check" "$folder/crates/"
grep -E '^(bee_list|bee_text|order_ints|proof_check):' "$top/crates.txt" >"$folder/crates.txt"
echo 'proof_bench: bee_list bee_text order_ints proof_check' >>"$folder/crates.txt"
cat >"$folder/crates/proof_bench/src/main.rt" <<'RT'
//! Reads a line `p cnf VARS CLAUSES`, the clauses and a proof on standard input, and prints what each part took.
#![tactic(auto)]

ghost use Rattle.std.specs.Prelude.{◌≡◌, ◌≤◌, ◌+◌, ◌^◌, IsTrue};
ghost use Rattle.order_ints.specs.Place.{ClauseBelow, ClausesBelow};

use bee_list::Sequence;
use bee_text::{Lines, next_word, read_number, read_signed};
use order_ints::{Cnf, Lit};
use proof_check::{Checker, LineHead, LineRoom};
use std::alloc::{AllocError, Global};
use std::io;
use std::io::Read;
use std::process::Abort;
use std::time::Instant;

fn is_below(lits: &[Lit], vars: u32) -> bool
    ensures { IsTrue result → ClauseBelow (vars + 1) lits.now }
{
    for lit in lits {
        if lit.var() == 0 {
            return false;
        }
        if vars < lit.var() {
            return false;
        }
    }
    true
}

fn are_below(clauses: &[Sequence<Lit>], vars: u32) -> bool
    ensures { IsTrue result → ClausesBelow (vars + 1) clauses.now }
{
    for clause in clauses {
        if !is_below(clause.as_slice(), vars) {
            return false;
        }
    }
    true
}

fn number(word: &[u8]) -> u32 {
    match read_number(word, 1 << 27) {
        Some(n) => u32::try_from(n).unwrap_or(0),
        None => 0,
    }
}

fn clause(alloc: Global, text: &[u8]) -> Result<Sequence<Lit>, AllocError> {
    let mut lits = Vec::new(alloc);
    let mut rest = text;
    for _ in 0..u64::MAX {
        let Some((word, behind)) = next_word(rest) else {
            break;
        };
        rest = behind;
        if let Some(z) = read_signed(word, 1 << 27) {
            if z != 0 {
                let var = u32::try_from(z.unsigned_abs()).unwrap_or(0);
                lits.push(Lit::of(var, z > 0))?;
            }
        }
    }
    Ok(Sequence::from_vec(lits))
}

fn heading(text: &[u8]) -> (u32, u32) {
    let mut numbers = (0, 0);
    let mut rest = text;
    for _ in 0..u64::MAX {
        let Some((word, behind)) = next_word(rest) else {
            break;
        };
        rest = behind;
        numbers = (numbers.1, number(word));
    }
    numbers
}

fn read_all(alloc: Global, proof: &[u8]) -> (usize, usize) {
    let mut room = LineRoom::new(alloc);
    let mut lines = Lines::new(proof);
    let mut counts = (0usize, 0usize);
    for _ in 0..u64::MAX {
        let Some(line) = lines.next_line() else {
            break;
        };
        if let Ok(LineHead::Addition(_)) = room.read_bytes(line.bytes) {
            counts.1 = counts.1.wrapping_add(room.hints.len());
        }
        counts.0 = counts.0.wrapping_add(1);
    }
    counts
}

fn take_all(alloc: Global, checker: &mut Checker, proof: &[u8]) -> usize {
    let mut room = LineRoom::new(alloc);
    let mut lines = Lines::new(proof);
    let mut taken = 0usize;
    for _ in 0..u64::MAX {
        let Some(line) = lines.next_line() else {
            break;
        };
        if let Ok(head) = room.read_bytes(line.bytes) {
            if checker.take_read(head, &room).is_ok() {
                taken = taken.wrapping_add(1);
            }
        }
    }
    taken
}

fn main(rt: HostRuntime) -> io::Result<()> {
    let alloc = rt.alloc();
    let mut text = Vec::new(alloc);
    rt.reader().read_to_end(&mut text)?;
    let mut lines = Lines::new(text.as_slice());
    let (vars, count) = match lines.next_line() {
        Some(line) => heading(line.bytes),
        None => (0, 0),
    };
    let mut clauses = Vec::new(alloc);
    for _ in 0..count {
        if let Some(line) = lines.next_line() {
            clauses.push(clause(alloc, line.bytes)?)?;
        }
    }
    let proof = lines.rest();
    if vars > 1 << 27 {
        panic!(&rt; "too many variables");
    }
    if !are_below(&clauses, vars) {
        panic!(&rt; "no CNF");
    }
    let cnf = Cnf { vars, clauses: Sequence::from_vec(clauses) };
    let mut checker = Checker::with(alloc, &cnf)?;
    let start = Instant::now(&rt)?;
    let (lines, hints) = read_all(alloc, proof);
    let reading = start.elapsed(&rt)?.as_micros();
    let start = Instant::now(&rt)?;
    let taken = take_all(alloc, &mut checker, proof);
    let both = start.elapsed(&rt)?.as_micros();
    let empty = checker.known(&[]);
    println!(rt; "{lines} {taken} {hints} {reading} {both} {empty}")
}
RT
(cd "$folder/crates/proof_bench" && echo | rt run >"$folder/log" 2>&1) || { tail -n 20 "$folder/log" >&2; exit 1; }
python3 - "$folder/crates/proof_bench/out/proof_bench" "$@" <<'PY'
import subprocess, sys

def chains(lines, hints, width):
    """Clauses `not x(i) or x(i+1) or y1 .. yw` under ids from 1, and lines `not x(i) or x(i+hints) or y1 .. yw`."""
    xs = 1000 + hints
    ys = [xs + 1 + k for k in range(width)]
    wide = "".join(f" {y}" for y in ys)
    yield f"p cnf {xs + width} {xs - 1}\n" + "".join(f"-{i} {i + 1}{wide} 0\n" for i in range(1, xs))
    for n in range(lines):
        i = n % 1000 + 1
        ids = " ".join(map(str, range(i, i + hints)))
        yield f"{xs + n} -{i} {i + hints}{wide} 0 {ids} 0\n"

def run(program, text):
    words = subprocess.run([program], input=text.encode(), capture_output=True).stdout.split()
    return [int(w) for w in words[:5]] + [words[5].decode()]

def literals_named(cnf, proof):
    live, named = {}, 0
    for i, line in enumerate(l for l in open(cnf) if l[:1] not in "cp"):
        live[i + 1] = len(line.split()) - 1
    for line in open(proof):
        words = line.split()
        if words[1] != "d":
            end = words.index("0")
            live[int(words[0])] = end - 1
            named += end - 1 + sum(live[int(w)] for w in words[end + 1:-1])
    return named

def show(name, text, named):
    lines, taken, hints, reading, both, empty = run(sys.argv[1], text)
    took = max(both - reading, 1)
    print(f"{name}: {taken} of {lines} lines taken, {hints} hints, {named} literals, {len(text) / 1e6:.1f} MB; reading {reading / 1e6:.3f} s, "
          f"taking {took / 1e6:.3f} s: {lines / took:.2f} million lines, {hints / took:.1f} million hints, {named / took:.1f} million literals a second"
          f"{', refuted' if empty == 'true' else ''}")
    return took

if len(sys.argv) > 3:
    text = "".join(l for l in open(sys.argv[2]) if l[0] != "c") + open(sys.argv[3]).read()
    show(sys.argv[3], text, literals_named(sys.argv[2], sys.argv[3]))
    sys.exit()
for hints, width in ((10, 0), (10, 20), (100, 0), (100, 20)):
    times = []
    for lines in (10_000, 100_000, 1_000_000):
        named = lines * (hints * (width + 2) + width + 2)
        if named > 300_000_000:
            break
        times.append((named, show(f"{hints} hints, {width + 2} literals", "".join(chains(lines, hints, width)), named)))
    import math
    (a, s), (b, t) = times[0], times[-1]
    print(f"    exponent against the literals named: {math.log(t / s) / math.log(b / a):.2f}")
PY
