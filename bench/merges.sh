#!/usr/bin/env bash
# Times merges of the crate `equation_store`: from 131,072 to 1,048,576 variables, all merged to one class, in a row, in
# a balanced tree and in random order. Prints the CPU seconds (the least of three runs), the new labels that
# were given, the growth exponent of the seconds, and the bytes for each further variable. Beside that it times what
# memory alone costs: one place of 20 bytes for each merge of the random order, read and written in an array. It builds
# a small program over a copy of the crates. Wants python3 and rt.
set -eu
top=$(cd "$(dirname "${BASH_SOURCE[0]}")/.." && pwd)
folder=$(mktemp -d)
trap 'rm -rf "$folder"' EXIT
git init -q "$folder"
mkdir -p "$folder/crates/merging/src"
cp -r "$top/crates/bee_list" "$top/crates/index_ring" "$top/crates/order_ints" "$top/crates/equation_store" "$folder/crates/"
grep -E '^(bee_list|index_ring|order_ints|equation_store):' "$top/crates.txt" >"$folder/crates.txt"
echo 'merging: order_ints equation_store' >>"$folder/crates.txt"
cat >"$folder/crates/merging/src/main.rt" <<'RT'
//! Merges variables in the order that standard input names, and prints how many new labels were given, where it asks for that.
#![tactic(auto)]

ghost use Rattle.std.specs.Prelude.{◌↔◌, ◌+◌, IsTrue};
ghost use Rattle.order_ints.specs.Place.{AtomBelow};
ghost use Rattle.equation_store.specs.Laws.{IsConstant};

use equation_store::EqStore;
use order_ints::{Atom, Lit};
use std::io;
use std::io::Read;

/// Whether an atom is one of a store with so many variables.
fn is_atom_of(vars: usize, atom: Atom) -> bool
    ensures { IsTrue result ↔ AtomBelow (vars + 1) atom }
{
    match atom {
        Atom::True => true,
        Atom::False => true,
        Atom::Of(literal) => 1 <= literal.var && literal.var as usize <= vars,
    }
}

fn variable(var: u32) -> Atom {
    Atom::Of(Lit {
        var,
        positive: true,
    })
}

fn is_literal(atom: Atom) -> bool
    ensures { IsTrue result → ¬ IsConstant atom }
{
    matches!(atom, Atom::Of(_))
}

/// The variable at which the walk of a class begins, if `label` is its own label.
fn first(store: &EqStore, label: u32) -> Option<u32> {
    let own = Atom::Of(Lit { var: label, positive: true });
    if !is_atom_of(store.view().len(), own) {
        return None;
    }
    let is_own = store.resolve(own) == own;
    if is_own { store.first(label) } else { None }
}

/// The variable behind another one in the walk of its class.
fn after(store: &EqStore, var: u32) -> Option<u32> {
    let own = Atom::Of(Lit { var, positive: true });
    if !is_atom_of(store.view().len(), own) {
        return None;
    }
    if is_literal(store.resolve(own)) { store.after(var) } else { None }
}

/// How many members the class of a label has, by a walk.
fn members(store: &EqStore, label: u32) -> u64 {
    let mut count = 0_u64;
    let mut next = first(store, label);
    for _step in 0..store.view().len() {
        match next {
            Some(var) => {
                count = count.saturating_add(1);
                next = after(store, var);
            }
            None => break,
        }
    }
    count
}

/// Merges two variables; where `counts`, the members of the class that loses are counted first.
fn merge(store: &mut EqStore, given: &mut u64, counts: bool, first: u32, second: u32) {
    let (a, b) = (variable(first), variable(second));
    let vars = store.view().len();
    if is_atom_of(vars, a) && is_atom_of(vars, b) {
        if counts && let Some(loser) = store.loser(a, b) {
            *given = given.saturating_add(members(store, loser));
        }
        let _answer = store.merge(a, b);
    }
}

/// Merges each variable with the next one, from the first on.
fn in_a_row(store: &mut EqStore, given: &mut u64, counts: bool, vars: u32) {
    for var in 1..vars {
        merge(store, given, counts, var, var.saturating_add(1));
    }
}

/// Merges pairs, then pairs of pairs, and so on.
fn in_a_tree(store: &mut EqStore, given: &mut u64, counts: bool, vars: u32) {
    for level in 0..21_u32 {
        let step = 1_u32 << level;
        for pair in 0..vars / 2 {
            let first = pair.saturating_mul(step).saturating_mul(2).saturating_add(1);
            if first.saturating_add(step) <= vars {
                merge(store, given, counts, first, first.saturating_add(step));
            } else {
                break;
            }
        }
    }
}

/// What follows a number below `vars` in an order that jumps about; `vars` is a power of two.
fn jump(var: u32, vars: u32) -> u32 {
    let next = u64::from(var).wrapping_mul(1_664_525).wrapping_add(1_013_904_223);
    (next % u64::from(vars.max(1))) as u32
}

/// Merges each variable with the next one, in that order.
fn in_no_order(store: &mut EqStore, given: &mut u64, counts: bool, vars: u32) {
    let mut var = 1_u32;
    for _step in 0..vars {
        var = jump(var, vars);
        let first = var.saturating_add(1);
        merge(store, given, counts, first, first.saturating_add(1));
    }
}

/// Writes to each place, in that order, as often as there are rounds.
fn write_places(places: &mut [[u32; 5]], rounds: u32, vars: u32) {
    for _round in 0..rounds {
        let mut var = 1_u32;
        for _step in 0..vars {
            var = jump(var, vars);
            if let Some(place) = places.get_mut(var as usize) {
                place[0] = place[0].wrapping_add(1);
            }
        }
    }
}

fn main(rt: HostRuntime) -> io::Result<()> {
    let mut text = Vec::new(rt.alloc());
    rt.reader().read_to_end(&mut text)?;
    let order = text.first().copied().unwrap_or(b'0');
    let power = u32::from(text.get(1).copied().unwrap_or(b'a').saturating_sub(b'a').min(10));
    let vars = 2_048_u32 << power;
    let counts = text.get(2).copied() == Some(b'c');
    if order == b'p' {
        let mut places = vec![in rt.alloc(); [1_u32; 5]; vars as usize]?;
        write_places(places.as_mut_slice(), if counts { 8 } else { 0 }, vars);
    }
    let mut given = 0_u64;
    let mut store = EqStore::with(rt.alloc(), if order == b'p' { 0 } else { vars })?;
    match order {
        b'r' => in_a_row(&mut store, &mut given, counts, vars),
        b't' => in_a_tree(&mut store, &mut given, counts, vars),
        b'x' => in_no_order(&mut store, &mut given, counts, vars),
        _ => {}
    }
    println!(rt; "{vars} {given}")
}
RT
(cd "$folder/crates/merging" && echo | rt run >"$folder/log" 2>&1) || { tail -n 20 "$folder/log" >&2; exit 1; }
python3 - "$folder/crates/merging/out/merging" <<'PY'
import math, os, subprocess, sys

def run(order, power, counts=""):
    p = subprocess.Popen([sys.argv[1]], stdin=subprocess.PIPE, stdout=subprocess.PIPE)
    p.stdin.write((order + chr(ord("a") + power) + counts).encode())
    p.stdin.close()
    out = p.stdout.read().split()
    _, status, usage = os.wait4(p.pid, 0)
    assert status == 0
    return usage.ru_utime + usage.ru_stime, usage.ru_maxrss * 1024, int(out[0]), int(out[1])

for order, name in (("r", "row"), ("t", "tree"), ("x", "random")):
    seconds, peak = {}, {}
    for power in (6, 7, 8, 9):
        seconds[power], peak[power], n, _ = min(run(order, power) for _ in range(3))
        given = run(order, power, "c")[3]
        print(f"{name:6} {n:8} variables: {seconds[power]:.3f} s, {given} new labels ({given / (n * math.log2(n)):.2f} n log n)")
    # A peak counts what python held when it began the program, so memory is told of variables past those that take as
    # much.
    print(f"{name:6} growth exponent {math.log(seconds[9] / seconds[6]) / math.log(8):.2f}, "
          f"{(run(order, 10)[1] - peak[9]) / n:.1f} bytes for each further variable")

seconds = {}
for power in (6, 7, 8, 9):
    made, written = (min(run("p", power, counts)[0] for _ in range(7)) for counts in ("", "c"))
    seconds[power] = (written - made) / 8
print("places " + ", ".join(f"{s:.4f} s" for s in seconds.values())
      + f", growth exponent {math.log(seconds[9] / seconds[6]) / math.log(8):.2f}")
PY
