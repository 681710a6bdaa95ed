#!/usr/bin/env bash
# Times moves between rings, and the clause store of a search. Words name the families; without words both are taken:
#   moves     ten million moves of a million nodes between a thousand rings, by the crate `index_ring`: a node in no
#             order is pushed to a ring where it is free, and else taken out; each sixteenth move splices two rings.
#             Prints CPU nanoseconds for a move, with the choice of the node and the test of the condition.
#   clauses   propagation by the crate `clause_rings`, beside minisat, and the memory of clauses; `watches.py` says what
#             is printed. WATCHES names another such program, so that nothing is built. Wants python3 and minisat, and
#             counts misses where valgrind is there.
# It builds small programs over a copy of the crates. Wants rt.
set -eu
top=$(cd "$(dirname "${BASH_SOURCE[0]}")/.." && pwd)
folder=$(mktemp -d)
trap 'rm -rf "$folder"' EXIT

moves() {
  git init -q "$folder"
  mkdir -p "$folder/crates/moving/src"
  cp -r "$top/crates/index_ring" "$folder/crates/"
  grep -E '^index_ring:' "$top/crates.txt" >"$folder/crates.txt"
  echo 'moving: index_ring' >>"$folder/crates.txt"
  cat >"$folder/crates/moving/src/main.rt" <<'RT'
//! Moves nodes between rings, and prints how long it took.
#![tactic(auto)]

ghost use Rattle.std.specs.Prelude.{◌≢◌, ◌<◌, length, IsTrue};
ghost use Rattle.index_ring.specs.Lists.{IsFree};

use index_ring::Rings;
use std::io;

/// Whether a node may be pushed to a ring.
fn may_push(rings: &Rings, ring: u32, node: u32) -> bool
    ensures ring { IsTrue result → ring < length rings.now.lists }
    ensures node { IsTrue result → node < rings.now.nodes }
    ensures free { IsTrue result → IsFree rings.now node }
{
    if ring < rings.rings() && node < rings.nodes() { rings.is_free(node) } else { false }
}

/// Whether a node stands in a ring.
fn stands(rings: &Rings, node: u32) -> bool
    ensures { IsTrue result → ¬ IsFree rings.now node }
{
    if node < rings.nodes() { !rings.is_free(node) } else { false }
}

/// Whether two rings may be spliced.
fn may_splice(rings: &Rings, from: u32, into: u32) -> bool
    ensures from { IsTrue result → from < length rings.now.lists }
    ensures into { IsTrue result → into < length rings.now.lists }
    ensures apart { IsTrue result → from ≢ into }
{
    from < rings.rings() && into < rings.rings() && from != into
}

/// Moves one node, by a number in no order.
fn step(rings: &mut Rings, number: u64) {
    let node = ((number >> 20) % 1_000_000) as u32;
    let ring = ((number >> 44) % 1_000) as u32;
    if number % 16 == 0 {
        if may_splice(rings, ring, (ring + 1) % 1_000) {
            rings.splice(ring, (ring + 1) % 1_000);
        }
    } else if may_push(rings, ring, node) {
        if number % 2 == 0 {
            rings.push_back(ring, node);
        } else {
            rings.push_front(ring, node);
        }
    } else if stands(rings, node) {
        rings.unlink(node);
    }
}

fn main(rt: HostRuntime) -> io::Result<()> {
    let mut rings = Rings::with(rt.alloc(), 1_000, 1_000_000)?;
    let mut state = 1_u64;
    for _move in 0..10_000_000 {
        state = state.wrapping_mul(6_364_136_223_846_793_005).wrapping_add(1_442_695_040_888_963_407);
        step(&mut rings, state >> 4);
    }
    let some = used(&rings);
    println!(rt; "10000000 moves, {some} rings are not empty")
}

/// How many rings are not empty.
fn used(rings: &Rings) -> u32 {
    let mut some = 0_u32;
    for ring in 0..rings.rings() {
        if rings.first(ring).is_some() {
            some = some.saturating_add(1);
        }
    }
    some
}
RT
  (cd "$folder/crates/moving" && echo | rt run >"$folder/log" 2>&1) || { tail -n 20 "$folder/log" >&2; exit 1; }
  TIMEFORMAT='%U %S'
  for _run in 1 2 3; do
    { time "$folder/crates/moving/out/moving"; } 2>&1
  done | awk 'NF > 2 { print; next } { took = $1 + $2; if (!least || took < least) least = took } END { printf "%.1f ns a move, the least of three\n", least * 100 }'
}

clauses() {
  if [ -n "${WATCHES:-}" ]; then
    python3 "$top/bench/watches.py" "$WATCHES"
    return
  fi
  mkdir "$folder/clauses"
  git init -q "$folder/clauses"
  tar -C "$top" --exclude=out -c crates crates.txt | tar -C "$folder/clauses" -x
  echo 'watching: bee_text order_ints literal_trail clause_arena clause_rings sat_front' >>"$folder/clauses/crates.txt"
  local bench=$folder/clauses/crates/watching rows=$top/crates/search_rows
  mkdir -p "$bench/src" "$bench/specs" "$bench/proofs/stores" "$bench/proofs/store" "$bench/proofs/read_store"
  cp -r "$rows/specs/." "$bench/specs/"
  cp "$rows/proofs/Lib.antt" "$rows/proofs/Clauses.antt" "$bench/proofs/"
  cp -r "$rows/proofs/stores/add" "$rows/proofs/stores/is_unused" "$rows/proofs/words/is_clause" "$bench/proofs/stores/"
  find "$bench/specs" "$bench/proofs" -name '*.antt' -exec sed -i 's/search_rows/watching/; s/proofs\.words/proofs.stores/; s/add-requires-clause/add-clause-requires-clause/g' {} +
  cat >"$bench/src/stores.rt" <<'RT'
//! What may be done to a clause store: each condition of a call is tested.

ghost use Rattle.std.specs.Prelude.{◌≡◌, ◌≤◌, ◌+◌, IsTrue, None};
ghost use Rattle.order_ints.specs.Place.{LitBelow};
ghost use Rattle.literal_trail.specs.Trail.{entry_of};
ghost use Rattle.clause_rings.specs.Clauses.{IsUnused};
ghost use Rattle.watching.specs.Clauses.{Ascends};

use clause_rings::ClauseDb;
use order_ints::Lit;
use std::alloc::AllocError;

/// Whether a literal's variable is there, and free.
fn is_free(db: &ClauseDb, l: Lit) -> bool
    ensures lit { IsTrue result → LitBelow (db.now.trail.vars + 1) l }
    ensures free { IsTrue result → entry_of db.now.trail.entries l.var ≡ None }
{
    1 <= l.var && l.var <= db.vars() && db.entry_of(l.var).is_none()
}

/// Whether no literal was made true by a clause.
fn is_unused(db: &ClauseDb, c: u32) -> bool
    ensures { IsTrue result → IsUnused db.now.trail.entries c }
{
    let entries = db.trail();
    for k in 0..entries.len() {
        if entries[k].reason == Some(c) {
            return false;
        }
    }
    true
}

/// Whether the variables of literals ascend, from 1 to `vars`.
fn is_clause(lits: &[Lit], vars: u32) -> bool
    ensures { IsTrue result → Ascends 0 vars lits.now }
{
    let mut last = 0;
    for l in lits {
        if l.var <= last {
            return false;
        }
        if vars < l.var {
            return false;
        }
        last = l.var;
    }
    true
}

/// Adds a clause at level 0, unless its variables don't ascend.
pub(super) fn add(db: &mut ClauseDb, lits: &[Lit], id: u64) -> Result<(), AllocError> {
    db.reserve(lits.len(), 1)?;
    if !is_clause(lits, db.vars()) {
        return Ok(());
    }
    if db.level() != 0 {
        return Ok(());
    }
    let _clause = db.add(lits, id);
    Ok(())
}

/// Deletes a clause that is there, and no reason.
pub(super) fn delete(db: &mut ClauseDb, c: u32) {
    if !db.is_live(c) {
        return;
    }
    if is_unused(db, c) {
        db.delete(c);
    }
}

/// Decides a literal that is free, and propagates. Where a clause is false the decision is taken back. The answer is how many
/// literals became true.
pub(super) fn decide(db: &mut ClauseDb, l: Lit) -> u32 {
    match db.propagate() {
        None if is_free(db, l) => {
            let before = db.height();
            db.assign(l, None);
            let conflict = db.propagate();
            let made = db.height().saturating_sub(before);
            let level = db.level();
            if conflict.is_some() && level > 0 {
                db.backjump(level - 1);
            }
            made
        }
        _ => 0,
    }
}
RT
  cat >"$bench/src/main.rt" <<'RT'
//! Reads what is to be done on standard input, and a CNF behind it. With `decide ROUNDS` each variable is decided to be false, one after
//! another, where it is free, and all is taken back before the next round; the literals that became true are printed. With `hold COUNT SIZE` so many clauses of so many literals
//! come, and with `renew COUNT SIZE` half of them go then, and as many come again.
#![tactic(auto)]

mod stores;

ghost use Rattle.std.specs.Prelude.{◌≤◌};
ghost use Rattle.order_ints.specs.Place.{InRange};
ghost use Rattle.order_ints.specs.OrderedClauses.{ClausesAscend};

use bee_text::{Lines, next_word, read_number};
use clause_rings::ClauseDb;
use order_ints::{Cnf, Lit};
use sat_front::{CnfFault, read_cnf};
use std::alloc::{AllocError, Global};
use std::io;
use std::io::Read;
use stores::{add, decide, delete};

/// The number at the front of a text, and what stands behind it.
fn next_number(text: &[u8]) -> (usize, &[u8]) {
    match next_word(text) {
        Some((word, rest)) => (read_number(word, 1 << 28).unwrap_or(0) as usize, rest),
        None => (0, text),
    }
}

/// The store of a CNF.
fn store(alloc: Global, cnf: &Cnf) -> Result<ClauseDb, AllocError>
    requires few { cnf.now.vars ≤ 67108864 }
    requires in_range { InRange cnf.now }
    requires ascend { ClausesAscend cnf.now.clauses }
{
    ClauseDb::with(alloc, cnf)
}

/// The store of the CNF that a text lists.
fn read_store(alloc: Global, text: &[u8]) -> io::Result<ClauseDb> {
    match read_cnf(alloc, text) {
        Ok(cnf) => Ok(store(alloc, &cnf)?),
        Err(CnfFault::Form(_)) => Err(io::Error::other("the text is no CNF")),
        Err(CnfFault::Memory) => Err(io::Error::other("memory is wanting")),
    }
}

/// Decides each variable to be false, from level 0 on, and answers how many literals became true.
fn decide_all(db: &mut ClauseDb) -> u64 {
    let mut made = 0_u64;
    db.backjump(0);
    for v in 0..db.vars() {
        let literals = decide(db, Lit::of(v.saturating_add(1), false));
        made = made.saturating_add(u64::from(literals));
    }
    made
}

/// A clause of literals in no order, whose variables ascend.
fn fill(lits: &mut Vec<Lit>, size: usize, state: &mut u64) -> Result<(), AllocError> {
    lits.clear();
    let mut var = 0_u32;
    for _literal in 0..size {
        *state = state
            .wrapping_mul(6_364_136_223_846_793_005)
            .wrapping_add(1_442_695_040_888_963_407);
        let number = *state >> 33;
        let gap = (number % 90_000) as u32;
        var = var.saturating_add(gap).saturating_add(1);
        lits.push(Lit::of(var, number % 2 == 0))?;
    }
    Ok(())
}

/// Adds so many clauses, and propagates, so that they are watched.
fn add_all(db: &mut ClauseDb, lits: &mut Vec<Lit>, count: usize, size: usize) -> Result<(), AllocError> {
    let mut state = 1_u64;
    for id in 0..count {
        fill(lits, size, &mut state)?;
        add(db, lits.as_slice(), id as u64)?;
    }
    let _conflict = db.propagate();
    Ok(())
}

/// Deletes every second clause, and adds as many again.
fn renew(db: &mut ClauseDb, lits: &mut Vec<Lit>, count: usize, size: usize) -> Result<(), AllocError> {
    for c in 0..db.references() {
        if c % 2 == 0 {
            delete(db, c);
        }
    }
    add_all(db, lits, count / 2, size)
}

fn main(rt: HostRuntime) -> io::Result<()> {
    let alloc = rt.alloc();
    let mut text = Vec::new(alloc);
    rt.reader().read_to_end(&mut text)?;
    let mut lines = Lines::new(text.as_slice());
    let Some(first) = lines.next_line() else {
        return Ok(());
    };
    let mut db = read_store(alloc, lines.rest())?;
    let (what, rest) = next_word(first.bytes).unwrap_or((&[], &[]));
    let (count, rest) = next_number(rest);
    let (size, _) = next_number(rest);
    let mut lits = Vec::new(alloc);
    if what == b"decide".as_slice() {
        let mut made = 0_u64;
        for _round in 0..count {
            made = made.saturating_add(decide_all(&mut db));
        }
        return println!(rt; "{made}");
    }
    db.reserve(count.saturating_mul(size), count)?;
    add_all(&mut db, &mut lits, count, size)?;
    if what == b"renew".as_slice() {
        renew(&mut db, &mut lits, count, size)?;
    }
    let references = db.references();
    println!(rt; "{references}")
}
RT
  cat >"$bench/proofs/store/Answers.antt" <<'ANTT'
use Rattle.std.proofs.Common.{ℕ, zero, suc, ◌<◌, List, [], ◌∷◌, length, get_or, arith}
use Rattle.order_ints.specs.declared.literal.Lit.{Lit}
use Rattle.order_ints.specs.OrderedClauses.{ClausesAscend}
use Rattle.clause_rings.specs.Clauses.{IsApart}
use Rattle.clause_rings.proofs.Ascending.{ascend-apart}
use Rattle.watching.proofs.store.Goals as goal

clauses-apart : (cs : List (List Lit)) → ClausesAscend cs → (k : ℕ) → k < length cs → IsApart (get_or cs k [])
clauses-apart [] h k low = absurd (omega (arith, low))
clauses-apart (c ∷ cs) h zero low = ascend-apart c h.0
clauses-apart (c ∷ cs) h (suc k) low = clauses-apart cs h.1 k (omega (arith, low))

pub with-requires-clause-apart : goal.with-requires-clause-apart
with-requires-clause-apart c = clauses-apart c.args.cnf.now.clauses c.requires.ascend
ANTT
  cat >"$bench/proofs/read_store/Answers.antt" <<'ANTT'
use Rattle.sat_front.proofs.Reading.{read_in_range, read_in_order}
use Rattle.watching.proofs.read_store.Goals as goal

pub store-requires-clause-few : goal.store-requires-clause-few
store-requires-clause-few c = (read_in_range c.args.text.now c.in-Ok.cnf c.in-Ok.ensures.read).1

pub store-requires-clause-in_range : goal.store-requires-clause-in_range
store-requires-clause-in_range c = (read_in_range c.args.text.now c.in-Ok.cnf c.in-Ok.ensures.read).0

pub store-requires-clause-ascend : goal.store-requires-clause-ascend
store-requires-clause-ascend c = (read_in_order c.args.text.now c.in-Ok.cnf c.in-Ok.ensures.read).0
ANTT
  (cd "$bench" && printf 'decide 1\np cnf 1 0\n' | rt run >"$folder/log" 2>&1) || { tail -n 20 "$folder/log" >&2; exit 1; }
  python3 "$top/bench/watches.py" "$bench/out/watching"
}

[ $# -gt 0 ] || set -- moves clauses
for family in "$@"; do
  "$family"
done
