#!/usr/bin/env bash
# Times `clauses` of the crate `direct_encode` on a sum of two integers of 1,000 values each, the second one with steps
# of 1,000, so that the third has a million values. Prints the clauses, their literals and the CPU seconds for
# the whole program, the least of three runs. It builds a small program over a copy of the crates. Wants rt.
set -eu
top=$(cd "$(dirname "${BASH_SOURCE[0]}")/.." && pwd)
folder=$(mktemp -d)
trap 'rm -rf "$folder"' EXIT
git init -q "$folder"
mkdir -p "$folder/crates/encoding/src" "$folder/crates/encoding/proofs/thousandfold"
for crate in bee_list core_cost order_ints core_forms direct_encode; do
  cp -r "$top/crates/$crate" "$folder/crates/"
  grep -E "^$crate:" "$top/crates.txt" >>"$folder/crates.txt"
done
echo 'encoding: order_ints core_forms direct_encode' >>"$folder/crates.txt"
cat >"$folder/crates/encoding/src/main.rt" <<'RT'
//! Makes the clauses of a sum, and prints how many they are and how many literals they have.
#![tactic(auto)]

ghost use Rattle.std.specs.Prelude.{◌+◌, ◌^◌, ◌<◌, ◌≤◌, IfOk, IfSome, IsTrue};
ghost use Rattle.core_forms.specs.WellFormed.{IsSound, greatest_abs, IsWellFormed};

use core_forms::{Core, is_basic};
use direct_encode::clauses;
use order_ints::OrdInt;
use std::alloc::{AllocError, Global};
use std::io;

/// The values from 0 on, as many as there are steps and one more.
fn counted(alloc: Global, first: u32, steps: u32) -> Result<OrdInt, AllocError>
    requires { (1 ≤ first) × (first + steps ≤ 2 ^ 27) }
    ensures { IfOk result (λ a. IsSound a) }
{
    OrdInt::unit_range(alloc, 0, first, steps)
}

/// An integer of small values times a thousand.
fn thousandfold(a: &OrdInt) -> Result<Option<OrdInt>, AllocError>
    requires { IsSound a.now }
    ensures { IfOk result (λ b. IfSome b (λ b. IsSound b)) }
{
    let low = a.low().unsigned_abs();
    let high = a.high().unsigned_abs();
    if 1_000 <= low || 1_000 <= high {
        return Ok(None);
    }
    Ok(Some(a.scaled(1_000)?))
}

/// Whether all values are small.
fn is_small(a: &OrdInt) -> bool
    requires { IsSound a.now }
    ensures { IsTrue result → greatest_abs a.now < 2 ^ 40 }
{
    let low = a.low().unsigned_abs();
    let high = a.high().unsigned_abs();
    low < 1 << 40 && high < 1 << 40
}

/// The sum.
fn sum(alloc: Global) -> Result<Option<Core>, AllocError>
    ensures { IfOk result (λ core. IfSome core (λ core. IsWellFormed core)) }
{
    let a = counted(alloc, 1, 999)?;
    let small = counted(alloc, 1_000, 999)?;
    let c = counted(alloc, 2_000, 999_999)?;
    let Some(b) = thousandfold(&small)? else {
        return Ok(None);
    };
    if is_small(&a) && is_small(&b) {
        return Ok(Some(Core::sum3(alloc, a, b, c)?));
    }
    Ok(None)
}

fn main(rt: HostRuntime) -> io::Result<()> {
    let alloc = rt.alloc();
    let Some(core) = sum(alloc)? else {
        return println!(rt; "no sum");
    };
    if !is_basic(&core) {
        return println!(rt; "not basic");
    }
    let written = clauses(alloc, &core)?;
    let mut literals = 0_usize;
    for clause in written.iter() {
        literals = literals.saturating_add(clause.len());
    }
    let count = written.len();
    println!(rt; "{count} clauses of {literals} literals")
}
RT
cat >"$folder/crates/encoding/proofs/thousandfold/Answers.antt" <<'ANTT'
use Rattle.std.proofs.Common.{arith, pos}
use Rattle.std.proofs.lemmas.Int.{ints}
use Rattle.order_ints.proofs.Multiples.{IsBounded-scaled_of}
use Rattle.encoding.proofs.thousandfold.Goals as goal

pub scaled-requires-clause-after : goal.scaled-requires-clause-after
scaled-requires-clause-after c =
    IsBounded-scaled_of c.args.a.now (pos 1000) 1000 (omega (arith, ints)) (omega (arith, ints)) (omega (arith, ints))
ANTT
(cd "$folder/crates/encoding" && rt run </dev/null >"$folder/log" 2>&1) || { tail -n 20 "$folder/log" >&2; exit 1; }
TIMEFORMAT='%U %S'
for _run in 1 2 3; do
  { time "$folder/crates/encoding/out/encoding"; } 2>&1
done | awk 'NF > 2 { text = $0; next } { took = $1 + $2; if (!least || took < least) least = took } END { print text; printf "%.2f s, the least of three\n", least }'
