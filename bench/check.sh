#!/usr/bin/env bash
# Times the writing and the checking of answers, by the crates `answer_document` and `ledger_check`.
#   pigeons     a refutation of one pigeon more than holes: every clause encoded, and a derivation that goes through the
#               placements of the first pigeons, and deletes the clauses that it needs no more
#   count       half of so many Booleans are true: the whole ledger of the compilation, and a derivation that adds each
#               clause once more
#   two_equal   the same of two equal integers of so many values, whose one core tells all the equations
#   text        a document of so many lines for a model without names, which is written alone
# It prints for each size the lines of the ledger and of the derivation, the bytes, the seconds of writing (of all but
# the pigeons, whose text `answers.py` puts together), the seconds of checking, and the lines checked in a second;
# behind them, for each family, the growth exponent of the seconds of checking against the lines, from its first size to
# its last. It stops with an error where an answer isn't taken. It builds a small program over a copy of the crates:
# `check.sh` proves and builds it, in which time the crates are proved that weren't yet; `check.sh --try` runs it
# without proof, slower and with checks, so that the sizes are smaller. Words behind that name others, as text:9000000.
# Wants python3 and rt.
#
# `check.sh --solved` times `bee check` beside `bee solve` over what that writes. Words behind it name the families;
# without words all are taken:
#   pigeons      seven to nine pigeons in one hole fewer
#   quasigroup   a Latin square with holes; `spoiled` is the same with two places of a row equal
#   count        half of 2,000 Booleans are true; `certified` is the same with something to be minimized, so that the
#                ledger stands in the answer
#   golomb       the shortest ruler of seven marks
#   queens       sixteen queens, of which two are told to stand in one diagonal; `cornered` are those with too few rows
# or a family that `compile.sh` has, with sizes, as greatest:500,1000, beside an integer whose least value is sought.
# It prints the verdict, the lines of the ledger and of derivations, the bytes, the seconds of both, and the latter
# beside the former. BEE names another program that is run.
set -eu
top=$(cd "$(dirname "${BASH_SOURCE[0]}")/.." && pwd)
if [ "${1:-}" = --solved ]; then
  shift
  [ -n "${BEE:-}" ] || "$top/bee" compile "$top/examples/pigeonhole.bee" >/dev/null
  exec python3 "$top/bench/solved.py" "${BEE:-$top/crates/bee/out/bee}" "$@"
fi
is_tried=
if [ "${1:-}" = --try ]; then
  shift
  is_tried=yes
  families=(pigeons:5,6,7 count:125,250,500 two_equal:250,500,1000)
else
  families=(pigeons:6,7,8 count:500,1000,2000 two_equal:2500,5000,10000 text:7000000)
fi
[ $# = 0 ] || families=("$@")
folder=$(mktemp -d)
trap 'rm -rf "$folder"' EXIT
git init -q "$folder"
tar -C "$top" --exclude=out -c crates crates.txt | tar -C "$folder" -x
echo 'check_bench: bee_list bee_text order_ints core_forms ledger_text rule_base fixpoint_queue rule_oracle proof_check bumblebee_reader model_meaning typed_model bee_compile answer_document ledger_check' \
  >>"$folder/crates.txt"
bench=$folder/crates/check_bench
mkdir -p "$bench/src" "$bench/proofs/models/are_lines" "$folder/cases"
sed 's/answer_rows/check_bench/' "$top/crates/answer_rows/proofs/models/are_lines/Invariants.antt" \
  >"$bench/proofs/models/are_lines/Invariants.antt"
for family in "${families[@]}"; do
  IFS=: read -r name sizes <<<"$family"
  for size in ${sizes//,/ }; do
    python3 "$top/bench/answers.py" "$name" "$size" "$folder/cases/$name-$size"
    echo "$name-$size" >>"$folder/order"
  done
done
cat >"$bench/src/models.rt" <<'RT'
//! The models of texts.

ghost use Rattle.std.specs.Prelude.{◌≡◌, IfSome, map};
ghost use Rattle.std.specs.List.{list_all};
ghost use Rattle.bee_text.specs.Lines.{lacks, AreLines};
ghost use Rattle.model_meaning.specs.declared.model.Decl.{Decl};
ghost use Rattle.model_meaning.specs.WellTyped.{WellTyped};
ghost use Rattle.model_meaning.specs.Limits.{InLimits};

use bumblebee_reader::read_model;
use model_meaning::{Decl, Model, in_limits};
use std::alloc::Global;
use typed_model::check_types;

/// Whether a name has no line feed inside.
fn is_line(name: &[u8]) -> bool
    ensures { result ≡ lacks 10 name.now }
{
    name.iter().all(|byte| *byte != b'\n')
}

/// Whether no name has.
fn are_lines(decls: &[Decl]) -> bool
    ensures { result ≡ list_all (lacks 10) (map (λ (d : Decl). d.name) decls.now) }
{
    let mut rest = decls;
    while let [first, others @ ..] = rest {
        if !is_line(first.name.as_bytes()) {
            return false;
        }
        rest = others;
    }
    true
}

/// The model that a text says.
pub(crate) fn model_of(alloc: Global, text: &[u8]) -> Option<Model>
    ensures typed { IfSome result WellTyped }
    ensures limits { IfSome result InLimits }
    ensures names { IfSome result (λ m. AreLines (map (λ (d : Decl). d.name) m.decls)) }
{
    let syntax = match read_model(alloc, text) {
        Ok(syntax) => syntax,
        Err(_) => return None,
    };
    let model = match check_types(alloc, &syntax) {
        Ok(model) => model,
        Err(_) => return None,
    };
    if !in_limits(&model) {
        return None;
    }
    if !are_lines(model.decls.as_slice()) {
        return None;
    }
    Some(model)
}
RT
cat >"$bench/src/documents.rt" <<'RT'
//! Documents of compilations that were given up, with a derivation that adds each clause once more.

ghost use Rattle.std.specs.Prelude.{◌≡◌, IfOk, IfSome};
ghost use Rattle.model_meaning.specs.WellTyped.{WellTyped};
ghost use Rattle.model_meaning.specs.Limits.{InLimits};

use answer_document::{Document, Verdict};
use bee_compile::{Compiled, compile};
use bee_list::Sequence;
use ledger_text::Line;
use model_meaning::Model;
use order_ints::Lit;
use proof_check::ProofLine;
use rule_base::Steps;
use rule_oracle::TableP;
use std::alloc::{AllocError, Global};
use std::marker::Brand;
use std::sync::ledger::{Blank, Ledger};

/// What a model is compiled to.
fn compiled<L: Ledger>(alloc: Global, blank: Blank, model: Model) -> Option<Compiled>
    requires typed { WellTyped model }
    requires limits { InLimits model }
{
    let mut steps = Steps::<L>::open(blank);
    match compile(alloc, model, TableP, &mut steps) {
        Ok(compiled) => Some(compiled),
        Err(_) => None,
    }
}

/// Each clause once more, by itself.
fn copies(alloc: Global, clauses: &[Sequence<Lit>]) -> Result<Sequence<ProofLine>, AllocError> {
    let mut lines = Vec::new(alloc);
    let mut id = clauses.len() as u64;
    let mut hint: i64 = 0;
    for clause in clauses {
        id = id.wrapping_add(1);
        hint = hint.wrapping_add(1);
        lines.push(ProofLine::Add {
            id,
            lits: clause.clone()?,
            hints: Sequence::from_vec(vec![in alloc; hint]?),
        })?;
    }
    Ok(Sequence::from_vec(lines))
}

/// The document of a search for a model's solutions that was given up.
pub(crate) fn given_up(alloc: Global, model: Model) -> Result<Option<Document>, AllocError>
    requires typed { WellTyped model }
    requires limits { InLimits model }
    ensures { IfOk result (λ found. IfSome found (λ d. d.assignment ≡ None)) }
{
    let Some(compiled) = compiled::<Brand>(alloc, Blank::new(1), model) else {
        return Ok(None);
    };
    let Compiled { cnf, ledger, .. } = compiled;
    let proof = copies(alloc, cnf.clauses.as_slice())?;
    Ok(Some(Document {
        verdict: Verdict::Unknown(cnf.clauses.len() as u64, None),
        assignment: None,
        ledger,
        proof,
        second: None,
    }))
}

/// A document with so many lines.
pub(crate) fn long(alloc: Global, lines: usize) -> Result<Document, AllocError>
    ensures { IfOk result (λ d. d.assignment ≡ None) }
{
    let mut ledger = Vec::new(alloc);
    for i in 0..lines {
        ledger.push(Line::Encode { id: i as u64 })?;
    }
    Ok(Document {
        verdict: Verdict::Unsatisfiable,
        assignment: None,
        ledger: Sequence::from_vec(ledger),
        proof: Sequence::from_vec(Vec::new(alloc)),
        second: None,
    })
}
RT
cat >"$bench/src/main.rt" <<'RT'
//! Reads what `answers.py` writes on standard input, and prints how many lines and bytes the document has, and the microseconds of its
//! writing, where it wasn't given, and of its checking, and what came of it.
#![tactic(auto)]

mod documents;
mod models;

use answer_document::write_document;
use bee_text::{Lines, read_number};
use documents::{given_up, long};
use ledger_check::check;
use models::model_of;
use std::alloc::Global;
use std::io;
use std::io::Read;
use std::time::Instant;

/// What stands before a line, and behind it.
fn split_at<'a>(text: &'a [u8], mark: &[u8]) -> (&'a [u8], &'a [u8]) {
    let mut lines = Lines::new(text);
    let mut front = 0usize;
    for _ in 0..u64::MAX {
        let Some(line) = lines.next_line() else {
            break;
        };
        if line.bytes == mark {
            break;
        }
        front = front.wrapping_add(line.bytes.len()).wrapping_add(1);
    }
    (text.get(..front).unwrap_or(text), lines.rest())
}

/// How many lines a text has.
fn count_lines(text: &[u8]) -> usize {
    text.iter().filter(|byte| **byte == b'\n').count()
}

/// Checks a document, and prints the figures.
fn measure(
    rt: &HostRuntime,
    model: &[u8],
    document: &[u8],
    written: u128,
) -> io::Result<()> {
    let Some(model) = model_of(rt.alloc(), model) else {
        return Err(io::Error::other("no model"));
    };
    let start = Instant::now(rt)?;
    let answer = check(rt.alloc(), &model, document);
    let checked = start.elapsed(rt)?.as_micros();
    let (lines, bytes) = (count_lines(document), document.len());
    let taken = answer.is_ok();
    println!(rt; "{lines} {bytes} {written} {checked} {taken}")
}

fn main(rt: HostRuntime) -> io::Result<()> {
    let alloc = rt.alloc();
    let mut text = Vec::new(alloc);
    rt.reader().read_to_end(&mut text)?;
    let mut lines = Lines::new(text.as_slice());
    let Some(first) = lines.next_line() else {
        return Ok(());
    };
    let rest = lines.rest();
    if first.bytes == b"given".as_slice() {
        let (model, document) = split_at(rest, b"document");
        return measure(&rt, model, document, 0);
    }
    let Some(model) = model_of(alloc, rest) else {
        return Err(io::Error::other("no model"));
    };
    let Some(copy) = model_of(alloc, rest) else {
        return Err(io::Error::other("no model"));
    };
    let decls = copy.decls.as_slice();
    let document = match first.bytes.strip_prefix(b"lines ") {
        Some(word) => long(alloc, read_number(word, 1 << 32).unwrap_or(0) as usize)?,
        None => match given_up(alloc, model)? {
            Some(document) => document,
            None => return Err(io::Error::other("the model is too heavy")),
        },
    };
    let start = Instant::now(&rt)?;
    let written = write_document(alloc, decls, copy.goal, &document)?;
    let took = start.elapsed(&rt)?.as_micros();
    measure(&rt, rest, written.as_slice(), took)
}
RT
cd "$bench"
rt fmt
if [ -n "$is_tried" ]; then
  rt try --steps 1 --seconds 900 --cases "$folder/cases" >"$folder/log" 2>&1 || { tail -n 20 "$folder/log" >&2; exit 1; }
else
  rt run <"$folder/cases/$(head -n 1 "$folder/order")" >"$folder/log" 2>&1 || { tail -n 20 "$folder/log" >&2; exit 1; }
  while read -r name; do
    echo "== $name"
    out/check_bench <"$folder/cases/$name"
  done <"$folder/order" >"$folder/log"
fi
python3 - "$folder/order" "$folder/log" <<'PY'
import math, sys

order, log = ([line.rstrip("\n") for line in open(path)] for path in sys.argv[1:])
said = {line[3:]: after.split(" ", 4) for line, after in zip(log, log[1:]) if line.startswith("== ")}
row = "{:10} {:>8} {:>9} {:>11} {:>9} {:>9} {:>12}".format
print(row("family", "size", "lines", "bytes", "writing", "checking", "lines/second"))
families = {}
for name in order:
    family, size = name.split("-")
    lines, size_in_bytes, written, checked = map(int, said[name][:4])
    print(row(family, size, lines, size_in_bytes, f"{written / 1e6:.3f}", f"{checked / 1e6:.3f}", f"{lines / checked * 1e6:,.0f}"))
    if family != "text" and said[name][4] != "true":
        sys.exit(f"{name}: {said[name][4]}")
    families.setdefault(family, []).append((lines, checked))
print("growth exponents of the seconds of checking against the lines")
for family, measured in families.items():
    if len(measured) > 1:
        (a, s), (b, t) = measured[0], measured[-1]
        print(f"{family}: {math.log(t / s) / math.log(b / a):.2f}")
PY
