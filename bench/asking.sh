#!/usr/bin/env bash
# Counts the questions that a compilation asks: how often an oracle is asked for an equation at a core. An oracle of its
# own adds one to a cell, and hands the question on to all the rules. Prints for families of models, of sizes that
# mostly double, the questions that were asked; the different variables of the cores at which they were asked, as the
# store had these, together, and once more where a run was taken, which is what was looked at; the cores that were made,
# by the lowering and by splits; the numbers of their different variables, together; the binary digits of the last
# number of variables; the bound, which is the cores, and the variables times the digits; and the equations. Behind them
# stand, for a family of several sizes, the growth exponents of the questions and of what was looked at, from its first
# size to its last, against the variables of the cores. It stops with an error where more questions were asked than the
# bound says.
#   clauses                        clauses of three literals over a tenth as many names
#   leq_chain                      a chain of `int_leq` over integers of 1,000 values each
#   upwards, downwards, shuffled   a chain of `bool_eq`, in the order of the names, in the other one, and in none
#   broken                         such a chain whose ends are stated to differ, so that a contradiction is found
#   eq_row                         a row of `int_eq` over integers of ten values each
#   queens                         queens on a board, by three statements of all different and shifted integers
#   quasigroup                     a Latin square of which two fifths are holes
#   magic                          a magic square
#   count                          a sum of Booleans
#   linear                         a linear sum of digits with coefficients from 1 to 10
#   times                          a product of two integers
# It builds a small program over a copy of the crates, and runs it without a proof, with checks, so the sizes are small.
# Words name the families to be counted; without words all are. `models.py` has the models. Wants python3 and rt.
set -eu
top=$(cd "$(dirname "${BASH_SOURCE[0]}")/.." && pwd)
families=(
  clauses:250,500,1000
  leq_chain:2,4,8
  upwards:250,500,1000
  downwards:250,500,1000
  shuffled:250,500,1000
  broken:250,500,1000
  eq_row:4,8,16:10
  queens:4,8,16
  quasigroup:5,10,15
  magic:3,4
  count:50,100,200
  linear:5,10
  times:10,20
)
folder=$(mktemp -d)
trap 'rm -rf "$folder"' EXIT
git init -q "$folder"
tar -C "$top" --exclude=out -c crates crates.txt | tar -C "$folder" -x
echo 'asking: bee_list core_forms rule_base core_rules ledger_text step_kernel fixpoint_queue rule_oracle bumblebee_reader model_meaning typed_model model_lower bee_compile' \
  >>"$folder/crates.txt"
mkdir -p "$folder/crates/asking/src" "$folder/models"
for family in "${families[@]}"; do
  IFS=: read -r name sizes values <<<"$family"
  if [ $# = 0 ] || [[ " $* " == *" $name "* ]]; then
    for size in ${sizes//,/ }; do
      python3 "$top/bench/models.py" "$name" "$size" "$folder/models/$name-$size" $values
      echo "$name-$size" >>"$folder/order"
    done
  fi
done
cat >"$folder/crates/asking/src/main.rt" <<'RT'
//! Compiles the model of standard input, and prints how many questions were asked of the rules, and how many may be asked.
#![tactic(auto)]

use bee_compile::{Compiled, compile};
use bumblebee_reader::ItemReader;
use core_forms::{Core, Known, Rule, variables};
use core_rules::FoundRun;
use fixpoint_queue::Oracle;
use ledger_text::Line;
use model_lower::{Lowered, lower};
use model_meaning::Model;
use rule_base::Steps;
use rule_oracle::TableP;
use std::alloc::{AllocError, Global};
use std::cell::Cell;
use std::io;
use std::io::Read;
use std::marker::Brand;
use std::sync::ledger::{Blank, Ledger};
use step_kernel::State;
use typed_model::Typing;

/// Tells what all rules tell, and counts how often it is asked, and the different variables of the cores at which it is, once
/// more where a run is taken.
#[derive(Clone, Copy)]
struct Counting<'a> {
    asked: &'a Cell<u64>,
    looked: &'a Cell<u64>,
}

impl<L: Ledger> Oracle<L> for Counting<'_> {
    ghost use Rattle.std.specs.Prelude.{◌≡◌, true};
    ghost use Rattle.core_rules.specs.Instances.{is_instance_at};

    ghost told = { λ core e. is_instance_at core e ≡ true };

    fn ask(
        &self,
        alloc: Global,
        core: &Core,
        known: Known,
        steps: &mut Steps<L>,
    ) -> Result<Option<FoundRun>, AllocError> {
        let vars = variables(alloc, core)?.len() as u64;
        self.asked.set(self.asked.get().saturating_add(1));
        self.looked.set(self.looked.get().saturating_add(vars));
        let found = TableP.ask(alloc, core, known, steps)?;
        if let Some(first) = &found {
            if !matches!(first.equation.rule, Rule::Table) {
                self.looked.set(self.looked.get().saturating_add(vars));
            }
        }
        Ok(found)
    }
}

/// What a ledger says of the cores that were made along it.
#[derive(Clone, Copy)]
struct Made {
    /// How many they are.
    cores: u64,
    /// The numbers of their different variables, together.
    occurrences: u64,
    /// How many equations there are in the ledger.
    equations: u64,
}

/// Counts the cores of a state behind so many ids.
fn count_made(
    alloc: Global,
    made: &mut Made,
    state: &State,
    before: u64,
) -> Result<(), AllocError> {
    for earlier in before..state.ids() {
        if let Some(core) = state.core(earlier.saturating_add(1)) {
            let vars = variables(alloc, core)?.len() as u64;
            made.cores = made.cores.saturating_add(1);
            made.occurrences = made.occurrences.saturating_add(vars);
        }
    }
    Ok(())
}

/// Applies a line, and counts what it makes.
fn follow(alloc: Global, made: &mut Made, state: &mut State, line: &Line) -> io::Result<()> {
    let before = state.ids();
    if state.apply(line).is_err() {
        return Err(io::Error::other("a line of the ledger is no step"));
    }
    match line {
        Line::Equate { .. } => made.equations = made.equations.saturating_add(1),
        Line::Split { .. } => count_made(alloc, made, state, before)?,
        Line::Encode { .. } => {}
    }
    Ok(())
}

/// Follows a ledger from a lowered model on.
fn replay(alloc: Global, lowered: Lowered, ledger: &[Line]) -> io::Result<Made> {
    let Lowered { vars, cores, .. } = lowered;
    let mut state = State::start(alloc, vars, cores.into_vec())?;
    let mut made = Made {
        cores: 0,
        occurrences: 0,
        equations: 0,
    };
    count_made(alloc, &mut made, &state, 0)?;
    for line in ledger {
        follow(alloc, &mut made, &mut state, line)?;
    }
    Ok(made)
}

/// The model that a text says.
fn model_of(alloc: Global, text: &[u8]) -> Option<Model> {
    let mut items = ItemReader::new(text);
    let mut typing = Typing::new(alloc);
    while let Some(item) = items.next_item(alloc).ok()? {
        typing.take(alloc, &item).ok()?;
    }
    typing.finish().ok()
}

/// What a model is compiled to, by all rules, how many questions were asked of them, and at how many variables.
fn compile_counting<L: Ledger>(
    alloc: Global,
    blank: Blank,
    model: Model,
) -> Option<(Compiled, u64, u64)> {
    let asked = Cell::new(0_u64);
    let looked = Cell::new(0_u64);
    let counting = Counting {
        asked: &asked,
        looked: &looked,
    };
    let mut steps = Steps::<L>::open(blank);
    let compiled = compile(alloc, model, counting, &mut steps).ok()?;
    Some((compiled, asked.get(), looked.get()))
}

fn main(rt: HostRuntime) -> io::Result<()> {
    let alloc = rt.alloc();
    let mut text = Vec::new(alloc);
    rt.reader().read_to_end(&mut text)?;
    let Some(model) = model_of(alloc, text.as_slice()) else {
        return Err(io::Error::other("the text is no model"));
    };
    let Ok(lowered) = lower(alloc, &model) else {
        return Err(io::Error::other("the model is not lowered"));
    };
    let Some((compiled, asked, looked)) = compile_counting::<Brand>(alloc, Blank::new(1), model) else {
        return Err(io::Error::other("the model is not compiled"));
    };
    let Made {
        cores,
        occurrences,
        equations,
    } = replay(alloc, lowered, compiled.ledger.as_slice())?;
    let digits = u32::BITS - compiled.cnf.vars.leading_zeros();
    println!(rt; "{asked} {looked} {cores} {occurrences} {digits} {equations}")
}
RT
(cd "$folder/crates/asking" && rt try --steps 1 --seconds 300 --cases "$folder/models" >"$folder/log" 2>&1) || { tail -n 20 "$folder/log" >&2; exit 1; }
python3 - "$folder/order" "$folder/log" <<'PY'
import math, sys

order, log = ([line.rstrip("\n") for line in open(path)] for path in sys.argv[1:])
said = {line[3:]: after.split() for line, after in zip(log, log[1:]) if line.startswith("== ")}
row = "{:10} {:>6} {:>10} {:>10} {:>9} {:>11} {:>7} {:>11} {:>10}".format
print(row("family", "size", "questions", "looked at", "cores", "variables", "digits", "bound", "equations"))
families = {}
for name in order:
    family, size = name.split("-")
    if len(said[name]) != 6 or not all(word.isdigit() for word in said[name]):
        sys.exit(f"{name}: {' '.join(said[name])}")
    asked, looked, cores, variables, digits, equations = map(int, said[name])
    bound = cores + variables * digits
    print(row(family, size, asked, looked, cores, variables, digits, bound, equations))
    if asked > bound:
        sys.exit(f"{name}: more questions were asked than {bound}")
    families.setdefault(family, []).append((variables, asked, looked))
print("growth exponents against the variables of the cores: of the questions, and of what was looked at")
for family, counted in families.items():
    if len(counted) > 1:
        first, last = counted[0], counted[-1]
        growth = lambda of: math.log(last[of] / first[of]) / math.log(last[0] / first[0])
        print(f"{family}: {growth(1):.2f}, {growth(2):.2f}")
PY
