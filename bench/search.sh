#!/usr/bin/env bash
# Times the search of the crate `learning_solver`, and `bee sat`, beside other solvers on the same files. It builds a
# small program over a copy of the crates, which reads a CNF as `bee sat` does, searches, and writes no proof; crates
# that weren't proved yet are proved. `search.py` says what is printed, and `cnfs.py` what the families are. Words
# behind it name the families; without words all are taken, and behind the word `large` come clauses that were compiled
# from models, 50,000 and more, by `large.py`. SEARCH names another such program, or - for none, and BEE
# another `bee`: then nothing is built. RUNS is the number of runs of which the least counts (3), and SECONDS_EACH
# after how many seconds a run is stopped (60). Wants python3, minisat, and rt; cadical and picosat are timed where they
# are there. All files by one run, with no such program:
#     env SEARCH=- RUNS=1 SECONDS_EACH=20 bench/search.sh
set -eu
top=$(cd "$(dirname "${BASH_SOURCE[0]}")/.." && pwd)
[ -n "${BEE:-}" ] || { BEE=$top/crates/bee/out/bee; "$top/bee" compile "$top/examples/pigeonhole.bee" >/dev/null; }
if [ "${1:-}" = large ]; then
  shift
  exec python3 "$top/bench/large.py" "$BEE" "$@"
fi
if [ -n "${SEARCH:-}" ]; then
  exec python3 "$top/bench/search.py" "$SEARCH" "$BEE" "$@"
fi
folder=$(mktemp -d)
trap 'rm -rf "$folder"' EXIT
git init -q "$folder"
tar -C "$top" --exclude=out -c crates crates.txt | tar -C "$folder" -x
echo 'searching: order_ints proof_check clause_rings search_watcher learning_solver sat_front' >>"$folder/crates.txt"
bench=$folder/crates/searching
mkdir -p "$bench/src" "$bench/proofs/search" "$bench/proofs/search_text"
cat >"$bench/src/main.rt" <<'RT'
//! Reads a CNF on standard input, and prints what was found, and how many clauses were learned and deleted.
#![tactic(auto)]

ghost use Rattle.std.specs.Prelude.{◌≤◌};
ghost use Rattle.order_ints.specs.Place.{InRange};
ghost use Rattle.order_ints.specs.OrderedClauses.{ClausesAscend};

use learning_solver::{Found, Solver};
use order_ints::Cnf;
use proof_check::ProofLine;
use sat_front::{CnfFault, read_cnf};
use search_watcher::Silent;
use std::alloc::{AllocError, Global};
use std::io;
use std::io::Read;

/// What came of a search.
#[derive(Clone, Copy, Debug)]
struct Searched {
    is_satisfiable: bool,
    /// The clauses that were learned.
    learned: usize,
    /// Those of them that were deleted.
    deleted: usize,
}

/// Searches.
fn search(alloc: Global, cnf: &Cnf) -> Result<Searched, AllocError>
    requires few { cnf.now.vars ≤ 67108864 }
    requires in_range { InRange cnf.now }
    requires ascend { ClausesAscend cnf.now.clauses }
{
    let mut solver = Solver::with(alloc, cnf)?;
    let found = solver.solve_watched(None, u64::MAX, true, &mut Silent)?;
    let log = solver.log();
    let learned = log
        .iter()
        .filter(|line| matches!(line, ProofLine::Add { .. }))
        .count();
    Ok(Searched {
        is_satisfiable: matches!(found, Found::Sat(_)),
        learned,
        deleted: log.len().saturating_sub(learned),
    })
}

/// Reads a text, and searches.
fn search_text(alloc: Global, text: &[u8]) -> io::Result<Searched> {
    match read_cnf(alloc, text) {
        Ok(cnf) => Ok(search(alloc, &cnf)?),
        Err(CnfFault::Form(_)) => Err(io::Error::other("the text is no CNF")),
        Err(CnfFault::Memory) => Err(io::Error::other("memory is wanting")),
    }
}

fn main(rt: HostRuntime) -> io::Result<()> {
    let alloc = rt.alloc();
    let mut text = Vec::new(alloc);
    rt.reader().read_to_end(&mut text)?;
    let Searched {
        is_satisfiable,
        learned,
        deleted,
    } = search_text(alloc, text.as_slice())?;
    println!(rt; "{is_satisfiable} {learned} {deleted}")
}
RT
cat >"$bench/proofs/search/Answers.antt" <<'ANTT'
use Rattle.std.proofs.Common.{ℕ, zero, suc, ◌<◌, List, [], ◌∷◌, length, get_or, arith}
use Rattle.order_ints.specs.declared.literal.Lit.{Lit}
use Rattle.order_ints.specs.OrderedClauses.{ClausesAscend}
use Rattle.clause_rings.specs.Clauses.{IsApart}
use Rattle.clause_rings.proofs.Ascending.{ascend-apart}
use Rattle.searching.proofs.search.Goals as goal

clauses-apart : (cs : List (List Lit)) → ClausesAscend cs → (k : ℕ) → k < length cs → IsApart (get_or cs k [])
clauses-apart [] h k low = absurd (omega (arith, low))
clauses-apart (c ∷ cs) h zero low = ascend-apart c h.0
clauses-apart (c ∷ cs) h (suc k) low = clauses-apart cs h.1 k (omega (arith, low))

pub with-requires-clause-differ : goal.with-requires-clause-differ
with-requires-clause-differ c = clauses-apart c.args.cnf.now.clauses c.requires.ascend
ANTT
cat >"$bench/proofs/search_text/Answers.antt" <<'ANTT'
use Rattle.sat_front.proofs.Reading.{read_in_range, read_in_order}
use Rattle.searching.proofs.search_text.Goals as goal

pub search-requires-clause-few : goal.search-requires-clause-few
search-requires-clause-few c = (read_in_range c.args.text.now c.in-Ok.cnf c.in-Ok.ensures.read).1

pub search-requires-clause-in_range : goal.search-requires-clause-in_range
search-requires-clause-in_range c = (read_in_range c.args.text.now c.in-Ok.cnf c.in-Ok.ensures.read).0

pub search-requires-clause-ascend : goal.search-requires-clause-ascend
search-requires-clause-ascend c = (read_in_order c.args.text.now c.in-Ok.cnf c.in-Ok.ensures.read).0
ANTT
(cd "$bench" && echo 'p cnf 1 0' | rt run >"$folder/log" 2>&1) || { tail -n 20 "$folder/log" >&2; exit 1; }
python3 "$top/bench/search.py" "$bench/out/searching" "$BEE" "$@"
