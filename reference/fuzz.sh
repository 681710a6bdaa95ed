#!/usr/bin/env bash
# Tries the program on small models, made at random from a seed: fuzz.sh [COUNT [SEED [PROCESSES [FIRST]]]], 10,000
# models of seed 1 by three processes without words, from the model FIRST on, else from 0. Each model has a statement of
# a given kind, all kinds in turn, and up to three others; listed domains, constants and negations in places of names,
# both directions and two objectives come up in all of them. All assignments are tried, and with what they say is
# compared:
#   compile    the solutions that the clauses stand for, all of them, found by a search of the clauses; the ledger leads
#              to these clauses, and the names to what they stand for
#   decode     the values of a solution of the clauses; the same text with a byte, a line or a number changed: the
#              lines, or the line that is refused
#   solve      the verdict, the solution and the values of the objectives, with a large budget and with one of 1 to 4
#   check      each answer, and each twice with a byte, a line, a number and a line of its ledger changed: the verdict,
#              or the line that is refused; and so, once, a document behind the whole ledger of the compilation, and one
#              behind a ledger of steps in any order
# What a text says, which line of it fails, and what a ledger leads to has the script from its own reading of
# `docs/FORMATS.md` and `docs/CORES.md`: `answer_reading.py`, `ledger_reading.py` (lowering and steps),
# `core_reading.py`, `part_reading.py`, `clause_reading.py` and `rule_reading.py` (equations). An accepted verdict is
# compared with all assignments besides, and each equation of a compilation at a core of at most eight variables with
# all their values. Before these, sums of two integers are tried by which a `split` is a step or just not, whose costs
# are near each other (`sum_bounds.py`). It prints how many models, runs and differences there were, how often each
# statement and each step came, and each difference with the number of its model; the texts of such a model are kept.
# BEE names another program that is tried. Wants python3.
set -eu
top=$(cd "$(dirname "${BASH_SOURCE[0]}")/.." && pwd)
program=${BEE:-$top/crates/bee/out/bee}
[ -n "${BEE:-}" ] || "$top/bee" compile "$top/examples/pigeonhole.bee" >/dev/null
folder=$(mktemp -d)
failed=0
python3 "$top/reference/sum_bounds.py" "$program" "$folder" || failed=1
python3 "$top/reference/fuzz.py" "$program" "${1:-10000}" "${2:-1}" "$folder" "${3:-3}" "${4:-0}" || failed=1
if [ $failed = 0 ]; then
  rm -rf "$folder"
else
  echo "the texts of each difference are in $folder" >&2
  exit 1
fi
