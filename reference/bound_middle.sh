#!/usr/bin/env bash
# Tries runs of equations on models made at random from a seed: bound_middle.sh [COUNT [SEED [PROCESSES [FIRST]]]],
# 2,000 models of seed 1 by three processes without words. Each model has one statement, all kinds in turn, over names
# of its own, three to nine of them in each list; up to three others bind names in the middle of it, before it or behind
# it: to a value, at an end, or to another name of it. Each model is compiled, and its ledger is replayed by the reading
# of `ledger_reading.py`, line by line:
#   each line is a step, so each equation is an instance of its rule at its core, as the store has the core then
#   wherever a core is split or encoded, and at the end, the state is closed: no pending core states an equation by
#   Order, Form or Table
#   the clauses at the ledger's end are those of the compiled text, and no core is left
# It prints how many models, lines, equations and closed states there were, how many equations stood behind another one
# of their core, by rule and form, and each difference with the number of its model, whose text is kept. BEE names
# another program that is tried. Wants python3.
set -eu
top=$(cd "$(dirname "${BASH_SOURCE[0]}")/.." && pwd)
program=${BEE:-$top/crates/bee/out/bee}
[ -n "${BEE:-}" ] || "$top/bee" compile "$top/examples/pigeonhole.bee" >/dev/null
folder=$(mktemp -d)
if python3 "$top/reference/bound_middle.py" "$program" "${1:-2000}" "${2:-1}" "$folder" "${3:-3}" "${4:-0}"; then
  rm -rf "$folder"
else
  echo "the texts of each difference are in $folder" >&2
  exit 1
fi
