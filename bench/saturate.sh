#!/usr/bin/env bash
# Times `bee compile` on models whose compilation is almost all equations:
#   upwards, downwards, shuffled   a chain of 300,000 `bool_eq`, in the order of the names, in the other one, and in
#                                  none
#   broken                         such a chain whose ends are stated to differ, so that a contradiction is found
#   eq_row                         a row of a hundred equal integers of 1,000 values each
#   two_equal                      two equal integers of 10,000 values each
# `measure.py` says what is printed, `models.py` has the models. BEE names another program that is timed. Wants python3.
set -eu
top=$(cd "$(dirname "${BASH_SOURCE[0]}")/.." && pwd)
program=${BEE:-$top/crates/bee/out/bee}
[ -n "${BEE:-}" ] || "$top/bee" compile "$top/examples/pigeonhole.bee" >/dev/null
exec python3 "$top/bench/measure.py" "$program" \
  upwards:75000,150000,300000 downwards:75000,150000,300000 shuffled:75000,150000,300000 broken:75000,150000,300000 \
  eq_row:25,50,100 two_equal:2500,5000,10000
