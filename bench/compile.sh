#!/usr/bin/env bash
# Times `bee compile` on families of models, of sizes that mostly double:
#   clauses     clauses of three literals over a tenth as many names, the last model near the limit of 16 MB
#   leq_chain   a chain of `int_leq` over integers of 1,000 values each
#   row         declared integers of 1,000 values each
#   upwards     a chain of `bool_eq`
#   eq_row      a row of `int_eq` over integers of 1,000 values each
#   queens      queens on a board, by three statements of all different and shifted integers
#   quasigroup  a Latin square of which two fifths are holes
#   magic       a magic square
#   count       a sum of Booleans
#   linear      a linear sum of a hundred digits with coefficients from 1 to 10
#   times       a product of two integers
#   parity      a parity of Booleans
#   at_most     at most one of them
#   words       an order of two lists of Booleans
#   added       a sum of integers of two values
#   differing   integers of as many values that differ
#   tenth_fixed the same, where a tenth has its value
#   half_fixed  the same, where every second one has
#   sevenfold   an integer, seven times
#   greatest    the greatest of many digits is at most 3
#   conjuncts   Booleans that are all true
#   all_true    a count of Booleans at its greatest value
#   one_true    at most one of them, of which one is true
#   near_top    a sum of digits just below its greatest value
#   twins       integers that differ, two and two of them with the same two values
#   chasing     two integers each less than the other
#   greatest_word  an order of two words of digits, of which the first has its greatest digits
#   few_names   an order of two long words over four names
# Words name the families to be timed; without words all are. `measure.py` says what is printed, `models.py` has the
# models. BEE names another program that is timed. Wants python3.
set -eu
top=$(cd "$(dirname "${BASH_SOURCE[0]}")/.." && pwd)
program=${BEE:-$top/crates/bee/out/bee}
[ -n "${BEE:-}" ] || "$top/bee" compile "$top/examples/pigeonhole.bee" >/dev/null
families=(
  clauses:20000,40000,80000,160000,320000,520000
  leq_chain:32,64,128,256,512
  row:62,125,250,500,1000
  upwards:18750,37500,75000,150000,300000
  eq_row:12,25,50,100
  queens:8,16,32,64
  quasigroup:10,15,20,25,30
  magic:4
  count:1000,2000,4000,8000,16000
  linear:100
  times:50,100,200
  parity:1000,4000,16000,64000
  at_most:1000,4000,16000,24000
  words:1000,4000,16000,64000
  added:1000,4000,16000
  differing:100,300,1000
  tenth_fixed:40,80,160,300
  half_fixed:50,100,200
  sevenfold:500,2000,8000
  greatest:500,2000,8000
  conjuncts:2000,8000,32000
  all_true:2000,8000,16000
  one_true:2000,8000,16000
  near_top:500,1000,2000
  twins:500,2000,8000
  chasing:1000,2000,4000
  greatest_word:200,800,1600
  few_names:1000,4000,16000
)
chosen=()
for family in "${families[@]}"; do
  if [ $# = 0 ] || [[ " $* " == *" ${family%%:*} "* ]]; then
    chosen+=("$family")
  fi
done
exec python3 "$top/bench/measure.py" "$program" "${chosen[@]}"
