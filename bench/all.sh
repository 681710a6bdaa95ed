#!/usr/bin/env bash
# Times `bee all` and `bee checkall` beside gecode (`-a`, through MiniZinc, whose flattening isn't timed) and `clasp 0`
# on models that have many solutions:
#   queens      boards of 6 to 12 rows
#   quasigroup  Latin squares with a given first row, and from order 6 on a given first column
#   magic       magic squares of order 3, and of order 4 with 1 in a corner
#   subsets     subsets of the numbers 1 to 24 with a sum
#   rulers      rulers of six marks within a length, all of whose distances differ
#   timetable   two classes of four lessons by the same four teachers
#   pigeons     a model without solution
# A line for each: the solutions, the MB of the list, the seconds with a budget of one clause, which are those of the
# walk and the writing, the seconds of `bee all`, of `bee checkall`, of gecode, and of clasp on the compiled clauses
# without the variables that no clause has; its count is that of valuations, which is another one where a name is free,
# or a variable of the compilation. Behind them the growth of the seconds against the solutions. Seconds are of
# user CPU time, the least of three runs. A list with another number of solutions than gecode's ends its
# family. The word `whole` takes all sizes, and else small ones are taken; other words name the families, FAMILY or
# FAMILY:SIZE,SIZE. SECONDS_EACH is the time that each run has at most (60). BEE names the program, so that nothing is
# built. Wants python3; minizinc, flatzinc and clasp (Debian's packages) are timed where they are.
set -eu
top=$(cd "$(dirname "${BASH_SOURCE[0]}")/.." && pwd)
[ -n "${BEE:-}" ] || { BEE=$top/crates/bee/out/bee; "$top/bee" compile "$top/examples/pigeonhole.bee" >/dev/null; }
exec python3 "$top/bench/listing.py" "$BEE" "$@"
