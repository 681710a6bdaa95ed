#!/usr/bin/env bash
# Times `bee solve` on models with objectives, beside cadical on the same clauses:
#   golomb      Golomb rulers of five to eight marks
#   knapsack    things of which each is taken or left
#   jobs        job shops of three by three, six by six, eight by eight and ten by five
#   assignment  workers and tasks, with two objectives
#   costs       workers and tasks, with costs to a hundred
#   packing     things into the fewest bins
#   domination  the fewest queens that reach each square
#   shops       job shops that are known, in `job_shops.txt`
#   exams, roster, prices, catalogue, league, project, tour
#               plans as users write them, by the Python layer: `plans.py`
# Words name the families to be timed, with their sizes, as knapsack:20,30; without words all are. `optima.py` says what
# is printed, and has the models. BEE names another program, so that nothing is built; SECONDS_EACH is after how many
# seconds a run is stopped. Wants python3, and cadical for what is beside.
set -eu
top=$(cd "$(dirname "${BASH_SOURCE[0]}")/.." && pwd)
[ -n "${BEE:-}" ] || { BEE=$top/crates/bee/out/bee; "$top/bee" compile "$top/examples/pigeonhole.bee" >/dev/null; }
exec python3 "$top/bench/optima.py" "$BEE" "$@"
