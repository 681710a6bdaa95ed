#!/usr/bin/env bash
# Times `bee opb` and `bee check` beside `clasp` and `minisat+` on pseudo-Boolean files that `opb.py` makes:
#   knapsack    things of a weight and a use, of which each is taken or left
#   cover       200 sets of which as cheap ones as can be cover all members
#   vertices    least vertex covers of random graphs of 60 to 200 nodes
#   colours     graph colourings in which no colour is used more than k times
#   pigeons     one pigeon more than holes
# Words name the families to be timed; without words all are. SECONDS_EACH is the time that each run has at most (60).
# BEE names the program, so that nothing is built. Wants python3; clasp and minisat+ (Debian's packages of these names)
# are timed where they are. clasp reads no `<=`: of a file that has one it says that it is unknown at once.
set -eu
top=$(cd "$(dirname "${BASH_SOURCE[0]}")/.." && pwd)
[ -n "${BEE:-}" ] || { BEE=$top/crates/bee/out/bee; "$top/bee" compile "$top/examples/pigeonhole.bee" >/dev/null; }
exec python3 "$top/bench/opb.py" "$BEE" "$@"
