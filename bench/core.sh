#!/usr/bin/env bash
# Times `bee core` and `bee checkcore` beside `bee solve` and picomus on models without solution:
#   pigeons     five pigeons in four holes, among loose clauses
#   clique      a graph in four colours, five of whose nodes have an edge two by two
#   timetable   lessons of classes, and four of which all have to be in the last three hours
#   jobs        a job shop with an hour less than it needs
#   sudoku      one with a wrong digit, of order 2 to 4
#   chain       implications in a row from what is true to what is false
# A line for each: the statements, those of the core, the MB of its text, the seconds of `bee solve`, of `bee core` and
# how many times as long it took, of `bee checkcore`, the clauses that picomus leaves of the compiled ones, and its
# seconds; its question is another one, since it takes clauses away and not statements. Behind them the growth of the
# seconds against the statements. Seconds are of user CPU time, the least of three runs. The word `whole`
# takes all sizes, and else small ones are taken; other words name the families, FAMILY or FAMILY:SIZE,SIZE.
# SECONDS_EACH is the time that each run has at most (60). BEE names the program, so that nothing is built. Wants
# python3; picomus (Debian's package picosat) is timed where it is.
set -eu
top=$(cd "$(dirname "${BASH_SOURCE[0]}")/.." && pwd)
[ -n "${BEE:-}" ] || { BEE=$top/crates/bee/out/bee; "$top/bee" compile "$top/examples/pigeonhole.bee" >/dev/null; }
exec python3 "$top/bench/reasons.py" "$BEE" "$@"
