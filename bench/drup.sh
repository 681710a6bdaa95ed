#!/usr/bin/env bash
# Times `bee drup` over the proofs that cadical writes for the clauses of `cnfs.py`, and over chains of implications,
# where what is propagated is known. `drup.py` says what is printed. Words behind it name the families; without words
# all are taken. BEE names another `bee`, so that nothing is built. Wants python3 and cadical, and rt where the program
# isn't built; drat-trim is timed where it is there.
set -eu
top=$(cd "$(dirname "${BASH_SOURCE[0]}")/.." && pwd)
[ -n "${BEE:-}" ] || { BEE=$top/crates/bee/out/bee; "$top/bee" compile "$top/examples/pigeonhole.bee" >/dev/null; }
exec python3 "$top/bench/drup.py" "$BEE" "$@"
