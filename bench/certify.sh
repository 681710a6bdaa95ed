#!/usr/bin/env bash
# Times `bee certify` beside cadical, whose refutations of models' clauses it makes answers:
#   random      clauses of three literals, 4.26 a variable
#   pigeons     one pigeon more than holes
#   parity      two chains of exclusive ors over the same variables, of which one says that an even number is true, the
#               other an odd one
#   mitre       two multipliers with the factors interchanged, whose products differ
#   jobs        the job shop of six by six with an hour less than it needs
# A line for each: the lines and bytes of the refutation (DRUP), what cadical propagated and its seconds, the seconds
# of `bee drup` and of `bee certify`, each beside cadical's, the lines and bytes of the document, those of its derivation
# as a refutation with hints (LRAT), with the seconds of `bee certify` of that, and the seconds of `bee check` over the
# document. Behind them the growth of the seconds against what cadical propagated. Seconds are of user
# CPU time, the least of three runs. The word `whole` takes all sizes, and else small ones are taken; other
# words name the families, FAMILY or FAMILY:SIZE,SIZE. SECONDS_EACH is the time that each run has at most (60). BEE
# names the program, so that nothing is built. Wants python3 and cadical.
set -eu
top=$(cd "$(dirname "${BASH_SOURCE[0]}")/.." && pwd)
[ -n "${BEE:-}" ] || { BEE=$top/crates/bee/out/bee; "$top/bee" compile "$top/examples/pigeonhole.bee" >/dev/null; }
exec python3 "$top/bench/certifying.py" "$BEE" "$@"
