#!/usr/bin/env bash
# Runs the program on texts at its limits, each once at a tenth of its size and once whole:
#   one name, names, integers             16,777,216 bytes of one name, of declared Booleans, of declared integers
#   one numeral, values, one value        of leading zeros, of a list of values upwards or downwards, of one value
#   one clause, constants, coefficients   of one list of millions of terms, as a clause, a sum, a linear sum
#   statements, clauses                   of statements on few names
#   one comment, comments, gaps           of what says nothing
#   too long, brackets                    a byte more, and no model
#   weight below, weight above            an integer whose weight is just below and just above the limit
#   chain                                 500,000 equal Booleans
#   half                                  half of 16,000 Booleans true
#   sum                                   16,000 integers of two values, added up
#   different                             1,000 members of 1,000 values that differ
#   solutions, two solutions              5,000 solutions of one name, and two of 200,000 names
#   among                                 100,000 statements, two of which can't be met together
#   sought                                500,000 integers, one of which is to be least
#   sums, terms                           pseudo-Boolean files of 6,000,000 bytes, and of one sum of 900,000 variables
#   document, list, core, refutation      texts of 500,000,000 bytes, of a derivation that is accepted, or of lines of a
#                                         refutation that refute nothing
#   one line                              of one line of 500,000,000 bytes, for each mode that reads a second text
# Each is given to the modes that it is for. Words name the loads to be run; without words all are. It prints for each
# run the exit code, what was written, the CPU seconds, the peak memory as `time` has it, and how many times
# more that is than at a tenth. A run is stopped after ten minutes, and has no more than 8 GB of memory. It needs 6 GB
# of memory and 2 GB in the folder for temporary files. BEE names another program that is run. Wants python3 and
# /usr/bin/time.
set -eu
top=$(cd "$(dirname "${BASH_SOURCE[0]}")/.." && pwd)
program=${BEE:-$top/crates/bee/out/bee}
[ -n "${BEE:-}" ] || "$top/bee" compile "$top/examples/pigeonhole.bee" >/dev/null
folder=$(mktemp -d)
trap 'rm -rf "$folder"' EXIT
python3 "$top/bench/loads.py" "$program" "$folder" "$@"
