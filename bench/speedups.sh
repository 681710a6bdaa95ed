#!/usr/bin/env bash
# speedups.sh: how much faster two and four workers answer than one, in wall-clock seconds: a line of `cubes.py` each.
#
# A refutation and an optimum by one, two and four workers; and then the optimum where one cube has all the work at
# first, by one worker, and by two, for which it is split again. No run begins behind WITHIN seconds (600), and none
# lasts longer than that. Wants a machine that does nothing else, GNU parallel, and BEE, or the proved program.
set -eu
cd "$(dirname "$0")/.."
export WITHIN=${WITHIN:-600} SHARE=5
begun=$SECONDS
CUBES=32 bench/cubes.py "${REFUTATION:-pigeons-11}" "${OPTIMUM:-golomb-9}"
WITHIN=$((WITHIN - SECONDS + begun)) CUBES=1 JOBS="1 2" bench/cubes.py "${OPTIMUM:-golomb-9}"
