#!/usr/bin/env bash
# slurm.sh [MODEL]: answers a model by array jobs of Slurm, one element of which is requeued in mid-run.
#
# It starts munged, slurmctld and slurmd for this machine alone, with a key, a configuration and a folder made for the
# trial, and ends them behind it. Once three cubes are refuted, an element that runs is requeued. The answer is checked.
# Printed are seconds, what was requeued, how many elements began anew, and the check's line.
#
# Wants root, munged, slurmctld, slurmd, python3 and BEE, or `./bee`; without MODEL ten pigeons are tried. WORDS are
# more words of the command.
set -eu
top=$(cd "$(dirname "$0")/.." && pwd)
BEE=$(realpath "${BEE:-$top/crates/bee/out/bee}")
export BEE PYTHONPATH=$top/python
work=$(mktemp -d /var/tmp/bee-slurm.XXXXXX)
chmod 755 "$work"
export SLURM_CONF=$work/slurm.conf
started=()

down() {
  scancel --name=bee-cubes 2>/dev/null || true
  for it in "${started[@]}"; do kill "$it" 2>/dev/null || true; done
  sleep 2
  for it in slurmd slurmctld munged; do
    [ -s "$work/$it.pid" ] && kill -9 "$(cat "$work/$it.pid")" 2>/dev/null || true
  done
  rm -rf "$work"
}
trap down EXIT
trap 'exit 130' INT TERM

configuration() {
  local processors
  processors=$(nproc)
  cat <<END
ClusterName=bee
SlurmctldHost=$(hostname -s)(127.0.0.1)
SlurmUser=root
SlurmdUser=root
AuthType=auth/munge
AuthInfo=socket=$work/munge.socket
CryptoType=crypto/munge
ProctrackType=proctrack/linuxproc
TaskPlugin=task/none
MpiDefault=none
ReturnToService=2
SelectType=select/cons_tres
SelectTypeParameters=CR_Core
SchedulerParameters=batch_sched_delay=0,sched_interval=5
JobRequeue=1
KillWait=5
MinJobAge=3600
SlurmctldPort=26817
SlurmdPort=26818
StateSaveLocation=$work/state
SlurmdSpoolDir=$work/spool
SlurmctldPidFile=$work/slurmctld.pid
SlurmdPidFile=$work/slurmd.pid
SlurmctldLogFile=$work/slurmctld.log
SlurmdLogFile=$work/slurmd.log
NodeName=$(hostname -s) NodeAddr=127.0.0.1 CPUs=$processors State=UNKNOWN
PartitionName=all Nodes=ALL Default=YES MaxTime=INFINITE State=UP
END
}

up() {
  mkdir -p "$work/state" "$work/spool" "$work/munge"
  chmod 755 "$work/munge"
  dd if=/dev/urandom of="$work/munge.key" bs=1 count=1024 2>/dev/null
  chmod 400 "$work/munge.key"
  configuration >"$SLURM_CONF"
  munged --foreground --force --key-file="$work/munge.key" --socket="$work/munge.socket" \
    --pid-file="$work/munged.pid" --log-file="$work/munged.log" --seed-file="$work/munge.seed" --num-threads=2 \
    2>"$work/munged.out" &
  started+=($!)
  sleep 1
  slurmctld -D -c -f "$SLURM_CONF" >"$work/slurmctld.out" 2>&1 &
  started+=($!)
  sleep 1
  slurmd -D -f "$SLURM_CONF" >"$work/slurmd.out" 2>&1 &
  started+=($!)
  for _ in $(seq 60); do
    sinfo --noheader --format=%t 2>/dev/null | grep -q idle && return
    sleep 1
  done
  tail "$work"/*.out "$work"/*.log
  exit 1
}

refuted() { grep -c ^refuted "$work/journal" 2>/dev/null || true; }

# Requeues the first element that runs, once three cubes are refuted.
requeue() {
  until [ "$(refuted)" -ge 3 ]; do sleep 0.2; done
  for _ in $(seq 100); do
    local element
    element=$(squeue --noheader --array --states=running --format=%i | head -n 1)
    if [ -n "$element" ] && scontrol requeue "$element"; then
      echo "requeued $element, behind $(refuted) refuted cubes"
      return
    fi
    sleep 0.2
  done
}

pigeons() {
  awk -v n="$1" 'BEGIN {
    for (i = 0; i < n; i++) for (j = 1; j < n; j++) print "new_bool(p" i "_" j ")"
    for (i = 0; i < n; i++) { s = ""; for (j = 1; j < n; j++) s = s (j > 1 ? "," : "") "p" i "_" j
      print "bool_array_or([" s "])" }
    for (j = 1; j < n; j++) for (i = 0; i < n; i++) for (k = i + 1; k < n; k++)
      print "bool_array_or([-p" i "_" j ",-p" k "_" j "])"
    print "solve satisfy" }'
}

if [ -n "${1:-}" ]; then model=$(realpath "$1"); else model=$work/pigeons.bee && pigeons 10 >"$model"; fi
up
touch "$work/journal"
ln "$work/journal" "$work/kept"
requeue &
started+=($!)
begun=$SECONDS code=0
# shellcheck disable=SC2086
python3 -m beemodel.cubes "$model" --slurm --jobs 2 --folder "$work/cubes" --joblog "$work/journal" --resume --look 0 \
  ${WORDS:-} >"$work/answer" || code=$?
echo "code $code, $((SECONDS - begun)) seconds, $(grep -c ^refuted "$work/kept") cubes refuted"
echo "elements that began anew: $(scontrol show job | grep -c 'Restarts=[1-9]')"
"$BEE" check "$model" "$work/answer" 2>/dev/null
