#!/usr/bin/env bash
# hosts.sh [MODEL [HOSTS]]: answers a model by workers on several hosts, one of which is taken away in mid-run.
#
# It makes a network of namespaces on this machine: one for the command and one for each host, with a bridge between
# them, OpenSSH's sshd in each host, and keys made for the trial. A host has its own /tmp, in which the command's folder
# of work is not. MODEL is answered first by all hosts, two unless HOSTS says otherwise, and then once more, where the
# last host's link is cut once six cubes are refuted. Both answers are checked. At the end, however it comes, nothing of
# it is left. Printed are, for each run, seconds, cubes refuted by each host, and the check's line.
#
# Wants root, ip, ssh, sshd, GNU parallel and BEE, or `./bee`; without MODEL ten pigeons are tried. WORDS are
# more words of the command.
set -eu
top=$(cd "$(dirname "$0")/.." && pwd)
model=$(realpath "${1:-/dev/null}") count=${2:-2} net=10.213.7
BEE=$(realpath "${BEE:-$top/crates/bee/out/bee}")
export BEE PYTHONPATH=$top/python
keys=$(mktemp -d /var/tmp/bee-hosts.XXXXXX) work=$(mktemp -d /tmp/bee-hosts.XXXXXX)
started=()

down() {
  for it in "${started[@]}"; do kill "$it" 2>/dev/null || true; done
  for ((i = 0; i <= count; i++)); do
    ip netns pids "beehost$i" 2>/dev/null | while read -r it; do kill "$it" 2>/dev/null || true; done
    ip netns del "beehost$i" 2>/dev/null || true
  done
  rm -rf "$keys" "$work"
}
trap down EXIT
trap 'exit 130' INT TERM

# Host 0 runs the command, and has the bridge.
up() {
  ssh-keygen -q -t ed25519 -N '' -f "$keys/user"
  ssh-keygen -q -t ed25519 -N '' -f "$keys/host"
  for ((i = 0; i <= count; i++)); do
    ip netns add "beehost$i"
    ip -n "beehost$i" link set lo up
  done
  ip -n beehost0 link add bridge type bridge
  ip -n beehost0 addr add "$net.1/24" dev bridge
  ip -n beehost0 link set bridge up
  for ((i = 1; i <= count; i++)); do host_up "$i"; done
}

host_up() {
  local i=$1
  ip -n beehost0 link add "to$i" type veth peer name port netns "beehost$i"
  ip -n beehost0 link set "to$i" master bridge up
  ip -n "beehost$i" addr add "$net.$((10 + i))/24" dev port
  ip -n "beehost$i" link set port up
  mkdir -p /run/sshd
  printf '%s\n' "HostKey $keys/host" "AuthorizedKeysFile $keys/user.pub" "PidFile none" "UsePAM no" \
    "PermitRootLogin prohibit-password" "StrictModes no" "MaxStartups 50" \
    "ListenAddress $net.$((10 + i))" >"$keys/$i.conf"
  # shellcheck disable=SC2016
  ip netns exec "beehost$i" unshare -m sh -c \
    'mount --make-rprivate / && mount -t tmpfs tmpfs /tmp && exec /usr/sbin/sshd -D -f "$1"' - "$keys/$i.conf" \
    2>"$keys/$i.log" &
  started+=($!)
}

hosts() {
  for ((i = 1; i <= count; i++)); do
    echo "2/ssh -i $keys/user -o BatchMode=yes -o ConnectTimeout=5 -o ServerAliveInterval=2 -o ServerAliveCountMax=2" \
      "-o UserKnownHostsFile=$keys/known -o StrictHostKeyChecking=no -o LogLevel=ERROR $net.$((10 + i))"
  done
}

wait_for_hosts() {
  for ((i = 1; i <= count; i++)); do
    for _ in $(seq 100); do
      ip netns exec beehost0 ssh -i "$keys/user" -o BatchMode=yes -o UserKnownHostsFile="$keys/known" \
        -o StrictHostKeyChecking=no -o LogLevel=ERROR "$net.$((10 + i))" true 2>/dev/null && break
      sleep 0.3
    done
  done
}

refuted() { grep -c ^refuted "$work/cubes.journal" 2>/dev/null || true; }

# Cuts the last host's link once six cubes are refuted.
cut_link() {
  until [ "$(refuted)" -ge 6 ] 2>/dev/null; do sleep 0.2; done
  ip -n "beehost$count" link set port down
  echo "the link of $net.$((10 + count)) is cut, behind $(refuted) refuted cubes"
}

# One run: its answer, and what the journal had of each host, which is kept by a copy while it runs.
try() {
  local begun=$SECONDS code=0
  rm -rf "$work/cubes" "$work/cubes.journal" "$work/journal"
  touch "$work/cubes.journal"
  ln "$work/cubes.journal" "$work/journal"
  # shellcheck disable=SC2086
  ip netns exec beehost0 python3 -m beemodel.cubes "$model" --hosts "$work/hosts" --folder "$work/cubes" \
    --joblog "$work/cubes.journal" --resume --look 0 --solver "$BEE" ${WORDS:-} >"$work/answer" || code=$?
  echo "code $code, $((SECONDS - begun)) seconds; cubes refuted by each host:"
  awk '$1 == "refuted" { n[$3]++; s[$3] += $4 } END { for (h in n) print " ", h, n[h], s[h] " s" }' "$work/journal" |
    sort
  "$BEE" check "$model" "$work/answer" 2>/dev/null
}

pigeons() {
  awk -v n="$1" 'BEGIN {
    for (i = 0; i < n; i++) for (j = 1; j < n; j++) print "new_bool(p" i "_" j ")"
    for (i = 0; i < n; i++) { s = ""; for (j = 1; j < n; j++) s = s (j > 1 ? "," : "") "p" i "_" j
      print "bool_array_or([" s "])" }
    for (j = 1; j < n; j++) for (i = 0; i < n; i++) for (k = i + 1; k < n; k++)
      print "bool_array_or([-p" i "_" j ",-p" k "_" j "])"
    print "solve satisfy" }'
}

if [ "$model" = /dev/null ]; then model=$work/pigeons.bee && pigeons 10 >"$model"; fi
up
wait_for_hosts
hosts >"$work/hosts"
echo "$count hosts"
try
if [ "$count" -gt 1 ]; then
  echo "$count hosts, one taken away"
  cut_link &
  started+=($!)
  try
fi
