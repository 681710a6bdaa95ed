#!/bin/sh
# task.sh FOLDER LIST: an element of an array job. Line N of LIST, counted from 0, is the name of cube N, its number and
# its literals. FOLDER is one that all nodes see. What the worker writes is FOLDER/out/NAME.out once FOLDER/ended/NAME
# is there, with the name, the node, the restarts and the exit code.
folder=$1 list=$2
# A job that is taken from this node has not ended.
trap 'exit 1' HUP INT TERM
set -- $(sed -n "$((SLURM_ARRAY_TASK_ID + 1))p" "$list")
name=$1 id=$2
shift 2
out=$folder/out/$name part=$folder/out/$name.$SLURM_JOB_ID.$SLURM_RESTART_COUNT
sh "$folder/here/worker.sh" "$folder/here" "$name" "$id" $$ "$@" >"$part" 2>"$out.err" &
wait $!
code=$?
mv "$part" "$out.out"
echo "$name $SLURMD_NODENAME ${SLURM_RESTART_COUNT:-0} $code" >"$folder/ended/$name.part"
mv "$folder/ended/$name.part" "$folder/ended/$name"
