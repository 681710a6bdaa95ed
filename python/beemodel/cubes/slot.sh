#!/bin/sh
# slot.sh FOLDER LINE: runs one cube on a free slot. LINE is its name, its number, the machine that it must not run on,
# or `-`, and its literals. FOLDER/slots has a line for each slot: the number of its machine, the folder there, and `:`
# for this machine, or the words that reach another one. What the worker writes is FOLDER/out/NAME.out once this has
# told, on standard output, the name, the machine, the slot and the exit code.
folder=$1
set -- $2
name=$1 id=$2 avoided=$3
shift 3
controller=$(cat "$folder/controller")

take() {
  number=0
  while read -r machine place login; do
    number=$((number + 1))
    if [ "$machine" = "$avoided" ] || [ -e "$folder/gone.$machine" ]; then continue; fi
    exec 9>"$folder/slot.$number"
    flock -n 9 && return 0
  done <"$folder/slots"
  return 1
}

until take; do
  kill -0 "$controller" 2>/dev/null || exit 1
  sleep 0.2
done
kill -0 "$controller" 2>/dev/null || exit 1
out=$folder/out/$name
case $login in
  :) sh "$place/worker.sh" "$place" "$name" "$id" "$controller $$" "$@" ;;
  *) $login "sh $place/worker.sh $place $name $id - $*" ;;
esac >"$out.tmp" 2>"$out.err" </dev/null 9>&-
code=$?
mv "$out.tmp" "$out.out"
exec 9>&-
echo "$name $machine $number $code"
