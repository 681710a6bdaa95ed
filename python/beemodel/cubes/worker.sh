#!/bin/sh
# worker.sh FOLDER NAME NUMBER KEEPERS LITERAL ..: has one cube refuted, or a solution of it found, by the solver of
# FOLDER.
#
# FOLDER has `size` (how many variables and clauses), `clauses`, `solver` (its kind and where it is), `share` and, once
# a solution is known, `bound`: the literal that a better one makes true. On standard output come the lines of a
# refutation, or the values; and, behind them, once all of it is written, `c end OUTCOME`. Lines with hints are those
# that the joined text has: their ids begin with NUMBER, and they hold outside of the cube as well. It ends the
# solver where FOLDER/NAME.stop is there and the solver has taken the seconds of FOLDER/share, where the bound is
# another one and it has not run for long, and where one of the processes KEEPERS, or that which started this where they
# are `-`, is gone.
folder=$1 name=$2 number=$3 keeper=$4
shift 4
cube=$*
[ "$keeper" = - ] && keeper=$PPID
at=$folder/$name
forget() { rm -f "$at.cnf" "$at.proof" "$at.values" "$at.why" "$at.stop" "$at.times"; }
forget
trap forget EXIT
trap 'kill "$pid" 2>/dev/null; exit 1' HUP INT TERM

# A bound that comes later than this many seconds does not stop a cube.
young=5

current() { cat "$folder/bound" 2>/dev/null; }

clauses() {
  echo "p cnf ${size% *} $((${size#* } + $#))" && cat "$folder/clauses" && for literal; do echo "$literal 0"; done
}

# The seconds of a processor that a process has taken, and what it began. They are many where nobody tells.
took() {
  told=$(ps -o time= -p "$1" 2>/dev/null) || told=99:00:00
  IFS=' :-'
  # shellcheck disable=SC2086
  set -- $told
  IFS=' '
  [ $# = 4 ] && shift
  echo $((${1#0} * 3600 + ${2#0} * 60 + ${3#0}))
}

watch() {
  ran=0
  while sleep 1; do
    ran=$((ran + 1))
    # shellcheck disable=SC2086
    if ! kill -0 $keeper 2>/dev/null; then why=gone
    elif [ -e "$at.stop" ] && [ "$(took "$1")" -ge "$share" ]; then why=stopped
    elif [ "$ran" -le "$young" ] && [ "$(current)" != "$bound" ]; then why=bound
    else continue
    fi
    echo "$why" >"$at.why"
    kill "$1"
    break
  done
}

end() {
  sed -n '2s/^/c times /p' "$at.times" && echo "c end $1"
  exit
}

fail() {
  echo "$1" >&2
  end failed
}

# The lines of a refutation, but for those that delete: with hints by bee, without them by cadical, which does not write
# the empty clause where the clauses tell it by themselves. The bound is told before them.
refutation() {
  echo "c bound $bound" || return 1
  case $kind in
    cadical) sed '/^d/d' "$at.proof" && echo 0 ;;
    bee) renumbered ;;
  esac
}

# Lines of bee under ids of the joined text. The solver names the clauses of the text as that does, and behind them the
# units of the cube and of the bound, but for those that the text has: hints of the cube are left out, and that of the
# bound is the id behind the clauses. Its own lines follow. Behind the literals of each stand those negated ones of the
# cube, in the cube's order, that it has itself or by its hints: a line that no unit of the cube shows holds without
# them. Such lists are numbered, from 1.
renumbered() {
  awk -v number="$number" -v clauses="${size#* }" -v cube="$cube" -v bound="$bound" '
    BEGIN {
      count = split(cube, literals)
      for (i = 1; i <= count; i++) negated[i] = literals[i] ~ /^-/ ? substr(literals[i], 2) : "-" literals[i]
      for (i = 1; i <= count; i++) in_cube[negated[i]] = list(" " negated[i])
      last = clauses
    }
    function list(all) {
      if (!(all in numbers)) {
        numbers[all] = ++lists
        told[lists] = all
      }
      return numbers[all]
    }
    function joined(one, other, all, i) {
      if (one == other || !other) return one
      if (!one) return other
      if ((one, other) in both) return both[one, other]
      for (i = 1; i <= count; i++)
        if (index(told[one] told[other] " ", " " negated[i] " ")) all = all " " negated[i]
      return both[one, other] = list(all)
    }
    function unit(literal, hinted, needed) {
      if (literal in units) return
      units[literal]
      hint[++last] = hinted
      needs[last] = needed
    }
    NR == FNR { if (NF == 2) units[$1]; next }
    FNR == 1 {
      for (i = 1; i <= count; i++) unit(literals[i], "", in_cube[negated[i]])
      if (bound != "") unit(bound, " " (clauses + 1), 0)
      next
    }
    $2 == "d" { next }
    {
      if ($1 - last > 9999999 || $NF != "0") exit 1
      line = number sprintf("%07d", $1 - last)
      hints = ""
      all = 0
      for (i = 2; i < NF && $i != "0"; i++)
        if ($i in in_cube) all = joined(all, in_cube[$i])
        else line = line " " $i
      for (i++; i < NF; i++) {
        if ($i <= clauses) hints = hints " " $i
        else {
          hints = hints ($i <= last ? hint[$i] : " " number sprintf("%07d", $i - last))
          all = joined(all, needs[$i])
        }
      }
      needs[$1] = all
      print line told[all] " 0" hints " 0"
    }' "$folder/clauses" "$at.values"
}

is_whole() {
  [ "$kind" = bee ] && return 0
  case $(tail -n 1 "$at.proof") in '' | 0 | *' 0') return 0 ;; esac
  return 1
}

read -r kind program <"$folder/solver"
read -r share <"$folder/share"
read -r size <"$folder/size"
bound=$(current)
clauses "$@" $bound >"$at.cnf" || fail "the clauses can't be written"
case $kind in
  cadical) "$program" -q --plain --no-binary "$at.cnf" "$at.proof" >"$at.values" & ;;
  bee) "$program" sat "$at.cnf" >"$at.values" & ;;
esac
pid=$!
watch "$pid" >/dev/null 2>&1 &
watcher=$!
wait "$pid"
code=$?
kill "$watcher" 2>/dev/null
times >"$at.times"
case $(sed -n '/^s /{p;q;}' "$at.values") in
  's UNSATISFIABLE')
    is_whole || fail "the proof is cut short"
    refutation || fail "the proof can't be handed on"
    end refuted
    ;;
  's SATISFIABLE') grep '^[sv]' "$at.values" && end found ;;
  's UNKNOWN') end stopped ;;
esac
[ -e "$at.why" ] && end "$(cat "$at.why")"
fail "the solver ended with code $code"
