#!/bin/bash
# Diagnoses machines behind every end that can be built here, runs a design on each by `go`, and compares what comes with what
# the simulated machine of the same faults gives. Prints loads, bytes and seconds.
#
#   ends/try.sh TERAMAC TERAMAC_PORT [MACHINE/END ..]
#
# TERAMAC and TERAMAC_PORT are the built programs. Without further words it tries all pairs of `tiny` and `small` with
# python, c, terminal (c behind a pseudo terminal), switch, device, and `tiny` with serial. MACHINE may be `bench` too, the machine
# of studies/, without faults. WORK (default: a folder that is deleted) gets what is made. Status 1 where anything differs.
set -u
if [ $# -lt 2 ]; then sed -n '2,10s/^# \{0,1\}//p' "$0"; exit 2; fi
here=$(cd "$(dirname "$0")" && pwd)
teramac=$(realpath "$1"); teramac_port=$(realpath "$2"); shift 2
declare -A designs=([tiny]=and [small]=lfsr [bench]=lfsr)
[ $# -gt 0 ] || set -- {tiny,small}/{python,c,terminal,switch,device} tiny/serial
work=${WORK:-$(mktemp -d)}
[ -n "${WORK:-}" ] || trap 'rm -rf "$work"' EXIT
mkdir -p "$work"; work=$(realpath "$work"); cd "$work" || exit 2
failed=0
fail() { echo "DIFFERS: $*"; failed=1; }

tools_of() { # the program that an end wants beside a shell and Python
  case $1 in c) echo cc;; terminal) echo cc socat;; switch) echo iverilog;; device|serial) echo verilator;; *) echo true;; esac
}

# Makes an end once; `terminal` is that of `c`.
make_end() { # MACHINE KIND
  [ -x "$1/$2/end" ] || python3 "$here/make.py" "$2" "$1/machine" "$1/faults" -o "$1/$2" > "$1/$2.log" 2>&1
}

# Begins the end of a port in the background: its number is `end`, and the port's name is `port`.
begin_end() { # MACHINE END
  if [ "$2" = terminal ]; then
    rm -f port.tty
    socat PTY,link=port.tty,raw,echo=0,wait-slave EXEC:"$1/c/end" 2> "$1/$2.progress" & end=$!
    until [ -e port.tty ]; do sleep 0.05; done
    port=$work/port.tty
  else
    "$1/$2/end" < to > from 2> "$1/$2.progress" & end=$!
    port=$work/to,$work/from
  fi
}

# Runs a command over a port, its answer into a file, and says how long it took.
over_port() { # MACHINE END COMMAND WORD ..
  local machine=$1 kind=$2 command=$3 begun finished
  shift 3
  begin_end "$machine" "$kind"
  begun=$(date +%s.%N)
  "$teramac_port" "$command" "$machine/machine" "$port" "$@" > "$machine/$kind.$command"
  finished=$(date +%s.%N)
  wait "$end"
  same="as simulated"
  cmp -s "$machine/$kind.$command" "$machine/simulated.$command" || { same=DIFFERS; fail "$machine $kind $command"; }
  printf '%-6s %-9s %-9s %-14s %8.2f s, %s\n' "$machine" "$kind" "$command" "$same" \
    "$(echo "$finished $begun" | awk '{ print $1 - $2 }')" "$(tr '\r' '\n' < "$machine/$kind.progress" | grep loads | tail -n 1)"
}

# What the simulated machine gives, and the bytes that a diagnosis sends, which are the same whatever the end.
begin_machine() { # MACHINE
  local design=${designs[$1]}
  mkdir -p "$1"
  cat "$here"/../{examples,studies}/"$1.machine" 2> /dev/null > "$1/machine"
  cp "$here/../examples/$1.faults" "$1/faults" 2> /dev/null || : > "$1/faults"
  cp "$here/../examples/$design.blif" "$1/blif"; cp "$here/../examples/$design.vec" "$1/vec"
  "$teramac" diagnose "$1/machine" "$1/faults" > "$1/simulated.diagnose" || fail "teramac diagnose $1"
  "$teramac" go "$1/machine" "$1/faults" "$1/blif" "$1/vec" > "$1/simulated.go" || fail "teramac go $1"
  make_end "$1" c || { fail "make.py c for $1"; return; }
  tee "$1/requests" < to | "$1/c/end" 2> /dev/null | tee "$1/replies" > from & end=$!
  "$teramac_port" diagnose "$1/machine" "$work/to,$work/from" > "$1/counted.diagnose"
  wait "$end"
  cmp -s "$1/counted.diagnose" "$1/simulated.diagnose" || fail "$1 c diagnose"
  python3 "$here/count_bytes.py" "$1/requests" "$1/replies"
}

try_end() { # MACHINE END
  local kind=${2/terminal/c} tool
  for tool in $(tools_of "$2"); do
    command -v "$tool" > /dev/null || { echo "$1 $2: no $tool here"; return; }
  done
  make_end "$1" "$kind" || { fail "make.py $kind for $1: $(tail -n 1 "$1/$kind.log")"; return; }
  if [ "$2" != terminal ]; then
    begin_end "$1" "$2"
    printf '%-6s %-9s ' "$1" "$2"; python3 "$here/compare.py" "$1/machine" "$1/faults" "$port" 100 || fail "$1 $2 random loads"
    wait "$end"
  fi
  # `go` diagnoses too: where that takes minutes, once is enough.
  [ "$1" != tiny ] || over_port "$1" "$2" diagnose
  over_port "$1" "$2" go "$1/blif" "$1/vec"
}

rm -f to from; mkfifo to from
for pair; do
  machine=${pair%/*}
  [ -e "$machine/requests" ] || { echo "== $machine"; begin_machine "$machine"; }
  try_end "$machine" "${pair#*/}"
done
exit $failed
