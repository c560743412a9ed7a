#!/bin/sh
# Makes the four pages of this folder anew; TERAMAC names the built program.
set -eu
cd "$(dirname "$0")"
TERAMAC=${TERAMAC:-$PWD/../../crates/teramac/out/teramac}
export TERAMAC
work=$(mktemp -d)
trap 'rm -r "$work"' EXIT
examples=../../examples studies=../../studies

# made DESIGN MACHINE PAGE WORD ..: a design on an example's machine with its faults, and its cycles; further words go to view.py.
made() {
  page=$3
  machine=$examples/$2.machine faults=$examples/$2.faults design=$examples/$1.blif vectors=$examples/$1.vec
  "$TERAMAC" diagnose "$machine" "$faults" > "$work/list"
  "$TERAMAC" compile "$machine" "$work/list" "$design" > "$work/image"
  "$TERAMAC" run "$machine" "$faults" "$work/image" "$vectors" > "$work/rows"
  shift 3
  rm -f "$page"
  python3 $studies/view.py "$machine" --faults "$faults" --defects "$work/list" --image "$work/image" \
    --design "$design" --vectors "$vectors" --rows "$work/rows" "$@" -o "$page"
}

made lfsr small small.html
made and tiny tiny.html --walk tiny.walk
made processor processor processor.html

# The machine of `bench` with 3 % of its crosspoints open and 0.3 % closed, on which the UART has no room.
bench=$studies/bench.machine
python3 $studies/faults.py $bench --open 3% --closed 0.3% --seed 1 -o "$work/bench.faults"
"$TERAMAC" diagnose $bench "$work/bench.faults" > "$work/bench.list"
refusal=$("$TERAMAC" compile $bench "$work/bench.list" $examples/uart.blif || true)
rm -f bench.html
python3 $studies/view.py $bench --faults "$work/bench.faults" --defects "$work/bench.list" \
  --design $examples/uart.blif --refusal "$refusal" -o bench.html
