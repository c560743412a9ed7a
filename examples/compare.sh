#!/bin/sh
# Compares the rows of `go` with Icarus Verilog's: compare.sh [DESIGN ..], by default uart and processor.
# TERAMAC names the built program. Each DESIGN has DESIGN.v, DESIGN_rows.v, DESIGN.blif, .vec, .machine and .faults here.
set -eu
cd "$(dirname "$0")"
teramac=${TERAMAC:-../crates/teramac/out/teramac}
work=$(mktemp -d)
trap 'rm -r "$work"' EXIT
[ $# -gt 0 ] || set -- uart processor
for design in "$@"; do
  iverilog -g2005 -o "$work/rows" "$design.v" "${design}_rows.v"
  sed 's/#.*//; s/[ \t\r]//g; /^$/d' "$design.vec" | vvp -n "$work/rows" > "$work/want"
  status=0
  "$teramac" go "$design.machine" "$design.faults" "$design.blif" "$design.vec" > "$work/all" || status=$?
  [ $status -eq 0 ] || { echo "$design: go ended with status $status: $(tail -n 1 "$work/all")" >&2; exit 1; }
  sed '1,/^outputs$/d' "$work/all" > "$work/got"
  cmp "$work/want" "$work/got" || { echo "$design: the rows differ" >&2; exit 1; }
  echo "$design: $(wc -l < "$work/got") rows are Icarus Verilog's, beside $(grep -c '^[wct]' "$work/all") listed defects"
done
