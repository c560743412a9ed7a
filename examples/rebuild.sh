#!/bin/sh
# Makes DESIGN.blif from DESIGN.v by Yosys and ABC: rebuild.sh DESIGN (see docs/BLIF.md). It writes over DESIGN.blif.
set -eu
[ $# -eq 1 ] && [ -f "$1.v" ] || { echo "usage: rebuild.sh DESIGN, where DESIGN.v is a module DESIGN" >&2; exit 2; }
work=$(mktemp -d)
trap 'rm -r "$work"' EXIT
yosys -q -p "read_verilog $1.v; synth -flatten -top $1; async2sync; dfflegalize -cell \$_DFF_P_ 01;
             setundef -undriven -zero; abc -lut 6; clean -purge; write_blif $work/flat.blif"
berkeley-abc -q "read_blif $work/flat.blif; sweep; write_blif $1.blif" > "$work/log" || { cat "$work/log" >&2; exit 1; }
