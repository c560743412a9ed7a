#!/bin/sh
# Runs `go` on the small machine of examples/ with its seven faults, without proofs: `rt try` builds the program for this run alone.
set -e
if ! command -v rt >/dev/null; then
    echo "rt isn't in the PATH: it is the command of the Rattle kit (README.md says where that stands), as /opt/rattle/bin/rt" >&2
    exit 1
fi
cd "$(dirname "$0")/crates/teramac"
examples=../../examples
echo "building teramac without proofs, which takes two minutes" >&2
exec rt try --seconds 600 --data small.machine=$examples/small.machine --data small.faults=$examples/small.faults \
    --data lfsr.blif=$examples/lfsr.blif --data lfsr.vec=$examples/lfsr.vec -- go small.machine small.faults lfsr.blif lfsr.vec
