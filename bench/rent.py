#!/usr/bin/env python3
"""Writes a design for a machine that isn't small, by distances as they are between the parts of real ones, and vectors for it.

usage: rent.py FOLDER COVERS EXPONENT [BLOCK]

FOLDER gets rent.blif and rent.vec, 100 vectors. Each of the COVERS reads three to six signals at distances d that are drawn with
a weight of d to the EXPONENT less 2, forward or back; every fourth has a latch behind it. What would make a cycle is read at the
next latch. The covers are shuffled within each BLOCK of them, so that the plan in order is as poor as it is of a synthesized
design; 1, which leaves them as they are, where it isn't given.
"""
import random
import sys
from pathlib import Path

INPUTS = 16
OUTPUTS = 32


def distance(draws, count, exponent):
    """A distance from 1 to count, of which the weight falls by the power of the exponent less 2."""
    power = exponent - 1
    return int((1 + draws.random() * (count ** power - 1)) ** (1 / power))


def source(draws, count, exponent, cover):
    """The signal that a cover reads, or an input where the distance leads out of the design."""
    step = distance(draws, count, exponent)
    other = cover + step if draws.random() < 0.5 else cover - step
    if not 0 <= other < count:
        return f"i{draws.randrange(INPUTS)}"
    if other > cover:
        other = min(other + -other % 4, (count - 1) // 4 * 4)
    return f"q{other}" if other % 4 == 0 else f"s{other}"


def order(draws, count, block):
    """The covers, shuffled within each block."""
    numbers = list(range(count))
    for begin in range(0, count, block):
        part = numbers[begin:begin + block]
        draws.shuffle(part)
        numbers[begin:begin + block] = part
    return numbers


def design(count, exponent, block):
    draws = random.Random(1)
    covers = []
    for cover in range(count):
        reads = sorted({source(draws, count, exponent, cover) for _ in range(draws.randint(3, 6))})
        out = f"d{cover}" if cover % 4 == 0 else f"s{cover}"
        rows = [".names " + " ".join([*reads, out]), "1" * len(reads) + " 1", "0" * len(reads) + " 1"]
        if cover % 4 == 0:
            rows.append(f".latch d{cover} q{cover} 0")
        covers.append("\n".join(rows))
    shows = [f"q{k * (count // OUTPUTS) // 4 * 4}" for k in range(OUTPUTS)]
    lines = [".model rent", ".inputs " + " ".join(f"i{k}" for k in range(INPUTS)), ".outputs " + " ".join(f"o{k}" for k in range(OUTPUTS))]
    lines += [covers[k] for k in order(draws, count, block)]
    lines += [f".names {show} o{k}\n1 1" for k, show in enumerate(shows)]
    return "\n".join([*lines, ".end", ""])


def main():
    if len(sys.argv) not in (4, 5):
        sys.exit(__doc__)
    folder = Path(sys.argv[1])
    folder.mkdir(parents=True, exist_ok=True)
    block = int(sys.argv[4]) if len(sys.argv) > 4 else 1
    (folder / "rent.blif").write_text(design(int(sys.argv[2]), float(sys.argv[3]), block))
    draws = random.Random(2)
    rows = ["".join(draws.choice("01") for _ in range(INPUTS)) for _ in range(100)]
    (folder / "rent.vec").write_text("\n".join(rows) + "\n")


main()
