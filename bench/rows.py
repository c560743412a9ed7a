"""Prints vectors for bench/processor.v, core.v or multiplier.v: python3 rows.py processor|core|multiplier COUNT.

A vector of the processor is the clock, whose column has no effect, and the eight bits of `port` from bit 0, and one of the
core the clock and the sixteen bits of `port`;
one of the multiplier is the bits of `a` and then those of `b`, each from bit 0.
"""
import random
import sys

width = {"processor": 9, "core": 17, "multiplier": 56}[sys.argv[1]]
random.seed(1)
for _ in range(int(sys.argv[2])):
    print("".join(random.choice("01") for _ in range(width)))
