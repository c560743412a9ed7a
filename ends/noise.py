#!/usr/bin/env python3
"""A line on which bits turn now and then, before an end:  noise.py RATE SEED COMMAND [WORD ..] < to > from

COMMAND is an end, from standard input to standard output. Each bit that passes, either way, turns with a chance of RATE; SEED draws
which. How many turned is said at the end, on standard error.
"""

import math
import os
import random
import subprocess
import sys
import threading

BLOCK = 65_536


class Noise:
    """Turns bits of the bytes that pass; the gap to the next one is drawn when one has turned."""

    def __init__(self, rate, seed):
        self._rate, self._chance, self.turned = rate, random.Random(seed), 0
        self._gap = self._drawn()

    def _drawn(self):
        """How many bits pass as they are before the next one that turns."""
        if not self._rate:
            return math.inf
        return int(math.log(1 - self._chance.random()) / math.log(1 - self._rate)) if self._rate < 1 else 0

    def spoil(self, block):
        if self._gap >= 8 * len(block):
            self._gap -= 8 * len(block)
            return block
        spoilt, at = bytearray(block), self._gap
        while at < 8 * len(block):
            spoilt[at // 8] ^= 1 << at % 8
            self.turned += 1
            at += 1 + self._drawn()
        self._gap = at - 8 * len(block)
        return bytes(spoilt)


def carry(source, target, noise):
    """Passes on what comes, to the end of one of the two."""
    try:
        while block := os.read(source, BLOCK):
            block = noise.spoil(block)
            while block:
                block = block[os.write(target, block) :]
    except OSError:
        pass  # the other side has gone
    os.close(target)


def main():
    if len(sys.argv) < 4:
        sys.exit(__doc__)
    rate, seed = float(sys.argv[1]), int(sys.argv[2])
    ways = [Noise(rate, f"{seed} {way}") for way in ("to", "from")]
    end = subprocess.Popen(sys.argv[3:], stdin=subprocess.PIPE, stdout=subprocess.PIPE)
    there = threading.Thread(target=carry, args=(0, end.stdin.fileno(), ways[0]), daemon=True)
    there.start()
    carry(end.stdout.fileno(), 1, ways[1])
    end.wait()
    print(f"bits turned: {ways[0].turned} there, {ways[1].turned} back", file=sys.stderr)
    os._exit(0)


if __name__ == "__main__":
    main()
