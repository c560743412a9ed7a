#!/usr/bin/env python3
"""A machine in Python that answers requests on standard input by replies on standard output."""

import argparse
import os
import random
import sys
from pathlib import Path

from lines import Device
from machine import Refused, read_faults, read_machine
from model import Session
from progress import Progress
from schedule import Schedule

BLOCK = 65_536


class Flicker:
    """Begins sessions with one crosspoint that is open in a share of the cycles: what no set of faults describes."""

    def __init__(self, cross, share, seed):
        self._cross, self._share, self._random = cross, share, random.Random(seed)

    def begin(self, machine, faults, configuration):
        whole = Session(machine, faults, configuration)
        if self._cross not in configuration.closed or faults.crosses.get(self._cross) is not None:
            return whole
        cut = configuration.copy()
        cut.closed.discard(self._cross)
        return FlickerSession(whole, Session(machine, faults, cut), lambda: self._random.random() < self._share)


class FlickerSession:
    """Two sessions that share what their tables give; at each cycle chance decides which of them is asked."""

    def __init__(self, whole, cut, is_cut):
        self._whole, self._cut, self._is_cut = whole, cut, is_cut
        cut.share_outputs(whole)

    def cycle(self, drive):
        return (self._cut if self._is_cut() else self._whole).cycle(drive)


def serve(device, requests, replies):
    """Answers line by line to the end of the requests."""
    rest = b""
    while block := os.read(requests, BLOCK):
        *lines, rest = (rest + block).split(b"\n")
        for line in lines:
            reply = device.answer(line)
            while reply:
                reply = reply[os.write(replies, reply) :]


def words():
    parser = argparse.ArgumentParser(description=__doc__)
    parser.add_argument("machine", type=Path)
    parser.add_argument("faults", type=Path, nargs="?", help="a fault file; without it nothing is wrong")
    parser.add_argument("--flicker", type=float, default=0, metavar="SHARE", help="a crosspoint is open in this share of cycles")
    parser.add_argument("--schedule", type=Path, metavar="FILE", help="faults that come and go, as schedule.py says")
    parser.add_argument("--times", type=int, default=1, help="make what comes with a load so often, and refuse where it differs")
    parser.add_argument("--seed", type=int, default=1, help="which crosspoint flickers, and when")
    return parser.parse_args()


def main():
    given = words()
    try:
        machine = read_machine(given.machine.read_text())
        faults = read_faults(machine, given.faults.read_text() if given.faults else "")
        begin = Schedule(machine, faults, given.schedule.read_text()).begin if given.schedule else Session
    except Refused as reason:
        sys.exit(f"refused {reason}")
    progress = Progress(machine.most_loads)
    if given.flicker:
        cross = random.Random(given.seed).randrange(len(machine.crosses))
        begin = Flicker(cross, given.flicker, given.seed).begin
    try:
        serve(Device(machine, faults, progress.count, begin, given.times), sys.stdin.fileno(), sys.stdout.fileno())
    except BrokenPipeError:
        pass  # the tool has gone
    progress.end()


if __name__ == "__main__":
    main()
