#!/usr/bin/env python3
"""Asks the machine behind a port random loads and cycles, and compares what it reads with the model in Python."""

import argparse
import random
import sys
import time
from pathlib import Path

from asker import Asker, FilePort
from machine import read_faults, read_machine
from model import Configuration, Session, Setting

CLOSED, EDITS, TABLES, TICKS, CYCLES = 30, 12, 3, 3, 6  # at most of a load


def random_load(machine, chance, before):
    """A configuration some edits away from another one, or from nothing."""
    after = Configuration() if chance.random() < 0.1 else before.copy()
    for _ in range(chance.randrange(EDITS)):
        after.closed ^= {chance.randrange(len(machine.crosses))}
    while len(after.closed) > CLOSED:
        after.closed.discard(chance.choice(sorted(after.closed)))
    after.tables = {
        chance.randrange(len(machine.tables)): Setting(chance.getrandbits(64), chance.random() < 0.5, chance.random() < 0.5)
        for _ in range(chance.randrange(TABLES))
    }
    after.ticks = chance.randint(1, TICKS)
    return after


def count_wrong(machine, faults, port, loads, chance):
    """How many of so many random loads read anything that the model doesn't."""
    asker, configuration, wrong = Asker(port, machine), Configuration(), 0
    for _ in range(loads):
        configuration = random_load(machine, chance, configuration)
        drives = [chance.getrandbits(len(machine.pins)) for _ in range(chance.randint(1, CYCLES))]
        asker.load(configuration)
        first = chance.randint(1, len(drives))
        read = asker.cycles(drives[:first]) + asker.cycles(drives[first:])
        session = Session(machine, faults, configuration)
        wrong += read != [session.cycle(drive) for drive in drives]
    return wrong


def main():
    parser = argparse.ArgumentParser(description=__doc__)
    parser.add_argument("machine", type=Path)
    parser.add_argument("faults", type=Path, help="the faults that the machine behind the port has")
    parser.add_argument("port", help="FILE or TO,FROM")
    parser.add_argument("loads", type=int)
    parser.add_argument("--seed", type=int, default=1)
    given = parser.parse_args()
    machine = read_machine(given.machine.read_text())
    faults = read_faults(machine, given.faults.read_text())
    port, start = FilePort(given.port), time.monotonic()
    wrong = count_wrong(machine, faults, port, given.loads, random.Random(given.seed))
    seconds = time.monotonic() - start
    print(f"{given.loads} random loads, {wrong} read wrong, {port.sent} bytes sent and {port.got} got, {seconds:.1f} s")
    sys.exit(wrong > 0)


if __name__ == "__main__":
    main()
