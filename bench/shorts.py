#!/usr/bin/env python3
"""Machines whose diagnosis has much to look at, for `teramac diagnose`.

usage: shorts.py FOLDER random|closed|pins|lines|few|third

FOLDER gets d.machine and d.faults.

random  The machine of the command bench; of 400 pins of tables, drawn at random, each is joined to a line drawn at random.
closed  A hextant of 200 tables and 200 lines; of each of the 1,400 pins one crosspoint, drawn at random, is stuck closed.
pins    10,000 pins by 10 lines, sound.
lines   A hextant of 500 tables and 256 lines, sound.
few     The machine of the command bench with 4 pins, sound.
third   The same, where each third crosspoint of its pins is open.
"""

import os
import random
import sys
from pathlib import Path

sys.path.insert(0, os.path.join(os.path.dirname(os.path.abspath(__file__)), "../studies"))
import teramac_texts as texts

# modules, chips, hextants, tables, ports of each level, lines of each level, pins
MACHINES = {
    "random": (2, 2, 4, 8, 24, 24, 24, 32, 32, 32, 32, 28),
    "closed": (1, 1, 1, 200, 4, 4, 4, 8, 8, 8, 200, 8),
    "pins": (1, 1, 1, 1, 4, 4, 4, 10, 10, 10, 10, 10_000),
    "lines": (1, 1, 1, 500, 16, 16, 16, 20, 20, 20, 256, 8),
    "few": (2, 2, 4, 8, 24, 24, 24, 32, 32, 32, 32, 4),
    "third": (2, 2, 4, 8, 24, 24, 24, 32, 32, 32, 32, 4),
}


def faults_of(kind, machine):
    chance, faults = random.Random(1), texts.Faults()
    pins = [pin for table in machine.table_pins for pin in table]
    if kind == "random":
        for pin in chance.sample(pins, 400):
            faults.add("bridge", tuple(sorted((pin, chance.choice(list(machine.lines))))))
    if kind == "closed":
        hextant = machine.nodes[-1]
        for pin in pins:
            faults.add("closed", machine.cross(pin, chance.choice(hextant.lines)))
    if kind == "third":
        for cross in range(0, len(machine.pins) * len(machine.nodes[0].lines), 3):
            faults.add("open", cross)
    return faults


def main():
    if len(sys.argv) != 3 or sys.argv[2] not in MACHINES:
        sys.exit(__doc__)
    folder, machine = Path(sys.argv[1]), texts.Machine(MACHINES[sys.argv[2]])
    folder.mkdir(parents=True, exist_ok=True)
    (folder / "d.machine").write_text(machine.text)
    (folder / "d.faults").write_text(texts.faults_text(machine, faults_of(sys.argv[2], machine)))


main()
