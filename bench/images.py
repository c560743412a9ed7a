#!/usr/bin/env python3
"""Makes an image that closes a million crosspoints, with the machine and two lists, for `teramac repair`.

usage: images.py FOLDER

FOLDER gets d.machine, none.defects and line.defects (no defects, and a line of the root), and d.image. Of each crossbar the
image closes the crosspoints of some of the lines, at all taps: as many lines as make up 1,000,000 crosspoints.
"""
import os
import sys
from pathlib import Path

sys.path.insert(0, os.path.join(os.path.dirname(os.path.abspath(__file__)), "../studies"))
import teramac_texts as texts

COUNTS = (4, 2, 4, 24, 64, 64, 64, 96, 96, 96, 96, 56)
CLOSED = 1_000_000


def image_bytes(machine, image):
    words = [*machine.counts, image.ticks, len(image.inputs), len(image.outputs), *image.inputs, *image.outputs, len(image.tables)]
    parts = [b"TERAIMG1"] + [word.to_bytes(2, "big") for word in words]
    for table, latched, initial, cells in image.tables:
        parts.append(table.to_bytes(2, "big") + bytes([latched + 2 * initial]) + cells.to_bytes(8, "big"))
    return b"".join(parts + [number.to_bytes(4, "big") for number in [len(image.crosses), *image.crosses]])


def main():
    if len(sys.argv) != 2:
        sys.exit(__doc__)
    folder = Path(sys.argv[1])
    folder.mkdir(parents=True, exist_ok=True)
    machine = texts.Machine(COUNTS)
    by_line = [[(node, line) for line in node.lines[k : k + 1]] for k in range(96) for node in machine.nodes]
    closed = []
    for node, line in (place for places in by_line for place in places):
        closed += [machine.cross(tap, line) for tap in node.taps]
    image = texts.Image(1, [0], [1], [], sorted(closed[:CLOSED]))
    lists = {"none": texts.Defects(), "line": texts.Defects()}
    lists["line"]["wire"].add(machine.nodes[0].lines[0])
    (folder / "d.machine").write_text(machine.text)
    (folder / "d.image").write_bytes(image_bytes(machine, image))
    for name, found in lists.items():
        (folder / f"{name}.defects").write_text(texts.defects_text(machine, found))


if __name__ == "__main__":
    main()
