"""Writes a machine, an image and vectors into a folder: `ring.py FOLDER [VECTORS]`.

On the generator's machine all 128 tables are on, with 4,096 ticks. Table 0 gives the opposite of what it reads and the others
what they read; table 0 reads table 1 and table 1 reads table 0, so these two swing, and the others rest.
"""

import pathlib
import struct
import sys

MODULES, CHIPS, HEXTANTS, TABLES = 2, 2, 4, 8
PORTS = (24, 24, 24)
LINES = (32, 32, 32, 32)
PINS = 28
TICKS = 4096


def crosspoints():
    """The four crosspoints of the ring, in the first hextant: those above it come before."""
    root = (PINS + MODULES * PORTS[0]) * LINES[0]
    module = (PORTS[0] + CHIPS * PORTS[1]) * LINES[1]
    chip = (PORTS[1] + HEXTANTS * PORTS[2]) * LINES[2]
    first = root + module + chip

    def cross(table, pin, line):
        return first + LINES[3] * (PORTS[2] + 7 * table + pin) + line

    return sorted([cross(0, 6, 0), cross(1, 0, 0), cross(1, 6, 1), cross(0, 0, 1)])


def image():
    counts = (MODULES, CHIPS, HEXTANTS, TABLES, *PORTS, *LINES, PINS)
    tables = MODULES * CHIPS * HEXTANTS * TABLES
    text = b"TERAIMG1" + struct.pack(">12H", *counts)
    text += struct.pack(">3H", TICKS, 1, 1) + struct.pack(">2H", 0, 1)
    text += struct.pack(">H", tables)
    for table in range(tables):
        cells = 0x5555555555555555 if table == 0 else 0xAAAAAAAAAAAAAAAA
        text += struct.pack(">HBQ", table, 0, cells)
    closed = crosspoints()
    return text + struct.pack(">I", len(closed)) + b"".join(struct.pack(">I", c) for c in closed)


def main():
    folder = pathlib.Path(sys.argv[1])
    vectors = int(sys.argv[2]) if len(sys.argv) > 2 else 6000
    (folder / "ring.image").write_bytes(image())
    (folder / "ring.vec").write_text("1\n" * vectors)
    (folder / "none.faults").write_text("")
    (folder / "ring.machine").write_text(
        f"teramac 1\nmodules {MODULES}\nchips {CHIPS}\nhextants {HEXTANTS}\ntables {TABLES}\n"
        f"ports {' '.join(map(str, PORTS))}\nlines {' '.join(map(str, LINES))}\npins {PINS}\nend\n"
    )


main()
