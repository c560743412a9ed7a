#!/usr/bin/env python3
"""Makes machines, lists of defects and designs for `teramac compile` and `teramac run`.

usage: route.py FOLDER shift|chain|local|large|blocks|mixed|grid|counters|systolic|bench [PERCENT]

FOLDER gets d.machine, d.defects, d.blif, d.vec and an empty file `none`, the faults of a sound machine.

shift  A shift register of 1,920 latches on 32 hextants of 60 tables each.
local  1,536 covers of four inputs each, which read one of the 10 signals before them, on 32
       hextants of 48 tables each.
large  The same of 1,920 covers, on 16 hextants of 120 tables each.
blocks 1,280 such covers, shuffled within each 80 of them, on 32 hextants of 40 tables each.
mixed  512 such covers, shuffled all together, on 32 hextants of 16 tables each.
chain  A shift register of 768 latches, which stand shuffled, on 32 hextants of 24 tables each.
grid   38 rows of 38 covers each, row by row, which read the cover above and the one before, on 16 hextants of 91 tables each.
counters  16 counters of 16 bits each, all covers before all latches, on 32 hextants of 24 tables each.
systolic  12 rows of 12 cells of a cover and three latches each, which hand values on to the right and down, all covers
       before all latches, on 32 hextants of 18 tables each.
bench  A shift register of 16 latches with the parity of its bits, on the machine that
       `bench` of the generator stands for (128 tables), with 100,000 vectors.

The list has PERCENT of the crosspoints of the tables' pins, drawn at random; none where it isn't given.
"""
import random
import sys
from pathlib import Path

# modules, chips, hextants, tables, ports, lines, pins
MACHINES = {
    "shift": (2, 4, 4, 60, (4, 4, 4), (6, 6, 8, 64), 8),
    "local": (2, 4, 4, 48, (24, 24, 24), (64, 64, 64, 80), 28),
    "large": (2, 2, 4, 120, (20, 20, 20), (32, 48, 48, 132), 20),
    "blocks": (2, 4, 4, 40, (20, 20, 85), (32, 52, 162, 88), 20),
    "mixed": (2, 4, 4, 16, (464, 260, 80), (464, 496, 260, 80), 20),
    "chain": (2, 4, 4, 24, (400, 184, 48), (400, 552, 192, 64), 2),
    "grid": (2, 2, 4, 91, (40, 80, 80), (48, 80, 192, 136), 2),
    "counters": (2, 4, 4, 24, (400, 192, 48), (404, 520, 192, 48), 18),
    "systolic": (2, 4, 4, 18, (404, 288, 72), (412, 580, 288, 72), 36),
    "bench": (2, 2, 4, 8, (24, 24, 24), (32, 32, 32, 32), 28),
}


def machine_text(counts):
    modules, chips, hextants, tables, ports, lines, pins = counts
    return "\n".join([
        "teramac 1",
        f"modules {modules}",
        f"chips {chips}",
        f"hextants {hextants}",
        f"tables {tables}",
        "ports " + " ".join(map(str, ports)),
        "lines " + " ".join(map(str, lines)),
        f"pins {pins}",
        "end",
    ]) + "\n"


def defects_text(counts, percent):
    modules, chips, hextants, tables, ports, lines, pins = counts
    head = ["defects 1", "shape " + " ".join(map(str, (modules, chips, hextants, tables, *ports, *lines, pins)))]
    draw = random.Random(1)
    entries = []
    if percent:
        for module in range(modules):
            for chip in range(chips):
                for hextant in range(hextants):
                    node = f"m{module}.c{chip}.h{hextant}"
                    for table in range(tables):
                        for pin in [f"i{k}" for k in range(6)] + ["q"]:
                            for line in range(lines[3]):
                                if draw.randrange(100) < percent:
                                    entries.append(f"cross {node}.t{table}.{pin} {node}.l{line}")
    return "\n".join(head + entries + ["end"]) + "\n"


def shuffled_in_blocks(count, size):
    """The numbers below a count, each within the block of its size where it was."""
    draw = random.Random(1)
    numbers = []
    for first in range(0, count, size):
        block = list(range(first, min(first + size, count)))
        draw.shuffle(block)
        numbers += block
    return numbers


def shift_text(latches, block=1):
    lines = [".model s", ".inputs a", f".outputs q{latches - 1}"]
    for k in shuffled_in_blocks(latches, block):
        before = f"q{k - 1}" if k else "a"
        lines.append(f".latch {before} q{k} 0")
    return "\n".join(lines + [".end"]) + "\n"


def local_text(covers, width, block=1):
    draw = random.Random(1)
    names = [f"a{k}" for k in range(width)]
    lines = [".model l", ".inputs " + " ".join(names)]
    lines.append(".outputs " + " ".join(f"n{covers - 1 - k}" for k in range(width)))
    texts = []
    for k in range(covers):
        ins = draw.sample(names[-width:], 4)
        rows = [format(row, "04b") + " 1" for row in sorted(draw.sample(range(16), 8))]
        texts.append([f".names {' '.join(ins)} n{k}"] + rows)
        names.append(f"n{k}")
    for k in shuffled_in_blocks(covers, block):
        lines += texts[k]
    return "\n".join(lines + [".end"]) + "\n"


def grid_text(rows, columns):
    lines = [".model g", ".inputs a", f".outputs n{rows - 1}_{columns - 1}"]
    for i in range(rows):
        for j in range(columns):
            ins = [f"n{i - 1}_{j}"] * (i > 0) + [f"n{i}_{j - 1}"] * (j > 0) or ["a"]
            lines.append(f".names {' '.join(ins)} n{i}_{j}")
            lines += ["01 1", "10 1"] if len(ins) == 2 else ["1 1"]
    return "\n".join(lines + [".end"]) + "\n"


def counters_text(counters, bits):
    lines = [".model c", ".inputs e", ".outputs " + " ".join(f"y{k}_{bits - 1}" for k in range(counters))]
    for k in range(counters):
        for i in range(bits):
            carry = f"y{k}_{i - 1}" if i else "e"
            lines += [f".names q{k}_{i} {carry} d{k}_{i}", "01 1", "10 1"]
            lines += [f".names q{k}_{i} {carry} y{k}_{i}", "11 1", f".latch d{k}_{i} q{k}_{i} 0"]
    return "\n".join(lines + [".end"]) + "\n"


def systolic_text(rows, columns):
    lines = [".model y", ".inputs " + " ".join([f"x{i}" for i in range(rows)] + [f"y{j}" for j in range(columns)])]
    lines.append(".outputs " + " ".join(f"h{i}_{columns - 1}" for i in range(rows)))
    for i in range(rows):
        for j in range(columns):
            left = f"h{i}_{j - 1}" if j else f"x{i}"
            top = f"v{i - 1}_{j}" if i else f"y{j}"
            lines += [f".names {left} {top} z{i}_{j} d{i}_{j}", "110 1", "0-1 1", "-01 1", f".latch d{i}_{j} z{i}_{j} 0"]
            lines += [f".latch {left} h{i}_{j} 0", f".latch {top} v{i}_{j} 0"]
    return "\n".join(lines + [".end"]) + "\n"


def parity_text(latches):
    lines = shift_text(latches).splitlines()
    lines[2] = ".outputs p"
    ins = [f"q{k}" for k in range(latches)]
    groups = [ins[k:k + 4] for k in range(0, latches, 4)]
    for k, group in enumerate(groups + [[f"x{k}" for k in range(len(groups))]]):
        out = "p" if k == len(groups) else f"x{k}"
        lines.insert(-1, f".names {' '.join(group)} {out}")
        lines[-1:-1] = [format(row, f"0{len(group)}b") + " 1" for row in range(1 << len(group)) if bin(row).count("1") % 2]
    return "\n".join(lines) + "\n"


def main():
    folder, kind = Path(sys.argv[1]), sys.argv[2]
    percent = int(sys.argv[3]) if len(sys.argv) > 3 else 0
    counts = MACHINES[kind]
    text, inputs, vectors = {
        "shift": lambda: (shift_text(1920), 1, 4000),
        "local": lambda: (local_text(1536, 10), 10, 100),
        "large": lambda: (local_text(1920, 10), 10, 100),
        "blocks": lambda: (local_text(1280, 10, 80), 10, 100),
        "mixed": lambda: (local_text(512, 10, 512), 10, 100),
        "chain": lambda: (shift_text(768, 768), 1, 1000),
        "grid": lambda: (grid_text(38, 38), 1, 100),
        "counters": lambda: (counters_text(16, 16), 1, 100),
        "systolic": lambda: (systolic_text(12, 12), 24, 100),
        "bench": lambda: (parity_text(16), 1, 100000),
    }[kind]()
    draw = random.Random(2)
    folder.mkdir(exist_ok=True)
    (folder / "d.machine").write_text(machine_text(counts))
    (folder / "d.defects").write_text(defects_text(counts, percent))
    (folder / "d.blif").write_text(text)
    (folder / "d.vec").write_text("".join("".join(draw.choice("01") for _ in range(inputs)) + "\n" for _ in range(vectors)))
    (folder / "none").write_text("")


main()
