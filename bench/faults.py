"""Writes a machine of 512 tables, 200 faults of all kinds, a shift register of 100 latches and 1,000 vectors to a folder:
python3 faults.py FOLDER.
"""
import os
import random
import sys

MODULES, CHIPS, HEXTANTS, TABLES, PORTS, LINES = 2, 4, 4, 16, 32, 48
LATCHES, VECTORS = 100, 1000

MACHINE = f"""teramac 1
modules {MODULES}
chips {CHIPS}
hextants {HEXTANTS}
tables {TABLES}
ports {PORTS} {PORTS} {PORTS}
lines {LINES} {LINES} {LINES} {LINES}
pins 40
end
"""


def below(count):
    return random.randrange(count)


def hextant():
    return f"m{below(MODULES)}.c{below(CHIPS)}.h{below(HEXTANTS)}"


def line(node):
    return f"{node}.l{below(LINES)}"


def pin(node):
    return f"{node}.t{below(TABLES)}.i{below(6)}"


def stuck():
    node = hextant()
    wire = random.choice([line(node), pin(node), f"{node}.o{below(PORTS)}"])
    return wire, f"stuck{below(2)} {wire}"


def opened():
    node = hextant()
    ends = f"{pin(node)} {line(node)}"
    return ends, f"open {ends}"


def closed():
    node = hextant()
    ends = f"{node}.t{below(TABLES)}.q {line(node)}"
    return ends, f"closed {ends}"


def bridge():
    node, first = hextant(), below(LINES - 1)
    ends = f"{node}.l{first} {node}.l{first + 1}"
    return ends, f"bridge {ends}"


def cell():
    place = f"{hextant()}.t{below(TABLES)} {below(64)}"
    return place, f"cell {place} {below(2)}"


def register():
    table = f"{hextant()}.t{below(TABLES)}"
    return "register " + table, f"register {table} {below(2)}"


def faults():
    found = {}
    for count, kind in [(60, stuck), (60, opened), (20, closed), (20, bridge), (30, cell), (10, register)]:
        wanted = len(found) + count
        while len(found) < wanted:
            place, text = kind()
            found.setdefault(place, text)
    return "\n".join(found.values()) + "\n"


def design():
    lines, last = [".model s", ".inputs a b", ".outputs y"], "a"
    for k in range(LATCHES):
        if k % 5 == 0:
            lines += [f".names {last} b x{k}", "10 1", "01 1"]
            last = f"x{k}"
        lines.append(f".latch {last} q{k} 0")
        last = f"q{k}"
    return "\n".join(lines + [f".names {last} y", "1 1", ".end"]) + "\n"


def vectors():
    return "".join(f"{below(2)}{below(2)}\n" for _ in range(VECTORS))


def main():
    random.seed(3)
    os.makedirs(sys.argv[1], exist_ok=True)
    for name, text in [("d.machine", MACHINE), ("d.faults", faults()), ("d.blif", design()), ("d.vec", vectors())]:
        with open(os.path.join(sys.argv[1], name), "w") as file:
            file.write(text)


main()
