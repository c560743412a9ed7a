"""A machine as arrays in C, the `board.h` of c/port.c."""

from itertools import accumulate


def array(kind, name, values, size=""):
    return f"static const {kind} {name}[{size}] = {{{', '.join(map(str, values))}}};"


def header(machine, faults):
    """The numbers and arrays that c/host.h wants, and it."""
    wires, tables, nodes = range(len(machine.wires)), range(len(machine.tables)), machine.nodes
    held = sorted(faults.crosses.items())
    numbers = {
        "PINS": len(machine.pins),
        "CROSSES": len(machine.crosses),
        "TABLES": len(tables),
        "WIRES": len(wires),
        "NODES": len(nodes),
        "MOST_TICKS": machine.most_ticks,
        "MOST_LOADS": machine.most_loads,
        "COUNTS": f'"{machine.counts_text}"',
    }
    cells = [faults.wrong_cells(table) for table in tables]
    lines = [f"#define {name} {number}" for name, number in numbers.items()] + ["enum { OPEN = 1, CLOSED };"]
    lines += [
        array("int", "tap", (tap for node in nodes for tap in node.taps)),
        array("int", "end_of_taps", accumulate(len(node.taps) for node in nodes)),
        array("int", "first_line", (node.lines.start for node in nodes)),
        array("int", "end_of_lines", (node.lines.stop for node in nodes)),
        array("int", "leg", (wire for pins in machine.tables for wire in pins)),
        array("int", "pin", machine.pins),
        array("int", "stuck", (faults.stuck.get(wire, 2) for wire in wires)),
        array("int", "bridge", [wire for pair in faults.bridges for wire in pair] + [-1]),
        array("char", "fixed", (f"[{cross}] = {'CLOSED' if conducts else 'OPEN'}" for cross, conducts in held) if held else [0], "CROSSES"),
        array("unsigned long long", "wrong", (f"0x{wrong:x}" for wrong, _ in cells)),
        array("unsigned long long", "ones", (f"0x{ones:x}" for _, ones in cells)),
        array("signed char", "held", (faults.registers.get(table, -1) for table in tables)),
        '#include "host.h"',
    ]
    return "\n".join(lines) + "\n"
