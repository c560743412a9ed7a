"""A machine in Verilog at switch level, for Icarus: a `tranif1` for each crosspoint.

Strengths carry the rule for a wire's value: stuck at 0 is strong, stuck at 1 is pull, a pin or a table that gives 0 is
weak, and what nothing pulls floats, which is read as 1. verilog/switch_port.v answers requests with it.

A simulator looks at every switch whenever a pin changes. So where no table is on, four cycles are made at once: in the second
pins pull to a weak 1, in the last two to a medium 0 and 1. What the first and the second pull is a weak x, and so on.
"""

from machine import INPUTS, OUTPUT

WEAK = "assign (weak0, highz1)"


def header(machine):
    return f"""`define PINS {len(machine.pins)}
`define TABLES {len(machine.tables)}
`define CROSSES {len(machine.crosses)}
`define COUNTS "{machine.counts_text}"
`define MOST_LOADS {machine.most_loads}
module machine(input load, input tick, input clock_edge, input [4*`PINS-1:0] pull, output [4*`PINS-1:0] read, output [`PINS-1:0] hidden);
  // what is set: the port writes these
  reg [`TABLES-1:0] on;
  reg [63:0] cells [0:`TABLES-1];
  reg [1:0] flags [0:`TABLES-1];"""


def row(at, tap):
    """The register that holds the crosspoints of one tap of the node of this number."""
    return f"closed{at}_{tap}"


def choice(rows, depth):
    """Statements that write the crosspoint of number x, whose row is found by halving."""
    indent, half = "  " * depth, len(rows) // 2
    if not half:
        return [f"{indent}{rows[0][1]}[x - {rows[0][0]}] = is_closed;"]
    return [f"{indent}if (x < {rows[half][0]})", *choice(rows[:half], depth + 1), f"{indent}else", *choice(rows[half:], depth + 1)]


def setting(machine):
    """The registers of crosspoints, and the tasks that write them."""
    registers, rows = [], []
    for at, node in enumerate(machine.nodes):
        width = len(node.lines)
        rows += [(node.first + tap * width, row(at, tap)) for tap in range(len(node.taps))]
        registers += [f"  reg [{width - 1}:0] {row(at, tap)} = 0;" for tap in range(len(node.taps))]
    opening = " ".join(f"{name} = 0;" for _, name in rows)
    return [
        *registers,
        "  task set(input integer x, input is_closed);",
        *choice(rows, 2),
        "  endtask",
        f"  task open_all; begin {opening} end endtask",
    ]


def switches(machine, faults):
    """A switch for each crosspoint that isn't stuck, a plain joint for one that is stuck closed."""
    for at, node in enumerate(machine.nodes):
        for cross in node.crosses:
            tap, line = divmod(cross - node.first, len(node.lines))
            ends = ", ".join(f"wire{wire}" for wire in machine.crosses[cross])
            if cross not in faults.crosses:
                yield f"  tranif1({ends}, {row(at, tap)}[{line}]);"
            elif faults.crosses[cross]:
                yield f"  tran({ends});"


def wires(machine, faults):
    """The wires, what pulls them but for tables, and what pins read."""
    yield from (f"  wire wire{wire}; // {name}" for wire, name in enumerate(machine.wires))
    yield from (f"  tran(wire{first}, wire{second});" for first, second in faults.bridges)
    for wire, value in sorted(faults.stuck.items()):
        strengths = "(highz0, pull1)" if value else "(strong0, highz1)"
        yield f"  assign {strengths} wire{wire} = {value};"
    for pin, wire in enumerate(machine.pins):
        ways = ", ".join(f"{{{', '.join(f'{name}[{k} * `PINS + {pin}]' for k in range(3, -1, -1))}}}" for name in ("pull", "read"))
        yield f"  switch_pin pin{pin}(wire{wire}, {ways}, hidden[{pin}]);"


def tables(machine, faults):
    for at, pins in enumerate(machine.tables):
        wrong, ones = faults.wrong_cells(at)
        held = faults.registers.get(at)
        inputs = ", ".join(f"wire{wire} !== 0" for wire in reversed(pins[:INPUTS]))
        yield f"  wire out{at};"
        yield f"  {WEAK} wire{pins[OUTPUT]} = out{at};"
        yield (
            f"  switch_table #(64'h{wrong:x}, 64'h{ones:x}, {int(held is not None)}, {held or 0})"
            f" table{at}({{{inputs}}}, out{at}, on[{at}], cells[{at}], flags[{at}], load, tick, clock_edge);"
        )


def verilog(machine, faults):
    parts = [wires(machine, faults), setting(machine), switches(machine, faults), tables(machine, faults)]
    return "\n".join([header(machine), *(line for part in parts for line in part), "endmodule"]) + "\n"
