"""A machine as synthesizable Verilog, one flip-flop a crosspoint.

A wire that is pulled to 0 hands this on over closed crosspoints in both directions, one step a clock: a tick begins from
nothing and has settled when no wire changes, so no gates form a loop. With stuck wires two more planes carry "stuck at 0" and
"stuck at 1" in the same way. verilog/device.v answers requests with it, and verilog/board.v puts that on a serial line.
"""

from machine import INPUTS, OUTPUT
from lines import pin_digits

FIRST_LINES = """module machine(
  input clk,
  // what is set
  input clear, input set_cross, input is_closed,
  input [`NODE_BITS-1:0] node, input [`ROW_BITS-1:0] row, input [`COLUMN_BITS-1:0] column,
  input set_table, input switch_off, input [`TABLE_BITS-1:0] number, input [63:0] cells, input [1:0] flags,
  // a session
  input load, input begin_cycle, input [`PINS-1:0] driven, input flush, input flood, input tick, input clock_edge,
  output steady, output [`PINS-1:0] read,
  // where the crosspoints of a node lie
  output reg [`CROSS_BITS-1:0] lines_of, output reg [`CROSS_BITS-1:0] first_of, output reg [`CROSS_BITS-1:0] end_of);
  reg [`PINS-1:0] drive = {`PINS{1'b1}};
  always @(posedge clk) if (begin_cycle) drive <= driven;"""

TABLE_RULES = """  reg [`TABLES-1:0] on = 0, latched = 0, initial_bit = 0, out = 0;
  wire [`TABLES-1:0] found;
  wire [`TABLES-1:0] stays = latched & HELD;
  wire [`TABLES-1:0] ticked = on & ~latched, clocked = on & latched & ~HELD;
  always @(posedge clk) begin
    if (clear) on <= 0;
    else if (set_table) begin on[number] <= 1; latched[number] <= flags[0]; initial_bit[number] <= flags[1]; end
    else if (switch_off) on[number] <= 0;
    if (load) out <= (stays & HELD_AT) | (~stays & initial_bit);
    else if (tick) out <= (out & ~ticked) | (found & ticked);
    else if (clock_edge) out <= (out & ~clocked) | (found & clocked);
  end"""


def bits(width, ones):
    return f"{width}'h{sum(1 << k for k in ones):x}"


def bits_for(many):
    """So many bits number that many things."""
    return max(1, (many - 1).bit_length())


def joined(name, wires):
    """The bits of these wires, the first one lowest."""
    return "{" + ", ".join(f"{name}[{wire}]" for wire in reversed(wires)) + "}"


def header(machine):
    counts = f" {machine.counts_text}"
    numbers = {
        "PINS": len(machine.pins),
        "DIGITS": pin_digits(len(machine.pins)),
        "TABLES": len(machine.tables),
        "CROSSES": len(machine.crosses),
        "MOST_LOADS": machine.most_loads,
        "COUNTS": f'"{counts}"',
        "COUNTS_BYTES": len(counts),
        "NODE_BITS": bits_for(len(machine.nodes)),
        "ROW_BITS": bits_for(max(len(node.taps) for node in machine.nodes)),
        "COLUMN_BITS": bits_for(max(len(node.lines) for node in machine.nodes)),
        "TABLE_BITS": bits_for(len(machine.tables)),
        "CROSS_BITS": bits_for(len(machine.crosses) + 1),
    }
    return [f"`define {name} {number}" for name, number in numbers.items()] + [FIRST_LINES]


class Planes:
    """What is handed on from wire to wire, plane by plane, and what hands it on."""

    def __init__(self, machine, faults):
        self._machine, self._faults = machine, faults
        self._names = ["low", "zero", "one"] if faults.stuck else ["low"]

    def registers(self):
        many = len(self._machine.wires)
        for name in self._names:
            yield f"  reg [{many - 1}:0] {name} = 0;"
            yield f"  wire [{many - 1}:0] {name}_reached, {name}_begun;"
        level = "~zero & (one | ~low)" if self._faults.stuck else "~low"
        yield f"  wire [{many - 1}:0] level = {level};"
        steady = " && ".join(f"({name} | {name}_reached | {name}_begun) == {name}" for name in self._names)
        yield f"  assign steady = {steady};"
        for name in self._names:
            flooded = f"{name} | {name}_reached | {name}_begun"
            yield f"  always @(posedge clk) if (flush) {name} <= 0; else if (flood) {name} <= {flooded};"

    def crossbars(self):
        for at, node in enumerate(self._machine.nodes):
            taps, lines = len(node.taps), len(node.lines)
            for name in self._names:
                yield f"  wire [{taps - 1}:0] {name}_taps{at}; wire [{lines - 1}:0] {name}_lines{at};"
            stuck = [self._stuck(node, conducts) for conducts in (False, True)]
            yield (
                f"  crossbar #({len(self._names)}, {taps}, {lines}, {', '.join(stuck)}) crossbar{at}("
                f"clk, clear, set_cross && node == {at}, row, column, is_closed, {', '.join(self._ends(at, node))});"
            )

    def _stuck(self, node, conducts):
        ones = [cross - node.first for cross in self._faults.crosses_stuck(conducts) if cross in node.crosses]
        return bits(len(node.taps) * len(node.lines), ones)

    def _ends(self, at, node):
        """What a crossbar gets and gives: of each plane the taps, of each the lines, and what it hands on to both."""
        names = self._names[::-1]
        yield "{" + ", ".join(joined(name, node.taps) for name in names) + "}"
        yield "{" + ", ".join(joined(name, node.lines) for name in names) + "}"
        yield "{" + ", ".join(f"{name}_taps{at}" for name in names) + "}"
        yield "{" + ", ".join(f"{name}_lines{at}" for name in names) + "}"

    def reached(self):
        """What hands on to each wire: its crossbars and its bridges."""
        from_crossbars = {}
        for at, node in enumerate(self._machine.nodes):
            for kind, wires in (("taps", node.taps), ("lines", node.lines)):
                for k, wire in enumerate(wires):
                    from_crossbars.setdefault(wire, []).append(f"{kind}{at}[{k}]")
        bridged = {}
        for first, second in self._faults.bridges:
            bridged.setdefault(first, []).append(second)
            bridged.setdefault(second, []).append(first)
        for name in self._names:
            for wire in range(len(self._machine.wires)):
                sources = [f"{name}_{source}" for source in from_crossbars[wire]]
                sources += [f"{name}[{other}]" for other in bridged.get(wire, [])]
                yield f"  assign {name}_reached[{wire}] = {' | '.join(sources)};"

    def begun(self):
        """Where each plane begins: at pins and tables that give 0, and at stuck wires."""
        pulls = {wire: f"!drive[{pin}]" for pin, wire in enumerate(self._machine.pins)}
        pulls.update({pins[OUTPUT]: f"on[{table}] && !out[{table}]" for table, pins in enumerate(self._machine.tables)})
        for name in self._names:
            stuck = self._faults.wires_stuck(int(name == "one"))
            for wire in range(len(self._machine.wires)):
                begins = pulls.get(wire, "0") if name == "low" else str(int(wire in stuck))
                yield f"  assign {name}_begun[{wire}] = {begins};"


def tables(machine, faults):
    many = len(machine.tables)
    yield f"  localparam [{many - 1}:0] HELD = {bits(many, faults.registers)};"
    yield f"  localparam [{many - 1}:0] HELD_AT = {bits(many, [table for table, value in faults.registers.items() if value])};"
    yield TABLE_RULES
    for at, pins in enumerate(machine.tables):
        wrong, ones = faults.wrong_cells(at)
        ports = f"clk, set_table && number == {at}, cells, {joined('level', pins[:INPUTS])}, found[{at}]"
        yield f"  look_up #(64'h{wrong:x}, 64'h{ones:x}) table{at}({ports});"
    yield f"  assign read = {joined('level', machine.pins)};"


def places(machine):
    yield "  always_comb case (node)"
    for at, node in enumerate(machine.nodes):
        yield f"    {at}: begin lines_of = {len(node.lines)}; first_of = {node.first}; end_of = {node.crosses.stop}; end"
    yield "    default: begin lines_of = 1; first_of = 0; end_of = `CROSSES; end"
    yield "  endcase"


def verilog(machine, faults):
    planes = Planes(machine, faults)
    lines = header(machine)
    for part in (planes.registers(), tables(machine, faults), planes.crossbars()):
        lines += part
    for part in (planes.reached(), planes.begun(), places(machine)):
        lines += part
    return "\n".join([*lines, "endmodule"]) + "\n"
