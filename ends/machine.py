"""A machine's parts with their names and numbers, and its faults, as docs/FORMATS.md has them."""

import re
from bisect import bisect
from collections.abc import Sequence
from dataclasses import dataclass, field

WORDS = {"teramac": 1, "modules": 1, "chips": 1, "hextants": 1, "tables": 1, "ports": 3, "lines": 4, "pins": 1, "end": 0}
FAULT_WORDS = {"stuck0": 1, "stuck1": 1, "open": 2, "closed": 2, "bridge": 2, "cell": 3, "register": 2}
TABLE_PINS = ("i0", "i1", "i2", "i3", "i4", "i5", "q")
INPUTS, OUTPUT = 6, 6  # of a table's seven pins the first six are inputs, and the one behind them is the output
SMALL, LARGE = (4_096, 16_384, 4_194_304), (65_536, 1_310_720, 268_435_456)  # most tables, wires and crosspoints
LARGE_PINS = 8_192  # most pins of a machine that isn't small


class Refused(Exception):
    """A text that isn't in its grammar, or a machine that an end can't have."""


@dataclass
class Node:
    """A node's crossbar: its taps and lines by their wires, and the number of its first crosspoint."""

    taps: list
    lines: range
    first: int = 0

    @property
    def crosses(self):
        return range(self.first, self.first + len(self.taps) * len(self.lines))


class Crosses(Sequence):
    """The crosspoints of nodes by their numbers, each its tap and its line. They aren't kept: a large machine has many."""

    def __init__(self, nodes):
        self._nodes, self._firsts, self._count = nodes, [], 0
        for node in nodes:
            node.first = self._count
            self._firsts.append(node.first)
            self._count = node.crosses.stop
        self._of_line = {line: node for node in nodes for line in node.lines}
        self._rows = {}  # of a node, by its first crosspoint: the places of its taps

    def __len__(self):
        return self._count

    def __getitem__(self, number):
        if not 0 <= number < self._count:
            raise IndexError(number)
        node = self._nodes[bisect(self._firsts, number) - 1]
        tap, line = divmod(number - node.first, len(node.lines))
        return node.taps[tap], node.lines[line]

    def number(self, tap, line):
        """The crosspoint of a tap and a line; a `KeyError` where they have none."""
        node = self._of_line[line]
        if node.first not in self._rows:
            self._rows[node.first] = {wire: place for place, wire in enumerate(node.taps)}
        return node.first + self._rows[node.first][tap] * len(node.lines) + line - node.lines.start


class Machine:
    """All parts of a machine of these twelve counts, each at its number."""

    def __init__(self, counts):
        self.counts = tuple(counts)
        modules, chips, hextants, self._tables, *rest = self.counts
        self._children = [(modules, "m"), (chips, ".c"), (hextants, ".h"), (0, "")]
        self._ports = [rest[7], *rest[:3]]  # the pins are what the root has for ports
        self._lines = rest[3:7]
        self.wires, self.nodes, self.tables, self.table_names = [], [], [], []
        self.pins = self._add_node(0, "r")
        self.crosses = Crosses(self.nodes)

    def _add_wires(self, names):
        first = len(self.wires)
        self.wires += names
        return range(first, len(self.wires))

    def _add_node(self, level, name):
        """Adds a node and all below it, in the order of their numbers, and gives its ports."""
        letter = "o" if level else "p"
        ports = self._add_wires(f"{name}.{letter}{k}" for k in range(self._ports[level]))
        lines = self._add_wires(f"{name}.l{k}" for k in range(self._lines[level]))
        taps = list(ports)
        self.nodes.append(Node(taps, lines))
        for k in range(self._tables if level == 3 else 0):
            taps += self._add_table(f"{name}.t{k}")
        children, letter = self._children[level]
        for k in range(children):
            taps += self._add_node(level + 1, f"{name if level else ''}{letter}{k}")
        return ports

    def _add_table(self, name):
        pins = self._add_wires(f"{name}.{pin}" for pin in TABLE_PINS)
        self.tables.append(pins)
        self.table_names.append(name)
        return pins

    @property
    def most_loads(self):
        """So many loads a diagnosis takes at most where nothing is wrong; with faults hardly more."""
        return most_loads_of(self.counts)

    @property
    def most_ticks(self):
        """So many ticks a cycle may have."""
        return 4_096 if is_small(self.counts) else 65_535

    @property
    def counts_text(self):
        return " ".join(map(str, self.counts))


def sizes_of(counts):
    """How many tables, wires and crosspoints a machine of these twelve counts has."""
    modules, chips, hextants, tables, *ports, root, module, chip, hextant, pins = counts
    above, wires, crosses, nodes = pins, 0, 0, 1
    parts = ((root, modules, ports[0]), (module, chips, ports[1]), (chip, hextants, ports[2]), (hextant, tables, len(TABLE_PINS)))
    for lines, children, below in parts:
        wires += nodes * (above + lines)
        crosses += nodes * lines * (above + children * below)
        above, nodes = below, nodes * children
    return nodes, wires + nodes * len(TABLE_PINS), crosses


def most_loads_of(counts):
    """So many loads a diagnosis takes at most: twice the crosspoints, three times the wires and 130 times the tables."""
    tables, wires, crosses = sizes_of(counts)
    return 2 * crosses + 3 * wires + 130 * tables


def is_small(counts):
    return all(count <= most for count, most in zip(sizes_of(counts), SMALL))


def are_within_limits(counts):
    """Whether there may be a machine of these counts."""
    return is_small(counts) or counts[-1] <= LARGE_PINS and all(count <= most for count, most in zip(sizes_of(counts), LARGE))


@dataclass
class Faults:
    """What is wrong with a machine: wires, crosspoints and tables by their numbers."""

    stuck: dict = field(default_factory=dict)  # of a wire its value
    crosses: dict = field(default_factory=dict)  # of a crosspoint whether it always conducts
    bridges: dict = field(default_factory=dict)  # pairs of wires, the lower first
    cells: dict = field(default_factory=dict)  # of a table and an address the value
    registers: dict = field(default_factory=dict)  # of a table the value

    def wires_stuck(self, value):
        return {wire for wire, held in self.stuck.items() if held == value}

    def crosses_stuck(self, conducts):
        return {cross for cross, held in self.crosses.items() if held == conducts}

    def wrong_cells(self, table):
        """Two numbers of 64 bits: which cells of the table are wrong, and what these give."""
        wrong = {address: value for (held, address), value in self.cells.items() if held == table}
        return sum(1 << address for address in wrong), sum(value << address for address, value in wrong.items())


def lines_of(text):
    """The lines that have words, each with its number: comments begin at `#`."""
    for number, line in enumerate(text.split("\n"), 1):
        words = line.split("#", 1)[0].split()
        if words:
            yield number, words


def numeral(word, least, most):
    """The number that a word spells without leading zeros; a `KeyError` where it spells none from least to most."""
    if not re.fullmatch("0|[1-9][0-9]{0,9}", word) or not least <= int(word) <= most:
        raise KeyError(word)
    return int(word)


def read_machine(text):
    """The machine of a text of nine lines. The first says whether it may be larger than a small one."""
    lines = list(lines_of(text))
    values = {}
    for (number, words), due in zip(lines, WORDS):
        try:
            if words[0] != due or len(words) != WORDS[due] + 1:
                raise KeyError(due)
            values[due] = [numeral(word, 1, 65_535) for word in words[1:]]
        except KeyError as wrong:
            raise Refused(f"machine, line {number}: {wrong}") from None
    if len(lines) != len(WORDS) or values["teramac"] not in ([1], [2]):
        raise Refused("machine: not the nine lines of version 1 or 2")
    counts = [values[word][0] for word in ("modules", "chips", "hextants", "tables")]
    counts += values["ports"] + values["lines"] + values["pins"]
    if not (is_small(counts) if values["teramac"] == [1] else are_within_limits(counts)):
        raise Refused("machine: too large")
    return Machine(counts)


class FaultReader:
    """The faults of a text, entry by entry."""

    def __init__(self, machine):
        self.faults = Faults()
        self._wires = {name: number for number, name in enumerate(machine.wires)}
        self._crosses = machine.crosses
        self._tables = {name: number for number, name in enumerate(machine.table_names)}

    def entry(self, kind, *words):
        """Adds the fault of these words; a `KeyError` where they name none."""
        if len(words) != FAULT_WORDS[kind]:
            raise KeyError(kind)
        self._add(*getattr(self, "_" + kind.rstrip("01"))(kind, *words))

    @staticmethod
    def _add(known, part, value):
        """A part has one fault of a kind: neither the same again nor another value."""
        if part in known:
            raise KeyError("doubled or against")
        known[part] = value

    def _stuck(self, kind, wire):
        return self.faults.stuck, self._wires[wire], int(kind[-1])

    def _open(self, kind, tap, line):
        return self.faults.crosses, self._crosses.number(self._wires[tap], self._wires[line]), kind == "closed"

    _closed = _open

    def _bridge(self, _, first, second):
        if first == second:
            raise KeyError("same")
        return self.faults.bridges, tuple(sorted((self._wires[first], self._wires[second]))), True

    def _cell(self, _, table, address, value):
        return self.faults.cells, (self._tables[table], numeral(address, 0, 63)), numeral(value, 0, 1)

    def _register(self, _, table, value):
        return self.faults.registers, self._tables[table], numeral(value, 0, 1)


def read_faults(machine, text):
    """The faults of a text: an entry a line, none in an empty one."""
    reader = FaultReader(machine)
    for number, (kind, *words) in lines_of(text):
        try:
            reader.entry(kind, *words)
        except KeyError as wrong:
            raise Refused(f"faults, line {number}: {wrong}") from None
    return reader.faults
