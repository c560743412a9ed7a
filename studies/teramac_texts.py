"""The texts of teramac: machines, faults, lists of defects and images, and what they say of each other.

Every reader takes bytes and raises `Refused` with the file, the line and the kind that the program gives; that of designs takes what
the program has taken. Every writer gives the one spelling that the program writes. What designs say is in `designs.py`.
"""

import os
import re
import socket
import sys
from bisect import bisect, bisect_left
from collections import namedtuple
from itertools import islice
from types import SimpleNamespace as Node

FILE_LIMIT = 16_777_216  # of a machine, an image or a design
LIMITED = ("tables", "wires", "crosspoints", "pins")
SMALL, LARGE = (4_096, 16_384, 4_194_304), (65_536, 1_310_720, 268_435_456, 8_192)  # how many of these a machine has at most
# What goes by the machine: ticks of an image, its closed crosspoints, those of one that is repaired, entries of a fault file, and bytes
# of one and of a list of defects.
Limits = namedtuple("Limits", "ticks closed repaired faults text")
SMALL_LIMITS = Limits(4_096, 1_048_576, 1_000_000, 65_536, 16_777_216)
LARGE_LIMITS = Limits(65_535, 3_670_016, 1_048_576, 16_777_216, 1_073_741_824)
PARTS = ("wire", "cross", "table")
LEVELS = ("root", "module", "chip", "hextant")
BLANK = str.maketrans("\t\r", "  ")
FORMS = {1: "defects 1", 2: "shape( [0-9]+){12}"}
ENTRY_FORM = "(wire|table|cross [^ ]+) [^ ]+|end"
FAULT_WORDS = {"stuck0": 2, "stuck1": 2, "open": 3, "closed": 3, "cell": 4, "register": 3, "bridge": 3}
AGAINST = {"stuck0": "stuck1", "stuck1": "stuck0", "open": "closed", "closed": "open"}
MACHINE_WORDS = {"teramac": 2, "modules": 2, "chips": 2, "hextants": 2, "tables": 2, "ports": 4, "lines": 5, "pins": 2, "end": 1}


class Refused(Exception):
    """A text that isn't in its grammar: which file, which line (of an image: which byte), what kind."""

    def __init__(self, file, line, kind):
        super().__init__(f"refused {file} {line} {kind}")


def numeral(word, most):
    """The number that a word spells without a leading zero, at most `most`; or None."""
    return int(word) if re.fullmatch("0|[1-9][0-9]{0,9}", word) and int(word) <= most else None


def lines_of(data, file, most=FILE_LIMIT):
    """The lines of a text of at most so many bytes without their ends, and what stands behind the last end."""
    if len(data) > most:
        raise Refused(file, 0, "limit")
    return data.decode("utf-8", "surrogateescape").split("\n")


def read_lines(data, file, take, most=FILE_LIMIT):
    """Gives `take` the words of each line that has some; refuses the first line that it says something wrong of."""
    for number, line in enumerate(lines_of(data, file, most), 1):
        line = line.split("#", 1)[0].translate(BLANK)
        words = [word for word in line.split(" ") if word]
        wrong = "byte" if re.search(r"[\x00-\x1f\x7f]", line) else words and take(words)
        if wrong:
            raise Refused(file, number, wrong)


class Machine:
    """Twelve counts, in the order of the line `shape`, and the numbers and names that follow from them, for each kind of parts."""

    def __init__(self, counts):
        self.counts = tuple(counts)
        self.limits = SMALL_LIMITS if is_small(self.counts) else LARGE_LIMITS
        m, c, h, self._tables, p1, p2, p3, l0, l1, l2, l3, n = self.counts
        self._levels = [(0, l0, m, "m"), (p1, l1, c, ".c"), (p2, l2, h, ".h"), (p3, l3, 0, "")]
        self.pins, self.names, self.nodes, self.table_pins = range(n), [f"r.p{k}" for k in range(n)], [], []
        self._add(0, "r")
        crosses = 0
        for node in self.nodes:
            node.first, crosses = crosses, crosses + len(node.taps) * len(node.lines)
        self._firsts = [node.first for node in self.nodes]
        self.table_names = [f"{node.name}.t{k}" for node in self.nodes for k in range(len(node.tables))]
        self.sizes = {"wire": len(self.names), "cross": crosses, "table": len(self.table_names)}
        self.numbers = {name: number for number, name in enumerate(self.names)}
        self.table_numbers = {name: number for number, name in enumerate(self.table_names)}
        self.lines = {wire: (node, k) for node in self.nodes for k, wire in enumerate(node.lines)}
        self._taps = {(node.name, wire): k for node in self.nodes for k, wire in enumerate(node.taps)}
        # Of each tap the nodes, from the root down, in whose crossbars it is one: of a port two.
        self.taps = {}
        for node in self.nodes:
            for wire in node.taps:
                self.taps.setdefault(wire, []).append(node)

    def _add(self, level, name):
        """Adds a node and all below it in the order of their numbers."""
        ports, lines, children, letter = self._levels[level]
        wires, tables = self.names, self._tables if level == 3 else 0
        at = len(wires)
        own, first = range(at, at + ports), len(self.table_pins)
        mine, taps = range(own.stop, own.stop + lines), list(own or self.pins)
        # A node of the tree with its crossbar; ports, lines, taps and tables by their numbers, later `first`, its first crosspoint.
        node = Node(level=level, name=name, ports=own, lines=mine, taps=taps, tables=range(first, first + tables))
        self.nodes.append(node)
        wires += [f"{name}.o{k}" for k in range(ports)] + [f"{name}.l{k}" for k in range(lines)]
        self.table_pins += [range(w, w + 7) for w in range(len(wires), len(wires) + 7 * tables, 7)]
        node.taps += range(len(wires), len(wires) + 7 * tables)
        wires += [f"{name}.t{k}.{pin}" for k in range(tables) for pin in ("i0", "i1", "i2", "i3", "i4", "i5", "q")]
        for k in range(children):
            node.taps += self._add(level + 1, f"{name if level else ''}{letter}{k}").ports
        return node

    @property
    def text(self):
        counts = iter((1 if is_small(self.counts) else 2, *self.counts))
        lines = [[word, *islice(counts, words - 1)] for word, words in MACHINE_WORDS.items()]
        return "".join(" ".join(map(str, line)) + "\n" for line in lines)

    def cross(self, tap, line):
        """The number of the crosspoint of two wires, or None."""
        node, b = self.lines.get(line, (None, 0))
        a = self._taps.get((node.name, tap)) if node else None
        return None if a is None else node.first + a * len(node.lines) + b

    def along(self, wire):
        """The crosspoints of a wire in the order in which it passes them."""
        if wire in self.lines:
            node, k = self.lines[wire]
            return range(node.first + k, node.first + len(node.taps) * len(node.lines), len(node.lines))
        rows = [node.first + len(node.lines) * self._taps[node.name, wire] for node in self.taps[wire]]
        return [cross for node, row in zip(self.taps[wire], rows) for cross in range(row, row + len(node.lines))]

    def node_of_cross(self, cross):
        return self.nodes[bisect(self._firsts, cross) - 1]

    def ends(self, cross):
        """The tap and the line of a crosspoint."""
        node = self.node_of_cross(cross)
        a, b = divmod(cross - node.first, len(node.lines))
        return node.taps[a], node.lines[b]

    def wires_of(self, kind, at):
        """The wires of a part: of a crosspoint its tap and line, of a table its pins."""
        return self.ends(at) if kind == "cross" else self.table_pins[at] if kind == "table" else (at,)

    def name(self, kind, at):
        return self.table_names[at] if kind == "table" else " ".join(self.names[wire] for wire in self.wires_of(kind, at))

    def number(self, kind, names):
        """The number of the part of these names, or None."""
        if kind == "table":
            return self.table_numbers.get(names[0])
        wires = [self.numbers.get(name) for name in names]
        return None if None in wires else self.cross(*wires) if kind == "cross" else wires[0]


def sizes_of(counts):
    """How many tables, wires and crosspoints these counts give."""
    m, c, h, t, p1, p2, p3, l0, l1, l2, l3, n = counts
    wires = n + l0 + m * (p1 + l1 + c * (p2 + l2 + h * (p3 + l3 + 7 * t)))
    crosses = (n + m * p1) * l0 + m * ((p1 + c * p2) * l1 + c * ((p2 + h * p3) * l2 + h * (p3 + 7 * t) * l3))
    return m * c * h * t, wires, crosses


def passed_limits(counts, limits):
    """Of which parts these counts give more than there may be: their name, how many, and how many there may be."""
    found = zip(LIMITED, (*sizes_of(counts), counts[11]), limits)
    return [(name, count, most) for name, count, most in found if count > most]


def is_small(counts):
    """Whether a machine of these counts is small, so that `teramac 1` may stand over it."""
    return not passed_limits(counts, SMALL)


def are_within_limits(counts):
    """Whether a machine may have these counts."""
    return is_small(counts) or not passed_limits(counts, LARGE)


def read_machine(data):
    """The machine of a text."""
    due, counts = list(MACHINE_WORDS), []

    def take(words):
        """Takes the line as the next one that is due, or says what is wrong with it."""
        if not due or words[0] != due[0]:
            return "after" if not due else "order" if words[0] in MACHINE_WORDS else "word"
        if len(words) != MACHINE_WORDS[words[0]] or (words[0] == "teramac" and words[1] not in ("1", "2")):
            return "word"
        found = [numeral(word, 65_535) for word in words[1:]]
        if not all(found):
            return "number"
        due.pop(0)
        counts.extend(found)
        is_taken = due or (is_small if counts[0] == 1 else are_within_limits)(counts[1:])
        return None if is_taken else "limit"

    read_lines(data, "machine", take)
    if due:
        raise Refused("machine", 0, "missing")
    return Machine(counts[1:])


class Faults(dict):
    """For each kind what has the fault, with a value: wires, crosspoints, (table, address), tables, pairs of wires."""

    def __init__(self):
        super().__init__({kind: {} for kind in FAULT_WORDS})

    @property
    def parts(self):
        """What is faulty by itself, for each kind of parts."""
        wires, crosses = self["stuck0"].keys() | self["stuck1"].keys(), self["open"].keys() | self["closed"].keys()
        return {"wire": wires, "cross": crosses, "table": {table for table, _ in self["cell"]} | self["register"].keys()}

    @property
    def count(self):
        return sum(map(len, self.values()))

    def add(self, kind, at, value=1):
        """Puts a fault in; the kind of the refusal where it stands there or against another, else None."""
        if at in self[kind] or at in self.get(AGAINST.get(kind), ()):
            return "doubled" if self[kind].get(at) == value else "against"
        self[kind][at] = value
        return None


def read_faults(machine, data):
    """The faults of a text on a machine."""
    faults = Faults()
    read_lines(data, "faults", lambda words: fault_entry(machine, words, faults), machine.limits.text)
    return faults


def fault_entry(machine, words, faults):
    """Puts the entry of a line in, or says what is wrong with it."""
    kind = words[0]
    if FAULT_WORDS.get(kind) != len(words):
        return "word"
    if kind in ("cell", "register"):
        table, value = machine.number("table", words[1:2]), numeral(words[-1], 1)
        address = numeral(words[2], 63) if kind == "cell" else 0
        if None in (table, value, address):
            return kind
        at = (table, address) if kind == "cell" else table
    else:
        value, wires = 1, [machine.numbers.get(word) for word in words[1:]]
        if None in wires:
            return "wire"
        at = tuple(sorted(wires)) if kind == "bridge" else machine.number("cross" if len(wires) == 2 else "wire", words[1:])
        if at is None:
            return "cross"
        if kind == "bridge" and wires[0] == wires[1]:
            return "same"
    return faults.add(kind, at, value) or ("limit" if faults.count > machine.limits.faults else None)


def faults_text(machine, faults):
    """The spelling that the program itself would write: by kind, then by number."""

    def words(kind, at, value):
        if kind in ("cell", "register"):
            table, *address = at if kind == "cell" else (at,)
            return [machine.table_names[table], *address, value]
        return [machine.names[wire] for wire in (at if kind == "bridge" else (at,))]

    def lines(kind):
        if kind in ("open", "closed"):
            return (f"{kind} {names}\n" for names in cross_names(machine, faults[kind]))
        found = ([kind, *words(kind, at, value)] for at, value in sorted(faults[kind].items()))
        return (" ".join(map(str, line)) + "\n" for line in found)

    return "".join(line for kind in FAULT_WORDS for line in lines(kind))


def cross_names(machine, crosses):
    """The names of crosspoints by their numbers, node by node, since there may be millions."""
    names, found = machine.names, sorted(crosses)
    for node in machine.nodes:
        width = len(node.lines)
        low, high = (bisect_left(found, node.first + past) for past in (0, len(node.taps) * width))
        for cross in found[low:high]:
            tap, line = divmod(cross - node.first, width)
            yield f"{names[node.taps[tap]]} {names[node.lines[line]]}"


def short_groups(machine, faults):
    """The sets of at least two wires that crosspoints stuck closed and bridges hold together."""
    return groups(list(faults["bridge"]) + [machine.ends(cross) for cross in faults["closed"]])


def groups(pairs):
    """The sets that pairs hold together, ascending by their least member."""
    of = {}
    for one, other in pairs:
        small, large = sorted((of.setdefault(one, [one]), of.setdefault(other, [other])), key=len)
        if small is not large:
            large += small
            of.update(dict.fromkeys(small, large))
    return sorted(map(sorted, {id(group): group for group in of.values()}.values()))


class Defects(dict):
    """A list of defects: for each kind of parts the numbers of those that it has."""

    def __init__(self):
        super().__init__({kind: set() for kind in PARTS})

    def is_free(self, machine, kind, at):
        return at not in self[kind] and self["wire"].isdisjoint(machine.wires_of(kind, at))


def exact_list(machine, faults):
    """The shortest kind of list that covers the faults: of wires shorted to each other and to nothing stuck one stays."""
    bad, found = faults.parts, Defects()
    found["wire"].update(bad["wire"])
    for group in short_groups(machine, faults):
        kept = max(group, key=lambda wire: (wire not in machine.lines, -wire)) if bad["wire"].isdisjoint(group) else None
        found["wire"].update(wire for wire in group if wire != kept)
    for kind in ("cross", "table"):
        found[kind] = {at for at in bad[kind] if found.is_free(machine, kind, at)}
    return found


def sound_listed(machine, faults, defects):
    """How many sound wires, crosspoints and tables a list holds."""
    bad = faults.parts
    sound = set(range(machine.sizes["wire"])).difference(bad["wire"], *short_groups(machine, faults))
    return [sum(sound.issuperset(machine.wires_of(kind, at)) for at in defects[kind] - bad[kind]) for kind in PARTS]


def read_defects(machine, data):
    """The list of a text on a machine."""
    *lines, rest = lines_of(data, "defects", machine.limits.text)
    defects, last, number = Defects(), (0, -1), 0
    for number, line in enumerate(lines, 1):
        kind, *words = line.split(" ")
        counts = [numeral(word, 65_535) for word in words] if number == 2 else []
        if not re.fullmatch(FORMS.get(number, ENTRY_FORM), line) or None in counts:
            raise Refused("defects", number, "word")
        if number == 2 and tuple(counts) != machine.counts:
            raise Refused("defects", number, "machine")
        if kind == "end":
            break
        if kind in PARTS:
            at = machine.number(kind, words)
            place = PARTS.index(kind), at
            if at is None or place <= last or not defects["wire"].isdisjoint(machine.wires_of(kind, at)):
                raise Refused("defects", number, "name" if at is None else "order" if place < last else "doubled")
            defects[kind].add(at)
            last = place
    else:
        raise Refused("defects", len(lines) + 1, "word")
    if rest or number < len(lines):
        raise Refused("defects", number + 1, "after")
    return defects


def defects_text(machine, defects):

    def names(kind):
        return cross_names(machine, defects[kind]) if kind == "cross" else (machine.name(kind, at) for at in sorted(defects[kind]))

    entries = (f"{kind} {words}\n" for kind in PARTS for words in names(kind))
    return "".join(["defects 1\nshape ", " ".join(map(str, machine.counts)), "\n", *entries, "end\n"])


class Image(namedtuple("Image", "ticks inputs outputs tables crosses")):
    """A configuration with its pins; a table is its number, two flags and 64 cells."""

    def net_of(self, machine):
        """The net of each wire that closed crosspoints join to others: groups of wires, numbered by their least."""
        nets = groups(map(machine.ends, self.crosses))
        return {wire: k for k, net in enumerate(nets) for wire in net}


def read_image(machine, data):
    """The image of the bytes on a machine."""
    if len(data) > FILE_LIMIT:
        raise Refused("image", 0, "limit")
    at = 0

    def number(size, right=range(1 << 64), kind="range", taken=()):
        """The number in the next field of so many bytes, which has to be right and not taken."""
        nonlocal at
        start, at = at, at + size
        found = int.from_bytes(data[start:at], "big")
        if at > len(data):
            raise Refused("image", len(data), "short")
        if found not in right or found in taken:
            raise Refused("image", start, "order" if found in right else kind)
        return found

    number(8, [int.from_bytes(b"TERAIMG1", "big")], "magic")
    for count in machine.counts:
        number(2, [count], "shape")
    ticks, inputs, outputs = number(2, range(1, machine.limits.ticks + 1)), number(2), number(2)
    pins, tables, crosses = [], [], []
    for _ in range(inputs + outputs):
        pins.append(number(2, machine.pins, taken=pins))
    for _ in range(number(2, range(machine.sizes["table"] + 1))):
        table = number(2, range(machine.sizes["table"]), taken=range(tables[-1][0] + 1 if tables else 0))
        flags = number(1, range(4))
        tables.append((table, bool(flags & 1), flags >> 1, number(8)))
    for _ in range(number(4, range(min(machine.limits.closed, machine.sizes["cross"]) + 1))):
        crosses.append(number(4, range(machine.sizes["cross"]), taken=range(crosses[-1] + 1 if crosses else 0)))
    if at != len(data):
        raise Refused("image", at, "after")
    return Image(ticks, pins[:inputs], pins[inputs:], tables, crosses)


# A flattened design; a signal is (place of its instance, name), and prints as the two strung together.
Design = namedtuple("Design", "inputs outputs covers latches")


def read_design(data):
    """The design of a BLIF text that the program takes."""
    joined = re.sub(rb"\\[ \t\r]*(\n|\Z)", b" ", re.sub(rb"#[^\n]*", b"", data))
    models, model = {}, {}
    for line in joined.split(b"\n"):
        match [word.decode("utf-8", "surrogateescape") for word in line.split()]:
            case [".model", *names]:
                model = models[" ".join(names)] = {".inputs": [], ".outputs": [], "body": []}
            case [(".inputs" | ".outputs") as kind, *names]:
                model[kind] += names
            case [(".names" | ".latch" | ".subckt") as kind, *names]:
                model["body"].append((kind, names, []))
            case [mark, *_] as row if not mark.startswith("."):
                model["body"][-1][2].append(row)
    top = next(iter(models.values()))
    design = Design([("", name) for name in top[".inputs"]], [("", name) for name in top[".outputs"]], [], [])
    substitute(models, top, "", {}, design)
    return design


def substitute(models, model, place, actuals, design):
    """Adds the lines of a model, where `actuals` says what its formals are; every other signal is a new one."""
    instances = 0
    for kind, words, rows in model["body"]:
        if kind == ".subckt":
            given = dict(word.split("=", 1) for word in words[1:])
            given = {formal: actuals.get(name, (place, name)) for formal, name in given.items()}
            substitute(models, models[words[0]], f"{place}{instances}/", given, design)
            instances += 1
            continue
        signals = [actuals.get(word, (place, word)) for word in words[: 2 if kind == ".latch" else None]]
        if kind == ".latch":
            design.latches.append((*signals, int(len(words) in (3, 5) and words[-1] == "1")))
            continue
        patterns = ["".join(row[:-1]) for row in rows]
        design.covers.append((signals[:-1], signals[-1], patterns, bool(rows) and rows[0][-1] == "0"))


def read_text(reader, path, *before):
    """What a reader makes of a file, or an end of the script with a line that says what is wrong."""
    try:
        with open(path, "rb") as file:
            return reader(*before, file.read())
    except OSError as error:
        sys.exit(f"{path}: {error.strerror}")
    except Refused as refusal:
        sys.exit(f"{path}: {refusal}")


def replace(path, text):
    """Writes a file at once and whole, over one that stands there, in a folder that is made if it isn't there."""
    os.makedirs(os.path.dirname(path), exist_ok=True)
    own = f"{path}.{socket.gethostname()}.{os.getpid()}"
    with open(own, "w", encoding="utf-8") as file:
        file.write(text)
    os.replace(own, path)


def write_new(path, data):
    """Writes a file that isn't there yet; `-` is the standard output."""
    data = data if isinstance(data, bytes) else data.encode("utf-8", "surrogateescape")
    try:
        with open(path, "xb") if path != "-" else open(sys.stdout.fileno(), "wb", closefd=False) as file:
            file.write(data)
    except FileExistsError:
        sys.exit(f"{path}: stands there already; nothing was written")
    except OSError as error:
        sys.exit(f"{path}: {error.strerror}")
