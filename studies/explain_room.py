"""What a refusal for room means: which nets, which spare would do, and whether another text can; and what `check` holds in doubt."""

import random
from collections import Counter, deque
from graphlib import TopologicalSorter

import designs
import teramac_texts as texts
from explain_call import counted, listed, printed

FULL = 200_000  # designs of more characters of rows are not run
NEXT = "diagnose the machine anew, and let repair or compile write another image for the new list"


def table_names(design):
    """The name of each table of the plain network: its output's, of a wide cover with a part."""
    names = []
    for cover in design.covers:
        alone = texts.Design(list(dict.fromkeys(cover[0])), [], [cover], [])
        count = len(designs.plain_network(alone).tables)
        names += [f"{printed(cover[1])}[part {k} of {count}]" for k in range(1, count)] + [printed(cover[1])]
    return names + [printed(output) for _, output, _ in design.latches]


def joined(found):
    """The network of designs side by side, and the names of its nets: all inputs, then all tables."""
    names, more = [], []
    for number, design in enumerate(found):
        mark = f"{('first', 'second')[number]}:" if len(found) > 1 else ""
        names += [mark + printed(name) for name in design.inputs]
        more += [mark + name for name in table_names(design)]
    return designs.side_by_side([*map(designs.plain_network, found)]), names + more


def give_line(net, served, held):
    """Gives a net a line of its own if it can be had, where nets that hold one may change to another that serves them."""
    reached, left, waiting = {}, {}, deque([net])
    while waiting:
        at = waiting.popleft()
        for line in served[at]:
            if line in reached:
                continue
            reached[line] = at
            if line in held:
                left[held[line]] = line
                waiting.append(held[line])
                continue
            while line is not None:
                held[line] = reached[line]
                line = left.get(reached[line])
            return


class Plan:
    """The plan in order: of each node the nets that cross it, and of those that visit it the taps at its crossbar."""

    def __init__(self, machine, defects, network):
        self.machine, self.defects = machine, defects
        self.crossing, self.visiting = [[] for _ in machine.nodes], [{} for _ in machine.nodes]
        self.cut = {}  # of a line the taps to which its crosspoints are listed
        for tap, line in map(machine.ends, defects["cross"]):
            self.cut.setdefault(line, set()).add(tap)
        self.parents, last = [], {}
        for number, node in enumerate(machine.nodes):
            last[node.level] = number
            self.parents.append(last.get(node.level - 1))
        self.ports = [self.free(node.ports) for node in machine.nodes]
        self.home = {table: number for number, node in enumerate(machine.nodes) for table in node.tables}
        for net, ends in enumerate(self.terminals(network)):
            self.lay(net, ends)

    def free(self, wires):
        """Those of some wires that aren't listed."""
        return [wire for wire in wires if wire not in self.defects["wire"]]

    def terminals(self, network):
        """The node and the wire of each net's terminals."""
        machine, pins = self.machine, self.free(self.machine.pins)
        tables = [table for table in range(machine.sizes["table"]) if self.defects.is_free(machine, "table", table)]
        nets = [[(0, pins[net])] for net in range(network.inputs)]
        nets += [[(self.home[tables[k]], machine.table_pins[tables[k]][6])] for k in range(len(network.tables))]
        for k, sources in enumerate(network.tables):
            for place, source in enumerate(sources):
                nets[source].append((self.home[tables[k]], machine.table_pins[tables[k]][place]))
        for place, source in enumerate(network.outputs, network.inputs):
            nets[source].append((0, pins[place]))
        return nets

    def lay(self, net, ends):
        """Puts a net down at each node that it crosses or visits; a port that isn't there is no tap."""
        inside, taps, strands = Counter(), {}, Counter()
        for home, wire in ends:
            taps.setdefault(home, []).append(wire)
            strands[home] += 1
            while home is not None:
                inside[home] += 1
                home = self.parents[home]
        for node in sorted(inside, reverse=True):
            above = self.parents[node]
            if above is not None:
                strands[above] += 1
                if inside[node] < len(ends):
                    strands[node] += 1
                    port = self.ports[node][len(self.crossing[node]) :][:1]
                    self.crossing[node].append(net)
                    taps.setdefault(node, []).extend(port)
                    taps.setdefault(above, []).extend(port)
        for node, count in strands.items():
            if count >= 2:
                self.visiting[node][net] = taps.get(node, [])

    def lines_short(self, node):
        """How many of a node's nets get no line of their own, at best."""
        served, held = {}, {}
        lines = self.free(self.machine.nodes[node].lines)
        for net, taps in self.visiting[node].items():
            served[net] = [line for line in lines if self.cut.get(line, set()).isdisjoint(taps)]
        for net in served:
            give_line(net, served, held)
        return len(served) - len(held)

    def counts_that_do(self):
        """The machine's counts with as many ports and lines more, at each level, as its nodes lack."""
        counts = list(self.machine.counts)
        lacking = Counter()
        for number, node in enumerate(self.machine.nodes):
            ports = len(self.crossing[number]) - len(self.ports[number])
            lacking[3 + node.level] = max(lacking[3 + node.level], ports)
            lacking[7 + node.level] = max(lacking[7 + node.level], self.lines_short(number))
        for place, count in lacking.items():
            counts[place] += count if place > 3 else 0
        return tuple(counts)


def spare_that_does(call):
    """Which lines of the machine file would do, for a design that has tables and pins enough; or ''."""
    if not call.defects:
        return ""
    counts = Plan(call.machine, call.defects, joined(call.laid)[0]).counts_that_do()
    pairs = zip(call.machine.text.split("\n"), texts.Machine(counts).text.split("\n")) if texts.are_within_limits(counts) else []
    changed = " and ".join(f"`{new}`" for old, new in pairs if new != old)
    return f". With {changed} in the machine, and nothing more on the list, the plan in order fits" if changed else ""


def least_tables(design):
    """So many tables every text of the design has: outputs that were seen to differ, from each other and from inputs, in random runs."""
    if sum(len(row) for _, _, rows, _ in design.covers for row in rows) > FULL:
        return 0
    chance, full = random.Random(1), (1 << 64) - 1
    covers = {output: (names, rows, off) for names, output, rows, off in design.covers}
    reads = {output: [name for name in names if name in covers] for output, (names, _, _) in covers.items()}
    order = list(TopologicalSorter(reads).static_order())
    values = {output: full * initial for _, output, initial in design.latches}
    columns = [[] for _ in design.inputs + design.outputs]
    for _ in range(32):
        values.update((name, chance.getrandbits(64)) for name in design.inputs)
        for output in order:
            names, rows, off = covers[output]
            found = 0
            for row in rows:
                term = full
                for name, mark in zip(names, row):
                    term &= full if mark == "-" else values[name] if mark == "1" else ~values[name]
                found |= term
            values[output] = full & (~found if off else found)
        for column, name in zip(columns, design.inputs + design.outputs):
            column.append(values[name])
        values.update([(output, values[source]) for source, output, _ in design.latches])
    inputs, outputs = (set(map(tuple, part)) for part in (columns[: len(design.inputs)], columns[len(design.inputs) :]))
    return len(outputs - inputs)


def mapper_helps(call, what="fits"):
    """What is to be said of teramac_map."""
    if call.program == "teramac_map":
        return "nothing that teramac_map tried fits"
    return f"teramac_map may find a text that {what}" + (", of each design by itself" if call.command == "pair" else "")


def plan_room(call, resource, node, need, have, nets):
    """Which resource the plan in order is short of, and what would do."""
    where, whole = "the machine" if node == "r" else f"node {node}", counted(have, resource.removesuffix("s"))
    said = f"{where} has {whole} that {'serves' if have == 1 else 'serve'}"
    known = call.laid
    inputs, outputs = (sum(len(design[part]) for design in known) for part in (0, 1))
    match resource:
        case "pins":
            said += f", the plan in order wants {need}"
            said += f": {counted(inputs, 'input')} and {counted(outputs, 'output')}" if known else ""
            return f"{said}. teramac_map keeps inputs and outputs, so no other text helps; {need} good pins would be enough"
        case "tables":
            said += f", the plan in order wants {need}"
            least = sum(map(least_tables, known))
            if have < least:
                said += f". {least} outputs that differ want a table each in any text, so teramac_map can't help"
                return f"{said}; {need} good tables would be enough"
            return f"{said}: {mapper_helps(call, 'wants fewer')}"
    names = joined(known)[1] if known else []
    if resource == "ports":
        said += f", the plan in order wants {need} for the nets that cross it"
        if call.defects and known:
            plan = Plan(call.machine, call.defects, joined(known)[0])
            at = next(number for number, each in enumerate(call.machine.nodes) if each.name == node)
            said += f": {listed([names[net] for net in plan.crossing[at]])}"
    else:
        said += f" any of {counted(need, 'net')} that the plan in order leads there"
        said += f": {listed([names[net] if net < len(names) else str(net) for net in nets])}"
    return f"{said}{spare_that_does(call) if known else ''}; {mapper_helps(call)}"


def net_ends(machine, image, wires):
    """What drives a net of an image."""
    drives = {pin: f"input {k} at {machine.names[pin]}" for k, pin in enumerate(image.inputs)}
    drives.update((machine.table_pins[table][6], f"table {machine.table_names[table]}") for table, *_ in image.tables)
    return " and ".join(drives[wire] for wire in wires if wire in drives) or "nothing"


def image_nets(call):
    """The nets of the image, each with what drives it."""
    image = texts.read_image(call.machine, call.data("image"))
    nets = texts.groups(map(call.machine.ends, image.crosses))
    return [(wires, f"net {number} (from {net_ends(call.machine, image, wires)})") for number, wires in enumerate(nets)]


def repair_room(call, resource, node, need, have, nets):
    """What a repair is short of: it has a plan of its own, and no other text helps."""
    where, noun = "the machine" if node == "r" else f"node {node}", resource.removesuffix("s")
    parts = counted(need, noun if resource in ("tables", "pins") else "net")
    said = f"{parts} of the image {'has' if need == 1 else 'have'} to move"
    said += f", and {where} has {counted(have, 'free ' + noun)} for that"
    if nets and "image" in call.roles:
        known = image_nets(call)
        said += f": {', '.join(known[net][1] for net in nets[:20])}"
    return f"{said}. What stays keeps its place in a repair, so compile the design anew on this list: it may still have room"


def noroom(call, words):
    """What is short, in a command's own plan."""
    resource, node, need, have, *nets = words
    plan = repair_room if "image" in call.roles else plan_room
    return plan(call, resource, node, int(need), int(have), list(map(int, nets)))


def in_doubt(call, kind, names):
    """What it means that check names a part."""
    what = {
        "wire": "the image uses this wire, and it isn't free on a list of the machine's defects",
        "cross": "the image closes this crosspoint, and it isn't free on a list of the machine's defects, though its wires are",
        "table": "the image switches this table on, and it isn't free on a list of the machine's defects; its wires and crosspoints are",
    }[kind]
    if "image" in call.roles and "machine" in call.roles:
        wires = set(call.machine.wires_of(kind, call.machine.number(kind, names)))
        if found := [name for members, name in image_nets(call) if not wires.isdisjoint(members)]:
            what = what.replace("the image", f"the image, in {' and '.join(found[:6])},", 1) if kind != "table" else what
    return f"{what}. It isn't sound, or no two good ways lead the diagnosis there; of several the first is named. What helps: {NEXT}"
