"""The plan in order of a plain network on a machine and a list of its defects: which wires of a crossbar each net wants to join there."""

from teramac_texts import LEVELS


class Plan:
    """Table k of the network sits on the k-th free table, inputs and then outputs on the free pins in order."""

    def __init__(self, machine, defects, network):
        self.machine, self.defects = machine, defects
        tables = (table for table in range(machine.sizes["table"]) if defects.is_free(machine, "table", table))
        pins = [pin for pin in machine.pins if self.is_free("wire", pin)]
        self.terminals = [[pin] for pin in pins[: network.inputs]]
        seats = [machine.table_pins[table] for table, _ in zip(tables, network.tables)]
        self.terminals += [[seat[6]] for seat in seats]
        for seat, sources in zip(seats, network.tables):
            for pin, source in zip(seat, sources):
                self.terminals[source].append(pin)
        for pin, source in zip(pins[network.inputs :], network.outputs):
            self.terminals[source].append(pin)
        self.ports = {}

    def is_free(self, kind, at):
        return self.defects.is_free(self.machine, kind, at)

    def inside(self, node, wire):
        """Whether a pin is one of this node or below it."""
        return node.level == 0 or self.machine.names[wire].startswith(f"{node.name}.")

    def port(self, node, net):
        """The port of a net that crosses a node: the j-th of these nets has the j-th free one. None where it has none."""
        if node.name not in self.ports:
            found = [[self.inside(node, wire) for wire in wires] for wires in self.terminals]
            crossing = [number for number, those in enumerate(found) if any(those) and not all(those)]
            self.ports[node.name] = dict(zip(crossing, (port for port in node.ports if self.is_free("wire", port))))
        return self.ports[node.name].get(net) if node.level else None

    def taps(self, node, net):
        """The taps of a node's crossbar that a net joins there."""
        own = set(node.taps)
        below = [other for other in self.machine.nodes if other.level == node.level + 1 and own.issuperset(other.ports)]
        ports = [self.port(other, net) for other in [node, *below]]
        return sorted({wire for wire in [*self.terminals[net], *ports] if wire in own})

    def serving(self, node, taps):
        """The lines of a node that are free with their crosspoints to these taps."""
        crosses = {line: [self.machine.cross(tap, line) for tap in taps] for line in node.lines}
        return [line for line in node.lines if self.is_free("wire", line) and all(self.is_free("cross", at) for at in crosses[line])]


def net_of_plan(number, inputs):
    """What a net of the plain network is of: an input by its name, or a table by its number."""
    return inputs[number] if number < len(inputs) else f"table {number - len(inputs)}"


def shortage(machine, defects, network, inputs, words):
    """What `refused noroom RESOURCE NODE NEED HAVE NET ..` says, in words and by the nets that it names if the network is known."""
    resource, name, need, have, *numbers = words[2:]
    node = next((node for node in machine.nodes if node.name == name), None)
    if node is None:
        raise ValueError(f"{name} is no node of this machine")
    said = f"{need} {resource} are wanted at {LEVELS[node.level]} {name}, and {have} serve."
    found = {"node": name, "words": said, "nets": []}
    if network is not None:
        plan = Plan(machine, defects, network)
        for number in map(int, numbers):
            taps = plan.taps(node, number)
            serving = plan.serving(node, taps)
            found["nets"].append({"number": number, "name": net_of_plan(number, inputs), "taps": taps, "serving": serving})
    return found
