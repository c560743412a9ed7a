"""What a design takes: its plain network, and the plan in order with its needs. And designs that studies make."""

import random
import re
from collections import Counter, namedtuple

from teramac_texts import Design

# Tables with at most six sources each. A source is a number: inputs first, then tables; it is a net's number too.
Network = namedtuple("Network", "inputs tables outputs")
# A table of a filling design reads so many of the tables just before it, so that few nets leave a hextant.
REACH, OUTPUTS, LATCHES = 5, 3, 2
MAJORITY = ["11-", "1-1", "-11"]


def plain_network(design):
    """The network that decides about room: cover by cover, then latch by latch."""
    inputs = len(design.inputs)
    net, tables = {signal: k for k, signal in enumerate(design.inputs)}, []

    def tree(sources):
        """Adds the tables of one tree over these sources, group by group; gives the last table's place."""
        parts = [sources[k : k + 6] for k in range(0, len(sources), 6)] or [[]]
        places = range(inputs + len(tables), inputs + len(tables) + len(parts))
        tables.extend(parts)
        return places[0] if len(parts) == 1 else tree(places)

    for names, output, rows, _ in design.covers:
        distinct = list(dict.fromkeys(names))
        ands = [[name for name, mark in zip(names, row) if mark != "-"] for row in rows]
        net[output] = tree(distinct if len(distinct) <= 6 else [tree(sources) for sources in ands])
    for source, output, _ in design.latches:
        net[output] = tree([source])
    numbered = [[source if isinstance(source, int) else net[source] for source in table] for table in tables]
    return Network(inputs, numbered, [net[signal] for signal in design.outputs])


def side_by_side(networks):
    """Networks as one, as `pair` lays two designs and `twice` two copies: all inputs, and then the tables of one behind the other's."""
    inputs, tables, joint = 0, sum(network.inputs for network in networks), Network(sum(network.inputs for network in networks), [], [])
    for network in networks:
        at = [*range(inputs, inputs + network.inputs), *range(tables, tables + len(network.tables))]
        joint.tables.extend([at[source] for source in table] for table in network.tables)
        joint.outputs.extend(at[source] for source in network.outputs)
        inputs, tables = inputs + network.inputs, tables + len(network.tables)
    return joint


def needs(network, modules, chips, hextants, tables):
    """The ports, and then the lines, that the plan in order wants: for each level the most of any node, from the root down."""
    ports, lines = [Counter() for _ in range(4)], [Counter() for _ in range(4)]
    pins = Counter(range(network.inputs)) + Counter(network.outputs)
    nets = [[] for _ in range(network.inputs)] + [[k] for k in range(len(network.tables))]
    for k, sources in enumerate(network.tables):
        for source in sources:
            nets[source].append(k)
    for net, ends in enumerate(nets):
        taps, total = ends, pins[net] + len(ends)
        for level, below in ((3, tables), (2, hextants), (1, chips)):
            ends = [place // below for place in ends]
            strands = Counter(place // below for place in taps)
            for node, inside in Counter(ends).items():
                crosses = inside < total
                ports[level][node] += crosses
                lines[level][node] += strands[node] + crosses >= 2
            taps = list(strands)
        lines[0][0] += pins[net] + len(taps) >= 2
    return [max(level.values(), default=0) for level in ports[1:] + lines]


def blif_text(design):
    """The text of a design; its signals get numbers for names, since two models may use one name."""
    names = {}

    def name(signal):
        return names.setdefault(signal, f"n{len(names)}")

    lines = [".model made", " ".join([".inputs", *map(name, design.inputs)]), " ".join([".outputs", *map(name, design.outputs)])]
    for sources, output, rows, off in design.covers:
        lines.append(" ".join([".names", *map(name, sources), name(output)]))
        lines += [f"{row} {int(not off)}".strip() for row in rows]
    lines += [f".latch {name(source)} {name(output)} {initial}" for source, output, initial in design.latches]
    return "\n".join([*lines, ".end", ""])


def filling(tables, seed=1):
    """A random design of so many tables: covers over some of those just before and an input that is read thereabouts, then two latches.

    A cover turns the oldest signal that it reads or doesn't, as the others say. So what comes in isn't lost on the way to the outputs,
    which are spread over the covers, and a mapper can't make a few tables of it.
    """
    chance, made, count = random.Random(f"{tables} {seed}"), tables - LATCHES, max(6, tables // 12)
    inputs, states = [f"x{k}" for k in range(count)], [f"s{k}" for k in range(LATCHES)]
    known, covers = [*inputs[: REACH - LATCHES], *states], []
    for k in range(made):
        near, others = inputs[k * count // made], chance.sample(known[1 - REACH :], chance.randint(2, REACH - 1))
        sources = [known[-REACH], *others]
        if chance.random() < 0.8 and near not in sources:
            sources.append(near)
        width = len(sources) - 1
        rows = [chance.choice("01") + format(place, f"0{width}b") for place in range(2**width)]
        covers.append((sources, f"c{k}", sorted(rows), False))
        known.append(f"c{k}")
    outputs = [f"c{(k + 1) * made // OUTPUTS - 1}" for k in range(OUTPUTS)]
    return Design(inputs, outputs, covers, [(known[-k - 1], state, 0) for k, state in enumerate(states)])


def random_vectors(design, cycles=32, seed=1):
    """A text of random vectors for a design."""
    chance = random.Random(seed)
    rows = ["".join(chance.choice("01") for _ in design.inputs) or "." for _ in range(cycles)]
    return "\n".join([*rows, ""])


def both(first, second):
    """Two designs as one: inputs, outputs, covers and latches of the first, and then those of the second."""

    def own(k, signals):
        return [(k, signal) for signal in signals]

    parts = [[], [], [], []]
    for k, design in enumerate((first, second)):
        parts[0] += own(k, design.inputs)
        parts[1] += own(k, design.outputs)
        parts[2] += [(own(k, sources), (k, output), rows, off) for sources, output, rows, off in design.covers]
        parts[3] += [((k, source), (k, output), initial) for source, output, initial in design.latches]
    return Design(*parts)


def triplicated(design, pins=False):
    """Three copies of a design, with a voter behind each latch of each copy and before each output.

    With `pins` each copy has inputs of its own, and each output three voters with a pin each (`thrice`, `voted`).
    """

    def copy(signal, k):
        return signal if signal in design.inputs and not pins else (k, signal)

    covers, latches = [], []
    for k in range(3):
        for sources, output, rows, off in design.covers:
            covers.append(([copy(source, k) for source in sources], copy(output, k), rows, off))
        for source, output, initial in design.latches:
            latches.append((copy(source, k), ("raw", k, output), initial))
            covers.append(([("raw", other, output) for other in range(3)], copy(output, k), MAJORITY, False))
    if pins:
        for at, output in enumerate(design.outputs):
            covers += [([copy(output, other) for other in range(3)], ("voted", at, k), MAJORITY, False) for k in range(3)]
        outputs = [("voted", at, k) for at in range(len(design.outputs)) for k in range(3)]
        return Design([(k, signal) for signal in design.inputs for k in range(3)], outputs, covers, latches)
    outputs = []
    for at, output in enumerate(design.outputs):
        if output in design.inputs:
            outputs.append(output)
            continue
        outputs.append(("voted", at))
        covers.append(([copy(output, k) for k in range(3)], ("voted", at), MAJORITY, False))
    return Design(design.inputs, outputs, covers, latches)


def thrice(vectors):
    """A text of vectors with each bit for three inputs."""
    lines = [re.sub(r"[ \t\r]|#.*", "", line) for line in vectors.split("\n")]
    return "\n".join(re.sub("[01]", lambda bit: 3 * bit[0], line) for line in lines)


def voted(rows):
    """Rows of three outputs each as what two of the three say."""
    return [row if row == b"." else b"".join(b"01"[two : two + 1] for two in votes(row)) for row in rows]


def votes(row):
    return [row[k : k + 3].count(b"1") > 1 for k in range(0, len(row), 3)]
