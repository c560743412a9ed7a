#!/usr/bin/env python3
"""What the plans of `crates/example_parts` have to give, counted by the definitions and not by the program.

usage: plans.py CASES          for each case: crossings and closed crosspoints in order, the fewest crossings that any
                               seating of the tables on the free tables has (all are tried), and the numbers of closed
                               crosspoints that such seatings have
       plans.py MACHINE DEFECTS DESIGN     crossings and closed crosspoints in order

Designs have covers of at most six inputs, none of them twice, and no models but one. Of a list of defects only the entries
`table` are looked at.
"""
import itertools
import sys


def machine_of(lines):
    words = {line.split()[0]: [int(n) for n in line.split()[1:]] for line in lines if line.strip() and line != "end"}
    return words["modules"][0], words["chips"][0], words["hextants"][0], words["tables"][0]


def listed_in(lines, counts):
    _, chips, hextants, tables = counts
    listed = set()
    for line in lines:
        if line.startswith("table "):
            m, c, h, t = [int(part[1:]) for part in line.split()[1].split(".")]
            listed.add(((m * chips + c) * hextants + h) * tables + t)
    return listed


def network_of(lines):
    """The number of inputs, the nets that each table reads, and the nets of the outputs. Net k is input k's, and net
    inputs + j is table j's; the tables are those of the covers and then those of the latches."""
    inputs, outputs, covers, latches = [], [], [], []
    for line in lines:
        words = line.split()
        if not words:
            continue
        if words[0] == ".inputs":
            inputs += words[1:]
        elif words[0] == ".outputs":
            outputs += words[1:]
        elif words[0] == ".names":
            covers.append((words[-1], words[1:-1]))
        elif words[0] == ".latch":
            latches.append((words[2], words[1:2]))
    tables = covers + latches
    net = {name: k for k, name in enumerate(inputs + [name for name, _ in tables])}
    return len(inputs), [[net[name] for name in ins] for _, ins in tables], [net[name] for name in outputs]


def nets_of(network):
    """For each net its pins at the root and the table pins on it, as (number of the network's table, pin)."""
    inputs, tables, outputs = network
    pins = [1] * inputs + [0] * len(tables)
    ends = [[] for _ in range(inputs)] + [[(j, 6)] for j in range(len(tables))]
    for j, ins in enumerate(tables):
        for k, net in enumerate(ins):
            ends[net].append((j, k))
    for net in outputs:
        pins[net] += 1
    return list(zip(pins, ends))


def above(counts, table):
    """The nodes above a table, from the hextant up to the root."""
    _, chips, hextants, tables = counts
    hextant = table // tables
    chip = hextant // hextants
    return ("h", hextant), ("c", chip), ("m", chip // chips), ("r", 0)


def count(counts, nets, seats):
    """Crossings in sum, and closed crosspoints: one for each strand of a net at each node that it visits."""
    crossings = closed = 0
    for pins, ends in nets:
        everything = pins + len(ends)
        held, own, children = {}, {("r", 0): pins}, {}
        for j, _ in ends:
            way = above(counts, seats[j])
            own[way[0]] = own.get(way[0], 0) + 1
            for node in way:
                held[node] = held.get(node, 0) + 1
            for below, node in zip(way, way[1:]):
                children.setdefault(node, set()).add(below)
        for node in own.keys() | children.keys():
            at = own.get(node, 0) + len(children.get(node, ()))
            if node != ("r", 0) and held[node] < everything:
                crossings += 1
                at += 1
            if at >= 2:
                closed += at
    return crossings, closed


def fewest(counts, nets, free, tables):
    best, closes = None, set()
    for seats in itertools.permutations(free, tables):
        crossings, closed = count(counts, nets, seats)
        if best is None or crossings < best:
            best, closes = crossings, set()
        if crossings == best:
            closes.add(closed)
    return best, sorted(closes)


def figures(machine, defects, design, search):
    counts = machine_of(machine)
    listed = listed_in(defects, counts)
    free = [t for t in range(counts[0] * counts[1] * counts[2] * counts[3]) if t not in listed]
    network = network_of(design)
    nets = nets_of(network)
    found = count(counts, nets, free)
    return found + fewest(counts, nets, free, len(network[1])) if search else found


def main():
    if len(sys.argv) == 4:
        texts = [open(name).read().splitlines() for name in sys.argv[1:]]
        print(*figures(*texts, False))
        return
    name, part, texts = "", "", {}
    for line in open(sys.argv[1]).read().splitlines():
        if line.startswith("case "):
            name = line[5:]
        elif line in ("machine", "defects", "design"):
            part, texts[line] = line, []
        elif line.startswith("| "):
            texts[part].append(line[2:])
        elif line.startswith("gives "):
            print(name, *figures(texts["machine"], texts["defects"], texts["design"], True), "and stands as", line[6:], flush=True)


if __name__ == "__main__":
    main()
