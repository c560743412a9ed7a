#!/usr/bin/env python3
"""The least machine on which a design fits: its tables, ports, lines and pins by the plan in order, checked by one compile.

How much must be spare at which rate of faults is the study `redundancy`. With --copies the machine is one for `twice`, which has two of
the design, and is checked by a `twice` without faults or vectors. With --map the machine is one for a text of `teramac_map`
with the same rows: ports and lines are pressed down while the mapper finds a text that fits. With --bear K it is a machine on which
every set of at most K faults leaves room for certain, by what is proved: 2 K tables and pins more than the design wants, and at each
node 2 K lines and ports more than it has nets.
"""

import argparse
import math
import sys
from pathlib import Path

import designs
import teramac_texts as texts
from faults import amount
from program import HERE, MAPPER, add_program, call, checked_design

LINES = range(3, 7)  # their places among ports, lines and pins
TREES = [(m, c, h) for m in (1, 2, 4) for c in (1, 2, 4) for h in (1, 2, 4, 8)]


def spared(count, spare):
    return max(1, math.ceil(count * (1 + spare) - 1e-9))


def counts_for(network, tree, spare, tables=0, lines_alone=False):
    """The counts of a machine on this tree with what the plan wants and so much to spare, of all or of lines alone.

    It has so many tables in a hextant, or as many as it takes.
    """
    tables = tables or -(-spared(len(network.tables), 0 if lines_alone else spare) // math.prod(tree))
    wanted = [*designs.needs(network, *tree, tables), network.inputs + len(network.outputs)]
    return (*tree, tables, *(spared(count, 0 if lines_alone and k not in LINES else spare) for k, count in enumerate(wanted)))


def bearing_counts(network, tree, faults):
    """The counts of a machine on this tree that bears every set of so many faults, whatever they are and wherever they lie.

    A fault spoils two wires at most, so two lines of a crossbar, two ports of a node, two pins and two tables.
    """
    tables, pins = len(network.tables), network.inputs + len(network.outputs)
    lost, nets = 2 * faults, network.inputs + tables
    return (*tree, -(-(tables + lost) // math.prod(tree)), *7 * [max(nets, 2) + lost], max(pins, 2) + lost)


def cheapest(several):
    """Of these counts the machine with the fewest crosspoints: a small one, or where none is small any other within the limits."""
    several = list(several)
    found = [counts for counts in several if texts.is_small(counts)] or [counts for counts in several if texts.are_within_limits(counts)]
    if not found:
        sys.exit("no machine within the limits (1,310,720 wires, 268,435,456 crosspoints, 65,536 tables, 8,192 pins) holds this design")
    return texts.Machine(min(found, key=lambda counts: texts.sizes_of(counts)[2]))


def best_machine(network, trees, spare):
    """The cheapest machine on one of the trees, with so much to spare."""
    return cheapest(counts_for(network, tree, spare) for tree in trees)


def bearing_machine(network, trees, faults):
    """The cheapest on one of the trees that bears so many faults."""
    return cheapest(bearing_counts(network, tree, faults) for tree in trees)


def bearing_crosspoints(network, trees):
    """How many crosspoints that machine has, for 0, 1, 2 .. faults, up to the most that a small machine bears."""
    several = []
    while True:
        counts = [bearing_counts(network, tree, len(several)) for tree in trees]
        found = [texts.sizes_of(one)[2] for one in counts if texts.is_small(one)]
        if not found:
            return several
        several.append(min(found))


def network_named(name):
    """The network of a design of the examples or the studies."""
    places = [Path(HERE, folder, f"{name}.blif") for folder in (".", "../examples")]
    path = next((place for place in places if place.is_file()), None)
    return designs.plain_network(texts.read_text(texts.read_design, path)) if path else sys.exit(f"{name}: no design of that name")


def compiles(program, machine, defects, design):
    """What compile says of the design on this machine with this list."""
    return call(program, "compile", machine.text.encode(), texts.defects_text(machine, defects).encode(), design)


def runs_twice(program, machine, design):
    """What twice says of the design on this machine without faults, for no vectors."""
    return call(program, "twice", machine.text.encode(), b"", design, b"")


def pressed(counts, share, levels, tables):
    """The counts with so much of these levels' ports and lines, but at least the pins' where all of a design's tables lie in one node."""
    shares = [share if level in levels else 1 for level in (1, 2, 3, 0, 1, 2, 3)]
    least = [counts[11] if level == 0 or tables <= math.prod(counts[level:4]) else 1 for level in (1, 2, 3, 0, 1, 2, 3)]
    most = [max(min(count, bound), int(count * much)) for count, bound, much in zip(counts[4:11], least, shares)]
    return (*counts[:4], *most, counts[11])


def pressed_once(mapper, design, machine, text):
    """A lesser machine for a text of the mapper on the same tree, all levels pressed and then single ones; with the text that it holds."""
    tables = len(designs.plain_network(texts.read_design(text)).tables)
    for levels in (range(4), [3], [2], [0, 1]):
        share = 0.7
        while share < 0.9:
            tried = texts.Machine(pressed(machine.counts, share, levels, tables))
            answer = call(mapper, tried.text.encode(), texts.defects_text(tried, texts.Defects()).encode(), design)
            share = (1 + share) / 2 if answer.status or tried.counts == machine.counts else 0.85
            if answer.status == 0:
                text, network = answer.written, designs.plain_network(texts.read_design(answer.written))
                machine = texts.Machine(counts_for(network, tried.counts[:3], 0.0, tried.counts[3]))
    return machine, text


def remapped(mapper, design, machine, text):
    """The least machine found for a text of the mapper, from one that holds a text on, pressed until nothing more comes of it."""
    crosspoints = 1 + machine.sizes["cross"]
    while machine.sizes["cross"] < crosspoints:
        crosspoints = machine.sizes["cross"]
        machine, text = pressed_once(mapper, design, machine, text)
    return machine, text


def main():
    parser = argparse.ArgumentParser(description=__doc__, formatter_class=argparse.RawDescriptionHelpFormatter)
    parser.add_argument("design", help="the design's BLIF file")
    for name in ("modules", "chips", "hextants"):
        parser.add_argument(f"--{name}", type=int, metavar="N", help=f"how many {name} in each node above (default: the cheapest)")
    more = parser.add_mutually_exclusive_group()
    more.add_argument("--spare", type=amount, default=0.0, metavar="SHARE", help="so much more, as 10%% or 0.1 (default: 0)")
    more.add_argument("--bear", type=int, metavar="K", help="so much more that every set of K faults leaves room for certain")
    parser.add_argument("-o", "--output", default="-", help="the machine's new file (default: standard output)")
    parser.add_argument("--copies", action="store_true", help="for the two copies of `twice`")
    parser.add_argument("--map", metavar="FILE", help="a new file for the text of teramac_map that this machine holds")
    parser.add_argument("--mapper", default=MAPPER, help="the built teramac_map (default: %(default)s)")
    add_program(parser)
    args = parser.parse_args()
    given = args.modules, args.chips, args.hextants
    trees = [tree for tree in TREES if all(want in (None, have) for want, have in zip(given, tree))] or [given]
    if min(count for count in given + (1,) if count is not None) < 1 or None in trees[0]:
        sys.exit("--modules, --chips, --hextants: give all three, each at least 1, beyond 4, 4 and 8")
    if args.bear is not None and (args.bear < 0 or args.map):
        sys.exit("--bear: at least 0, and not with --map")
    if args.copies and args.map:
        sys.exit("--copies: the plan in order of two copies is that of the design as given, so --map says nothing of them")
    network, text = designs.plain_network(checked_design(args.program, args.design)), args.design
    network = designs.side_by_side([network] * 2) if args.copies else network
    bears = args.bear is not None
    machine = given = bearing_machine(network, trees, args.bear) if bears else best_machine(network, trees, 0.0 if args.map else args.spare)
    if args.map:
        text = call(args.mapper, args.design).written
        held = (given, Path(args.design).read_bytes()), (best_machine(designs.plain_network(texts.read_design(text)), trees, 0.0), text)
        least, text = min((remapped(args.mapper, args.design, *pair) for pair in held), key=lambda pair: pair[0].sizes["cross"])
        print(f"crosspoints: {given.sizes['cross']:,} as given, {least.sizes['cross']:,} remapped", file=sys.stderr)
        machine = texts.Machine((*least.counts[:4], *(spared(count, args.spare) for count in least.counts[4:])))
    copied = args.copies and runs_twice(args.program, machine, text)
    answer = copied or compiles(args.program, machine, texts.Defects(), text)
    if answer.status:
        named = "twice (it diagnoses first, for which each node wants two ports and lines: leave more to spare)" if copied else "compile"
        sys.exit(f"{named} of the design on this machine: {' '.join(answer.refusal)}")
    if args.map:
        texts.write_new(args.map, text)
    texts.write_new(args.output, machine.text)


if __name__ == "__main__":
    main()
