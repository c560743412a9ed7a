#!/usr/bin/env python3
"""Makes a fault file for a machine: every kind by rate or by count, uniform or in clusters."""

import argparse
import math
import random
import re
import sys
from itertools import accumulate

import teramac_texts as texts

KINDS = {
    "open": ("cross", "crosspoints that never conduct"),
    "closed": ("cross", "crosspoints that always conduct"),
    "broken": ("cross", "wires that break, by their length: crosspoints of the shorter piece never conduct; a rate is the share of these"),
    "wires": ("wire", "stuck wires, half of them at 0 and half at 1"),
    "stuck0": ("wire", "wires stuck at 0"),
    "stuck1": ("wire", "wires stuck at 1"),
    "cells": ("table", "wrong cells of tables"),
    "registers": ("table", "stuck registers of tables"),
    "bridges": ("wire", "pairs of wires joined for good, by the wires of the machine"),
    "neighbours": ("wire", "likewise, of neighbours: two lines, or two taps, side by side in a crossbar"),
}
PLACES = {"cells": 64}  # of each part that a fault of the kind may have
SHAPES = {
    "spots": "near a place: crosspoints and wires in one crossbar, tables in one hextant",
    "rows": "on one tap, else spots",
    "columns": "on one line, else spots",
    "hextants": "in one hextant",
    "gamma": "SIZE is Stapper's alpha: each node with its crossbar has the rate times a number of the gamma law of this shape and mean 1",
}
TRIES = 12_800


def amount(word):
    """A rate (0.01 or 1%) as a float, a count (12) as an int."""
    percent = word.endswith("%")
    try:
        found = float(word[:-1]) / 100 if percent else float(word) if "." in word or "e" in word else int(word)
    except ValueError as error:
        raise argparse.ArgumentTypeError(f"{word}: neither a count, a rate such as 0.01, nor a share such as 1%") from error
    if not 0 <= found or (isinstance(found, float) and found > 1):
        raise argparse.ArgumentTypeError(f"{word}: a rate is from 0 to 1, a count isn't negative")
    return found


def size(word):
    """The size of clusters, or Stapper's alpha."""
    if not re.fullmatch(r"[0-9]{1,9}(\.[0-9]+)?", word):
        raise argparse.ArgumentTypeError(f"{word}: not a number such as 12 or 0.5")
    return float(word) if "." in word else int(word)


def count_of(wanted, parts, chance):
    """How many of so many parts are faulty: a count as it is, a rate for each part by itself."""
    if isinstance(wanted, int):
        return wanted
    if wanted in (0.0, 1.0):
        return round(wanted * parts)
    found, at = 0, -1
    while (at := at + 1 + int(math.log(1.0 - chance.random()) / math.log(1.0 - wanted))) < parts:
        found += 1
    return found


def largest_rate(room, parts):
    """The rate at which of so many parts nearly never (once in 30,000 draws) more than `room` are faulty."""
    return min(1.0, (math.sqrt(room + 4) - 2) ** 2 / parts)


class Places:
    """Chooses what is faulty: each part alike, or in one of some clusters of a shape."""

    def __init__(self, machine, chance, clustered, shape):
        self.machine, self.chance, self.clustered, self.shape, self.middles = machine, chance, clustered, shape, {}
        self.hextants, self.factors, self.bounds = [node for node in machine.nodes if node.level == 3], [], []
        if clustered and shape == "gamma":
            self.factors = [max(1e-6, chance.gammavariate(clustered, 1 / clustered)) for _ in machine.nodes]

    def near(self, parts, at, spread):
        """A place near another; one beyond the edge is drawn anew."""
        while not 0 <= (found := round(self.chance.gauss(at, spread))) < parts:
            pass
        return found

    def own(self, node, group):
        """The wires, crosspoints or tables of a node alone; the machine's pins are the root's."""
        if group == "table":
            return node.tables
        if group == "wire":
            return range(node.ports.start if node.level else 0, node.lines.stop + 7 * len(node.tables))
        return range(node.first, node.first + len(node.taps) * len(node.lines))

    def count(self, wanted, group, places=1):
        """How many are faulty of the parts of a group, each with so many places; by the gamma law at a rate of their own in each node."""
        parts = self.machine.sizes[group]
        if self.factors:
            rate = wanted if isinstance(wanted, float) else 1e-9
            rates = [min(1.0, rate * factor) for factor in self.factors]
            self.bounds = list(accumulate(own * len(self.own(node, group)) for own, node in zip(rates, self.machine.nodes)))
            wanted = min(1.0, self.bounds[-1] / parts) if isinstance(wanted, float) else wanted
        return count_of(wanted, parts * places, self.chance)

    def middle(self, group):
        """What a new cluster lies around: a crosspoint, a table, or a hextant."""
        if self.shape == "hextants":
            return self.chance.choice(self.hextants)
        return self.chance.randrange(self.machine.sizes["table" if group == "table" else "cross"])

    def part(self, group, count):
        """A wire, crosspoint or table, of so many faults."""
        if not self.clustered:
            return self.chance.randrange(self.machine.sizes[group])
        if self.factors:
            node = self.chance.choices(self.machine.nodes, cum_weights=self.bounds)[0]
            return self.chance.choice(self.own(node, group))
        if group not in self.middles:
            self.middles[group] = [self.middle(group) for _ in range(max(1, round(count / self.clustered)))]
        middle = self.chance.choice(self.middles[group])
        if self.shape == "hextants":
            return self.chance.choice(self.own(middle, group))
        if group == "table":
            tables = next(node.tables for node in self.hextants if middle in node.tables)
            return tables.start + self.near(len(tables), middle - tables.start, self.clustered)
        # So many wires lie within this spread of a crosspoint, half of them taps and half lines.
        return self.crosspoint(middle) if group == "cross" else self.chance.choice(self.machine.ends(self.spot(middle, self.clustered / 4)))

    def crosspoint(self, middle):
        """A crosspoint of a cluster's crossbar: near its middle, or in its row or column."""
        node = self.machine.node_of_cross(middle)
        tap, line = divmod(middle - node.first, len(node.lines))
        if self.shape == "rows":
            return node.first + tap * len(node.lines) + self.chance.randrange(len(node.lines))
        if self.shape == "columns":
            return node.first + self.chance.randrange(len(node.taps)) * len(node.lines) + line
        return self.spot(middle, math.sqrt(self.clustered))

    def spot(self, middle, spread):
        """A crosspoint near another one of its crossbar."""
        node = self.machine.node_of_cross(middle)
        tap, line = divmod(middle - node.first, len(node.lines))
        tap = self.near(len(node.taps), tap, spread)
        return node.first + tap * len(node.lines) + self.near(len(node.lines), line, spread)

    def neighbour(self, wire):
        """The next wire of a crossbar of this one, or None at its end."""
        node = self.machine.lines[wire][0] if wire in self.machine.lines else self.chance.choice(self.machine.taps[wire])
        wires = list(node.lines if wire in self.machine.lines else node.taps)
        at = wires.index(wire) + 1
        return wires[at] if at < len(wires) else None

    def broken(self, cross):
        """The crosspoints of the shorter piece of a wire that breaks at one of them."""
        wire = self.chance.choice(self.machine.ends(cross))
        along = list(self.machine.along(wire))
        at = along.index(cross)
        return along[: at + 1] if 2 * at < len(along) else along[at:]

    def faults(self, kind, count):
        """A fault of a kind as `Faults.add` takes it, or of a broken wire several; none for a pair that isn't one."""
        at = self.part(KINDS[kind][0], count)
        if kind in ("open", "closed"):
            return [(kind, at, 1)]
        if kind == "broken":
            return [("open", cross, 1) for cross in self.broken(at)]
        if kind in ("cells", "registers"):
            value = self.chance.randrange(2)
            return [("cell", (at, self.chance.randrange(64)), value) if kind == "cells" else ("register", at, value)]
        if kind in ("bridges", "neighbours"):
            other = self.part("wire", count) if kind == "bridges" else self.neighbour(at)
            return [("bridge", tuple(sorted((at, other))), 1)] if other not in (None, at) else []
        return [({"wires": self.chance.choice(("stuck0", "stuck1"))}.get(kind, kind), at, 1)]


def add_one(places, kind, count, faults):
    """One more fault of a kind, of so many. What stands there already or against another is drawn anew."""
    for tried in range(TRIES):
        if [faults.add(*fault) is None for fault in places.faults(kind, count)].count(True):
            return
        if places.middles and tried % 100 == 99:  # clusters seem to be full: one more is begun
            places.middles[KINDS[kind][0]].append(places.middle(KINDS[kind][0]))
    raise ValueError(f"{kind}: {count} are too many for this machine")


def add_crosspoints(places, kind, count, faults):
    """As many calls of `add_one`, for crosspoints that may lie anywhere, of which millions may be wanted."""
    draw, parts, own, against = places.chance.randrange, places.machine.sizes["cross"], faults[kind], faults[texts.AGAINST[kind]]
    for _ in range(count):
        for _ in range(TRIES):
            if (at := draw(parts)) not in own and at not in against:
                own[at] = 1
                break
        else:
            raise ValueError(f"{kind}: {count} are too many for this machine")


def make_faults(machine, amounts, seed, clustered=0, shape="spots"):
    """Faults of the kinds that `amounts` names; the same seed gives the same faults."""
    chance, faults = random.Random(seed), texts.Faults()
    places = Places(machine, chance, clustered, shape)
    for kind, wanted in amounts.items():
        group, each, room = KINDS[kind][0], PLACES.get(kind, 1), machine.limits.faults - faults.count
        parts, count = machine.sizes[group] * each, places.count(wanted, group, each)
        if count > room:
            rate = f"; of {kind} {largest_rate(room, parts):.4f} is the largest rate that fits" if isinstance(wanted, float) else ""
            raise ValueError(f"{kind}: {count} faults, and a fault file holds at most {machine.limits.faults:,} in all{rate}")
        if kind in ("open", "closed") and not clustered:
            add_crosspoints(places, kind, count, faults)
            continue
        opened = len(faults["open"])
        for _ in range(count):
            # Of breaks a rate says how many crosspoints are open, not how many wires break.
            if kind == "broken" and isinstance(wanted, float) and len(faults["open"]) >= opened + count:
                break
            add_one(places, kind, count, faults)
            if faults.count > machine.limits.faults:
                raise ValueError(f"{kind}: so many wires open more crosspoints than the {machine.limits.faults:,} faults of a file")
    return faults


def add_clusters(parser):
    """The words that say how faults lie."""
    parser.add_argument("--clustered", metavar="SIZE", type=size, default=0, help="in clusters of about SIZE faults (default: uniform)")
    shapes = "; ".join(f"{shape}: {words}" for shape, words in SHAPES.items()).replace("%", "%%")
    parser.add_argument("--shape", choices=list(SHAPES), default="spots", help=f"of the clusters. {shapes} (default: spots)")


def main():
    parser = argparse.ArgumentParser(description=__doc__, epilog="AMOUNT is a rate (0.01 or 1%: each part by itself) or a count (12).")
    parser.add_argument("machine", help="the machine's file")
    for kind, (_, help_text) in KINDS.items():
        parser.add_argument(f"--{kind}", metavar="AMOUNT", type=amount, help=help_text)
    add_clusters(parser)
    parser.add_argument("--seed", type=int, default=1, help="the same seed gives the same file (default: 1)")
    parser.add_argument("-o", "--output", default="-", help="a new file (default: standard output)")
    args = parser.parse_args()
    machine = texts.read_text(texts.read_machine, args.machine)
    amounts = {kind: getattr(args, kind) for kind in KINDS if getattr(args, kind)}
    try:
        faults = make_faults(machine, amounts, args.seed, args.clustered, args.shape)
    except ValueError as error:
        sys.exit(str(error))
    texts.write_new(args.output, texts.faults_text(machine, faults))


if __name__ == "__main__":
    main()
