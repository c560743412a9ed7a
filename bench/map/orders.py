"""Orders by the mapper and by plain annealing: python3 orders.py FOLDER PROGRAM ANNEAL ROWS.csv. FOLDER is what make.py made, PROGRAM the
built teramac_map, ANNEAL the built anneal.cpp.

Of each design of 110 to 224 tables (or LEAST to MOST) the ports and lines of the machine that just holds the text as given are pressed
down at all levels at once, to each of SHARES. For each machine a row: tables as given and mapped, the status of `teramac_map MACHINE
DEFECTS DESIGN` and its seconds of processor, and, where it is refused, whether annealing of the text of `teramac_map DESIGN` finds an order
with 1,500,000 tries, and in how many seconds. An order that it finds is counted again by the plan in order. Rows that stand are kept.
"""

import csv
import os
import subprocess
import sys
import tempfile
from pathlib import Path

sys.path.append(str(Path(__file__).resolve().parents[2] / "studies"))
import designs  # noqa: E402
import size  # noqa: E402
import teramac_texts as texts  # noqa: E402
from measure import TREES, network_of, used  # noqa: E402

TRIES = "1500000"
LEAST, MOST = (int(os.environ.get(*pair)) for pair in (("LEAST", "110"), ("MOST", "224")))
SHARES = [float(share) for share in os.environ.get("SHARES", "0.75 0.6").split()]
COLUMNS = "design share given mapped latches status seconds annealed annealing".split()


def moved(network, latches, seats, room):
    """The network with its tables on these seats, empty ones between them."""
    place = {old: new for old, new in enumerate(seats)}
    tables = [[] for _ in range(max(seats) + 1 if not latches else room + latches)]

    def at(source):
        return source if source < network.inputs else network.inputs + place[source - network.inputs]

    for old, table in enumerate(network.tables):
        tables[place[old]] = [at(source) for source in table]
    return designs.Network(network.inputs, tables, [at(net) for net in network.outputs])


def fits(network, counts):
    return all(want <= have for want, have in zip(designs.needs(network, *counts[:4]), counts[4:11]))


def numbers_of(network, latches, counts, room):
    """What anneal.cpp reads."""
    nets = [[] for _ in range(network.inputs)] + [[k] for k in range(len(network.tables))]
    for k, sources in enumerate(network.tables):
        for source in sources:
            nets[source].append(k)
    pins = [int(net < network.inputs) + network.outputs.count(net) for net in range(len(nets))]
    listed = [" ".join(map(str, [pins[k], len(ends), *sorted(ends)])) for k, ends in enumerate(nets)]
    head = [*counts[:11], room, len(network.tables) - latches, len(network.tables), len(nets)]
    return "\n".join([" ".join(map(str, head)), *listed])


def anneal(program, text, counts, tables):
    """Whether an order of a text is found for a machine with these counts, with as many empty covers as bring it to so many tables."""
    drafted = texts.read_design(text)
    network, latches = designs.plain_network(drafted), len(drafted.latches)
    room = max(tables, len(network.tables)) - latches
    given = numbers_of(network, latches, counts, room)
    seats = [int(line) for line in subprocess.run([program, TRIES], input=given.encode(), capture_output=True, check=True).stdout.split()]
    if seats and not fits(moved(network, latches, seats, room), counts):
        sys.exit("the order that was found does not fit")
    return bool(seats)


def tried(program, annealer, design, share):
    """The row of a design on a machine pressed so far."""
    given, latches = network_of(design.read_bytes()), len(texts.read_design(design.read_bytes()).latches)
    tables = len(given.tables)
    tree = next(tree for most, tree in TREES.items() if tables <= most)
    machine = texts.Machine(size.pressed(size.counts_for(given, tree, 0.0, 16), share, range(4), tables))
    mapped = subprocess.run([program, design], capture_output=True, check=True).stdout
    with tempfile.TemporaryDirectory() as folder:
        words = [Path(folder, "machine"), Path(folder, "defects"), design]
        words[0].write_text(machine.text, encoding="utf-8")
        words[1].write_text(texts.defects_text(machine, texts.Defects()), encoding="utf-8")
        before = used()
        status = subprocess.run([program, *words], capture_output=True, check=False).returncode
        seconds = used() - before
    row = [design.stem, share, tables, len(network_of(mapped).tables), latches, status, round(seconds, 2)]
    if status == 0:
        return [*row, "", ""]
    before = used()
    found = anneal(annealer, mapped, machine.counts, tables)
    return [*row, int(found), round(used() - before, 2)]


def main(folder, program, annealer, path):
    Path(path).touch()
    with open(path, encoding="utf-8", newline="") as file:
        stand = {(row["design"], row["share"]) for row in csv.DictReader(file, COLUMNS)}
    for design in sorted(Path(folder).glob("*.blif"), key=lambda file: file.stat().st_size):
        if LEAST <= len(network_of(design.read_bytes()).tables) <= MOST:
            for share in SHARES:
                if (design.stem, str(share)) not in stand:
                    with open(path, "a", encoding="utf-8", newline="") as file:
                        csv.writer(file, lineterminator="\n").writerow(tried(program, annealer, design, share))


if __name__ == "__main__":
    main(*sys.argv[1:5])
