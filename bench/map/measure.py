"""Measures the mapper: python3 measure.py FOLDER PROGRAM ROWS.csv [--room]. FOLDER is what make.py made, PROGRAM the built teramac_map.

Of each design of 20 to 5,000 tables a row: tables and depth of the plain network of its text, of what ABC makes of it by `if -K 6 -a` and
by `if -K 6`, and of the mapper's text, with the mapper's seconds of processor; and the tables of the best of three scripts of ABC. With
--room a row of each design of 100 to MOST tables: crosspoints of the least machine of a tree for the text as given, and of the least one
that studies/size.py finds for a text of the mapper. Rows that stand in ROWS.csv are kept; at the end comes a table of all by kind.
"""

import csv
import math
import os
import resource
import subprocess
import sys
import tempfile
from pathlib import Path

sys.path.append(str(Path(__file__).resolve().parents[2] / "studies"))
import designs  # noqa: E402
import size  # noqa: E402
import teramac_texts as texts  # noqa: E402

AREA = "read_blif {given}; strash; if -K 6 -a; write_blif {out}"
DEPTH = "read_blif {given}; strash; if -K 6; write_blif {out}"
THRICE = "read_blif {given}; " + "strash; ifraig; dch; if -K 6 -a; mfs2; " * 3 + "write_blif {out}"
CHOICES = "read_blif {given}; " + "strash; dch; if -K 6 -a; mfs2; " * 3 + "strash; ifraig; if -K 6 -a; mfs2; write_blif {out}"
COLUMNS = "design kind given area best mapped given_depth area_depth least_depth mapped_depth latches seconds own".split()
ROOM = "design kind given latches crosspoints least seconds".split()
# The trees, each for designs of at most so many tables, with 16 tables in a hextant.
TREES = {256: (2, 2, 4), 1024: (4, 4, 4), 2048: (4, 4, 8)}
LEAST, MOST = 100, int(os.environ.get("MOST", "700"))


def network_of(data):
    return designs.plain_network(texts.read_design(data))


def depth_of(network, latches):
    """How many tables lie one behind the other, those of latches not counted."""
    logic = len(network.tables) - latches
    levels, path = {}, list(range(logic))
    while path:
        table = path[-1]
        read = [source - network.inputs for source in network.tables[table] if network.inputs <= source < network.inputs + logic]
        new = [below for below in read if below not in levels]
        path += new
        if not new:
            levels[path.pop()] = 1 + max((levels[below] for below in read), default=0)
    return max(levels.values(), default=0)


def sizes_of(text):
    """The tables and the depth of a text."""
    network = network_of(text)
    return len(network.tables), depth_of(network, len(texts.read_design(text).latches))


def by_abc(script, given):
    """The tables and the depth of what ABC writes."""
    with tempfile.NamedTemporaryFile(suffix=".blif") as out:
        words = ["berkeley-abc", "-q", script.format(given=given, out=out.name)]
        subprocess.run(words, capture_output=True, timeout=900, check=True)
        return sizes_of(Path(out.name).read_bytes())


def used():
    """The seconds of processor that the programs called so far have taken."""
    found = resource.getrusage(resource.RUSAGE_CHILDREN)
    return found.ru_utime + found.ru_stime


def measured(program, design, kind, given):
    """Tables and depths of a design by all ways, of which one is the mapper's."""
    before = used()
    text = subprocess.run([program, design], capture_output=True, check=True).stdout
    seconds, latches, own = used() - before, len(texts.read_design(given).latches), int(text == given)
    area = by_abc(AREA, design)
    best = min(area[0], by_abc(THRICE, design)[0], by_abc(CHOICES, design)[0])
    found = list(zip(sizes_of(given), area, (best, by_abc(DEPTH, design)[1]), sizes_of(text)))
    return [design.stem, kind, *found[0], *found[1], latches, round(seconds, 2), own]


def smallest(program, design, kind, given):
    """Crosspoints of the least machine for the text as given, and of the least one that was found for a text of the mapper."""
    drafted, before = texts.read_design(given), used()
    network = designs.plain_network(drafted)
    tree = next(tree for most, tree in TREES.items() if len(network.tables) <= most)
    machine = texts.Machine(size.counts_for(network, tree, 0.0, 16))
    least, _ = size.remapped(program, design, machine, given)
    sizes = [len(network.tables), len(drafted.latches), machine.sizes["cross"], least.sizes["cross"]]
    return [design.stem, kind, *sizes, round(used() - before, 1)]


def by_kind(rows):
    """The rows of each kind, then all of them."""
    kinds = list(dict.fromkeys(row["kind"] for row in rows))
    return {kind: [row for row in rows if row["kind"] == kind] for kind in kinds} | {"all": rows}


def mean_of(part, column, other):
    """The geometric mean of one number against another."""
    logs = [math.log(max(int(row[column]), 1) / max(int(row[other]), 1)) for row in part]
    return f"{math.exp(sum(logs) / len(logs)):.3f}"


def tables_of(rows):
    """A table in Markdown of sums and geometric means by kind, and the texts with more than one table or one percent above `if -a`."""
    yield "| Kind | Texts | given | `if -a` | best | mapped | against `if -a` | against best | depth: `if -a` | `if` | Seconds | own text |"
    yield "|---|---|---|---|---|---|---|---|---|---|---|---|"
    for kind, part in by_kind(rows).items():
        sums = " | ".join(f"{sum(int(row[column]) for row in part):,}" for column in ("given", "area", "best", "mapped"))
        pairs = ("mapped", "area"), ("mapped", "best"), ("mapped_depth", "area_depth"), ("mapped_depth", "least_depth")
        means = " | ".join(mean_of(part, *pair) for pair in pairs)
        seconds, own = sum(float(row["seconds"]) for row in part), sum(int(row["own"]) for row in part)
        yield f"| {kind} | {len(part)} | {sums} | {means} | {seconds:.1f} | {own} |"
    above = [row for row in rows if int(row["mapped"]) > max(int(row["area"]) + 1, int(row["area"]) * 1.01)]
    yield "above `if -a`: " + (", ".join(f"{row['design']} {row['mapped']} for {row['area']}" for row in above) or "none")


def rooms_of(rows):
    """A table in Markdown of geometric means by kind."""
    yield "| Kind | Texts | least against given | without latches | less than a fifth latches | more |"
    yield "|---|---|---|---|---|---|"

    def mean(part):
        logs = [math.log(int(row["least"]) / int(row["crosspoints"])) for row in part]
        return f"{math.exp(sum(logs) / len(logs)):.3f} ({len(logs)})" if logs else ""

    for kind, part in by_kind(rows).items():
        shares = [int(row["latches"]) / int(row["given"]) for row in part]
        parts = [[row for row, share in zip(part, shares) if low <= share < high] for low, high in ((0, 1e-9), (1e-9, 0.2), (0.2, 2))]
        yield f"| {kind} | {len(part)} | {mean(part)} | " + " | ".join(map(mean, parts)) + " |"


def main(folder, program, path, room):
    columns, least, most, measure = (ROOM, LEAST, MOST, smallest) if room else (COLUMNS, 20, 5000, measured)
    Path(path).touch()
    with open(path, encoding="utf-8", newline="") as file:
        rows = list(csv.DictReader(file, columns))
    stand = {row["design"] for row in rows}
    for design in sorted(Path(folder).glob("*.blif"), key=lambda file: file.stat().st_size):
        given = design.read_bytes()
        if design.stem not in stand and least <= len(network_of(given).tables) <= most:
            found = measure(program, design, design.name.partition("-")[0], given)
            rows.append(dict(zip(columns, map(str, found))))
            with open(path, "a", encoding="utf-8", newline="") as file:
                csv.writer(file, lineterminator="\n").writerow(found)
    print("\n".join((rooms_of if room else tables_of)(rows)))


if __name__ == "__main__":
    main(*sys.argv[1:4], "--room" in sys.argv)
