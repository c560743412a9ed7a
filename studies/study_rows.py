"""The rows of a study: read, put into groups, and counted, with intervals."""

import csv
import math
import sys
from collections import Counter

from program import UNDECIDED, fill_of, interval, student

PARTS = {"": "", " of growth": "_growth", " of the sweep": "_sweep", " of tests of tables": "_tables"}
COSTS = {cost + words: cost + name for cost in ("loads", "cycles") for words, name in PARTS.items()}
NUMBERS = [*"crosspoints rate seed faults thrown_wires thrown_crosses thrown_tables tables closed spare pins written wrong_rows diagnose_processor".split(), *COSTS.values()]
DECIDED = ("0", "3", "7", "wrong")  # 7: the copies of `twice` differ
LEVELS = ("root", "module", "chip", "hextant")


def read_rows(path):
    """The rows of a study, with numbers as numbers; ends where a run was none."""
    try:
        with open(path, encoding="utf-8", newline="") as file:
            rows = list(csv.DictReader(file))
        for row in rows:
            row |= {name: float(row[name]) if row.get(name) else None for name in NUMBERS}
            row |= {"variant": row["design"], "design": fill_of(row["design"]), "spared": row.get("spared") or ""}
    except (OSError, ValueError, TypeError, KeyError) as error:
        sys.exit(f"{path}: no rows of a study ({error})")
    if not rows or not {"machine", "kind", "rate", "design", "list", "status"} <= rows[0].keys():
        sys.exit(f"{path}: no rows of a study")
    for number, row in enumerate(rows, 2):
        if row["status"] not in DECIDED + UNDECIDED:
            sys.exit(f"{path}: line {number}: a run that ended with status {row['status']} is no run; mend what it was given")
    return once(rows)


def once(rows):
    """The rows, of runs at rate 0 one of each: without faults each further run is the same and says nothing new."""
    names = [name for name in ("machine", "kind", "variant", "list", "spare", "spared") if name in rows[0]]
    first = {tuple(row[name] for name in names): row for row in reversed(rows) if not row["rate"]}
    return [row for row in rows if row["rate"] or first[tuple(row[name] for name in names)] is row]


def split(rows, *columns):
    """The rows by their values in some columns: numbers in their order, words as they come first."""
    found, first = {}, {}
    for row in rows:
        found.setdefault(tuple(row[column] for column in columns), []).append(row)
    for values in found:
        for value in values:
            first.setdefault(value, len(first))
    return dict(sorted(found.items(), key=lambda item: [first[value] if isinstance(value, str) else value or 0 for value in item[0]]))


def share(rows, holds=lambda row: row["status"] == "0"):
    """Of the decided runs the share for which something holds, with its interval; then how many were decided, and how many not.

    Of a single run there is no interval, nor of runs without faults.
    """
    decided = [row for row in rows if row["status"] not in UNDECIDED]
    hits, by_design = sum(map(holds, decided)), {}
    for row in decided:
        of = by_design.setdefault(row["variant"], [0, 0])
        of[:] = of[0] + holds(row), of[1] + 1
    alone = len(decided) == 1 or (rows and not any(row["rate"] for row in rows))
    bounds = (None, None) if alone else interval(by_design.values())
    return [hits / len(decided) if decided else math.nan, *bounds, len(decided), len(rows) - len(decided)]


def mean(values):
    """The mean with its interval of 95 % by Student's law, of which a single value has none, and how many there are."""
    middle, free = sum(values) / len(values), len(values) - 1
    if not free:
        return [middle, None, None, 1]
    half = student(free) * math.sqrt(sum((value - middle) ** 2 for value in values) / free / len(values))
    return [middle, max(0.0, middle - half), middle + half, len(values)]


def cause(row):
    """What was short in a run that didn't fit: the resource, and the level of its node; None where it fits."""
    _, resource, node = (row["refusal"].split() + ["", "", ""])[:3]
    if row["status"] != "3" or resource in ("tables", "pins"):
        return resource or None
    return f"{resource} of the root" if node == "r" else f"{resource} of {LEVELS[node.count('.') + 1]}s"


def diagnoses(rows, column):
    """One row for each diagnosis of which something is told."""
    told = [row for row in rows if row["list"] in ("diagnosed", "told") and row[column] is not None]
    return [part[0] for part in split(told, "machine", "kind", "rate", "seed").values()]


def paired(rows, one, other):
    """Of the sets of faults that were tried on both lists how many runs are right on both, on one alone, on the other alone, on none."""
    right = {}
    for row in rows:
        if row["list"] in (one, other) and row["status"] not in UNDECIDED:
            run = tuple(row[column] for column in ("machine", "kind", "rate", "seed", "variant"))
            right.setdefault(run, {})[row["list"]] = row["status"] == "0"
    found = Counter((those[one], those[other]) for those in right.values() if len(those) == 2)
    return [found[True, True], found[True, False], found[False, True], found[False, False]]


