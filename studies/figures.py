#!/usr/bin/env python3
"""Figures of a study's rows, and beside each the table that it shows, as CSV."""

import argparse
import csv
import math
import os
import sys
import textwrap
from collections import Counter
from itertools import combinations, cycle

import matplotlib.pyplot as plt

from program import UNDECIDED, mcnemar
from size import TREES, bearing_crosspoints, network_named
from study_rows import COSTS, cause, diagnoses, mean, paired, read_rows, share, split

plt.switch_backend("svg")
plt.rcParams.update({"svg.hashsalt": "teramac", "legend.fontsize": 8, "legend.handlelength": 3.6, "axes.grid": True, "grid.alpha": 0.3})
FAULTS = {  # each kind in the words of a title
    "open": "crosspoints that are open",
    "closed": "crosspoints that are closed",
    "broken": "broken wires",
    "wires": "stuck wires",
    "stuck0": "wires stuck at 0",
    "stuck1": "wires stuck at 1",
    "cells": "wrong cells of tables",
    "registers": "tables with a stuck register",
    "bridges": "bridges of any wires",
    "neighbours": "bridges of neighbours",
}
SHARE = ["share", "low", "high", "runs", "undecided"]
STYLES = {  # how each list is drawn, named, and modelled
    "exact": ("-", "o", "exact list", "every fault and nothing else is listed; compile, run"),
    "diagnosed": ((0, (6, 3)), "s", "own diagnosis", "the list of diagnose; compile, run"),
    "mapped": ((0, (1, 3)), "*", "exact list, design remapped", "teramac_map writes a text for this machine and list; compile, run"),
    "wires": ((0, (1, 1.5)), "^", "spare rows and columns", "of a faulty crosspoint its tap or line is given up, of a table its output"),
    "hextants": ("-.", "D", "whole hextants dropped", "a hextant with a fault is given up, above the exact list"),
    "none": ((0, (8, 2, 1, 2)), "x", "no list", "the design as it is, undiagnosed; right where its rows are"),
    "triplicated": ((0, (3, 1, 1, 1)), "v", "three copies with voters", "voters at latches and outputs, undiagnosed"),
    "triplicated_pins": ((0, (3, 1, 3, 1, 1, 1)), "P", "three copies, also of pins", "likewise; outputs are voted outside"),
    "go": ("-", "p", "one copy (go)", "go; the faults come while the design runs"),
    "twice": ((0, (5, 2)), "h", "two copies (twice)", "twice; the faults come while the design runs"),
    "told": ("-", "X", "own diagnosis, as told", "what teramac_report tells of a diagnosis"),
}


def sets_of(rows):
    """How many sets of faults there are at each rate, in words, and of designs that fill a machine alike how many these are."""
    several = max(len({row["variant"] for row in part}) for part in split(rows, "design").values())
    return faults_of(rows) + (f", {several} designs of each fill" if several > 1 else "")


def faults_of(rows):
    parts = [{row["seed"] for row in part} for (_, _, rate), part in split(rows, "machine", "kind", "rate").items() if rate]
    least, most = min(map(len, parts), default=0), max(map(len, parts), default=0)
    if not most:
        return "without faults"
    return f"{least} to {most} sets of faults at each rate" if least < most else f"{most} set{'s' * (most > 1)} of faults at each rate"


def facets(rows, columns=("machine", "kind")):
    """A picture with one pair of axes for each machine and kind; gives it, and for each the axes and the rows."""
    parts = split(rows, *columns)
    across = 2 if len(parts) in (4, 8) else min(3, len(parts))
    down = -(-len(parts) // across)
    picture, axes = plt.subplots(down, across, figsize=(1.6 + 5.6 * across, 4.2 * down), squeeze=False, layout="constrained")
    for spare in axes.flat[len(parts) :]:
        spare.remove()
    for here, names in zip(axes.flat, parts):
        named = {"kind": lambda name: FAULTS.get(name, f"faults: {name}"), "list": lambda name: STYLES[name][2]}
        named["spared"] = lambda name: f"to spare: {name} parts" if name == "all" else f"to spare: {name}"
        title = ", ".join(named.get(column, str)(name) for column, name in zip(columns, names))
        here.set_title(f"{title}\n{sets_of(parts[names])}", fontsize=10)
    return picture, list(zip(axes.flat, parts, parts.values()))


def axis_of_rates(axes, rates):
    """An axis of rates, which is logarithmic where they are far apart; gives what puts a rate a little to the side, by some steps."""
    known = sorted(rate for rate in rates if rate)
    if len(known) < len(rates) or not known or max(known) < 12 * min(known):
        return lambda rate, steps: rate + steps * max(known, default=1) / 250
    axes.set_xscale("log")
    axes.set_xticks(known, [f"{rate:g}" for rate in known])
    axes.minorticks_off()
    return lambda rate, steps: rate * (max(known) / min(known)) ** (steps / 250)


def curve(axes, across, points, off, style, **more):
    """A curve of shares or means with the bars of those that have intervals, a little to the side of others; `off` is how far, or says."""
    (line, marker), places = style[:2], [off(x) if callable(off) else x + off for x in across]
    drawn = axes.plot(places, [point[0] for point in points], linestyle=line, marker=marker, markersize=4, linewidth=1.4, **more)
    known = [(x, point[:3]) for x, point in zip(places, points) if None not in point[:3]]
    bars = [[abs(point[0] - point[bound]) for _, point in known] for bound in (1, 2)]
    if known:
        at, heights = [x for x, _ in known], [point[0] for _, point in known]
        axes.errorbar(at, heights, bars, linestyle="none", color=drawn[0].get_color(), capsize=2, linewidth=1.4)


def undecided_marks(axes, rows, places, column="rate"):
    """Runs that were cut off or found no memory, as a curve of their own."""
    marks = [sum(row["status"] in UNDECIDED for row in part) / len(part) for part in split(rows, column).values()]
    if any(marks):
        axes.plot(places, marks, color="grey", marker="P", linestyle=":", label="undecided (cut off, no memory), left out")


def of_shares(axes, rows, across, places, column="rate"):
    """What all axes of shares have; the places are those of undecided runs, if they aren't drawn yet."""
    if places:
        undecided_marks(axes, rows, places, column)
    axes.set(ylim=(-0.04, 1.04), xlabel=across, ylabel="share of runs (bars: 95 %)")
    axes.legend(loc="upper center", bbox_to_anchor=(0.5, -0.15), ncol=2)


def fits(rows, _):
    """What share of the runs fits and runs right, against the rate of faults"""
    many = max(len({(row["design"], row["list"]) for row in part}) for part in split(rows, "machine", "kind").values()) > 6
    picture, parts = facets(rows, ("machine", "kind", *["design"] * many))
    table = []
    for axes, names, part in parts:
        colours = dict(zip(split(part, "list" if many else "design"), cycle(f"C{k}" for k in range(10))))
        rates = sorted({row["rate"] for row in part})
        beside = axis_of_rates(axes, rates)
        for k, ((design, kind), runs) in enumerate(split(part, "design", "list").items()):
            points = {rate: share(of) for (rate,), of in split(runs, "rate").items()}
            table += [[*names[:2], design, kind, rate, *point] for rate, point in points.items()]
            look = {"color": colours[(kind if many else design,)], "label": f"{design}, {STYLES[kind][2]}"}
            curve(axes, points, points.values(), lambda rate, k=k: beside(rate, k - 2), STYLES[kind], **look)
        of_shares(axes, part, "rate of faults", rates)
    return picture, ["machine", "kind", "design", "list", "rate", *SHARE], table


def machines(rows, _):
    """Several machines in one pair of axes: what share of the runs fits and runs right, against the rate of faults"""
    picture, parts = facets(rows, ("design", "list", "kind"))
    table = []
    for axes, names, part in parts:
        rates = sorted({row["rate"] for row in part})
        beside = axis_of_rates(axes, rates)
        for k, ((size, machine), runs) in enumerate(split(part, "crosspoints", "machine").items()):
            points = {rate: share(of) for (rate,), of in split(runs, "rate").items()}
            table += [[*names, machine, size, rate, *point] for rate, point in points.items()]
            look = {"color": plt.get_cmap("viridis")(k / max(1, len(split(part, "machine")) - 0.5)), "label": f"{machine}: {size:,.0f}"}
            curve(axes, points, points.values(), lambda rate, k=k: beside(rate, k - 2), ("-", "os^Dv*XP"[k % 8]), **look)
        of_shares(axes, part, "rate of faults; below: machines and their crosspoints", rates)
    return picture, ["design", "list", "kind", "machine", "crosspoints", "rate", *SHARE], table


def price(rows, _):
    """What share of the machines has room, against the crosspoints paid, where all parts are spared or lines alone"""
    picture, parts = facets(rows, ("design", "list", "kind"))
    looks, table = {"all": "-", "lines": (0, (2, 1.5))}, []
    for axes, names, part in parts:
        least = min(row["crosspoints"] for row in part)
        colours = {rate: f"C{k}" for k, (rate,) in enumerate(split(part, "rate"))}
        for k, ((spared, rate), runs) in enumerate(split(part, "spared", "rate").items()):
            found = {(size, spare): share(of) for (size, spare), of in split(runs, "crosspoints", "spare").items()}
            table += [[*names, spared, rate, spare, size, size / least, *point] for (size, spare), point in found.items()]
            said, places = {"lines": "lines"}.get(spared, "all parts"), [size / least for size, _ in found]
            look = {"color": colours[rate], "label": f"{said} to spare, rate {rate:g}"}
            curve(axes, places, found.values(), 0.004 * k, (looks.get(spared, "-"), "os^Dv"[[*colours].index(rate) % 5]), **look)
        undecided_marks(axes, part, [size / least for (size,) in split(part, "crosspoints")], "crosspoints")
        of_shares(axes, part, f"crosspoints, in times {least:,.0f}", None)
    return picture, ["design", "list", "kind", "spared", "rate", "spare", "crosspoints", "times", *SHARE], table


def why(rows, _):
    """What was short where a run didn't fit: the first resource that refuses, by level"""
    kinds = {row["list"] for row in rows}
    shown = "diagnosed" if "diagnosed" in kinds else min(kinds)
    rows = [row for row in rows if row["list"] == shown]
    picture, parts = facets(rows, ("machine", "design", "kind"))
    causes = [found for found, _ in Counter(map(cause, rows)).most_common() if found]
    table = []
    for axes, names, part in parts:
        by_rate, below = split(part, "rate"), Counter()
        for found, colour in zip(causes, cycle(plt.get_cmap("tab10").colors)):
            for place, ((rate,), runs) in enumerate(by_rate.items()):
                point = share(runs, lambda row, found=found: cause(row) == found)
                table.append([*names, shown, rate, found, *point])
                axes.bar(place, point[0], 0.8, bottom=below[rate], color=colour, label="" if place else found)
                below[rate] += 0 if math.isnan(point[0]) else point[0]
        undecided_marks(axes, part, range(len(by_rate)))
        axes.set_xticks(range(len(by_rate)), [f"{rate:g}" for (rate,) in by_rate])
        axes.set(ylim=(0, 1.02), xlabel="rate of faults", ylabel=f"share of runs ({STYLES[shown][2]})")
    if causes:
        parts[min(2, len(parts) - 1)][0].legend(loc="upper left", bbox_to_anchor=(1, 1))
    return picture, ["machine", "design", "kind", "list", "rate", "short", *SHARE], table


def nothing(title):
    """A picture that says why it shows nothing."""
    picture, axes = plt.subplots(figsize=(7.2, 4.4))
    axes.axis("off")
    axes.text(0.5, 0.5, textwrap.fill(title, 50), ha="center", va="center", fontsize=12)
    return picture


def axis_of_counts(axes, most, label, unit=1):
    """A logarithmic axis that shows 0 too, up to somewhat more than the most, in units of so many."""
    ticks = [0, *(10**k for k in range(math.ceil(math.log10(max(1, most))) + 1))]
    axes.set_yscale("symlog", linthresh=1)
    axes.set_yticks(ticks, [f"{tick / unit:,.10g}" for tick in ticks])
    axes.set(ylim=(-0.1, 1.3 * max(1, most)), ylabel=label)


def thrown(rows, _):
    """Sound parts that the diagnosis throws away (mean, bars: 95 %)"""
    rows, columns = diagnoses(rows, "thrown_wires"), ["machine", "kind", "rate", "part", "mean", "low", "high", "diagnoses"]
    if not rows:
        return nothing("no row of these is of a diagnosis"), columns, []
    picture, parts = facets(rows)
    table = []
    for axes, names, part in parts:
        for kind, marker in (("wires", "o"), ("crosses", "s"), ("tables", "^")):
            named, by_rate = {"crosses": "crosspoints"}.get(kind, kind), split(part, "rate")
            points = {rate: mean([row[f"thrown_{kind}"] for row in runs]) for (rate,), runs in by_rate.items()}
            table += [[*names, rate, named, *point] for rate, point in points.items()]
            curve(axes, points, points.values(), 0, ("-", marker), label=named)
        axis_of_counts(axes, max(line[-2] or line[-4] for line in table if line[:2] == [*names]), "sound parts on the list")
        axes.set_xlabel("rate of faults")
        axes.legend(loc="upper left")
    return picture, columns, table


def loads(rows, per_second):
    """Loads and cycles of a diagnosis, and what loads take on a machine of so many a second; the table has them by part"""
    rows, columns = diagnoses(rows, "loads"), ["mean", "low", "high", "diagnoses", "seconds"]
    if not rows:
        return nothing("no loads were told: build crates/teramac_report (rt run there) or name it by TERAMAC_REPORT"), columns, []
    one = len({row["crosspoints"] for row in rows}) == 1  # then against the rate
    series, along = (("machine", "kind"), "rate") if one else (("kind", "rate"), "crosspoints")
    rows = [{**row, "part": part, "count": row[name]} for row in rows for part, name in COSTS.items() if row[name] is not None]
    picture, parts = facets([row for row in rows if row["part"] in ("loads", "cycles")], ("part",))
    table, most = [], max(row["count"] for row in rows)
    for (part, *names), those in split(rows, "part", *series).items():
        points = {x: mean([row["count"] for row in of]) for (x,), of in split(those, along).items()}
        of_loads = part.startswith("loads")
        table += [[part, *names, x, *point, point[0] / per_second if of_loads else ""] for x, point in points.items()]
    for axes, part, runs in parts:
        of_loads = part[0].startswith("loads")
        for (names, those), marker in zip(split(runs, *series).items(), cycle("os^Dv")):
            points = {x: mean([row["count"] for row in of]) for (x,), of in split(those, along).items()}
            words = [f"rate {name:g}" if isinstance(name, float) else name for name in names]
            curve(axes, points, points.values(), 0, ("-", marker), label=", ".join(words))
        axes.set(xlabel="rate of faults" if one else "crosspoints of the machine", xscale="linear" if one else "log")
        axis_of_counts(axes, most, f"{part[0].split()[0]} (mean, bars: 95 %)")
        if of_loads:
            axis_of_counts(axes.twinx(), most, f"seconds at {per_second:g} loads a second", per_second)
    parts[0][0].legend(fontsize=7)
    return picture, ["part", *series, along, *columns], table


def sizes(rows, _):
    """How many crosspoints a load of a diagnosis decides, and the processor's seconds of the diagnosis, against the machine's crosspoints"""
    rows, columns = diagnoses(rows, "loads"), ["kind", "rate", "machine", "crosspoints", "what", "mean", "low", "high", "diagnoses"]
    if not rows:
        return nothing("no loads were told: build crates/teramac_report (rt run there) or name it by TERAMAC_REPORT"), columns, []
    picture, both = plt.subplots(1, 2, figsize=(12.8, 4.8), layout="constrained")
    named = {"crosspoints a load": lambda row: row["crosspoints"] / row["loads"], "seconds": lambda row: row["diagnose_processor"]}
    table = []
    for axes, (what, value) in zip(both, named.items()):
        timed = [row for row in rows if value(row) is not None]
        for ((kind, rate), part), marker in zip(split(timed, "kind", "rate").items(), cycle("os^Dv")):
            points = {names: mean([value(row) for row in of]) for names, of in split(part, "crosspoints", "machine").items()}
            table += [[kind, rate, machine, size, what, *point] for (size, machine), point in points.items()]
            curve(axes, [size for size, _ in points], points.values(), 0, ("-", marker), label=f"{kind}, rate {rate:g}" if rate else "sound")
        axes.set(xscale="log", yscale="log", xlabel="crosspoints of the machine", ylabel=what)
    both[0].legend(loc="upper left")
    return picture, columns, table


def redundancy(rows, _):
    """What share of the machines has room, against what is to spare; grey: the crosspoints paid, of those of the least machine"""
    spared = {row["spared"] for row in rows} - {"", "all"}
    picture, parts = facets(rows, ("design", "list", "kind", *["spared"] * bool(spared)))
    table = []
    for axes, names, part in parts:
        sizes = {spare: runs[0]["crosspoints"] for (spare,), runs in split(part, "spare").items()}
        least, right = min(sizes.values()), axes.twinx()
        right.fill_between([100 * spare for spare in sizes], [size / least for size in sizes.values()], color="grey", alpha=0.15)
        right.set(ylim=(0, 1.15 * max(sizes.values()) / least), ylabel=f"crosspoints, in times {least:,.0f}")
        right.grid(False)
        axes.set_zorder(right.get_zorder() + 1)
        axes.patch.set_visible(False)
        for k, ((rate,), runs) in enumerate(split(part, "rate").items()):
            points = {spare: share(of) for (spare,), of in split(runs, "spare").items()}
            table += [[*names, rate, spare, sizes[spare], *point] for spare, point in points.items()]
            places = [100 * spare for spare in points]
            curve(axes, places, points.values(), max(places) * (k - 1) / 250, ("-", "os^Dv"[k % 5]), color=f"C{k}", label=f"rate {rate:g}")
        of_shares(axes, part, "spare parts, of 100 that the plan wants", places, "spare")
    return picture, ["design", "list", "kind", *["spared"] * bool(spared), "rate", "spare", "crosspoints", *SHARE], table


def compare(rows, _):
    """Schemes on machines of one size: the share of runs that are right, by the rate of faults"""
    picture, parts = facets(rows, ("design", "kind"))
    table = []
    for axes, names, part in parts:
        largest = max(row["spare"] for row in part)
        for at, kind in enumerate(kind for kind in STYLES if any(row["list"] == kind for row in part)):
            by_rate = split([row for row in part if row["list"] == kind], "rate")
            for (rate,), runs in by_rate.items():
                by_size = {size: share(of) for (size,), of in split(runs, "crosspoints").items()}
                enough = next((size for size, point in by_size.items() if (point[1] or 0) >= 0.95), "")
                whole = next(([size, point[1]] for size, point in by_size.items() if point[0] == 1), ["", ""])
                laid = [row for row in runs if row["closed"] and row["spare"] == largest]
                used = [sum(row[name] for row in laid) / len(laid) if laid else "" for name in ("tables", "closed")]
                table.append([*names, kind, rate, max(by_size), *by_size[max(by_size)], enough, *whole, *used, STYLES[kind][3]])
            shares = [line[5:8] for line in table[-len(by_rate) :]]
            curve(axes, range(len(shares)), shares, 0.04 * (at - 2), STYLES[kind], label=STYLES[kind][2])
        axes.set_xticks(range(len(by_rate)), [f"{rate:g}" for (rate,) in by_rate])
        of_shares(axes, part, f"rate of faults; machines of {max(by_size):,.0f} crosspoints", range(len(by_rate)))
    columns = ["design", "kind", "list", "rate", "crosspoints", *SHARE, "enough", "whole", "at_least", "tables", "closed", "model"]
    return picture, columns, table


def shown(row):
    """The least machine for which the interval shows that 95 of 100 runs are right; else the least with all right, and what that shows."""
    if not row["whole"] and not row["enough"]:
        return "none tried"
    if row["enough"] or not row["rate"]:  # without faults one run says all
        return f"{row['enough'] or row['whole']:,.0f}"
    return f"{row['whole']:,.0f} " + ("(one run)" if row["at_least"] is None else f"(shown: {row['at_least']:.2f})")


def compare_text(columns, table):
    """The table of schemes for reading, as Markdown."""
    rows = [dict(zip(columns, line)) for line in table]
    rates = sorted({row["rate"] for row in rows})
    heads = [f"Yield at {rate:g}" for rate in rates] + [f"Crosspoints for 95 % at {rate:g}" for rate in rates]
    lines = ["| Design, scheme | " + " | ".join(heads) + " | Tables, closed crosspoints | Modelled as |", "|---" * (len(heads) + 3) + "|"]
    for (design, kind), part in sorted(split(rows, "design", "list").items(), key=lambda item: (item[0][0], [*STYLES].index(item[0][1]))):
        cells = [("{share:.2f}" if row["low"] is None else "{share:.2f} ({low:.2f}-{high:.2f})").format(**row) for row in part]
        cells += map(shown, part)
        cells.append(next((f"{row['tables']:.0f}, {row['closed']:.0f}" for row in part if row["tables"]), "-"))
        lines.append(f"| {design}, {STYLES[kind][2]} | " + " | ".join([*cells, STYLES[kind][3]]) + " |")
    return "\n".join([*lines, ""])


def pairs(rows, _):
    """Sets of faults by which only one of two lists gives right runs: up the first of the legend, down the other (p: McNemar, exact)"""
    picture, parts = facets(rows, ("machine", "design", "kind"))
    columns, table = ["both", "first_alone", "other_alone", "neither", "p"], []
    for axes, names, part in parts:
        lists, by_rate = [kind for kind in STYLES if any(row["list"] == kind for row in part)], split(part, "rate")
        for (one, other), ((rate,), runs) in ((pair, at) for pair in combinations(lists, 2) for at in by_rate.items()):
            counts = paired(runs, one, other)
            table.append([*names, rate, one, other, *counts, mcnemar(*counts[1:3])])
        first = [line for line in table if line[:4] == [*names, line[3]] and line[4] == lists[0]]
        for k, other in enumerate(lists[1:]):
            lines, wide = [line for line in first if line[5] == other], 0.8 / len(lists[1:])
            places = [place + wide * (k - (len(lists) - 2) / 2) for place in range(len(lines))]
            axes.bar(places, [line[7] for line in lines], wide, color=f"C{k}", label=f"{STYLES[lists[0]][2]} / {STYLES[other][2]}")
            axes.bar(places, [-line[8] for line in lines], wide, color=f"C{k}")
            for place, line in zip(places, lines):
                if line[7] + line[8]:
                    axes.annotate(f" p={line[-1]:.2g}", (place, line[7]), ha="center", va="bottom", fontsize=7, rotation=90)
        axes.margins(y=0.25)
        low, high = axes.get_ylim()
        axes.set_ylim(min(0, low), max(1.5, high))  # room for a p, and no parts of a set
        axes.yaxis.get_major_locator().set_params(integer=True)
        axes.yaxis.set_major_formatter(lambda count, _: f"{abs(count):g}")
        axes.axhline(0, color="black", linewidth=0.8)
        axes.set_xticks(range(len(by_rate)), [f"{rate:g}" for (rate,) in by_rate])
        axes.set(xlabel="rate of faults", ylabel="sets of faults")
        axes.legend(loc="upper center", bbox_to_anchor=(0.5, -0.15), ncol=2)
    return picture, ["machine", "design", "kind", "rate", "list", "other", *columns], table


def at_work(rows, _):
    """Faults that come while a design runs: rows that are wrong, and rows that weren't written, of 100 rows that were due"""
    picture, parts = facets([row for row in rows if row["written"] is not None], ("machine", "design", "kind"))
    columns = ["runs", "stopped", "due", "written", "wrong_rows", "runs_with_wrong_rows"]
    table = []
    for axes, names, part in parts:
        by_rate, due = split(part, "rate"), max(row["written"] for row in part)
        places, colours = range(len(by_rate)), {"go": "C3", "twice": "C0"}
        for kind, runs in ((kind, split([row for row in part if row["list"] == kind], "rate")) for kind in colours):
            lines = [[sum(row["status"] == "7" for row in those), due * len(those), *(sum(row[name] for row in those) for name in columns[3:5]),
                      sum(row["wrong_rows"] > 0 for row in those)] for those in runs.values()]  # fmt: skip
            table += [[*names, rate, kind, len(those), *line] for ((rate,), those), line in zip(runs.items(), lines)]
            look = {"color": colours[kind], "marker": STYLES[kind][1]}
            axes.plot(places[: len(lines)], [100 * line[3] / line[1] for line in lines], label=f"wrong, {STYLES[kind][2]}", **look)
            if kind == "twice":
                left = [100 * (line[1] - line[2]) / line[1] for line in lines]
                axes.plot(places[: len(lines)], left, linestyle=":", label=f"not written, {STYLES[kind][2]}", **look)
        axes.set_xticks(places, [f"{rate:g}" for (rate,) in by_rate])
        axes.set(ylim=(-4, 104), xlabel="rate of faults that come", ylabel="of 100 rows")
        axes.legend(loc="upper center", bbox_to_anchor=(0.5, -0.15), ncol=2)
    return picture, ["machine", "design", "kind", "rate", "list", *columns], table


def borne(rows, _):
    """What so many faults cost in crosspoints: borne for certain, wherever they lie, and borne in the runs with an exact list"""
    picture, parts = facets([row for row in rows if row["list"] == "exact" and row["faults"]], ("design", "kind"))
    table = []
    for axes, names, part in parts:
        certain = bearing_crosspoints(network_named(names[0]), TREES)[1:]
        table += [[*names, "certain", faults, crosspoints, ""] for faults, crosspoints in enumerate(certain, 1)]
        axes.plot(range(1, len(certain) + 1), certain, color="C0", label="for certain, up to the most within the limits")
        for fits_in, marker, label in ((True, "o", "a random set, with room"), (False, "x", "a random set, without")):
            runs = [row for row in part if (row["status"] == "0") == fits_in]
            table += [[*names, "random", row["faults"], row["crosspoints"], int(fits_in)] for row in runs]
            look = {"color": "C1" if fits_in else "C3", "marker": marker, "markersize": 5, "linestyle": "none", "label": label}
            axes.plot([row["faults"] for row in runs], [row["crosspoints"] for row in runs], **look)
        axes.set(xscale="log", yscale="log", xlabel="faults", ylabel="crosspoints of the machine")
        axes.legend(loc="upper center", bbox_to_anchor=(0.5, -0.15), ncol=2)
    return picture, ["design", "kind", "faults_are", "faults", "crosspoints", "room"], table


FIGURES = {draw.__name__: draw for draw in (fits, machines, why, thrown, loads, sizes, redundancy, price, compare, pairs, borne, at_work)}


def main():
    parser = argparse.ArgumentParser(description=__doc__)
    parser.add_argument("rows", help="the CSV of a study")
    parser.add_argument("--figures", default="fits,thrown,loads", help=f"of {','.join(FIGURES)} (default: %(default)s)")
    parser.add_argument("--folder", default=".", help="where fits.svg, fits.csv and the others are written (default: here)")
    parser.add_argument("--loads-per-second", type=float, default=1000, help="of a machine, for the time of a diagnosis (default: 1000)")
    parser.add_argument("--pdf", action="store_true", help="write fits.pdf and the others too")
    parser.add_argument("--force", action="store_true", help="write over figures that stand there")
    args = parser.parse_args()
    rows, names = read_rows(args.rows), args.figures.split(",")
    if not set(names) <= FIGURES.keys():
        sys.exit(f"--figures: some of {', '.join(FIGURES)}")
    if {"redundancy", "price", "compare"} & set(names) and any(row["spare"] is None for row in rows):
        sys.exit(f"{args.rows}: no rows of a study with spares, which redundancy, price and compare show")
    paths = {name: os.path.join(args.folder, name) for name in names}
    if not args.force and any(os.path.exists(path + end) for path in paths.values() for end in (".svg", ".csv", ".pdf")):
        sys.exit(f"{args.folder}: figures stand there already; nothing was written (--force writes over them)")
    for name, path in paths.items():
        picture, columns, table = FIGURES[name](rows, args.loads_per_second)
        picture.suptitle(textwrap.fill(FIGURES[name].__doc__, round(13 * picture.get_figwidth())), fontsize=10)
        picture.savefig(path + ".svg", metadata={"Date": None})
        if args.pdf:
            picture.savefig(path + ".pdf", metadata={"CreationDate": None})
        plt.close(picture)
        with open(path + ".csv", "w", encoding="utf-8", newline="") as file:
            csv.writer(file, lineterminator="\n").writerows([columns, *table])
        if name == "compare":
            with open(path + ".md", "w", encoding="utf-8") as file:
                file.write(compare_text(columns, table))


if __name__ == "__main__":
    main()
