"""Tests of studies and their figures: python3 -m unittest. Those of figures want matplotlib, some the built program."""

import csv
import hashlib
import math
import os
import random
import tempfile
import unittest
from collections import Counter
from pathlib import Path

import designs
import study_rows
import teramac_texts as texts
import trial
from explain import explain
from faults import KINDS, Places, add_one, largest_rate, make_faults
from program import DEFAULT, HERE, MAPPER, call, interval, mcnemar, wilson
from study import KNOWN, Study, names_of
from test_studies import EXAMPLES, run

try:
    import figures
except ModuleNotFoundError:
    figures = None

SMALL = texts.Machine((1, 2, 2, 4, 20, 20, 20, 24, 24, 24, 24, 16))


def rows_of(**columns):
    """Rows of a study: for each combination of the columns' lists one, other columns alike in all."""
    alike = {"machine": "m", "kind": "open", "design": "d", "variant": "d", "list": "exact", "status": "0", "refusal": "", "spared": "all"}
    rows = [alike | dict.fromkeys(study_rows.NUMBERS, 1.0)]
    for column, values in columns.items():
        rows = [{**row, column: value} for row in rows for value in values]
    return rows


@unittest.skipIf(figures is None, "matplotlib isn't there")
class Figures(unittest.TestCase):
    def test_a_curve_for_each_machine_and_kind(self):
        rows = rows_of(machine=["m", "n"], kind=["open", "wires"], rate=[0.1, 0.2], seed=[1, 2])
        for row in rows:
            row["status"] = "3" if row["machine"] == "n" else "0"
        picture, columns, table = figures.fits(rows, 0)
        shares = {(line[0], line[1], line[4]): line[columns.index("share")] for line in table}
        self.assertEqual(len(picture.axes), 4)
        self.assertEqual({(machine, share) for (machine, *_), share in shares.items()}, {("m", 1), ("n", 0)})

    def test_undecided_runs_are_apart(self):
        rows = rows_of(status=["0", "0", "3", "cut off", "6"])
        self.assertEqual([study_rows.share(rows)[k] for k in (0, 3, 4)], [2 / 3, 3, 2])
        picture, _, _ = figures.fits(rows, 0)
        self.assertTrue(any("undecided" in label for label in picture.axes[0].get_legend_handles_labels()[1]))

    def test_a_run_that_was_none_stops_the_figures(self):
        with tempfile.TemporaryDirectory() as folder:
            path = Path(folder, "rows.csv")
            path.write_text("machine,kind,rate,design,list,status\nm,open,0,d,exact,0\nm,open,0,d,exact,5\n", encoding="utf-8")
            with self.assertRaisesRegex(SystemExit, "line 3: a run that ended with status 5"):
                study_rows.read_rows(path)

    def test_loads(self):
        picture, _, _ = figures.loads(rows_of(list=["diagnosed"], loads=[None]), 1000)
        self.assertIn("teramac_report", picture.axes[0].texts[0].get_text())
        for machines, swept, label in (("m", 4.0, "rate of faults"), ("mn", None, "crosspoints of the machine")):
            rows = rows_of(list=["diagnosed"], machine=machines, rate=[0.1], loads=[6.0], loads_sweep=[swept], loads_growth=[2.0])
            picture, columns, table = figures.loads([{**row, "crosspoints": ord(row["machine"])} for row in rows], 100)
            found = {row["part"]: [row["mean"], row["seconds"]] for row in (dict(zip(columns, line)) for line in table)}
            self.assertEqual((found.get("loads of the sweep"), found["loads"]), (swept and [4, 0.04], [6, 0.06]))
            self.assertEqual((picture.axes[0].get_xlabel(), len(picture.axes)), (label, 3))
            self.assertEqual(found["cycles of growth"], [1, ""])

    def test_sizes(self):
        """What a load decides and what a diagnosis takes, by the machine; a diagnosis that wasn't timed is in the first alone."""
        rows = rows_of(list=["told"], machine=["m", "n"], rate=[0.0, 0.1], loads=[5.0], diagnose_processor=[2.0])
        for row in rows:
            row |= {"crosspoints": 100.0 if row["machine"] == "m" else 4000.0, "loads": 5.0 if row["rate"] else 2.0}
        rows[0]["diagnose_processor"] = None
        picture, columns, table = figures.sizes(rows, 0)
        found = {tuple(line[1:5]): line[columns.index("mean")] for line in table}
        self.assertEqual(found[0.0, "m", 100, "crosspoints a load"], 50)
        self.assertEqual(found[0.1, "n", 4000, "crosspoints a load"], 800)
        self.assertEqual([key for key in found if key[3] == "seconds"], [(0.0, "n", 4000, "seconds"), (0.1, "m", 100, "seconds"), (0.1, "n", 4000, "seconds")])
        self.assertEqual(picture.axes[0].get_legend_handles_labels()[1], ["sound", "open, rate 0.1"])
        self.assertEqual([axes.get_xscale() for axes in picture.axes], ["log", "log"])
        picture, _, _ = figures.sizes(rows_of(list=["exact"]), 0)
        self.assertIn("teramac_report", picture.axes[0].texts[0].get_text())

    def test_at_work(self):
        """Rows that are wrong and rows that were left out, of those that were due; a run that stopped is no failure to be drawn apart."""
        rows = rows_of(rate=[0.1, 0.2], seed=[1, 2], list=["go", "twice"], written=[8.0], wrong_rows=[0.0])
        for row in rows:
            if row["rate"] == 0.2:
                row |= {"status": "wrong", "wrong_rows": 2.0} if row["list"] == "go" else {"status": "7", "written": 4.0}
        picture, columns, table = figures.at_work(rows, 0)
        found = {(line[4], line[3]): line[5:] for line in table}
        self.assertEqual(columns[5:], ["runs", "stopped", "due", "written", "wrong_rows", "runs_with_wrong_rows"])
        self.assertEqual(found, {("go", 0.1): [2, 0, 16, 16, 0, 0], ("go", 0.2): [2, 0, 16, 16, 4, 2],
                                 ("twice", 0.1): [2, 0, 16, 16, 0, 0], ("twice", 0.2): [2, 2, 16, 8, 0, 0]})  # fmt: skip
        drawn = {line.get_label(): [*line.get_ydata()] for line in picture.axes[0].lines}
        self.assertEqual(drawn["wrong, one copy (go)"], [0, 25])
        self.assertEqual(drawn["not written, two copies (twice)"], [0, 50])
        self.assertEqual(study_rows.share([row for row in rows if row["list"] == "twice"])[:1], [0.5])

    def test_ticks_and_legends(self):
        picture, _, _ = figures.thrown(rows_of(list=["diagnosed"], rate=[0.1, 0.2], thrown_wires=[2000.0]), 0)
        self.assertEqual([tick.get_text() for tick in picture.axes[0].get_yticklabels()], ["0", "1", "10", "100", "1,000", "10,000"])
        self.assertGreater(figures.plt.rcParams["legend.handlelength"], 3)
        self.assertEqual(len({style[1] for style in figures.STYLES.values()}), len(trial.LISTS))

    def test_means_and_shares(self):
        self.assertEqual(([round(bound, 4) for bound in wilson(8, 10)], wilson(0, 0)), ([0.4902, 0.9433], (0, 1)))
        self.assertEqual(study_rows.mean([5.0, 5.0, 5.0]), [5, 5, 5, 3])
        self.assertAlmostEqual(study_rows.mean([1.0, 2.0, 3.0])[2], 2 + 4.303 / 3**0.5, 3)

    def test_one_run_has_no_interval(self):
        self.assertEqual(study_rows.mean([1234.0]), [1234.0, None, None, 1])
        self.assertEqual(study_rows.share(rows_of(status=["0"])), [1, None, None, 1, 0])
        rows = study_rows.once(rows_of(rate=[0.0, 0.1], seed=[1, 2, 3], list=["exact", "diagnosed"]))
        self.assertEqual(Counter((row["rate"], row["list"]) for row in rows)[0.0, "exact"], 1)
        picture, columns, table = figures.fits(rows, 0)
        found = {line[columns.index("rate")]: line[columns.index("low")] for line in table}
        self.assertEqual((found[0.0], round(found[0.1], 2)), (None, 0.44))
        ends = [path.vertices[:, 1] for axes in picture.axes for bars in axes.collections for path in bars.get_paths()]
        self.assertEqual(len([end for end in ends if len(end) and not math.isnan(end[0])]), 2)
        for rate, said in ((0.0, "| 1.00 | 1 |"), (0.1, "| 1.00 | 1 (one run) |")):
            self.assertIn(said, figures.compare_text(*figures.compare(rows_of(rate=[rate], spare=[1.0], seed=[1]), 0)[1:]))

    def test_titles_say_how_many(self):
        rows = rows_of(kind=["registers"], rate=[0.0, 0.1], seed=[1, 2, 3]) + rows_of(kind=["registers"], rate=[0.2], seed=range(8))
        picture, _, _ = figures.fits(study_rows.once(rows), 0)
        self.assertEqual(picture.axes[0].get_title(), "m, tables with a stuck register\n3 to 8 sets of faults at each rate")
        self.assertTrue(set(figures.FAULTS) == set(KINDS))

    def test_pairs(self):
        """88 against 75 of 100, of which 20 and 7 are those that differ."""
        rows = rows_of(list=["none", "triplicated"], seed=range(100))
        for row in rows:
            right = row["seed"] < 75 if row["list"] == "none" else row["seed"] < 68 or row["seed"] >= 80
            row["status"] = "0" if right else "wrong"
        picture, columns, table = figures.pairs(rows, 0)
        self.assertEqual(table[0][columns.index("both") : -1], [68, 7, 20, 5])
        self.assertAlmostEqual(table[0][-1], 0.0192, 4)
        self.assertEqual(picture.axes[0].texts[0].get_text().strip(), "p=0.019")
        self.assertEqual([mcnemar(0, 0), mcnemar(5, 5), mcnemar(0, 6)], [1, 1, 0.03125])

    def test_several_machines_in_one_pair_of_axes(self):
        rows = rows_of(machine=["n", "m"], rate=[0.001, 0.1], seed=[1, 2])
        for row in rows:
            row |= {"crosspoints": 100.0 if row["machine"] == "m" else 2000.0, "status": "0" if row["machine"] == "n" else "3"}
        picture, columns, table = figures.machines(rows, 0)
        self.assertEqual((len(picture.axes), picture.axes[0].get_xscale()), (1, "log"))
        self.assertEqual(picture.axes[0].get_legend_handles_labels()[1], ["m: 100", "n: 2,000"])
        self.assertEqual({line[columns.index("machine")]: line[columns.index("share")] for line in table}, {"m": 0, "n": 1})

    def test_lines_alone_beside_all_parts(self):
        rows = rows_of(spared=["all", "lines"], spare=[0.0, 1.0], rate=[0.1], seed=[1, 2])
        for row in rows:
            row["crosspoints"] = 100 * (1 + row["spare"] * (3 if row["spared"] == "all" else 1))
            row["status"] = "0" if row["spare"] else "3"
        picture, columns, table = figures.price(rows, 0)
        found = {(line[3], line[columns.index("times")]): line[columns.index("share")] for line in table}
        self.assertEqual(found, {("all", 1): 0, ("all", 4): 1, ("lines", 1): 0, ("lines", 2): 1})
        self.assertEqual(len(picture.axes), 1)
        _, columns, table = figures.redundancy(rows, 0)
        found = {(line[columns.index("spared")], line[columns.index("crosspoints")]) for line in table if line[columns.index("share")]}
        self.assertEqual(found, {("all", 400), ("lines", 200)})

    def test_designs_of_one_fill_are_in_the_bars(self):
        """Of four runs each of five designs: bars are wider the more the designs differ, and never as narrow as those of twenty runs."""
        rows = rows_of(design=["fill90"], variant=[f"fill90.{k}" for k in range(1, 6)], rate=[0.1], seed=range(4))
        widths = []
        for right in (lambda row: True, lambda row: row["seed"] < 2, lambda row: row["variant"] < "fill90.3" or row["seed"] == 0):
            for row in rows:
                row["status"] = "0" if right(row) else "3"
            _, low, high, runs, _ = study_rows.share(rows)
            widths.append(high - low)
            self.assertGreater(high - low, wilson(sum(map(right, rows)), 20)[1] - wilson(sum(map(right, rows)), 20)[0])
        self.assertEqual((runs, sorted(widths)), (20, widths))
        self.assertEqual(interval([(3, 4)]), wilson(3, 4))
        picture, _, _ = figures.fits(rows, 0)
        self.assertIn("5 designs of each fill", picture.axes[0].get_title())

    def test_why(self):
        rows = rows_of(status=["3"], refusal=["noroom lines m0.c1", "noroom lines m1.c0", "noroom tables r", "noroom ports m0"])
        _, columns, table = figures.why(rows, 0)
        at = columns.index("short")
        self.assertEqual({line[at]: line[at + 1] for line in table}, {"lines of chips": 0.5, "tables": 0.25, "ports of modules": 0.25})

    def test_redundancy_and_compare(self):
        rows = rows_of(spare=[0.0, 1.0], rate=[0.1], seed=range(10), list=["exact", "none"])
        for row in rows:
            row["status"] = "3" if row["list"] == "none" and row["spare"] < 1 else "0"
            row["crosspoints"] = 100 * (1 + row["spare"])
        _, columns, table = figures.redundancy(rows, 0)
        found = [dict(zip(columns, line)) for line in table]
        self.assertEqual([(row["crosspoints"], row["share"]) for row in found if row["list"] == "none"], [(100, 0), (200, 1)])
        _, columns, table = figures.compare(rows, 0)
        enough = {line[2]: line[columns.index("enough")] for line in table}
        self.assertEqual(enough, {"exact": "", "none": ""})
        self.assertIn("| d, no list | 1.00 (0.72-1.00) | 200 (shown: 0.72) |", figures.compare_text(columns, table))
        _, columns, table = figures.compare([{**row, "seed": row["seed"] + 10 * k} for k in range(8) for row in rows], 0)
        self.assertEqual({line[2]: line[columns.index("enough")] for line in table}, {"exact": 100, "none": 200})
        self.assertIn("| d, no list | 1.00 (0.95-1.00) | 200 |", figures.compare_text(columns, table))


class Kinds(unittest.TestCase):
    def test_clusters_are_not_heaped_at_edges(self):
        """Line 31 next to line 30: with what falls beyond the edge put onto it, it had several times as many."""
        places = Places(SMALL, random.Random(1), 9, "spots")
        found = Counter(places.near(32, 30, 3) for _ in range(4000))
        self.assertLess(found[31], 1.25 * found[30])
        self.assertLess(found[30], 1.4 * found[28])

    def test_seeds_give_what_they_gave(self):
        machine = texts.read_text(texts.read_machine, f"{EXAMPLES}/uart.machine")
        amounts = {"open": 0.001, "closed": 1, "wires": 1, "cells": 1, "registers": 1, "bridges": 1}
        found = texts.faults_text(machine, make_faults(machine, amounts, 3))
        self.assertEqual(found, Path(EXAMPLES, "uart.faults").read_text(encoding="utf-8"))

    def test_many_crosspoints_are_drawn_as_one_by_one(self):
        amounts, found = {"open": 0.1, "closed": 300, "wires": 5}, texts.Faults()
        places = Places(SMALL, random.Random(4), 0, "spots")
        for kind, wanted in amounts.items():
            count = places.count(wanted, KINDS[kind][0])
            for _ in range(count):
                add_one(places, kind, count, found)
        self.assertEqual(make_faults(SMALL, amounts, 4), found)
        self.assertGreater(len(found["open"]), 800)
        tiny = texts.Machine((1, 1, 1, 2, 4, 4, 4, 4, 4, 4, 4, 4))
        with self.assertRaisesRegex(ValueError, "closed: 9 are too many for this machine"):
            make_faults(tiny, {"open": 160, "closed": 9}, 1)

    def test_a_machine_that_is_not_small(self):
        """Names of crosspoints node by node are those one by one, of faults and of a list."""
        machine = texts.Machine((4, 4, 16, 16, 64, 64, 48, 128, 96, 96, 80, 128))
        faults = make_faults(machine, {"open": 2000, "closed": 50, "cells": 2, "bridges": 3, "wires": 4}, 1)
        self.assertEqual(texts.read_faults(machine, texts.faults_text(machine, faults).encode()), faults)
        lines = texts.faults_text(machine, faults).splitlines()
        opened = [f"open {machine.name('cross', cross)}" for cross in sorted(faults["open"])]
        self.assertEqual([line for line in lines if line.startswith("open")], opened)
        listed = texts.exact_list(machine, faults)
        self.assertEqual(texts.read_defects(machine, texts.defects_text(machine, listed).encode()), listed)

    def test_help_and_the_largest_rate(self):
        self.assertNotIn("%%", run("faults.py", "--help").stdout)
        large = texts.Machine((2, 2, 4, 16, 32, 32, 32, 48, 48, 48, 48, 40))
        with self.assertRaisesRegex(ValueError, "65,536 in all; of open 0.[0-9]+ is the largest rate that fits"):
            make_faults(large, {"open": 0.9}, 1)
        rate = largest_rate(large.limits.faults, large.sizes["cross"])
        self.assertGreater(make_faults(large, {"open": rate}, 1).count, 0.95 * large.limits.faults)

    def test_neighbours_and_broken_wires(self):
        faults = make_faults(SMALL, {"neighbours": 40}, 1)
        beside = [set(pair) for node in SMALL.nodes for wires in (node.lines, node.taps) for pair in zip(wires, wires[1:])]
        self.assertTrue(all(set(pair) in beside for pair in faults["bridge"]))
        for seed in range(20):
            opened = set(make_faults(SMALL, {"broken": 1}, seed)["open"])
            along = [list(SMALL.along(wire)) for wire in range(SMALL.sizes["wire"])]
            self.assertTrue(any(opened in (set(path[: len(opened)]), set(path[-len(opened) :])) for path in along))

    def test_a_rate_of_breaks_is_that_of_open_crosspoints(self):
        crosses, most = SMALL.sizes["cross"], max(len(list(SMALL.along(wire))) for wire in range(SMALL.sizes["wire"]))
        for rate in (0.02, 0.1, 0.3, 0.5):
            shares = [len(make_faults(SMALL, {"broken": rate}, seed)["open"]) / crosses for seed in range(10)]
            over, three = most / 4 / crosses, 3 * (rate * (1 - rate) / crosses / 10) ** 0.5
            self.assertLess(abs(sum(shares) / 10 - rate - over), three + over)

    def test_shapes(self):
        for shape in ("rows", "columns", "hextants"):
            opened = make_faults(SMALL, {"open": 12}, 3, 12, shape)["open"]
            nodes = {SMALL.node_of_cross(cross).name for cross in opened}
            ends = [{SMALL.ends(cross)[k] for cross in opened} for k in range(2)]
            self.assertEqual((len(nodes), 1 in map(len, ends)), (1, shape != "hextants"))

    def test_clusters_lie_at_places(self):
        """Wires of a spot are of one crossbar, tables of one hextant."""
        for seed in range(10):
            faults = make_faults(SMALL, {"wires": 6, "registers": 3}, seed, 6, "spots")
            wires, tables = {*faults["stuck0"], *faults["stuck1"]}, [*faults["register"]]
            crossbars = [node for node in SMALL.nodes if wires <= {*node.taps, *node.lines}]
            self.assertTrue(crossbars)
            self.assertTrue(any({*tables} <= {*node.tables} for node in SMALL.nodes))

    def test_counts_by_the_gamma_law(self):
        """The rates of nodes have mean 1 and variance 1 / alpha, and all kinds go by the same ones."""
        found, sizes = [], [len(node.taps) * len(node.lines) for node in SMALL.nodes]
        for seed in range(300):
            opened = make_faults(SMALL, {"open": 0.05}, seed, 2, "gamma")["open"]
            counts = Counter(SMALL.node_of_cross(cross).name for cross in opened)
            found += [counts[node.name] / size / 0.05 for node, size in zip(SMALL.nodes, sizes)]
        middle = sum(found) / len(found)
        spread = sum((value - middle) ** 2 for value in found) / len(found)
        self.assertLess(abs(middle - 1), 0.06)
        self.assertLess(abs(spread - 0.5), 0.1)
        places = Places(SMALL, random.Random(3), 0.2, "gamma")
        worst = SMALL.nodes[max(range(len(SMALL.nodes)), key=places.factors.__getitem__)]
        for group in ("wire", "cross"):
            places.count(0.01, group)
            drawn = [places.part(group, 0) for _ in range(400)]
            share = sum(part in places.own(worst, group) for part in drawn) / 400
            self.assertGreater(share, 1.5 * len(places.own(worst, group)) / SMALL.sizes[group])

    def test_mixes(self):
        self.assertEqual(trial.mix("x:open in gamma of 0.5"), ("x", {"open": 1.0}, (0.5, "gamma")))
        self.assertEqual(trial.mix("open"), ("open", {"open": 1.0}, None))
        self.assertEqual(trial.mix("x:open+wires*0.1 in rows of 24"), ("x", {"open": 1.0, "wires": 0.1}, (24.0, "rows")))
        for word in ("opens", "open*0", "open in lines of 3"):
            self.assertRaises(trial.argparse.ArgumentTypeError, trial.mix, word)

    def test_made_designs(self):
        for tables in (38, 77, 115):
            design = texts.read_design(designs.blif_text(designs.filling(tables)).encode())
            self.assertEqual(len(designs.plain_network(design).tables), tables)
            self.assertNotEqual(design, texts.read_design(designs.blif_text(designs.filling(tables, 2)).encode()))
        if MAPPER:  # which leaves more than an eighth of them
            text = call(MAPPER, designs.blif_text(designs.filling(77)).encode()).written
            self.assertGreater(len(designs.plain_network(texts.read_design(text)).tables), 77 // 8)

    def test_three_copies(self):
        lfsr = f"{EXAMPLES}/lfsr.blif"
        copies = designs.blif_text(designs.triplicated(texts.read_text(texts.read_design, lfsr))).encode()
        rows = [call(DEFAULT, "eval", design, f"{EXAMPLES}/lfsr.vec").rows for design in (lfsr, copies)]
        self.assertEqual(*rows)
        self.assertTrue(rows[0])
        vectors = Path(EXAMPLES, "lfsr.vec").read_text(encoding="utf-8")
        pins = designs.triplicated(texts.read_text(texts.read_design, lfsr), True)
        self.assertEqual((len(pins.inputs), len(pins.outputs)), (12, 18))
        found = call(DEFAULT, "eval", designs.blif_text(pins).encode(), designs.thrice(vectors).encode()).rows
        self.assertEqual((designs.voted(found), found[0][:3]), (rows[0], 3 * rows[0][0][:1]))
        self.assertEqual([designs.thrice("01 1 # a1\n.\n"), designs.voted([b"110001", b"."])], ["000111111\n.\n", [b"10", b"."]])


class Runs(unittest.TestCase):
    def setUp(self):
        folder = tempfile.TemporaryDirectory()
        self.addCleanup(folder.cleanup)
        self.folder = Path(folder.name)
        for name in ("and.blif", "and.vec", "tiny.machine"):
            (self.folder / name).write_bytes(Path(EXAMPLES, name).read_bytes())
        self.settings = self.folder / "s.yaml"
        self.write(rates='["0.0", "0.02"]')

    def write(self, **more):
        lines = {"folder": self.folder / "out", "machines": f"[{self.folder}/tiny.machine]", "kinds": "[open]", "seeds": "1"}
        lines |= {"lists": "[exact]", "designs": f'{{"{self.folder}/and.blif": "{self.folder}/and.vec"}}', "figures": "[fits]", **more}
        self.settings.write_text("".join(f"{key}: {value}\n" for key, value in lines.items()))

    def study(self):
        return run("__main__.py", str(self.settings), "--jobs", "1", "--program", DEFAULT)

    @unittest.skipIf(figures is None, "matplotlib isn't there")
    def test_what_changed_is_run_anew(self):
        for change, due in (("", 2), ("", 0), ("and.vec", 2), ("and.blif", 2), ("tiny.machine", 2), ("", 0)):
            if change:
                path = self.folder / change
                path.write_text(path.read_text() + "# more\n")
            ran = self.study()
            self.assertEqual((f"2 trials, {due} to run" in ran.stderr, ran.returncode), (True, 0), ran.stderr)
        self.assertEqual(len((self.folder / "out/rows.csv").read_text().splitlines()), 3)
        self.assertIn("tiny,open,and,exact,0.0,1.0", (self.folder / "out/fits.csv").read_text())

    @unittest.skipIf(figures is None, "matplotlib isn't there")
    def test_a_wrong_design_stops_the_study(self):
        (self.folder / "and.blif").write_text(".model and\n.outputs y\n.end\n")
        ran = self.study()
        self.assertIn("refused design 2 undriven y; no run", ran.stderr)
        self.assertNotEqual(ran.returncode, 0)

    @unittest.skipIf(figures is None, "matplotlib isn't there")
    def test_seeds_until_an_interval_is_narrow(self):
        """Without faults one run is enough; of what always fits ten runs leave 0.28, and thirty 0.11."""
        self.write(rates='["0.0", "1"]', seeds="10", width="0.12", most_seeds="35", pdf="true")
        (self.folder / "tiny.machine").write_bytes(Path(EXAMPLES, "small.machine").read_bytes())
        ran = self.study()
        said = [line for line in ran.stderr.splitlines() if "trials" in line]
        self.assertEqual(said, ["11 trials, 11 to run", "21 trials, 10 to run", "31 trials, 10 to run"])
        self.assertTrue((self.folder / "out/fits.pdf").read_bytes().startswith(b"%PDF"))
        self.write(rates='["1"]', seeds="10", width="0.01", most_seeds="12")
        (self.folder / "out/trials").rename(self.folder / "kept")
        self.assertEqual(len(Study(str(self.settings), DEFAULT).trials), 10)
        (self.folder / "kept").rename(self.folder / "out/trials")
        self.assertEqual(len(Study(str(self.settings), DEFAULT).trials), 12)

    def test_without_matplotlib_nothing_is_run(self):
        (self.folder / "sitecustomize.py").write_text("import sys\nsys.modules['matplotlib'] = None\n")
        words, env = (str(self.settings), "--program", DEFAULT), {**os.environ, "PYTHONPATH": str(self.folder)}
        ran = run("__main__.py", *words, env=env)
        self.assertEqual((ran.returncode, "figures want matplotlib" in ran.stderr), (1, True))
        self.assertFalse((self.folder / "out").exists())
        self.assertEqual(len(run("__main__.py", *words, "--print", env=env).stdout.splitlines()), 2)

    @unittest.skipUnless(MAPPER, "teramac_map isn't there")
    def test_a_smaller_machine_holds_a_remapped_text(self):
        machine, text = str(self.folder / "m.machine"), str(self.folder / "t.blif")
        ran = run("size.py", "uart.blif", "--map", text, "-o", machine)
        given, least = (int(word.replace(",", "")) for word in ran.stderr.split() if word[0].isdigit())
        self.assertLess(least, given)
        self.assertEqual(*(call(DEFAULT, "eval", design, f"{EXAMPLES}/uart.vec").rows for design in (text, f"{EXAMPLES}/uart.blif")))
        ran = run("trial.py", machine, f"{text}:{EXAMPLES}/uart.vec", "--rate", "0.0", "--lists", "exact,mapped")
        self.assertEqual([line.split(",")[7:9] for line in ran.stdout.splitlines()[1:]], [["exact", "0"], ["mapped", "0"]])

    def test_designs_of_a_fill_take_turns(self):
        """Each set of faults goes with one of three designs; without faults there is a run of each."""
        (self.folder / "tiny.machine").write_bytes(Path(HERE, "bench.machine").read_bytes())
        self.write(rates='["0.0", "0.02"]', seeds="4", fill="[0.1]", designs_a_fill="3", designs="{}")
        trials = Study(str(self.settings), DEFAULT).trials.values()
        turns = [(found.words[found.words.index("--rate") + 1], found.words[1].split("=")[0]) for found in trials]
        without, those = [[name for rate, name in turns if (rate == "0.0") == sound] for sound in (True, False)]
        self.assertEqual((without, those), ([f"fill10.{k}" for k in (1, 2, 3)], [f"fill10.{k}" for k in (1, 2, 3, 1)]))

    def test_fewer_seeds_than_the_settings_say(self):
        self.write(rates='["0.02"]', seeds="7")
        self.assertEqual(len(Study(str(self.settings), DEFAULT, None, 2).trials), 2)
        made = [row for row in Study(str(self.settings), DEFAULT, None, 2).made_by() if row[0] == "settings"]
        self.assertEqual([row[3] for row in made], ["seeds: 2"])
        self.assertIn("--seeds: at least 1", run("__main__.py", str(self.settings), "--seeds", "0", "--print").stderr)

    def test_spare_lines_alone(self):
        lines = self.settings.read_text().replace(f"machines: [{self.folder}/tiny.machine]\n", "")
        self.settings.write_text(lines + 'spares: [0.0, 0.5]\nspared: [all, lines]\n')
        study = Study(str(self.settings), DEFAULT)
        counts = {place.name: texts.read_text(texts.read_machine, place.machine).counts for place in study.places}
        least, more, lines = (counts[name] for name in ("and-spare0", "and-spare50", "and-lines50"))
        self.assertEqual((counts["and-lines0"], lines[:7], lines[7:11], lines[11]), (least, least[:7], more[7:11], least[11]))
        self.assertGreater(more[11], least[11])

    def test_three_copies_have_room(self):
        """On the machine for `three`, whose pins are enough for three of each."""
        (self.folder / "and.blif").write_bytes(Path(EXAMPLES, "lfsr.blif").read_bytes())
        (self.folder / "and.vec").write_bytes(Path(EXAMPLES, "lfsr.vec").read_bytes())
        lines = self.settings.read_text().replace(f"machines: [{self.folder}/tiny.machine]\n", "").replace('"0.02"', '"2"')
        self.settings.write_text(lines.replace("[exact]", "[triplicated_pins, triplicated]") + "spares: [three]\n")
        study = Study(str(self.settings), DEFAULT)
        found = [run("trial.py", *trial.words).stdout.splitlines() for trial in study.trials.values()]
        self.assertEqual([line.split(",")[7:9] for line in found[0][1:]], [["triplicated_pins", "0"], ["triplicated", "0"]])
        self.assertIn(found[1][1].split(",")[8], ("0", "wrong"))

    @unittest.skipIf(figures is None, "matplotlib isn't there")
    def test_sums_stand_beside_rows(self):
        self.assertEqual(self.study().returncode, 0)
        rows = list(csv.DictReader((self.folder / "out/sums.csv").read_text(encoding="utf-8").splitlines()))
        found = {(row["what"], row["name"]): row["sha256"] for row in rows}
        for what, name, path in (
            ("program", os.path.basename(DEFAULT), DEFAULT),
            ("script", "studies/trial.py", f"{HERE}/trial.py"),
            ("settings", "s.yaml", self.settings),
            ("input", "and.blif", self.folder / "and.blif"),
            ("rows", "rows.csv", self.folder / "out/rows.csv"),
        ):
            self.assertEqual(found[what, name], hashlib.sha256(Path(path).read_bytes()).hexdigest())
        self.assertEqual({row["remark"] for row in rows if row["what"] == "program"}, {"unproved" if DEFAULT.endswith("-unproved") else ""})

    def test_machines_of_one_name(self):
        self.assertEqual([*names_of(["a/x.machine", "b/x.machine"]), *names_of(["a/x.machine", "b/y.machine"])], ["a-x", "b-x", "x", "y"])
        other = self.folder / "b"
        other.mkdir()
        (other / "tiny.machine").write_bytes((self.folder / "tiny.machine").read_bytes())
        self.write(machines=f"[{self.folder}/tiny.machine, {other}/tiny.machine]", rates='["0.0"]')
        trials = Study(str(self.settings), DEFAULT).trials
        self.assertEqual(len(trials), 2)
        self.assertTrue(all(os.path.abspath(DEFAULT) in map(os.path.abspath, found.inputs) for found in trials.values()))

    def test_a_machine_that_is_tried_sound_alone(self):
        self.write(machines=f"[{self.folder}/tiny.machine]", rates='["0.0", "0.1"]', seeds="2", sound=f"[{EXAMPLES}/small.machine]")
        trials = Study(str(self.settings), DEFAULT).trials
        self.assertEqual([*trials], ["tiny-open-0.0-1", "tiny-open-0.1-1", "small-open-0.0-1", "tiny-open-0.1-2"])

    def test_settings_are_documented(self):
        text = Path(HERE, "README.md").read_text(encoding="utf-8")
        self.assertEqual([word for word in sorted(KNOWN) if f"`{word}`" not in text], [])
        self.write(rates="[0.1]", seed="7")
        self.assertRaises(SystemExit, Study, str(self.settings), DEFAULT)

    def test_setup(self):
        """With and without root; apt-get, sudo and id are stand-ins here."""
        for user, lean, said in (("0", ["--lean"], "apt-get install"), ("1000", [], "sudo apt-get install")):
            for name, line in (("apt-get", 'echo "apt-get $*"'), ("sudo", 'echo "sudo $*"'), ("id", f"echo {user}")):
                (self.folder / name).write_text(f"#!/bin/sh\n{line}\n")
                (self.folder / name).chmod(0o755)
            ran = run("setup", *lean, command="sh", env={**os.environ, "PATH": f"{self.folder}:{os.environ['PATH']}"})
            self.assertTrue(ran.stdout.splitlines()[1].startswith(said))
            self.assertEqual("snakemake" in ran.stdout, not lean)

    def test_explained(self):
        """Of lines that the program itself writes."""
        machine, design, defects = [f"{EXAMPLES}/{name}" for name in ("tiny.machine", "and.blif", "tiny.defects")]
        wide, exchanged, ended, large = [str(self.folder / name) for name in ("w.vec", "x.faults", "x.defects", "large.machine")]
        Path(wide).write_text("101\n")
        Path(exchanged).write_text("open r.l0 r.p0\n")
        Path(ended).write_bytes(Path(defects).read_bytes().replace(b"\n", b"\r\n"))
        Path(large).write_text(Path(machine).read_text().replace("tables 2", "tables 5000"))
        for words, said in (
            (["eval", design, wide], "3 columns, and the design 2 inputs: a b"),
            (["go", "x", "y"], "takes 4 words (MACHINE RIG DESIGN VECTORS), and 2 were given"),
            (["run", machine, "@1", "no.image", "no.vec"], "the image file no.image isn't there"),
            (["diagnose", EXAMPLES, "@1"], "is a directory"),
            (["diagnose", machine, "no.faults"], "the fault file no.faults isn't there"),
            (["diagnose", large, "@1"], "5,000 tables, and at most 4,096"),
            (["diagnose", machine, exchanged], "the tap comes first and then the line: r.p0 r.l0"),
            (["diagnose", machine, f"{EXAMPLES}/small.faults"], "is no part of this machine"),
            (["compile", machine, ended, design], "CR LF"),
            (["run", machine, "@1", defects, wide], "doesn't begin as an image"),
            (["compile", machine, defects, f"{EXAMPLES}/lfsr.blif"], "the plan in order wants 10"),
        ):
            self.assertIn(said, explain(" ".join(call(DEFAULT, *words).refusal), words))
