"""Tests of readers, writers and scripts with the built program ($TERAMAC or the default): python3 -m unittest."""

import contextlib
import csv
import os
import random
import re
import subprocess
import sys
import tempfile
import unittest

import designs
import teramac_texts as texts
from at_work import run_at_work, schedule_text
from draw import MARKS
from faults import KINDS, make_faults
from program import DEFAULT, HERE, PORT, REPORT, call
from size import TREES, bearing_counts, bearing_machine, compiles, counts_for
from trial import hextants_list, wires_list

sys.path.append(os.path.join(HERE, "../bench"))
from images import image_bytes  # noqa: E402

EXAMPLES = os.path.normpath(os.path.join(HERE, "../examples"))
TURNS, DESIGN = int(os.environ.get("TURNS", "60")), b".model m\n.outputs f\n.names f\n1\n"


def run(script, *words, command=sys.executable, **more):
    """Calls a script of this folder; names of examples stand for their files."""
    words = [os.path.join(EXAMPLES, word) if os.path.exists(os.path.join(EXAMPLES, word)) else word for word in words]
    return subprocess.run([command, os.path.join(HERE, script), *words], capture_output=True, text=True, check=False, **more)


def random_machine(chance, most=3):
    counts = [chance.randint(1, 2) for _ in range(3)] + [chance.randint(1, most)]
    return texts.Machine(tuple(counts + [chance.randint(1, 5) for _ in range(7)] + [chance.randint(2, 6)]))


def random_blif(chance, inputs=3, covers=5, latches=2):
    """A design whose covers read inputs, latches and covers before them; some of it in a model of its own."""
    known = [f"x{k}" for k in range(inputs)] + [f"s{k}" for k in range(latches)]
    lines = [".model top", ".inputs " + " ".join(known[:inputs])]
    for k in range(covers):
        names = [chance.choice(known) for _ in range(chance.randint(0, 8))]
        last = chance.choice("01")
        rows = {"".join(chance.choice("01-") for _ in names) for _ in range(chance.randint(0, 3))}
        lines += [f".names {' '.join(names)} c{k}"] + [f"{row} {last}".strip() for row in sorted(rows)]
        known.append(f"c{k}")
    for k in range(latches):
        lines.append(f".latch {chance.choice(known)} s{k} {chance.randint(0, 3)}")
    pair = [chance.choice(known), chance.choice(known)]
    lines += [f".subckt half a={pair[0]} b={pair[1]} q=sum", f".outputs {chance.choice(known)} \\", "  sum " + known[-1], ".end"]
    return "\n".join(lines + [".model half", ".inputs a b", ".outputs q", ".names a b q", "10 1", "01 1", ".latch q t 1", ".end", ""])


def mutated(chance, data):
    """The text with a word, a blank or the end of a line gone, doubled, or another."""
    parts = re.split("([ \n])", data)
    at = chance.randrange(len(parts))
    others = ["", " ", "\n", "\t", "#", "\x0b", "0", "1", "01", "64", "65536", "m0.o0", "r.l0", "wire", "end"]
    parts[at] = chance.choice(["", 2 * parts[at], chance.choice(parts), chance.choice(others), f"{parts[at]} {chance.choice(others)}"])
    return "".join(parts)


class Studies(unittest.TestCase):
    def setUp(self):
        self.chance, folder = random.Random(self.id()), tempfile.TemporaryDirectory()
        self.addCleanup(folder.cleanup)
        self.out = os.path.join(folder.name, "out")

    def alike(self, file, data, words, *before):
        """What the reader makes of a file, which it refuses by the same line as the program called by these words, or not at all."""
        wrong, found = "", None
        try:
            found = getattr(texts, f"read_{file}")(*before, data)
        except texts.Refused as refusal:
            wrong = str(refusal)
        said = " ".join(call(DEFAULT, *words).refusal)
        self.assertEqual(wrong, said if said.startswith(f"refused {file} ") else "")
        return found

    def test_both_forms(self):
        """A small machine under both first lines, and one that is too large for the first."""
        tiny, large = texts.Machine((1, 1, 1, 2, 4, 4, 4, 4, 4, 4, 4, 4)), texts.Machine((1, 1, 1, 2343, 4, 4, 4, 4, 4, 4, 4, 4))
        for machine, first in ((tiny, "teramac 1\n"), (large, "teramac 2\n")):
            self.assertTrue(machine.text.startswith(first))
            self.assertEqual(self.alike("machine", machine.text.encode(), ("diagnose", machine.text.encode(), "no-such-file")).counts, machine.counts)
        data = tiny.text.replace("teramac 1", "teramac 2").encode()
        self.assertEqual(self.alike("machine", data, ("diagnose", data, "no-such-file")).counts, tiny.counts)
        for old, new in (("teramac 2", "teramac 1"), ("pins 4", "pins 9000"), ("teramac 2", "teramac 3")):
            data = large.text.replace(old, new).encode()
            self.assertIsNone(self.alike("machine", data, ("diagnose", data, "no-such-file")))

    def test_texts(self):
        """What is written is read the same, and taken; with a change both sides refuse it alike, or neither does."""
        for _ in range(TURNS):
            machine = random_machine(self.chance)
            amounts = {kind: self.chance.randrange(min(3, machine.sizes["table"] + 1)) for kind in KINDS}
            seed, clustered, faults = self.chance.random(), self.chance.choice([0, 3]), texts.Faults()
            with contextlib.suppress(ValueError):  # too many for a machine so small
                faults = make_faults(machine, amounts, seed, clustered)
            given = machine.text.encode(), texts.faults_text(machine, faults).encode()
            found = call(DEFAULT, "diagnose", *given).defects
            self.assertEqual(texts.read_machine(given[0]).counts, machine.counts)
            self.assertEqual(texts.read_faults(machine, given[1]), faults)
            self.assertEqual(texts.defects_text(machine, texts.read_defects(machine, found)).encode(), found)
            for list_ in (texts.read_defects(machine, found), texts.exact_list(machine, faults)):
                text = texts.defects_text(machine, list_).encode()
                self.assertEqual(self.alike("defects", text, ("compile", given[0], text, DESIGN), machine), list_)
            data = [mutated(self.chance, text.decode()).encode() for text in (*given, found)]
            self.alike("machine", data[0], ("diagnose", data[0], "no-such-file"))
            self.alike("faults", data[1], ("diagnose", given[0], data[1]), machine)
            self.alike("defects", data[2], ("compile", given[0], data[2], DESIGN), machine)

    def test_images(self):
        """Images are read and written the same; changed bytes are refused alike."""
        machine, seen = texts.Machine((1, 2, 2, 5, 24, 24, 24, 30, 30, 30, 30, 12)), 0
        for _ in range(TURNS // 3):
            data = random_blif(self.chance).encode()
            rows = designs.random_vectors(texts.read_design(data)).encode()
            image = compiles(DEFAULT, machine, texts.Defects(), data)
            if image.status:
                continue
            seen += 1
            self.assertEqual(image_bytes(machine, texts.read_image(machine, image.written)), image.written)
            for _ in range(4):
                changed, at = bytearray(image.written), self.chance.randrange(len(image.written))
                changed[at] = self.chance.choice([0, 1, changed[at] ^ 1, 255])
                changed = bytes(changed[: self.chance.choice([len(changed), at])]) + self.chance.choice([b"", b"", b"x"])
                self.alike("image", changed, ("run", machine.text.encode(), b"", changed, rows), machine)
        self.assertGreater(seen, TURNS // 6)

    def test_needs(self):
        """A machine of just what the plan wants has room; with one line or port less the program says these very numbers."""
        for _ in range(TURNS // 3):
            data = random_blif(self.chance, covers=self.chance.randint(2, 12)).encode()
            network = designs.plain_network(texts.read_design(data))
            counts = list(counts_for(network, [self.chance.randint(1, 2) for _ in range(3)], 0))
            self.assertEqual(compiles(DEFAULT, texts.Machine(counts), texts.Defects(), data).status, 0)
            at = self.chance.choice([k for k in range(4, 11) if counts[k] > 1])
            need, counts[at] = counts[at], counts[at] - 1
            refusal = compiles(DEFAULT, texts.Machine(counts), texts.Defects(), data).refusal
            self.assertEqual(refusal[:3], ["refused", "noroom", "ports" if at < 7 else "lines"])
            self.assertIn(refusal[4:6], [[str(need), str(need - 1)]])

    def test_bears(self):
        """On a machine that bears so many faults sets of them leave room, by the program itself; it has just so much to spare."""
        for _ in range(TURNS // 3):
            data, faults = random_blif(self.chance).encode(), self.chance.randint(0, 4)
            network = designs.plain_network(texts.read_design(data))
            nets, pins = network.inputs + len(network.tables), network.inputs + len(network.outputs)
            self.assertEqual(bearing_counts(network, (1, 1, 1), 0), (1, 1, 1, len(network.tables), *7 * [max(nets, 2)], max(pins, 2)))
            machine = bearing_machine(network, [self.chance.choice(TREES[:8])], faults)
            self.assertGreaterEqual(machine.sizes["table"], len(network.tables) + 2 * faults)
            self.assertEqual({*machine.counts[4:11]}, {max(nets, 2) + 2 * faults})
            self.assertEqual(machine.counts[11], max(pins, 2) + 2 * faults)
            amounts = {kind: 0 for kind in KINDS}
            for _ in range(faults):
                amounts[self.chance.choice(list(KINDS))] += 1
            found = make_faults(machine, amounts, self.chance.random(), self.chance.choice([0, 4]))
            listed = texts.defects_text(machine, texts.exact_list(machine, found)).encode()
            self.assertEqual(call(DEFAULT, "compile", machine.text.encode(), listed, data).status, 0)

    def test_writes_over_nothing(self):
        for k, words in enumerate((("faults.py", "tiny.machine"), ("size.py", "and.blif"), ("draw.py", "tiny.machine"))):
            for status, said in ((0, ""), (1, "stands there already")):
                ran = run(*words, "-o", f"{self.out}{k}")
                self.assertEqual(ran.returncode, status)
                self.assertIn(said, ran.stderr)

    def test_refuses_in_one_line(self):
        for words, said in (
            (("faults.py", "and.blif"), "refused machine 1 word"),
            (("faults.py", "tiny.machine", "--registers", "3"), "too many"),
            (("size.py", "tiny.machine"), "refused design 1 nomodel"),
            (("draw.py", "tiny.machine", "--defects", "tiny.faults"), "refused defects 1 word"),
            (("draw.py", "none.machine"), "No such file"),
            (("trial.py", "tiny.machine", "and.blif:and.vec", "--rate", "2.0"), "a rate is from 0 to 1"),
        ):
            ran = run(*words)
            self.assertIn(said, ran.stderr)
            self.assertEqual(("Traceback" in ran.stderr, ran.returncode > 0), (False, True))

    def test_trial(self):
        texts.write_new(self.out, "#!/bin/sh\nprintf 'diagnosis loads 9\npart sweep loads 4\npart growth loads 0\npart tables loads 5\n'\n")
        os.chmod(self.out, 0o755)
        pairs = [f"{EXAMPLES}/{name}.blif:{EXAMPLES}/{name}.vec" for name in ("and", "counter")]
        ran = run("trial.py", "tiny.machine", *pairs, "--rate", "0.0", "--report", self.out)
        found = sorted(re.findall(r",(and|counter),(\w+),(\d),.*,(\d*),(\d*),(\d*),(\d*),,,,,,,,,$", ran.stdout, re.MULTILINE))
        told = [("and", "diagnosed", "0", *"9405"), ("and", "exact", "0", *4 * [""])]
        self.assertEqual(found, told + [("counter", kind, "3", *loads) for _, kind, _, *loads in told])

    def test_told(self):
        """What a report tells of a diagnosis, whose list isn't read; without the program of reports nothing is run."""
        report = ["listed wires 3 crosspoints 2 tables 1", "diagnosis loads 9", "part sweep loads 4", "part growth loads 0", "part tables loads 5"]
        texts.write_new(self.out, "#!/bin/sh\nprintf '{}\n'\n".format("\\n".join(report)))
        os.chmod(self.out, 0o755)
        ran = run("trial.py", "tiny.machine", "--rate", "0.1", "--lists", "told", "--report", self.out)
        names, values = (line.split(",") for line in ran.stdout.splitlines())
        row = dict(zip(names, values))
        wanted = {"list": "told", "status": "0", "loads": "9", "loads_sweep": "4", "loads_tables": "5", "listed_wires": "3", "listed_tables": "1"}
        self.assertEqual({name: row[name] for name in wanted}, wanted)
        self.assertGreaterEqual(float(row["diagnose_processor"]), 0)
        self.assertIn("told wants teramac_report", run("trial.py", "tiny.machine", "--rate", "0.1", "--lists", "told", "--report=").stderr)

    @unittest.skipUnless(PORT and REPORT, "teramac_port or teramac_report isn't there")
    def test_cycles(self):
        ran = run("trial.py", "tiny.machine", "--rate", "0.0", "--lists", "diagnosed", "--port", PORT)
        counts = list(map(int, ran.stdout.split(",")[-13:-5]))
        self.assertEqual((sum(counts[1:4]), sum(counts[5:]), counts[1] < counts[5]), (counts[0], counts[4], True))

    @unittest.skipUnless(PORT, "teramac_port isn't there")
    def test_at_work(self):
        """Where faults come while a design runs `go` writes wrong rows, and `twice` ends with the rows before them."""
        design, vectors, machine = f"{EXAMPLES}/counter.blif", f"{EXAMPLES}/counter.vec", f"{self.out}.machine"
        ran = run("size.py", design, "--copies", "--spare", "50%", "-o", machine)
        self.assertEqual(ran.returncode, 0, ran.stderr)
        want, found = call(DEFAULT, "eval", design, vectors).rows, []
        for rate in ("0", *["400"] * 4):
            words = [machine, f"{design}:{vectors}", "--rate", rate, "--seed", str(len(found)), "--lists", "go,twice", "--port", PORT]
            ran = run("trial.py", *words)
            self.assertEqual(ran.returncode, 0, ran.stderr)
            found.append([{**row} for row in csv.DictReader(ran.stdout.splitlines())])
        for row, copies in zip(found[0], (1, 2)):
            self.assertEqual([row[name] for name in ("status", "written", "wrong_rows")], ["0", str(len(want)), "0"])
            self.assertEqual(int(row["pins"]), 3 * copies)
        self.assertIn("wrong", {one["status"] for one, _ in found})
        self.assertIn("7", {two["status"] for _, two in found})
        self.assertLess(*(sum(int(row["wrong_rows"]) for row in rows) for rows in zip(*((two, one) for one, two in found))))

    @unittest.skipUnless(PORT, "teramac_port isn't there")
    def test_one_copy_is_enough(self):
        """By hand: an output pin of one copy is stuck from a cycle on, and `twice` ends there; both alike, and it can't notice."""
        design, vectors, machine = f"{EXAMPLES}/counter.blif", f"{EXAMPLES}/counter.vec", f"{self.out}.machine"
        self.assertEqual(run("size.py", design, "--copies", "--spare", "50%", "-o", machine).returncode, 0)
        load = 1 + run_at_work(PORT, "diagnose", machine, "")[1].loads
        want = call(DEFAULT, "eval", design, vectors).rows
        self.assertEqual(want, [b"00", b"01", b"10", b"11", b"11", b"00"])
        # Inputs are on the first pins, outputs behind them: of `go` pins 1 and 2, of the copies 2 and 3, and 4 and 5.
        high = [b"00", b"01", b"00", b"01", b"01", b"00"]
        for command, schedule, status, rows in (
            ("go", f"{load}.1 stuck0 r.p1\n", 0, high),
            ("twice", f"{load}.1 stuck0 r.p4\n", 7, want[:2]),
            ("twice", f"{load}.3.1 {load}.4 stuck0 r.p2\n", 7, want[:3]),
            ("twice", f"{load}.1 stuck0 r.p2\n{load}.1 stuck0 r.p4\n", 0, high),
        ):
            answer, sessions = run_at_work(PORT, command, machine, schedule, design, vectors)
            found = answer.rows[: -len(answer.refusal) or None]
            self.assertEqual((answer.status, found, sessions.loads), (status, rows, load), (command, schedule))

    def test_schedule(self):
        """Each fault of a set comes within the run, in the design's load, and some go again later."""
        machine = texts.Machine((1, 1, 2, 3, 6, 6, 6, 6, 6, 6, 6, 6))
        faults = make_faults(machine, {"open": 20, "wires": 6, "cells": 4, "registers": 2, "bridges": 3}, 5)
        lines, entries, gone = schedule_text(machine, faults, 17, 40, 5).splitlines(), [], 0
        for line in lines:
            *times, entry = re.fullmatch(r"17\.(\d+)\.(\d+) (?:17\.(\d+)\.(\d+) )?([a-z].*)", line).groups()
            begin, end = ([int(word) for word in pair if word] for pair in (times[:2], times[2:]))
            self.assertTrue(begin[0] < 40 and (not end or begin < end and end[0] < 40), line)
            gone += bool(end)
            entries.append(entry)
        self.assertEqual("\n".join([*entries, ""]), texts.faults_text(machine, faults))
        self.assertTrue(0 < gone < len(lines))

    def test_copies(self):
        """A machine for two copies has what the plan of both wants, and a table less is too few."""
        ran = run("size.py", "counter.blif", "--copies", "--modules", "1", "--chips", "1", "--hextants", "2", "--spare", "40%")
        self.assertEqual(ran.returncode, 0, ran.stderr)
        counts, design = texts.read_machine(ran.stdout.encode()).counts, f"{EXAMPLES}/counter.blif"
        one = designs.plain_network(texts.read_text(texts.read_design, design))
        self.assertGreaterEqual(2 * counts[3], 2 * len(one.tables))
        self.assertEqual(counts_for(designs.side_by_side([one, one]), (1, 1, 2), 0.4)[3:], counts[3:])
        machine = texts.Machine((*counts[:11], 5)).text.encode()
        self.assertEqual(call(DEFAULT, "twice", machine, b"", design, b"").refusal[1:], ["noroom", "pins", "r", "6", "5"])
        both = run("both.py", "counter.blif", "lfsr.blif").stdout.encode()
        joint = designs.plain_network(texts.read_design(both))
        other = designs.plain_network(texts.read_text(texts.read_design, f"{EXAMPLES}/lfsr.blif"))
        self.assertEqual((joint.inputs, len(joint.tables), len(joint.outputs)), (5, len(one.tables) + len(other.tables), 8))
        vectors = [format(self.chance.randrange(32), "05b") for _ in range(40)]
        rows = [call(DEFAULT, "eval", f"{EXAMPLES}/{name}.blif", "".join(f"{vector[begin:end]}\n" for vector in vectors).encode()).rows
                for name, begin, end in (("counter", 0, 1), ("lfsr", 1, 5))]  # fmt: skip
        given = "".join(f"{vector}\n" for vector in vectors).encode()
        self.assertEqual(call(DEFAULT, "eval", both, given).rows, [one + other for one, other in zip(*rows)])

    def test_picture(self):
        given = ["--faults", "tiny.faults", "--defects", "tiny.defects", "--image", "and.image", "--design", "and.blif"]
        drawn = run("draw.py", "tiny.machine", *given).stdout
        self.assertEqual({cause for cause, (colour, *_) in MARKS.items() if drawn.count(colour) > 1}, {"stuck0", "open", "cell"})
        self.assertIn("</svg>", drawn)
        for image, status in (([], 1), (["--image", "and.image"], 0)):
            self.assertEqual(run("draw.py", "tiny.machine", "--level", "chip", "--used", *image).returncode, status)

    def test_lists(self):
        """Nothing faulty is free, nor is a wire that is shorted to a stuck or another free one; other schemes list all of it."""
        machine = texts.Machine((1, 1, 2, 3, 6, 6, 6, 6, 6, 6, 6, 6))
        for seed in range(40):
            faults = make_faults(machine, {"open": 4, "closed": 5, "wires": 3, "cells": 2, "registers": 1, "bridges": 3}, seed)
            exact, bad = texts.exact_list(machine, faults), faults.parts
            self.assertFalse(any(exact.is_free(machine, kind, at) for kind in texts.PARTS for at in bad[kind]))
            for group in texts.short_groups(machine, faults):
                self.assertLessEqual(len(set(group) - exact["wire"]), int(bad["wire"].isdisjoint(group)))
            for listed in (wires_list(machine, faults), hextants_list(machine, faults)):
                self.assertEqual(texts.read_defects(machine, texts.defects_text(machine, listed).encode()), listed)
                self.assertFalse(any(listed.is_free(machine, kind, at) for kind in texts.PARTS for at in exact[kind]))
