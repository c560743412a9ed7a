"""Tests of explain.py on refusals that the built program writes ($TERAMAC or the default): python3 -m unittest."""

import os
import random
import subprocess
import sys
import tempfile
import unittest
from pathlib import Path

import designs
import teramac_texts as texts
from explain import explain, said_of
from explain_room import Plan, joined, least_tables
from faults import make_faults
from program import DEFAULT, HERE, MAPPER, call
from test_studies import EXAMPLES, TURNS, image_bytes, random_blif, random_machine

TINY, SMALL, TIGHT = (Path(EXAMPLES, f"{name}.machine").read_bytes() for name in ("tiny", "small", "tight"))
AND, LFSR, IMAGE = (Path(EXAMPLES, name).read_bytes() for name in ("and.blif", "lfsr.blif", "and.image"))
LIST = b"defects 1\nshape 1 1 1 2 4 4 4 4 4 4 4 4\n%send\n"
NONE, MARK = LIST % b"", b"\xef\xbb\xbf"
BLIF = b".model top\n.inputs a b\n.outputs f\n%s.end\n"


def with_bytes(place, new):
    """The image with other bytes at a place."""
    return IMAGE[:place] + new + IMAGE[place + len(new) :]


class Explained(unittest.TestCase):
    def setUp(self):
        self.folder = Path(self.enterContext(tempfile.TemporaryDirectory()))

    def words(self, words):
        """Examples by their paths; bytes become a file that is named by the place of its word."""
        found = []
        for k, word in enumerate(words):
            path = Path(EXAMPLES, word) if isinstance(word, str) else self.folder / str(k)
            if isinstance(word, bytes):
                path.write_bytes(word)
            found.append(str(path) if path.is_file() else word)
        return found

    def says(self, refusal, said, *words):
        """The program ends with this line, and the explanation of it is this."""
        words = self.words(words)
        answer = call(DEFAULT, *words)
        last = answer.refusal if answer.status else answer.written.decode().split()
        self.assertEqual(" ".join(last), refusal)
        self.assertEqual(explain(refusal, words, answer.written).replace(f"{self.folder}/", ""), said)

    def test_words_and_files(self):
        self.says("refused words", "`eval` takes 2 words (DESIGN VECTORS), and 1 was given", "eval", "and.blif")
        commands = "eval, compile, diagnose, run, go, bench, check, repair, pair, twice"
        self.says("refused words", f"`diagnos` is no command; commands are {commands}; did you mean `diagnose`?", "diagnos", TINY, "@1")
        self.says("refused words", "`007` is no number from 0 to 4,294,967,295 without leading zeros", "bench", "007")
        self.says("refused store", "the vectors file none.vec isn't there", "eval", "and.blif", "none.vec")
        self.says("refused rig", "@01 is a file's name, since a number has no leading zeros", "diagnose", TINY, "@01")
        self.says("refused rig", "@4294967296 is a file's name, since numbers go to 4,294,967,295", "diagnose", TINY, "@4294967296")

    def test_byte_order_marks(self):
        said = "{} begins with a byte order mark (UTF-8 with BOM), three bytes that are no text here: tail -c +4 OLD > NEW"
        for refusal, file, *words in (
            ("refused machine 1 word", "1", "diagnose", MARK + TINY, "@1"),
            ("refused faults 1 word", "2", "diagnose", TINY, MARK + b"stuck0 r.l0\n"),
            ("refused defects 1 word", "2", "compile", TINY, MARK + NONE, "and.blif"),
            ("refused image 0 magic", "3", "run", TINY, "@1", MARK + IMAGE, "and.vec"),
            ("refused design 1 nomodel", "1", "eval", MARK + AND, "and.vec"),
            ("refused vectors 1 char", "2", "eval", "and.blif", MARK + b"00\n"),
        ):
            self.says(refusal, said.format(file), *words)
        said = "1 was saved as UTF-16: iconv -f UTF-16 -t UTF-8 OLD > NEW"
        self.says("refused machine 1 byte", said, "diagnose", TINY.decode().encode("utf-16"), "@1")

    def test_files_of_another_kind(self):
        for refusal, said, *words in (
            ("refused faults 1 word", "2 is a machine, where a fault file is wanted; the words of `diagnose` are MACHINE RIG", "diagnose",
             TINY, TINY),
            ("refused defects 1 word",
             "2 is a fault file, where a list of defects is wanted; the words of `compile` are MACHINE DEFECTS DESIGN",
             "compile", TINY, b"stuck0 r.l0\n", "and.blif"),
            ("refused design 2 nomodel", "1 is a vector file, where a design is wanted; the words of `eval` are DESIGN VECTORS",
             "eval", b"# rows\n01\n", "and.blif"),
            ("refused second 1 nomodel",
             "4 is a vector file, where a design is wanted; the words of `pair` are MACHINE RIG FIRST SECOND VECTORS",
             "pair", TINY, b"", AND, b"01\n", AND),
            ("refused image 0 magic",
             "3 doesn't begin as an image: it is the output of a command that was refused, where an image is wanted; "
             "its first line is `refused noroom tables r 10 1`", "run", TINY, b"", b"refused noroom tables r 10 1\n", "and.vec"),
            ("refused image 0 magic", "the file doesn't begin as an image: its first eight bytes aren't TERAIMG1", "run", TINY, b"",
             b"TERAIMG2", "and.vec"),
        ):  # fmt: skip
            self.says(refusal, said, *words)

    def test_machines(self):
        order = "teramac, modules, chips, hextants, tables, ports, lines, pins, end"
        for refusal, said, old, new in (
            ("7 word", "`lines` takes 4 numbers (of the root, a module, a chip and a hextant), and 3 stand here", b"4 4 4 4\n", b"4 4 4\n"),
            ("3 word", "`chip` is no word of a machine, and `chips` is due; did you mean `chips`?", b"chips", b"chip"),
            ("1 word", "`teramac 3` isn't known; the first line is `teramac 1`, or `teramac 2` for a larger machine", b"teramac 1", b"teramac 3"),
            ("5 order", f"`ports` stands where `tables` is due; the order is {order}", b"tables 2\n", b""),
            ("3 order", f"`modules` stands where `chips` is due, and stands above already; the order is {order}", b"chips", b"modules"),
            ("5 number", "`0` is no number from 1 to 65,535 without leading zeros", b"tables 2", b"tables 0"),
            ("6 number", "`04` is no number from 1 to 65,535 without leading zeros", b"ports 4 4 4", b"ports 4 04 4"),
            ("10 after", "behind `end` only blanks and comments may stand, and here stands `end`", b"end\n", b"end\nend\n"),
            ("0 missing", "the file ends where `end` is due; the last line of a machine is `end`", b"end\n", b""),
            ("2 byte", "the byte 0 at place 8 of the line may not stand in a text; is this a text, and not UTF-16?", b"modules 1",
             b"modules\x001"),
            ("9 limit", "its counts give 5,000 tables, and at most 4,096 may be; 35,032 wires, and at most 16,384 may be; "
             "with `teramac 2` as its first line it is taken", b"tables 2", b"tables 5000"),
        ):  # fmt: skip
            self.says(f"refused machine {refusal}", said, "diagnose", TINY.replace(old, new), "@1")
        self.says("refused machine 0 missing", "the file is empty", "diagnose", b"", "@1")
        large = TINY.replace(b"teramac 1", b"teramac 2").replace(b"chips 1", b"chips 2").replace(b"tables 2", b"tables 40000")
        self.says("refused machine 9 limit", "its counts give 80,000 tables, and at most 65,536 may be", "diagnose", large, "@1")

    def test_faults(self):
        kinds = "stuck0, stuck1, open, closed, cell, register, bridge"
        for refusal, said, text in (
            ("1 word", f"`opne` is no kind of fault; kinds are {kinds}; did you mean `open`?", b"opne r.p0 r.l0\n"),
            ("1 word", "`cell` takes 3 words (TABLE ADDRESS VALUE), and 2 stand here", b"cell m0.c0.h0.t0 1\n"),
            ("2 wire", "`r.l4` is no part of this machine; the last of its kind there is r.l3", b"stuck0 r.l0\nstuck1 r.l4\n"),
            ("1 wire", "`m0.c0.h2.t0.q` is no part of this machine; the last of its kind there is m0.c0.h0", b"stuck0 m0.c0.h2.t0.q\n"),
            ("1 wire", "`m0.c0.h0.t0` is a table; its wires are m0.c0.h0.t0.i0 to .i5 and m0.c0.h0.t0.q", b"stuck0 m0.c0.h0.t0\n"),
            ("1 cross", "the tap comes first and then the line: r.p0 r.l0", b"open r.l0 r.p0\n"),
            ("1 cross", "only taps of its own node cross a line", b"open r.p0 m0.l0\n"),
            ("1 cell", "the address `64` is none of 0 to 63, the addresses of a table", b"cell m0.c0.h0.t0 64 0\n"),
            ("1 cell", "the value `2` is neither 0 nor 1", b"cell m0.c0.h0.t0 63 2\n"),
            ("1 cell", "`r.l0` is a wire and no table", b"cell r.l0 63 0\n"),
            ("1 register", "`m0.c0.h0.t2` is no part of this machine; the last of its kind there is m0.c0.h0.t1",
             b"register m0.c0.h0.t2 0\n"),
            ("1 same", "a bridge joins two wires, and both words are r.l0", b"bridge r.l0 r.l0\n"),
            ("3 doubled", "line 1 says the same: bridge r.l0 r.l1", b"bridge r.l0 r.l1\n\nbridge r.l1 r.l0\n"),
            ("2 against", "line 1 says the other value of the same part: open r.p0 r.l0", b"open r.p0 r.l0\nclosed r.p0 r.l0\n"),
            ("2 against", "line 1 says the other value of the same part: cell m0.c0.h0.t0 1 0",
             b"cell m0.c0.h0.t0 1 0\ncell m0.c0.h0.t0 1 1\n"),
        ):  # fmt: skip
            self.says(f"refused faults {refusal}", said, "diagnose", TINY, text)

    def test_lists_of_defects(self):
        for refusal, said, text in (
            ("1 word", "the line ends with CR LF, as editors of Windows write it; a list of defects has LF alone: tr -d '\\r' < OLD > NEW",
             NONE.replace(b"\n", b"\r\n")),
            ("1 word", "the file is empty; a list of no defects has three lines: defects 1, shape with the twelve counts, end", b""),
            ("3 word", "the last line, `end`, ends without LF", NONE[:-1]),
            ("3 word", "the list ends without the line `end`", NONE[:-4]),
            ("2 word", "the second line is `shape` and the twelve counts, with single blanks, and not `end`", b"defects 1\nend\n"),
            ("3 word", "`wire  r.l0` isn't spelled as in a list of defects: single blanks, no comments, no empty lines",
             LIST % b"wire  r.l0\n"),
            ("3 word",
             "`wires` is no word of a list of defects; entries are wire WIRE, cross TAP LINE and table TABLE; did you mean `wire`?",
             LIST % b"wires r.l0\n"),
            ("3 word", "`cross` takes 2 names, and 1 stands here", LIST % b"cross r.l0\n"),
            ("2 machine", "the list is for 1 1 1 2 4 4 4 4 4 4 4 5, the machine 1 1 1 2 4 4 4 4 4 4 4 4", NONE.replace(b"4\nend",
             b"5\nend")),
            ("3 name", "the tap comes first and then the line: r.p0 r.l0", LIST % b"cross r.l0 r.p0\n"),
            ("3 name", "`m0.c0.h0.t2` is no part of this machine; the last of its kind there is m0.c0.h0.t1",
             LIST % b"table m0.c0.h0.t2\n"),
            ("4 order", "`wire r.l0` has the number 4, and stands behind `wire r.l3`, which has 7: numbers ascend",
             LIST % b"wire r.l3\nwire r.l0\n"),
            ("4 order", "`wire` comes behind `table`: wires stand first, then crosspoints, then tables",
             LIST % b"table m0.c0.h0.t0\nwire r.l0\n"),
            ("4 doubled", "line 3 is the same", LIST % b"wire r.l0\nwire r.l0\n"),
            ("5 doubled", "r.l0 stands in line 3 already, and a crosspoint with a listed wire isn't listed again",
             LIST % b"wire r.l0\nwire r.l1\ncross r.p0 r.l0\n"),
            ("4 doubled", "m0.c0.h0.t1.q stands in line 3 already, and a table with a listed pin isn't listed again",
             LIST % b"wire m0.c0.h0.t1.q\ntable m0.c0.h0.t1\n"),
            ("4 after", "behind the line `end` nothing may stand, and rows stand there: take the output of diagnose, not of go or pair",
             NONE + b"outputs\n0\n"),
        ):  # fmt: skip
            self.says(f"refused defects {refusal}", said, "compile", TINY, text, "and.blif")

    def test_images(self):
        for refusal, said, data in (
            ("8 shape", "the image is for 2 1 1 2 4 4 4 4 4 4 4 4, the machine 1 1 1 2 4 4 4 4 4 4 4 4: modules are 2 and 1",
             with_bytes(8, b"\0\2")),
            ("10 shape", "the image is for 1 2 1 2 4 4 4 4 4 4 4 4, the machine 1 1 1 2 4 4 4 4 4 4 4 4: chips are 2 and 1",
             with_bytes(10, b"\0\2")),
            ("0 short", "the file is empty", b""),
            ("100 short", "the file ends within crosspoint entry 9: 100 bytes are there, and by its own counts it has 157; was it cut off?",
             IMAGE[:100]),
            ("40 short", "the file ends within the pin of input 1: 40 bytes are there; was it cut off?", IMAGE[:40]),
            ("157 after", "by its own counts the image has 157 bytes, and the file has 159", IMAGE + b"\n\n"),
            ("32 range", "the number of ticks: 0 stands there, and 1 to 4,096 may on this machine", with_bytes(32, b"\0\0")),
            ("38 range", "the pin of input 0: 4 stands there, and 0 to 3 may on this machine", with_bytes(38, b"\0\4")),
            ("40 order", "the pin of input 1: 0 stands there, and an input or output before it has this pin", with_bytes(40, b"\0\0")),
            ("46 range", "the number of table entry 0: 2 stands there, and 0 to 1 may on this machine", with_bytes(46, b"\0\2")),
            ("65 order", "crosspoint entry 1: 1 stands there, and isn't above the one before it", with_bytes(65, b"\0\0\0\1")),
        ):  # fmt: skip
            self.says(f"refused image {refusal}", said, "run", TINY, b"", data, "and.vec")

    def test_designs(self):
        for refusal, said, text in (
            ("5 row", "the cover of line 4, `f`, has 2 inputs, and the row's first word has 3 characters", b".names a b f\n111 1\n"),
            ("5 row", "`x` in the row is none of 0, 1 and -", b".names a b f\n1x 1\n"),
            ("6 rowmixed", "this row ends with 0, and that of line 5, of the same cover, with 1", b".names a b f\n11 1\n00 0\n"),
            ("5 word", "the cover of line 4, `f`, has 2 inputs, so a row is two words, the inputs' and the output's, and here is 1",
             b".names a b f\n11\n"),
            ("4 word", "a row may stand only below .names, and above stands `.outputs f` (line 3)", b"11 1\n"),
            ("4 word", ".latch takes 2 to 5 words (INPUT OUTPUT re CONTROL INIT), and 1 stands here", b".latch a\n"),
        ):
            self.says(f"refused design {refusal}", said, "eval", BLIF % text, "and.vec")
        begins = "a BLIF file begins with .model, and"
        self.says("refused design 0 nomodel", f"{begins} this file is empty", "eval", b"# nothing\n", "and.vec")
        self.says("refused design 1 nomodel", f"{begins} the first line here is `module top;`", "eval", b"module top;\n", "and.vec")

    def test_models_and_signals(self):
        for refusal, said, text in (
            ("4 nosuchmodel nand", "no model of the file is called `nand`; they are top", b".subckt nand x=a y=f\n"),
            ("4 nosuchmodel $_DFF_P_",
             "no model of the file is called `$_DFF_P_`; they are top; it is a cell of yosys: synth, dfflegalize (docs/BLIF.md)",
             b".subckt $_DFF_P_ D=a Q=f\n"),
            ("4 formal z", "of the model half `z` is no input, output or .clock of it",
             b".subckt half x=a z=f\n.end\n.model half\n.inputs x\n.outputs y\n.names x y\n1 1\n"),
            ("4 formal x", "of the model half `x` is not given, and each input has to be",
             b".subckt half y=f\n.end\n.model half\n.inputs x\n.outputs y\n.names x y\n1 1\n"),
            ("4 formal x", "of the model half `x` stands twice here",
             b".subckt half x=a x=b y=f\n.end\n.model half\n.inputs x\n.outputs y\n.names x y\n1 1\n"),
            ("7 recursive half", "through this line, which uses half, its own model is used again: a model may not use itself",
             b".subckt half x=a\n.end\n.model half\n.subckt half x=a\n.inputs x\n"),
            ("7 undriven 0/z", "no .inputs, .names or .latch gives a value to `0/z`; "
             "0/ before z is the way there, of .subckt lines counted from 0 in their models",
             b".subckt half x=f\n.end\n.model half\n.names z x\n1 1\n.outputs x\n"),
            ("4 latchtype", "`fe` is a latch of another type than re; let yosys run dfflegalize and dffunmap (docs/BLIF.md)",
             b".latch a f fe b 0\n"),
            ("4 latchinit", "the initial value `7` is none of 0, 1, 2 and 3", b".latch a f 7\n"),
            ("5 control", "a second control: line 4 has a, this line b; a design has one clock (docs/BLIF.md says what helps)",
             b".latch a f re a 0\n.latch b g re b 0\n"),
            ("4 leftout", ".gate isn't read; let yosys map to .names and .latch (docs/BLIF.md)", b".gate nand2 a=a\n"),
            ("4 unknown", "`.name` is no word of BLIF; did you mean `.names`?", b".name a f\n"),
            ("5 samemodel", "line 1 begins a model `top` already", b".end\n.model top\n"),
            ("6 doubled f", "`f` is driven a second time here, first in line 4", b".names a f\n1 1\n.names b f\n1 1\n"),
            ("4 undriven aa", "no .inputs, .names or .latch gives a value to `aa`; did you mean `a`?", b".names aa f\n1 1\n"),
            ("4 cyclic f", "covers read each other in a circle without a latch: f reads g reads f",
             b".names g f\n1 1\n.names f a g\n11 1\n"),
        ):  # fmt: skip
            self.says(f"refused design {refusal}", said, "eval", BLIF % text, "and.vec")

    def test_vectors(self):
        for refusal, said, design, text in (
            ("2 char", "column 2 (of the input b), byte 3 of the line, is `x`, and only 0 and 1 may stand there", AND, b"00\n1 x # in\n"),
            ("1 char", "the design has no inputs, so a vector is a lone `.`, and here stands `1`", b".model m\n.outputs f\n.names f\n1\n",
             b"1\n"),
            ("1 width", "this line has 3 columns, and the design 2 inputs: a b", AND, b"101\n"),
            ("1 width", "this line has 1 column, and the design 2 inputs: a b", AND, b"1\n"),
        ):
            self.says(f"refused vectors {refusal}", said, "eval", design, text)
        said = "this line has 3 columns, and the image 2 inputs: r.p0 r.p1"
        self.says("refused vectors 1 width", said, "run", TINY, b"", IMAGE, b"101\n")
        self.says("refused vectors 1 char", "column 1 (of the input r.p0), byte 1 of the line, is `.`, and only 0 and 1 may stand there",
                  "run", TINY, b"", IMAGE, b".\n")  # fmt: skip
        said = "this line has 3 columns, and the designs together 4 inputs: a b a b"
        self.says("refused vectors 1 width", said, "pair", SMALL, b"", AND, AND, b"101\n")

    def test_limits(self):
        long = "the file has 16,777,217 bytes, and at most 16,777,216 are read"
        self.says("refused machine 0 limit", long, "diagnose", b"#" * 16_777_217, "@1")
        self.says("refused design 0 limit", long, "eval", b"#" * 16_777_217, "and.vec")
        name = f"the name {40 * 'n'}.. has more than 255 bytes"
        self.says("refused design 4 limit", name, "eval", BLIF % (b".names " + 256 * b"n" + b"\n"), "and.vec")
        inputs = "this cover has 257 inputs, and at most 256 may be"
        self.says("refused design 4 limit", inputs, "eval", BLIF % (b".names" + 258 * b" a" + b"\n"), "and.vec")
        rows = "this is the 4,097th row of its cover, and 4,096 may be"
        self.says("refused design 4101 limit", rows, "eval", BLIF % (b".names a b f\n" + 4_097 * b"11 1\n"), "and.vec")
        counts = (1, 1, 1, 1, 1, 1, 1, 1100, 1, 1, 1, 1000)
        wide = texts.Machine(counts)
        entries = "".join(f"open {wide.name('cross', cross)}\n" for cross in range(65_537)).encode()
        said = "65,536 entries stand before this line, and no more may be"
        self.says("refused faults 65537 limit", said, "diagnose", wide.text.encode(), entries)
        image = image_bytes(wide, texts.Image(1, [], [], [], range(1_000_001)))
        said = "the image closes 1,000,001 crosspoints, and repair takes at most 1,000,000"
        self.says("refused image 0 limit", said, "repair", wide.text.encode(), texts.defects_text(wide, texts.Defects()).encode(), image)

    def test_room(self):
        tiny = "refused noroom tables r 10 1"
        least = "6 outputs that differ want a table each in any text, so teramac_map can't help; 10 good tables would be enough"
        said = f"the machine has 1 table that serves, the plan in order wants 10. {least}"
        self.says(tiny, said, "compile", TINY, "tiny.defects", LFSR)
        self.says(tiny, said, "go", TINY, "tiny.faults", LFSR, "lfsr.vec")
        few = TINY.replace(b"tables 2", b"tables 9").replace(b"pins 4", b"pins 10")
        said = "the machine has 9 tables that serve, the plan in order wants 10: teramac_map may find a text that wants fewer"
        self.says("refused noroom tables r 10 9", said, "go", few, b"", LFSR, "lfsr.vec")
        said = "the machine has 4 pins that serve, the plan in order wants 10: 4 inputs and 6 outputs"
        kept = "teramac_map keeps inputs and outputs, so no other text helps; 10 good pins would be enough"
        self.says("refused noroom pins r 10 4", f"{said}. {kept}", "go", TINY.replace(b"tables 2", b"tables 10"), b"", LFSR, "lfsr.vec")

    def test_ports_and_lines(self):
        one = TINY.replace(b"ports 4 4 4", b"ports 2 4 4")
        said = "node m0 has 2 ports that serve, the plan in order wants 3 for the nets that cross it: a b y"
        fits = "in the machine, and nothing more on the list, the plan in order fits; teramac_map may find a text that fits"
        self.says("refused noroom ports m0 3 2", f"{said}. With `ports 3 4 4` {fits}", "go", one, b"", AND, "and.vec")
        one = TINY.replace(b"lines 4", b"lines 2")
        said = "the machine has 2 lines that serve any of 3 nets that the plan in order leads there: a b y"
        self.says("refused noroom lines r 3 2 0 1 2", f"{said}. With `lines 3 4 4 4` {fits}", "go", one, b"", AND, "and.vec")

    def test_the_spare_does(self):
        """Random designs and machines: with the counts that are named, and the same list, compile has room; with one less it hasn't."""
        chance, tried = random.Random(5), 0
        for turn in range(TURNS):
            design = random_blif(chance, inputs=3, covers=chance.randint(2, 6)).encode()
            found, machine = [texts.read_design(design)], random_machine(chance, 4)
            network = designs.plain_network(found[0])
            machine = texts.Machine((*machine.counts[:3], 8, *machine.counts[4:11], network.inputs + len(network.outputs) + 1))
            defects = texts.exact_list(machine, make_faults(machine, {"open": 0.05, "wires": 0.02}, seed=turn))
            answer = call(DEFAULT, "compile", machine.text.encode(), texts.defects_text(machine, defects).encode(), design)
            if answer.status != 3 or answer.refusal[2] in ("tables", "pins"):
                continue
            tried += 1
            counts = Plan(machine, defects, joined(found)[0]).counts_that_do()
            self.assertEqual(self.status_of(counts, machine, defects, design), 0)
            for place in range(4, 11):
                if counts[place] > machine.counts[place]:
                    less = (*counts[:place], counts[place] - 1, *counts[place + 1 :])
                    self.assertEqual(self.status_of(less, machine, defects, design), 3)
        self.assertGreater(tried, TURNS // 8)

    def status_of(self, counts, machine, defects, design):
        """The status of compile on a machine with these counts and the list of another, by the names of its parts."""
        other, moved = texts.Machine(counts), texts.Defects()
        for kind, numbers in defects.items():
            moved[kind] = {other.number(kind, machine.name(kind, number).split(" ")) for number in numbers}
        return call(DEFAULT, "compile", other.text.encode(), texts.defects_text(other, moved).encode(), design).status

    def test_pairs(self):
        """The nets of both designs by one numbering: inputs of the first and the second, tables of the first and the second."""
        one = SMALL.replace(b"lines 24", b"lines 2")
        said = "the machine has 2 lines that serve any of 3 nets that the plan in order leads there: first:a first:b second:a"
        does = "With `lines 6 24 24 24` in the machine, and nothing more on the list, the plan in order fits"
        helps = "teramac_map may find a text that fits, of each design by itself"
        self.says("refused noroom lines r 3 2 0 1 2", f"{said}. {does}; {helps}", "pair", one, b"", AND, AND, "both.vec")

    def test_copies(self):
        """Two copies of a design have the nets of a pair of it and itself; what differs at a row is said in words alone."""
        one = SMALL.replace(b"lines 24", b"lines 2")
        said = "the machine has 2 lines that serve any of 3 nets that the plan in order leads there: first:a first:b second:a"
        does = "With `lines 6 24 24 24` in the machine, and nothing more on the list, the plan in order fits"
        self.says("refused noroom lines r 3 2 0 1 2", f"{said}. {does}; teramac_map may find a text that fits", "twice", one, b"", AND, "and.vec")
        self.assertIn("read differently, so the machine has changed", explain("refused differ", ["twice", "m", "r", "d", "v"]))

    def test_repairs(self):
        anew = "What stays keeps its place in a repair, so compile the design anew on this list: it may still have room"
        for refusal, said, entries in (
            ("lines r 1 0 0", "1 net of the image has to move, and the machine has 0 free lines for that: net 0 (from input 0 at r.p0)",
             b"wire r.l0\nwire r.l2\n"),
            ("pins r 2 1", "2 pins of the image have to move, and the machine has 1 free pin for that",
             b"wire r.p0\nwire r.p1\n"),
            ("tables r 1 0", "1 table of the image has to move, and the machine has 0 free tables for that",
             b"table m0.c0.h0.t0\ntable m0.c0.h0.t1\n"),
        ):  # fmt: skip
            self.says(f"refused noroom {refusal}", f"{said}. {anew}", "repair", TINY, LIST % entries, IMAGE)

    def test_doubt(self):
        rest = "It isn't sound, or no two good ways lead the diagnosis there; of several the first is named"
        helps = "What helps: diagnose the machine anew, and let repair or compile write another image for the new list"
        for line, said, faults in (
            ("wire r.l3",
             "the image, in net 2 (from table m0.c0.h0.t1), uses this wire, and it isn't free on a list of the machine's defects",
             b"stuck0 r.l3\n"),
            ("cross r.p0 r.l2",
             "the image, in net 0 (from input 0 at r.p0), closes this crosspoint, and it isn't free on a list of the machine's defects, "
             "though its wires are", b"open r.p0 r.l2\n"),
            ("table m0.c0.h0.t1",
             "the image switches this table on, and it isn't free on a list of the machine's defects; its wires and crosspoints are",
             b"cell m0.c0.h0.t1 5 1\n"),
        ):  # fmt: skip
            self.says(f"doubt {line}", f"{said}. {rest}. {helps}", "check", TINY, faults, IMAGE)
        self.says("sound", "the image reads the same as on a machine without faults", "check", TINY, b"", IMAGE)

    def test_lines_of_other_files(self):
        """A line that the files don't give is answered all the same."""
        kinds = "byte after word order number limit missing wire cross cell register same doubled against machine name char width magic"
        kinds += " shape range short nomodel leftout unknown samemodel row rowmixed latchtype latchinit control nosuchmodel formal"
        kinds += " recursive undriven cyclic"
        words = self.words(["go", "tiny.machine", "tiny.faults", "and.blif", "and.vec", "tiny.defects", "and.image"])
        commands = words[:5], ["run", *words[1:3], words[6], words[4]], ["compile", words[1], words[5], words[3]], words[1:]
        for file in ("machine", "faults", "defects", "image", "design", "vectors", "first"):
            for line in [f"refused {file} {number} {kind} z" for number in (0, 1, 3, 99) for kind in kinds.split()]:
                for command in commands:
                    self.assertRegex(said_of(line, command), ".")
        short = "refused noroom lines r 3 2 0 1 99", "refused noroom ports m7 3 2", "refused noroom"
        for line in (*short, "doubt wire r.l77", "doubt cross r.l0"):
            for command in commands:
                self.assertRegex(said_of(line, command), ".")

    def test_least_tables(self):
        """Outputs that are inputs want none, outputs that are always alike one together, a latch and what it takes two."""
        for least, lines in (
            (0, b".outputs a b a\n"),
            (1, b".outputs f g\n.names a b f\n11 1\n.names b a g\n0- 0\n-0 0\n"),
            (2, b".outputs f s\n.names a b f\n11 1\n.latch f s 1\n"),
            (1, b".outputs f g a\n.names f\n1\n.names g\n1\n"),
            (0, b".outputs f\n.names a f\n0 0\n"),
        ):
            self.assertEqual(least_tables(texts.read_design(b".model m\n.inputs a b\n" + lines)), least)

    @unittest.skipUnless(MAPPER, "teramac_map isn't there")
    def test_the_mapper(self):
        words = self.words([TINY, "tiny.defects", LFSR])
        line = " ".join(call(MAPPER, *words).refusal)
        self.assertEqual(line, "refused noroom tables r 10 1")
        self.assertIn("6 outputs that differ want a table each", explain(line, ["teramac_map", *words]))

    def script(self, *words, given=None):
        """What the script writes on both outputs, and its status."""
        command = [sys.executable, os.path.join(HERE, "explain.py"), *self.words(words)]
        ran = subprocess.run(command, input=given, capture_output=True, check=False, env={**os.environ, "TERAMAC": DEFAULT})
        return ran.stdout.replace(bytes(self.folder), b"."), ran.stderr, ran.returncode

    def test_a_line_and_files(self):
        said = b"this line has 3 columns, and the design 2 inputs: a b\n"
        self.assertEqual(self.script("refused vectors 1 width", "eval", AND, b"101\n"), (said, b"", 0))
        Path(self.folder, "wide.vec").write_text("101\n")
        self.assertEqual(self.script("refused vectors 1 width", "and.blif", f"{self.folder}/wide.vec"), (said, b"", 0))
        self.assertEqual(self.script("refused vectors 1 width")[0], b"give the vectors file after the line, to hear more of line 1\n")
        said = b"this line has 3 columns, give the design to hear how many are due\n"
        self.assertEqual(self.script("refused vectors 1 width", f"{self.folder}/wide.vec")[0], said)
        self.assertEqual(self.script("refuse 1")[0], b"no line of a refusal; these begin with `refused`, or of check with `doubt`\n")

    def test_a_command_that_is_run(self):
        """Its output and its status are those of the program, and what isn't refused isn't spoken of."""
        self.assertEqual(self.script("teramac", "eval", "and.blif", "and.vec"), (b"outputs\n0\n0\n0\n1\n", b"", 0))
        self.assertEqual(self.script(DEFAULT, "eval", "and.blif", "and.vec"), (b"outputs\n0\n0\n0\n1\n", b"", 0))
        image = self.script("teramac", "compile", "tiny.machine", "tiny.defects", "and.blif")
        self.assertEqual(image, (IMAGE, b"", 0))
        said = b"column 1 (of the input a), byte 1 of the line, is `x`, and only 0 and 1 may stand there\n"
        self.assertEqual(self.script("teramac", "eval", AND, b"11\nx1\n"), (b"outputs\n1\nrefused vectors 2 char\n", said, 1))
        doubt = self.script("teramac", "check", TINY, b"stuck0 r.l1\n", IMAGE)
        self.assertEqual((doubt[0], doubt[2]), (b"doubt wire r.l1\n", 0))
        self.assertTrue(doubt[1].startswith(b"the image, in net 1 (from input 1 at r.p1), uses this wire"))

    def test_a_pipe(self):
        one = TINY.replace(b"lines 4", b"lines 2")
        words = self.words(["go", one, b"", AND, "and.vec"])
        written = call(DEFAULT, *words).written
        passed, said, status = self.script(*words, given=written)
        self.assertEqual((passed, status), (written, 0))
        begins = b"the machine has 2 lines that serve any of 3 nets that the plan in order leads there: a b y. With `lines 3"
        self.assertTrue(said.startswith(begins))
        self.assertEqual(self.script(given=b"outputs\n0\n"), (b"outputs\n0\n", b"", 0))
        said = b"memory was wanting: close what else runs, or take a smaller machine\n"
        self.assertEqual(self.script(given=b"refused memory\n"), (b"refused memory\n", said, 0))
