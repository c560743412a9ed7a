"""Tests of the ends that want no Verilog tool: python3 -m unittest, in this folder or by discover -s ends."""

import random
import shutil
import subprocess
import sys
import tempfile
import unittest
from pathlib import Path

HERE = Path(__file__).resolve().parent
sys.path.insert(0, str(HERE))

import c_end
import compare
import cost
import overlay_end
import switch_end
from asker import Asker, DevicePort, WrongReply, edits, shorter, whole
from lines import Check, Device
from machine import Faults, Refused, read_faults, read_machine
from model import Configuration, Session, Setting
from schedule import Schedule

EXAMPLES = HERE.parent / "examples"
TINY = read_machine((EXAMPLES / "tiny.machine").read_text())
SMALL = read_machine((EXAMPLES / "small.machine").read_text())
ALL_FAULTS = """
stuck0 r.l3
stuck1 m0.o1
open r.p0 r.l1
closed m0.c0.o0 m0.l2
bridge m0.c0.l2 m0.c0.h0.o3
cell m0.c0.h0.t0 17 1
register m0.c0.h0.t1 0
"""

# Requests and replies of a sound `tiny`, one after the other: edits, drives alone, a load without drives, attaching again.
TALK = [
    ("a 1*97b3", "=2 1 1 1 1 2 4 4 4 4 4 4 4 4*0758"),
    ("c0 c5 l d0e*e848", "=0e*3c1a"),
    ("o5 c10 t1,8888888888888888,0 l d0f*2e15", "=0f*eae8"),
    ("d0e d0f*89fb", "=0e 0f*8383"),
    ("z l*2689", "=*ecc6"),
    ("d0f*30c0", "=0f*ed93"),
    ("a 2*98b4", "=2 2 1 1 1 2 4 4 4 4 4 4 4 4*3d5a"),
]
OTHER_TALK = [
    ("a 1*97b3", "=2 1 1 1 1 2 4 4 4 4 4 4 4 4*0758"),
    ("c0 c5 l d0e*e848", "=0e*3c1a"),
    ("z c10 t1,8888888888888888,0 l d0f*3beb", "=0f*79be"),
    ("d0f*a5b8", "=0f*4a8b"),
]
# Behind the first three lines of the other talk `d0f*a5b8` is right. What each end has to refuse there: wrong checks, ..
WRONG = ["d0f*0000", "d0f*a5b9", "d0f*a4b8", "d0f*b8a5", "d0f*a5", "d0f*A5b8", "d0f*a5B8", "d0f*0a5b8", "d0f*a5b80", "d0f*", "d0f*a5b8*a5b8"]
WRONG += ["d0f*a5b8 ", "*a5b8", "a 1*97b4", "a 2*97b3", "a*61", "d0f*fa"]
# .. numbers that are out of range or spelled in another way, ..
WRONG += ["k0 l d0f", "k4097 l d0f", "k01 l d0f", "c168 l d0f", "o168 l d0f", "c00 l d0f", "c l d0f", "c-1 l d0f", "x2 l d0f", "x0,1 l d0f"]
WRONG += [f"c{2**bits} l d0f" for bits in (32, 64)] + ["t2,0000000000000000,0 l d0f", "t1,0,0 l d0f", "t1,88888888888888888,0 l d0f"]
WRONG += ["t1,8888888888888888,4 l d0f", "t1,8888888888888888 l d0f", "t1,888888888888888A,0 l d0f", "t1,,0 l d0f"]
WRONG += ["a", "a ", "a 01", "a 4294967296", f"a {2**64 + 1}", "a 1f", "a1", "a  1", "a -1"]
# .. pin texts of another width or with bits beyond the pins, ..
WRONG += ["d", "d1", "dag", "l d0g", "d0F", "d1f", "d00f", "d0f d"]
# .. and lines of another form.
WRONG += ["q", "c9", "z", "z d0f", "z c0", "a 1 d0f", "a 1 a 2", "a 1 ", " d0f", "d0f ", "d0f  d0e", "l  d0f", "l d0f l d0f", "c0 d0f l d0f"]
WRONG += ["z z l d0f", "c0 z l d0f", "l d0f c0", "l d0f z", "l l", "l ", "D0f", "d0f\r", "\td0f", "d0f\1", "l d0f,"]

class Texts(unittest.TestCase):
    def test_numbers_of_tiny(self):
        self.assertEqual(len(TINY.wires), 46)
        self.assertEqual([node.first for node in TINY.nodes], [0, 32, 64, 96])
        wires = [TINY.wires.index(name) for name in ("r.p1", "r.l1", "m0.c0.h0.t0.q", "m0.c0.h0.l2")]
        self.assertEqual(TINY.crosses.index((wires[0], wires[1])), 5)
        self.assertEqual(TINY.crosses.index((wires[2], wires[3])), 138)
        self.assertEqual(list(TINY.tables[1]), list(range(39, 46)))

    def test_most_loads(self):
        self.assertEqual(TINY.most_loads, 2 * 168 + 3 * 46 + 130 * 2)
        self.assertEqual(len(SMALL.crosses), 9792)
        for machine in (TINY, SMALL):
            parts = len(machine.crosses), len(machine.wires), len(machine.tables)
            self.assertEqual(machine.most_loads, 2 * parts[0] + 3 * parts[1] + 130 * parts[2])

    def test_wrong_machines(self):
        text = (EXAMPLES / "tiny.machine").read_text()
        changes = (("tables 2", "tables 0"), ("pins 4", "pins 4 4"), ("end", ""), ("teramac 1", "teramac 3"), ("tables 2", "tables 5000"))
        for wrong in ("", text + "end\n", *(text.replace(*change) for change in changes)):
            with self.assertRaises(Refused):
                read_machine(wrong)

    def test_large_machines(self):
        text = (EXAMPLES / "tiny.machine").read_text().replace("teramac 1", "teramac 2")
        self.assertEqual((read_machine(text).counts, TINY.most_ticks), (TINY.counts, 4_096))
        large = read_machine(text.replace("tables 2", "tables 5000"))
        self.assertEqual((len(large.tables), len(large.wires), large.most_ticks), (5_000, 35_032, 65_535))
        for change in (("chips 1", "chips 14"), ("pins 4", "pins 8193"), ("lines 4 4 4 4", "lines 4 4 4 9000")):
            with self.assertRaises(Refused):
                read_machine(text.replace("tables 2", "tables 5000").replace(*change))
        last = len(large.crosses) - 1
        self.assertEqual(large.crosses[last], (len(large.wires) - 1, large.nodes[3].lines[-1]))
        self.assertEqual(large.crosses.number(*large.crosses[last]), last)
        session = Session(large, Faults(), Configuration({0, 4}))
        self.assertEqual(session.cycle(0b1110), 0b1100)

    def test_wrong_faults(self):
        for wrong in ("stuck0 r.l9", "open r.l1 r.p0", "cell m0.c0.h0.t0 64 0", "bridge r.l0 r.l0", "stuck0", "loose r.l0"):
            with self.assertRaises(Refused):
                read_faults(TINY, wrong)
        for first, second in (("stuck0 r.l0", "stuck1 r.l0"), ("bridge r.l0 r.l1", "bridge r.l1 r.l0")):
            with self.assertRaises(Refused):
                read_faults(TINY, f"{first}\n{second}\n")


class Models(unittest.TestCase):
    """What a machine reads, by hand."""

    def read(self, faults, closed, drive, tables=None):
        closed = {TINY.crosses.index(tuple(TINY.wires.index(name) for name in ends.split())) for ends in closed}
        return Session(TINY, read_faults(TINY, faults), Configuration(closed, tables or {})).cycle(drive)

    def test_joined_pins_read_one_value(self):
        ways = ["r.p0 r.l0", "r.p1 r.l0"]
        self.assertEqual(self.read("", ways, 0b1110), 0b1100)
        self.assertEqual(self.read("", [], 0b1110), 0b1110)

    def test_stuck_at_0_wins(self):
        ways = ["r.p0 r.l0", "r.p1 r.l0"]
        self.assertEqual(self.read("stuck1 r.p0", ways, 0b1100), 0b1111)
        self.assertEqual(self.read("stuck1 r.p0\nstuck0 r.l0", ways, 0b1111), 0b1100)

    def test_stuck_crosspoints_and_bridges(self):
        self.assertEqual(self.read("open r.p0 r.l0", ["r.p0 r.l0", "r.p1 r.l0"], 0b1110), 0b1110)
        self.assertEqual(self.read("closed r.p0 r.l0", ["r.p1 r.l0"], 0b1110), 0b1100)
        self.assertEqual(self.read("bridge r.p2 r.p3", [], 0b0111), 0b0011)

    def test_a_table_drives(self):
        ways = ["m0.c0.h0.t0.q m0.c0.h0.l0", "m0.c0.h0.o0 m0.c0.h0.l0", "m0.c0.h0.o0 m0.c0.l0", "m0.c0.o0 m0.c0.l0"]
        ways += ["m0.c0.o0 m0.l0", "m0.o0 m0.l0", "m0.o0 r.l0", "r.p0 r.l0"]
        table = {0: Setting((1 << 64) - 1 - (1 << 63), False, True)}
        self.assertEqual(self.read("", ways, 15, table), 14)
        self.assertEqual(self.read("cell m0.c0.h0.t0 63 1", ways, 15, table), 15)
        latched = {0: Setting(0, True, True)}
        self.assertEqual(self.read("", ways, 15, latched), 15)
        self.assertEqual(self.read("register m0.c0.h0.t0 0", ways, 15, latched), 14)


class Schedules(unittest.TestCase):
    """Faults that come and go, by hand. Pins of `tiny` are joined as in the tests above."""

    WAYS = ["r.p0 r.l0", "r.p1 r.l0"]
    TABLE = ["m0.c0.h0.t0.q m0.c0.h0.l0", "m0.c0.h0.o0 m0.c0.h0.l0", "m0.c0.h0.o0 m0.c0.l0", "m0.c0.o0 m0.c0.l0"]
    TABLE += ["m0.c0.o0 m0.l0", "m0.o0 m0.l0", "m0.o0 r.l0", "r.p0 r.l0"]

    def read(self, schedule, closed, drives, tables=None, load=1, ticks=1, stay=""):
        closed = {TINY.crosses.index(tuple(TINY.wires.index(name) for name in ends.split())) for ends in closed}
        planned = Schedule(TINY, read_faults(TINY, stay), schedule)
        for _ in range(load):
            session = planned.begin(TINY, None, Configuration(closed, tables or {}, ticks))
        return [session.cycle(drive) for drive in drives]

    def test_comes_and_goes(self):
        drives = [0b1110] * 4
        for schedule, read in (
            ("1.1 1.2 open r.p1 r.l0", [12, 14, 12, 12]),
            ("1.1.0 open r.p1 r.l0", [12, 14, 14, 14]),
            ("1.2 stuck1 r.l0\n1.3 stuck0 r.l0 # against, while the other is there", None),
            ("1.2 1.3 stuck1 r.l0\n1.3 stuck0 r.l0", [12, 12, 15, 12]),
            ("1.0 1.3 bridge r.p3 r.l0", [4, 4, 4, 12]),
        ):
            if read:
                self.assertEqual(self.read(schedule, self.WAYS, drives), read, schedule)
            else:
                with self.assertRaises(Refused):
                    self.read(schedule, self.WAYS, drives)

    def test_loads(self):
        """A fault is there in some loads alone, or from within one on; what stays is there throughout."""
        schedule = "2.1 3.1 open r.p1 r.l0\n4 open r.p1 r.l0"
        found = [self.read(schedule, self.WAYS, [0b1110] * 2, load=load, stay="stuck0 r.p3") for load in range(1, 6)]
        self.assertEqual(found, [[4, 4], [4, 6], [6, 4], [6, 6], [6, 6]])

    def test_within_a_cycle(self):
        """A table evaluates at the tick; its output is read at the instant behind it."""
        table = {0: Setting((1 << 64) - 1 - (1 << 63), False, True)}
        for schedule, read in (
            ("", [14, 14]),
            ("1.0.0 1.0.1 stuck0 m0.c0.h0.t0.i0", [15, 14]),
            ("1.0.1 1.1.0 stuck0 m0.c0.h0.t0.i0", [14, 14]),
            ("1.0.1 1.1.0 stuck1 r.p0", [15, 14]),
            ("1.0.0 1.0.1 stuck1 r.p0", [14, 14]),
            ("1.1.0 1.1.1 cell m0.c0.h0.t0 63 1", [14, 15]),
        ):
            self.assertEqual(self.read(schedule, self.TABLE, [15] * 2, table), read, schedule)
        self.assertEqual(self.read("1.0.0 1.0.1 stuck0 m0.c0.h0.t0.i0", self.TABLE, [15], table, ticks=2), [14])
        self.assertEqual(self.read("1.0.1 1.0.2 stuck0 m0.c0.h0.t0.i0", self.TABLE, [15], table, ticks=2), [15])

    def test_registers(self):
        """A stuck register gives its value at once, isn't clocked, and is left with the value."""
        kept = {0: Setting((1 << 64) - 1, True, True)}
        self.assertEqual(self.read("1.1 1.2 register m0.c0.h0.t0 0", self.TABLE, [15] * 4, kept), [15, 14, 14, 15])
        self.assertEqual(self.read("1.1.1 1.2 register m0.c0.h0.t0 0", self.TABLE, [15] * 4, kept), [15, 14, 14, 15])
        self.assertEqual(self.read("1.1.0 1.1.1 register m0.c0.h0.t0 0", self.TABLE, [15] * 4, kept), [15, 14, 15, 15])
        plain = {0: Setting((1 << 64) - 1, False, True)}
        self.assertEqual(self.read("1 register m0.c0.h0.t0 0", self.TABLE, [15] * 2, plain), [15, 15])

    def test_one_set_is_a_machine(self):
        """What is there from the first load on reads as what stays."""
        chance, entries = random.Random(8), [line for line in ALL_FAULTS.split("\n") if line]
        for _ in range(40):
            loaded = compare.random_load(TINY, chance, Configuration())
            drives = [chance.randrange(16) for _ in range(6)]
            come = [chance.random() < 0.5 for _ in entries]
            # What comes at a time at which nothing is read makes it go from set to set.
            lines = [f"1 {line}" for line, comes in zip(entries, come) if comes] + ["1.3.9 1.4.0 stuck1 m0.c0.h0.t1.i5"] * (loaded.ticks < 9)
            stay = "\n".join(line for line, comes in zip(entries, come) if not comes)
            session = Schedule(TINY, read_faults(TINY, stay), "\n".join(lines)).begin(TINY, None, loaded)
            whole = Session(TINY, read_faults(TINY, ALL_FAULTS), loaded)
            self.assertEqual([session.cycle(drive) for drive in drives], [whole.cycle(drive) for drive in drives])

    def test_wrong_schedules(self):
        wrong = ("1.x stuck0 r.l0", "stuck0 r.l0", "1", "1.0.0.0 stuck0 r.l0", "2 1 stuck0 r.l0", "1 1 stuck0 r.l0", "1 stuck0 r.l9")
        wrong += ("1 2 3 stuck0 r.l0", "1 loose r.l0", "1 2 stuck0", "1 stuck0 r.l0\n2 stuck0 r.l0", "1 open r.p0 r.l0\n2 closed r.p0 r.l0")
        for text in wrong:
            with self.assertRaises(Refused, msg=text):
                Schedule(TINY, Faults(), text)
        with self.assertRaises(Refused):
            Schedule(TINY, read_faults(TINY, "stuck0 r.l0"), "1 2 stuck1 r.l0")


class Lines(unittest.TestCase):
    def setUp(self):
        self.device = Device(TINY, Faults())

    def ask(self, body, device=None):
        """A reply's body, to a request that lacks the check."""
        return (device or self.device).answer(body.encode()).partition(b"*")[0].decode()

    def test_talks(self):
        for request, reply in TALK + OTHER_TALK:
            self.assertEqual(self.device.answer(request.encode()), reply.encode() + b"\n")

    def test_cycles_of_loads(self):
        requests = b"a 1*97b3\nc0 l d0e*f0f0\nd0f*fafa\nz l*0000\nz l d0e*0000\n"
        self.assertEqual(cost.cycles_of(requests), [2, 0, 1])

    def test_several_drives(self):
        replies = [self.ask(line) for line in ("a 3", "c0 c4 l d0f", "d0e d0f", "l")]
        self.assertEqual(replies, ["=2 3 1 1 1 2 4 4 4 4 4 4 4 4", "=0f", "=0c 0f", "="])

    def test_a_refusal_ends_all_but_attaching(self):
        for wrong in WRONG:
            for request, reply in OTHER_TALK[:3]:
                self.assertEqual(self.device.answer(request.encode()), reply.encode() + b"\n")
            self.assertEqual(self.ask(wrong)[:1], "!", wrong)
            for _ in range(2):
                self.assertEqual(self.ask("d0f"), "!attach\n")

    def test_nothing_comes_before_attaching(self):
        for line in ("d0f", "l d0f", "z l d0f", "l"):
            self.assertEqual(self.ask(line, Device(TINY, Faults())), "!attach\n")

    def test_attaching_ends_the_session(self):
        self.assertEqual([self.ask(line) for line in ("a 1", "c0 c4 l d0e")][1], "=0c")
        self.assertEqual([self.ask(line) for line in ("a 2", "d0f")][1], "!load\n")
        self.assertEqual([self.ask(line) for line in ("a 3", "l d0e")][1], "=0e")

    def test_readings_that_differ_are_refused(self):
        chance = random.Random(1)

        def flicker(machine, faults, configuration):
            return Session(machine, faults, Configuration() if chance.random() < 0.5 else configuration)

        for times, answers in ((1, {"=0c", "=0e"}), (2, {"=0c", "=0e", "!twice\n"}), (20, {"!twice\n"})):
            device = Device(TINY, Faults(), begin=flicker, times=times)
            self.assertEqual({[self.ask(line, device) for line in ("a 1", "c0 c4 l d0e")][1] for _ in range(20)}, answers)

    def test_edits_lead_from_one_to_the_other(self):
        chance, before = random.Random(3), Configuration()
        for _ in range(50):
            after = compare.random_load(TINY, chance, before)
            self.begun = []
            device = Device(TINY, Faults(), begin=self.begin)
            device.answer(b"a 1")
            device.answer(b" ".join([*edits(Configuration(), before), b"l d0f"]))
            device.answer(b" ".join([*edits(before, after), b"l d0f"]))
            device.answer(b" ".join([*whole(before), b"l"]))
            device.answer(b" ".join([*shorter(before, after), b"l"]))
            self.assertEqual(self.begun, [before, after] * 2)
            before = after

    def begin(self, _machine, _faults, configuration):
        """Notes what is loaded, and stands for its session."""
        self.begun.append(configuration)
        return self

    def cycle(self, _):
        return 0


class Spelled:
    """A port whose replies to drives have these bodies, each with its right check but for what `change` makes of it."""

    def __init__(self, body, change=lambda line: line):
        self._device, self._body, self._change = Device(TINY, Faults()), body, change
        self._check = Check()

    def ask(self, line):
        body = line.partition(b"*")[0]
        self._check.request(body)
        if body[:1] == b"a":
            reply = self._device.answer(body)
            self._check.add(reply.partition(b"*")[0])
            return reply
        return self._change(self._check.add(self._body))


class Askers(unittest.TestCase):
    """The tool's end takes one spelling of each reply."""

    def read(self, *given):
        asker = Asker(Spelled(*given), TINY)
        asker.load(Configuration())
        return asker.cycles([15])

    def test_wrong_replies(self):
        self.assertEqual(self.read(b"=0f"), [15])
        for body in (b"=1f", b"=0f 0f", b"=f", b"=0f ", b"0f", b"=0F", b"=", b"!0f"):
            with self.assertRaises(WrongReply, msg=body):
                self.read(body)
        changes = (lambda line: b"", lambda line: b"!no\n", lambda line: line[:-1], lambda line: line[:-1] + b"\r\n")
        for change in (*changes, lambda line: line.upper(), lambda line: line[:-3] + line[-2:-4:-1] + b"\n"):
            with self.assertRaises(WrongReply):
                self.read(b"=0f", change)

    def test_another_machine(self):
        with self.assertRaises(WrongReply):
            Asker(DevicePort(Device(TINY, Faults())), SMALL)

    def test_long_looks_are_cut(self):
        asked = []
        port = DevicePort(Device(TINY, Faults()))
        asker = Asker(port, TINY)
        asker.load(Configuration())
        ask = port.ask
        port.ask = lambda line: asked.append(ask(line)) or asked[-1]
        self.assertEqual(asker.cycles([k % 16 for k in range(3000)]), [k % 16 for k in range(3000)])
        self.assertEqual([len(reply) <= 4101 for reply in asked], [True] * 3)

    def test_a_load_is_sent_without_drives(self):
        asked = []
        port = DevicePort(Device(TINY, Faults()))
        asker = Asker(port, TINY)
        ask = port.ask
        port.ask = lambda line: asked.append(line.partition(b"*")[0]) or ask(line)
        asker.load(Configuration({3}))
        self.assertEqual(asker.cycles([]), [])
        asker.load(Configuration({3, 4}))
        asker.load(Configuration({3, 5}))
        self.assertEqual(asker.cycles([15]), [15])
        self.assertEqual(asked, [b"c3 l", b"c5 l d0f"])


class Process:
    """A port to a program that answers standard input on standard output."""

    def __init__(self, *command):
        self.process = subprocess.Popen(command, stdin=subprocess.PIPE, stdout=subprocess.PIPE, stderr=subprocess.DEVNULL)

    def ask(self, line):
        self.process.stdin.write(line)
        self.process.stdin.flush()
        return self.process.stdout.readline()

    def close(self):
        self.process.stdin.close()
        status = self.process.wait()
        self.process.stdout.close()
        return status


class Programs(unittest.TestCase):
    """Ends as make.py makes them."""

    def setUp(self):
        self.folder = Path(self.enterContext(tempfile.TemporaryDirectory()))

    def make(self, kind, machine, faults):
        (self.folder / "machine").write_text(machine)
        (self.folder / "faults").write_text(faults)
        words = [kind, self.folder / "machine", self.folder / "faults", "-o", self.folder / kind]
        if kind == "device":
            return self.make_by_icarus(words)
        subprocess.run([sys.executable, HERE / "make.py", *words], check=True, stdout=subprocess.DEVNULL)
        return Process(self.folder / kind / "end")

    def make_by_icarus(self, words):
        """The synthesizable device: Icarus takes a moment to make it, and Verilator a minute."""
        subprocess.run([sys.executable, HERE / "make.py", *words, "--sources"], check=True)
        sources = [self.folder / "device" / "machine.v", HERE / "verilog" / "device.v", HERE / "verilog" / "device_test.v"]
        program = self.folder / "device" / "end.vvp"
        subprocess.run(["iverilog", "-g2012", "-o", program, "-s", "device_test", *sources], check=True)
        return Process("vvp", "-n", program)

    def check(self, kind):
        text = (EXAMPLES / "tiny.machine").read_text()
        port = self.make(kind, text, "")
        self.assertEqual(port.ask(b"z l d0f\n")[:1], b"!")
        for request, reply in TALK + OTHER_TALK:
            self.assertEqual(port.ask(request.encode() + b"\n"), reply.encode() + b"\n")
        for wrong in WRONG:
            for request, reply in OTHER_TALK[:3]:
                self.assertEqual(port.ask(request.encode() + b"\n"), reply.encode() + b"\n")
            self.assertEqual(port.ask(wrong.encode() + b"\n")[:1], b"!", wrong)
            self.assertEqual(port.ask(b"\nl d0f\n")[:1], b"!", wrong)
        self.assertEqual(port.close(), 0)
        port = self.make(kind, text, ALL_FAULTS)
        self.assertEqual(compare.count_wrong(TINY, read_faults(TINY, ALL_FAULTS), port, 200, random.Random(5)), 0)
        self.assertEqual(port.close(), 0)

    def test_python(self):
        self.check("python")

    @unittest.skipUnless(shutil.which("cc"), "no compiler of C")
    def test_c(self):
        self.check("c")

    @unittest.skipUnless(shutil.which("cc"), "no compiler of C")
    def test_c_answers_as_python(self):
        """Lines drawn by chance, some of which are right, behind an `a` and one load."""
        chance, device = random.Random(7), Device(TINY, Faults())
        words = "z c1 o0 c167 t1,8888888888888888,1 x0 k2 l l l d0f d0e d03 d0f*fafa a 1 k0 c".split()
        port = self.make("c", (EXAMPLES / "tiny.machine").read_text(), "")
        right = 0
        for _ in range(3000):
            line = " ".join(chance.choices(words, k=chance.randint(1, 4))) + chance.choice(["", "", "", " ", "*"])
            for request in (b"a 7", b"c0 c4 l d0e", line.encode()):
                replies = device.answer(request), port.ask(request + b"\n")
                self.assertEqual(replies[0].partition(b"!")[0], replies[1].partition(b"!")[0], request)
            right += replies[0][:1] == b"="
        self.assertGreater(right, 100)
        self.assertEqual(port.close(), 0)

    @unittest.skipUnless(shutil.which("iverilog"), "no Icarus")
    def test_switch(self):
        self.check("switch")

    @unittest.skipUnless(shutil.which("iverilog"), "no Icarus")
    def test_device(self):
        self.check("device")

    def test_refused_texts(self):
        words = [sys.executable, HERE / "make.py", "c", EXAMPLES / "tiny.faults", "-o", self.folder]
        made = subprocess.run(words, check=False, capture_output=True)
        self.assertEqual((made.returncode, made.stderr[:15]), (1, b"refused machine"))


class Sources(unittest.TestCase):
    """What is written in C and Verilog names each part of the machine and each fault."""

    def test_a_switch_for_each_crosspoint(self):
        text = switch_end.verilog(TINY, read_faults(TINY, ALL_FAULTS))
        self.assertEqual(text.count("tranif1("), 168 - 2)
        self.assertEqual(text.count("  tran("), 2)  # a stuck crosspoint and a bridge
        self.assertEqual(text.count("assign (strong0, highz1)"), 1)
        self.assertEqual(text.count("assign (highz0, pull1)"), 1)

    def test_planes_of_an_overlay(self):
        sound, faulty = (overlay_end.verilog(TINY, read_faults(TINY, faults)) for faults in ("", ALL_FAULTS))
        self.assertEqual([text.count("_reached[0] =") for text in (sound, faulty)], [1, 3])
        self.assertEqual([text.count("crossbar #(") for text in (sound, faulty)], [4, 4])

    def test_arrays_of_c(self):
        text = c_end.header(TINY, read_faults(TINY, ALL_FAULTS))
        self.assertIn("static const signed char held[] = {-1, 0};", text)
        self.assertIn("#define MOST_LOADS 734", text)


if __name__ == "__main__":
    unittest.main()
