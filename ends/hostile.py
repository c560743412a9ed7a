#!/usr/bin/env python3
"""Diagnoses a machine behind ends that go wrong once in the midst of a talk, and compares what comes with what a right end gives.

Each kind of failure comes at as many requests as there are seeds, each drawn by chance from all of a right talk, over two FIFOs. A run
may end with status 4; at status 0 it has to write what it writes over a right end: the list, and with --go the rows of a design too.
Ends that write nothing and wait would have the tool wait for ever: these are asked through relay.py. The last two kinds go wrong before
a reply is spelled, which no check shows: they are made twice besides, `2x`, and a diagnosis may write nothing else then.
"""

import argparse
import os
import random
import re
import subprocess
import sys
import tempfile
from collections import Counter
from pathlib import Path

import python_end
from lines import Device, pin_text
from machine import read_faults, read_machine

HERE = Path(__file__).resolve().parent
SEEDS = 5
REFUSED = 4  # the program's status
OLD_REPLY = b"=2 %d 1 1 1 2 4 4 4 4 4 4 4 4*0000\n"


class Dies(OSError):
    """The end is gone."""


class Board(Device):
    """A device that may take one request for another, and another reading for the one that it made; the checks are right."""

    hear = spell = None

    def _reply(self, body):
        hear, spell, self.hear, self.spell = self.hear, self.spell, None, None
        reply = super()._reply(hear(body) if hear else body)
        return spell(reply) if spell else reply


class Hostile:
    """A device whose talk is spoilt at the request of one number, counted from 1, in one way; with number 0 it never is."""

    def __init__(self, machine, faults, kind="", number=0, seed=1):
        self._make = lambda: Board(machine, faults)
        self._device, self._kind, self._number, self._chance = self._make(), kind, number, random.Random(seed)
        self._machine, self._last, self._held = machine, b"", b""
        self.asked = 0

    def answer(self, line):
        if not line:
            return b""
        self.asked += 1
        if self.asked == self._number:
            reply = getattr(self, "_" + self._kind)(line)
        elif self._held:  # from now on each reply comes one request late
            reply, self._held = self._held, self._device.answer(line)
        else:
            reply = self._device.answer(line)
        self._last = reply or self._last
        return reply

    def _dies(self, _):
        raise Dies

    def _silent(self, line):
        self._device.answer(line)
        return b""

    def _half(self, line):
        return self._device.answer(line)[:3]

    def _half_and_on(self, line):
        """Half a line, and then another reply behind it."""
        return self._device.answer(line)[:3] + self._last

    def _lost_bytes(self, line):
        reply = self._device.answer(line)
        at = self._chance.randrange(len(reply) - 1)
        return reply[:at] + reply[at + 1 :]

    def _changed(self, line):
        reply = bytearray(self._device.answer(line))
        reply[self._chance.randrange(len(reply) - 1)] ^= 1 << self._chance.randrange(7)
        return bytes(reply)

    def _bytes_exchanged(self, line):
        """Two digits of the reply that differ, each in the other's place: the same sum."""
        reply = bytearray(self._device.answer(line))
        places = [(at, to) for at in range(1, len(reply) - 6) for to in range(at) if reply[at] != reply[to]] or [(1, 0)]
        at, to = self._chance.choice(places)
        reply[at], reply[to] = reply[to], reply[at]
        return bytes(reply)

    def _garbage(self, line):
        self._device.answer(line)
        return bytes(self._chance.randrange(256) for _ in range(20)) + b"\n"

    def _long(self, line):
        self._device.answer(line)
        return b"=" * 10_000 + b"\n"

    def _refused(self, line):
        self._device.answer(line)
        return b"!hot\n"

    def _doubled(self, line):
        return self._device.answer(line) * 2

    def _stale(self, line):
        """The reply to the request before, once more."""
        self._device.answer(line)
        return self._last

    def _shifted(self, line):
        """The reply to the request before, and from now on each reply one request late."""
        self._held = self._device.answer(line)
        return self._last

    def _request_changed(self, line):
        """The device hears another crosspoint or another drive, and takes it."""
        body = bytearray(line.partition(b"*")[0])
        places = [at for at, byte in enumerate(body) if byte in b"0123"] or [0]
        at = self._chance.choice(places)
        body[at] ^= 1
        return self._device.answer(bytes(body))

    def _request_lost(self, line):
        """The device hears nothing; what comes is the reply that came before."""
        return self._last

    def _request_doubled(self, line):
        return self._device.answer(line) + self._device.answer(line.partition(b"*")[0])

    def _reset(self, line):
        self._device = self._make()
        return self._device.answer(line)

    def _reset_and_on(self, line):
        """A device that was reset and takes what comes, as if it had been attached."""
        self._device = self._make()
        self._device.answer(b"a 1")
        return self._device.answer(line.partition(b"*")[0])

    def _old_replies(self, line):
        """What was left on the way by other runs, with a reply to an `a` among it."""
        return b"0f*1234\n!late\n" + OLD_REPLY % 1 + OLD_REPLY % 7 + self._device.answer(line)

    def _reading_turned(self, line):
        """A bit of a reading turns on the board."""
        self._device.spell = self._with_bit_turned
        return self._device.answer(line)

    def _with_bit_turned(self, body):
        readings = body[1:].split()
        if not readings or body[:2] == b"=2":
            return body
        at = self._chance.randrange(len(readings))
        pins = len(self._machine.pins)
        readings[at] = pin_text(pins, int(readings[at], 16) ^ 1 << self._chance.randrange(pins))
        return b"=" + b" ".join(readings)

    def _set_otherwise(self, line):
        """The board closes another crosspoint than it heard."""
        self._device.hear = self._with_other_cross
        return self._device.answer(line)

    def _with_other_cross(self, body):
        words = body.split()
        closed = [at for at, word in enumerate(words) if word[:1] == b"c"]
        if closed:
            words[self._chance.choice(closed)] = b"c%d" % self._chance.randrange(len(self._machine.crosses))
        return b" ".join(words)


UNSPELLED = ("reading_turned", "set_otherwise")  # no check shows these
KINDS = [name[1:] for name in vars(Hostile) if re.match("_(?!_|with_)", name) and name[1:] not in UNSPELLED]
WAITING = ("silent", "half", "lost_bytes", "changed", "shifted", "request_changed")  # after these a tool may wait for ever


def serve(device, folder):
    try:
        python_end.serve(device, os.open(folder / "to", os.O_RDONLY), os.open(folder / "from", os.O_WRONLY))
    except OSError:
        pass  # one of the two has gone
    (folder / "asked").write_text(str(device.asked))


class End:
    """A device over two FIFOs, in a process of its own: what it has open is closed with it."""

    def __init__(self, device, folder):
        self._process = os.fork()
        if not self._process:
            serve(device, folder)
            os._exit(0)

    def wait(self):
        os.waitpid(self._process, 0)


class Trial:
    """Runs of one command over ends on two FIFOs, and what comes of them."""

    def __init__(self, folder, program, command, before, behind):
        self._folder, self._words, self._behind = folder, [program, command, before], behind
        self._again, self._due, self._requests = "", None, 0

    def _run(self, device, again="", is_relayed=False):
        """The status of a run, and what it wrote."""
        port = f"{self._folder}/to,{self._folder}/from"
        words = [*self._words, again + ("PORT" if is_relayed else port), *self._behind]
        relay = [sys.executable, HERE / "relay.py", "--limit", "1", port, "--"] if is_relayed else []
        end = End(device, self._folder)
        ran = subprocess.run([*relay, *words], check=False, stdout=subprocess.PIPE, stderr=subprocess.DEVNULL)
        end.wait()
        return ran.returncode, ran.stdout

    def begin(self, device, again=""):
        """What comes over a right end, and in how many requests."""
        self._again, self._due = again, self._run(device, again)
        self._requests = int((self._folder / "asked").read_text())
        return self._due[0]

    def outcomes(self, make, kind, seeds):
        """How many runs wrote what is due, how many were refused, and how many wrote something else."""
        found = Counter()
        for seed in range(1, seeds + 1):
            number = random.Random(f"{kind} {seed}").randint(1, self._requests)
            ended = self._run(make(kind, number, seed), self._again, number == 1 or kind in WAITING)
            found["right" if ended == self._due else "refused" if ended[0] == REFUSED else "wrong"] += 1
        return found


def words():
    parser = argparse.ArgumentParser(description=__doc__, formatter_class=argparse.RawDescriptionHelpFormatter)
    parser.add_argument("program", type=Path, help="the built teramac_port")
    parser.add_argument("machine", type=Path)
    parser.add_argument("faults", type=Path, nargs="?")
    parser.add_argument("--seeds", type=int, default=SEEDS, help=f"of each kind (default: {SEEDS})")
    parser.add_argument("--go", nargs=2, metavar=("DESIGN", "VECTORS"), help="runs the design by `go`, and compares the rows too")
    return parser.parse_args()


def tell(trial, make, kinds, seeds, again=""):
    """Prints what came of each kind, and gives how many runs wrote something else."""
    wrong = 0
    for kind in kinds:
        found = trial.outcomes(make, kind, seeds)
        wrong += found["wrong"]
        print(f"{again}{kind:16} {found['right']} right, {found['refused']} refused, {found['wrong']} wrong", flush=True)
    return wrong


def main():
    given = words()
    machine = read_machine(given.machine.read_text())
    faults = read_faults(machine, given.faults.read_text() if given.faults else "")
    make = lambda *how: Hostile(machine, faults, *how)
    with tempfile.TemporaryDirectory() as name:
        folder = Path(name)
        os.mkfifo(folder / "to")
        os.mkfifo(folder / "from")
        trial = Trial(folder, given.program.resolve(), "go" if given.go else "diagnose", given.machine, given.go or [])
        if trial.begin(make()):
            sys.exit("the command doesn't end with status 0 over a right end")
        wrong = tell(trial, make, KINDS, given.seeds)
        print("before a reply is spelled:")
        tell(trial, make, UNSPELLED, given.seeds)
        trial.begin(make(), "2x")
        unfound = tell(trial, make, UNSPELLED, given.seeds, "2x ")
    sys.exit(wrong > 0 or unfound > 0 and not given.go)  # the session of the rows isn't repeated


if __name__ == "__main__":
    main()
