"""Ends that go wrong once: what is read is right, or there is no reading.  python3 -m unittest"""

import random
import sys
import unittest
from pathlib import Path

HERE = Path(__file__).resolve().parent
sys.path.insert(0, str(HERE))

from asker import Asker, DevicePort, Ended, WrongReply
from compare import random_load
from hostile import KINDS, Dies, Hostile
from lines import Device
from machine import Faults, read_machine
from model import Configuration

TINY = read_machine((HERE.parent / "examples" / "tiny.machine").read_text())
LOADS = 12
# These end the talk: the end is gone, or the tool would wait.
END = {"dies", "silent", "half", "shifted"}


def readings(device, seed):
    """What is read in some loads drawn from one number, up to a failure, and the failures."""
    chance, configuration, read = random.Random(seed), Configuration(), []
    asker = None
    try:
        asker = Asker(DevicePort(device), TINY)
        for _ in range(LOADS):
            configuration = random_load(TINY, chance, configuration)
            drives = [chance.getrandbits(4) for _ in range(chance.randint(0, 5))]
            first = chance.randint(0, len(drives))
            asker.load(configuration)
            read.append(asker.cycles(drives[:first]) + asker.cycles(drives[first:]))
    except (WrongReply, Dies):
        pass
    return read, asker.failures if asker else None


class Ends(unittest.TestCase):
    def check(self, kind):
        """At each request: nothing else is read than is right, and all of it where the talk can go on."""
        failures = 0
        for seed in range(8):
            right, _ = readings(Device(TINY, Faults()), seed)
            for number in range(1, 16):
                read, failed = readings(Hostile(TINY, Faults(), kind, number, seed), seed)
                self.assertEqual(read, right[: len(read)], (seed, number))
                if kind not in END and number > 1:  # where no reply to an `a` comes, the tool waits
                    self.assertEqual(len(read), LOADS, (seed, number))
                failures += bool(failed) or len(read) < LOADS
        self.assertGreater(failures, 0)


def test_of(kind):
    return lambda self: self.check(kind)


for name in KINDS:
    setattr(Ends, f"test_{name}", test_of(name))

if __name__ == "__main__":
    unittest.main()
