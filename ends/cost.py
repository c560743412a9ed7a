#!/usr/bin/env python3
"""The loads and cycles of a diagnosis, in all and by part: those lines of teramac_report, with the cycles behind the loads.

teramac_report tells loads alone, so the machine is diagnosed a second time behind a port with an end in C, and the requests are
counted. Parts are taken in the order of the report, in which a diagnosis makes them; where wires are shorted it may sweep and grow a
second time, and is counted as if it had done each at once.
"""

import argparse
import os
import re
import subprocess
import sys
import tempfile
from itertools import islice
from pathlib import Path

HERE = Path(__file__).resolve().parent


def cycles_of(requests):
    """The cycles of each load: those of its request, and of the requests behind it."""
    found = []
    for line in requests.splitlines():
        words = line.partition(b"*")[0].split()
        found += [0] * words.count(b"l")
        if found:
            found[-1] += sum(word[:1] == b"d" for word in words)
    return found


def asked(program, machine, faults, folder):
    """The requests of a diagnosis; ends the script where it ends with another status than 0."""
    make = [sys.executable, HERE / "make.py", "c", machine, faults, "-o", folder]
    subprocess.run(make, check=True, stdout=subprocess.DEVNULL)
    to, back, kept = (folder / name for name in ("to", "from", "requests"))
    os.mkfifo(to)
    os.mkfifo(back)
    end = subprocess.Popen(["sh", "-c", "tee requests < to | ./end > from 2> /dev/null"], cwd=folder)
    ran = subprocess.run([program, "diagnose", machine, f"{to},{back}"], check=False, stdout=subprocess.DEVNULL)
    end.wait()
    if ran.returncode:
        sys.exit(f"{program}: status {ran.returncode}")
    return kept.read_bytes()


def main():
    parser = argparse.ArgumentParser(description=__doc__, formatter_class=argparse.RawDescriptionHelpFormatter)
    parser.add_argument("port", type=Path, help="the built teramac_port")
    parser.add_argument("report", type=Path, help="the built teramac_report")
    parser.add_argument("machine", type=Path)
    parser.add_argument("faults", type=Path, help="a fault file")
    given = parser.parse_args()
    told = subprocess.run([given.report.resolve(), given.machine, given.faults], check=True, capture_output=True, text=True).stdout
    parts = [(name, int(loads)) for name, loads in re.findall(r"^part (\w+) loads (\d+)$", told, re.MULTILINE)]
    with tempfile.TemporaryDirectory() as name:
        cycles = cycles_of(asked(given.port.resolve(), given.machine.resolve(), given.faults, Path(name)))
    if sum(loads for _, loads in parts) != len(cycles):
        sys.exit(f"{len(cycles)} loads were made behind the port, and other ones told: {parts}")
    print(f"diagnosis loads {len(cycles)} cycles {sum(cycles)}")
    rest = iter(cycles)
    for name, loads in parts:
        print(f"part {name} loads {loads} cycles {sum(islice(rest, loads))}")


if __name__ == "__main__":
    main()
