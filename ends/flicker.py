#!/usr/bin/env python3
"""Diagnoses machines with one crosspoint that conducts only now and then, and counts what comes of it.

Of each share of cycles in which it is open, and each number of times that what comes with a load is made, by the other end or with
--by-tool by the tool (`2x` before the port's name): in how many runs the crosspoint (or a wire of it) was listed, nothing was
listed, or the machine was refused.
"""

import argparse
import os
import random
import subprocess
import sys
import tempfile
from collections import Counter
from concurrent.futures import ThreadPoolExecutor
from pathlib import Path

from machine import read_machine

END = Path(__file__).resolve().parent / "python_end.py"
SHARES, TIMES = (0.5, 0.1), (1, 2, 4)
REFUSED = 4  # the program's status
OUTCOMES = ("refused", "listed", "listed another part", "empty")


def named(machine, seed):
    """The names of the crosspoint that the end of this seed picks, as the end does it."""
    return [machine.wires[wire] for wire in machine.crosses[random.Random(seed).randrange(len(machine.crosses))]]


class Trials:
    """Diagnoses of a machine behind an end that flickers."""

    def __init__(self, program, machine, by_tool):
        self._program, self._file, self._by_tool = program, machine, by_tool
        self._machine = read_machine(machine.read_text())

    def outcome(self, share, times, seed):
        """One word for what a diagnosis said."""
        again = f"{times}x" if self._by_tool and times > 1 else ""
        words = ["--flicker", str(share), "--times", "1" if self._by_tool else str(times), "--seed", str(seed)]
        with tempfile.TemporaryDirectory() as folder:
            status, listed = self._run(Path(folder), words, again)
        if status == REFUSED:
            return "refused"
        if status:
            sys.exit(f"status {status}: {listed[-80:]}")
        entries, names = [line.split() for line in listed.decode().splitlines()[2:-1]], named(self._machine, seed)
        own = [entry for entry in entries if entry[1:] == names or entry[0] == "wire" and entry[1] in names]
        return "listed" if own else "listed another part" if entries else "empty"

    def _run(self, folder, words, again):
        """The status and the list of a diagnosis over FIFOs in this folder."""
        to, back = folder / "to", folder / "from"
        os.mkfifo(to)
        os.mkfifo(back)
        command = '"$0" "$@" < to > from 2> /dev/null'
        end = subprocess.Popen(["sh", "-c", command, sys.executable, END, self._file, *words], cwd=folder)
        ran = subprocess.run([self._program, "diagnose", self._file, f"{again}{to},{back}"], check=False, capture_output=True)
        end.wait()
        return ran.returncode, ran.stdout


def main():
    parser = argparse.ArgumentParser(description=__doc__, formatter_class=argparse.RawDescriptionHelpFormatter)
    parser.add_argument("program", type=Path, help="the built teramac_port")
    parser.add_argument("machine", type=Path)
    parser.add_argument("--runs", type=int, default=25, help="of each share and number of times")
    parser.add_argument("--by-tool", action="store_true", help="the tool makes each session again, and not the end")
    parser.add_argument("--jobs", type=int, default=1, help="so many runs side by side")
    given = parser.parse_args()
    trials = Trials(given.program.resolve(), given.machine.resolve(), given.by_tool)
    with ThreadPoolExecutor(given.jobs) as pool:
        for share in SHARES:
            for times in TIMES:
                found = Counter(pool.map(lambda seed: trials.outcome(share, times, seed), range(1, given.runs + 1)))
                counts = ", ".join(f"{found[outcome]} {outcome}" for outcome in OUTCOMES)
                print(f"open in {share} of the cycles, {times} times: {counts}", flush=True)


if __name__ == "__main__":
    main()
