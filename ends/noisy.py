#!/usr/bin/env python3
"""Diagnoses a machine over a line on which bits turn now and then, and compares the lists with that of a line where none does.

END is a program that answers standard input on standard output, as make.py makes them. Each run has a seed of its own, from 1 on; both
directions are spoilt at RATE, as noise.py does it. With --relay the tool asks through relay.py, which ends a wait after a second.
"""

import argparse
import os
import re
import subprocess
import sys
import tempfile
from collections import Counter
from pathlib import Path

HERE = Path(__file__).resolve().parent
REFUSED = 4  # the program's status
SECONDS = 120  # without the relay a lost line's end is a wait without end


def diagnose(given, folder, rate, seed):
    """The status and the list of a diagnosis, and how many bits turned; no status where it waited too long."""
    port = f"{folder}/to,{folder}/from"
    relay = [sys.executable, HERE / "relay.py", "--limit", "1", port, "--"] if given.relay else []
    words = [*relay, given.program, "diagnose", given.machine, "PORT" if given.relay else port]
    command = 'exec "$0" "$@" < to > from'
    noise = [sys.executable, HERE / "noise.py", str(rate), str(seed), given.end]
    line = subprocess.Popen(["sh", "-c", command, *noise], cwd=folder, stderr=subprocess.PIPE)
    try:
        ran = subprocess.run(words, check=False, stdout=subprocess.PIPE, stderr=subprocess.DEVNULL, timeout=SECONDS)
        status, listed = ran.returncode, ran.stdout
    except subprocess.TimeoutExpired:
        status, listed = None, b""
        line.kill()
    said = line.communicate()[1].decode()
    return status, listed, sum(map(int, re.findall(r"(\d+) (?:there|back)", said)))


def main():
    parser = argparse.ArgumentParser(description=__doc__, formatter_class=argparse.RawDescriptionHelpFormatter)
    parser.add_argument("program", type=Path, help="the built teramac_port")
    parser.add_argument("machine", type=Path)
    parser.add_argument("end", type=Path, help="the program of the other end, for this machine")
    parser.add_argument("rate", type=float, help="the chance of a bit to turn")
    parser.add_argument("--runs", type=int, default=10)
    parser.add_argument("--relay", action="store_true")
    given = parser.parse_args()
    given.program, given.machine, given.end = (path.resolve() for path in (given.program, given.machine, given.end))
    found, turned = Counter(), 0
    with tempfile.TemporaryDirectory() as folder:
        for way in ("to", "from"):
            os.mkfifo(Path(folder, way))
        due = diagnose(given, folder, 0, 1)[:2]
        for seed in range(1, given.runs + 1):
            status, listed, bits = diagnose(given, folder, given.rate, seed)
            turned += bits
            found["right" if (status, listed) == due else {REFUSED: "refused", None: "waiting"}.get(status, "wrong")] += 1
    print(f"{given.runs} runs, {turned} bits turned: " + ", ".join(f"{found[word]} {word}" for word in ("right", "refused", "waiting", "wrong")))
    sys.exit(found["wrong"] > 0 or due[0] != 0)


if __name__ == "__main__":
    main()
