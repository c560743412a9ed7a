"""Calls of the built program, what its answers say, and intervals of shares."""

import math
import os
import re
import shutil
import subprocess
import sys
import tempfile
import time
from pathlib import Path

import teramac_texts as texts

HERE = os.path.dirname(os.path.abspath(__file__))
DEFAULT = os.environ.get("TERAMAC", os.path.normpath(os.path.join(HERE, "../crates/teramac/out/teramac")))
# Other programs: as the environment says (TERAMAC_MAP, ..), as they stand built here, or on the path; '' where one isn't there.
NAMES = ("teramac_report", "teramac_port", "teramac_map")
OTHERS = {name: os.environ.get(name.upper(), f"{HERE}/../crates/{name}/out/{name}") for name in NAMES}
REPORT, PORT, MAPPER = (path if os.path.exists(path) else shutil.which(name) or "" for name, path in OTHERS.items())

STUDENT = (12.71, 4.303, 3.182, 2.776, 2.571, 2.447, 2.365, 2.306)  # quantiles for 1 to 8 degrees of freedom
UNDECIDED = ("cut off", "6")  # or no memory, which says nothing of room; counted apart


class Answer:
    """What a call wrote, its status (-1: cut off), and the seconds that it took, by the clock and of the processor."""

    def __init__(self, status, written, seconds, processor=None):
        self.status, self.written, self.seconds, self.processor = status, written, seconds, processor

    @property
    def refusal(self):
        """The words of the refusal line, or none."""
        last = self.written.rsplit(b"\n", 2)[-2] if self.status > 0 and self.written.endswith(b"\n") else b""
        return last.decode("utf-8", "surrogateescape").split()

    @property
    def rows(self):
        """The lines behind the line `outputs`."""
        return self.written.split(b"outputs\n", 1)[1].split() if b"outputs\n" in self.written else []

    @property
    def defects(self):
        """The list at the head of what `go` and `diagnose` write."""
        return self.written[: self.written.find(b"\nend\n") + 5]


def call(program, *words, seconds=None):
    """Runs the program on these words, for at most so many seconds; bytes among them become a file that holds them."""
    with tempfile.TemporaryDirectory() as folder:
        files = {k: Path(folder, str(k)) for k, word in enumerate(words) if isinstance(word, bytes)}
        for k, path in files.items():
            path.write_bytes(words[k])
        words = [str(files.get(k, word)) for k, word in enumerate(words)]
        start, before = time.monotonic(), os.times()
        try:
            ran = subprocess.run([program, *words], capture_output=True, timeout=seconds, check=False)
        except subprocess.TimeoutExpired as cut:
            return Answer(-1, cut.stdout or b"", time.monotonic() - start)
        except OSError as error:
            sys.exit(f"{program}: {error.strerror}; build it by 'rt run' in crates/teramac, or name it by --program")
        taken, after = time.monotonic() - start, os.times()
    if ran.returncode < 0:
        sys.exit(f"{program} {' '.join(words)}: ended by signal {-ran.returncode}")
    # Other children of this process may not end meanwhile: a trial calls one program after the other.
    processor = after.children_user + after.children_system - before.children_user - before.children_system
    return Answer(ran.returncode, ran.stdout, taken, processor)


def checked_design(program, path):
    """The design of a file that the program takes, or an end of the script with the program's refusal."""
    answer = call(program, "eval", path, os.devnull)
    if answer.status:
        sys.exit(f"{path}: {' '.join(answer.refusal)}")
    return texts.read_text(texts.read_design, path)


def add_program(parser):
    parser.add_argument("--program", default=DEFAULT, help="the built teramac (default: %(default)s, or $TERAMAC)")


def mcnemar(one, other):
    """The chance that of so many sets of faults on which two schemes differ, they being alike, at most the lesser number is for one."""
    both = one + other
    return min(1.0, 2 * sum(math.comb(both, k) for k in range(min(one, other) + 1)) / 2**both)


def wilson(hits, tries, z=1.959964):
    """The interval of Wilson that holds the true share with probability 0.95, for so many hits of so many tries."""
    if not tries:
        return 0.0, 1.0
    share, square = hits / tries, z * z / tries
    middle = (share + square / 2) / (1 + square)
    half = z * math.sqrt(share * (1 - share) / tries + square / (4 * tries)) / (1 + square)
    return max(0.0, middle - half), min(1.0, middle + half)


def student(free):
    """The quantile of Student's law for 95 % with so many degrees of freedom."""
    return STUDENT[free - 1] if free <= len(STUDENT) else 1.96 + 2.6 / free


def interval(counts):
    """The interval of a share of runs of some designs, of which each has so many hits of so many tries: Wilson's for one design.

    Of several the runs count as fewer, by how much more the designs differ than single runs would, and the quantile is Student's.
    """
    counts = [(hits, tries) for hits, tries in counts if tries]
    hits, tries = sum(hits for hits, _ in counts), sum(tries for _, tries in counts)
    if len(counts) < 2:
        return wilson(hits, tries)
    share, many = hits / tries, len(counts)
    spread = many / (many - 1) * sum((own - share * runs) ** 2 for own, runs in counts) / tries**2
    alike = share * (1 - share) / tries
    worth = tries / max(1.0, spread / alike if alike else 1.0)
    return wilson(share * worth, worth, student(many - 1))


def fill_of(design):
    """The name of a design, of several that fill a machine alike (fill90.1, fill90.2) that of all."""
    return re.sub(r"^(fill[0-9]+)\.[0-9]+$", r"\1", design)
