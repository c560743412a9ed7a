"""What `explain.py` knows of a command: its words, the files that these name, what it wrote; and how its sentences are put."""

import difflib
import os
from functools import cached_property
from itertools import islice

import teramac_texts as texts

COMMANDS = {
    "eval": "design vectors", "compile": "machine defects design", "diagnose": "machine rig", "run": "machine rig image vectors",
    "go": "machine rig design vectors", "bench": "number", "check": "machine rig image", "repair": "machine defects image",
    "pair": "machine rig first second vectors", "twice": "machine rig design vectors",
}  # fmt: skip
PROGRAMS = ("teramac", "teramac_map", "teramac_port")
ENDINGS = {".machine": "machine", ".faults": "rig", ".defects": "defects", ".image": "image", ".blif": "design", ".vec": "vectors"}


class Call:
    """The words of a command, the file of each role among them, and what the command wrote, as far as it is known."""

    def __init__(self, words, written=b""):
        self.program = program_of(words)
        self.words = words[1:] if self.program else list(words)
        self.written, self.command = written, ""
        if self.program == "teramac_map":
            self.roles = dict(zip("machine defects design".split() if len(self.words) == 3 else ["design"], self.words))
        elif self.words and self.words[0] in COMMANDS:
            self.command = self.words[0]
            self.roles = dict(zip(COMMANDS[self.command].split(), self.words[1:]))
        else:
            self.roles = {ENDINGS.get(os.path.splitext(word)[1], "?"): word for word in self.words}

    def data(self, role, most=-1):
        """The bytes of a file, or so many of them."""
        with open(self.roles[role], "rb") as file:
            return file.read(most)

    def line(self, role, number):
        """A line of a text without its end; '' where there is none."""
        with open(self.roles[role], "rb") as file:
            found = next(islice(file, number - 1, None), b"") if number else b""
        return found.removesuffix(b"\n").decode("utf-8", "surrogateescape")

    @cached_property
    def machine(self):
        return texts.read_machine(self.data("machine"))

    @property
    def designs(self):
        """The designs of the command, in their order."""
        return [texts.read_design(self.data(role)) for role in ("design", "first", "second") if role in self.roles]

    @property
    def laid(self):
        """The designs that it lays side by side: `twice` its one design, twice."""
        return self.designs * (2 if self.command == "twice" else 1)

    @cached_property
    def defects(self):
        """The list of the command, which it read or wrote; or None."""
        if "defects" in self.roles:
            return texts.read_defects(self.machine, self.data("defects"))
        end = self.written.find(b"\nend\n")
        return texts.read_defects(self.machine, self.written[: end + 5]) if self.written.startswith(b"defects 1\n") and end > 0 else None


def program_of(words):
    """Which program the first of some words names, or ''."""
    name = os.path.basename(words[0]).removesuffix("-unproved") if words else ""
    return name if name in PROGRAMS else ""


def alike(word, known):
    """A question after the word that was meant, or nothing."""
    found = difflib.get_close_matches(word, known, 1)
    return f"; did you mean `{found[0]}`?" if found else ""


def counted(count, noun):
    return f"{count:,} {noun}" + "s" * (count != 1)


def stand(count):
    """So many stand here."""
    return f"{count} stand{'s' if count == 1 else ''} here"


def listed(names, most=60):
    """Names with blanks between them; of very many the first."""
    return " ".join(names[:most]) + (f" and {len(names) - most} more" if len(names) > most else "")


def shown(word):
    """A word that may have bytes which aren't shown as they are."""
    return word.encode("utf-8", "surrogateescape").decode("utf-8", "backslashreplace")


def words_of(line):
    """The words of a line of a machine, fault or BLIF text."""
    return [word for word in line.split("#", 1)[0].translate(texts.BLANK).split(" ") if word]


def numbered_words(data):
    """The number and the words of each line that has some."""
    lines = data.decode("utf-8", "surrogateescape").split("\n")
    return [(number, words) for number, words in enumerate(map(words_of, lines), 1) if words]


def printed(signal):
    """The name of a signal of a flattened design."""
    return "".join(signal)
