#!/usr/bin/env python3
"""Makes cases of the commands that README, USING, FORMATS and PORT show, so that the gate runs them and compares what they write.

    docs/blocks.py            writes them into crates/example_cases
    docs/blocks.py --check    says whether what stands there is what this would write; the status is 1 where it isn't

A command is a line indented by four blanks, outside fences, that begins with `teramac`, `teramac_map`, `teramac_port` or `cat`: words, and
at the end `> FILE` where its output goes into a file. Other lines are passed over. The commands of a document are done in their order, as
in one folder with a copy of examples/; what one writes into a file is there for those below it.

A fence without a word, one empty line below a block of such lines, is all that its last command writes, byte by byte. There two blanks or
more and `# ` begin a remark, and a line `..` stands for any lines. A command ends with status 0, or, where the fence's last line is a
refusal, with the refusal's status. `cat FILE` shows a file of examples/ or what a command above has written. Behind a port stands `tiny`
without faults.
"""
import pathlib
import re
import sys

TOP = pathlib.Path(__file__).resolve().parent.parent
CASES = TOP / "crates" / "example_cases"
DOCUMENTS = {"readme": "README.md", "using": "docs/USING.md", "formats": "docs/FORMATS.md", "port": "docs/PORT.md"}
CALLS = {"teramac": "words", "teramac_map": "maps", "teramac_port": "ports"}
# The commands whose second word names a rig.
OF_RIGS = ("run", "diagnose", "go", "check", "pair", "twice")
STATUS = {"words": 2, "noroom": 3, "rig": 4, "store": 5, "memory": 6, "differ": 7}
# The texts of machines behind ports: no faults.
PORTS = ("/dev/ttyUSB1", "to,from")


class Wrong(Exception):
    """A command that can't be made a case."""


def fail(place, why):
    raise Wrong(f"{place}: {why}")


def blocks_of(name, text):
    """Yields the commands of each block of indented lines, each with its place, and the lines of its fence or None."""
    lines, at, fenced = text.split("\n"), 0, False
    while at < len(lines):
        if lines[at].startswith("```"):
            fenced = not fenced
        if fenced or not lines[at].startswith("    "):
            at += 1
            continue
        commands = []
        while at < len(lines) and lines[at].startswith("    "):
            if re.match(r"    (teramac|teramac_map|teramac_port|cat) ", lines[at]):
                commands.append((f"{name}:{at + 1}", lines[at].strip()))
            last, at = at, at + 1
        shown = None
        if lines[at : at + 2] == ["", "```"]:
            end = lines.index("```", at + 2)
            if commands and commands[-1][0] == f"{name}:{last + 1}":
                shown = [re.sub(r"  +# .*", "", line).rstrip(" ") for line in lines[at + 2 : end]]
            at = end + 1
        if commands:
            yield commands, shown


def spelled(data):
    """The lines of a case's text that spell these bytes."""
    if not re.fullmatch(rb"[\t\n -~]*", data):
        return [f"= {data[at : at + 32].hex()}" for at in range(0, len(data), 32)]
    *lines, rest = data.decode().split("\n")
    return [f"| {line}" if line else "|" for line in lines] + ([f"* 1 {rest}"] if rest else [])


def wanted(shown):
    """The lines of a case's text that say of a step that it writes what is shown."""
    if shown is None:
        return ["begins 0"]
    refusal = re.match(r"refused (\w+)", shown[-1]) if shown else None
    status = STATUS.get(refusal[1], 1) if refusal else 0
    spell = lambda lines: spelled("".join(f"{line}\n" for line in lines).encode())
    if ".." not in shown:
        return [f"ends {status}", *spell(shown)]
    at = shown.index("..")
    return ["last", *spell(shown[at + 1 :]), f"begins {status}", *spell(shown[:at])]


def shows(data, shown):
    """Whether these lines are those of a file."""
    lines = data.decode(errors="replace").removesuffix("\n").split("\n")
    if ".." not in shown:
        return lines == shown
    at = shown.index("..")
    behind = shown[at + 1 :]
    return len(shown) - 1 <= len(lines) and lines[:at] == shown[:at] and lines[len(lines) - len(behind) :] == behind


def is_port(word):
    """Whether a word names a port behind which a machine stands."""
    return re.sub(r"^[2-9]x", "", word) in PORTS


class Folder:
    """What the commands of one document find: files of examples/, and what was written. Besides, their cases."""

    def __init__(self, name, texts, faults):
        self.name, self.texts, self.faults = name, texts, faults
        self.steps, self.writes, self.count = {}, {}, 0

    def find(self, place, word):
        """The name by which the cases find the file of this name."""
        if word in self.writes:
            return self.writes[word]
        path = TOP / "examples" / word
        if word != path.name or not path.is_file():
            fail(place, f"{word} is neither written above nor a file of examples/")
        return word

    def file(self, place, word):
        """The same of a file that a command reads; the word where it is a number."""
        if word.isdigit():
            return word
        name = self.find(place, word)
        if name == word:
            self.texts.add(word)
        return name

    def rig(self, place, call, word):
        """The same of a rig: a port, the faults that a number makes, or a file of examples/."""
        if call == "ports":
            return word if is_port(word) else fail(place, f"{word} is none of the ports {', '.join(PORTS)}")
        if word[0] != "@":
            self.faults.add(word if self.find(place, word) == word else fail(place, f"{word} is no file of examples/"))
        return word

    def case(self, place, line, shown):
        """Adds the case of a command, with what it has to write where that is shown."""
        found = re.fullmatch(r"(\S+) ([^|<>&;'\"`]+?)(?: > (\S+))?", line)
        if not found:
            fail(place, "a command is words, and at the end > FILE")
        call, words, to = CALLS[found[1]], found[2].split(), found[3]
        if to and shown is not None:
            fail(place, "what goes into a file is shown by cat")
        if call == "ports" and any(re.match(r"[2-9]x", word) for word in words):
            return  # cases run over one port, asked once: rigs nested deeper than that are more than the checker compares
        first = 0 if call == "maps" else 1
        at_rig = 2 if call != "maps" and words[0] in OF_RIGS else None
        for at in range(first, len(words)):
            words[at] = self.rig(place, call, words[at]) if at == at_rig else self.file(place, words[at])
        self.count += 1
        step, stored = [f"case {self.name}-{self.count}", " ".join([call, *words])], None
        if to:
            stored = f"{self.name}/{to}" + (f".{self.count}" if to in self.writes else "")
            self.writes[to] = stored
            step.append(f"stay {stored}")
        self.steps[stored or place] = [*step, wanted(shown)]

    def show(self, place, line, shown):
        """What `cat` shows: of a file of examples/ it is looked at here, of one that was written it is what its command has to write."""
        name = self.find(place, line.split()[1])
        if shown is None:
            return
        if name in self.steps:
            self.steps[name][-1] = wanted(shown)
        elif not shows((TOP / "examples" / name).read_bytes(), shown):
            fail(place, f"examples/{name} has other lines than these")

    def text(self):
        """The text of the cases."""
        lines = []
        for step in self.steps.values():
            lines += ["", *step[:-1], *step[-1]]
        return lines


def made():
    """The files that this makes, by their paths, and how many cases each has."""
    found, faults, texts, counts = set(), set(), {}, {}
    for name, document in DOCUMENTS.items():
        folder = Folder(name, found, faults)
        for commands, shown in blocks_of(document, (TOP / document).read_text()):
            for place, line in commands:
                its = shown if (place, line) == commands[-1] else None
                (folder.show if line.startswith("cat ") else folder.case)(place, line, its)
        texts[name] = [f"# What {document} shows, by docs/blocks.py.", *folder.text()]
        counts[name] = len(folder.steps)
    lines = ["# The files of examples/ of which the documents speak, by docs/blocks.py."]
    for kind, names in (("text", found), ("faults", faults)):
        for name in sorted(names):
            lines += ["", f"{kind} {name}", *spelled((TOP / "examples" / name).read_bytes())]
    for name in PORTS:
        lines += ["", f"faults {name}"]
    texts, counts = {"files": lines, **texts}, {"files": 0, **counts}
    files = {CASES / "data" / f"document_{name}.txt": "\n".join(it) + "\n" for name, it in texts.items()}
    names = [f"document_{name}.txt" for name in texts]
    words = (CASES / "args").read_text().split("\n")
    kept = [it for it in words if it != "documents" and not it.startswith("document_")]
    at = kept.index("rigs")
    files[CASES / "args"] = "\n".join([*kept[:at], "documents", *names, *kept[at:]])
    said = [f"document_{name}.txt: {count} of {count}" for name, count in counts.items()]
    whole = sum(counts.values())
    said.append(f"{whole} of {whole} right")
    wrote = re.sub(r"(?m)^document_files\.txt:.*\n(document_.*\n)*\d+ of \d+ right\n", "", (CASES / "stdout").read_text())
    end = re.search(r"(?m)^\d+ of \d+ right\n", wrote).end()
    files[CASES / "stdout"] = wrote[:end] + "".join(f"{it}\n" for it in said) + wrote[end:]
    return files


def main(words):
    """Writes the cases, or looks whether they stand there."""
    if words not in ([], ["--check"]):
        print(__doc__, file=sys.stderr)
        return 2
    try:
        files = made()
    except Wrong as wrong:
        print(wrong, file=sys.stderr)
        return 1
    stale = [path for path, text in files.items() if not path.is_file() or path.read_text() != text]
    for path in stale:
        print(f"{path.relative_to(TOP)} {'is not what the documents show: run docs/blocks.py' if words else 'written'}")
        if not words:
            path.write_text(files[path])
    return 1 if words and stale else 0


if __name__ == "__main__":
    sys.exit(main(sys.argv[1:]))
