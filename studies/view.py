#!/usr/bin/env python3
"""One HTML file to look at a machine, for any browser and without a server: its crossbars, defects by cause, nets, and cycles.

Two lists or two images are shown side by side or as their difference, several sets of faults together; two designs are those of a
`pair`, and with --copies one is that of a `twice`. Without a part that is named by --part the page of a large machine has counts alone where it would be too long, and says so.
"""

import argparse
import base64
import csv
import json
import os
import re
import sys
from functools import partial
from pathlib import Path

import designs
import teramac_texts as texts
from faults import amount, make_faults
from plan import shortage
from program import HERE, add_program, call, checked_design
from trial import mix

PAGE_LIMIT = 400_000  # bytes of a page
VECTORS_LIMIT, VECTORS_BYTES = 4_096, 100_000  # most vectors, and most characters of vectors and rows
STUDY_SHARE = 0.6  # of a page for the faults of a study's runs
CODE = [f"{name}.js" for name in "machine scene marks circuit layout painter words waves viewer page".split()]


def packed(numbers):
    """Ascending numbers as base64 of their differences, seven bits to a byte, the lowest first."""
    found, last = bytearray(), 0
    for number in numbers:
        rest, last = number - last, number
        while rest > 127:
            found.append(rest & 127 | 128)
            rest >>= 7
        found.append(rest)
    return base64.b64encode(found).decode()


class Parts:
    """The crossbars whose crosspoints the page has: all, or those of named parts."""

    def __init__(self, machine, names, nets):
        self.machine, self.names, self.nets = machine, names, nets
        self.all = True

    def has(self, cross):
        return self.all or self.has_node(self.machine.node_of_cross(cross).name)

    def has_node(self, node):
        return node in self.nets or any(node == name or node.startswith(f"{name}.") or name == "r" for name in self.names)

    def split(self, crosses):
        """Those that the page has, in order, and how many others each node has."""
        kept, counted = [], {}
        for cross in sorted(crosses):
            if self.has(cross):
                kept.append(cross)
            else:
                node = self.machine.node_of_cross(cross).name
                counted[node] = counted.get(node, 0) + 1
        return kept, counted


def sent_faults(faults, parts, counted):
    """The faults as the page reads them; those that it hasn't are counted by node."""
    found = {kind: packed(sorted(faults[kind])) for kind in ("stuck0", "stuck1")}
    for kind in ("open", "closed"):
        kept, others = parts.split(faults[kind])
        found[kind] = packed(kept)
        for node, count in others.items():
            counted.setdefault(node, {})[kind] = count
    found["bridge"] = sorted(faults["bridge"])
    found["cell"] = sorted((*at, value) for at, value in faults["cell"].items())
    found["register"] = sorted(faults["register"].items())
    return found


def sent_list(machine, faults, defects, parts, counted):
    """A list of defects; of crosspoints what differs from the faults, sound ones that it has and faulty ones that it leaves free."""
    faulty = faults["open"].keys() | faults["closed"].keys()
    more, others = parts.split(defects["cross"] - faulty)
    missed = [cross for cross in faulty - defects["cross"] if parts.has(cross) and defects["wire"].isdisjoint(machine.ends(cross))]
    for node, count in others.items():
        counted.setdefault(node, {})["thrown" if faults.count else "listed"] = count
    found = {"wire": sorted(defects["wire"]), "table": sorted(defects["table"]), "more": more, "missed": sorted(missed)}
    return {name: packed(numbers) for name, numbers in found.items()}


def sent_image(machine, image, parts):
    """An image: its pins, and of a table a byte of flags and eight of cells."""
    tables = [setting for setting in image.tables if parts.all or parts.has_node(machine.table_names[setting[0]].rsplit(".", 1)[0])]
    settings = b"".join(bytes([latched | initial << 1]) + cells.to_bytes(8, "big") for _, latched, initial, cells in tables)
    return {
        "ticks": image.ticks,
        "inputs": image.inputs,
        "outputs": image.outputs,
        "tables": packed(table for table, *_ in tables),
        "settings": base64.b64encode(settings).decode(),
        "closed": packed(cross for cross in image.crosses if parts.has(cross)),
    }


def vectors_of(path, outputs):
    """The vectors of a file, or those of its beginning for which a page has room with their rows; and what is left out."""
    try:
        with open(path, encoding="utf-8", errors="surrogateescape") as file:
            found, size = [], 0
            for line in file:
                vector = line.split("#")[0].translate(texts.BLANK).replace(" ", "").strip()
                size += len(vector) + 2 * outputs
                if vector and (len(found) == VECTORS_LIMIT or size > VECTORS_BYTES):
                    return found, [f"Of the vectors the page has the first {len(found):,}."]
                found += [vector] * bool(vector)
            return found, []
    except OSError as error:
        sys.exit(f"{path}: {error.strerror}")


def walk_of(path):
    """The steps of a walk, from lines `PLACE: words` or `PLACE @CYCLE: words`."""
    try:
        lines = [line for line in Path(path).read_text(encoding="utf-8").splitlines() if line]
    except (OSError, UnicodeDecodeError) as error:
        sys.exit(f"{path}: {error}")
    steps = [re.fullmatch(r"([^:@]+?)(?: @(\d+))?: (.+)", line) for line in lines]
    if None in steps:
        sys.exit(f"{path}: {lines[steps.index(None)]!r} isn't PLACE: words, or PLACE @CYCLE: words")
    return [{"place": step[1], "cycle": None if step[2] is None else int(step[2]), "words": step[3]} for step in steps]


def rows_of(path):
    """The rows of what `run`, `go` or `eval` wrote."""
    try:
        return Path(path).read_text(encoding="ascii").rsplit("outputs\n", 1)[-1].partition("refused ")[0].split()
    except (OSError, UnicodeDecodeError) as error:
        sys.exit(f"{path}: {error}")


def expected_rows(program, paths, read, vectors):
    """The rows that `eval` gives of the designs, which share the columns of the vectors."""
    rows, first = [""] * len(vectors), 0
    for path, design in zip(paths, read):
        last = first + len(design.inputs)
        own = "".join(f"{vector[first:last] if design.inputs else '.'}\n" for vector in vectors)
        answer = call(program, "eval", path, own.encode())
        if answer.status:
            sys.exit(f"{path}: {' '.join(answer.refusal)}")
        rows = [row + more.decode().replace(".", "") for row, more in zip(rows, answer.rows)]
        first = last
    return [row or "." for row in rows]


def doubled(lines):
    """Vectors or rows of one copy as those of two that are alike."""
    return [line if line == "." else 2 * line for line in lines]


class Study:
    """The runs of a study on this machine, failed ones first, and the faults of each, made anew as the study made them."""

    def __init__(self, path, settings, name):
        self.path, self.kinds, clusters = path, {}, (0, "spots")
        if settings:
            import yaml  # only here, since nothing else wants it

            read = yaml.safe_load(Path(settings).read_text(encoding="utf-8"))
            self.kinds = {mix(word)[0]: mix(word) for word in read["kinds"]}
            clusters = read.get("clustered", 0), read.get("shape", "spots")
        self.clusters = clusters
        with open(path, encoding="utf-8", newline="") as file:
            rows = list(csv.DictReader(file))
        self.rows = sorted((row for row in rows if row["machine"] == name), key=lambda row: row["status"] == "0")
        if not self.rows:
            sys.exit(f"{path}: has no run on {name}, but on {', '.join(sorted({row['machine'] for row in rows}))}")

    def faults(self, machine, row):
        name, weights, clusters = self.kinds.get(row["kind"]) or mix(row["kind"])
        rate = amount(row["rate"])
        amounts = {kind: rate * weight for kind, weight in weights.items()}
        amounts = {kind: round(count) for kind, count in amounts.items()} if isinstance(rate, int) else amounts
        return make_faults(machine, amounts, int(row["seed"]), *(clusters or self.clusters))

    def sent(self, machine, parts):
        """Rows in words, and the faults of as many sets as there is room for."""
        runs, places, rows, room = [], {}, [], PAGE_LIMIT * STUDY_SHARE
        for row in self.rows:
            key = tuple(row[column] for column in ("kind", "rate", "seed"))
            if key not in places and room > 0:
                faults = self.faults(machine, row)
                counted = {}
                sent = {"name": " ".join(key), "faults": sent_faults(faults, parts, counted), "counted": counted}
                sent["list"] = sent_list(machine, faults, texts.exact_list(machine, faults), parts, counted)
                room -= len(json.dumps(sent))
                places[key] = len(runs)
                runs.append(sent)
            said = "fits" if row["status"] == "0" else row["refusal"] or row["status"]
            words = f"{row['kind']} {row['rate']}, seed {row['seed']}, {row['design']}, {row['list']}: {said}"
            rows.append({"words": words, "run": places.get(key, -1), "isFailed": row["status"] != "0"})
        return {"name": os.path.basename(self.path), "rows": rows, "runs": runs}


class View:
    """What is to be seen, read from the files that are named."""

    def __init__(self, args):
        self.args = args
        self.machine = texts.read_text(texts.read_machine, args.machine)
        read = {name: self.read_all(name) for name in ("faults", "defects", "image")}
        self.count = max(1, *map(len, read.values()))
        for name, found in read.items():
            if len(found) not in (0, 1, self.count):
                sys.exit(f"--{name}: one file, or one for each of the {self.count}")
        self.read = {name: found * (self.count // max(1, len(found))) for name, found in read.items()}
        if args.copies and len(args.design) != 1:
            sys.exit("--copies: of one design, and --design names none or several")
        self.designs = [checked_design(args.program, path) for path in args.design] * (2 if args.copies else 1)
        self.check_pins()
        self.left = []
        nets = {name for net in args.part for name in self.nodes_of_net(net)}
        nodes = {node.name for node in self.machine.nodes}
        if unknown := [name for name in args.part if name not in nodes and not self.is_net(name)]:
            sys.exit(f"--part: {unknown[0]} is no node of this machine and no net of the design")
        self.parts = Parts(self.machine, [name for name in args.part if name in nodes], nets)
        self.refusal = self.refused()

    def read_all(self, name):
        reader = getattr(texts, f"read_{name}")
        return [texts.read_text(partial(reader, self.machine), path) for path in getattr(self.args, name)]

    def names(self, which):
        """Names of all inputs or outputs; those of a second copy are marked."""
        marks = ["", "'" * self.args.copies]
        return ["".join(signal) + mark for design, mark in zip(self.designs, marks) for signal in getattr(design, which)]

    def check_pins(self):
        for path, image in zip(self.args.image, self.read["image"]):
            if self.designs and (len(image.inputs), len(image.outputs)) != (len(self.names("inputs")), len(self.names("outputs"))):
                sys.exit(f"{path}: its inputs and outputs aren't as many as those of --design")

    def is_net(self, name):
        return name in self.names("inputs") + self.names("outputs")

    def nodes_of_net(self, name):
        """The crossbars that the net of an input or output passes in the first image."""
        if not self.is_net(name) or not self.read["image"]:
            return set()
        image = self.read["image"][0]
        pin = dict(zip(self.names("outputs") + self.names("inputs"), image.outputs + image.inputs))[name]
        net_of = image.net_of(self.machine)
        tied = [cross for cross in image.crosses if pin in net_of and net_of[self.machine.ends(cross)[0]] == net_of[pin]]
        return {self.machine.node_of_cross(cross).name for cross in tied}

    def refused(self):
        """What a line of a refusal says, whose crossbar is among the parts."""
        words = (self.args.refusal or "").split()
        if not words:
            return None
        if words[:2] != ["refused", "noroom"] or len(words) < 6:
            sys.exit("--refusal: a line `refused noroom RESOURCE NODE NEED HAVE ..`")
        network = designs.side_by_side([*map(designs.plain_network, self.designs)]) if self.designs else None
        defects = self.read["defects"][0] if self.read["defects"] else texts.Defects()
        try:
            found = shortage(self.machine, defects, network, self.names("inputs"), words)
        except ValueError as error:
            sys.exit(f"--refusal: {error}")
        self.parts.names.append(found["node"])
        return found

    def scene(self, number):
        """One machine with its faults, list and image."""
        faults, defects, image = ((found[number] if found else None) for found in self.read.values())
        paths = self.args.image if len(self.args.image) > 1 else self.args.defects if len(self.args.defects) > 1 else self.args.faults
        found = {"name": os.path.basename(paths[number]) if number < len(paths) else "machine", "counted": {}}
        counted = found["counted"]
        if faults is not None:
            found["faults"] = sent_faults(faults, self.parts, counted)
        if defects is not None:
            found["list"] = sent_list(self.machine, faults or texts.Faults(), defects, self.parts, counted)
        if image is not None:
            found["image"] = sent_image(self.machine, image, self.parts)
        return found

    def data(self):
        """All that the page has to know."""
        split = [len(self.designs[0].inputs), len(self.designs[0].outputs)] if len(self.designs) == 2 else None
        found = {"title": os.path.basename(self.args.machine), "counts": self.machine.counts, "split": split, "refusal": self.refusal}
        found |= {"copies": self.args.copies, "walk": walk_of(self.args.walk) if self.args.walk else []}
        found |= {"inputs": self.names("inputs"), "outputs": self.names("outputs"), "vectors": [], "expected": [], "rows": [], "left": []}
        if self.args.vectors:
            found["vectors"], found["left"] = vectors_of(self.args.vectors, len(self.names("outputs")))
            if self.designs:
                found["expected"] = expected_rows(self.args.program, self.args.design, self.designs, found["vectors"])
        if self.args.rows:
            found["rows"] = rows_of(self.args.rows)[: len(found["vectors"])]
        if self.args.copies:
            found |= {name: doubled(found[name]) for name in ("vectors", "expected", "rows")}
        found["scenes"] = [self.scene(number) for number in range(self.count)]
        if self.args.study:
            found["study"] = Study(self.args.study, self.args.settings, Path(self.args.machine).stem).sent(self.machine, self.parts)
        return found

    def page(self):
        """The page; where it would be too long, with the crosspoints of named parts alone."""
        found = page_of(self.data())
        if len(found) <= PAGE_LIMIT:
            return found
        self.parts.all = False
        data = self.data()
        named = ", ".join([*self.args.part, *([self.refusal["node"]] if self.refusal else [])]) or "no part (name some by --part)"
        data["left"].append(f"This machine is large: the page has the single crosspoints of {named}, and of all others how many are bad.")
        data["isPartial"] = bool(self.read["image"])
        if data["isPartial"]:
            data["left"].append("Of the image it has what is closed and switched on there, so cycles can't be simulated.")
        found = page_of(data)
        if len(found) > PAGE_LIMIT:
            print(f"the page has {len(found):,} characters: name fewer parts by --part", file=sys.stderr)
        return found


def on_one_line(text):
    """A script, style or frame without comments and breaks: what is read is in the folder `view`, and a page is shorter."""
    lines = (re.sub("  // .*", "", line).strip() for line in text.splitlines())
    return " ".join(line for line in lines if line and not line.startswith("//"))


def page_of(data):
    """The page of some data: the frame with style, data and code put in."""
    read = {name: Path(HERE, "view", name).read_text(encoding="utf-8") for name in ("page.html", "page.css", *CODE)}
    code = "\n".join(on_one_line(read[name]) for name in CODE)
    told = json.dumps(data, separators=(",", ":")).replace("</", "<\\/")
    page = on_one_line(read["page.html"])
    for mark, text in (("style", on_one_line(read["page.css"])), ("code", f"\n{code}\n"), ("data", told)):
        page = page.replace("{{" + mark + "}}", text)
    return page + "\n"


def main():
    parser = argparse.ArgumentParser(description=__doc__, formatter_class=argparse.RawDescriptionHelpFormatter)
    parser.add_argument("machine", help="the machine's file")
    several = {"nargs": "+", "default": []}
    parser.add_argument("--faults", **several, metavar="FILE", help="the file of its faults, or several to see what is lost how often")
    parser.add_argument("--defects", **several, metavar="FILE", help="a list of defects, or two to compare")
    parser.add_argument("--image", **several, metavar="FILE", help="an image, two to compare, or several to see what is used how often")
    parser.add_argument("--design", **several, metavar="FILE", help="the BLIF file of the image's design; two of a pair")
    parser.add_argument("--copies", action="store_true", help="the image has two copies of the design, as `twice` lays it")
    parser.add_argument("--vectors", metavar="FILE", help="vectors, by which the page simulates the machine")
    parser.add_argument("--rows", metavar="FILE", help="what `run` wrote, to be compared")
    parser.add_argument("--part", **several, metavar="NAME", help="of a large machine: nodes, or nets by their pins, to be seen in full")
    parser.add_argument("--refusal", metavar="LINE", help="a line `refused noroom ..`, whose crossbar is shown with its nets")
    parser.add_argument("--walk", metavar="FILE", help="steps through the page: a line each, a part or net, then `: ` and what is said there")
    parser.add_argument("--study", metavar="FILE", help="rows.csv of a study, whose runs on this machine are listed")
    parser.add_argument("--settings", metavar="FILE", help="that study's settings, where its kinds of faults have names")
    parser.add_argument("-o", "--output", default="-", help="a new file (default: standard output)")
    add_program(parser)
    texts.write_new((args := parser.parse_args()).output, View(args).page())


if __name__ == "__main__":
    main()
