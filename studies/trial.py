#!/usr/bin/env python3
"""One machine with one set of faults; on each of some lists every design. Writes rows of CSV (README.md says what of each list).

Every run's rows are compared with eval's. An answer of status 1, 2, 4 or 5 was never a run, and ends the script with status 1, as do
rows that differ where a list was made.
"""

import argparse
import csv
import io
import re
import sys
from pathlib import Path

import designs
import teramac_texts as texts
from at_work import run_at_work, schedule_text
from faults import KINDS, SHAPES, add_clusters, amount, make_faults
from program import HERE, MAPPER, REPORT, add_program, call

COLUMNS = (
    "machine crosspoints kind rate seed faults design list status refusal listed_wires listed_crosses listed_tables thrown_wires "
    "thrown_crosses thrown_tables tables nets crossings closed seconds diagnose_seconds diagnose_processor loads loads_sweep loads_growth loads_tables "
    "cycles cycles_sweep cycles_growth cycles_tables spare spared pins written wrong_rows"
).split()
AT_WORK = ("go", "twice")  # the faults come while the design runs
LISTS = ("exact", "diagnosed", "mapped", "wires", "hextants", "none", "triplicated", "triplicated_pins", *AT_WORK, "told")
UNDIAGNOSED = ("none", "triplicated", "triplicated_pins")
NO_RUN = (1, 2, 4, 5)  # which say nothing of room: wrong texts or words, a rig, a store or an output that failed


def mix(word):
    """Name, weights of kinds, and clusters or none, of a mix: `open`, `mixed:open+wires*0.1`, `rows:open in rows of 24`."""
    number = r"([0-9]+(?:\.[0-9]+)?)"
    whole = re.fullmatch(rf"(?:(.+):)?([^: ]+)(?: in ({'|'.join(SHAPES)}) of {number})?", word)
    parts = [re.fullmatch(rf"({'|'.join(KINDS)})(?:\*{number})?", part) for part in whole[2].split("+")] if whole else [None]
    if None in parts or 0 in (weights := {part[1]: float(part[2] or 1) for part in parts}).values():
        raise argparse.ArgumentTypeError(f"{word}: kinds are {', '.join(KINDS)}, shapes {', '.join(SHAPES)}, a weight is above 0")
    return whole[1] or word, weights, (float(whole[4]), whole[3]) if whole[3] else None


def wires_list(machine, faults):
    """Wires alone: of each faulty crosspoint its tap or line, the one with the most of them first, and of each faulty table its output."""
    exact, listed, of = texts.exact_list(machine, faults), texts.Defects(), {}
    listed["wire"] = exact["wire"] | {machine.table_pins[table][6] for table in exact["table"]}
    for cross in exact["cross"]:
        if listed.is_free(machine, "cross", cross):
            for wire in machine.ends(cross):
                of.setdefault(wire, set()).add(cross)
    while any(of.values()):
        worst = max(of, key=lambda wire: (len(of[wire]), -wire))
        listed["wire"].add(worst)
        for cross in of.pop(worst):
            of[sum(machine.ends(cross)) - worst].discard(cross)
    return listed


def hextants_list(machine, faults):
    """The exact list, and of each hextant with a part on it all wires."""
    found = texts.exact_list(machine, faults)
    for node in machine.nodes:
        if node.level == 3:
            inside = range(node.ports.start, node.lines.stop + 7 * len(node.tables))
            crosses = range(node.first, node.first + len(node.taps) * len(node.lines))
            if not (found["wire"].isdisjoint(inside) and found["cross"].isdisjoint(crosses) and found["table"].isdisjoint(node.tables)):
                found["wire"].update(inside)
    for kind in ("cross", "table"):
        found[kind] = {at for at in found[kind] if found["wire"].isdisjoint(machine.wires_of(kind, at))}
    return found


class Trial:
    """One set of faults, and what is the same in all its rows."""

    LISTED = {"exact": texts.exact_list, "mapped": texts.exact_list, "wires": wires_list, "hextants": hextants_list}

    def __init__(self, args):
        self.args = args
        self.machine = texts.read_text(texts.read_machine, args.machine)
        name, weights, clusters = args.kind
        amounts = {kind: args.rate * weight for kind, weight in weights.items()}
        if isinstance(args.rate, int):
            amounts = {kind: round(count) for kind, count in amounts.items()}
        self.faults = make_faults(self.machine, amounts, args.seed, *(clusters or (args.clustered, args.shape)))
        self.fault_text = texts.faults_text(self.machine, self.faults).encode()
        given = (args.name or Path(args.machine).stem, self.machine.sizes["cross"], name, args.rate, args.seed, self.faults.count)
        self.head = dict(zip(COLUMNS, given)) | {"spare": args.spare, "spared": args.spared}

    def call(self, *words, program=None):
        answer = call(program or self.args.program, *words, seconds=self.args.seconds)
        if answer.status in NO_RUN:
            said = " ".join(answer.refusal) or f"status {answer.status}"
            sys.exit(f"{words[0]} on {self.head['machine']}, {self.head['kind']} {self.args.rate}, seed {self.args.seed}: {said}; no run")
        return answer

    def row(self, design, kind, listed, answer, **more):
        """A row of the table about one design on one list."""
        status = {-1: "cut off", -2: "wrong"}.get(answer.status, answer.status)
        row = {**self.head, "design": design, "list": kind, "status": status, "seconds": round(answer.seconds, 3), **more}
        row["refusal"] = " ".join(answer.refusal[1:4])
        if listed:
            defects = texts.read_defects(self.machine, listed)
            thrown = texts.sound_listed(self.machine, self.faults, defects)
            row |= zip(COLUMNS[10:16], (*map(len, defects.values()), *thrown))
        return row

    def shape_of(self, image):
        """Tables, nets, crossings and closed crosspoints of an image."""
        found = texts.read_image(self.machine, image)
        nets, ports = found.net_of(self.machine), {wire for node in self.machine.nodes for wire in node.ports}
        sizes = {"tables": len(found.tables), "nets": len(set(nets.values())), "crossings": len(ports & nets.keys())}
        return sizes | {"closed": len(found.crosses)}

    def compared(self, answer, design, vectors, promised=True, read=list):
        """The answer, after its rows, or what is read of them, were compared with those of eval."""
        want = answer if answer.status else self.call("eval", design, vectors)
        if want.status == 0 and want.rows != read(answer.rows):
            if promised:
                kept = f"wrong-{Path(design).name}-{self.head['kind']}-{self.args.rate}-{self.args.seed}.faults"
                texts.write_new(kept, self.fault_text)
                sys.exit(f"{design}: the rows are not those of eval; the faults are in {kept}")
            answer.status = -2
        return answer

    def laid(self, listed, design, vectors, kind="exact", given=None):
        """compile and run on a list; the answer with the seconds of both, and the image's sizes where there is one."""
        image = self.call("compile", self.args.machine, listed, given or design)
        if image.status:
            return image, {}
        pins = kind == "triplicated_pins"
        driven = designs.thrice(Path(vectors).read_text(encoding="utf-8")).encode() if pins else vectors
        ran = self.call("run", self.args.machine, self.fault_text, image.written, driven)
        ran.seconds += image.seconds
        ran = self.compared(ran, design, vectors, kind not in UNDIAGNOSED, designs.voted if pins else list)
        return ran, self.shape_of(image.written)

    def loads(self):
        """The loads of a diagnosis, in all and by part, by the program of reports; with that of ports the cycles too."""
        if not self.args.report:
            return {}
        cost = [sys.executable, f"{HERE}/../ends/cost.py", self.args.port] if self.args.port else []
        answer = call(*cost, self.args.report, self.args.machine, self.fault_text, seconds=self.args.seconds)
        return told_costs(answer.written.decode()) if answer.status == 0 else {}

    def told_row(self):
        """What the program of reports tells of a diagnosis, whose list isn't looked at: a large machine has one of millions of lines."""
        answer = self.call(self.args.machine, self.fault_text, program=self.args.report)
        text = answer.written.decode()
        told = re.search(r"^listed wires (\d+) crosspoints (\d+) tables (\d+)$", text, re.MULTILINE)
        listed = dict(zip(COLUMNS[10:13], map(int, told.groups()))) if told else {}
        return self.row("", "told", None, answer, **took_of(answer), **told_costs(text), **listed)

    def load_of_design(self):
        """The number of the load behind a diagnosis of the sound machine."""
        return 1 + run_at_work(self.args.port, "diagnose", self.args.machine, "", seconds=self.args.seconds)[1].loads

    def at_work_rows(self, command):
        """`go` or `twice`, where the faults come while the design runs; rows that are wrong are counted."""
        load = self.load_of_design()
        for name, design, vectors in self.args.designs:
            want = self.call("eval", design, vectors).rows
            schedule = schedule_text(self.machine, self.faults, load, len(want), self.args.seed)
            words = self.args.port, command, self.args.machine, schedule, design, vectors
            answer, sessions = run_at_work(*words, seconds=self.args.seconds)
            rows, more = answer.rows[: -len(answer.refusal) or None], {}
            if answer.status in NO_RUN or (answer.status in (0, 7) and sessions.loads != load):
                sys.exit(f"{command} on {self.head['machine']}: status {answer.status} after {sessions.loads} loads; no run")
            if answer.status in (0, 7):
                read, last, copies = texts.read_text(texts.read_design, design), sessions.last, 2 if command == "twice" else 1
                more = {"tables": len(last.tables), "closed": len(last.closed), "pins": copies * len(read.inputs + read.outputs)}
                more |= {"written": len(rows), "wrong_rows": sum(one != other for one, other in zip(rows, want))}
            row = self.row(name, command, None, answer, **more)
            yield row | ({"status": "wrong"} if more.get("wrong_rows") else {})

    def rows(self):
        for kind in self.args.lists:
            if kind == "diagnosed":
                yield from self.diagnosed_rows()
                continue
            if kind in AT_WORK:
                yield from self.at_work_rows(kind)
                continue
            if kind == "told":
                yield self.told_row()
                continue
            listed = texts.defects_text(self.machine, self.LISTED.get(kind, lambda *_: texts.Defects())(self.machine, self.faults)).encode()
            for name, design, vectors in self.args.designs:
                given = design
                if kind.startswith("triplicated"):
                    copies = designs.triplicated(texts.read_text(texts.read_design, design), kind.endswith("_pins"))
                    given = designs.blif_text(copies).encode()
                said = self.call(self.args.machine, listed, design, program=self.args.mapper) if kind == "mapped" else None
                given = said.written if said else given
                answer, sizes = (said, {}) if said and said.status else self.laid(listed, design, vectors, kind, given)
                yield self.row(name, kind, None if kind in UNDIAGNOSED else listed, answer, **sizes)

    def diagnosed_rows(self):
        """By the tool's own list; one row without a design where none is given."""
        diagnosed, loads = self.call("diagnose", self.args.machine, self.fault_text), self.loads()
        listed = diagnosed.defects if diagnosed.status == 0 else None
        for name, design, vectors in self.args.designs or [("", None, None)]:
            answer, more = (diagnosed, {}) if design is None or not listed else self.laid(listed, design, vectors)
            if answer is not diagnosed:
                answer.seconds += diagnosed.seconds
            yield self.row(name, "diagnosed", listed, answer, **took_of(diagnosed), **more, **loads)


def took_of(diagnosed):
    """What a diagnosis took, in columns: seconds by the clock, and those of the processor, which aren't told of one that was cut off."""
    processor = {} if diagnosed.processor is None else {"diagnose_processor": round(diagnosed.processor, 2)}
    return {"diagnose_seconds": round(diagnosed.seconds, 3), **processor}


def told_costs(text):
    """The loads of a report, in all and by part, and the cycles where they stand there."""
    told = re.findall(r"^(?:diagnosis|part( \w+)) loads (\d+)(?: cycles (\d+))?$", text, re.MULTILINE)
    costs = [(cost + part.replace(" ", "_"), many) for part, *counts in told for cost, many in zip(("loads", "cycles"), counts)]
    return {name: int(many) for name, many in costs if many and name in COLUMNS}


def named_pair(word):
    """A design and its vectors with a name, as [NAME=]DESIGN:VECTORS."""
    name, _, rest = word.rpartition("=")
    design, colon, vectors = rest.partition(":")
    if not colon:
        raise argparse.ArgumentTypeError(f"{word}: not of the form DESIGN:VECTORS")
    return name or Path(design).stem, design, vectors


def main():
    parser = argparse.ArgumentParser(description=__doc__, formatter_class=argparse.RawDescriptionHelpFormatter)
    parser.add_argument("machine", help="the machine's file")
    parser.add_argument("designs", nargs="*", type=named_pair, metavar="[NAME=]DESIGN:VECTORS", help="a BLIF file and its vectors")
    kinds = "a kind of faults, or NAME:KIND*WEIGHT+.. of several, each at so many times the rate, or '.. in rows of 24' (default: open)"
    parser.add_argument("--kind", type=mix, default=mix("open"), help=kinds)
    parser.add_argument("--rate", type=amount, required=True, help="their rate, as 0.01 or 1%%, or their number")
    add_clusters(parser)
    parser.add_argument("--seed", type=int, default=1, help="the fault set's seed (default: 1)")
    parser.add_argument("--lists", default="exact,diagnosed", help=f"of {','.join(LISTS)} (default: %(default)s)")
    parser.add_argument("--seconds", type=float, default=600, help="no call takes longer; it is cut off (default: 600)")
    parser.add_argument("--report", default=REPORT, help="the built teramac_report, which tells loads; '' for none (default: %(default)s)")
    parser.add_argument("--port", default="", help="the built teramac_port, by which cycles are counted, for go and twice (default: none)")
    parser.add_argument("--name", help="the machine's name in the table (default: its file's)")
    parser.add_argument("--spare", type=float, help="what the machine has to spare, for the table")
    parser.add_argument("--spared", default="", help="of what: all or lines, for the table")
    parser.add_argument("-o", "--output", default="-", help="a new file (default: standard output)")
    parser.add_argument("--result", metavar="FILE", help="of a study: FILE is written whole or not at all; where it stands nothing is run")
    parser.add_argument("--mapper", default=MAPPER, help="the built teramac_map, for mapped (default: %(default)s)")
    add_program(parser)
    args = parser.parse_args()
    if args.result and Path(args.result).exists():
        return
    args.lists = args.lists.split(",")
    if not set(args.lists) <= set(LISTS if args.mapper else LISTS[:2] + LISTS[3:]):
        sys.exit(f"--lists: some of {', '.join(LISTS)}; mapped wants teramac_map, built or named by --mapper")
    if "told" in args.lists and not args.report:
        sys.exit("--lists: told wants teramac_report, built or named by --report")
    if not set(args.lists).isdisjoint(AT_WORK) and not args.port:
        sys.exit("--lists: go and twice want teramac_port, named by --port")
    try:
        rows = list(Trial(args).rows())
    except ValueError as error:
        sys.exit(f"{args.machine}: {error}")
    table = io.StringIO()
    writer = csv.DictWriter(table, COLUMNS, lineterminator="\n", restval="")
    writer.writeheader()
    writer.writerows(rows)
    if args.result:
        texts.replace(args.result, table.getvalue())
    else:
        texts.write_new(args.output, table.getvalue())


if __name__ == "__main__":
    main()
