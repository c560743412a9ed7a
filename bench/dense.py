#!/usr/bin/env python3
"""What diagnose lists of the sound parts of machines that are denser and denser with faults, and what that takes: a Markdown table.

open: so many of 100 crosspoints are stuck open. mix: besides, a tenth as many are stuck closed, a tenth as many of 100 wires are
stuck, as many bridges join a wire and one of the next four, and one of 100 tables has a wrong cell. A row is about some machines,
with faults made from the seeds 1, 2 and so on: shares are of all of them, other figures means. A wire is sound that is neither
stuck nor shorted; a crosspoint or table that has no fault and sound wires alone; listed is what the list doesn't leave free. Loads
are those that `teramac_report` tells, if it is named, in all and by part; of a further one those in all stand beside them. With
--write the faults are written into a folder, as mix1-1.faults of 1 % and seed 1, and nothing is run: of a machine that isn't small
a row would take hours.
"""

import argparse
import os
import random
import re
import shlex
import sys
import tempfile

sys.path.insert(0, os.path.join(os.path.dirname(os.path.abspath(__file__)), "../studies"))  # first: faults.py stands here too
import teramac_texts as texts
from faults import amount, count_of, make_faults
from program import add_program, call

BENCH = (2, 2, 4, 8, 24, 24, 24, 32, 32, 32, 32, 28)
HEAD = "Faults | Number | Sound wires, crosspoints, tables listed, of 100 | Loads | Sweep, growth, tests of tables | Loads beside"
HEAD += " | Seconds of processor | Entries | Tables free | Lists that cover"


def faults_of(machine, kind, rate, seed):
    """The faults of a machine."""
    if kind == "open":
        return make_faults(machine, {"open": rate}, seed)
    faults = make_faults(machine, {"open": rate, "closed": rate / 10, "wires": rate / 10}, seed)
    chance, last = random.Random(f"mix {seed}"), machine.sizes["wire"] - 1
    for _ in range(count_of(rate / 10, machine.sizes["wire"], chance)):
        wire = chance.randrange(last)
        faults.add("bridge", (wire, min(wire + chance.randint(1, 4), last)))
    for table in chance.sample(range(machine.sizes["table"]), count_of(0.01, machine.sizes["table"], chance)):
        faults.add("cell", (table, chance.randrange(64)), chance.randrange(2))
    return faults


def covers(machine, faults, defects):
    """Whether no free crosspoint or table has a fault, and no free wire is stuck, or shorted to a stuck one or to another free one."""
    bad = faults.parts
    groups = [(set(group) - defects["wire"], bad["wire"].isdisjoint(group)) for group in texts.short_groups(machine, faults)]
    free = [at for kind in texts.PARTS for at in bad[kind] if defects.is_free(machine, kind, at)]
    return not free and all(len(left) <= (1 if clear else 0) for left, clear in groups)


def sound_and_listed(machine, faults, defects):
    """How many wires, crosspoints and tables are sound, and then how many of each the list doesn't leave free."""
    bad = faults.parts
    wires = set(range(machine.sizes["wire"])).difference(bad["wire"], *texts.short_groups(machine, faults))
    sound = {kind: [at for at in range(machine.sizes[kind]) if at not in bad[kind] and wires.issuperset(machine.wires_of(kind, at))]
             for kind in texts.PARTS}
    return *map(len, sound.values()), *(sum(not defects.is_free(machine, kind, at) for at in sound[kind]) for kind in texts.PARTS)


def diagnosed(program, *files):
    """Writes a list into the last of the files; gives the seconds that this took of the processor."""
    before = os.times()
    status = call("sh", "-c", "{} diagnose {} {} > {}".format(*map(shlex.quote, (program, *files)))).status
    after = os.times()
    if status:
        sys.exit(f"{program}: not there, or its diagnose ended with status {status}")
    return sum(after[k] - before[k] for k in (2, 3))


def loads_of(report, machine, faults):
    """The loads of a diagnosis in all, and those of its sweeps, of growth, and of the tests of tables; 0 where none are told."""
    told = re.findall(rb"^(?:diagnosis|part \w+) loads (\d+)$", call(report, machine, faults).written if report else b"", re.MULTILINE)
    return [*map(int, told), 0, 0, 0, 0][:4]


def row(programs, machine, kind, rate, seeds):
    """A line of the table."""
    columns = []
    for seed in seeds:
        faults = faults_of(machine, kind, rate / 100, seed)
        with tempfile.TemporaryDirectory() as folder:
            files = [f"{folder}/{name}" for name in ("machine", "faults", "defects")]
            for path, text in zip(files, (machine.text, texts.faults_text(machine, faults))):
                texts.write_new(path, text)
            taken = [diagnosed(programs[0], *files), *loads_of(programs[1], *files[:2]), loads_of(programs[2], *files[:2])[0]]
            defects = texts.read_text(texts.read_defects, files[2], machine)
        taken += [sum(map(len, defects.values())), sum(defects.is_free(machine, "table", at) for at in range(machine.sizes["table"]))]
        columns.append((*sound_and_listed(machine, faults, defects), faults.count, *taken, covers(machine, faults, defects)))
    sums = [sum(column) for column in zip(*columns)]
    shares = ", ".join(f"{100 * listed / sound:.4g}" if sound else "-" for sound, listed in zip(sums[:3], sums[3:6]))
    count, seconds, *told, entries, free = (total / len(seeds) for total in sums[6:-1])
    loads, *parts, beside = (f"{number:,.0f}" for number in told)
    told = f"{loads} | {', '.join(parts)}" if programs[1] else " | "
    last = f"{seconds:.2f} | {entries:,.0f} | {free:.1f} | {sums[-1]} of {len(seeds)}"
    return f"| {kind} {rate:g} % | {count:,.0f} | {shares} | {told} | {beside if programs[2] else ''} | {last} |"


def write_faults(folder, machine, rates, seeds):
    """Writes the faults of each row into a folder."""
    os.makedirs(folder, exist_ok=True)
    for kind, rate in rates:
        for seed in seeds:
            texts.write_new(f"{folder}/{kind}{rate:g}-{seed}.faults", texts.faults_text(machine, faults_of(machine, kind, rate / 100, seed)))


def main():
    parser = argparse.ArgumentParser(description=__doc__, formatter_class=argparse.RawDescriptionHelpFormatter)
    parser.add_argument("machine", nargs="?", help="the machine's file (default: the machine of the command bench)")
    parser.add_argument("--kinds", nargs="+", choices=("open", "mix"), default=("open", "mix"), help="(default: both)")
    rates = (0.5, 1, 2, 3, 5, 8, 10, 15, 20)
    parser.add_argument("--rates", nargs="+", type=lambda word: 100 * amount(word + "%"), default=rates, help="of 100: %(default)s")
    parser.add_argument("--machines", type=int, default=3, choices=range(1, 21), metavar="COUNT", help="for each row (default: 3)")
    parser.add_argument("--write", metavar="FOLDER", help="write the faults there, and run nothing")
    add_program(parser)
    parser.add_argument("--report", help="the built teramac_report, for the loads")
    parser.add_argument("--beside", help="another teramac_report, as one that was built before, for the loads beside them")
    args = parser.parse_args()
    machine = texts.read_text(texts.read_machine, args.machine) if args.machine else texts.Machine(BENCH)
    seeds, rates = range(1, args.machines + 1), [(kind, rate) for kind in args.kinds for rate in args.rates]
    if args.write:
        write_faults(args.write, machine, rates, seeds)
        return
    print(f"| {HEAD} |\n|{'---|' * (HEAD.count('|') + 1)}")
    for kind, rate in rates:
        try:
            print(row((args.program, args.report, args.beside), machine, kind, rate, seeds), flush=True)
        except ValueError as error:
            sys.exit(f"{kind} {rate:g} %: {error}")


main()
