#!/usr/bin/env python3
"""A study from its settings: makes its machines and designs, runs the trials that are missing or out of date, then the figures.

SETTINGS is a file, or the name of one beside this script (redundancy, compare, ..). `--print` writes the trials as commands for several
machines, `yield.smk` does the same as this script by Snakemake; each takes the results that the others have made.
"""

import argparse
import csv
import hashlib
import os
import re
import shlex
import subprocess
import sys
from concurrent.futures import ThreadPoolExecutor
from functools import lru_cache
from importlib.util import find_spec
from itertools import count, product
from pathlib import Path

import yaml

import designs
import teramac_texts as texts
from program import DEFAULT, HERE, MAPPER, PORT, REPORT, UNDECIDED, add_program, checked_design, fill_of, interval
from size import TREES, best_machine, counts_for

KNOWN = set("folder machines designs fill spares tree kinds rates seeds first_seed lists clustered shape seconds".split())
KNOWN |= {"program", "figures", "loads_per_second", "width", "most_seeds", "pdf", "spared", "designs_a_fill", "sound"}
# What decides about the rows of a trial, beside its words and files; and where cycles are counted, about these.
SCRIPTS = [os.path.join(HERE, name + ".py") for name in ("trial", "faults", "teramac_texts", "program", "designs")]
# What decides about machines, designs and figures besides.
MAKERS = [os.path.join(HERE, name + ".py") for name in ("study", "size", "figures")]
COST = [os.path.join(HERE, "../ends", name) for name in ("cost.py", "make.py", "c_end.py", "machine.py", "c/port.c", "c/host.h")]
# And where faults come while a design runs.
RUNS = [os.path.join(HERE, name) for name in ("at_work.py", *(f"../ends/{end}.py" for end in ("lines", "machine", "model", "schedule")))]


def sha256(path):
    return hashlib.sha256(Path(path).read_bytes()).hexdigest()


@lru_cache(None)
def sum_of(path):
    """A sum of a file as it was when the study began; of no path nothing."""
    return path and sha256(path)


def from_here(path):
    """A path by which other machines find the file too: from the working folder, if it lies there or in the repository."""
    whole = os.path.abspath(path)
    if not any(Path(whole).is_relative_to(folder) for folder in (os.getcwd(), os.path.dirname(HERE))):
        return whole
    found = os.path.relpath(whole)
    return found if os.sep in found else os.path.join(os.curdir, found)


class Trial:
    """One call of trial.py. `words_by` gives its words by what stands for each file that it reads: its path, or a sum of it.

    The file of its rows has a sum of all that decides about them in its name, and no path decides: what stands there is right, whoever
    made it and wherever the disk is mounted.
    """

    def __init__(self, name, words_by, scripts):
        self.inputs = []
        words_by(lambda path: self.inputs.append(path) or path)
        self.inputs, self.words = [*filter(None, dict.fromkeys(self.inputs))], words_by(str)
        key = hashlib.sha256("\n".join([*words_by(sum_of), *map(sum_of, scripts)]).encode()).hexdigest()
        self.file = f"{name}.{key[:16]}"


class Place:
    """A machine with its name, what is to spare of it and of what, and the designs that go onto it: of each one, or several in turn."""

    def __init__(self, name, machine, spare, spared, designs):
        self.name, self.machine, self.spare, self.spared, self.designs = name, machine, spare, spared, designs

    @property
    def turns(self):
        """How many sets of faults there are until each design had its turn."""
        return max([1, *map(len, self.designs.values())])

    def at(self, turn):
        """The designs whose turn it is, by their names."""
        for name, those in self.designs.items():
            at = turn % len(those)
            yield (f"{name}.{at + 1}" if len(those) > 1 else name), those[at]


def names_of(paths):
    """A name for each path: that of its file, or with its folders as far as files of one name want it."""
    paths, parts = list(dict.fromkeys(paths)), {path: Path(os.path.abspath(path)).with_suffix("").parts[::-1] for path in paths}
    depth = next(depth for depth in count(1) if len({parts[path][:depth] for path in paths}) == len(paths))
    return {"-".join(parts[path][depth - 1 :: -1]).strip("/"): path for path in paths}


class Study:
    """The trials of some settings by their names."""

    def __init__(self, path, program=None, folder=None, seeds=None):
        self.given = path = path if os.path.isfile(path) else os.path.join(HERE, path + ".yaml")
        try:
            self.settings = yaml.safe_load(Path(path).read_text(encoding="utf-8"))
        except (OSError, yaml.YAMLError) as error:
            sys.exit(f"{path}: {error}")
        self.complain(path)
        self.fewer = f"seeds: {seeds}" if seeds else ""
        if seeds:
            self.settings["seeds"] = seeds
        get = self.settings.get
        self.folder = folder or self.settings["folder"]
        self.program = from_here(program or get("program", DEFAULT))
        self.figures = get("figures", ["fits", "thrown", "loads"])
        machines = [*get("machines", []), *get("sound", [])]
        named = [*machines, *(name for pair in get("designs", {}).items() for name in pair)]
        beside = {name: from_here(os.path.join(HERE, name)) for name in named}
        for name in [self.program, *beside.values()]:
            if not os.path.isfile(name):
                sys.exit(f"{name}: isn't there, or is no file")
        self.machines = names_of([beside[name] for name in machines])
        self.sound = {beside[name] for name in get("sound", [])}
        vectors = {beside[name]: beside[file] for name, file in get("designs", {}).items()}
        self.designs = {name: [(blif, vectors[blif])] for name, blif in names_of(vectors).items()}
        self.places = list(self.on_machines())
        self.trials = dict(self.made_trials())

    def complain(self, path):
        """Ends where the settings aren't right."""
        settings = self.settings
        if not isinstance(settings, dict) or not {"folder", "kinds", "rates", "seeds"} <= settings.keys() <= KNOWN:
            sys.exit(f"{path}: settings are folder, kinds, rates, seeds, and some of {', '.join(sorted(KNOWN))}")
        if not (isinstance(settings.get("width", 1), (int, float)) and 0 < settings.get("width", 1) <= 1):
            sys.exit(f"{path}: a width is above 0 and at most 1")
        if "most_seeds" in settings and "width" not in settings:
            sys.exit(f"{path}: most_seeds says how many sets of faults an interval of some width is worth, and no width is given")
        if "spares" in settings and ("machines" in settings or "fill" in settings):
            sys.exit(f"{path}: with spares each design has machines of its own, so machines and fill are left out")
        if not set(settings.get("spared", ["all"])) <= {"all", "lines"}:
            sys.exit(f"{path}: spared is a list of all, lines or both")
        if settings.get("designs_a_fill", 1) not in range(1, 100):
            sys.exit(f"{path}: designs_a_fill is a number from 1 to 99")

    def made_file(self, name, text):
        """The path of a file with this text, which is written, at once and whole, only where it is another."""
        path = Path(self.folder, "made", name)
        path.parent.mkdir(parents=True, exist_ok=True)
        if not path.exists() or path.read_text(encoding="utf-8") != text:
            texts.replace(path, text)
        return from_here(path)

    def sized(self, blif, name):
        """For each share of spare parts, or of spare lines, a machine on one tree, given or the best; with the share and of what it is.

        `three`: what three copies with voters want, by any of the lists, and a quarter; `two`: likewise, of the two copies of `twice`.
        """
        design = checked_design(self.program, blif)
        lists = [name for name in self.settings.get("lists", []) if name.startswith("triplicated")] or ["triplicated"]
        network = designs.plain_network(design)
        three = [designs.plain_network(designs.triplicated(design, name.endswith("_pins"))) for name in lists]
        copies = {"three": three, "two": [designs.side_by_side([network] * 2)]}
        tree = self.settings.get("tree") or best_machine(network, TREES, 0.0).counts[:3]
        for spared, spare in product(self.settings.get("spared", ["all"]), self.settings["spares"]):
            if spare in copies:
                share = 1.25 * max(len(those.tables) for those in copies[spare]) / len(network.tables) - 1
                counts = [max(several) for several in zip(*(counts_for(those, tree, 0.25) for those in copies[spare]))]
            else:
                share, counts = spare, counts_for(network, tree, spare, 0, spared == "lines")
            if not texts.are_within_limits(counts):
                sys.exit(f"{blif}: with {spare} to spare the machine is beyond its limits")
            word = "lines" if spared == "lines" else "spare"
            yield share, spared, self.made_file(f"{name}-{word}{round(100 * share)}.machine", texts.Machine(counts).text)

    def filled(self, machine, name):
        """The designs that fill shares of a machine's tables: of each share one or several."""
        tables, many = texts.read_text(texts.read_machine, machine).sizes["table"], self.settings.get("designs_a_fill", 1)
        for share in self.settings.get("fill", []):
            fill, found = f"fill{round(100 * share)}", []
            for seed in range(1, many + 1):
                design, file = designs.filling(round(share * tables), seed), f"{name}-{fill}" + f".{seed}" * (many > 1)
                made = (".blif", designs.blif_text(design)), (".vec", designs.random_vectors(design))
                found.append(tuple(self.made_file(file + end, text) for end, text in made))
            yield fill, found

    def on_machines(self):
        """Each machine, and the designs that go onto it."""
        if "spares" in self.settings:
            for name, those in self.designs.items():
                for spare, spared, machine in self.sized(those[0][0], name):
                    yield Place(Path(machine).stem, machine, spare, spared, {name: those})
        for name, machine in self.machines.items():
            yield Place(name, machine, None, "", {**self.designs, **dict(self.filled(machine, name))})

    def words_of(self):
        """What gives a trial's words by how files are named, its place and what is drawn; and the scripts that decide about its rows."""
        get = self.settings.get
        lists = [name for name in get("lists", ["exact", "diagnosed"]) if name != "mapped" or MAPPER]
        at_work = not {"go", "twice"}.isdisjoint(lists)
        if at_work and not PORT:
            sys.exit("go and twice want teramac_port: build it, or name it by TERAMAC_PORT")
        if "told" in lists and not REPORT:
            sys.exit("told wants teramac_report: build it, or name it by TERAMAC_REPORT")
        others = {"mapper": MAPPER if "mapped" in lists else "", "report": REPORT, "port": PORT if "loads" in self.figures or at_work else ""}
        called = {"program": self.program, **{name: path and from_here(path) for name, path in others.items()}}
        more = ["--lists", ",".join(lists), "--seconds", str(get("seconds", 600))]
        more += ["--clustered", str(get("clustered", 0)), "--shape", get("shape", "spots")]

        def words_by(of, place, kind, rate, seed):
            listed = place.at(seed - get("first_seed", 1))
            pairs = [f"{design}={of(blif)}:{of(vectors)}" for design, (blif, vectors) in listed]
            spared = [] if place.spare is None else ["--spare", str(place.spare), "--spared", place.spared]
            programs = [word for option, path in called.items() for word in (f"--{option}", of(path))]
            drawn = ["--name", place.name, *spared, "--kind", kind, "--rate", rate, "--seed", str(seed)]
            return [of(place.machine), *pairs, *drawn, *more, *programs]

        return words_by, [*SCRIPTS, *(COST if called["port"] and "loads" in self.figures else []), *(RUNS if at_work else [])]

    def made_trials(self):
        """For each place, kind and rate `seeds` trials, and as many more at a time while those are done and an interval is too wide."""
        seeds, begin = self.settings["seeds"], self.settings.get("first_seed", 1)
        end = begin + (self.settings.get("most_seeds", 20 * seeds) if "width" in self.settings else seeds)
        points, made, (words_by, scripts) = [], [], self.words_of()
        for place, kind, rate in product(self.places, self.settings["kinds"], self.settings["rates"]):
            if not (float(rate) and place.machine in self.sound):
                points.append(((place, kind, str(rate)), []))
        while points and begin < end:
            # Seed by seed, so that one can see early how a study comes out. Without faults a machine is as the other, once for each design.
            for seed in range(begin, min(begin + seeds, end)):
                for (place, kind, rate), trials in points:
                    if float(rate) or len(trials) < place.turns:
                        name = f"{place.name}-{re.sub('[^a-z0-9.]+', '_', kind)}-{rate}-{seed}"
                        drawn = (place, kind, rate, seed)
                        trials.append(Trial(name, lambda of, drawn=drawn: words_by(of, *drawn), scripts))
                        made.append((name, trials[-1]))
            points, begin = [point for point in points if float(point[0][2]) and self.is_wide(point[1])], begin + seeds
        return made

    def is_wide(self, trials):
        """Whether these are all done and the interval of a share, of some design on some list, is wider than the settings ask."""
        paths, found = [self.file_of(trial) for trial in trials], {}
        if "width" not in self.settings or not all(map(os.path.exists, paths)):
            return False
        for path in paths:
            for row in csv.DictReader(Path(path).read_text(encoding="utf-8").splitlines()):
                if row["status"] not in UNDECIDED:
                    of = found.setdefault((fill_of(row["design"]), row["list"]), {}).setdefault(row["design"], [0, 0])
                    of[:] = of[0] + (row["status"] == "0"), of[1] + 1
        return any(high - low > self.settings["width"] for low, high in (interval(those.values()) for those in found.values()))

    def file_of(self, trial):
        """Where the rows of a trial go. They are written at once and whole, so what stands there is done."""
        return os.path.join(self.folder, "trials", trial.file + ".csv")

    def path(self, name):
        return self.file_of(self.trials[name])

    def due(self):
        return [name for name in self.trials if not os.path.exists(self.path(name))]

    def command(self, name):
        """The words that run a trial, from the working folder."""
        return [from_here(SCRIPTS[0]), *self.trials[name].words, "--result", self.path(name)]

    def run(self, jobs):
        """Runs what isn't done, until no interval is too wide."""
        while True:
            due = self.due()
            print(f"{len(self.trials)} trials, {len(due)} to run", file=sys.stderr)
            self.run_these(due, jobs)
            self.trials = dict(self.made_trials())
            if not self.due():
                return

    def run_these(self, due, jobs):
        """Several at a time; the first that fails ends the study."""
        with ThreadPoolExecutor(jobs) as pool:
            for k, (name, ran) in enumerate(zip(due, pool.map(self.run_trial, due)), 1):
                if ran.returncode:
                    pool.shutdown(cancel_futures=True)
                    sys.exit(f"{name}: {ran.stderr.strip()}")
                if k % 20 == 0 or k == len(due):
                    print(f"{k} of {len(due)}", file=sys.stderr)

    def run_trial(self, name):
        return subprocess.run([sys.executable, *self.command(name)], capture_output=True, text=True, check=False)

    def made_by(self):
        """Sums of all that the rows are of: programs, what each trial reads, settings and scripts."""
        top = os.path.dirname(HERE)
        programs = {self.program, *map(from_here, filter(None, (REPORT, PORT, MAPPER)))}
        read = [path for trial in self.trials.values() for path in trial.inputs]
        parts = {path: "program" if path in programs else "input" for path in read}
        parts |= {self.given: "settings", **dict.fromkeys([*self.words_of()[1], *MAKERS], "script")}
        for path, what in sorted(parts.items(), key=lambda part: ("program script settings input".split().index(part[1]), part[0])):
            whole = os.path.abspath(path)
            inside = what != "program" and Path(whole).is_relative_to(top)
            name = os.path.relpath(whole, top) if inside else os.path.basename(whole)
            unproved = "unproved" if what == "program" and name.endswith("-unproved") else ""
            yield what, name, sum_of(path), self.fewer if what == "settings" else unproved

    def table(self):
        """Writes the rows of all trials into one table, and beside it the sums of what they are of and its own; gives its path."""
        rows = Path(self.folder, "rows.csv")
        lines = [Path(self.path(name)).read_text(encoding="utf-8").splitlines(keepends=True) for name in self.trials]
        rows.write_text("".join([lines[0][0], *(line for found in lines for line in found[1:])]), encoding="utf-8")
        made = [("what", "name", "sha256", "remark"), *self.made_by(), ("rows", rows.name, sha256(rows), "")]
        with open(Path(self.folder, "sums.csv"), "w", encoding="utf-8", newline="") as file:
            csv.writer(file, lineterminator="\n").writerows(made)
        return rows

    def figure_words(self):
        """The words of figures.py after the table's path."""
        rate = self.settings.get("loads_per_second", 1000)
        pdf = ["--pdf"] if self.settings.get("pdf") else []
        return ["--figures", ",".join(self.figures), "--folder", self.folder, "--loads-per-second", str(rate), *pdf, "--force"]


def main():
    parser = argparse.ArgumentParser(prog="python3 -m studies", description=__doc__, formatter_class=argparse.RawDescriptionHelpFormatter)
    parser.add_argument("settings", help="a file of settings, or " + ", ".join(sorted(path.stem for path in Path(HERE).glob("*.yaml"))))
    parser.add_argument("--folder", help="where the results go (default: as the settings say, from here)")
    parser.add_argument("--seeds", type=int, help="how many sets of faults at each rate (default: as the settings say)")
    parser.add_argument("--jobs", type=int, default=os.cpu_count(), help="how many trials at a time (default: %(default)s)")
    parser.add_argument("--print", action="store_true", help="run nothing; write a command for each trial to run, as for GNU parallel")
    add_program(parser)
    parser.set_defaults(program=None)
    args = parser.parse_args()
    if not args.print and find_spec("matplotlib") is None:
        sys.exit("figures want matplotlib, which this python3 hasn't (studies/setup --lean installs it); nothing was run")
    if args.seeds is not None and args.seeds < 1:
        sys.exit("--seeds: at least 1")
    study = Study(args.settings, args.program, args.folder, args.seeds)
    if args.print:
        print("".join(shlex.join(["python3", *study.command(name)]) + "\n" for name in study.due()), end="")
        return
    study.run(args.jobs)
    words = [sys.executable, os.path.join(HERE, "figures.py"), study.table(), *study.figure_words()]
    sys.exit(subprocess.run(words, check=False).returncode)


if __name__ == "__main__":
    main()
