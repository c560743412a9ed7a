"""Tests of the page that view.py makes, in headless Chromium: python3 -m unittest test_view. Skipped where Chromium or Selenium is missing.

Its simulator is compared with `run` on the examples and on random machines, designs and faults; the rest is found, clicked and pressed.
"""

import json
import os
import random
import tempfile
import time
import unittest
from argparse import Namespace
from pathlib import Path
from unittest import mock

import designs
import teramac_texts as texts
from faults import make_faults
from plan import shortage
from program import DEFAULT, HERE, call
from size import compiles
from test_studies import EXAMPLES, random_blif, run
from view import PAGE_LIMIT, View, packed, page_of, walk_of

try:
    from selenium import webdriver
    from selenium.common.exceptions import WebDriverException
    from selenium.webdriver.common.action_chains import ActionChains
    from selenium.webdriver.common.by import By
    from selenium.webdriver.common.keys import Keys
    from selenium.webdriver.chrome.service import Service
except ImportError:
    webdriver = None

TURNS = int(os.environ.get("TURNS", "60")) // 3
READY, FRAME = 1, 0.1  # the most seconds of the processor for the bench machine's page, and for a frame of it
SIMULATED = """
const [data, rows] = [arguments[0], []];
const machine = new Machine(data.counts), names = { inputs: data.inputs, outputs: data.outputs, split: data.split };
return data.scenes.map(sent => {
  const scene = new Scene(machine, sent, names);
  return [new Run(scene, scene.faults, data.vectors, 0, 9).rows, new Run(scene, new Faults(), data.vectors, 0, 9).rows];
});
"""


def spelled(lines):
    """The bytes that lines of a worked example spell: texts behind `|`, digits behind `=`."""
    text = "".join(f"{line[2:]}\n" for line in lines if line.startswith("|"))
    return bytes.fromhex("".join(line[1:] for line in lines if line.startswith("="))) or text.encode()


def worked_readings():
    """Of the worked examples of what pins read: machine, faults, image, vectors, and the rows that have to come."""
    data, files, case = Path(HERE, "../crates/example_cases/data"), {"none": b""}, []
    lines = "".join(Path(data, f"{name}.txt").read_text(encoding="utf-8") for name in ("fixtures", "readings")).splitlines()
    heads = [k for k, line in enumerate(lines) if line[:1] not in ("|", "=", "#", "", "+", "*")]
    for k, last in zip(heads, [*heads[1:], len(lines)]):
        word, *words = lines[k].split(" ")
        body = [line for line in lines[k + 1 : last] if line[:1] in ("|", "=")]
        if word in ("text", "file", "faults"):
            files[words[0]] = spelled(body)
        elif word == "flip":
            at, changed = int(words[1]), bytearray(files[words[0]])
            changed[at] ^= 1
            files[words[2]] = bytes(changed)
        elif word == "words":
            case = words[1:] if words[:1] == ["run"] else []
        elif word == "ends" and words == ["0"] and len(case) == 4 and all(name in files for name in case):
            yield [files[name] for name in case], spelled(body).decode().split()[1:]


def browser():
    """A headless Chromium, or a skip that says why there is none."""
    if webdriver is None:
        raise unittest.SkipTest("no page is tested: python3-selenium isn't there")
    options = webdriver.ChromeOptions()
    for word in ("--headless=new", "--no-sandbox", "--disable-gpu", "--window-size=1500,950"):
        options.add_argument(word)
    options.set_capability("goog:loggingPrefs", {"browser": "ALL"})
    try:
        return webdriver.Chrome(service=Service("/usr/bin/chromedriver"), options=options)
    except (WebDriverException, OSError) as error:
        raise unittest.SkipTest(f"no page is tested: chromium and chromium-driver don't start ({str(error).splitlines()[0]})") from error


class Made:
    """The files of one example: its list, image and rows, and a page of all."""

    def __init__(self, folder, machine, design, faults=None, listed=True):
        self.machine, self.faults = f"{EXAMPLES}/{machine}.machine", f"{EXAMPLES}/{faults or machine}.faults"
        self.design, self.vectors = f"{EXAMPLES}/{design}.blif", f"{EXAMPLES}/{design}.vec"
        self.name = f"{folder}/{machine}-{design}-{listed}"
        found = call(DEFAULT, "diagnose", self.machine, self.faults if listed else b"").defects
        image = call(DEFAULT, "compile", self.machine, found, self.design)
        assert image.status == 0, image.refusal
        self.rows = call(DEFAULT, "run", self.machine, self.faults, image.written, self.vectors).rows
        for end, data in (("defects", found), ("image", image.written), ("rows", b"outputs\n" + b"\n".join(self.rows) + b"\n")):
            Path(f"{self.name}.{end}").write_bytes(data)
        self.words = [self.machine, "--faults", self.faults, "--defects", f"{self.name}.defects", "--image", f"{self.name}.image"]
        self.words += ["--design", self.design, "--vectors", self.vectors, "--rows", f"{self.name}.rows"]

    def page(self, *more):
        ran = run("view.py", *self.words, *more, "-o", f"{self.name}.html")
        assert ran.returncode == 0, ran.stderr
        return f"{self.name}.html"


def view_of(**words):
    """What a page has to show of these files."""
    given = {"faults": [], "defects": [], "image": [], "design": [], "part": [], "vectors": None, "rows": None, "refusal": None}
    given |= {"study": None, "settings": None, "copies": False, "walk": None, "program": DEFAULT}
    return View(Namespace(**(given | words)))


class Page(unittest.TestCase):
    @classmethod
    def setUpClass(cls):
        cls.browser = browser()
        cls.addClassCleanup(cls.browser.quit)
        folder = tempfile.TemporaryDirectory()
        cls.addClassCleanup(folder.cleanup)
        cls.folder = folder.name
        cls.small = Made(cls.folder, "small", "lfsr")
        cls.small.page()

    def setUp(self):
        self.open(f"{self.small.name}.html")

    def tearDown(self):
        self.assertEqual([entry["message"] for entry in self.browser.get_log("browser")], [])

    def open(self, page, place=""):
        self.browser.get("about:blank")
        self.browser.get(f"file://{page}{place}")

    def asked(self, script, *words):
        return self.browser.execute_script(f"return {script}", *words)

    def text(self, name):
        # A frame is waited for, since changes of one moment are shown together.
        self.browser.execute_async_script("requestAnimationFrame(() => requestAnimationFrame(arguments[0]))")
        return self.browser.find_element(By.ID, name).text

    def press(self, *keys):
        self.browser.find_element(By.TAG_NAME, "body").send_keys(*keys)

    def search(self, words):
        box = self.browser.find_element(By.ID, "search")
        box.clear()
        box.send_keys(words, Keys.ENTER, Keys.ESCAPE)

    def test_rows_of_examples(self):
        """On each example the simulator reads what `run` reads, and on a sound machine what `eval` writes."""
        pairs = [("small", name) for name in ("lfsr", "counter", "and", "accumulator")] + [("tiny", "and")]
        pairs += [("processor", "processor"), ("uart", "uart")]
        for machine, design in pairs:
            for listed in (True, False):
                with self.subTest(machine=machine, design=design, listed=listed):
                    try:
                        made = Made(self.folder, machine, design, listed=listed)
                    except AssertionError as error:
                        self.skipTest(f"{machine}, {design}: {error}")
                    files = {"faults": [made.faults], "image": [f"{made.name}.image"], "design": [made.design]}
                    data = view_of(machine=made.machine, vectors=made.vectors, **files).data()
                    [[rows, sound]] = self.browser.execute_script(SIMULATED, json.loads(json.dumps(data)))
                    self.assertEqual(rows, [row.decode() for row in made.rows])
                    self.assertEqual(sound, data["expected"])

    def test_rows_of_example_cases(self):
        """What pins read on machines with faults, as the worked examples have it."""
        count = 0
        for files, rows in worked_readings():
            paths = [os.path.join(self.folder, f"worked{k}") for k in range(4)]
            for path, data in zip(paths, files):
                Path(path).write_bytes(data)
            data = view_of(machine=paths[0], faults=[paths[1]], image=[paths[2]], vectors=paths[3]).data()
            [[found, _]] = self.browser.execute_script(SIMULATED, json.loads(json.dumps(data)))
            self.assertEqual(found, rows)
            count += 1
        self.assertGreater(count, 8)

    def test_rows_of_random_machines(self):
        """Likewise on random faults of all kinds that no list keeps the design from."""
        chance, seen, differ = random.Random(1), 0, 0
        machine = texts.Machine((1, 2, 2, 5, 24, 24, 24, 30, 30, 30, 30, 12))
        for turn in range(TURNS):
            blif = random_blif(chance)
            vectors = designs.random_vectors(texts.read_design(blif.encode()), seed=turn)
            image = compiles(DEFAULT, machine, texts.Defects(), blif.encode())
            if image.status:
                continue
            amounts = {"open": 300, "closed": 6, "wires": 8, "cells": 8, "registers": 4, "bridges": 4}
            faults = texts.faults_text(machine, make_faults(machine, amounts, turn))
            named = {"machine": machine.text, "faults": faults, "image": image.written, "vectors": vectors}
            for name, data in named.items():
                Path(self.folder, name).write_bytes(data if isinstance(data, bytes) else data.encode())
            paths = {name: os.path.join(self.folder, name) for name in named}
            right = [row.decode() for row in call(DEFAULT, "run", *paths.values()).rows]
            data = view_of(machine=paths["machine"], faults=[paths["faults"]], image=[paths["image"]], vectors=paths["vectors"]).data()
            [[rows, sound]] = self.browser.execute_script(SIMULATED, json.loads(json.dumps(data)))
            self.assertEqual(rows, right)
            seen, differ = seen + 1, differ + (rows != sound)
        self.assertGreater(seen, TURNS // 2)
        self.assertGreater(differ, seen // 4)

    def test_names(self):
        """Every number has the name that the texts have, and back; crosspoints have the same ends."""
        machine = texts.Machine((2, 1, 2, 3, 2, 3, 4, 2, 1, 3, 2, 5))
        all_names = "(machine => Array.from({ length: machine.wires }, (_, k) => machine.wireName(k)))(new Machine(arguments[0]))"
        names = self.asked(all_names, machine.counts)
        self.assertEqual(names, machine.names)
        ends = "(machine => Array.from({ length: machine.crosses }, (_, k) => [...machine.ends(k), k]))(new Machine(arguments[0]))"
        found = self.asked(ends, machine.counts)
        self.assertEqual(found, [[*machine.ends(cross), cross] for cross in range(machine.sizes["cross"])])
        back = "const machine = new Machine(arguments[0]); return arguments[1].map(name => machine.part(name)?.[1] ?? -1)"
        wrong = ["r.o0", "m0.p0", "m0.c0.h0.t3", "m2", "m0.l01", "r.l2", "m0.c0.t0"]
        self.assertEqual(self.browser.execute_script(back, machine.counts, names + wrong), [*range(len(names)), *[-1] * len(wrong)])
        crosses = "const machine = new Machine(arguments[0]); return arguments[1].map(([tap, line]) => machine.cross(tap, line))"
        self.assertEqual(self.browser.execute_script(crosses, machine.counts, found), list(range(len(found))))

    def test_search(self):
        for words, said in (
            ("open r.p2 r.l5", "crosspoint"),
            ("wire r.l3", "stuck at 0"),
            ("cell m0.c0.h1.t3 17 1", "cell 17 always gives 1"),
            ("doubt table m0.c1.h1.t0", "register always gives 0"),
            ("m0.c1", "chip m0.c1"),
            ("refused noroom lines m0 3 2 0 1 2", "module m0"),
            ("q[2]" if "q[2]" in self.asked("viewer.names.outputs") else self.asked("viewer.names.outputs")[0], "net "),
        ):
            self.search(words)
            self.assertIn(said, self.text("selected"), words)
            self.assertIn("pick=", (time.sleep(0.4), self.browser.current_url)[1])
        self.search("no such part")
        self.assertIn("missed", self.browser.find_element(By.ID, "search").get_attribute("class"))

    def test_address(self):
        """A page opened at an address shows what it says."""
        self.open(f"{self.small.name}.html", "#pick=r.l3&at=1,2,9&cycle=5&hide=open&values=1")
        self.assertIn("wire r.l3", self.text("selected"))
        found = self.asked("[viewer.painter.view, viewer.state.cycle, [...viewer.state.hidden], viewer.state.showsValues]")
        self.assertEqual(found, [{"x": 1, "y": 2, "scale": 9}, 5, ["open"], True])

    def test_mouse(self):
        """A click chooses the part there, the wheel goes nearer around the pointer, and a drag moves."""
        self.browser.execute_script("viewer.painter.view = { x: 0, y: 0, scale: 10 }; viewer.refresh()")
        picture = self.browser.find_element(By.ID, "picture")
        cross = self.asked("(({ x, y }) => [x, y])(placeOfCross(viewer.machine, viewer.meaning('r.p2 r.l5')[1]))")
        at = [round(10 * place - picture.size[side] / 2) for place, side in zip(cross, ("width", "height"))]
        ActionChains(self.browser).move_to_element_with_offset(picture, *at).click().perform()
        self.assertIn("never conducts", self.text("selected"))
        before = self.asked("viewer.painter.view")
        ActionChains(self.browser).move_to_element_with_offset(picture, 0, 0).click_and_hold().move_by_offset(50, 30).release().perform()
        self.text("selected")
        after = self.asked("viewer.painter.view")
        self.assertAlmostEqual(before["x"] - after["x"], 5, 1)
        self.assertAlmostEqual(before["y"] - after["y"], 3, 1)
        wheel = "document.getElementById('picture').dispatchEvent(new WheelEvent('wheel', { deltaY: -200, clientX: 300, clientY: 200 }))"
        self.browser.execute_script(wheel)
        nearer = self.asked("viewer.painter.view")
        self.assertGreater(nearer["scale"], after["scale"])
        self.assertAlmostEqual(nearer["x"] + 300 / nearer["scale"], after["x"] + 300 / after["scale"], 3)

    def test_keys(self):
        self.press("0")
        whole = self.asked("viewer.painter.view")
        self.press("+", Keys.ARROW_RIGHT)
        near = self.asked("viewer.painter.view")
        self.assertGreater(near["scale"], whole["scale"])
        self.press("0", "..", ",", "v", "n")
        self.assertEqual(self.asked("[viewer.state.cycle, viewer.state.showsValues, viewer.chosenNet()]"), [1, True, 0])
        self.assertIn("net ", self.text("selected"))
        self.press(Keys.ESCAPE, "?")
        self.assertIn("Keys".upper(), self.text("help").upper())
        self.assertIsNone(self.asked("viewer.state.selection"))

    def test_causes(self):
        """The small machine's seven faults by cause, and a switch for each."""
        counts = self.asked("viewer.scene.marks.counts()")
        self.assertEqual(counts, {"stuck0": 1, "stuck1": 1, "bridge": 2, "short": 1, "open": 1, "closed": 1, "cell": 1, "register": 1})
        button = self.browser.find_element(By.CSS_SELECTOR, "[data-cause=open]")
        self.assertIn("1", button.text)
        button.click()
        self.text("causes")
        self.assertEqual(self.asked("[...viewer.state.hidden]"), ["open"])
        self.assertEqual(self.browser.find_element(By.CSS_SELECTOR, "[data-cause=open]").get_attribute("aria-pressed"), "false")

    def test_why(self):
        """A listed wire that isn't stuck says by which faults it hangs on which other."""
        self.search("m0.o1")
        self.assertIn("It is listed since it is one with r.l7, which stays free, by closed m0.o1 r.l7.", self.text("selected"))
        self.search("r.l3")
        self.assertIn("since it is stuck at 0", self.text("selected"))

    def test_nets(self):
        """A net is a tree of words from what drives it to each reader; wires and crosspoints are those of the image."""
        machine = texts.read_text(texts.read_machine, self.small.machine)
        image = texts.read_text(texts.read_image, f"{self.small.name}.image", machine)
        net_of = image.net_of(machine)
        nets = self.asked("viewer.scene.nets.map(net => net.wires)")
        self.assertEqual({wire: number for number, wires in enumerate(nets) for wire in wires}, net_of)
        self.browser.find_elements(By.CSS_SELECTOR, "#nets .nets a")[0].click()
        said = self.text("selected")
        for wire in nets[0]:
            self.assertIn(machine.names[wire], said)

    def test_cycles(self):
        """Rows are those of eval and run; an input that is turned, and a fault that is put off, are simulated anew."""
        self.assertIn("all rows are those of eval; all rows are those of run", self.text("row-words"))
        self.assertIn("All nets read as on a sound machine.", self.text("nets"))
        made = Made(self.folder, "small", "lfsr", listed=False)
        self.open(made.page())
        differ = [k for k, row in enumerate(made.rows) if row.decode() != self.asked("viewer.data.expected")[k]]
        said = self.text("row-words")
        self.assertIn(f"differ from eval, the first in cycle {differ[0]}" if differ else "all rows are those of eval", said)
        self.assertIn("all rows are those of run", said)
        origin = self.asked("viewer.differs.origin ?? -1")
        if differ:
            self.assertGreaterEqual(origin, 0)
            self.assertLessEqual(self.asked("viewer.differs.cycle"), differ[0])
        self.browser.execute_script("viewer.turnInput(0, 0)")
        self.assertIn("inputs were changed", self.text("row-words"))

    def test_ticks(self):
        """After all ticks of a cycle the state is the settled one."""
        self.press("..")
        same = """const { scene, vectors, state, run } = viewer;
            const end = runToTick(scene, scene.faults, vectors, state.cycle, scene.image.ticks);
            return run.wires.every(wire => end.wire(wire, state.cycle) === run.wire(wire, state.cycle));"""
        self.assertTrue(self.browser.execute_script(same))
        self.press(">")
        self.assertIn("after tick 0", self.text("tick-words"))

    def test_two(self):
        """Two images side by side and as a difference: what is closed in one alone is marked."""
        later = self.small.name + "-later"
        worse = Path(self.small.faults).read_text(encoding="utf-8") + "stuck1 m0.l3\nstuck0 m0.c0.l1\n"
        found = call(DEFAULT, "diagnose", self.small.machine, worse.encode()).defects
        again = call(DEFAULT, "repair", self.small.machine, found, f"{self.small.name}.image")
        self.assertEqual(again.status, 0)
        Path(f"{later}.image").write_bytes(again.written)
        Path(f"{later}.defects").write_bytes(found)
        words = list(self.small.words)
        words[words.index("--image") + 2 : words.index("--image") + 2] = [f"{later}.image"]
        words[words.index("--defects") + 2 : words.index("--defects") + 2] = [f"{later}.defects"]
        self.assertEqual(run("view.py", *words, "-o", f"{later}.html").returncode, 0)
        self.open(f"{later}.html", "#show=difference")
        machine = texts.read_text(texts.read_machine, self.small.machine)
        one, other = (set(texts.read_text(texts.read_image, f"{name}.image", machine).crosses) for name in (self.small.name, later))
        counts = self.asked("[...viewer.scene.marks.kinds.cross.values()].map(mark => mark.causes[0])")
        self.assertEqual([counts.count(name) for name in ("gone", "come", "both")], [len(one - other), len(other - one), len(one & other)])
        self.browser.find_element(By.CSS_SELECTOR, "[data-show=both]").click()
        self.text("nets")
        self.assertEqual(self.asked("viewer.shown.length"), 2)

    def test_pair(self):
        """Two designs on one image are told apart by what hangs on their pins."""
        blif = ".model top\n.inputs a b c d\n.outputs e f\n.subckt one x=a y=b z=e\n.subckt two x=c y=d z=f\n.end\n"
        parts = {"one": ".names x y z\n11 1\n", "two": ".names x y w\n10 1\n.latch w z 0\n"}
        for name, body in parts.items():
            parts[name] = f".model {name}\n.inputs x y\n.outputs z\n{body}.end\n"
            Path(self.folder, f"{name}.blif").write_text(parts[name], encoding="utf-8")
        machine = texts.read_text(texts.read_machine, self.small.machine)
        image = compiles(DEFAULT, machine, texts.Defects(), (blif + "".join(parts.values())).encode())
        self.assertEqual(image.status, 0)
        Path(self.folder, "pair.image").write_bytes(image.written)
        Path(self.folder, "pair.vec").write_text("0011\n1110\n1010\n1111\n", encoding="utf-8")
        words = [self.small.machine, "--image", f"{self.folder}/pair.image", "--vectors", f"{self.folder}/pair.vec"]
        words += ["--design", f"{self.folder}/one.blif", f"{self.folder}/two.blif"]
        ran = run("view.py", *words, "-o", f"{self.folder}/pair.html")
        self.assertEqual(ran.returncode, 0, ran.stderr)
        self.open(f"{self.folder}/pair.html")
        found = self.asked("viewer.scene.nets.map(net => [net.name, net.design])")
        self.assertEqual(sorted(map(tuple, found))[-6:], sorted([("x", 0), ("y", 0), ("z", 0), ("x", 1), ("y", 1), ("z", 1)]))
        self.assertIn("all rows are those of eval", self.text("row-words"))

    def test_twice(self):
        """Two copies of a design are told apart, driven alike and compared: where they differ the page names the cycle."""
        design, vectors = f"{EXAMPLES}/counter.blif", f"{EXAMPLES}/counter.vec"
        self.assertEqual(run("both.py", design, "-o", f"{self.folder}/both.blif").returncode, 0)
        machine = texts.read_text(texts.read_machine, self.small.machine)
        image = compiles(DEFAULT, machine, texts.Defects(), Path(self.folder, "both.blif").read_bytes())
        self.assertEqual(image.status, 0)
        Path(self.folder, "both.image").write_bytes(image.written)
        # The second copy's first output pin is stuck, which nothing of the first copy meets.
        pin = machine.names[texts.read_image(machine, image.written).outputs[2]]
        Path(self.folder, "both.faults").write_text(f"stuck0 {pin}\n", encoding="utf-8")
        rows = call(DEFAULT, "eval", design, vectors).rows
        Path(self.folder, "both.rows").write_bytes(b"outputs\n" + b"\n".join(rows[:1]) + b"\nrefused differ\n")
        words = [self.small.machine, "--image", f"{self.folder}/both.image", "--vectors", vectors, "--design", design, "--copies"]
        words += ["--faults", f"{self.folder}/both.faults", "--rows", f"{self.folder}/both.rows"]
        self.assertEqual(run("view.py", *words, "-o", f"{self.folder}/both.html").returncode, 0)
        self.open(f"{self.folder}/both.html")
        names = [name for name, _ in self.asked("viewer.scene.nets.map(net => [net.name, net.design])")]
        self.assertTrue({"high", "low", "up", "high'", "low'", "up'"} <= set(names), names)
        self.assertEqual({net for net, copy in self.asked("viewer.scene.nets.map(net => [net.name, net.design])") if copy} & {"up", "up'"}, {"up'"})
        first = next(k for k, row in enumerate(rows) if row[:1] == b"1")
        self.assertIn(f"the copies differ in cycle {first}", self.text("row-words"))
        before = self.asked("viewer.vectors[0]")
        self.asked("(viewer.turnInput(1, 0), 1)")
        self.assertEqual(self.asked("viewer.vectors[0]"), "".join("10"[int(bit)] for bit in before))
        self.assertNotEqual(run("view.py", self.small.machine, "--copies", "-o", f"{self.folder}/none.html").returncode, 0)

    def test_walk(self):
        """A walk begins at its first step; a button goes to the next one, and to its cycle."""
        Path(self.folder, "steps").write_text("r.l3: a line\nq[0] @5: a net\nm0.c0: a chip\n", encoding="utf-8")
        ran = run("view.py", *self.small.words, "--walk", f"{self.folder}/steps", "-o", f"{self.folder}/walk.html")
        self.assertEqual(ran.returncode, 0, ran.stderr)
        self.open(f"{self.folder}/walk.html")
        self.assertIn("a line", self.text("walk"))
        self.assertEqual(self.asked("viewer.state.selection"), {"kind": "wire", "at": 19})
        on, back = (f"[data-do={deed}]" for deed in ("step-on", "step-back"))
        self.browser.find_element(By.CSS_SELECTOR, on).click()
        self.assertIn("2 of 3", self.text("walk"))
        self.assertEqual(self.asked("[viewer.state.cycle, viewer.state.selection.kind, viewer.state.showsValues]"), [5, "net", True])
        for step, deed in ((3, on), (3, on), (2, back)):
            self.browser.find_element(By.CSS_SELECTOR, deed).click()
            self.assertIn(f"{step} of 3", self.text("walk"))
        ran = run("view.py", self.small.machine, "--walk", f"{self.small.name}.rows")
        self.assertIn("isn't PLACE: words", ran.stderr)

    def test_study(self):
        """The runs of a study, failed ones first; a click shows the faults of that run, made anew."""
        rows = f"{self.folder}/rows.csv"
        words = [self.small.machine, f"{self.small.design}:{self.small.vectors}", "--kind", "open", "--rate", "0.3", "--seed", "4"]
        self.assertEqual(run("trial.py", *words, "--lists", "exact", "--report", "", "-o", rows).returncode, 0)
        self.assertEqual(run("view.py", self.small.machine, "--study", rows, "-o", f"{self.folder}/study.html").returncode, 0)
        self.open(f"{self.folder}/study.html")
        self.browser.find_element(By.CSS_SELECTOR, "[data-show='run 0']").click()
        self.text("study")
        machine = texts.read_text(texts.read_machine, self.small.machine)
        self.assertEqual(self.asked("viewer.scene.marks.counts().open"), make_faults(machine, {"open": 0.3}, 4).count)
        self.browser.find_element(By.CSS_SELECTOR, "[data-show=overlay]").click()
        self.text("study")
        self.assertEqual(self.asked("viewer.state.show"), "overlay")

    def test_sets_of_faults(self):
        """Several sets of faults: how many parts are lost in one of them, and in half or more."""
        machine, lost = texts.read_text(texts.read_machine, self.small.machine), []
        for seed in range(5):
            faults = make_faults(machine, {"open": 0.1}, seed)
            Path(self.folder, f"set{seed}").write_text(texts.faults_text(machine, faults), encoding="utf-8")
            lost += faults["open"]
        ran = run("view.py", self.small.machine, "--faults", *(f"{self.folder}/set{k}" for k in range(5)), "-o", f"{self.folder}/sets.html")
        self.assertEqual(ran.returncode, 0, ran.stderr)
        self.open(f"{self.folder}/sets.html")
        self.browser.find_element(By.CSS_SELECTOR, "[data-show=overlay]").click()
        self.text("summary")
        times = [lost.count(cross) for cross in set(lost)]
        right = {"seldom": times.count(1), "often": times.count(2), "mostly": sum(count > 2 for count in times)}
        self.assertEqual(self.asked("viewer.scene.marks.counts()"), {name: count for name, count in right.items() if count})

    def test_images(self):
        """Several images: how many crosspoints and tables one of them uses, several, and half or more."""
        machine, used, words = texts.read_text(texts.read_machine, self.small.machine), [], []
        for seed in range(5):
            defects = texts.exact_list(machine, make_faults(machine, {"open": 0.1}, seed))
            image = compiles(DEFAULT, machine, defects, self.small.design)
            Path(self.folder, f"laid{seed}").write_bytes(image.written)
            read = texts.read_image(machine, image.written)
            used += [("cross", cross) for cross in read.crosses] + [("table", table) for table, *_ in read.tables]
            used += [("wire", wire) for wire in read.net_of(machine)]
            words.append(f"{self.folder}/laid{seed}")
        ran = run("view.py", self.small.machine, "--image", *words, "--design", self.small.design, "-o", f"{self.folder}/laid.html")
        self.assertEqual(ran.returncode, 0, ran.stderr)
        self.open(f"{self.folder}/laid.html")
        self.browser.find_element(By.CSS_SELECTOR, "[data-show=used]").click()
        self.text("summary")
        times = [used.count(part) for part in set(used)]
        right = {"once": times.count(1), "several": times.count(2), "most": sum(count > 2 for count in times)}
        self.assertEqual(self.asked("viewer.scene.marks.counts()"), {name: count for name, count in right.items() if count})

    def test_speed(self):
        """The bench machine with 3 % of its crosspoints open is ready in time, and no frame from afar to near takes too long."""
        machine = texts.read_text(texts.read_machine, f"{HERE}/bench.machine")
        Path(self.folder, "bench.faults").write_text(texts.faults_text(machine, make_faults(machine, {"open": 0.03}, 1)), encoding="utf-8")
        ran = run("view.py", f"{HERE}/bench.machine", "--faults", f"{self.folder}/bench.faults", "-o", f"{self.folder}/bench.html")
        self.assertEqual(ran.returncode, 0, ran.stderr)
        self.assertLess(os.path.getsize(f"{self.folder}/bench.html"), PAGE_LIMIT)
        self.browser.execute_cdp_cmd("Performance.enable", {"timeDomain": "threadTicks"})
        self.open(f"{self.folder}/bench.html")
        self.assertLess(self.seconds(), READY)
        for power in range(22):
            before = self.seconds()
            frame = f"""viewer.painter.view = {{ x: 100, y: 60, scale: {0.1 * 1.3**power} }};
                viewer.painter.paint(viewer.shown, viewer.state);"""
            self.browser.execute_script(frame)
            self.assertLess(self.seconds() - before, FRAME, f"at {0.1 * 1.3**power} points a crosspoint")

    def seconds(self):
        """The time of the processor that the page's thread has taken."""
        metrics = self.browser.execute_cdp_cmd("Performance.getMetrics", {})["metrics"]
        return next(metric["value"] for metric in metrics if metric["name"] == "TaskDuration")


class Words(unittest.TestCase):
    """What needs no browser."""

    def test_shortage(self):
        """The nets that a refusal names are as many as it says are wanted, and as many lines serve one of them as it says are there."""
        chance, seen = random.Random(2), 0
        for turn in range(10 * TURNS):
            counts = [1, 2, 2, 3, *(chance.randint(5, 9) for _ in range(3)), *(chance.randint(3, 7) for _ in range(4)), 10]
            machine, design = texts.Machine(counts), random_blif(chance).encode()
            faults = make_faults(machine, {"open": 0.08, "wires": 2}, turn)
            defects = texts.exact_list(machine, faults)
            refusal = compiles(DEFAULT, machine, defects, design).refusal
            if refusal[1:3] != ["noroom", "lines"]:
                continue
            read = texts.read_design(design)
            found = shortage(machine, defects, designs.plain_network(read), ["".join(signal) for signal in read.inputs], refusal)
            serving = {line for net in found["nets"] for line in net["serving"]}
            self.assertEqual([len(found["nets"]), len(serving)], [int(word) for word in refusal[4:6]])
            seen += 1
        self.assertGreater(seen, TURNS)

    def test_shortage_of_copies(self):
        """The same of what `twice` says, whose nets are those of two copies."""
        chance, seen = random.Random(3), 0
        for turn in range(6 * TURNS):
            counts = [1, 1, 2, 6, *(chance.randint(8, 12) for _ in range(3)), *(chance.randint(4, 9) for _ in range(4)), 18]
            machine, design = texts.Machine(counts), random_blif(chance, covers=3, latches=1).encode()
            faults = texts.faults_text(machine, make_faults(machine, {"open": 0.03}, turn)).encode()
            answer = call(DEFAULT, "twice", machine.text.encode(), faults, design, b"")
            if answer.refusal[1:3] != ["noroom", "lines"]:
                continue
            read = texts.read_design(design)
            network = designs.side_by_side([designs.plain_network(read)] * 2)
            names = [f"{k}{''.join(signal)}" for k in range(2) for signal in read.inputs]
            found = shortage(machine, texts.read_defects(machine, answer.defects), network, names, answer.refusal)
            serving = {line for net in found["nets"] for line in net["serving"]}
            self.assertEqual([len(found["nets"]), len(serving)], [int(word) for word in answer.refusal[4:6]])
            seen += 1
        self.assertGreater(seen, TURNS // 4)

    def test_large(self):
        """A page that would be too long has the crosspoints of named parts, counts of all others, and says so."""
        machine = texts.Machine((2, 2, 4, 8, 24, 24, 24, 32, 32, 32, 32, 28))
        faults = make_faults(machine, {"open": 0.3}, 1)
        with tempfile.TemporaryDirectory() as folder:
            for name, text in (("machine", machine.text), ("faults", texts.faults_text(machine, faults))):
                Path(folder, name).write_text(text, encoding="utf-8")
            given = {"machine": f"{folder}/machine", "faults": [f"{folder}/faults"], "part": ["m0.c1"]}
            with mock.patch("view.PAGE_LIMIT", 100):
                page = view_of(**given).page()
            data = json.loads(page.split('id="data">')[1].split("</script>")[0])
        inside = [cross for cross in faults["open"] if machine.node_of_cross(cross).name.startswith("m0.c1")]
        [scene] = data["scenes"]
        self.assertEqual(scene["faults"]["open"], packed(sorted(inside)))
        self.assertEqual(sum(of["open"] for of in scene["counted"].values()), len(faults["open"]) - len(inside))
        self.assertIn("m0.c1, and of all others how many are bad", " ".join(data["left"]))

    def test_walks(self):
        """Each step of the walk that is ready to open names a part of the machine or a net, and what it says stands on the page."""
        machine = texts.read_text(texts.read_machine, f"{EXAMPLES}/tiny.machine")
        text = Path(HERE, "../docs/pages/tiny.html").read_text(encoding="utf-8")
        steps = walk_of(Path(HERE, "../docs/pages/tiny.walk"))
        self.assertEqual(json.loads(text.split('id="data">')[1].split("</script>")[0])["walk"], steps)
        known = {*machine.names, *machine.table_names, *(node.name for node in machine.nodes), "a", "b", "y", "open"}
        self.assertEqual([step["place"] for step in steps if not set(step["place"].split()) <= known], [])

    def test_pages(self):
        """The pages that are ready to open have the scripts of today, and are within the limit."""
        code = page_of({}).split("<script>")[1]
        for page in Path(HERE, "../docs/pages").glob("*.html"):
            text = page.read_text(encoding="utf-8")
            self.assertLess(len(text), PAGE_LIMIT)
            self.assertEqual(text.split("<script>")[1], code, f"{page}: make it anew by make.sh there")

    def test_refuses_in_one_line(self):
        for words, said in (
            (("and.blif",), "refused machine 1 word"),
            (("tiny.machine", "--defects", "tiny.faults"), "refused defects 1 word"),
            (("tiny.machine", "--part", "m7"), "m7 is no node"),
            (("tiny.machine", "--refusal", "refused rig"), "--refusal: a line"),
        ):
            ran = run("view.py", *words)
            self.assertIn(said, ran.stderr)
            self.assertEqual(("Traceback" in ran.stderr, ran.returncode > 0), (False, True))
