"""Tests of a study on several machines: python3 -m unittest. They want the built program; those of Snakemake are skipped without it."""

import os
import shutil
import subprocess
import tempfile
import unittest
import unittest.mock
from pathlib import Path

import study
from program import DEFAULT, HERE
from test_studies import EXAMPLES, run

SNAKEMAKE = shutil.which("snakemake")
TOP = os.path.dirname(HERE)


def files_of_the_source():
    """All files of the repository's folders that studies read, without what Python keeps of scripts."""
    found = (path for name in ("studies", "examples", "ends") for path in Path(TOP, name).rglob("*"))
    return {path for path in found if "__pycache__" not in path.parts}


class Several(unittest.TestCase):
    def setUp(self):
        folder = tempfile.TemporaryDirectory()
        self.addCleanup(folder.cleanup)
        self.folder, before = Path(folder.name), files_of_the_source()
        self.addCleanup(lambda: self.assertEqual(files_of_the_source(), before))
        self.write(self.folder)

    def write(self, folder):
        """Settings with two trials, and what they name."""
        folder.mkdir(exist_ok=True)
        for name in ("and.blif", "and.vec", "tiny.machine"):
            (folder / name).write_bytes(Path(EXAMPLES, name).read_bytes())
        lines = [f"machines: [{folder}/tiny.machine]", f'designs: {{"{folder}/and.blif": "{folder}/and.vec"}}', "lists: [exact]"]
        lines += ["seeds: 1", "folder: out", "kinds: [open]", 'rates: ["0.0", "0.02"]', "figures: [fits]"]
        (folder / "s.yaml").write_text("\n".join(lines), encoding="utf-8")

    def study(self, *words, folder=None):
        ran = run("__main__.py", "s.yaml", "--program", DEFAULT, *words, cwd=folder or self.folder)
        self.assertEqual(ran.returncode, 0, ran.stderr)
        return ran.stdout

    def snakemake(self, *words, **more):
        given = ["-s", f"{HERE}/yield.smk", "--config", "settings=s.yaml", f"program={DEFAULT}"]
        return subprocess.run([SNAKEMAKE, *words, *given], cwd=self.folder, capture_output=True, text=True, check=False, **more)

    def test_commands_for_other_machines(self):
        """Each line is a command for a shell; with what they made nothing is left, and where they ran decides nothing."""
        lines = self.study("--print").splitlines()
        self.assertEqual(len(lines), 2)
        ran = subprocess.run(["sh", "-ec", lines[0]], cwd=self.folder, check=False)
        self.assertEqual((ran.returncode, self.study("--print").splitlines()), (0, lines[1:]))
        made = [path.name for path in (self.folder / "out/trials").iterdir()]
        self.assertEqual(len(made), 1)
        other = self.folder / "elsewhere"
        self.write(other)
        self.assertIn(f" --result out/trials/{made[0]}", self.study("--print", folder=other))
        shutil.copytree(self.folder / "out", other / "out")
        self.assertEqual(len(self.study("--print", folder=other).splitlines()), 1)

    @unittest.skipUnless(shutil.which("parallel"), "parallel isn't there")
    def test_gnu_parallel(self):
        lines = self.study("--print")
        subprocess.run(["parallel", "-j1", "--workdir", "."], input=lines, cwd=self.folder, text=True, capture_output=True, check=True)
        self.assertEqual((len(list((self.folder / "out/trials").iterdir())), self.study("--print")), (2, ""))

    def test_what_decides_is_in_the_name(self):
        """Words, what is in the files, and the scripts; where cycles are counted, also those that count them."""
        path = self.folder / "and.vec"

        def name(word="1", scripts=()):
            study.sum_of.cache_clear()
            return study.Trial("t", lambda of: ["--rate", word, of(str(path))], scripts).file

        first = name()
        self.assertEqual((first, first[:2]), (name(), "t."))
        self.assertEqual(len({first, name("2"), name(scripts=[HERE + "/trial.py"]), path.write_text("# other\n") and name()}), 4)
        with unittest.mock.patch.object(study, "PORT", DEFAULT):
            for figures, counted in (("[fits]", False), ("[loads]", True)):
                settings = (self.folder / "s.yaml").read_text(encoding="utf-8").replace("[fits]", figures)
                (self.folder / "l.yaml").write_text(settings.replace("folder: out", f"folder: {self.folder}/out"), encoding="utf-8")
                found = study.Study(str(self.folder / "l.yaml"), DEFAULT)
                words = next(iter(found.trials.values())).words
                self.assertEqual((found.words_of()[1][5:] == study.COST, words[words.index("--port") + 1] != ""), (counted, counted))
        run("../ends/make.py", "c", "tiny.machine", "-o", str(self.folder / "end"), "--sources")
        copied = {file.name for file in (self.folder / "end").iterdir()} - {"board.h", "build"}
        self.assertEqual(({"port.c", "host.h"}, set()), (copied, copied - {os.path.basename(file) for file in study.COST}))

    @unittest.skipUnless(SNAKEMAKE, "snakemake isn't there")
    def test_snakemake(self):
        """It takes what study.py left undone, by a dry run and by a queue; what one engine has made the other takes."""
        subprocess.run(["sh", "-ec", self.study("--print").splitlines()[0]], cwd=self.folder, check=True)
        dry = self.snakemake("-n", "--cores", "1")
        self.assertRegex(dry.stdout, r"\ntrial +1 ")
        ran = self.snakemake("--cluster", "sh", "--jobs", "1", "--latency-wait", "5", "--until", "table")
        self.assertEqual((ran.returncode, self.study("--print")), (0, ""), ran.stderr)
        self.assertEqual(len((self.folder / "out/rows.csv").read_text(encoding="utf-8").splitlines()), 3)

    @unittest.skipUnless(SNAKEMAKE, "snakemake isn't there")
    def test_a_cancelled_job_is_found(self):
        """By the profile for Slurm, whose commands are stand-ins here: the first job is lost, and both trials are in one job."""
        lost = '[ "$k" = 1 ] || sh "$last" > log.$k 2>&1'
        self.stand_in("sbatch", f'echo >> jobs; k=$(wc -l < jobs); for last; do :; done; {lost}; echo "$k"')
        self.stand_in("scontrol", 'state=COMPLETED; [ "$4" != 1 ] || state=CANCELLED; echo "JobId=$4 JobState=$state Reason=None"')
        path = f"{self.folder}:{os.environ['PATH']}"
        ran = self.snakemake("--profile", f"{HERE}/slurm", "--until", "table", env={**os.environ, "PATH": path})
        self.assertEqual((ran.returncode, self.study("--print")), (0, ""), ran.stderr)
        self.assertEqual((self.folder / "jobs").read_text(), "\n\n")

    def stand_in(self, name, line):
        (self.folder / name).write_text(f"#!/bin/sh\n{line}\n")
        (self.folder / name).chmod(0o755)

    def test_what_is_asked_of_slurm(self):
        for answer, said in (
            ("JobId=7 JobState=PENDING Reason=None", "running"),
            ("JobId=7 JobState=RUNNING Reason=None", "running"),
            ("JobId=7 JobState=COMPLETING Reason=None", "running"),
            ("JobId=7 JobState=COMPLETED Reason=None", "success"),
            ("JobId=7 JobState=CANCELLED Reason=None", "failed"),
            ("JobId=7 JobState=OUT_OF_MEMORY Reason=OutOfMemory", "failed"),
            ("JobId=7 JobState=TIMEOUT Reason=TimeLimit", "failed"),
            ("JobId=7 JobState=NODE_FAIL Reason=None", "failed"),
            ("slurm_load_jobs error: Invalid job id specified", "failed"),
            ("slurm_load_jobs error: Unable to contact slurm controller (connect failure)", "running"),
        ):
            self.stand_in("scontrol", f"echo '{answer}'")
            ran = run("slurm/status", "7", command="sh", env={**os.environ, "PATH": f"{self.folder}:{os.environ['PATH']}"})
            self.assertEqual(ran.stdout, f"{said}\n", answer)


if __name__ == "__main__":
    unittest.main()
