"""Tests that docs/STUDIES.md says what the rows beside its figures bear, and that said.py finds where it doesn't: python3 -m unittest."""

import csv
import hashlib
import tempfile
import unittest
from itertools import product
from pathlib import Path

import said
from trial import COLUMNS

ROW = {"machine": "m", "crosspoints": 100, "kind": "open", "design": "d", "list": "exact", "status": 0}
TEXT = """# Title

With open crosspoints 3 of 4 runs are right at 10 % [a1]. No number here.

| | Study | Rows | What | Value |
|---|---|---|---|---|
| a1 | some | `rate=0.1 list=exact` | right | {value} |

## References

Of 1956.
"""


class Said(unittest.TestCase):
    def test_the_text_is_borne_by_its_rows(self):
        self.assertEqual(list(said.wrong(said.TEXT.read_text(encoding="utf-8"))), [])

    def test_each_figure_has_its_rows_and_sums(self):
        text = said.TEXT.read_text(encoding="utf-8")
        for folder in said.FOLDER.iterdir():
            self.assertEqual(list(said.changed(folder)), [])
            self.assertIn(f"studies/{folder.name}/", text)
            for row in said.sums_of(folder):
                self.assertEqual((len(row["sha256"]), row["what"] in ("program", "script", "settings", "input", "rows")), (64, True))
            for figure in folder.glob("*.svg"):
                self.assertTrue(figure.with_suffix(".csv").exists())


class Made(unittest.TestCase):
    """Of rows and a text made here."""

    def setUp(self):
        folder = tempfile.TemporaryDirectory()
        self.addCleanup(folder.cleanup)
        self.folder = Path(folder.name)
        (self.folder / "some").mkdir()
        self.write([{"seed": seed, "rate": 0.1, "status": 3 if seed == 4 else 0} for seed in range(1, 5)])

    def write(self, rows):
        """A study's rows with the sum of them, read anew by what is called then."""
        path = self.folder / "some/rows.csv"
        with path.open("w", encoding="utf-8", newline="") as file:
            writer = csv.DictWriter(file, COLUMNS, restval="", lineterminator="\n")
            writer.writeheader()
            writer.writerows({**ROW, **row} for row in rows)
        told = hashlib.sha256(path.read_bytes()).hexdigest()
        (self.folder / "some/sums.csv").write_text(f"what,name,sha256,remark\nrows,rows.csv,{told},\n")
        said.rows_of.cache_clear()

    def wrong(self, text):
        return list(said.wrong(text, self.folder))

    def test_what_is_so_is_let_pass(self):
        self.assertEqual(self.wrong(TEXT.format(value="3 of 4 (0.30-0.95)")), [])

    def test_another_number_is_found(self):
        text = TEXT.format(value="3 of 4 (0.30-0.95)")
        self.assertIn("17: ", self.wrong(text.replace("3 of 4 runs", "17 of 4 runs"))[0])
        self.assertIn("40: ", self.wrong(text.replace("10 %", "40 %"))[0])
        self.assertIn("3, 4, 10: ", self.wrong(text.replace(" [a1]", ""))[0])
        self.assertIn("a mark without a line", self.wrong(text.replace("here.", "here [a2]."))[0])

    def test_other_rows_are_found(self):
        self.write([{"seed": seed, "rate": 0.1} for seed in range(1, 5)])
        self.assertIn("a1: 3 of 4 (0.30-0.95), and by the rows 4 of 4 (0.51-1.00)", self.wrong(TEXT.format(value="3 of 4 (0.30-0.95)")))

    def test_rows_without_their_sum_are_found(self):
        with (self.folder / "some/rows.csv").open("a", encoding="utf-8") as file:
            file.write("\n")
        self.assertIn("another sum", self.wrong(TEXT.format(value="3 of 4 (0.30-0.95)"))[-1])

    def test_sums(self):
        rows = []
        for rate, loads in ((0.0, 10), (0.1, 25)):
            for machine, spare, kind in product("mn", (0.0, 0.5), ("exact", "diagnosed")):
                row = {"seed": 1, "rate": rate, "machine": machine, "spare": spare, "list": kind, "loads": loads, "loads_sweep": 5}
                rows.append(row if spare or kind == "diagnosed" else {**row, "status": 3, "refusal": "noroom lines m0.c0"})
        self.write(rows)
        for conditions, what, value in (
            ("list=exact rate=0.1", "right from spare", "0.5: 2 of 2 (0.34-1.00)"),
            ("list=exact rate=0.1", "right by machine,spare", "0 of 1 .. 1 of 1"),
            ("list=diagnosed", "times loads at rate=0.1/0.0 by machine", "2.5"),
            ("list=diagnosed rate>=0.1", "share loads_sweep/loads", "0.2"),
            ("list=diagnosed", "mean loads by rate", "10 .. 25"),
            ("rate=0.1 spare=0.0", "pairs diagnosed exact", "both 0, first alone 2, second alone 0, none 0; p = 0.5"),
            ("spare=0.0", "pairs diagnosed exact", "both 0, first alone 4, second alone 0, none 0; p = 0.12"),
            ("rate=0.1", "short", "lines of chips 2"),
            ("rate<=0.1", "values machine", "m n"),
            ("rate=0.1", "sets", "1"),
            ("rate=0.2", "right", "no row"),
        ):
            self.assertEqual(said.value_of("some", conditions, what, self.folder), value, what)


if __name__ == "__main__":
    unittest.main()
