"""Tests that bench/charts draws each table of bench/results as the committed pictures show it, and
what the programs that draw pictures or generate rows print if their arguments are wrong."""
import csv
import subprocess
import tempfile
import unittest
from pathlib import Path
from xml.etree import ElementTree

TOP = Path(__file__).resolve().parent.parent.parent
RESULTS = TOP / "bench" / "results"
SVG = "{http://www.w3.org/2000/svg}"


class Charts(unittest.TestCase):
    """The pictures of bench/results."""

    def test_the_pictures_are_those_of_the_tables(self):
        with tempfile.TemporaryDirectory() as folder:
            subprocess.run([TOP / "bench" / "charts", folder], check=True)
            drawn = {it.name: it.read_text() for it in Path(folder).iterdir()}
        kept = {it.name: it.read_text() for it in RESULTS.glob("*.svg")}
        self.assertEqual(drawn, kept)
        self.assertGreater(len(kept), 10)

    def test_a_picture_has_a_mark_for_each_number(self):
        rows = list(csv.reader((RESULTS / "packs.csv").read_text().splitlines()))
        drawn = ElementTree.parse(RESULTS / "packs.svg").getroot()
        marks = [it for it in drawn.iter(f"{SVG}circle") if it.get("r") == "2.6"]
        self.assertEqual(len(marks), sum(len(row) - 1 for row in rows[1:]))

    def test_wrong_words_are_told_without_a_traceback(self):
        why = "[Errno 2] No such file or directory: '/nope'"
        for words, wanted in {
            ("bench/charts", "-h"): (2, ""),
            ("bench/charts", "/nope"): (1, "bench/charts: there is no folder /nope\n"),
            ("bench/picture", "--help"): (2, ""),
            ("bench/picture", "/nope", "x"): (1, f"bench/picture: can't draw /nope to x: {why}\n"),
            ("demo/make_parcels.py", "²"): (2, ""),
        }.items():
            ended = subprocess.run([TOP / words[0], *words[1:]], capture_output=True, text=True)
            self.assertEqual((ended.returncode, ended.stderr), wanted, words)

    def test_the_page_shows_each_picture_and_links_each_table(self):
        page = (RESULTS / "README.md").read_text()
        for it in sorted(RESULTS.glob("*.*")):
            if it.suffix in (".csv", ".svg"):
                self.assertIn(f"]({it.name})", page)


if __name__ == "__main__":
    unittest.main()
