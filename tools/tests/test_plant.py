"""Tests the command `plant`, with an `rt` that prints the contents of a file in the crate."""
import os
import shutil
import subprocess
import tempfile
import unittest
from pathlib import Path

TOOLS = Path(__file__).resolve().parent.parent
RT = """#!/usr/bin/env bash
echo "$(basename "$PWD") $*" >> "$(dirname "$0")/asked"
cat said
"""
COUNTS = (
    "untested=0 no-ensures=1 proves={} same=2 refused=3 elsewhere=1 "
    "not-judged={} not-source=4 not-run={}"
)
NONE_JUDGED = (
    "plants crate=one proves=0 same=0 refused=0 elsewhere=0 "
    "not-judged=9 not-source=4 not-run=5\n"
)


class Command(unittest.TestCase):
    def setUp(self):
        self.root = Path(tempfile.mkdtemp(prefix="plant-test-"))
        self.addCleanup(shutil.rmtree, self.root)
        self.write(
            "crates.txt",
            "# libraries\none:\ntwo: one\nlib_c staticlib: two\none_tests: one\nprogram: one\n",
        )
        self.write("bin/rt", RT)
        (self.root / "bin/rt").chmod(0o755)
        self.write("tools/plant-allowed.txt", "")
        shutil.copy(TOOLS / "plant", self.root / "tools/plant")
        for crate in ("one", "two", "lib_c", "one_tests"):
            self.write(f"crates/{crate}/src/lib.rt", "")
            self.said(crate)
        self.write("crates/program/src/main.rt", "")

    def write(self, path: str, text: str):
        file = self.root / path
        file.parent.mkdir(parents=True, exist_ok=True)
        file.write_text(text)

    def said(self, crate: str, *rows: str, open: int = 0, left: int = 0):
        last = f"plants crate={crate} planted-in=3 {COUNTS.format(len(rows), open, left)}\n"
        self.write(f"crates/{crate}/said", "".join(f"{it}\n" for it in rows) + last)

    def run_it(self, *words: str) -> tuple[int, list[str]]:
        env = {**os.environ, "PATH": f"{self.root / 'bin'}:{os.environ['PATH']}"}
        ran = subprocess.run(
            [self.root / "tools/plant", *words],
            env=env,
            text=True,
            stdout=subprocess.PIPE,
            stderr=subprocess.STDOUT,
        )
        return ran.returncode, ran.stdout.splitlines()

    def test_goes_over_the_libraries(self):
        status, lines = self.run_it("--minutes", "3", "--jobs", "4")
        self.assertEqual((status, lines), (0, ["18 planted, 0 prove, 0 of them not explained"]))
        asked = (self.root / "bin/asked").read_text().split("\n")
        wanted = [f"{it} plant --minutes 3 --max 10000 --jobs 4" for it in ("one", "two", "lib_c")]
        self.assertEqual(asked[:-1], wanted)

    def test_compares_with_the_list(self):
        self.said(
            "one",
            "proves      src/a.rt:12 A::f: { Err(self) }  (and in 2 more impls)",
            "proves      src/a.rt:20 g: { 0 }",
            "no-ensures  src/b.rt:1 A::h()",
            "untested    src/b.rt:9 i()",
        )
        self.write(
            "tools/plant-allowed.txt",
            "# why\n\none A::f: { Err(self) }\n  owners aren't seen\none old: { 1 }\n  no more\n",
        )
        status, lines = self.run_it("one")
        self.assertEqual(
            lines,
            [
                "not explained: one g: { 0 }",
                "not explained: one A::h()",
                "no longer there: one old: { 1 }",
                "10 planted, 3 prove, 2 of them not explained",
            ],
        )
        self.assertEqual(status, 1)

    def test_says_what_was_left(self):
        self.said("two", open=2, left=7)
        self.write("tools/plant-allowed.txt", "two old: { 1 }\n  no more\n")
        status, lines = self.run_it("two")
        self.assertEqual(
            lines,
            [
                "perhaps not tried: two old: { 1 }",
                "two: 2 not judged",
                "two: 7 not tried: give more minutes",
                "6 planted, 0 prove, 0 of them not explained",
            ],
        )
        self.assertEqual(status, 0)

    def test_some_functions_alone(self):
        self.write("tools/plant-allowed.txt", "two old: { 1 }\n  no more\n")
        status, lines = self.run_it("--only", "src/a.rt", "two")
        self.assertEqual((status, lines[0]), (0, "perhaps not tried: two old: { 1 }"))
        self.assertTrue((self.root / "bin/asked").read_text().endswith(" --only src/a.rt\n"))

    def test_a_crate_of_which_nothing_was_judged(self):
        self.write("crates/one/said", NONE_JUDGED)
        status, lines = self.run_it("one")
        self.assertEqual(
            lines,
            [
                "one: 9 not judged",
                "one: 5 not tried: give more minutes",
                "0 planted, 0 prove, 0 of them not explained",
            ],
        )
        self.assertEqual(status, 1)

    def test_a_crate_that_can_not_be_tried(self):
        self.write("crates/one/said", "rt: the check failed\n")
        status, lines = self.run_it("one")
        self.assertEqual(
            lines,
            ["one: not tried: rt: the check failed", "0 planted, 0 prove, 0 of them not explained"],
        )
        self.assertEqual(status, 1)

    def test_a_list_without_reasons(self):
        for text, said in (
            ("one f: { 0 }\n", "no reason after the last body"),
            (
                "one f: { 0 }\none g: { 0 }\n  why\n",
                "plant-allowed.txt:2: no reason before this line",
            ),
            ("  why\n", "plant-allowed.txt:1: a reason without a body"),
            (
                "one f: { 0 }\n  why\none f: { 0 }\n  why\n",
                "plant-allowed.txt:3: no reason before this line, or a body that occurs twice",
            ),
        ):
            self.write("tools/plant-allowed.txt", text)
            status, lines = self.run_it()
            self.assertEqual(status, 1)
            self.assertIn(said, lines[-1])

    def test_other_names(self):
        status, lines = self.run_it("one_tests")
        self.assertEqual(status, 2)
        self.assertIn("one_tests: no library crate", lines[-1])


if __name__ == "__main__":
    unittest.main()
