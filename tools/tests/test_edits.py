"""Tests the command `edits`, with an `rt` that prints the contents of a file next to it."""
import os
import shutil
import subprocess
import tempfile
import unittest
from pathlib import Path

TOOLS = Path(__file__).resolve().parent.parent
RT = """#!/usr/bin/env bash
[ "$1" = must-fail ] && shift
for crate; do
    ls "crates/$crate"/must-fail/*.edit "crates/$crate"/out/* -d 2>/dev/null
done > "$(dirname "$0")/seen"
cat "$(dirname "$0")/said"
"""
EDIT = "file: src/lib.rt\nold: one\nnew: two\n"


class Command(unittest.TestCase):
    def setUp(self):
        self.root = Path(tempfile.mkdtemp(prefix="edits-test-"))
        self.addCleanup(shutil.rmtree, self.root)
        for folder in (
            "tools", "bin", "crates/demo/src", "crates/demo/out/rlib",
            "crates/demo/out/incremental",
        ):
            (self.root / folder).mkdir(parents=True)
        shutil.copy(TOOLS / "edits", self.root / "tools/edits")
        self.write("crates.txt", "demo:\n")
        self.write("HANDLES", "Handles allowed: none.\n")
        self.write("crates/demo/src/lib.rt", "one\nlast\nlast\n")
        self.write("bin/rt", RT)
        (self.root / "bin/rt").chmod(0o755)

    def write(self, path: str, text: str):
        file = self.root / path
        file.parent.mkdir(parents=True, exist_ok=True)
        file.write_text(text)

    def run_it(self, *words: str, said: str = "") -> tuple[int, list[str]]:
        self.write("bin/said", said)
        env = {**os.environ, "PATH": f"{self.root / 'bin'}:{os.environ['PATH']}"}
        ran = subprocess.run(
            [self.root / "tools/edits", *words],
            env=env,
            text=True,
            stdout=subprocess.PIPE,
            stderr=subprocess.STDOUT,
        )
        return ran.returncode, ran.stdout.splitlines()

    def test_all_are_refused(self):
        self.write("crates/demo/edits/a.edit", EDIT)
        self.write("crates/demo/must-fail/of_the_gate.edit", EDIT)
        said = "rt: must-fail demo/a.edit: refused, as it must be: src/lib.rt:1:1: x\n"
        status, lines = self.run_it(said=said)
        self.assertEqual((status, lines[-1]), (0, "1 edits, 0 not refused"))
        seen = (self.root / "bin/seen").read_text()
        copied = "crates/demo/must-fail/a.edit\ncrates/demo/out/rlib\n"
        self.assertEqual(seen, copied, "neither the gate's edits nor what a check keeps is copied")

    def test_names_each_that_is_not_refused(self):
        names = ("bad", "kept", "left", "plain", "weak")
        for name in names:
            self.write(f"crates/demo/edits/{name}.edit", EDIT)
        said = (
            "fn below::one: proved\n"
            "rt: must-fail demo/bad.edit: BAD EDIT: x\n"
            "src/lib.rt:1:1: error\n"
            "rt: must-fail demo/kept.edit: NOT REFUSED: x\n"
            "rt: must-fail demo/plain.edit: refused, as it must be\n"
            "rt: must-fail demo/weak.edit: refused, as it must be (only because of a name)\n"
        )
        status, lines = self.run_it("demo", said=said)
        found = [it.split(":")[0] for it in lines[4:-1]]
        self.assertEqual(
            found,
            ["demo/bad.edit", "src/lib.rt", "demo/kept.edit", "demo/left.edit", "demo/weak.edit"],
        )
        self.assertEqual((status, lines[-1]), (1, "5 edits, 3 not refused"))

    def test_takes_crates_with_edits_alone(self):
        self.write("crates/demo/edits/a.edit", EDIT)
        status, lines = self.run_it("other")
        self.assertEqual(status, 2)
        self.assertIn("other: no crate with edits", lines[-1])

    def test_apply_only(self):
        self.write("crates/demo/edits/well.edit", EDIT + "old: two\nnew: three\nold: three\nnew:\n")
        self.write("crates/demo/must-fail/well.edit", EDIT)
        status, lines = self.run_it("--apply-only")
        self.assertEqual((status, lines), (0, ["2 edits, 0 can't be made"]))

    def test_apply_only_says_what_is_wrong(self):
        for name, text in {
            "a_twice": EDIT.replace("one", "last"),
            "b_gone": EDIT.replace("one", "none"),
            "c_no_file": EDIT.replace("lib", "other"),
            "d_no_pair": "file: src/lib.rt\n",
            "e_old_alone": EDIT + "old: two\n",
            "f_other_line": EDIT + "in: somewhere\n",
            "g_new_first": "file: src/lib.rt\nnew: two\n",
        }.items():
            self.write(f"crates/demo/edits/{name}.edit", text)
        status, lines = self.run_it("--apply-only", "demo")
        reasons = [it.split(": ", 1)[1] for it in lines[:-1]]
        self.assertEqual(
            reasons,
            [
                "the text of 'old:' occurs 2 times in src/lib.rt",
                "the text of 'old:' occurs 0 times in src/lib.rt",
                "there is no src/other.rt",
                "no pair of lines 'old:' and 'new:'",
                "a line 'old:' without its 'new:'",
                "a line of no kind: in: somewhere",
                "a line 'new:' without its 'file:' or 'old:'",
            ],
        )
        self.assertEqual((status, lines[-1]), (1, "7 edits, 7 can't be made"))


if __name__ == "__main__":
    unittest.main()
