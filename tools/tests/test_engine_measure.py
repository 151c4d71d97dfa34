"""Tests bench/engine/measure with a cargo that prints what a test gives."""
import os
import shutil
import subprocess
import tempfile
import unittest
from pathlib import Path

TOP = Path(__file__).resolve().parent.parent.parent
NATIVE = "bindings/rust/native"
# Prints a row of portable code, or of the code PROVED if it gets the folder of archives. Fails
# without the flag that keeps jumps from crossing 32 bytes, or without the user's own flags.
CARGO = """#!/bin/sh
echo run >>"$RUNS"
[ "$RUSTFLAGS" = "-C debuginfo=1 -C llvm-args=-x86-branches-within-32B-boundaries" ] || exit 9
if [ "${VORTEX_BITS_NATIVE##*/}" = none ]; then code=Portable; else code=$PROVED; fi
echo "# $code"
echo "query,rows,batch,engine_ns_a_row,loop_ns_a_row,ratio"
echo "sums,9,1000,1,2,0.$([ "$code" = Portable ] && echo 50 || echo 25)"
[ "$code" != failing ]
"""
KEPT = "query,rows a batch,portable,proved\nkept,1,1,1\n"


class Measure(unittest.TestCase):
    def setUp(self):
        folder = tempfile.TemporaryDirectory()
        self.addCleanup(folder.cleanup)
        self.top = Path(folder.name).resolve()
        for path in ("bench/engine", "bench/results", "bin", NATIVE):
            (self.top / path).mkdir(parents=True)
        shutil.copy(TOP / "bench/engine/measure", self.top / "bench/engine")
        (self.top / "bindings/rust/Cargo.toml").write_text('version = "0.91.0"\n')
        (self.top / "bin/cargo").write_text(CARGO)
        (self.top / "bin/cargo").chmod(0o755)
        self.table = self.top / "bench/results/engine.csv"
        self.table.write_text(KEPT)

    def measure(self, *words: str, levels: str = "", proved: str = "V3") -> tuple[int, str, int]:
        """Returns the status, standard error, and the number of runs."""
        for level in levels.split():
            (self.top / NATIVE / f"libvortex_bits_0_91_{level}.a").touch()
        runs = self.top / "runs"
        env = os.environ | {"PATH": f"{self.top}/bin:{os.environ['PATH']}", "RUNS": str(runs),
                            "PROVED": proved, "RUSTFLAGS": "-C debuginfo=1"}
        ended = subprocess.run([self.top / "bench/engine/measure", *words], env=env, text=True,
                               capture_output=True)
        self.said = ended.stdout
        count = len(runs.read_text().splitlines()) if runs.exists() else 0
        return ended.returncode, ended.stderr, count

    def test_both_runs_are_written(self):
        self.assertEqual(self.measure(levels="v2 v3"), (0, "", 2))
        wanted = "query,rows a batch,portable,proved\nsums,1000,0.50,0.25\n"
        self.assertEqual(self.table.read_text(), wanted)

    def test_any_word_prints_the_head_and_runs_nothing(self):
        self.assertEqual(self.measure("--help", levels="v2 v3"), (2, "", 0))
        self.assertTrue(self.said.startswith("Measures the queries "), self.said)
        self.assertEqual(self.table.read_text(), KEPT)

    def test_one_archive_is_not_enough(self):
        missing = self.top / NATIVE / "libvortex_bits_0_91_v3.a"
        said = f"bench/engine/measure: no {missing}, which bindings/build makes\n"
        self.assertEqual(self.measure(levels="v2"), (1, said, 0))

    def test_the_table_stays_unless_both_runs_succeed(self):
        self.assertEqual(self.measure(), (0, "", 1))
        self.assertEqual(self.measure(levels="v2 v3", proved="failing")[0], 1)
        self.assertEqual(self.measure(levels="v2 v3", proved="Portable")[0], 1)
        self.assertEqual(self.table.read_text(), KEPT)


if __name__ == "__main__":
    unittest.main()
