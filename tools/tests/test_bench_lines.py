"""Tests bench/lines with an `rt` and a `cargo` that build `cat`, or fail, and one short input."""
import csv
import io
import os
import shutil
import subprocess
import sys
import tempfile
import unittest
from pathlib import Path

COMMAND = Path(__file__).resolve().parent.parent.parent / "bench/lines"
TIME = "/usr/bin/time"
RT = "mkdir -p out && cp /bin/cat out/vbits"
CARGO = """while [ "$1" != --target-dir ]; do shift; done
mkdir -p "$2/release" && cp /bin/cat "$2/release/lines\""""
FAILS = "echo 'error: why' >&2; exit 101"
# Runs the command over this input in place of its own inputs, which take long.
SHORT = """import importlib.machinery, importlib.util, sys
loader = importlib.machinery.SourceFileLoader("lines", sys.argv[1])
lines = importlib.util.module_from_spec(importlib.util.spec_from_loader("lines", loader))
loader.exec_module(lines)
lines.INPUTS = {"a line": lambda: iter(["count 0"])}
del sys.argv[1]
lines.main()
"""


@unittest.skipUnless(os.access(TIME, os.X_OK), f"no {TIME}")
class Lines(unittest.TestCase):
    def setUp(self):
        folder = tempfile.TemporaryDirectory()
        self.addCleanup(folder.cleanup)
        self.top = Path(folder.name)
        for path in ("bench", "bin", "crates/vbits"):
            (self.top / path).mkdir(parents=True)
        shutil.copy(COMMAND, self.top / "bench/lines")
        self.program("rt", RT)
        self.program("cargo", CARGO)

    def program(self, name: str, text: str):
        (self.top / "bin" / name).write_text(f"#!/bin/sh\n{text}\n")
        (self.top / "bin" / name).chmod(0o755)

    def lines(self, *words: str) -> subprocess.CompletedProcess:
        env = os.environ | {"UPSTREAM": "/nope", "PATH": f"{self.top}/bin:/usr/bin:/bin"}
        command = [sys.executable, "-c", SHORT, self.top / "bench/lines", *words]
        return subprocess.run(command, env=env, text=True, capture_output=True)

    def fails(self, said: str):
        ended = self.lines("x86-64-v2")
        self.assertEqual((ended.returncode, ended.stdout, ended.stderr), (1, "", said))

    def test_a_row_for_each_level(self):
        rows = list(csv.reader(io.StringIO(self.lines().stdout)))
        self.assertEqual([it[0] for it in rows], ["level", "x86-64-v2", "x86-64-v3"])

    def test_the_errors_of_a_build_are_shown(self):
        self.program("rt", FAILS)
        self.fails("error: why\nbench/lines: rt can't build vbits for x86-64-v2\n")
        self.program("cargo", FAILS)
        why = "bench/lines: cargo can't build src/lines.rs over UPSTREAM=/nope"
        self.fails(f"error: why\n{why}\n")


if __name__ == "__main__":
    unittest.main()
