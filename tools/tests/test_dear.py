"""Tests tools/dear with a repository that a test of this file writes."""
import shutil
import subprocess
import tempfile
import unittest
from pathlib import Path

DEAR = Path(__file__).resolve().parent.parent / "dear"
KEPT = "crates/low/out/incremental/1/Rattle-low-proofs.{}.Lts.oantt"


class Dear(unittest.TestCase):
    def setUp(self):
        folder = tempfile.TemporaryDirectory()
        self.addCleanup(folder.cleanup)
        self.top = Path(folder.name)
        self.write("crates/low/src/lib.rt", "fn small() {}\nfn large() {}\n")
        for function, size in (("small", 10_000), ("large", 2_000_000), ("gone", 3_000_000)):
            self.write(KEPT.format(function), "x" * size)
        (self.top / "tools").mkdir()
        shutil.copy(DEAR, self.top / "tools")

    def write(self, path: str, text: str):
        (self.top / path).parent.mkdir(parents=True, exist_ok=True)
        (self.top / path).write_text(text)

    def dear(self, *words: str) -> tuple[int, str, str]:
        ended = subprocess.run(
            [self.top / "tools/dear", *words], capture_output=True, text=True
        )
        return ended.returncode, ended.stdout, ended.stderr

    def test_the_largest_come_first_and_those_that_are_gone_do_not_count(self):
        rows = ["    2.00 MB  low  large", "    0.01 MB  low  small", ""]
        sums = ["    2.01 MB  low", "    2.01 MB in all"]
        said = "\n".join([*rows, *sums, ""])
        self.assertEqual(self.dear(), (0, said, ""))
        self.assertEqual(self.dear("low"), (0, said, ""))
        fewer = "\n".join([rows[0], "", *sums, ""])
        self.assertEqual(self.dear("--most", "1"), (0, fewer, ""))

    def test_an_unknown_crate_and_a_negative_number_are_errors(self):
        for words, why in (
            (["low", "nosuch", "lo"], "nosuch, lo: no crate"),
            (["--most", "-1"], "--most is below 0"),
        ):
            status, said, error = self.dear(*words)
            self.assertEqual((status, said), (2, ""))
            self.assertEqual(error.splitlines()[-1], f"dear: error: {why}")


if __name__ == "__main__":
    unittest.main()
