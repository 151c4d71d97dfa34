"""Tests the command lines of bindings/c/query.c and query.cpp, linked without the library: a wrong
one ends them before they call it."""
import shutil
import subprocess
import tempfile
import unittest
from pathlib import Path

FOLDER = Path(__file__).resolve().parent.parent.parent / "bindings/c"
COMPILERS = {"query.c": ["cc", "-std=c11"], "query.cpp": ["c++", "-std=c++17"]}
USAGE = "usage: query [ROWS [time]], with at most 100000000 rows\n"
# strtoull reads the first two as 2^64 - 1, far above the greatest number of rows.
WRONG = [["-1"], ["18446744073709551615"], ["x"], ["5x"], [""], [" 5"], ["+5"], ["100000001"],
         ["5", "tmie"], ["5", "time", "6"]]


class Query(unittest.TestCase):
    def test_a_wrong_command_line_is_told(self):
        for source, (compiler, standard) in COMPILERS.items():
            with self.subTest(source), tempfile.TemporaryDirectory() as folder:
                if not shutil.which(compiler):
                    self.skipTest(f"no {compiler}")
                program = Path(folder, "query")
                flags = ["-no-pie", "-Wl,--unresolved-symbols=ignore-all", "-o", program]
                subprocess.run([compiler, standard, FOLDER / source, *flags], check=True)
                for words in WRONG:
                    ended = subprocess.run([program, *words], capture_output=True, text=True)
                    said = ended.returncode, ended.stdout, ended.stderr
                    self.assertEqual(said, (2, "", USAGE), words)


if __name__ == "__main__":
    unittest.main()
