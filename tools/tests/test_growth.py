"""Tests tools/growth over a table of this file, with a valgrind that counts by a formula."""
import os
import shutil
import subprocess
import sys
import tempfile
import unittest
from pathlib import Path

TOP = Path(__file__).resolve().parents[2]
TABLE = """family,row,promise,most,unit,calls
sets,clone,"constant, of one owner",1000,call,Set::clone
sets,count,each word,2.5,64 bits,Set::count
session,get,constant,1000,call,
"""
# Prints the count of a run: its last two arguments are the size and the number of calls.
VALGRIND = """#!{python}
import sys
words = sys.argv[5:]
if words[0].endswith("vbits"):
    calls = (sys.stdin.read().count("get")) / 100
    steps = {session}
else:
    row, size, calls = words[2], int(words[3]), int(words[4])
    steps = {steps}
print(f"==12== I   refs:      {{int(70000 + calls * steps):,}}", file=sys.stderr)
sys.exit({status})
"""


class Growth(unittest.TestCase):
    def said(self, steps: str, *words: str, session: str = "500", status: int = 0,
             programs: tuple[str, ...] = ("run_growth", "vbits")) -> tuple[int, list[str]]:
        """Returns the status and the lines if a call takes `steps`."""
        with tempfile.TemporaryDirectory() as folder:
            top = Path(folder)
            for path in ("tools", "docs", "bin"):
                (top / path).mkdir()
            shutil.copy(TOP / "tools/growth", top / "tools/growth")
            (top / "docs/costs.csv").write_text(TABLE)
            for name in programs:
                out = top / "crates" / name / "out"
                out.mkdir(parents=True)
                (out / name).write_text("")
            counter = top / "bin/valgrind"
            counter.write_text(VALGRIND.format(
                python=sys.executable, steps=steps, session=session, status=status))
            counter.chmod(0o755)
            ended = subprocess.run([top / "tools/growth", *words], capture_output=True, text=True,
                                   env={**os.environ, "PATH": f"{top}/bin:{os.environ['PATH']}"})
            self.table = (top / "docs/costs.csv").read_text()
        return ended.returncode, ended.stdout.splitlines()

    def test_calls_within_their_bounds_pass(self):
        steps = "900 if row == 'clone' else 2 * size // 64 + 3_000"
        self.assertEqual(self.said(steps), (0, ["3 passed, 0 failed"]))

    def test_a_constant_call_that_grows_fails_where_it_passes_its_bound(self):
        status, lines = self.said("size // 64 if row == 'clone' else 10")
        fault = "sets clone: steps 64 of 1,000 at 4,096; 1,024 of 1,000 at 65,536: more than it may"
        self.assertEqual((status, lines), (1, [fault, "2 passed, 1 failed"]))

    def test_a_call_that_goes_over_its_words_twice_fails(self):
        status, lines = self.said("900 if row == 'clone' else 5 * size // 64")
        self.assertEqual((status, lines[-1]), (1, "2 passed, 1 failed"))
        self.assertIn("sets count: ", lines[0])
        self.assertIn("81,920 of 44,960 at 1,048,576: more than it may", lines[0])

    def test_a_call_that_the_compiler_leaves_out_fails(self):
        status, lines = self.said("0", "clone")
        self.assertEqual(status, 1)
        self.assertEqual(lines[0], "sets clone: steps 0 of 1,000 at 4,096: the call was left out")

    def test_a_command_of_a_session_is_counted_by_itself(self):
        status, lines = self.said("9", session="150_000")
        self.assertEqual((status, lines[-1]), (1, "2 passed, 1 failed"))
        self.assertIn("session get: steps 1,500 of 1,000 at 4,096", lines[0])

    def test_rows_are_chosen_and_shown(self):
        status, lines = self.said("900", "--show", "sets", "clone")
        shown = "; ".join(f"900 of 1,000 at {it}" for it in ("4,096", "65,536", "1,048,576"))
        self.assertEqual((status, lines), (0, [f"sets clone: steps {shown}", "1 passed, 0 failed"]))
        self.assertEqual(self.said("9", "no_such_row"), (1, ["0 passed, 0 failed"]))

    def test_bounds_are_written_a_third_above_and_a_fifth_for_a_call(self):
        steps = "750 if row == 'clone' else 1.5 * size // 64 + 300"
        self.assertEqual(self.said(steps, "--write", "sets"), (0, ["2 bounds in docs/costs.csv"]))
        wanted = TABLE.replace(",2.5,", ",2.1,").replace("1000,call,S", "900,call,S")
        self.assertEqual(self.table, wanted)
        self.assertEqual(self.said("66", "--write", "clone")[0], 0)
        self.assertEqual(self.table, TABLE.replace(",1000,call,Set", ",98,call,Set"))

    def test_wrong_words_are_told_and_change_nothing(self):
        for words in (["--wrong"], ["--write", "--show"], ["--write", "no_such_row"]):
            self.assertEqual(self.said("9", *words), (2, []), words)
            self.assertEqual(self.table, TABLE)
        self.assertEqual(self.said("9", "--help")[0], 0)

    def test_a_program_that_fails_is_told(self):
        status, lines = self.said("900", "clone", status=1)
        self.assertEqual((status, lines[-1]), (1, "0 passed, 1 failed"))
        self.assertTrue(lines[0].startswith("sets clone at 4,096: "), lines)

    def test_what_is_missing_is_told_in_one_line(self):
        status, lines = self.said("9", programs=("vbits",))
        fault = "crates/run_growth/out/run_growth isn't there: rt run in crates/run_growth makes it"
        self.assertEqual((status, lines), (1, [fault, "0 passed, 1 failed"]))
        command = [shutil.which("python3"), TOP / "tools/growth"]
        ended = subprocess.run(command, capture_output=True, text=True, env={"PATH": "/nowhere"})
        fault = "valgrind isn't on the PATH: Debian's package valgrind has it\n"
        self.assertEqual((ended.returncode, ended.stdout), (1, f"{fault}0 passed, 1 failed\n"))


if __name__ == "__main__":
    unittest.main()
