"""Tests bench/run over two checkouts with programs that a test writes."""
import os
import runpy
import shutil
import subprocess
import tempfile
import unittest
from pathlib import Path

COMMAND = Path(__file__).resolve().parent.parent.parent / "bench/run"
# Prints the number of instructions of the program, by the number on its second line.
VALGRIND = """#!/bin/sh
echo "==7== Collected : $(sed -n '2s/# //p' "$3")" >&2
exec "$3" "$4"
"""


class Run(unittest.TestCase):
    def setUp(self):
        self.root = Path(tempfile.mkdtemp(prefix="bench-run-test-"))
        self.addCleanup(shutil.rmtree, self.root)
        self.write("old/bench/run", "")
        shutil.copy(COMMAND, self.root / "old/bench/run")
        self.write("old/bench/workloads.txt", "first jobs SEED\nsecond jobs 5 <numbers\n")
        self.write("bin/valgrind", VALGRIND)
        for side, count in (("old", 3000), ("new", 2000)):
            self.write(f"{side}/bench/numbers", "1 2 3\n")
            self.write(f"{side}/crates/jobs/out/jobs", f'#!/bin/sh\n# {count}\necho "$1"; cat\n')

    def write(self, path: str, text: str):
        file = self.root / path
        file.parent.mkdir(parents=True, exist_ok=True)
        file.write_text(text)
        file.chmod(0o755)

    def run_it(self, *words: str, **environment: str) -> tuple[int, list[list[str]]]:
        """Returns the status, and the fields of each printed line except those of `progress`."""
        env = {**os.environ, "PATH": f"{self.root / 'bin'}:{os.environ['PATH']}", **environment}
        sides = [self.root / "old", self.root / "new"]
        command = [self.root / "old/bench/run", *words, *sides]
        ended = subprocess.run(command, env=env, text=True, capture_output=True)
        said = ended.stderr.splitlines()
        self.progress = [it for it in said if it.startswith("row ")]
        lines = ended.stdout.splitlines() + [it for it in said if it not in self.progress]
        return ended.returncode, [[it.strip() for it in line.split("|")] for line in lines]

    def test_the_table_has_a_row_of_equals_and_one_for_each_workload(self):
        status, lines = self.run_it()
        self.assertEqual(status, 0, lines)
        names = ["NAME", "---", "first, compared with itself", "first", "second"]
        self.assertEqual([it[1] for it in lines], names)
        self.assertEqual({len(it) for it in lines}, {8}, "a line has other columns")

    def test_standard_error_says_which_row_is_measured(self):
        self.run_it()
        rows = ["row 1 of 3: first", "row 2 of 3: first", "row 3 of 3: second"]
        self.assertEqual([it.split(";")[0] for it in self.progress], rows)
        self.assertTrue(self.progress[2].endswith("; left: about 1 min"), self.progress)

    def test_instructions_are_counted_where_they_are_asked_for(self):
        status, lines = self.run_it("--instructions")
        self.assertEqual(status, 0, lines)
        counts = ["3,000", "2,000", "1.500"]
        self.assertEqual([it[-4:-1] for it in lines[2:]], [["", "", ""], counts, counts])

    def test_it_stops_where_outputs_differ(self):
        self.write("new/bench/numbers", "1 2 4\n")
        status, lines = self.run_it()
        self.assertEqual((status, lines[-2][1]), (1, "first"))
        self.assertIn("printed b'5\\n1 2 4\\n'", lines[-1][0])

    def test_a_checkout_that_is_missing_or_not_built_is_told_before_the_table(self):
        top = self.root.resolve() / "new"
        wanted = f"bench/run: there is no {top}/bench/numbers"
        (top / "bench/numbers").unlink()
        self.assertEqual(self.run_it(), (1, [[wanted]]))
        made = "rt run in crates/jobs makes it"
        (top / "crates/jobs/out/jobs").unlink()
        wanted = f"bench/run: there is no {top}/crates/jobs/out/jobs: {made}"
        self.assertEqual(self.run_it(), (1, [[wanted]]))
        shutil.rmtree(top)
        wanted = f"bench/run: there is no folder {top}/bench: a built checkout is wanted"
        self.assertEqual(self.run_it(), (1, [[wanted]]))

    def test_the_errors_of_cargo_are_shown(self):
        self.write("bin/cargo", "#!/bin/sh\necho 'error: no matching package' >&2\nexit 101\n")
        status, lines = self.run_it(UPSTREAM="/nope")
        said = "bench/run: cargo can't build src/jobs.rs over UPSTREAM=/nope"
        self.assertEqual((status, lines), (1, [["error: no matching package"], [said]]))

    def test_a_machine_that_slows_moves_the_medians_alone(self):
        compared = runpy.run_path(str(COMMAND))["compared"]
        fields = compared([2.0, 2.0, 4.0, 2.0, 4.0], [1.0, 2.0, 2.0, 1.0, 2.0])
        self.assertEqual(fields, ["2.000", "2.000", "1.00", "2.00", "2.00"])


if __name__ == "__main__":
    unittest.main()
