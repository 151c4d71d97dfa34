"""Tests tools/parts.sh, and the commands that use it, with an `rt` and parts that a test of this
file writes."""
import os
import shutil
import signal
import subprocess
import tempfile
import time
import unittest
from pathlib import Path

TOP = Path(__file__).resolve().parent.parent.parent
NO_RT = "rt isn't on the PATH: it comes with Rattle's kit (README.md, 'What is trusted')"
# The output of `rt ci` for two crates, the second of which isn't proved, and then much else.
HALF_PROVED = """echo '== low'
echo 'rt: low proved'
echo 'rt: low: its tests are proved'
echo 'fn high::first: not proved'
echo 'rt: high NOT PROVED'
seq 1000
echo '5 passed, 1 failed'
exit 1"""
# The output of `rt lib` for a crate that it proves, and for one that it doesn't.
STOPS = """echo 'rt: chose --jobs 4 for low'
echo 'logic=proved functions=1'
echo 'rt: chose --jobs 4 for vb_c'
echo 'fn vb_c::first: not proved'
exit 1"""
NEVER_ENDS = "sleep 600 & echo $! >child; echo begun; wait"
# The signals that end a command, and the exit status after each.
INTERRUPTS = {signal.SIGINT: 130, signal.SIGTERM: 143, signal.SIGHUP: 129}


def take_signals():
    """Lets each of the signals end the process, since a shell can't trap one that was ignored
    when it started, as after `nohup` or `&`."""
    for sign in INTERRUPTS:
        signal.signal(sign, signal.SIG_DFL)


class Folder(unittest.TestCase):
    """A repository for a test, with copies of the commands."""

    def setUp(self):
        folder = tempfile.TemporaryDirectory(prefix="parts-test-")
        self.addCleanup(folder.cleanup)
        self.top = Path(folder.name).resolve()
        self.copy("tools/parts.sh")
        self.command("tools/digest", "echo 0")
        self.write("crates.txt", "low:\nhigh: low\nvb_c staticlib: low high\n")
        for crate in ("low", "high", "vb_c"):
            self.write(f"crates/{crate}/src/lib.rt", "")

    def copy(self, path: str):
        (self.top / path).parent.mkdir(parents=True, exist_ok=True)
        shutil.copy(TOP / path, self.top / path)

    def write(self, path: str, text: str):
        """Writes a file; a text for bash becomes a command."""
        file = self.top / path
        file.parent.mkdir(parents=True, exist_ok=True)
        file.write_text(text)
        file.chmod(0o755)

    def command(self, path: str, text: str):
        self.write(path, f"#!/usr/bin/env bash\n{text}\n")

    def start(self, *words: str) -> subprocess.Popen:
        """Returns the command; the only `rt` is the one in bin/."""
        kept = [it for it in os.environ["PATH"].split(":") if not Path(it, "rt").exists()]
        env = {**os.environ, "PATH": ":".join([str(self.top / "bin"), *kept])}
        env.pop("PARTS_LOG", None)
        return subprocess.Popen(
            words,
            cwd=self.top,
            env=env,
            text=True,
            stdout=subprocess.PIPE,
            stderr=subprocess.STDOUT,
            preexec_fn=take_signals,
        )

    def run_it(self, *words: str) -> tuple[int, list[str]]:
        """Returns the status, and the lines that it printed."""
        run = self.start(*words)
        printed = run.communicate(timeout=60)[0]
        return run.returncode, printed.splitlines()

    def interrupt(self, sign: int, log: str, *words: str) -> tuple[int, list[str]]:
        """Does the same for a command that gets the signal once `begun` is in its log."""
        run = self.start(*words)
        self.addCleanup(run.stdout.close)
        self.await_begun(run, log)
        run.send_signal(sign)
        return run.wait(timeout=30), run.stdout.read().splitlines()

    def await_begun(self, run: subprocess.Popen, log: str):
        """Waits for the word `begun` in the file."""
        self.addCleanup(run.kill)
        until = time.monotonic() + 30
        file = self.top / log
        while not (file.is_file() and "begun" in file.read_text()):
            self.assertLess(time.monotonic(), until, "nothing has begun")
            time.sleep(0.02)

    def assert_gone(self, path: str):
        """Tests that the process whose number is in the file has ended."""
        number = (self.top / path).read_text().strip()
        until = time.monotonic() + 10
        while self.runs(Path("/proc", number, "stat")):
            self.assertLess(time.monotonic(), until, f"{number} runs on")
            time.sleep(0.02)

    @staticmethod
    def runs(state: Path) -> bool:
        try:
            return state.read_text().rsplit(") ", 1)[1][0] != "Z"
        except (FileNotFoundError, ProcessLookupError):
            return False


class Parts(Folder):
    def script(self, text: str):
        begin = "set -euo pipefail\nsource tools/parts.sh\nbegin out/log 60 600\n"
        self.command("script", f"{begin}{text}")

    def log(self) -> str:
        return (self.top / "out/log").read_text()

    def test_each_part_says_how_far_it_is(self):
        self.script("part first\ntry one echo said\npart second\ntry two true")
        status, lines = self.run_it("./script")
        self.assertEqual(status, 0)
        first = "about a minute on four processors; about 11 minutes left in all"
        self.assertEqual(lines[1], f"part 1 of 2: first, {first}")
        self.assertTrue(lines[3].startswith("part 2 of 2: second, about 10 minutes on"), lines)
        self.assertEqual(lines[-1], "2 passed, 0 failed")

    def test_all_output_is_kept_in_a_file_that_is_named_first_and_last(self):
        self.script("part first\ntry one seq 1000\ntry two echo more")
        lines = self.run_it("./script")[1]
        self.assertEqual(lines[0], "all output is kept in out/log")
        self.assertEqual(lines[-2], "all output is in out/log")
        self.assertNotIn("997", lines)
        kept = self.log().splitlines()
        self.assertEqual([it for it in kept if it.isdigit()], [str(it + 1) for it in range(1000)])
        self.assertEqual([it for it in lines if it not in kept], [])

    def test_each_failure_is_named_last_with_the_end_of_its_output(self):
        self.command("part", "seq 200; exit 3")
        self.script("part first\ntry one seq 100\ntry two ./part\ntry three false")
        status, lines = self.run_it("./script")
        self.assertEqual((status, lines[-1]), (1, "1 passed, 2 failed"))
        summary = lines[lines.index("failed: two") :]
        self.assertEqual(summary[1:13], [f"    {it}" for it in range(189, 201)])
        self.assertEqual(summary[13], "failed: three")

    def test_of_many_failures_the_first_alone_show_their_output(self):
        self.script("part first\nfor it in {1..9}; do try of$it bash -c 'echo why; exit 1'; done")
        lines = self.run_it("./script")[1]
        self.assertEqual(lines.count("    why"), 5)
        self.assertEqual([it for it in lines if it.startswith("failed: ")][-1], "failed: of9")
        self.assertEqual(lines[-1], "0 passed, 9 failed")

    def test_a_last_line_with_counts_is_counted(self):
        self.script("""part first
try counts echo '40 passed, 0 failed'
try fails bash -c 'echo "7 passed, 2 failed"; exit 1'
try denies bash -c 'echo "3 passed, 0 failed"; exit 1'
try admits echo '0 passed, 5 failed'
try else echo '6 passed, 1 failed (not the gate)'""")
        status, lines = self.run_it("./script")
        self.assertEqual((status, lines[-1]), (1, "51 passed, 8 failed"))

    def test_must_ends_the_command(self):
        self.script("part first\nmust one false\npart second\ntry two true")
        status, lines = self.run_it("./script")
        self.assertEqual((status, lines[-1]), (1, "0 passed, 1 failed"))
        self.assertNotIn("part 2 of 2", "\n".join(lines))

    def test_a_failing_line_of_the_command_is_a_failure(self):
        self.script("part first\ntry one true\nls nothing")
        status, lines = self.run_it("./script")
        self.assertNotEqual(status, 0)
        self.assertEqual(lines[-1], "1 passed, 1 failed")
        self.assertIn("failed: ./script", lines)

    def test_a_function_stops_at_its_first_failing_line(self):
        self.script("half() { false; echo more; }\npart first\ntry one half")
        self.assertEqual(self.run_it("./script")[1][-1], "0 passed, 1 failed")
        self.assertNotIn("more", self.log())

    def test_crates_are_counted_as_rt_ci_proves_them(self):
        self.command("rt", HALF_PROVED)
        self.script("part first 3\ntry proofs ./rt")
        lines = self.run_it("./script")[1]
        shown = [it.split(";")[0] for it in lines if it.startswith("  ") and it[2] != " "]
        proved = ["  crate 1 of 3: low proved", "  low: its tests are proved"]
        self.assertEqual(shown, [*proved, "  crate 2 of 3: high NOT PROVED"])
        # The reason comes a thousand lines before the end.
        self.assertIn("    fn high::first: not proved", lines[lines.index("failed: proofs") :])
        self.assertEqual(lines[-1], "5 passed, 1 failed")

    def test_crates_are_counted_as_rt_lib_proves_them(self):
        self.command("rt", STOPS)
        self.script("part first 5 2\ntry proofs ./rt")
        lines = self.run_it("./script")[1]
        self.assertTrue(lines[2].startswith("  crate 3 of 5: low proved; about "), lines)
        self.assertNotIn("vb_c proved", self.log())

    def test_work_of_another_clone_is_counted_once(self):
        kept = "begins with what a check kept in /home/other/crates"
        copies = "another copy of the repository is building this library; waiting for it"
        proof = "rt: chose --jobs 4 for high\nlogic=proved functions=1"
        lines = f"rt: low: {kept}/low\nrt: high: {kept}/high\n{proof}\nrt: vb_c: {copies}"
        self.command("rt", f"cat <<'END'\n{lines}\nEND")
        self.script("part first 3\ntry proofs ./rt")
        shown = [it.split("; about")[0] for it in self.run_it("./script")[1][2:6]]
        crates = [f"  crate {k} of 3: {it} begins with work of another clone"
                  for k, it in enumerate(("low", "high"), 1)]
        self.assertEqual(shown, [*crates, "  crate 2 of 3: high proved", f"  vb_c: {copies}"])

    def test_the_rest_becomes_less_with_each_crate(self):
        self.command("rt", "for it in a b c d; do echo \"rt: $it proved\"; done")
        self.script("part first\npart second 4\ntry proofs ./rt")
        lines = self.run_it("./script")[1]
        rest = [it.split("; ")[1] for it in lines if it.startswith("  crate ")]
        minutes = [f"about {it} minutes left in all" for it in (7, 5, 3)]
        self.assertEqual(rest, [*minutes, "less than a minute left in all"])

    def test_crates_come_lowest_first(self):
        self.command("script", "source tools/parts.sh\nlowest_first vb_c high")
        self.assertEqual(self.run_it("./script"), (0, ["low", "high", "vb_c"]))

    def test_an_interrupt_keeps_the_file_and_ends_what_runs(self):
        self.command("part", NEVER_ENDS)
        self.script("part first\ntry one true\ntry two ./part\ntry three true")
        for sign, wanted in INTERRUPTS.items():
            with self.subTest(sign):
                status, lines = self.interrupt(sign, "out/log", "./script")
                self.assertEqual(status, wanted)
                last = ["failed: two", "    interrupted", "all output is in out/log"]
                self.assertEqual(lines[-4:], [*last, "1 passed, 1 failed"])
                self.assertIn("begun", self.log())
                self.assert_gone("child")
                (self.top / "out/log").unlink()

    def test_a_second_interrupt_kills_what_does_not_end(self):
        loop = "while :; do sleep 0.1; done"
        self.command("part", f"trap '' TERM; echo $$ >child; echo begun; {loop}")
        self.script("part first\ntry one ./part")
        run = self.start("./script")
        self.addCleanup(run.stdout.close)
        self.await_begun(run, "out/log")
        run.send_signal(signal.SIGINT)
        with self.assertRaises(subprocess.TimeoutExpired):
            run.wait(timeout=1)
        run.send_signal(signal.SIGINT)
        self.assertEqual(run.wait(timeout=30), 130)
        self.assertEqual(run.stdout.read().splitlines()[-1], "0 passed, 1 failed")
        self.assert_gone("child")

    def test_any_bytes_are_kept(self):
        self.script(r"""part first
try 'the % name' printf 'a\tb %%s \\n \303\244\n5 passed, 0 failed'""")
        status, lines = self.run_it("./script")
        self.assertEqual((status, lines[-1]), (0, "5 passed, 0 failed"))
        self.assertIn("ok      the % name", lines)
        self.assertIn("a\tb %s \\n \u00e4\n5 passed, 0 failed\n", self.log())

    def test_it_ends_with_counts_where_the_file_cannot_be_written(self):
        self.script("part first\nrm -r out\n: >out\ntry one true")
        status, lines = self.run_it("./script")
        self.assertNotEqual(status, 0)
        self.assertEqual(lines[-1], "0 passed, 1 failed")

    def test_a_command_inside_of_another_keeps_its_output_there(self):
        self.script("part inner\ntry deep seq 3\ntry wrong bash -c 'echo why; exit 1'")
        outer = "set -euo pipefail\nsource tools/parts.sh\nbegin out/outer 9\npart outer\n"
        self.command("outer", f'{outer}try all env PARTS_LOG="$PWD/out/outer" ./script')
        status, lines = self.run_it("./outer")
        self.assertEqual((status, lines[-1]), (1, "1 passed, 1 failed"))
        self.assertTrue(lines[2].startswith("  part 1 of 2: inner, "), lines)
        kept = (self.top / "out/outer").read_text().splitlines()
        self.assertEqual([it for it in kept if it.isdigit()], ["1", "2", "3"])
        self.assertFalse((self.top / "out/log").exists())


class Check(Folder):
    """Tests tools/check with parts of this class only."""

    def setUp(self):
        super().setUp()
        self.copy("tools/check")
        for name in ("check-documents", "edits", "untested"):
            self.command(f"tools/{name}", f"echo {name} is well")
        self.command("reference/make", "echo the reference is well")
        for name in ("try-tests", "check-program", "growth"):
            self.command(f"tools/{name}", "echo '10 passed, 0 failed'")
        self.command("bin/python3", "echo OK")
        self.command("bin/rattle", "exit 0")
        self.command("bin/rt", "echo 'rt: low proved'; echo '100 passed, 0 failed'")

    def test_all_parts_are_counted(self):
        status, lines = self.run_it("tools/check")
        self.assertEqual((status, lines[-1]), (0, "137 passed, 0 failed"))
        begun = [it.split(":")[0] for it in lines if it.startswith("part ")]
        self.assertEqual(begun, [f"part {it} of 11" for it in range(1, 12)])
        self.assertIn("part 9 of 11: rt ci, about 50 minutes on four processors", "\n".join(lines))
        self.assertIn("  crate 1 of 3: low proved", "\n".join(lines))
        self.assertIn("        untested is well", lines)

    def test_after_a_quick_failure_no_long_part_begins(self):
        self.command("tools/check-documents", "echo README.md is wrong; exit 1")
        self.command("tools/edits", "echo an edit is wrong; exit 1")
        status, lines = self.run_it("tools/check")
        self.assertEqual((status, lines[-1]), (1, "5 passed, 2 failed"))
        for name in ("tools/try-tests", "rt ci", "tools/check-program", "tools/growth"):
            self.assertIn(f"not run, after a failure: {name}", lines)
        summary = lines[lines.index("failed: tools/check-documents") :]
        self.assertEqual(summary[1:4:2], ["    README.md is wrong", "    an edit is wrong"])

    def test_what_is_left_out_is_shown(self):
        self.command("tools/check-program",
                     "echo 'not compared: 20 reports' >&2; echo '10 passed, 0 failed'")
        status, lines = self.run_it("tools/check")
        self.assertEqual((status, lines[-1]), (0, "137 passed, 0 failed"))
        self.assertIn("  not compared: 20 reports", lines)

    def test_the_layout_is_a_part(self):
        self.command("bin/rattle", "echo src/lib.rt is in another layout; exit 1")
        status, lines = self.run_it("tools/check")
        self.assertEqual((status, lines[-1]), (1, "6 passed, 1 failed"))
        self.assertIn("failed: layout", lines)

    def test_what_rt_ci_counts_is_counted(self):
        self.command("bin/rt", HALF_PROVED)
        status, lines = self.run_it("tools/check")
        self.assertEqual((status, lines[-1]), (1, "22 passed, 1 failed"))
        self.assertIn("not run, after a failure: tools/check-program", lines)

    def test_an_interrupt_ends_it_with_counts(self):
        self.command("bin/rt", NEVER_ENDS)
        status, lines = self.interrupt(signal.SIGINT, "out/check.log", "tools/check")
        self.assertEqual((status, lines[-1]), (130, "17 passed, 1 failed"))
        self.assertEqual(lines[-2], "all output is in out/check.log")
        self.assert_gone("child")

    def test_ci_runs_it_and_nothing_else(self):
        self.copy(".ci/run")
        self.assertEqual(self.run_it(".ci/run")[1][-1], "137 passed, 0 failed")
        self.assertEqual((TOP / ".ci/run").read_text().splitlines()[-1], "exec tools/check")


class Bindings(Folder):
    def setUp(self):
        super().setUp()
        for name in ("run", "refused.sh", "build", "release"):
            self.copy(f"bindings/{name}")
        self.write("bindings/rust/Cargo.toml", 'version = "0.1.0"\n')
        self.command("bindings/c/functions", "exit 0")

    def commit(self):
        """Commits all files except those that commands make."""
        self.write(".gitignore", "out/\ndist/\n")
        who = ("-c", "user.name=a", "-c", "user.email=a@example")
        for words in (["init"], ["add", "--all"], [*who, "commit", "--message", "all"]):
            subprocess.run(["git", *words], cwd=self.top, check=True, capture_output=True)

    def test_it_stops_where_the_libraries_fail(self):
        for crate in ("vb_c_gather", "vb_c_compare", "vb_c_aggregate"):
            self.write(f"crates/{crate}/src/lib.rt", "")
        self.command("bin/rt", STOPS)
        self.commit()
        for name in ("run", "release"):
            with self.subTest(name):
                status, lines = self.run_it(f"bindings/{name}")
                self.assertEqual((status, lines[-1]), (1, "1 passed, 1 failed"))
                self.assertLess(len(lines), 30)
                self.assertIn("    crate 1 of 6: low proved", "\n".join(lines))
                self.assertIn("        fn vb_c::first: not proved", lines)
                self.assertEqual(lines[-2], f"all output is in bindings/out/{name}.log")

    def test_build_names_the_crate_that_fails(self):
        self.command("bin/rt", STOPS)
        status, lines = self.run_it("bindings/build", "x86-64-v2")
        self.assertEqual((status, lines[-1]), (1, "1 passed, 1 failed"))
        self.assertIn("failed: library of x86-64-v2", lines)
        self.assertIn("    fn vb_c::first: not proved", lines)
        self.assertEqual(lines[0], "all output is kept in bindings/out/build.log")


class WithoutRt(Folder):
    """Tests that each command reports a missing `rt` at once, and where it comes from."""

    def setUp(self):
        super().setUp()
        self.copy("bindings/refused.sh")

    def test_each_says_so_in_one_line(self):
        commands = {
            "tools/check": [],
            "bindings/run": [],
            "bindings/build": ["x86-64-v2"],
            "bindings/release": [],
            "bench/rows": ["--quick"],
        }
        for path, words in commands.items():
            with self.subTest(path):
                self.copy(path)
                said = self.run_it(path, *words)
                self.assertEqual(said, (1, [NO_RT, "0 passed, 1 failed"]))

    def test_the_commands_that_count_edits_and_bodies_say_so_too(self):
        self.write("crates/low/edits/a.edit", "file: src/lib.rt\nold: one\nnew: two\n")
        for path in ("tools/edits", "tools/plant"):
            with self.subTest(path):
                self.copy(path)
                self.copy("tools/plant-allowed.txt")
                self.assertEqual(self.run_it(path, "low"), (1, [NO_RT]))

    def test_help_prints_what_the_command_does_and_runs_nothing(self):
        """Tests that --help isn't a level for bindings/build, and that bindings/release doesn't
        build."""
        for path in ("tools/check", "bindings/build", "bindings/run", "bindings/release",
                     "bench/rows"):
            with self.subTest(path):
                self.copy(path)
                status, lines = self.run_it(path, "--help")
                comment = (TOP / path).read_text(encoding="utf-8").split("\n")[1]
                self.assertEqual((status, f"# {lines[0]}"), (0, comment))
                self.assertFalse((self.top / "bindings/out").exists())


if __name__ == "__main__":
    unittest.main()
