"""Tests bench/rows with crates, a program and measurements of this file."""
import os
import unittest

from tests.test_parts import Folder

# An `rt` that builds an empty library for each crate, and a compiler for C whose output is always a
# script in place of the benchmarks. It reads a source from standard input: if it ended before the
# source is written, the pipe and so bench/rows would fail.
EMPTY = """[ "$1" != doc ] || { echo kit/START-HERE.md; exit 0; }
name=$(basename "$PWD")
echo "rt: chose --jobs 1 for $name"
mkdir -p out && : >"out/lib$name.a"
echo 'logic=proved functions=1'"""
BENCHMARKS = """[ "$1" != -x ] || cat >/dev/null
while [ "$1" != -o ]; do shift; done
cat >"$2" <<'END'
#!/bin/sh
echo '  measures Counts' >&2
echo '| a row |'
echo '{}' >"$3"
[ "$4" != wrong ]
END
chmod +x "$2\""""
OF_OTHERS = (
    "bench/rows: {} isn't empty, and no earlier run made it: name another folder in BENCH_ROOM"
)


class Rows(Folder):
    def setUp(self):
        super().setUp()
        self.copy("bench/rows")
        self.command("bindings/build", "echo '1 passed, 0 failed'")
        self.copy("crates.txt")
        self.write("kit/c/liblibc_c.a", "")
        self.write("bench/library/src/lib.rt.in", "")
        for line in (self.top / "crates.txt").read_text().splitlines():
            if not line.startswith("#") and ":" in line:
                self.write(f"crates/{line.split(':')[0].split()[0]}/src/lib.rt", "")
        self.command("bin/rt", EMPTY.replace("kit/", f"{self.top}/kit/"))
        self.command("bin/cargo", "")
        self.command("bin/cc", BENCHMARKS)
        self.room = self.top / "room"

    def rows(self, *words: str, **environment: str) -> tuple[int, list[str]]:
        environment = {"BENCH_ROOM": str(self.room)} | environment
        given = [f"{name}={it}" for name, it in environment.items()]
        return self.run_it("env", *given, "bench/rows", "--quick", *words, "x86-64-v2")

    def test_each_part_says_how_far_it_is(self):
        status, lines = self.rows()
        self.assertEqual((status, lines[-1]), (0, "5 passed, 0 failed"))
        begun = [it.split(",")[0] for it in lines if it.startswith("part ")]
        names = ["tests of the kernels at", "libraries of", "rows at"]
        wanted = [f"part {k} of 3: {name} x86-64-v2" for k, name in enumerate(names, 1)]
        self.assertEqual(begun, wanted)
        self.assertEqual(lines.count("    measures Counts"), 4)
        self.assertIn("vb_bench proved", "\n".join(lines))
        self.assertIn("| a row |", (self.top / "bench/out/TABLE.md").read_text())
        self.assertEqual(lines[-2], "all output is in bench/out/rows.log")

    def test_it_stops_where_the_rows_fail(self):
        status, lines = self.rows("--only", "wrong")
        self.assertEqual((status, lines[-1]), (1, "4 passed, 1 failed"))
        self.assertIn("failed: rows at x86-64-v2", lines)
        self.assertFalse((self.top / "bench/out/TABLE.md").exists())

    def test_a_folder_with_files_of_others_stays_as_it_is(self):
        for room in (self.top, self.top / "bench"):
            with self.subTest(room):
                before = sorted(self.top.rglob("*"))
                said = self.rows(BENCH_ROOM=str(room))
                self.assertEqual(said, (2, [OF_OTHERS.format(room)]))
                self.assertEqual(sorted(self.top.rglob("*")), before)

    def test_an_empty_folder_and_the_room_of_an_earlier_run_are_taken(self):
        self.room.mkdir()
        self.assertEqual(self.rows()[0], 0)
        self.write("room/crates/earlier/src/lib.rt", "")
        self.assertEqual(self.rows()[0], 0)
        self.assertFalse((self.room / "crates/earlier").exists())

    def test_the_default_room_of_an_older_version_is_taken(self):
        name = f"vb_bench.{os.getuid()}"
        self.write(f"{name}/crates.txt", "")
        self.assertEqual(self.rows(BENCH_ROOM="", TMPDIR=str(self.top))[0], 0)
        self.assertTrue((self.top / name / "crates/vb_bench").is_dir())

    def test_wrong_words_are_told_before_anything_is_written(self):
        wrong = "UPSTREAM=none is neither 1 nor a folder with the crate vortex-buffer"
        self.assertEqual(self.rows(UPSTREAM="none"), (2, [f"bench/rows: {wrong}"]))
        command = ["bench/rows", "--quick", "--only"]
        self.assertEqual(self.run_it(*command), (2, ["bench/rows: --only needs a word"]))
        self.assertFalse(self.room.exists())


if __name__ == "__main__":
    unittest.main()
