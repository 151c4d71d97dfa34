"""Tests bindings/release in a repository for the test, with and without uncommitted changes, and
with programs of this file in place of compilers."""
import os
import subprocess
import tempfile
import unittest
from pathlib import Path
from shutil import copy

TOP = Path(__file__).resolve().parent.parent.parent
# A bindings/build that fails. This ends bindings/release, after the steps that are tested.
BUILD = "#!/bin/sh\necho builds >&2\nexit 3\n"
BUILDS = "failed: libraries\n    builds\n"
# A pkg-config whose flags have a path with a space, a compiler that accepts only that path, and a
# program that fails.
PKG_CONFIG = "#!/bin/sh\necho '-I/with\\ space -lvortex_bits'\n"
CC = """#!/bin/sh
[ "$4" = "-I/with space" ] || exit 1
while [ $# -gt 1 ]; do shift; done
printf '#!/bin/sh\\necho ran' >"$1"
chmod +x "$1"
"""
FAILS = "#!/bin/sh\nexit 1\n"
BUILDS_VBITS = "#!/bin/sh\nmkdir -p out && echo vbits >out/vbits\n"


class Release(unittest.TestCase):
    def setUp(self):
        # The path has what a shell or a flag could divide.
        folder = tempfile.TemporaryDirectory(prefix="a folder's, ")
        self.addCleanup(folder.cleanup)
        self.top = Path(folder.name)
        rust = self.top / "bindings" / "rust"
        rust.mkdir(parents=True)
        (rust / "Cargo.toml").write_text('version = "0.0.0-r0"\n')
        (self.top / ".gitignore").write_text("out/\ndist/\n")
        build = self.top / "bindings" / "build"
        build.write_text(BUILD)
        build.chmod(0o755)
        copy(TOP / "bindings" / "release", self.top / "bindings")
        tools = self.top / "tools"
        tools.mkdir()
        copy(TOP / "tools" / "parts.sh", tools)
        (self.top / "crates.txt").touch()
        # It is never called.
        (tools / "rt").touch(0o755)
        self.git("init", "--quiet")
        self.commit()

    def git(self, *words: str) -> None:
        who = ("-c", "user.name=a", "-c", "user.email=a@example")
        subprocess.run(["git", *who, *words], cwd=self.top, check=True)

    def commit(self) -> None:
        self.git("add", "--all")
        self.git("commit", "--quiet", "--message", "all")

    def release(self) -> subprocess.CompletedProcess:
        env = {it: os.environ[it] for it in os.environ if it != "PARTS_LOG"}
        env["PATH"] = f"{self.top / 'tools'}:{env['PATH']}"
        command = self.top / "bindings" / "release"
        return subprocess.run([command], capture_output=True, text=True, env=env)

    def builds(self) -> None:
        ended = self.release()
        self.assertEqual((ended.returncode, ended.stderr), (1, ""))
        self.assertIn(BUILDS, ended.stdout)
        self.assertEqual(ended.stdout.splitlines()[-1], "0 passed, 1 failed")

    def refused(self, change: str) -> None:
        (self.top / "dist").mkdir()
        (self.top / "dist" / "kept").touch()
        ended = self.release()
        said = f"bindings/release: there are changes that no commit has:\n{change}\n"
        self.assertEqual((ended.returncode, ended.stderr), (1, said))
        self.assertTrue((self.top / "dist" / "kept").exists())

    def program(self, path: str, text: str) -> None:
        (self.top / path).write_text(text)
        (self.top / path).chmod(0o755)

    def test_all_is_committed(self):
        self.builds()

    def test_the_last_release_stays_if_a_build_fails(self):
        kept = self.top / "dist/kept"
        kept.parent.mkdir()
        kept.touch()
        self.builds()
        self.assertTrue(kept.exists())
        self.program("bindings/build", "#!/bin/sh\n")
        self.program("tools/rt", FAILS)
        self.commit()
        self.assertIn("failed: vbits at x86-64-v2", self.release().stdout)
        self.assertTrue(kept.exists())

    def test_flags_of_a_package_in_a_path_with_a_space(self):
        (self.top / "crates/vbits").mkdir(parents=True)
        (self.top / "crates/vbits/stdin").touch()
        self.program("bindings/build", "#!/bin/sh\n")
        self.program("tools/rt", BUILDS_VBITS)
        self.program("tools/pkg-config", PKG_CONFIG)
        self.program("tools/cc", CC)
        for name in ("cargo", "cmake"):
            self.program(f"tools/{name}", FAILS)
        self.commit()
        lines = self.release().stdout.splitlines()
        for name in ("sums of the files in dist", "C by pkg-config", "C by pkg-config, shared"):
            self.assertIn(f"ok      {name}", lines)
        version = "0.0.0-r0"
        self.assertEqual((self.top / f"dist/vbits-{version}-x86-64-v3").read_text(), "vbits\n")

    def test_a_file_that_is_ignored(self):
        (self.top / "out").mkdir()
        (self.top / "out" / "made").touch()
        self.builds()

    def test_a_file_that_was_changed(self):
        (self.top / "bindings/build").write_text(BUILD + "#\n")
        self.refused(" M bindings/build")

    def test_a_file_that_was_changed_and_added(self):
        (self.top / "bindings/build").write_text(BUILD + "#\n")
        self.git("add", "--all")
        self.refused("M  bindings/build")

    def test_a_file_that_is_new(self):
        (self.top / "new").touch()
        self.refused("?? new")

    def test_a_file_that_has_gone(self):
        (self.top / "bindings/rust/Cargo.toml").unlink()
        self.commit()
        (self.top / "bindings/rust/Cargo.toml").write_text('version = "0.0.0-r0"\n')
        self.refused("?? bindings/rust/")


if __name__ == "__main__":
    unittest.main()
