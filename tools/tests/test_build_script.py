"""Tests when cargo builds the Rust crate again."""
import os
import shutil
import subprocess
import tempfile
import unittest
from pathlib import Path

CRATE = Path(__file__).resolve().parent.parent.parent / "bindings/rust"


@unittest.skipUnless(shutil.which("cargo"), "no cargo")
class BuildScript(unittest.TestCase):
    def setUp(self):
        folder = tempfile.TemporaryDirectory()
        self.addCleanup(folder.cleanup)
        self.crate = Path(folder.name) / "crate"
        left_out = shutil.ignore_patterns("target", "*.a", "Cargo.lock")
        shutil.copytree(CRATE, self.crate, ignore=left_out)
        self.target = Path(folder.name) / "target"

    def build(self, profile: str = "dev", fails: bool = False, **variables: str) -> str:
        """Builds the crate, tests whether that fails, and returns what cargo prints."""
        kept = {name: it for name, it in os.environ.items() if name != "VORTEX_BITS_NATIVE"}
        ended = subprocess.run(
            ["cargo", "build", "--offline", "--profile", profile],
            cwd=self.crate,
            env={**kept, **variables, "CARGO_TARGET_DIR": str(self.target)},
            capture_output=True,
            text=True,
        )
        self.assertEqual(ended.returncode != 0, fails, ended.stderr)
        return ended.stderr

    def compiles(self) -> bool:
        """Returns whether a build compiles the crate."""
        return "Compiling vortex_bits" in self.build()

    def test_a_second_build_compiles_nothing_where_there_are_no_archives(self):
        self.assertEqual((self.compiles(), self.compiles()), (True, False))

    def test_files_that_come_to_the_folder_of_archives_are_seen(self):
        self.assertTrue(self.compiles())
        (self.crate / "native/another.txt").touch()
        self.assertTrue(self.compiles())

    def test_a_package_without_the_folder_is_built_once_too(self):
        shutil.rmtree(self.crate / "native")
        self.assertEqual((self.compiles(), self.compiles()), (True, False))

    def test_a_relative_folder_of_archives_is_one_of_the_crate(self):
        # rustc may run in another folder than the build script, so it gets the whole path.
        folder = self.crate / "elsewhere"
        self.assertIn(f"no {folder}/libvortex_bits", self.build(VORTEX_BITS_NATIVE="elsewhere"))

    def test_an_empty_variable_names_no_folder(self):
        own = self.crate / "native"
        self.assertIn(f"no {own}/libvortex_bits", self.build(VORTEX_BITS_NATIVE=""))

    @unittest.skipUnless(Path("/proc/self/mem").exists(), "no file that no one can read")
    def test_archives_that_cannot_be_read_are_said_to_be_so(self):
        archives = [self.crate / f"native/libvortex_bits_0_91_{level}.a" for level in ("v2", "v3")]
        for archive in archives:
            archive.symlink_to("/proc/self/mem")
        said = self.build(fails=True)
        for archive in archives:
            self.assertIn(f"{archive} can't be read: ", said)

    def test_a_missing_folder_is_seen_after_the_command_of_the_warning(self):
        command = f"touch '{self.crate}/Cargo.toml'"
        self.assertNotIn(command, self.build())
        for profile in ("dev", "release"):
            self.assertIn(command, self.build(profile, VORTEX_BITS_NATIVE=profile))
            (self.crate / profile).mkdir()
            subprocess.run(command, shell=True, check=True)
            said = self.build(profile, VORTEX_BITS_NATIVE=profile)
            self.assertIn("Compiling vortex_bits", said)
            self.assertNotIn(command, said)


if __name__ == "__main__":
    unittest.main()
