"""Runs the programs of bindings/c/README.md, by the commands on that page, and tests the names that
it gives for a release.
"""
import re
import shutil
import tempfile
import unittest
from pathlib import Path

from documents.texts import LINK
from tests.test_readme import ARCHIVE, TOP, block, printed

FOLDER = TOP / "bindings/c"
README = (FOLDER / "README.md").read_text()
C = "cc -O2 app.c -I bindings/c bindings/out/libvortex_bits.a"
CPP = C.replace("cc -O2 app.c", "c++ -std=c++17 -O2 app.cpp")
HAS_ARCHIVE = unittest.skipUnless(ARCHIVE.is_file(), f"no {ARCHIVE}: bindings/build makes it")
HAS_C = unittest.skipUnless(shutil.which("cc"), "no cc")
HAS_CPP = unittest.skipUnless(shutil.which("c++"), "no c++")


class CReadme(unittest.TestCase):
    def setUp(self):
        folder = tempfile.TemporaryDirectory()
        self.addCleanup(folder.cleanup)
        self.folder = Path(folder.name)
        (self.folder / "bindings").symlink_to(TOP / "bindings")

    def is_taken(self, command: str, language: str) -> None:
        """Tests that the program compiles without a warning. That needs no archive."""
        code, _ = block(language, README)
        (self.folder / f"app.{language}").write_text(code)
        words = [it for it in command.split() if not it.endswith(".a")]
        flags = ["-fsyntax-only", "-Wall", "-Wextra", "-Wpedantic", "-Werror"]
        self.assertEqual(printed([*words, *flags], cwd=self.folder), [])

    def prints(self, command: str, language: str) -> None:
        """Tests that the program prints the output on the page."""
        code, lines = block(language, README)
        (self.folder / f"app.{language}").write_text(code)
        self.assertEqual(printed(command.split(), cwd=self.folder), [])
        self.assertEqual(printed([str(self.folder / "a.out")]), lines)

    def test_the_page_has_the_commands(self):
        self.assertIn(f"`{C}`", README)
        self.assertIn("For C++ write `c++ -std=c++17` for `cc`.", README)

    @HAS_C
    def test_c_is_taken(self):
        self.is_taken(C, "c")

    @HAS_CPP
    def test_cpp_is_taken(self):
        self.is_taken(CPP, "cpp")

    @HAS_C
    @HAS_ARCHIVE
    def test_c_prints_what_the_page_says(self):
        self.prints(C, "c")

    @HAS_CPP
    @HAS_ARCHIVE
    def test_cpp_prints_what_the_page_says(self):
        self.prints(CPP, "cpp")

    def test_a_release_has_what_is_linked(self):
        for to in LINK.findall(README):
            self.assertRegex(to, r"\Avortex_bits\w*\.(h|hpp)\Z")
            self.assertTrue((FOLDER / to).is_file(), to)

    def test_libraries_and_targets_are_those_of_cmake(self):
        config = (FOLDER / "install/vortex_bits-config.cmake").read_text()
        rows = re.findall(r"^\| `(libvortex\S+)` \| `vortex_bits::(\S+)` \|", README, re.MULTILINE)
        made = re.findall(r"^_vortex_bits_library\((\S+) \w+ (\S+)\)", config, re.MULTILINE)
        self.assertEqual(rows, [(file, target) for target, file in made])


if __name__ == "__main__":
    unittest.main()
