"""Runs the programs of README.md, by the commands next to them."""
import os
import re
import shutil
import subprocess
import tempfile
import unittest
from pathlib import Path

TOP = Path(__file__).resolve().parent.parent.parent
README = (TOP / "README.md").read_text()
ARCHIVE = TOP / "bindings/out/libvortex_bits.a"
VBITS = TOP / "crates/vbits/out/vbits"


def block(language: str, document: str = README) -> tuple[str, list[str]]:
    """Returns the one block of a language, and the lines that the text after it says it prints."""
    found = re.findall(
        rf"^```{language}\n(.*?)^```\n\nIt prints (.*?)[.:] ", document, re.MULTILINE | re.DOTALL
    )
    assert len(found) == 1, f"{len(found)} blocks of {language}"
    return found[0][0], re.findall(r"`([^`]+)`", found[0][1])


def printed(command: list[str], **options) -> list[str]:
    ended = subprocess.run(command, capture_output=True, text=True, check=False, **options)
    assert ended.returncode == 0, ended.stderr
    return ended.stdout.splitlines()


class Readme(unittest.TestCase):
    def setUp(self):
        folder = tempfile.TemporaryDirectory()
        self.addCleanup(folder.cleanup)
        self.folder = Path(folder.name)

    @unittest.skipUnless(shutil.which("cargo"), "no cargo")
    def test_rust_runs_over_a_clone_as_it_is(self):
        code, lines = block("rs")
        dependency = 'vortex_bits = { path = "/path/to/clone/bindings/rust" }'
        self.assertIn(f"`{dependency}`", README)
        dependency = dependency.replace("/path/to/clone", str(TOP))
        (self.folder / "src").mkdir()
        (self.folder / "src/main.rs").write_text(code)
        package = '[package]\nname = "app"\nedition = "2024"\n[dependencies]\n'
        (self.folder / "Cargo.toml").write_text(f"{package}{dependency}\n")
        env = {**os.environ, "CARGO_TARGET_DIR": str(self.folder / "target")}
        command = ["cargo", "run", "--quiet", "--offline"]
        self.assertEqual(printed(command, cwd=self.folder, env=env), lines)

    @unittest.skipUnless(shutil.which("cargo"), "no cargo")
    def test_demo_draws_the_file_that_ships(self):
        (command,) = re.findall(r"`(demo/query demo/\S+ --where .*?)`", README)
        lines = printed(["sh", "-c", command], cwd=TOP)
        self.assertRegex(lines[0], r"^demo/parcels\.csv: \d+ rows, \d+ columns; \d+ kept, ")
        self.assertIn(f'where {re.findall("--where (.*)", command)[0].strip(chr(34))}', lines)

    def test_rattle_is_the_program_of_run_readme(self):
        (code,) = re.findall(r"^```rust\n(#!.*?)^```", README, re.MULTILINE | re.DOTALL)
        self.assertEqual(code, (TOP / "crates/run_readme/src/main.rt").read_text())

    def test_it_has_at_most_900_words(self):
        self.assertLessEqual(len(README.split()), 900)

    @unittest.skipUnless(shutil.which("cc"), "no cc")
    @unittest.skipUnless(ARCHIVE.is_file(), f"no {ARCHIVE}: bindings/build makes it")
    def test_c_runs_over_the_archive(self):
        code, lines = block("c")
        command = "cc -O2 app.c -I bindings/c bindings/out/libvortex_bits.a"
        self.assertIn(f"`{command}`", README)
        (self.folder / "app.c").write_text(code)
        (self.folder / "bindings").symlink_to(TOP / "bindings")
        self.assertEqual(printed(command.split(), cwd=self.folder), [])
        self.assertEqual(printed([str(self.folder / "a.out")]), lines)

    @unittest.skipUnless(VBITS.is_file(), f"no {VBITS}: `rt run` makes it")
    def test_vbits_answers(self):
        code, lines = block("sh")
        self.assertEqual(printed(["sh", "-c", code], cwd=TOP), lines)


if __name__ == "__main__":
    unittest.main()
