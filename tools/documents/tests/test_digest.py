"""Tests which files the digest of the archives covers."""
import subprocess
import tempfile
import unittest
from pathlib import Path

from documents.digest import DIGEST, below, digest, libraries, sources, written_digest
from documents.files import Repository
from documents.written import not_written

FILES = {
    "bindings/build": "here=x\ncrates=(one_c two_c)\n",
    "bindings/rust/src/digest.rs": '//! Of "sources".\n    "00"\n',
    "crates.txt": "# one_c: other\nlow: core\nmiddle: low\none_c staticlib: middle\ntwo_c: low\n"
    "other: low\n",
    "crates/low/src/lib.rt": "fn low()\n",
    "crates/low/src/of/it.rt": "fn it()\n",
    "crates/low/specs/Lib.antt": "f = b\n",
    "crates/low/proofs/Lib.antt": "by f\n",
    "crates/low/edits/a.edit": "old: f\n",
    "crates/low/out/lib.a": "made",
    "crates/one_c/src/lib.rt": "fn vb_one()\n",
    "crates/other/src/lib.rt": "fn other()\n",
}


class Digests(unittest.TestCase):
    def setUp(self):
        folder = tempfile.TemporaryDirectory()
        self.addCleanup(folder.cleanup)
        self.root = Path(folder.name)
        for path, text in FILES.items():
            self.write(path, text)

    def write(self, path: str, text: str) -> None:
        (self.root / path).parent.mkdir(parents=True, exist_ok=True)
        (self.root / path).write_text(text, encoding="utf-8")

    def digest(self) -> str:
        return digest(Repository(self.root))

    def test_the_crates_are_those_below_the_libraries(self):
        repository = Repository(self.root)
        self.assertEqual(libraries(repository), ["one_c", "two_c"])
        wanted = {"low", "middle", "one_c", "two_c"}
        self.assertEqual(below(libraries(repository), repository), wanted)
        self.assertEqual(below(["middle"], repository), {"low", "middle"})

    def test_it_is_that_of_what_sha256sum_prints(self):
        paths = sources(Repository(self.root))
        self.assertEqual(paths, [
            "crates/low/specs/Lib.antt", "crates/low/src/lib.rt", "crates/low/src/of/it.rt",
            "crates/one_c/src/lib.rt",
        ])
        script = 'sha256sum "$@" | sha256sum'
        command = ["sh", "-c", script, "sh", *paths]
        printed = subprocess.run(command, cwd=self.root, capture_output=True, text=True).stdout
        self.assertEqual(f"{self.digest()}  -\n", printed)

    def test_sources_change_it(self):
        seen = {self.digest()}
        for path in sources(Repository(self.root)):
            self.write(path, FILES[path] + "\n")
            seen.add(self.digest())
        self.write("crates/two_c/src/lib.rt", "")
        seen.add(self.digest())
        (self.root / "crates/low/src/of/it.rt").rename(self.root / "crates/low/src/it.rt")
        seen.add(self.digest())
        self.assertEqual(len(seen), 7)

    def test_other_files_do_not(self):
        before = self.digest()
        for path in (
            "crates/low/proofs/Lib.antt", "crates/low/edits/a.edit", "crates/low/out/lib.a",
            "crates/other/src/lib.rt", "bindings/rust/src/digest.rs",
        ):
            self.write(path, FILES[path] + "\n")
            self.assertEqual(self.digest(), before, path)

    def test_it_is_written_and_compared(self):
        repository = Repository(self.root)
        text = written_digest(repository)
        self.assertEqual(text, f'//! Of "sources".\n    "{self.digest()}"\n')
        for path in ("crates/vb_pair/src/lib.rt", "crates/vb_kernel/src/lib.rt"):
            self.write(path, "")
        for path in ("crates/vortex_buffer/src/lib.rt", "crates/vortex_buffer_tests/src/reached.rt",
                     "bindings/rust/src/native.rs", "bindings/c/library/made.h", "docs/LAYERS.md"):
            self.write(path, "")
        wanted = f"{DIGEST}: isn't what tools/write-lists makes of its list: run it"
        self.assertIn(wanted, not_written(repository))
        self.write(DIGEST, text)
        self.assertNotIn(wanted, not_written(repository))


if __name__ == "__main__":
    unittest.main()
