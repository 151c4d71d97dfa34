"""Tests tools/vendor into folders that are empty, copied to before, or changed by hand."""
import os
import subprocess
import tempfile
import unittest
from pathlib import Path

COMMAND = Path(__file__).resolve().parent.parent / "vendor"
SOURCE = "crates/vb_bits/src/lib.rt"
# The checksum of an empty file.
EMPTY = "e3b0c44298fc1c149afbf4c8996fb92427ae41e4649b934ca495991b7852b855"


class Vendor(unittest.TestCase):
    def setUp(self):
        self.folder = tempfile.TemporaryDirectory()
        self.top = Path(self.folder.name)

    def tearDown(self):
        self.folder.cleanup()

    def vendor(self, **environment: str) -> tuple[int, str]:
        """Returns the status and standard error."""
        ended = subprocess.run([COMMAND, self.top], capture_output=True, text=True,
                               env=os.environ | environment)
        return ended.returncode, ended.stderr

    def test_crates_and_their_lines_are_copied(self):
        (self.top / "crates.txt").write_text("# ours\nmine: vortex_buffer\n")
        self.assertEqual(self.vendor(), (0, ""))
        lines = (self.top / "crates.txt").read_text().splitlines()
        self.assertEqual(lines[:2], ["# ours", "mine: vortex_buffer"])
        self.assertIn("vb_bits:", lines)
        self.assertTrue((self.top / SOURCE).is_file())
        self.assertTrue((self.top / "crates/vortex_buffer/LICENSE").is_file())
        self.assertFalse((self.top / "crates/vb_bits/edits").exists())
        self.assertIn("commit", (self.top / "vortex_buffer.vendored").read_text())

    def test_an_older_copy_is_brought_up_to_date(self):
        self.vendor()
        record = self.top / "vortex_buffer.vendored"
        gone = self.top / "crates/vb_bits/src/gone.rt"
        gone.write_text("")
        record.write_text(record.read_text() + f"{EMPTY}  crates/vb_bits/src/gone.rt\n")
        self.assertEqual(self.vendor(), (0, ""))
        self.assertFalse(gone.exists())

    def test_a_crate_that_is_no_longer_needed_leaves_no_folder(self):
        self.vendor()
        record = self.top / "vortex_buffer.vendored"
        gone = self.top / "crates/gone/src/lib.rt"
        gone.parent.mkdir(parents=True)
        gone.write_text("")
        record.write_text(record.read_text() + f"{EMPTY}  crates/gone/src/lib.rt\n")
        self.assertEqual(self.vendor(), (0, ""))
        self.assertFalse((self.top / "crates/gone").exists())

    def test_changes_by_hand_are_refused(self):
        self.vendor()
        (self.top / SOURCE).write_text("mine")
        self.assertEqual(self.vendor(), (1, f"vendor: {SOURCE} was changed by hand\n"))
        self.assertEqual((self.top / SOURCE).read_text(), "mine")

    def test_a_crate_of_the_same_name_is_refused(self):
        (self.top / "crates/vb_bits").mkdir(parents=True)
        refused = "vendor: crates/vb_bits is there, and no earlier copy brought it\n"
        self.assertEqual(self.vendor(), (1, refused))
        self.assertFalse((self.top / "crates/vb_core").exists())

    def test_a_file_of_the_same_name_is_refused(self):
        self.vendor()
        # As if the earlier copy had no such file, and the user wrote one.
        record = self.top / "vortex_buffer.vendored"
        lines = record.read_text().splitlines(keepends=True)
        record.write_text("".join(it for it in lines if not it.endswith(f"{SOURCE}\n")))
        (self.top / SOURCE).write_text("mine")
        refused = f"vendor: {SOURCE} is there, and no earlier copy brought it\n"
        self.assertEqual(self.vendor(), (1, refused))
        self.assertEqual((self.top / SOURCE).read_text(), "mine")

    def test_without_a_repository_nothing_is_written(self):
        top = COMMAND.parent.parent
        # As in an unpacked archive: git sees no repository above this folder.
        refused = f"vendor: git can't tell the commit of {top}\n"
        self.assertEqual(self.vendor(GIT_DIR="/nonexistent"), (1, refused))
        self.assertEqual(list(self.top.iterdir()), [])


if __name__ == "__main__":
    unittest.main()
