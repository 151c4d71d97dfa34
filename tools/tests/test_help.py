"""Tests that commands describe themselves if they get --help or no argument that they know, and
then write nothing."""
import subprocess
import tempfile
import unittest
from pathlib import Path

TOP = Path(__file__).resolve().parent.parent.parent
COMMANDS = [
    ("tools/check-program", "--help"),
    ("tools/check-program", "vbit"),
    ("tools/vendor", "--help"),
    ("bindings/c/functions", "--help"),
    ("bindings/gdal/compare", "--help"),
    ("bindings/gdal/make_parcels.py", "--help"),
]


class Help(unittest.TestCase):
    def test_a_command_prints_its_description(self):
        for command, word in COMMANDS:
            described = (TOP / command).read_text(encoding="utf-8").split('"""')[1]
            with tempfile.TemporaryDirectory() as folder:
                ended = subprocess.run([TOP / command, word], cwd=folder, capture_output=True,
                                       text=True)
                written = list(Path(folder).iterdir())
            said = ended.stdout.strip(), ended.stderr, written
            self.assertEqual(said, (described.strip(), "", []), command)


if __name__ == "__main__":
    unittest.main()
