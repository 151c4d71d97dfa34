"""Tests tools/try-tests with an `rt` that a test of this file writes."""
import os
import subprocess
import tempfile
import unittest
from pathlib import Path

COMMAND = Path(__file__).resolve().parent.parent / "try-tests"
GOOD = "echo 'test result: ok. 8 passed; 0 failed; 0 ignored; 0 filtered out'"
BAD = "echo 'test result: FAILED. 6 passed; 2 failed; 0 ignored; 0 filtered out'; exit 101"
REFUSED = "echo 'questions.rt:46:27: error[mismatched-types]'; exit 1"


class TryTests(unittest.TestCase):
    def said(self, rt: str, *words: str) -> tuple[int, str]:
        """Returns the status and all output; `rt` is the shell text with that name."""
        with tempfile.TemporaryDirectory() as folder:
            command = Path(folder, "rt")
            command.write_text(f"#!/bin/sh\n{rt}\n")
            command.chmod(0o755)
            there = {**os.environ, "PATH": f"{folder}:{os.environ['PATH']}"}
            ended = subprocess.run([COMMAND, *words], env=there, capture_output=True, text=True)
        return ended.returncode, ended.stdout + ended.stderr

    def test_good_crates_are_counted(self):
        status, text = self.said(GOOD, "vb_ranked_tests", "vb_set_tests")
        self.assertEqual((status, text.splitlines()[-1]), (0, "16 passed, 0 failed"))
        self.assertIn("vb_ranked_tests: 8 passed, 0 failed", text)

    def test_a_failing_crate_says_all(self):
        status, text = self.said(BAD, "vb_ranked_tests")
        self.assertEqual((status, text.splitlines()[-1]), (1, "6 passed, 2 failed"))
        self.assertIn("FAILED. 6 passed", text)

    def test_a_refused_crate_has_failed(self):
        status, text = self.said(REFUSED, "vb_ranked_tests")
        self.assertEqual((status, text.splitlines()[-1]), (1, "0 passed, 1 failed"))
        self.assertIn("questions.rt:46:27", text)

    def test_flags_and_words_are_handed_on(self):
        given = f"echo \"$@\"; {BAD}"
        text = self.said(given, "--only", "rows", "vb_ranked_tests", "--", "--seconds", "9")[1]
        self.assertIn("try --test --seconds 9 -- rows", text)

    def test_what_is_unknown_is_said(self):
        text = self.said(GOOD, "vb_nothing")[1]
        self.assertEqual(text, "try-tests: no crate is named vb_nothing\n")
        self.assertEqual(self.said(GOOD, "vb_bits")[1], "try-tests: vb_bits has no test\n")
        none = GOOD.replace("8 passed", "0 passed")
        self.assertNotEqual(self.said(none, "--only", "nothing", "vb_ranked_tests")[0], 0)


if __name__ == "__main__":
    unittest.main()
