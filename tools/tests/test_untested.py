"""Tests tools/untested over a few crates that a test of this file writes."""
import shutil
import subprocess
import tempfile
import unittest
from pathlib import Path

COMMAND = Path(__file__).resolve().parent.parent / "untested"
SET = """\
impl<A: Allocator + Clone> Set<A> {
    pub fn new(alloc: A) -> Result<Self, BufferError>
        ensures refused { IsOkUnless result BufferError.OutOfMemory }
    {
        inner(alloc)
    }

    pub fn append(&mut self, v: bool) -> Result<(), BufferError> {
        Ok(())
    }

    pub fn find(&self, v: bool) -> Result<(), usize> {
        Ok(())
    }

    fn inner(alloc: A) -> Result<Self, BufferError> {
        Err(BufferError::OutOfMemory)
    }
}

impl<A: Allocator + Clone> Hidden<A> {
    pub fn new(alloc: A) -> Result<Self, BufferError> {
        Hidden
    }
}
"""


class Untested(unittest.TestCase):
    def said(self, test: str, *words: str) -> tuple[int, list[str]]:
        """Returns the status and the lines if this text is the only test."""
        sources = {
            "vortex_buffer": "pub use low::{Set,\n    join};\n",
            "vb_script": "pub use low::Absent;\n",
            "low": SET + "\npub fn join(alloc: A) -> Result<Set, BufferError> {\n}\n",
            "low_tests": test,
        }
        with tempfile.TemporaryDirectory() as folder:
            for crate, text in sources.items():
                path = Path(folder, "crates", crate, "src/lib.rt")
                path.parent.mkdir(parents=True)
                path.write_text(text)
            command = Path(folder, "tools/untested")
            command.parent.mkdir()
            shutil.copy(COMMAND, command)
            ended = subprocess.run([command, *words], capture_output=True, text=True)
        return ended.returncode, ended.stdout.splitlines()

    def test_public_calls_that_ask_for_memory_are_listed(self):
        calls = ["low: Set::new", "low: Set::append", "low: join"]
        self.assertEqual(self.said(""), (1, [*calls, "3 calls, 3 in no test"]))

    def test_a_call_counts_where_it_is_written(self):
        test = "let mut set = Set::new(alloc)?;\nset.append(true)?;\njoin(alloc)?;\n"
        self.assertEqual(self.said(test), (0, ["3 calls, 0 in no test"]))

    def test_another_type_runs_a_method_and_no_maker(self):
        status, lines = self.said("let list = Other::new(alloc)?;\nlist.append(1)?;\n")
        found = (status, lines[0], lines[-1])
        self.assertEqual(found, (1, "low: Set::new", "3 calls, 2 in no test"))

    def test_a_longer_name_is_another_one(self):
        status, lines = self.said("set.append_all(true)?;\nself.join(alloc)?;\nSet::newer();\n")
        self.assertEqual((status, lines[-1]), (1, "3 calls, 3 in no test"))

    def test_an_unknown_argument_is_refused(self):
        status, lines = self.said("", "--al")
        self.assertEqual((status, lines[-1]), (2, ""))
        self.assertIn("usage: tools/untested [--all]", lines)
        self.assertEqual(self.said("", "--all")[0], 1)


if __name__ == "__main__":
    unittest.main()
