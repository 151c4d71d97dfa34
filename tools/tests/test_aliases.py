"""Tests that a search for the field's words finds the calls of bindings/rust."""
import re
import unittest
from pathlib import Path

SOURCES = Path(__file__).resolve().parent.parent.parent / "bindings" / "rust" / "src"
WORDS = """popcount cardinality union intersection difference symmetric_difference complement concat
null null_count gather scatter pdep pext compress pack rank1 select1 select0 bitset runs positions
hamming push""".split()


class Aliases(unittest.TestCase):
    def test_each_word_leads_to_a_call(self):
        text = "".join(it.read_text(encoding="utf-8") for it in sorted(SOURCES.rglob("*.rs")))
        listed = " ".join(re.findall(r"#\[doc\(alias([^\]]*)\)\]", text))
        found = set(re.findall(r'"(\w+)"', listed))
        self.assertEqual([it for it in WORDS if it not in found], [])


if __name__ == "__main__":
    unittest.main()
