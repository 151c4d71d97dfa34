"""Tests that a call over a counted source without a bound on its looks is found."""
import unittest
from pathlib import Path

from documents.files import Repository
from documents.looks import FACADE, PROMISES, looks

TOP = Path(__file__).resolve().parents[3]
BOUND = """pub fn most_looks(len: usize) -> usize
    ensures value { result ≡ len / 512 + 16 }
    ensures most { (offset : ℕ) → looks offset len ≤ result }
    ensures short { len ≤ 512 → (offset : ℕ) → looks offset len ≤ 16 }
{
"""
ONE = """pub fn one_by<G: Glance>(src: &mut G, offset: usize, len: usize) -> usize
    requires window { InBytes (G.seen src.old).bytes offset len }
    ensures looks { LooksAtMost (looks offset len) (G.seen src.old) (G.seen src.new) }
{
"""
PAIR = """pub fn pair_by<L: Glance, R: Glance>(
    left: &mut L,
    right: &mut R,
    len: usize,
) -> usize
    ensures looks { LooksExactly 16 (L.seen left.old) (L.seen left.new) }
    ensures beside { LooksExactly (of_both len) (R.seen right.old) (R.seen right.new) }
    ensures most { of_both len ≤ len / 512 + 16 }
{
"""
SOURCE, FROM = "crates/low/src/lib.rt", "pub fn from(src: &mut impl Glance) {}\n"
TABLE = """# Promises

### Looks

| Calls | Source | Its looks | Why |
|---|---|---|---|
| `one_by` | `src` | `looks` | `most`, `short` of `most_looks` |
| `pair_by` | `left` | `looks` | 16 |
| `pair_by` | `right` | `beside` | `most` |

## What is only tested
| `two_by` | `src` | `looks` | 16 |
"""


class Sources(Repository):
    """A table, a crate and the top crate, with one text replaced."""

    def __init__(self, old: str = "", new: str = "", given: str = "low::one_by") -> None:
        super().__init__(TOP)
        texts = {PROMISES: TABLE, SOURCE: BOUND + ONE + PAIR + FROM, FACADE: f"pub use {given};\n"}
        if old and sum(it.count(old) for it in texts.values()) != 1:
            raise ValueError(f"`{old}` isn't there once")
        self.texts = {path: it.replace(old, new) if old else it for path, it in texts.items()}
        self.code = self.texts

    def read(self, path: str) -> str:
        return self.texts[path]


class Looks(unittest.TestCase):
    def found(self, old: str, new: str) -> str:
        """Returns the only fault."""
        found = looks(Sources(old, new))
        self.assertEqual(len(found), 1, found)
        return found[0].removeprefix(f"{PROMISES}: ")

    def test_the_repository_has_a_row_for_each_call(self):
        self.assertEqual(looks(Repository(TOP)), [])
        self.assertEqual(looks(Sources()), [])

    def test_a_call_without_a_row_is_found(self):
        lacking = "no row of ### Looks has `two_by` with its source `src`"
        two = ONE.replace("one_by", "two_by")
        self.assertEqual(self.found(FROM, two), lacking)
        within = "impl Set {\n" + "".join(f"    {it}\n" for it in two.splitlines()) + "}\n"
        self.assertEqual(self.found(FROM, within), lacking)
        bound = two.replace("<G: Glance>", "<G: Sized + Glance>")
        self.assertEqual(self.found(FROM, bound), lacking)
        named = two.replace("<G: Glance>", "").replace("&mut G", "&mut impl Glance")
        self.assertEqual(self.found(FROM, named), lacking)

    def test_a_call_that_is_given_to_users_needs_a_row_by_any_name(self):
        found = looks(Sources(FROM, ONE.replace("one_by", "from"), "low::{from, one_by}"))
        lacking = "no row of ### Looks has `from` with its source `src`"
        self.assertEqual(found, [f"{PROMISES}: {lacking}"])
        self.assertEqual(looks(Sources(FROM, ONE.replace("one_by", "from"))), [])

    def test_a_second_source_needs_a_row(self):
        found = self.found("| `pair_by` | `left` | `looks` | 16 |\n", "")
        self.assertEqual(found, "no row of ### Looks has `pair_by` with its source `left`")

    def test_a_row_of_no_call_is_found(self):
        found = self.found("| `one_by` |", "| `one_by`, `gone_by` |")
        self.assertEqual(found, "`gone_by` has no counted source `src`")

    def test_a_clause_that_is_not_there_is_found(self):
        lacking = "`pair_by` has no clause `beside` with the looks at `right`"
        self.assertEqual(self.found("ensures beside", "ensures other"), lacking)
        both = "(of_both len) (R.seen right.old)", "(of_both len) (L.seen left.old)"
        self.assertEqual(self.found(*both), lacking)

    def test_looks_without_a_bound_are_found(self):
        said = "`pair_by` isn't bounded: `most` isn't `of_both len ≤ len / 512 + 16`"
        most, twice = "most { of_both len ≤ len / 512 + 16 }", "twice { of_both len ≤ 2 * len }"
        self.assertEqual(self.found(most, twice), said)
        self.assertEqual(self.found("of_both len ≤ len / 512 + 16", "of_both len ≤ len"), said)
        other = self.found("LooksExactly (of_both len)", "LooksExactly (of_all len)")
        self.assertEqual(other, said.replace("of_both", "of_all"))
        none = self.found("| `beside` | `most` |", "| `beside` | it is so |")
        self.assertEqual(none, "`pair_by` has no bound on the looks at `right`")

    def test_more_than_sixteen_looks_are_found(self):
        found = self.found("LooksExactly 16", "LooksExactly 17")
        self.assertEqual(found, "`pair_by` takes 17 looks")

    def test_another_bound_of_most_looks_is_found(self):
        for old, new, clause in [
            ("result ≡ len / 512 + 16", "result ≡ len / 256 + 16", "value"),
            ("looks offset len ≤ result", "looks 0 len ≤ result", "most"),
            ("looks offset len ≤ 16", "looks offset len ≤ 17", "short"),
        ]:
            self.assertIn(f"`one_by` isn't bounded: `{clause}` isn't", self.found(old, new))
        other = self.found("LooksAtMost (looks offset len)", "LooksAtMost (bytes offset len)")
        self.assertIn("of which `most_looks` says nothing", other)


if __name__ == "__main__":
    unittest.main()
