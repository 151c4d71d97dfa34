"""Tests that a call is found whose docstring promises a cost and that has no row in docs/costs.csv.
"""
import unittest
from pathlib import Path

from documents.costs import COSTS, FACADE, PROMISE, costs
from documents.files import Repository

TOP = Path(__file__).resolve().parents[3]
SET = """impl<A: Allocator + Clone> Set<A> {
    /// Another owner, in constant time.
    pub fn clone(&self) -> Result<Self>
    {
    }

    /// How many bits there are.
    pub fn len(&self) -> usize
    {
    }

    /// Reads it whole, in constant time.
    fn hidden(&self) -> usize {
    }
}

/// Copies
/// bits. It goes by words.
#[inline(always)]
pub fn copy(to: &mut [u8]) {
}

pub trait Open: Sized {
    /// The set, opened in constant time.
    fn open(self) -> Self;
}
"""
PROGRAM = 'pub const ROWS: &[&str] = &[\n    "sets clone",\n    "sets copy",\n];\n'
TABLE = """family,row,promise,most,unit,calls
sets,clone,"constant, of one owner",100,call,Set::clone Open::open
sets,copy,each word,3,64 bits,copy
session,get,constant,3000,call,
"""
SOURCE, ROWS = "crates/vb_low/src/set.rt", "crates/run_growth/src/low.rt"


class Sources(Repository):
    """A table, a crate, a program and the top crate, with one text replaced."""

    def __init__(self, old: str = "", new: str = "") -> None:
        super().__init__(TOP)
        facade = "pub use vb_low::Set;\npub use vb_low::copy;\npub use vb_low::Open;\n"
        texts = {COSTS: TABLE, SOURCE: SET, ROWS: PROGRAM, FACADE: facade}
        if old and sum(it.count(old) for it in texts.values()) != 1:
            raise ValueError(f"`{old}` isn't there once")
        self.texts = {path: it.replace(old, new) if old else it for path, it in texts.items()}
        self.code = self.texts

    def read(self, path: str) -> str:
        return self.texts[path]


class Costs(unittest.TestCase):
    def found(self, old: str, new: str) -> str:
        """Returns the only fault."""
        found = costs(Sources(old, new))
        self.assertEqual(len(found), 1, found)
        return found[0].removeprefix(f"{COSTS}: ")

    def test_the_repository_has_a_row_for_each_call(self):
        self.assertEqual(costs(Repository(TOP)), [])
        self.assertEqual(costs(Sources()), [])

    def test_a_method_without_a_row_is_found(self):
        lacking = "no row has `Set::clone`, whose docstring says 'constant'"
        self.assertEqual(self.found("Set::clone ", ""), lacking)

    def test_a_function_and_a_trait_without_a_row_are_found(self):
        lacking = "no row has `copy`, whose docstring says 'by words'"
        self.assertEqual(self.found("64 bits,copy", "64 bits,Set::len"), lacking)
        lacking = "no row has `Open::open`, whose docstring says 'constant'"
        self.assertEqual(self.found(" Open::open", ""), lacking)

    def test_a_new_promise_is_found(self):
        said = self.found("How many bits there are.", "The length, in amortized constant time.")
        self.assertEqual(said, "no row has `Set::len`, whose docstring says 'amortized'")

    def test_a_form_that_tests_its_arguments_shares_a_row(self):
        tried = "/// Costs the same as [`copy`].\npub fn try_copy(to: &mut [u8]) {\n}\n\n"
        sources = Sources("pub trait Open", f"{tried}pub trait Open")
        sources.texts[FACADE] += "pub use vb_low::try_copy;\n"
        self.assertEqual(costs(sources), [])
        sources.texts[COSTS] = TABLE.replace("64 bits,copy", "64 bits,")
        self.assertEqual(len(costs(sources)), 2)

    def test_a_call_that_is_not_public_needs_no_row(self):
        self.assertEqual(costs(Sources("pub fn copy", "pub fn other")), [
            f"{COSTS}: `copy` is no public call",
        ])

    def test_a_name_that_is_no_call_is_found(self):
        self.assertEqual(self.found("3000,call,", "3000,call,Set::hidden"),
                         "`Set::hidden` is no public call")

    def test_rows_and_programs_are_the_same(self):
        self.assertEqual(self.found('    "sets copy",\n', ""), "no program has `sets copy`")
        new = '    "sets copy",\n    "sets len",\n'
        self.assertEqual(self.found('    "sets copy",\n', new),
                         "no row is `sets len`, which a program has")

    def test_what_docstrings_say_of_costs_is_known(self):
        promises = ["in amortized constant time", "It reads up to the first true bit",
                    "at the cost of [`and_count`]", "The time is linear in the length",
                    "Costs the same as [`count`]", "costs what [`count`] does",
                    "Processes 64 bits at a time", "64 at a time", "64 bytes at a time"]
        for it in promises:
            with self.subTest(it):
                self.assertIsNotNone(PROMISE.search(it))
        self.assertIsNone(PROMISE.search("No version is picked at run time."))


if __name__ == "__main__":
    unittest.main()
