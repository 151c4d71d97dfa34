"""Tests how templates are filled and laid out, and where in a file their text goes."""
import tempfile
import unittest
from pathlib import Path
from unittest.mock import patch

from documents.files import Repository
from documents.written import REACHED, not_written
from families import questions
from families.fill import laid_out, of_template
from families.hand import hand
from families.questions import PLACE, Group, Pair
from families.types import AND, COMPARED, OPERATORS, OR, SIGNED, UNSIGNED, VALUES
from families.written import NoPlace, files

TEMPLATE = """Sums.

% items crates/low/src/sum.rt pub extern "C" fn vb_
% for T in [U8, U16]
/// The sum of the values, of «T.each» each.
pub extern "C" fn vb_sum_«T»(
    values: &[«T»],
) -> «T»
{
    sum(values)
}

% end
% end

% region bindings/c/low.h
% for T in [U8, U16]
«T.c» vb_sum_«T»(const «T.c» *values, size_t count);
% end
% end

% for T in [U8, I8]
% file crates/low/proofs/sum/«T.camel»/Answers.antt
% if T.is_signed
use lib.{signed}
% end
use lib.{«T»}
% end
% end
"""
BY = "by tools/write-lists from tools/families/sum.txt."
MARK = f"/* Written {BY} */"
SUM = f"// Written in part {BY}\n" + '''//! Sums.
use low::sum;

/// The sum of the values, of one byte each.
pub extern "C" fn vb_sum_u8(values: &[u8]) -> u8
{
    sum(values)
}

/// The sum of the values, of two bytes each.
pub extern "C" fn vb_sum_u16(values: &[u16]) -> u16
{
    sum(values)
}

/// By hand.
fn own() {}
'''
FILES = {
    "tools/families/sum.txt": TEMPLATE,
    "crates/low/src/sum.rt": SUM,
    "bindings/c/low.h": f"/* Sums. */\n{MARK}\n"
    "uint8_t vb_sum_u8(const uint8_t *values, size_t count);\n"
    "uint16_t vb_sum_u16(const uint16_t *values, size_t count);\n"
    "/* To here. */\nvoid by_hand();\n",
    "crates/low/proofs/sum/U8/Answers.antt": f"-- Written {BY}\nuse lib.{{u8}}\n",
    "crates/low/proofs/sum/I8/Answers.antt":
    f"-- Written {BY}\nuse lib.{{signed}}\nuse lib.{{i8}}\n",
    REACHED: "//! All.\npub use low::one;\npub use low::two;\n",
}


class Templates(unittest.TestCase):
    def test_what_a_template_writes(self):
        first, *others = of_template(TEMPLATE)
        self.assertEqual((first.kind, first.path), ("items", "crates/low/src/sum.rt"))
        self.assertEqual(first.pattern, 'pub extern "C" fn vb_')
        self.assertEqual(first.text.count("\n\n"), 1)
        self.assertEqual([it.path for it in others], list(FILES)[2:-1])
        self.assertEqual([it.text for it in others[1:]], [
            "use lib.{u8}\n", "use lib.{signed}\nuse lib.{i8}\n",
        ])

    def test_a_docstring_is_filled_and_broken_where_it_says(self):
        words = " ".join(["word"] * 22)
        text = laid_out(f"/// One\n/// {words}\n/// two.\n///\n/// Three¦\n/// four.\n")
        lines = text.splitlines()
        self.assertEqual(lines[0], "/// One" + " word" * 18)
        wanted = ["/// word word word word two.", "///", "/// Three", "/// four."]
        self.assertEqual(lines[1:], wanted)

    def test_a_head_stands_in_one_line_where_that_has_room(self):
        kept = 'pub extern "C" fn vb_{}(\n    out: &mut [u8],\n    n: usize,\n) -> usize\n'
        self.assertEqual(laid_out(kept.format("it")),
                         'pub extern "C" fn vb_it(out: &mut [u8], n: usize) -> usize\n')
        self.assertEqual(len(laid_out(kept.format("i" * 44)).splitlines()[0]), 100)
        self.assertEqual(laid_out(kept.format("i" * 45)), kept.format("i" * 45))
        self.assertEqual(laid_out("fn it<A, B: C<A>>(\n    a: A,\n    b: B,\n)\n"),
                         "fn it<A, B: C<A>>(a: A, b: B)\n")

    def test_a_prototype_is_wrapped_between_parameters(self):
        first = "void vb_move(const uint8_t *" + "first" * 12 + ","
        self.assertEqual(laid_out(f"{first} size_t\n        count, bool *is);\n"),
                         f"{first}\n        size_t count, bool *is);\n")

    def test_a_line_that_is_too_wide_is_broken_where_it_may_be(self):
        self.assertEqual(laid_out("    a¦b\n"), "    a b\n")
        wide = "a" * 95
        self.assertEqual(laid_out(f"    {wide}¦b\n"), f"    {wide}\n    b\n")

    def test_the_backslashes_of_a_macro_stand_below_each_other(self):
        self.assertEqual(laid_out("#define A \\\n    B\n"), "#define A".ljust(98) + "\\\n    B\n")


class Types(unittest.TestCase):
    def test_what_is_said_of_a_type(self):
        self.assertEqual([it.size for it in VALUES], [1, 2, 4, 8, 16])
        self.assertEqual([it.exponent for it in VALUES], [0, 1, 2, 3, 4])
        signed, unsigned = SIGNED[0], UNSIGNED[0]
        self.assertEqual((unsigned.end, signed.end), ("1 << 8", "1 << 7"))
        self.assertEqual((unsigned.number("n"), signed.number("n")), ("(pos n)", "n"))
        self.assertEqual((COMPARED[0].cpp, COMPARED[-1].cpp), ("std::uint8_t", "double"))

    def test_what_is_said_of_an_operator(self):
        self.assertEqual(AND.of_both("this", "that"), "this and that are true")
        self.assertEqual([it.of_one("it", "that") for it in OPERATORS], [
            "it is true and that is", "it is true or that is", "it is another than that",
            "it is true and that isn't",
        ])


class Places(unittest.TestCase):
    def repository(self, path: str = REACHED, old: str = "", new: str = "") -> Repository:
        folder = tempfile.TemporaryDirectory()
        self.addCleanup(folder.cleanup)
        root = Path(folder.name)
        for name, text in (FILES | {path: FILES[path].replace(old, new, 1)}).items():
            (root / name).parent.mkdir(parents=True, exist_ok=True)
            (root / name).write_text(text, encoding="utf-8")
        return Repository(root)

    def differing(self, repository: Repository) -> list[str]:
        return [path for path, it in files(repository) if it.text != repository.present(path)]

    def test_files_that_stand_as_they_are_written(self):
        self.assertEqual(self.differing(self.repository()), [])

    def test_what_was_changed_by_hand_is_written_anew(self):
        for path, old in {
            "crates/low/src/sum.rt": "one byte", "bindings/c/low.h": "size_t count);\nuint16_t",
            "crates/low/proofs/sum/U8/Answers.antt": "u8",
        }.items():
            repository = self.repository(path, old, "other")
            self.assertEqual(self.differing(repository), [path])
            self.assertEqual(dict(files(repository))[path].text, FILES[path])

    def test_it_is_an_error_of_the_documents(self):
        with patch("documents.written.LISTS", {}):
            found = not_written(self.repository("bindings/c/low.h", "uint16_t", "int"))
        wanted = "bindings/c/low.h: isn't what tools/write-lists makes of its list: run it"
        self.assertEqual(found, [wanted])
        found = not_written(self.repository("bindings/c/low.h", MARK, ""))
        wanted = "bindings/c/low.h: has no place for what tools/families/sum.txt writes"
        self.assertEqual(found, [wanted])

    def test_what_stands_beside_is_left(self):
        for path, old in {"crates/low/src/sum.rt": "fn own", "bindings/c/low.h": "by_hand"}.items():
            self.assertEqual(self.differing(self.repository(path, old, "fn other")), [])

    def test_a_type_that_is_new(self):
        repository = self.repository("tools/families/sum.txt", "[U8, U16]", "[U8, U16, U32]")
        text = dict(files(repository))["crates/low/src/sum.rt"].text
        self.assertIn("fn vb_sum_u32", text)
        self.assertTrue(text.endswith("\n}\n\n/// By hand.\nfn own() {}\n"))

    def test_a_file_without_a_place_for_it(self):
        for path, old in {"crates/low/src/sum.rt": SUM, "bindings/c/low.h": MARK}.items():
            with self.assertRaisesRegex(NoPlace, path):
                self.differing(self.repository(path, old, ""))

    def test_a_place_that_no_template_writes(self):
        repository = self.repository("bindings/c/low.h", "void", f"{MARK}\n/* To here. */\nvoid")
        with self.assertRaisesRegex(NoPlace, "no template writes"):
            self.differing(repository)

    def test_a_file_says_that_it_is_written(self):
        for path in ("crates/low/src/sum.rt", "crates/low/proofs/sum/U8/Answers.antt"):
            first = FILES[path].splitlines(keepends=True)[0]
            repository = self.repository(path, first, "")
            self.assertEqual(self.differing(repository), [path])
            self.assertEqual(dict(files(repository))[path].text, FILES[path])

    def test_a_file_says_what_it_has_in_a_comment_of_its_own(self):
        template = TEMPLATE.replace("use lib.{«T»}", "-- Uses.\nuse lib.{«T»}")
        repository = self.repository("tools/families/sum.txt", TEMPLATE, template)
        text = dict(files(repository))["crates/low/proofs/sum/U8/Answers.antt"].text
        self.assertEqual(text, f"-- Written {BY}\n\n-- Uses.\nuse lib.{{u8}}\n")

    def test_the_lines_that_are_written_by_hand(self):
        self.assertEqual(hand(self.repository()), (
            "10 of 26 lines of src/, specs/ and proofs/ by hand; 16 in 4 files by "
            "tools/write-lists, whose templates have 29"
        ))


class Questions(unittest.TestCase):
    """A question about two windows that finds an index; the table has no such question."""

    QUESTION = Pair(
        "or_next", OR, PLACE, "place", "", "", "Returns the first index.",
        "Returns the first index.", "union", "assert!(true);", "assert!(true);", "None", "from",
    )
    ADDED = {
        "PAIRS": [QUESTION], "OF_PAIRS": [Group("The first.", ["f();"], "The first.", [QUESTION])],
        "PLACES": True, "VARIANTS": "Or",
    }

    def setUp(self):
        template = Path(__file__).parent.parent / "questions.txt"
        with patch.multiple(questions, **self.ADDED):
            self.targets = of_template(template.read_text(encoding="utf-8"))

    def text(self, path: str) -> str:
        return "\n".join(it.text for it in self.targets if it.path == path)

    def test_its_contract_says_which_index_is_found(self):
        text = self.text("crates/vb_c/src/relation.rt")
        self.assertIn(
            "    ensures { IsNext (combined_by Or (bits left.now l len) (bits right.now r len))\n"
            "        from (answered_place result) }\n"
            "{\n    vb_pair::or_next(left, l, right, r, len, from).into()\n}\n", text,
        )
        self.assertIn("(answered_place place.new))\n        (place.new ≡ place.old) result }", text)
        self.assertIn("use vb_c_core::Place;", text)

    def test_its_prototypes_have_the_index(self):
        self.assertIn(
            "vb_place vb_or_next(const uint8_t *left, size_t left_size, size_t left_offset, "
            "const uint8_t *right,\n        size_t right_size, size_t right_offset, size_t len, "
            "size_t from);\n", self.text("bindings/c/vortex_bits.h"),
        )

    def test_it_has_methods_in_c_plus_plus_and_rust(self):
        text = self.text("bindings/c/vortex_bits.hpp")
        self.assertIn("or_next(bits right, std::size_t from) const", text)
        for file in ("counts.rs", "bitmap/questions.rs"):
            text = self.text(f"bindings/rust/src/{file}")
            self.assertIn("right: impl Mask, from: usize) -> Option<usize> {", text)

    def test_it_is_compared_with_a_loop(self):
        text = self.text("bindings/diff/src/own.rs")
        self.assertIn("by(left, right, |a, b| a | b), case.n)", text)
        self.assertIn("l.or_next(r, case.n), wanted)?", text)
        self.assertIn("first_of(0xE, left, l, right, r, len, from)", self.text("bindings/c/kept.c"))


if __name__ == "__main__":
    unittest.main()
