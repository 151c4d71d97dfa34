"""How sources are read: items of Rust, and definitions."""
import unittest

from reference.antt_items import parse_antt, parse_use
from reference.antt_text import parts_of, words_of
from reference.library import sentence
from reference.rust_heads import generics_of, impl_parts, signature_of, use_names
from reference.rust_items import parse
from reference.rust_text import Source, SourceError


def items_of(text: str):
    return parse(Source("a.rt", text)).items


class Items(unittest.TestCase):
    def test_a_function_has_its_docstring_head_clauses_and_body(self):
        (it,) = items_of(
            "/// Two lines\n/// of it.\npub fn f<T: A>(x: &[T]) -> Result<T, E>\n"
            "    requires one { p x.now }\n    ensures* { q (r x) }\n"
            "{\n    g({ 1 }, '{', \"}\")\n}\n"
        )
        self.assertEqual((it.kind, it.name, it.visibility), ("fn", "f", "pub"))
        self.assertEqual(it.docs, "Two lines\nof it.")
        self.assertEqual(it.head_text, "pub fn f<T: A>(x: &[T]) -> Result<T, E>")
        kinds = [(c.kind, c.name) for c in it.clauses]
        self.assertEqual(kinds, [("requires", "one"), ("ensures*", "")])
        self.assertEqual(it.line, 3)

    def test_a_trait_has_ghosts_with_the_comment_above(self):
        (it,) = items_of(
            "pub trait T {\n    // How far.\n    ghost far: { Self → ℕ };\n\n"
            "    ghost near: { Self } = { λ _. None };\n\n    /// Asks.\n    fn ask(&self);\n}\n"
        )
        far, near, ask = it.items
        self.assertEqual((far.kind, far.name, far.comment), ("ghost", "far", "How far."))
        self.assertEqual(len(near.clauses), 2)
        self.assertEqual((ask.kind, ask.docs, ask.body), ("fn", "Asks.", None))

    def test_fields_and_variants(self):
        struct, enum = items_of(
            "struct S<'a> {\n    /// One.\n    pub a: Vec<(u8, u8)>,\n    b: [u8; 4],\n"
            "    ghost fits: { x } by { y },\n}\n"
            "enum E {\n    /// Two.\n    A,\n    B(u8, u8),\n"
            "    C {\n        /// N.\n        n: u8,\n    },\n}\n"
        )
        self.assertEqual([it.name for it in struct.items], ["a", "b", "fits"])
        self.assertEqual([it.name for it in enum.items], ["A", "B", "C"])
        self.assertEqual(enum.items[2].items[0].docs, "N.")

    def test_a_macro_is_an_item(self):
        text = "/// Lends.\nmacro_rules! lend {\n    ($a:expr) => { &$a };\n}\nfn f() {}\n"
        macro, it = items_of(text)
        self.assertEqual((macro.kind, macro.name, macro.docs), ("macro_rules", "lend", "Lends."))
        self.assertEqual(it.name, "f")

    def test_what_is_no_item_is_told_with_its_line(self):
        with self.assertRaisesRegex(SourceError, "a.rt:2: expected an item"):
            items_of("fn f() {}\nbanana\n")

    def test_brackets_that_do_not_close(self):
        with self.assertRaisesRegex(SourceError, "a.rt: ends within brackets"):
            items_of("fn f() { (\n")

    def test_heads(self):
        self.assertEqual(impl_parts("impl<T: A<u8>> From<X<T>> for Y<T>"), ("From<X<T>>", "Y<T>"))
        self.assertEqual(impl_parts("impl<'a> Y<&'a mut [u8]>"), ("", "Y<&'a mut [u8]>"))
        self.assertEqual(generics_of("pub(crate) fn f<'a, const N: usize, T: A + B>(t: T)"),
                         {"N": "usize", "T": "A + B"})
        found = signature_of(
            "pub fn f<T: Fn(u8) -> u8>(&mut self, x: Vec<T, A>, mut y: u8) -> [T; 2]"
        )
        self.assertEqual(found.parameters, {"self": "Self", "x": "Vec<T, A>", "y": "u8"})
        self.assertEqual(found.result, "[T; 2]")
        self.assertEqual(use_names("pub use a::{b::C, d as E, self};"),
                         {"C": ("a", "b", "C"), "E": ("a", "d"), "a": ("a",)})

    def test_the_first_sentence(self):
        docs = "The place: one of `a.b`. It costs\nmuch."
        self.assertEqual(sentence(docs), "The place: one of `a.b`.")
        self.assertEqual(sentence("No stop"), "No stop")


class Definitions(unittest.TestCase):
    def test_declarations_have_the_sentence_above_them(self):
        file = parse_antt(Source("a/b/specs/F.antt", """-- The file.
use A.b.{c, ◌>>=◌}

-- ---- a part
-- what it is
-- in two lines
abbrev pub f : ℕ → ℕ
f 0 = 1
f n =
    g n

-- a record
pub record R (n : ℕ) : Type 0 where
  pub a : n ≡ 1
  pub b : ℕ

module _ {T : Type 0} where
  -- within
  abbrev pub h : T → ℕ
  h t = 0
"""))
        self.assertEqual(file.sentence, "The file.")
        f, r, h = file.declarations
        self.assertEqual((f.name, f.heading), ("f", "a part"))
        self.assertEqual(f.sentence, "what it is in two lines")
        self.assertIn("f n =\n    g n", f.text)
        self.assertEqual(f.signature, "abbrev pub f : ℕ → ℕ")
        self.assertEqual((r.kind, r.fields), ("record", ["a", "b"]))
        self.assertEqual(h.module, "module _ {T : Type 0} where")
        self.assertEqual(h.text, "abbrev pub h : T → ℕ\nh t = 0")

    def test_imports(self):
        use = parse_use("pub use A.b.{c, d as e}")
        self.assertEqual((use.path, use.names, use.is_public), ("A.b", {"c": "c", "e": "d"}, True))
        self.assertEqual(parse_use("ghost use A.b as m;").alias, "m")
        self.assertEqual(parts_of("if◌then◌else◌"), ["if", "then", "else"])

    def test_words(self):
        words = words_of('λ s. s.now ≡ "a b" -- why')
        kinds = [(it.kind, it.text) for it in words if it.kind != "space"]
        self.assertEqual(kinds, [
            ("keyword", "λ"), ("name", "s"), ("dot", "."), ("name", "s"), ("dot", "."),
            ("name", "now"), ("name", "≡"), ("string", '"a b"'), ("comment", "-- why"),
        ])


if __name__ == "__main__":
    unittest.main()
