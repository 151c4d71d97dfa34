"""The pages of headers, and what is the same in each language."""
import unittest
from pathlib import Path

from reference.checks import Checks
from reference.languages import called
from reference.rustdoc import RUST_CRATE, Rustdoc
from reference.site import Site
from reference.tests.fixture import Repository
from reference.tests.test_pages import errors, text_of

C, CPP, TABLE = (f"bindings/c/{it}" for it in ("vortex_bits.h", "vortex_bits.hpp", "README.md"))
ALL = ('<li><a href="struct.Counter.html">Counter</a></li>'
       '<li><a href="values/fn.sum.html">values::sum</a></li>')
MAIN = '<body><section id="main-content" class="content" tabindex="-1">'
COUNTER = f"""{MAIN}<div class="docblock"><p>A <code>counter</code>. It counts.</p></div>
<section id="method.add" class="method">fn add</section><div class="docblock">
<p>Adds &amp; counts.</p></div><section id="method.fmt" class="method trait-impl">fn fmt</section>
<h2 id="deref-methods-x">Methods</h2><section id="method.len" class="method">fn len</section>"""
SOURCE = '    #[doc(alias("plus", "increment"))]\n    #[inline]\n    pub fn add(self) {}\n'
RUST = {
    "bindings/rust/src/lib.rs": SOURCE,
    f"doc/{RUST_CRATE}/all.html": ALL,
    f"doc/{RUST_CRATE}/index.html": f'{MAIN}<div class="docblock"><p>The crate.</p></div>',
    f"doc/{RUST_CRATE}/struct.Counter.html": COUNTER,
    f"doc/{RUST_CRATE}/values/fn.sum.html": MAIN,
}


class Made(Repository):
    """The repository with a Rust crate that cargo doc has documented, and its site."""

    def __enter__(self) -> Site:
        for path, text in RUST.items():
            (self.root / path).parent.mkdir(parents=True, exist_ok=True)
            (self.root / path).write_text(text)
        rust = Rustdoc(self.root, self.root / "doc")
        rust.items[-1].name = "Counter::new"
        return Site(self.root, rust)


class Headers(unittest.TestCase):
    @classmethod
    def setUpClass(cls):
        with Made() as site:
            cls.c, cls.cpp, cls.call, cls.methods, cls.index, cls.source = (
                site.pages[it].html() for it in (
                    "c/vortex_bits.h.html", "c/vortex_bits.hpp.html", "low/fresh.html",
                    "low/Counter.html", "index.html", f"source/{C}.html"))
            cls.found = Checks(site).found
            names = site.names()
            cls.rows = {(it[7], it[0]): it for it in names}
            cls.overloads = [it[2] for it in names if it[0] == "counter::counter"]
            site.write(site.root / "made")
            cls.rust = (site.root / "made/rust" / RUST_CRATE / "values/fn.sum.html").read_text()

    def test_nothing_is_wrong(self):
        self.assertEqual(self.found, [])

    def test_a_function_is_shown_beside_its_checked_form_after_its_name(self):
        entry = self.c.partition('id="vb_fresh">')[2].partition("</section>")[0]
        beside = "vb_count vb_fresh(size_t by);\nVB_CHECKED bool vb_try_fresh("
        self.assertIn(beside, text_of(entry))
        self.assertIn('<a href="#vb_count">vb_count</a>', entry)
        self.assertIn("<p>Returns a count of <code>by</code>. More is added by", entry)
        self.assertIn("const vb_count one = vb_fresh(1);\n\nassert(one.count &lt; 2);\n", entry)
        self.assertIn('<a href="#vb_added_u8"><code>vb_added_u8</code></a>', entry)

    def test_a_family_is_folded_behind_its_first_function(self):
        shown, _, folded = self.c.partition("The other 4 functions")
        self.assertIn("void vb_added_u8(uint8_t by);", text_of(shown))
        self.assertNotIn("vb_added_u64(", shown)
        self.assertIn('<pre class="signature" id="vb_added_u64">', folded)

    def test_a_class_has_what_users_may_call(self):
        text = text_of(self.cpp)
        for it in ("explicit counter(std::size_t count);", "vb_count begin() const;",
                   "counter() = default;", "void add(const Value &amp;value);",
                   "void operator-=(std::size_t by);",
                   "constexpr std::size_t twice(std::size_t by);"):
            self.assertEqual(text.count(it), 1)
        for it in ("delete", "secret", "hidden", "count_", "return"):
            self.assertNotIn(it, text)

    def test_a_call_without_a_comment_has_the_sentence_of_the_one_that_it_calls(self):
        entry = self.cpp.partition('id="counter.begin"')[2].partition("</section>")[0]
        self.assertIn("<p>Returns a count of <code>by</code>.</p>", entry)

    def test_calls_lead_to_the_same_ones_of_the_other_languages(self):
        rust = '<a href="../rust/vortex_bits/{}">'
        self.assertIn('C: <a href="../c/vortex_bits.h.html#vb_fresh"><code>vb_fresh</code></a>; '
                      'C++: <a href="../c/vortex_bits.hpp.html#counter.begin">', self.call)
        self.assertIn(rust.format("values/fn.sum.html") + "<code>Counter::new</code>", self.call)
        self.assertIn(rust.format("struct.Counter.html#method.add"), self.methods)
        self.assertIn('Rattle: <a href="../low/fresh.html"><code>fresh</code></a>', self.c)
        self.assertIn('Rattle: <a href="../low/Counter.html#add"><code>Counter::add', self.cpp)
        self.assertNotIn("list.begin\"><code>list::begin</code></a>;", self.c)

    def test_the_start_page_and_the_source_lead_to_headers(self):
        self.assertIn('<a href="c/vortex_bits.h.html"><code>vortex_bits.h</code></a>', self.index)
        self.assertIn('<a href="rust/vortex_bits/index.html"><code>vortex_bits</code>', self.index)
        self.assertIn('<span class="co"> * Counters for C', self.source)

    def test_names_of_all_languages_are_found_each_with_its_language(self):
        for it in (("C", "vb_try_fresh"), ("C", "vb_added_i8"), ("C", "vb_count"), ("C++", "twice"),
                   ("C++", "counter"), ("Rust", "Counter::add"), ("Rattle", "Counter::add")):
            self.assertIn(it, self.rows)
        self.assertEqual(self.rows["C", "vb_try_fresh"][2], "c/vortex_bits.h.html#vb_fresh")
        self.assertEqual(self.overloads, ["c/vortex_bits.hpp.html#counter.counter"])
        self.assertNotIn(("Rust", "Counter::fmt"), self.rows)
        self.assertNotIn(("Rust", "Counter::len"), self.rows)

    def test_items_of_rust_have_their_sentence_and_aliases(self):
        row = self.rows["Rust", "Counter::add"]
        self.assertEqual((row[3], row[6]), ("Adds & counts.", "plus increment"))
        self.assertEqual(self.rows["Rust", "Counter"][3], "A counter.")

    def test_pages_of_rust_lead_back(self):
        self.assertIn('<a href="../../../index.html">', self.rust)


class Names(unittest.TestCase):
    def test_columns_of_one_length_belong_together_and_words_keep_their_meaning(self):
        table = """| `OP` | `and`, `or` |

| Calls | C | C++ | Rust | Rattle |
|---|---|---|---|---|
| two | `vb_OP_count`, `vb_count` | `OP_count` | `&`, `\\|`, `n` | `zip` |
"""
        self.assertEqual(called(table), {
            "vb_and_count": {"C++": ["and_count"], "Rust": ["&"], "Rattle": ["zip"]},
            "vb_or_count": {"C++": ["or_count"], "Rust": ["|"], "Rattle": ["zip"]},
            "vb_count": {"C++": ["and_count", "or_count"], "Rust": ["n"], "Rattle": ["zip"]},
        })

    def test_a_call_has_the_words_of_the_same_one_in_another_language(self):
        counted = ("bindings/c/README.md", "| `add` |\n", "| `count_ones` |\n")
        edits = [(f"crates/{path}/src/lib.rt", old, new) for path, old, new in (
            ("low", "mod step;\n", "mod step;\n\n/// Ones.\npub fn count_ones() {}\n"),
            ("vortex_buffer", "{Counter,", "{count_ones, Counter,"))]
        with Repository(counted, *edits) as root:
            words = {it[0]: it[6] for it in Site(Path(root)).names() if it[7] != "Rattle"}
        self.assertIn("popcount", words["vb_added_u8"].split())
        self.assertIn("popcount", words["counter::add"].split())
        self.assertEqual((words["vb_added_u16"], words["vb_fresh"]), ("", ""))

    def test_a_function_leads_to_its_contract(self):
        linked = ("crates.txt", "use_low: low\n", "use_low: low\nvb_c staticlib:\n")
        with Repository(linked) as root:
            lib = Path(root) / "crates/vb_c/src/lib.rt"
            lib.parent.mkdir(parents=True)
            lib.write_text("//! For C.\n\n/// One.\npub fn vb_fresh() {}\n")
            pages = Site(Path(root)).pages
        contract = '<a href="../vb_c/vb_fresh.html"'
        self.assertIn(f'{contract} title="the contract of vb_c::vb_fresh">vb_fresh</a>',
                      pages["c/vortex_bits.h.html"].html())
        self.assertIn("C: <a href=\"../c/vortex_bits.h.html#vb_fresh\">",
                      pages["vb_c/vb_fresh.html"].html())


class Errors(unittest.TestCase):
    def test_a_function_without_a_comment(self):
        comment = "/* Adds to a count. */\n/* Written"
        found = errors((C, comment, "/* */\n/* Written"))
        self.assertEqual(found, [f"{C}:34: `vb_added_u8` has no comment"])

    def test_a_comment_that_names_what_is_not_there(self):
        found = errors((C, "added by vb_added_u8.", "added by vb_gone of vortex_bits_gone.h."))
        where = f"{C}:28"
        self.assertEqual(found, [f"{where}: `vb_gone` in the comment doesn't exist",
                                 f"{where}: `vortex_bits_gone.h` in the comment doesn't exist"])

    def test_a_name_of_the_table_that_is_not_there(self):
        found = errors((TABLE, "`begin`", "`gone`"), (TABLE, "`fresh`", "`lost`"))
        self.assertEqual(found, [f"{TABLE}: `gone`, beside `vb_fresh`, has no entry in C++",
                                 f"{TABLE}: `lost`, beside `vb_fresh`, has no entry in Rattle"])

    def test_a_function_that_is_left_out(self):
        with Repository() as root:
            site = Site(Path(root))
            entries = site.languages.headers[0].entries
            del next(it for it in entries if it.declared[0].name == "vb_fresh").declared[1]
            found = Checks(site).found
        self.assertEqual(found, [f"{C}: `vb_try_fresh` has no entry"])


if __name__ == "__main__":
    unittest.main()
