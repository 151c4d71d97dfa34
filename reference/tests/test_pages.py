"""What the pages say of a small repository, and which errors are found."""
import re
import tempfile
import unittest
from pathlib import Path

from reference.antt_pages import begun
from reference.checks import Checks
from reference.docs_html import docs_html
from reference.rust_text import SourceError
from reference.site import Site
from reference.tests.fixture import Repository

COUNTER = "crates/low/src/counter.rt"


def text_of(html: str) -> str:
    return re.sub(r"<[^>]+>", "", html)


def errors(*edits: tuple[str, str, str]) -> list[str]:
    with Repository(*edits) as root:
        return Checks(Site(Path(root))).found


class Docstrings(unittest.TestCase):
    def test_a_block_of_code_keeps_its_lines(self):
        docs = "Adds.\n\n```rust\nlet a = one(&b)?;\n\na < 2\n```\n\n- `a`\n- b"
        self.assertEqual(docs_html(docs, lambda path: None), (
            "<p>Adds.</p><pre><code>let a = one(&amp;b)?;\n\na &lt; 2\n</code></pre>"
            "<ul><li><code>a</code></li><li>b</li></ul>"
        ))


class Pages(unittest.TestCase):
    @classmethod
    def setUpClass(cls):
        cls.repository = Repository()
        cls.site = Site(cls.repository.root)

    @classmethod
    def tearDownClass(cls):
        cls.repository.cleanup()

    def html(self, url: str) -> str:
        return self.site.pages[url].html()

    def test_nothing_is_wrong(self):
        self.assertEqual(Checks(self.site).found, [])

    def test_each_kind_of_thing_has_a_page(self):
        wanted = {
            "index.html", "low/index.html", "vortex_buffer/index.html", "low/Counter.html",
            "low/Place.html", "low/Step.html", "low/fresh.html", "use_low/three.html",
            "low/specs/Seen.html", "low/proofs/SeenLemmas.html",
            "source/crates/low/src/counter.rt.html",
        }
        self.assertLessEqual(wanted, set(self.site.pages))

    def test_words_lead_to_definitions_and_those_of_std_say_where_they_are(self):
        html = self.html("low/Counter.html")
        link = 'href="specs/Seen.html#counted" title="the count with more">counted</a>'
        self.assertIn(link, html)
        self.assertIn('title="Rattle.std.specs.Prelude.◌≡◌">≡</span>', html)

    def test_words_of_std_are_listed_with_their_paths(self):
        html = self.html("low/fresh.html")
        listed = html.partition("Words of the contract")[2].partition("</details>")[0]
        self.assertIn("<dt>+</dt><dd><code>Rattle.std.specs.Prelude.◌+◌</code></dd>", listed)
        html = self.html("low/Counter.html")
        self.assertIn("<dt>≡</dt><dd><code>Rattle.std.specs.Prelude.◌≡◌</code></dd>", html)

    def test_a_field_leads_to_the_record_that_a_clause_sees(self):
        html = self.html("low/Counter.html")
        self.assertIn('href="specs/Seen.html#Seen.count"', html)
        self.assertIn("A clause sees it as Seen: how many were counted.", text_of(html))

    def test_a_value_in_the_result_is_seen_as_the_result_is(self):
        html = self.html("low/of_pair.html")
        self.assertIn('href="specs/Seen.html#Seen.count"', html)
        self.assertIn('href="Pair.html#field.count"', html)
        self.assertIn('<tr id="field.count">', self.html("low/Pair.html"))

    def test_a_contract_names_its_clauses(self):
        html = self.html("low/fresh.html")
        self.assertIn('<span class="kind">ensures</span><span class="name">zero</span>', html)

    def test_private_items_have_no_entry(self):
        self.assertNotIn('id="hidden"', self.html("low/Counter.html"))

    def test_what_is_given_again_leads_to_the_first_page(self):
        html = self.html("vortex_buffer/index.html")
        self.assertIn('href="../low/Counter.html"', html)
        self.assertIn("of low", text_of(html))

    def test_an_example_is_the_shortest_function_that_calls(self):
        html = text_of(self.html("low/Counter.html"))
        self.assertIn("fn one_is_added", html)
        self.assertIn("use_low/src/lib.rt:", html)
        self.assertIn("pub fn three", text_of(self.html("low/Counter.html")))

    def test_a_definition_says_who_cites_it(self):
        html = self.html("low/specs/Seen.html")
        self.assertIn('Cited by the contracts of <a href="../Counter.html#add">', html)

    def test_patterns_are_no_links(self):
        html = self.html("low/specs/Seen.html")
        self.assertIn("more)", text_of(html))
        self.assertNotIn(">more</a>", html)

    def test_a_lemma_is_shown_without_its_proof(self):
        html = self.html("low/proofs/SeenLemmas.html")
        self.assertIn("one_is_one", html)
        self.assertNotIn("refl", html)

    def test_a_docstring_leads_to_what_it_names(self):
        self.assertIn('<a href="#counted"><code>counted</code></a>', self.html("low/Counter.html"))

    def test_names_can_be_searched(self):
        names = {(row[0], row[1]) for row in self.site.names()}
        self.assertLessEqual(
            {("Counter::add", "call"), ("Place::At", "variant"), ("counted", "word"),
             ("one_is_one", "lemma"), ("Step", "trait"), ("low", "crate")}, names)

    def test_the_pages_are_written(self):
        with tempfile.TemporaryDirectory() as folder:
            self.site.write(Path(folder) / "made")
            made = {it.name for it in (Path(folder) / "made").iterdir()}
            self.assertLessEqual({"index.html", "style.css", "search.js", "names.js"}, made)
            self.site.write(Path(folder) / "made")
            with self.assertRaisesRegex(SourceError, "has files that aren't pages"):
                self.site.write(Path(folder))


class Sentences(unittest.TestCase):
    def test_a_sentence_begins_with_a_capital(self):
        self.assertEqual(begun("the sum of a list"), "The sum of a list")
        self.assertEqual(begun("a run that begins at n"), "A run that begins at n")
        self.assertEqual(begun("as many as asked for"), "As many as asked for")
        self.assertEqual(begun(""), "")

    def test_a_variable_and_code_stay_as_they_are(self):
        for said in ("r is the place of the n-th", "n bytes stand for", "w0 is read", "b's digits",
                     "`w & 1` is 0", "P holds of it", "λ is one", "2 to the number of it"):
            self.assertEqual(begun(said), said)

    def test_the_page_of_definitions_writes_them_so(self):
        seen = "crates/low/specs/Seen.antt"
        with Repository((seen, "-- the number is one", "-- n is one")) as root:
            site = Site(Path(root))
            html = site.pages["low/specs/Seen.html"].html()
        self.assertIn('<p class="sentence">n is one</p>', html)
        self.assertIn('<p class="sentence">The count with more</p>', html)
        self.assertIn('<p class="sentence">How many were counted</p>', html)
        style = Path(__file__).resolve().parent.parent / "style.css"
        self.assertNotIn("text-transform: uppercase", style.read_text(encoding="utf-8"))


class Groups(unittest.TestCase):
    def test_each_crate_is_in_the_group_of_its_kind(self):
        lines = "use_low: low\nfloats: low\nvb_c_core:\nvb_c staticlib: floats vb_c_core\n"
        lines += "pool: low\nvbits: pool\nvb_testing:\n"
        lines += "rows:\ntables: rows\nrun_rows: tables vortex_buffer\n"
        with Repository(("crates.txt", "use_low: low\n", lines)) as root:
            for name in ("floats", "vb_c_core", "vb_c", "pool", "vb_testing", "rows", "tables"):
                folder = Path(root) / "crates" / name / "src"
                folder.mkdir(parents=True)
                (folder / "lib.rt").write_text(f"//! What {name} is.\n", encoding="utf-8")
            groups = Site(Path(root)).crate_pages.groups()
        self.assertEqual({title: [it.name for it in crates] for title, crates in groups}, {
            "The library": ["vortex_buffer", "low", "floats"],
            "Commands": ["pool"],
            "Other languages, and tests": ["vb_c_core", "vb_c", "vb_testing"],
            "How to use it": ["use_low", "rows", "tables"],
        })


class Errors(unittest.TestCase):
    def test_a_missing_docstring(self):
        found = errors((COUNTER, "    /// Nowhere.\n", ""))
        self.assertEqual(found, [f"{COUNTER}:50: `Nowhere` has no docstring"])

    def test_a_crate_without_one(self):
        found = errors(("crates/low/src/lib.rt", "//! Counts that are kept.\n", ""))
        self.assertEqual(found, ["crates/low/src/lib.rt:1: the crate has no docstring"])

    def test_a_word_that_is_not_known(self):
        found = errors((COUNTER, "counted self.old by", "countd self.old by"))
        self.assertEqual(found, [f"{COUNTER}:22: the word `countd` isn't known"])

    def test_a_constant_of_a_module_is_known(self):
        seen = "crates/low/specs/Seen.antt"
        fresh = "/// A counter that counted nothing.\n"
        found = errors(
            (COUNTER, fresh, f"/// One.\npub const ONE: usize = 1;\n\n{fresh}"),
            (seen, "\n\n", "\nuse Rattle.low.specs.declared.counter.TheConstants.{ONE, TWO}\n\n"),
            (seen, "IsOne n = n ≡ 1", "IsOne n = n + TWO ≡ ONE"),
        )
        self.assertEqual(found, [f"{seen}:16: the word `TWO` isn't known"])

    def test_a_docstring_that_leads_nowhere(self):
        found = errors((COUNTER, "[`fresh`]", "[`stale`]"))
        self.assertEqual(found, [f"{COUNTER}:22: `stale` in the docstring doesn't exist"])

    def test_a_definition_without_a_sentence(self):
        found = errors(("crates/low/specs/Seen.antt", "-- the number is one\n", ""))
        self.assertEqual(found, ["crates/low/specs/Seen.antt:12: `IsOne` has no sentence above it"])

    def test_an_export_that_is_not_there(self):
        found = errors(("crates/low/src/lib.rt", "fresh, of_pair}", "fresh, of_pair, stale}"))
        self.assertEqual(found, ["crates/low/src/lib.rt: `stale` of a `pub use` has no entry"])

    def test_a_word_that_users_do_not_find(self):
        given = "crates/vortex_buffer/specs/Lib.antt"
        found = errors((given, "pub use Rattle.low.specs.Seen\n", ""))
        seen = "crates/low/specs/Seen.antt"
        self.assertEqual(found, [
            f"{seen}:9: `counted`, which `add` cites, isn't re-exported by vortex_buffer",
            f"{seen}:13: `IsOne`, which `fresh` cites, isn't re-exported by vortex_buffer",
        ])

    def test_an_item_that_is_left_out(self):
        with Repository() as root:
            site = Site(Path(root))
            site.members = lambda item: []
            found = Checks(site).found
        self.assertIn(f"{COUNTER}:22: `add` has no entry", found)

    def test_a_link_that_leads_nowhere(self):
        with Repository() as root:
            site = Site(Path(root))
            site.pages["index.html"].href("low/Nothing.html")
            site.pages["index.html"].href("low/Counter.html#nothing")
            found = Checks(site).found
        self.assertEqual(found, [
            "index.html: leads to low/Nothing.html, which isn't there",
            "index.html: leads to low/Counter.html#nothing, which isn't there",
        ])


if __name__ == "__main__":
    unittest.main()
