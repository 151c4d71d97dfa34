"""What the search finds first: users' calls, also by other words of the field."""
import json
import shutil
import subprocess
import unittest
from pathlib import Path

from reference.aliases import by_name
from reference.library import Library
from reference.site import Site, last_of
from reference.tests.fixture import Repository

HERE = Path(__file__).resolve().parent
ROOT = HERE.parent.parent
PAGE = """
const nothing = { dataset: { root: "" }, addEventListener() {}, setAttribute() {},
  scrollIntoView() {}, append() {}, replaceChildren(...rows) { this.children = rows; },
  children: [], blur() {} };
const made = () => ({ ...nothing, texts: [], append(...parts) { this.texts.push(...parts); } });
const [query, list] = [{ ...nothing, on: {} }, { ...nothing }];
query.addEventListener = (name, call) => { query.on[name] = call; };
globalThis.document = { ...nothing, body: nothing, createElement: made,
  getElementById: (id) => id === "query" ? query : list };
"""
ASKED = """
console.log(JSON.stringify(TYPED.map((typed) => {
  query.value = typed;
  query.on.input();
  return list.children.map((it) => it.texts?.[0]?.texts?.[PART]?.textContent ?? "");
})));
"""


def row(name: str, kind: str, users: str = "", words: str = "", says: str = "",
        language: str = "Rattle") -> list[str]:
    return [name, kind, "a.html", says, "low", users, words, language]


def found(rows: list[list[str]], *typed: str, part: int = 0) -> list[list[str]]:
    """For each text, the names that the search lists, in its order; or the field `part` of each."""
    program = f"{PAGE}globalThis.window = {{ NAMES: {json.dumps(rows)} }};\n"
    program += (HERE.parent / "search.js").read_text(encoding="utf-8")
    program += f"const TYPED = {json.dumps(typed)}, PART = {part};\n{ASKED}"
    done = subprocess.run(["node", "-e", program], capture_output=True, text=True, timeout=60)
    assert done.returncode == 0, done.stderr
    return json.loads(done.stdout)


@unittest.skipUnless(shutil.which("node"), "no node here")
class Search(unittest.TestCase):
    def test_a_word_of_the_field_finds_a_call_with_another_name(self):
        rows = [row("count_ones", "call", "users", "popcount cardinality"), row("other", "call")]
        self.assertEqual(found(rows, "popcount", "PopC", "nothing"),
                         [["count_ones"], ["count_ones"], []])

    def test_what_users_have_comes_before_private_names(self):
        rows = [row("validity", "call"), row("validity_of", "call"),
                row("null_count", "call", "users", "validity"),
                row("Set::validity", "call", "users")]
        self.assertEqual(found(rows, "validity"),
                         [["Set::validity", "validity", "null_count", "validity_of"]])

    def test_a_name_comes_before_what_an_alias_finds(self):
        rows = [row("taken", "call", "users", "gather"), row("gather", "call", "users")]
        self.assertEqual(found(rows, "gather"), [["gather", "taken"]])


    def test_each_hit_says_its_language(self):
        rows = [row("count_ones", "call"), row("bits::count_ones", "call", language="C++"),
                row("vb_count_ones", "call", language="C")]
        names = ["bits::count_ones", "count_ones", "vb_count_ones"]
        self.assertEqual(sorted(found(rows, "count_ones")[0]), names)
        self.assertEqual(sorted(found(rows, "count_ones", part=1)[0]),
                         ["C call of low", "C++ call of low", "Rattle call of low"])

    def test_a_function_of_c_is_found_without_its_first_part(self):
        rows = [row("vb_count", "call", language="C"), row("selects", "call"),
                row("vb_select", "call", language="C")]
        self.assertEqual(found(rows, "select"), [["vb_select", "selects"]])


class Names(unittest.TestCase):
    def test_the_last_part_of_a_name(self):
        names = ("Counter::add", "&Counter: BitOr<&u8>", "Pair.count", "fresh")
        self.assertEqual([last_of(it) for it in names], ["add", "BitOr", "count", "fresh"])

    def test_what_the_facade_gives_is_for_users(self):
        with Repository() as root:
            names = {it[0]: it[5] for it in Site(Path(root)).names()}
        for name in ("Counter", "Counter::add", "fresh", "Place::At", "Step::step"):
            self.assertEqual(names[name], "users", name)
        for name in ("Pair", "of_pair", "three", "counted"):
            self.assertEqual(names[name], "", name)

    def test_words_of_the_field_go_with_their_call(self):
        with Repository(("crates/low/src/lib.rt", "mod step;\n",
                         "mod step;\n\n/// Ones.\npub fn count_ones() {}\n")) as root:
            names = {it[0]: it[6] for it in Site(Path(root)).names()}
        self.assertIn("popcount", names["count_ones"].split())
        self.assertEqual(names["fresh"], "")

    def test_each_name_that_has_other_words_is_one_of_the_repository(self):
        known = set("BitOr BitOrAssign BitAnd BitAndAssign BitXor BitXorAssign Not".split())
        for crate in Library(ROOT).shown:
            known |= names_in(crate.all_items())
        self.assertEqual(sorted(set(by_name()) - known), [])


def names_in(items) -> set[str]:
    """The names of items, and of those in them."""
    return {it.name for it in items}.union(*(names_in(it.items) for it in items))


if __name__ == "__main__":
    unittest.main()
