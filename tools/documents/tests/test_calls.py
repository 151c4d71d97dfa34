"""Tests that a C function missing from the table of calls is found, and a name that no source has.
"""
import tempfile
import unittest
from pathlib import Path

from documents.calls import HEADERS, PAGE, calls
from documents.files import Repository
from documents.texts import alphabet, expanded, names

WORDS = """| In a name | is one of |
|---|---|
| `OP` | `and`, `and_not`: two |
| `WIDTH` | `u8`, `u16` |
| `INDEX` | `u8` |

"""
HEAD = "| Calls | C | C++ | Rust | Rattle |\n|---|---|---|---|---|\n"
COUNT = "| count | `vb_OP_count` | `OP_count`, `\\|=` | `Bits::OP_count` | `and_count` |\n"
TAKE = "| take | `vb_take_WIDTH_INDEX`, `vb_level` | `take` | | |\n"
HEADER = """/* vb_gone(1) is
 *     vb_example(2);
 * and and_not u8 u16
 */
#define VB_MACRO(it) vb_macro(it)
size_t vb_and_count(const uint8_t *left, size_t size);
VB_CHECKED bool vb_try_and_count(const uint8_t *left, size_t size,
        size_t *ones);
size_t vb_and_not_count(const uint8_t *left, size_t size);
VB_CHECKED bool vb_try_and_not_count(const uint8_t *left, size_t size, size_t *ones);
VB_CHECKED vb_taken vb_take_u8_u8(uint8_t *out);
VB_CHECKED bool vb_try_take_u8_u8(uint8_t *out, vb_taken *taken);
"""
WIDER = """VB_CHECKED vb_taken vb_take_u16_u8(uint8_t *out);
VB_CHECKED bool vb_try_take_u16_u8(uint8_t *out, vb_taken *taken);
const char *vb_level(void);
"""
FILES = {
    PAGE: f"{WORDS}{HEAD}{COUNT}{TAKE}\nIn `vb_OP_count` it is a word.\n| `vb_later` | no row |\n",
    "bindings/c/vortex_bits.h": HEADER,
    "bindings/c/vortex_bits_wider.h": WIDER,
    "bindings/c/pages.h": "void vb_of_a_test(int it);\n",
    "bindings/c/vortex_bits.hpp": "void and_count(); void and_not_count(); void take();\n",
    "bindings/rust/src/bits.rs": "impl Bits { fn and_count() {} fn and_not_count() {} }\n",
    "crates/vb_count/src/lib.rt": "pub fn and_count() {}\n",
}


class Calls(unittest.TestCase):
    def setUp(self):
        folder = tempfile.TemporaryDirectory()
        self.addCleanup(folder.cleanup)
        self.root = Path(folder.name)
        for path in FILES:
            self.put(path, FILES[path])

    def put(self, path: str, text: str) -> None:
        (self.root / path).parent.mkdir(parents=True, exist_ok=True)
        (self.root / path).write_text(text)

    def replace(self, path: str, old: str, new: str) -> list[str]:
        """Returns the faults if one text replaces another."""
        self.assertEqual(FILES[path].count(old), 1)
        self.put(path, FILES[path].replace(old, new))
        return calls(Repository(self.root))

    def test_all_are_named(self):
        self.assertEqual(calls(Repository(self.root)), [])

    def test_a_name_with_words_is_each_of_its_names(self):
        words = alphabet(WORDS)
        self.assertEqual(words["OP"], ["and", "and_not"])
        self.assertEqual(expanded("vb_OP_bits", words), ["vb_and_bits", "vb_and_not_bits"])
        self.assertEqual(expanded("x_WIDTH_WIDTH", words)[1:3], ["x_u8_u16", "x_u16_u8"])
        self.assertEqual(expanded("VB_OPEN", words), ["VB_OPEN"])

    def test_such_a_name_is_looked_up_as_its_names(self):
        self.put(PAGE, f"{WORDS}`vb_OP_count`\n")
        self.assertEqual(names(Repository(self.root)), [])
        self.put(PAGE, f"{WORDS}`vb_OP_bits`\n")
        said = [f"{PAGE}:7: `vb_{it}_bits` isn't in the sources" for it in ("and", "and_not")]
        self.assertEqual(names(Repository(self.root)), said)

    def test_a_row_is_missing(self):
        missing = ["vb_and_count", "vb_and_not_count", "vb_try_and_count", "vb_try_and_not_count"]
        said = [f"{HEADERS}: has `{it}`, which {PAGE} hasn't" for it in missing]
        self.assertEqual(self.replace(PAGE, COUNT, ""), said)

    def test_the_table_is_missing(self):
        found = self.replace(PAGE, HEAD, "| C | C++ |\n|---|---|\n")
        self.assertEqual(len(found), 9)

    def test_a_name_is_missing_that_has_no_form(self):
        said = [f"{HEADERS}: has `vb_level`, which {PAGE} hasn't"]
        self.assertEqual(self.replace(PAGE, ", `vb_level`", ""), said)

    def test_a_function_is_new(self):
        new = "bool vb_or(int a);\nsize_t vb_and_not"
        found = self.replace("bindings/c/vortex_bits.h", "size_t vb_and_not", new)
        self.assertEqual(found, [f"{HEADERS}: has `vb_or`, which {PAGE} hasn't"])

    def test_a_type_is_new(self):
        new = "VB_CHECKED bool vb_take_u32_u8(int a);\nconst char *vb_level"
        found = self.replace("bindings/c/vortex_bits_wider.h", "const char *vb_level", new)
        self.assertEqual(found, [f"{HEADERS}: has `vb_take_u32_u8`, which {PAGE} hasn't"])

    def test_a_type_is_gone(self):
        found = self.replace(PAGE, "`u8`, `u16` |", "`u8`, `u16`, `u32` |")
        gone = ["vb_take_u32_u8", "vb_try_take_u32_u8"]
        self.assertEqual(found, [f"{PAGE}: has `{it}`, which {HEADERS} hasn't" for it in gone])

    def test_a_form_is_gone(self):
        old = "VB_CHECKED bool vb_try_take_u8_u8(uint8_t *out, vb_taken *taken);\n"
        said = [f"{PAGE}: has `vb_try_take_u8_u8`, which {HEADERS} hasn't"]
        self.assertEqual(self.replace("bindings/c/vortex_bits.h", old, ""), said)

    def test_other_languages_lack_a_name(self):
        for path, old, word, column in (
            ("bindings/c/vortex_bits.hpp", "void and_not_count();", "and_not_count", "C++"),
            ("bindings/rust/src/bits.rs", "fn and_count() {}", "and_count", "Rust"),
            ("crates/vb_count/src/lib.rt", "and_count", "and_count", "Rattle"),
        ):
            with self.subTest(column):
                said = [f"{PAGE}: `{word}` of the column {column} isn't in its sources"]
                self.assertEqual(self.replace(path, old, ""), said)
                self.put(path, FILES[path])


if __name__ == "__main__":
    unittest.main()
