"""Tests that a C function that is declared or called differently from the crate's is found."""
import unittest
from pathlib import Path

from documents import signatures
from documents.files import Repository
from documents.lists import c_functions

TOP = Path(__file__).resolve().parents[2]
CRATE, HEADER = "crates/vb_c/src/write.rt", "bindings/c/vortex_bits.h"
TABLE = "bindings/rust/src/native.rs"


class Planted(Repository):
    """The repository, with one text replaced in one file."""

    def __init__(self, path: str, old: str, new: str) -> None:
        super().__init__(TOP)
        self.path, self.old, self.new = path, old, new

    def read(self, path: str) -> str:
        text = super().read(path)
        if path != self.path:
            return text
        if text.count(self.old) != 1:
            raise ValueError(f"{path} doesn't contain `{self.old}` exactly once")
        return text.replace(self.old, self.new)


class Signatures(unittest.TestCase):
    def found(self, path: str, old: str, new: str) -> list[str]:
        return c_functions(Planted(path, old, new))

    def test_the_repository_has_each_function_in_one_way(self):
        self.assertEqual(c_functions(Repository(TOP)), [])

    def test_two_swapped_numbers_are_found(self):
        swaps = [
            (CRATE, "fn vb_fill_bits(bytes: &mut [u8], offset: usize, len: usize,",
             "fn vb_fill_bits(bytes: &mut [u8], len: usize, offset: usize,"),
            (HEADER, "void vb_fill_bits(uint8_t *bytes, size_t size, size_t offset, size_t len,",
             "void vb_fill_bits(uint8_t *bytes, size_t size, size_t len, size_t offset,"),
            (TABLE, "fill_bits(bytes: *mut u8, size: usize, offset: usize, len: usize,",
             "fill_bits(bytes: *mut u8, size: usize, len: usize, offset: usize,"),
        ]
        for swap in swaps:
            found = self.found(*swap)
            self.assertIn("`vb_fill_bits`: parameter 3 is `", found[0])
            self.assertTrue({"offset: usize", "len: usize"} <= set(found[0].split("`")))

    def test_a_size_in_the_place_of_an_offset_is_found(self):
        found = self.found(
            TABLE,
            "    copy_bits(dst: *mut u8, dst_size: usize, dst_offset: usize,",
            "    copy_bits(dst: *mut u8, dst_offset: usize, dst_size: usize,",
        )
        wanted = "parameter 2 is `dst_offset: usize` in place of `dst_size: usize`"
        self.assertEqual(found, [f"{TABLE}: `vb_copy_bits`: {wanted}"])

    def test_two_swapped_windows_are_found(self):
        found = self.found(
            CRATE,
            "vb_copy_bits(dst: &mut [u8], d: usize, src: &[u8], s: usize, len: usize)",
            "vb_copy_bits(src: &[u8], s: usize, dst: &mut [u8], d: usize, len: usize)",
        )
        wanted = "parameter 1 is `dst: *mut u8` in place of `src: *const u8`"
        self.assertEqual(found, [f"{HEADER}: `vb_copy_bits`: {wanted}"])

    def test_another_type_or_answer_or_number_is_found(self):
        edits = [
            ("void vb_negate_bits(uint8_t *bytes, size_t size,",
             "void vb_negate_bits(int8_t *bytes, size_t size,",
             "parameter 1 is `bytes: *mut i8`"),
            ("bool vb_get_bit(const uint8_t *bytes, size_t size, size_t offset);",
             "size_t vb_get_bit(const uint8_t *bytes, size_t size, size_t offset);",
             "it returns `usize` in place of `bool`"),
            ("bool vb_get_bit(const uint8_t *bytes, size_t size, size_t offset);",
             "bool vb_get_bit(const uint8_t *bytes, size_t size);",
             "it has 2 parameters in place of 3"),
            ("bool vb_get_bit(const uint8_t *bytes, size_t size, size_t offset);",
             "bool vb_get_bit(uint8_t *bytes, size_t size, size_t offset);",
             "parameter 1 is `bytes: *mut u8` in place of `bytes: *const u8`"),
        ]
        for old, new, wanted in edits:
            whole = (TOP / HEADER).read_text()
            declared = signatures.of_header(whole.replace(old, new, 1))
            sources = "\n".join(it.read_text() for it in (TOP / "crates/vb_c/src").glob("*.rt"))
            found = signatures.differences(HEADER, signatures.of_crate(sources), declared)
            self.assertEqual(len(found), 1)
            self.assertIn(wanted, found[0])


if __name__ == "__main__":
    unittest.main()
