"""Tests which places of a name are shown, and which of its uses aren't."""
import tempfile
import unittest
from pathlib import Path

from documents.files import Repository
from documents.places import places

FILES = {
    "crates/vb_command/src/command.rt": "\npub enum Command<A> {\n    /// `get k i`: a bit.\n"
    "    Get(usize, usize),\n    Countrange(usize),\n}\n",
    "crates/vb_command/specs/Machine.antt": "-- get it\n  Get : ℕ → Order\nStep s (Get k) r = A\n",
    "crates/vb_pool/src/question.rt": "// get\nfn get(&self) -> bool {\n    self.set().get(i)\n}\n"
    "fn count_range(&self) {}\n",
    "crates/vb_script_tests/src/sessions.rt": '    ("len 0\\nget 0 1\\n", "4\\n0\\n"),\n',
    "docs/COMMANDS.md": "| `get k i` | to get a value |\n",
    "crates/vb_kernel/specs/Bits.antt": "use Rattle.std.specs.Prelude.{ones}\nf = ones\n",
    "crates/vb_kernel/specs/Lib.antt": "pub mod Bits\npub use Rattle.low.specs.Looks\n",
    "crates/vb_kernel/src/lib.rt": "mod count;\npub use count::{ones, ones_by};\n",
    "crates/vb_kernel/src/count.rt": "/// See [`ones`].\npub fn ones(n: u8)\n"
    "    requires { ones n < 8 }\n{\n    n.ones() // ones\n}\npub fn get() {}\n",
    "crates/vb_view/src/view.rt": "use vb_kernel::ones;\nfn count(&self) {\n    ones(self)\n}\n",
    "crates/vb_take/src/take.rt": "use vb_kernel::ones;\nfn room() {\n    ones(1)\n}\n",
    "crates/vb_kernel/edits/ones-forgets_one.edit": "old: ones(n)\nnew: ones(0)\n",
    "crates/vb_kernel/edits/other-is_wrong.edit": "old: ones(n)\nnew: ones(0)\n",
    "crates/vb_kernel/proofs/count/ones/Answers.antt": "ones = refl\n",
    "crates/vb_kernel_tests/src/ones.rt": "use vb_kernel::ones;\nequal(ones(1), plain::ones(1));\n",
    "tools/families/sums.txt": "% items a.rt fn\n% for it in [\"on\", \"two\"]\nfn vb_«it»es(\n"
    "% end\n% end\n",
    "crates/vb_c/src/count.rt": 'pub extern "C" fn vb_try_ones(\n    *n = vb_ones(b);\n',
    "bindings/c/vortex_bits.h": "/* vb_ones counts.\n * vb_ones(b) */\nsize_t vb_ones(int b);\n",
    "bindings/c/test.c": 'check(!vb_try_ones(b), "");\n',
    "bindings/rust/src/native.rs": "    ones(b: *const u8) -> usize;\n",
    "bindings/rust/src/bits.rs": "    /// Its ones().\n    pub fn ones(self) {\n"
    "        kernels::ones(self)\n    }\n        word.ones()\n",
    "bench/src/loops.rs": "pub fn ones(w: Window) {\n    word.ones()\n}\n",
    "bench/src/parts/count.rs": "use calls::vb_ones;\nRow::new(\"`ones`\", on(vb_ones));\n",
    "README.md": "The ones of `ones` count.\n\n```rust\nassert(ones(1));\n```\n",
    "docs/PERF.md": "`ones` is fast.\n",
}


class Shown(unittest.TestCase):
    def shown(self, name: str, is_all: bool = False) -> list[str]:
        with tempfile.TemporaryDirectory() as folder:
            for path, text in FILES.items():
                (Path(folder) / path).parent.mkdir(parents=True, exist_ok=True)
                (Path(folder) / path).write_text(text, encoding="utf-8")
            groups = places(Repository(Path(folder)), name, is_all)
        return [line.partition(": ")[0] for _, lines in groups for line in lines]

    def test_a_command_has_its_variant_its_lines_and_its_row(self):
        self.assertEqual(self.shown("get"), [
            "crates/vb_command/specs/Machine.antt:2", "crates/vb_command/specs/Machine.antt:3",
            "crates/vb_command/src/command.rt:4", "crates/vb_pool/src/question.rt:2",
            "crates/vb_script_tests/src/sessions.rt:1", "docs/COMMANDS.md:1",
        ])

    def test_a_command_of_two_words(self):
        self.assertEqual(self.shown("countrange"), [
            "crates/vb_command/src/command.rt:5", "crates/vb_pool/src/question.rt:5",
        ])

    def test_calls_with_the_name_of_a_command(self):
        more = set(self.shown("get", is_all=True)) - set(self.shown("get"))
        self.assertEqual(more, {"crates/vb_kernel/src/count.rt:7"})

    def test_a_kernel_has_its_places_from_the_body_to_c_and_rust(self):
        self.assertEqual(self.shown("ones"), [
            "crates/vb_kernel/src/lib.rt:2", "crates/vb_kernel/src/count.rt:2",
            "crates/vb_view/src/view.rt:3", "crates/vb_kernel/edits/ones-forgets_one.edit",
            "crates/vb_kernel/proofs/count/ones/Answers.antt",
            "crates/vb_kernel_tests/src/ones.rt:2", "tools/families/sums.txt",
            "crates/vb_c/src/count.rt:1", "crates/vb_c/src/count.rt:2",
            "bindings/c/vortex_bits.h:3", "bindings/c/test.c:1",
            "bindings/rust/src/native.rs:1", "bindings/rust/src/bits.rs:2",
            "bindings/rust/src/bits.rs:3", "bench/src/loops.rs:1", "bench/src/parts/count.rs:2",
            "README.md:1", "README.md:4",
        ])

    def test_a_file_of_definitions_has_the_lines_that_give_it_on(self):
        self.assertEqual(self.shown("Bits"), ["crates/vb_kernel/specs/Lib.antt:1"])
        self.assertEqual(self.shown("Looks"), ["crates/vb_kernel/specs/Lib.antt:2"])

    def test_a_name_that_nothing_has(self):
        self.assertEqual(self.shown("absent"), [])


if __name__ == "__main__":
    unittest.main()
