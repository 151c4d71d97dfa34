"""Tests which faults the checks of documents find, and what they leave alone."""
import os
import subprocess
import tempfile
import unittest
from pathlib import Path

from documents.blocks import Blocks
from documents.counts import LIMITS, MOST, counts, words
from documents.examples import examples
from documents.files import Document, Repository
from documents.kinds import kind_of, statics
from documents.lists import lists
from documents.layers import LAYERS, dependencies, diagram, layers, reduced
from documents.signatures import of_header
from documents.texts import links, names, stale
from documents.widths import lengths, widths
from documents.written import (
    REACHED, TABLE, declared, facade, given_on, kernel, not_written, pair, reached, table,
)

CRATES = "# NAME:\nlow:\nmiddle: low thiserror\nvortex_buffer: low middle\nlow_tests: low\n"
FILES = {
    "CHANGELOG.md": "# Changes\n\n## 1.2.3-r4\n",
    "bindings/rust/Cargo.toml": 'version = "1.2.3-r4"\n',
    "crates.txt": CRATES,
    LAYERS: f"# Layers\n\n```mermaid\n{diagram(CRATES)}```\n",
    "README.md": """# Top
1.2.3-r4
Call `one` of [low](docs/LOW.md#a-part-of-it), see [upstream](https://example.org).

```rust
use low::{one, two};

// Adds.
let a = one(1);

assert!(rt; matches!(a, [1, 2]));
```
""",
    "docs/PERF.md": "In 2.5 seconds `gone` was mended, see [low](LOW.md).\n",
    "docs/LOW.md": "## A part of `it`\nIt takes `Type::of` and `bits b`.\n",
    "docs/DIFFERENCES.md": "| `Upstream` | `one` |\n| left out | `other` |\n",
    "crates/vortex_buffer/CALLING.md": """```antt
abbrev pub f : A
f = b
```

```rust
pub fn two(n: u8) -> u8
    ensures { result ≡ n }
```
""",
    "crates/low/src/lib.rt": "pub fn two(n: u8) -> u8\n    ensures { result ≡ n }\n{\n    n\n}\n"
    "pub struct Type; impl Type { fn of() {} }\n// bits it\n",
    "crates/low_tests/src/lib.rt": "use low::{one, three, two};\n#[test]\nfn a() {\n    // Adds.\n"
    "    let a = one(1);\n    assert!(rt;\n        matches!(\n            a,\n            [1, 2],\n"
    "        )\n    );\n}\n",
    "crates/use_low/specs/F.antt": "-- f\nabbrev pub f : A\nf = b\n",
    "crates/vb_c/src/bit.rt": 'pub extern "C" fn vb_get(n: usize) -> bool\n'
    'pub extern "C" fn vb_try_get(n: usize) -> bool\n'
    'pub extern "C" fn vb_get_wide(n: usize) -> bool\n',
    "bindings/c/any.h": "bool vb_get(size_t n);\nbool vb_try_get(size_t n);\n"
    "bool vb_all(size_t n);\n",
    "bindings/c/library/made.h": "bool vb_all(size_t n)\n{\n    return CALL(get)(n);\n}\n",
    "bindings/rust/src/bits.rs": "/// ```\n/// bits.count(1);\n/// ```\npub fn count(n: u8) {}\n",
    "bindings/rust/src/native.rs": "\nkernels! {\n    get(n: usize) -> bool;\n}\n",
    # The digest of no source.
    "bindings/build": "crates=(low_of_c)\n",
    "bindings/rust/src/digest.rs":
        '"e3b0c44298fc1c149afbf4c8996fb92427ae41e4649b934ca495991b7852b855"\n',
    "crates/vb_pair/src/lib.rt": "mod of;\n\npub use of::{or_count, xor_count};\n",
    "crates/vb_pair/src/of.rt": "pub fn xor_count() {}\nfn own() {}\npub fn or_count() {}\n",
    "crates/vb_kernel/src/lib.rt": "pub use vb_pair::{or_count, xor_count};\n",
    "crates/vortex_buffer/src/lib.rt": "pub use low::{one,\n    two};\npub use low::Type;\n"
    "pub use vb_kernel::or_count;\npub use vb_kernel::xor_count;\n",
    "crates/vortex_buffer_tests/src/reached.rt": "//! All.\npub use vortex_buffer::Type;\n"
    "pub use vortex_buffer::one;\npub use vortex_buffer::or_count;\n"
    "pub use vortex_buffer::two;\npub use vortex_buffer::xor_count;\n",
    "crates/vb_command/src/command.rt": "pub enum Mode {\n    Ref(u8),\n}\n\n"
    "pub enum Command<A> {\n    /// `len k`: the length.\n    Len(usize),\n}\n",
    "docs/COMMANDS.md": "| Line | Answers |\n|---|---|\n| `len k` | how many |\n",
    "crates/vb_script_tests/src/machine/commands.rt": '    Form("len", &[Held], Answers, Never),\n',
    "crates/vb_script_tests/src/sessions.rt": '    ("drop 0\\nlen 0\\n", "0\\n"),\n',
}


class Checked(unittest.TestCase):
    def repository(self, **edits: tuple[str, str]) -> Repository:
        folder = tempfile.TemporaryDirectory()
        self.addCleanup(folder.cleanup)
        root = Path(folder.name)
        for path, text in FILES.items():
            for where, (old, new) in edits.items():
                if path.endswith(where.replace("_dot_", ".").replace("_slash_", "/")):
                    self.assertIn(old, text)
                    text = text.replace(old, new)
            (root / path).parent.mkdir(parents=True, exist_ok=True)
            (root / path).write_text(text, encoding="utf-8")
        return Repository(root)

    def test_nothing_is_wrong(self):
        repository = self.repository()
        for check in (lists, names, links, stale, not_written, examples, counts):
            self.assertEqual(check(repository), [])
        self.assertEqual(Blocks(repository).found, [])

    def test_code_that_no_test_has(self):
        found = Blocks(self.repository(README_dot_md=("one(1)", "one(2)"))).found
        self.assertEqual(found, ["README.md:6: is in no source: // Adds."])

    def test_a_name_that_the_test_does_not_import(self):
        found = Blocks(self.repository(README_dot_md=("{one, two}", "{one, four}"))).found
        self.assertEqual(found, ["README.md:6: the sources that have it don't import four"])

    def test_a_docstring_whose_example_no_test_has(self):
        docs = "/// A type.\n///\n/// ```rust\n/// let a = one(1);\n/// ```\n"
        shown = ("pub struct Type;", f"{docs}pub struct Type;")
        self.assertEqual(Blocks(self.repository(low_slash_src_slash_lib_dot_rt=shown)).found, [])
        other = (shown[0], shown[1].replace("one(1)", "one(2)"))
        self.assertEqual(Blocks(self.repository(low_slash_src_slash_lib_dot_rt=other)).found, [
            "crates/low/src/lib.rt:9: is in no source: let a = one(2);",
        ])

    def test_a_contract_that_the_source_has_not(self):
        found = Blocks(self.repository(CALLING_dot_md=("≡ n", "≢ n"))).found
        self.assertEqual(len(found), 1)

    def test_a_function_that_the_header_lacks(self):
        found = lists(self.repository(any_dot_h=("vb_try_get", "vb_try_got")))
        self.assertEqual(found, [
            "crates/vb_c*: has `vb_try_get`, which bindings/c/*.h hasn't",
            "bindings/c/*.h: has `vb_try_got`, which crates/vb_c* hasn't",
        ])

    def test_a_wide_form_of_no_function_and_one_of_other_parameters(self):
        found = lists(self.repository(vb_c_slash_src_slash_bit_dot_rt=("get_wide", "got_wide")))
        self.assertEqual(found, ["crates/vb_c*, wide: has `vb_got`, which crates/vb_c* hasn't"])
        other = self.repository(vb_c_slash_src_slash_bit_dot_rt=("wide(n: usize", "wide(n: u64"))
        self.assertEqual(lists(other), [
            "crates/vb_c*, wide: `vb_get`: parameter 1 is `n: u64` in place of `n: usize`",
        ])

    def test_a_name_that_the_tests_do_not_reach(self):
        repository = self.repository(reached_dot_rt=("pub use vortex_buffer::two;\n", ""))
        wanted = f"{REACHED}: isn't what tools/write-lists makes of its list: run it"
        self.assertEqual(not_written(repository), [wanted])
        self.assertEqual(reached(repository), FILES[REACHED])

    def test_a_call_of_pairs_that_is_not_given_on(self):
        repository = self.repository(pair_slash_src_slash_of_dot_rt=("fn own", "pub fn nor_count"))
        given = "{nor_count, or_count, xor_count};\n"
        self.assertIn(f"pub use of::{given}", pair(repository))
        self.assertIn(f"pub use vb_pair::{given}", kernel(repository))
        self.assertIn("pub use vb_kernel::nor_count;\npub use vb_kernel::or_count;\n",
                      facade(repository))
        self.assertEqual(len(not_written(repository)), 3)

    def test_names_that_one_line_does_not_hold(self):
        names = [f"count_of_windows_{n}" for n in range(5)]
        lines = given_on("of", names).split("\n")
        self.assertEqual((lines[0], lines[-1]), ("pub use of::{", "};"))
        self.assertLessEqual(max(map(len, lines)), 100)
        self.assertEqual(given_on("of", ["one"]), "pub use of::one;")

    def test_a_function_that_the_rust_table_lacks(self):
        repository = self.repository(native_dot_rs=("    get(n: usize) -> bool;\n", ""))
        wanted = f"{TABLE}: isn't what tools/write-lists makes of its list: run it"
        self.assertEqual(not_written(repository), [wanted])
        self.assertEqual(table(repository), FILES[TABLE])

    def test_a_call_that_no_example_has(self):
        found = examples(self.repository(bits_dot_rs=("bits.count(1)", "bits.sum(1)")))
        self.assertEqual(found, ["bindings/rust/src/bits.rs: no example has `count`"])

    def test_a_long_line_of_the_table_is_wrapped_between_parameters(self):
        of = of_header("void vb_move(const uint8_t *first_window, size_t first_offset, uint8_t "
                       "*second_window, size_t second_offset);")
        self.assertEqual(declared("vb_move", of["vb_move"]), (
            "    move(first_window: *const u8, first_offset: usize, second_window: *mut u8,\n"
            "        second_offset: usize);"
        ))

    def test_a_command_that_is_missing_somewhere(self):
        crate = "crates/vb_command/src/command.rt"
        for where, (old, other) in {
            "COMMANDS_dot_md": ("`len ", "docs/COMMANDS.md"),
            "commands_dot_rt": ('"len"', "crates/vb_script_tests/src/machine/commands.rt"),
            "sessions_dot_rt": ("len 0", "crates/vb_script_tests/src/sessions.rt"),
        }.items():
            found = lists(self.repository(**{where: (old, old.replace("len", ""))}))
            self.assertEqual(found[:1], [f"{crate}: has `len`, which {other} hasn't"])

    def test_a_command_that_is_gone(self):
        found = lists(self.repository(COMMANDS_dot_md=("| `len", "| `size k` | |\n| `len")))
        wanted = "docs/COMMANDS.md: has `size`, which crates/vb_command/src/command.rt hasn't"
        self.assertEqual(found, [wanted])

    def test_a_name_that_is_gone(self):
        found = names(self.repository(LOW_dot_md=("Type::of", "Type::gone")))
        self.assertEqual(found, ["docs/LOW.md:2: `gone` isn't in the sources"])

    def test_links_that_lead_nowhere(self):
        found = links(self.repository(README_dot_md=("#a-part-of-it", "#no-part")))
        self.assertEqual(found, ["README.md:3: docs/LOW.md#no-part isn't there"])
        found = links(self.repository(README_dot_md=("LOW.md", "HIGH.md")))
        self.assertEqual(found, ["README.md:3: docs/HIGH.md#a-part-of-it isn't there"])

    def test_a_page_of_what_was_measured_has_links_that_lead_somewhere(self):
        found = links(self.repository(PERF_dot_md=("(LOW.md", "(HIGH.md")))
        self.assertEqual(found, ["docs/PERF.md:1: HIGH.md isn't there"])

    def test_a_version_that_differs(self):
        found = lists(self.repository(README_dot_md=("-r4", "-r3")))
        self.assertEqual(found, ["README.md: its version isn't 1.2.3-r4, that of CHANGELOG.md"])

    def test_a_diagram_that_is_not_current(self):
        repository = self.repository(crates_dot_txt=("middle: low", "middle:"))
        wanted = f"{LAYERS}: isn't what tools/write-lists makes of its list: run it"
        self.assertEqual(not_written(repository), [wanted])
        self.assertIn("    middle\n", layers(repository))
        self.assertTrue(layers(repository).endswith("stroke-width:4px\n```\n"))

    def test_the_diagram_has_a_line_to_each_crate_that_one_stands_on(self):
        deps = reduced(dependencies(CRATES))
        self.assertEqual(deps, {"low": [], "middle": ["low"], "vortex_buffer": ["middle"]})
        self.assertEqual(diagram(CRATES).splitlines()[:4], [
            "flowchart TD", "    vortex_buffer --> middle", "    middle --> low", "    low",
        ])
        self.assertIn("    top --> vortex_buffer & by\n",
                      diagram(CRATES + "by:\ntop: vortex_buffer by low\n"))

    def test_the_diagram_has_a_box_for_each_kind(self):
        self.assertNotIn("subgraph", diagram(CRATES))
        box = '    subgraph command["commands"]\n        vbits\n    end\n'
        self.assertIn(box, diagram(CRATES + "vbits: low\n"))

    def test_the_kind_of_each_crate(self):
        deps = {
            "low": [], "floats": ["low"], "vortex_buffer": ["low"],
            "vb_c_core": [], "vb_c": ["low", "vb_c_core"], "by_hand": ["floats"],
            "pool": ["low"], "vbits": ["pool"], "use_low": ["low"], "run_low": ["low"],
        }
        wanted = {
            "low": "library", "floats": "library", "vortex_buffer": "facade",
            "vb_c_core": "c", "vb_c": "c", "by_hand": "c", "vb_core": "library",
            "pool": "command", "vbits": "command", "use_low": "example", "run_low": "example",
        }
        lines = "# it staticlib:\n\nvb_c staticlib: low vb_c_core\nby_hand staticlib: floats\n"
        linked = statics(lines)
        self.assertEqual(linked, {"vb_c", "by_hand"})
        self.assertEqual({it: kind_of(it, deps, linked) for it in wanted}, wanted)

    def test_the_kinds_of_the_crates_of_the_repository(self):
        """A kernel that only crates for C need is of the library; the crates for C are not."""
        text = (Path(__file__).resolve().parents[3] / "crates.txt").read_text(encoding="utf-8")
        deps, linked = dependencies(text), statics(text)
        kinds = {it: kind_of(it, deps, linked) for it in deps}
        in_c = {"vb_c_core", "vb_c", "vb_c_gather", "vb_c_compare", "vb_c_aggregate"}
        self.assertEqual({it for it in kinds if kinds[it] == "c"}, in_c)
        of_commands = {"vb_command", "vb_pool", "vb_script", "vbits"}
        self.assertEqual({it for it in kinds if kinds[it] == "command"}, of_commands)
        self.assertEqual(kinds["vb_compare"], "library")

    def test_figures_that_go_stale(self):
        for text, what in (("on 3 May", "a date"), ("took 12.5 seconds", "a duration"),
                           ("2026-05-03", "a date"), ("751 edits", "a count of edits")):
            found = stale(self.repository(LOW_dot_md=("It takes", f"It {text} takes")))
            self.assertEqual([it.split(": ")[1] for it in found], [what], text)

    def test_words_are_counted_as_wc_does(self):
        text = "# A head\n\n| `one` | |\n|---|---|\n| ─ █ | 2 |\n\n```c\nf(x);\n}\n```\n"
        counted = subprocess.run(["wc", "-w"], input=text, capture_output=True, text=True,
                                 env={**os.environ, "LC_ALL": "C.UTF-8"}, check=True)
        self.assertEqual(words(Document("", text)), int(counted.stdout))

    def test_documents_of_too_many_words(self):
        rest = MOST - sum(map(words, self.repository().documents))
        just, more = (f"It takes{' it' * n}" for n in (rest, rest + 1))
        self.assertEqual(counts(self.repository(LOW_dot_md=("It takes", just))), [])
        found = counts(self.repository(LOW_dot_md=("It takes", more)))
        self.assertEqual(found, [f"all documents: {MOST + 1} words, where {MOST} are the most"])

    def test_a_document_of_more_words_than_its_limit(self):
        for path, most in LIMITS.items():
            for n, wanted in ((most, []), (most + 1, [
                f"{path}: {most + 1} words, where {most} are the most",
            ])):
                repository = self.repository()
                (repository.root / path).parent.mkdir(exist_ok=True)
                (repository.root / path).write_text("it " * n, encoding="utf-8")
                self.assertEqual(counts(repository), wanted)

    def test_lines_that_are_too_wide(self):
        wide = "-- " + "≡" * 98
        just = wide[:-1]
        repository = self.repository(F_dot_antt=("-- f", just))
        self.assertEqual(widths(repository), [])
        found = widths(self.repository(F_dot_antt=("-- f", wide)))
        wanted = "crates/use_low/specs/F.antt:1: 101 columns, where 100 are the most"
        self.assertEqual(found, [wanted])
        for suffix in ("rt", "antt", "rs", "c", "h", "hpp", "cpp", "py", "sh"):
            path = f"bindings/any/wide.{suffix}"
            wanted = f"{path}:2: 101 columns, where 100 are the most"
            self.assertEqual(self.widths_with(path, f"\n{wide}\n{just}\n"), [wanted])

    def test_scripts_that_are_too_wide(self):
        wanted = "tools/any:2: 104 columns, where 100 are the most"
        for first in ("#!/usr/bin/env bash", "#!/usr/bin/env python3", "#!/bin/sh"):
            self.assertEqual(self.widths_with("tools/any", f"{first}\n{'# it' * 26}\n"), [wanted])

    def test_files_that_are_no_code_may_be_wide(self):
        for path in ("docs/WIDE.md", "crates/low/edits/a.edit", "tools/families/a.txt", "NOTICE"):
            self.assertEqual(self.widths_with(path, "it " * 40), [], path)

    def widths_with(self, path: str, text: str) -> list[str]:
        """Returns the lines that are too wide in the repository with one more file."""
        return widths(self.repository_with(path, text))

    def repository_with(self, path: str, text: str) -> Repository:
        """Returns the repository with one more file."""
        repository = self.repository()
        (repository.root / path).parent.mkdir(parents=True, exist_ok=True)
        (repository.root / path).write_text(text, encoding="utf-8")
        return repository

    def test_a_file_of_too_many_lines(self):
        self.assertEqual(lengths(self.repository(bits_dot_rs=("pub", "\n" * 496 + "pub"))), [])
        found = lengths(self.repository(bits_dot_rs=("pub", "\n" * 497 + "pub")))
        self.assertEqual(found, ["bindings/rust/src/bits.rs: 501 lines, where 500 are the most"])
        long = self.repository_with("tools/any", "#!/bin/sh\n" + "true\n" * 500)
        self.assertEqual(lengths(long), ["tools/any: 501 lines, where 500 are the most"])
        self.assertEqual(lengths(self.repository_with("NOTICE", "a line\n" * 501)), [])


if __name__ == "__main__":
    unittest.main()
