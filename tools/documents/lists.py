"""Checks that lists in several files agree: the C functions in header, Rust table and crate, with
their parameters and types; the commands, their table and their tests; the version.
"""
import re

from documents import signatures
from documents.files import Repository

EXPORT = re.compile(r"^pub use [\w:]+?::(?:\{([^}]*)\}|(\w+));", re.MULTILINE)
# The sources of the crates that have C functions.
OF_C = re.compile(r"crates/vb_c(_\w+)?/src/")
# The functions about the C library itself, which no crate has.
OF_THE_LIBRARY = {"vb_level", "vb_has_level"}
# The functions that the Rust crate doesn't call.
NOT_CALLED = {
    "vb_get_bit", "vb_pack_bools_padded", "vb_pack_truthy_padded", "vb_masked_min_f32",
    "vb_masked_min_f64", "vb_masked_max_f32", "vb_masked_max_f64",
}
# The suffix of C functions for wide vectors. bindings/wide renames them to the plain names.
WIDE = "_wide"
# The C functions that the library builds from those of the crates.
MADE = re.compile(r"^\w+ (vb_\w+)\(", re.MULTILINE)


def exported(text: str) -> set[str]:
    """Returns the names in the `pub use` lines of a file."""
    found: set[str] = set()
    for names, name in EXPORT.findall(text):
        found |= {it.strip() for it in (names or name).split(",") if it.strip()}
    return found


def differ(one: str, first: set[str], other: str, second: set[str]) -> list[str]:
    found = [f"{one}: has `{it}`, which {other} hasn't" for it in sorted(first - second)]
    return found + [f"{other}: has `{it}`, which {one} hasn't" for it in sorted(second - first)]


def headers(repository: Repository) -> list[str]:
    found = sorted((repository.root / "bindings" / "c").glob("*.h"))
    return [it.relative_to(repository.root).as_posix() for it in found]


def made(repository: Repository) -> set[str]:
    return set(MADE.findall(repository.read("bindings/c/library/made.h")))


def c_functions(repository: Repository) -> list[str]:
    """Compares the functions of the headers, of the Rust table and of the crates, with their
    signatures."""
    crates, table = "crates/vb_c*", "bindings/rust/src/native.rs"
    sources = [text for path, text in repository.code.items() if OF_C.match(path)]
    both = signatures.of_crate("\n".join(sources))
    given = {name: it for name, it in both.items() if not name.endswith(WIDE)}
    wide = {name.removesuffix(WIDE): it for name, it in both.items() if name.endswith(WIDE)}
    found = differ(f"{crates}, wide", set(wide), crates, set(wide) & set(given))
    found += signatures.differences(f"{crates}, wide", given, wide)
    native = signatures.of_table(repository.read(table))
    declared = {}
    for header in headers(repository):
        own = signatures.of_header(repository.read(header))
        found += signatures.differences(header, given, own)
        declared |= own
    of_levels = set(declared) - OF_THE_LIBRARY - made(repository)
    found += differ(crates, set(given), "bindings/c/*.h", of_levels)
    plain = {it for it in given if not it.startswith("vb_try_")} - NOT_CALLED
    found += differ(crates, plain, table, set(native))
    return found + signatures.differences(table, declared, native)


def commands(repository: Repository) -> list[str]:
    """Compares the commands of the crate, of the users' table, and of the tests."""
    crate, table = "crates/vb_command/src/command.rt", "docs/COMMANDS.md"
    forms = "crates/vb_script_tests/src/machine/commands.rt"
    sessions = "crates/vb_script_tests/src/sessions.rt"
    _, _, variants = repository.read(crate).partition("pub enum Command")
    given = {it.lower() for it in re.findall(r"^    (\w+)\(", variants, re.MULTILINE)}
    lines, _, _ = repository.read(table).partition("\n## Answers")
    listed = set(re.findall(r"^\| `([a-z]+) ", lines, re.MULTILINE))
    run = set(re.findall(r'Form\("(\w+)"', repository.read(forms)))
    answered = set(re.findall(r"(?:\\n|\b)([a-z]+) (?:\d|ref |own )", repository.read(sessions)))
    found = differ(crate, given, table, listed) + differ(crate, given, forms, run)
    return found + differ(crate, given, sessions, answered & given)


VERSION = re.compile(r"\b\d+\.\d+\.\d+-r\d+\b")


def versions(repository: Repository) -> list[str]:
    """Checks that README, the newest heading of CHANGELOG and bindings/rust have the same version.
    """
    newest = re.search(r"^## (\S+)", repository.read("CHANGELOG.md"), re.MULTILINE)
    wanted = newest.group(1) if newest else ""
    found = []
    for path in ("README.md", "bindings/rust/Cargo.toml"):
        said = VERSION.search(repository.read(path))
        if said is None or said.group() != wanted:
            found.append(f"{path}: its version isn't {wanted}, that of CHANGELOG.md")
    return found


def lists(repository: Repository) -> list[str]:
    return [*c_functions(repository), *commands(repository), *versions(repository)]
