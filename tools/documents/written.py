"""The files that a tool writes: families, from their templates; and lists, from the places that
define their names. The lists are the names that vb_pair re-exports from its files, and those that
vb_kernel and the top crate re-export from vb_pair, the definitions that vb_pair and vb_select
re-export, the names that the tests of the top crate reach, the table by which the Rust crate calls
the C functions, the diagram of the crates, and the digest by which the Rust crate recognizes its
archives.
"""
import re
import textwrap
from collections.abc import Iterator

from documents import signatures
from documents.digest import DIGEST, written_digest
from documents.files import Repository
from documents.layers import LAYERS, layers
from documents.lists import NOT_CALLED, OF_THE_LIBRARY, exported, headers, made
from documents.signatures import Signature
from families.written import NoPlace, files

TABLE = "bindings/rust/src/native.rs"
PAIR = "crates/vb_pair/src/lib.rt"
KERNEL = "crates/vb_kernel/src/lib.rt"
CRATE = "crates/vortex_buffer/src/lib.rt"
REACHED = "crates/vortex_buffer_tests/src/reached.rt"
CITED = ["crates/vb_pair/specs/Lib.antt", "crates/vb_select/specs/Lib.antt"]


def declared(name: str, signature: Signature) -> str:
    """Returns a line of the table, wrapped between parameters."""
    listed = [f"{min(it.names)}: {it.kind}".replace(" ", "\0") for it in signature.parameters]
    answer = "" if signature.answer == "()" else f"\0->\0{signature.answer}"
    text = f"{name.removeprefix('vb_')}({', '.join(listed)}){answer};"
    wrapped = textwrap.wrap(
        text, 100, initial_indent=" " * 4, subsequent_indent=" " * 8,
        break_long_words=False, break_on_hyphens=False,
    )
    return "\n".join(wrapped).replace("\0", " ")


def table(repository: Repository) -> str:
    """Returns the Rust crate's file of C functions, with each function that it calls."""
    given: dict[str, Signature] = {}
    for header in headers(repository):
        given |= signatures.of_header(repository.read(header))
    left_out = OF_THE_LIBRARY | NOT_CALLED | made(repository)
    lines = [
        declared(name, signature) for name, signature in given.items()
        if not name.startswith("vb_try_") and name not in left_out
    ]
    head, _, rest = repository.read(TABLE).partition("\nkernels! {\n")
    _, _, behind = rest.partition("\n}\n")
    return "\n".join([head, "kernels! {", *lines, "}", behind])


def given_on(path: str, names: list[str]) -> str:
    """Returns a `pub use` item, in the layout of `rt fmt`."""
    listed = ", ".join(names)
    if len(names) == 1:
        return f"pub use {path}::{listed};"
    if len(line := f"pub use {path}::{{{listed}}};") <= 100:
        return line
    wrapped = textwrap.fill(f"{listed},", 100, initial_indent=" " * 4, subsequent_indent=" " * 4)
    return f"pub use {path}::{{\n{wrapped}\n}};"


def pair(repository: Repository) -> str:
    """Returns the top of vb_pair, which re-exports all public functions of the files that it names.
    """
    text = repository.read(PAIR)

    def given(found: re.Match) -> str:
        file = repository.read(PAIR.replace("lib.rt", f"{found[1]}.rt"))
        return given_on(found[1], sorted(re.findall(r"^pub fn (\w+)", file, re.MULTILINE)))

    return re.sub(r"^pub use (\w+)::[^;]*;", given, text, flags=re.MULTILINE)


def kernel(repository: Repository) -> str:
    """Returns the top of vb_kernel, which re-exports all names of vb_pair."""
    given = given_on("vb_pair", sorted(exported(pair(repository))))
    return re.sub(r"pub use vb_pair::[^;]*;", given, repository.read(KERNEL))


def facade(repository: Repository) -> str:
    """Returns the top of the crate for users, which re-exports all names of vb_pair by way of
    vb_kernel."""
    start = "pub use vb_kernel::"
    lines = repository.read(CRATE).split("\n")
    places = [n for n, line in enumerate(lines) if line.startswith(start)]
    if places:
        given = {f"{start}{it};" for it in exported(pair(repository))}
        part = slice(places[0], places[-1] + 1)
        lines[part] = sorted(given.union(lines[part]))
    return "\n".join(lines)


def reached(repository: Repository) -> str:
    """Returns the file that reaches each name of the crate for users."""
    names = sorted(exported(repository.read(CRATE)))
    head, _, _ = repository.read(REACHED).partition("pub use ")
    return head + "".join(f"pub use vortex_buffer::{it};\n" for it in names)


def cited(repository: Repository, path: str) -> str:
    """Returns the top of a crate's definitions, which re-exports the files of definitions that its
    sources use."""
    crate = path.split("/")[1]
    folder = f"crates/{crate}/src/"
    sources = [text for it, text in repository.code.items() if it.startswith(folder)]
    used = re.findall(r"^ghost use (Rattle\.\w+\.specs\.\w+)", "\n".join(sources), re.MULTILINE)
    left_out = ("Rattle.std.", f"Rattle.{crate}.")
    names = {it for it in used if not it.startswith(left_out) and not it.endswith(".declared")}
    own = [it for it in repository.read(path).split("\n") if it.startswith("pub mod ")]
    return "".join(f"{it}\n" for it in own + [f"pub use {it}" for it in sorted(names)])


LISTS = {
    PAIR: pair, KERNEL: kernel, CRATE: facade, REACHED: reached, TABLE: table, LAYERS: layers,
    DIGEST: written_digest,
}


def written(repository: Repository) -> Iterator[tuple[str, str]]:
    """Yields the path and the text of each file. A later file may be derived from an earlier one.
    """
    for path, file in files(repository):
        yield path, file.text
    for path in CITED:
        if repository.present(path):
            yield path, cited(repository, path)
    for path, text in LISTS.items():
        yield path, text(repository)


def not_written(repository: Repository) -> list[str]:
    """Returns the files that the tool would change."""
    try:
        return [
            f"{path}: isn't what tools/write-lists makes of its list: run it"
            for path, text in written(repository) if text != repository.present(path)
        ]
    except NoPlace as error:
        return [str(error)]
