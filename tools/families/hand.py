"""Counts the lines of the crates that are written by hand."""
from documents.files import Repository
from documents.written import REACHED
from families.written import files, templates

FOLDERS = {"src", "specs", "proofs"}


def is_of_crate(path: str) -> bool:
    """Returns whether a source is in src/, specs/ or proofs/ of a crate."""
    parts = path.split("/")
    return parts[0] == "crates" and len(parts) > 3 and parts[2] in FOLDERS


def hand(repository: Repository) -> str:
    """Returns how many lines of src/, specs/ and proofs/ no tool writes, and how many lines the
    templates have."""
    lines = {
        path: text.count("\n") for path, text in repository.code.items() if is_of_crate(path)
    }
    by_tools = {path: file.lines for path, file in files(repository) if path in lines}
    by_tools[REACHED] = repository.read(REACHED).count("pub use ")
    every, written = sum(lines.values()), sum(by_tools.values())
    filling = sum(text.count("\n") for text in templates(repository).values())
    return (
        f"{every - written} of {every} lines of src/, specs/ and proofs/ by hand; "
        f"{written} in {len(by_tools)} files by tools/write-lists, whose templates have {filling}"
    )
