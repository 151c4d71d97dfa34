"""Checks that the sources have the code of documents and docstrings: the tests, and the crates and
programs that show how to use the library, have the code of README, CALLING and the docstrings of
library crates."""
import re

from documents.files import Document, Repository

SHOWN = ["README.md", "crates/vortex_buffer/CALLING.md"]
TOKEN = re.compile(r"//[^\n]*|--[^\n]*|\"(?:\\.|[^\"\\])*\"|\w+|[^\w\s]")
DOCSTRING = re.compile(r"\s*//[/!] ?(.*)")
IMPORT = re.compile(r"^\s*(?:ghost )?use [^;]+;", re.MULTILINE)


def tokens(text: str) -> str:
    """Returns the text as tokens with one space between, without commas before a closing bracket.
    """
    found = [" ".join(it.split()) for it in TOKEN.findall(text)]
    kept = [
        it for i, it in enumerate(found)
        if not (it == "," and i + 1 < len(found) and found[i + 1] in ")]}")
    ]
    return " " + " ".join(kept) + " "


def imports(text: str) -> set[str]:
    """Returns the imported names, without their paths."""
    found = set()
    for it in IMPORT.findall(text):
        path, _, names = " ".join(it.split()).rstrip(";").partition("{")
        if names:
            found |= {name.strip() for name in names.rstrip("}").split(",") if name.strip()}
        else:
            found.add(re.split(r"::|\.", path)[-1].strip())
    return found


def parts(block: str) -> list[str]:
    """Returns the parts of the block between empty lines, without its imports."""
    text = IMPORT.sub("", block)
    return [it for it in re.split(r"\n\s*\n", text) if it.strip()]


class Blocks:
    """Compares blocks with sources."""

    def __init__(self, repository: Repository) -> None:
        self.code = repository.code
        self.written = {path: tokens(text) for path, text in self.code.items()}
        self.found: list[str] = []
        for path in SHOWN:
            self.document(repository.document(path))
        for path, text in self.code.items():
            if path.endswith(".rt") and not is_shown(path):
                self.document(Document(path, docstrings(text)))

    def document(self, document: Document) -> None:
        for language, suffix in (("rust", ".rt"), ("antt", ".antt")):
            for line, block in document.blocks(language):
                self.block(f"{document.path}:{line}", block, suffix)

    def block(self, where: str, block: str, suffix: str) -> None:
        holders: set[str] = set()
        for part in parts(block):
            holding = self.holding(part, suffix)
            if not holding:
                first = part.strip().split("\n")[0]
                self.found.append(f"{where}: is in no source: {first.strip()}")
                return
            holders |= holding
        brought = set().union(*(imports(self.code[it]) for it in holders))
        missing = sorted(imports(block) - brought)
        if missing:
            names = ", ".join(missing)
            self.found.append(f"{where}: the sources that have it don't import {names}")

    def holding(self, part: str, suffix: str) -> set[str]:
        """Returns the files with this part: tests and examples, or any file if it is a contract."""
        wanted = tokens(part)
        is_contract = re.search(r"^\s*ensures", part, re.MULTILINE) is not None
        return {
            path for path, text in self.written.items()
            if path.endswith(suffix) and wanted in text and (is_contract or is_shown(path))
        }


def docstrings(text: str) -> str:
    """Returns the lines of a source's docstrings. Its other lines become empty."""
    found = (DOCSTRING.match(line) for line in text.split("\n"))
    return "\n".join(it[1] if it else "" for it in found)


def is_shown(path: str) -> bool:
    crate = path.split("/")[1]
    return (
        crate.endswith("_tests")
        or crate.startswith(("use_", "run_"))
        or path.endswith("tests.rt")
    )
