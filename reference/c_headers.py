"""Headers of C: their comments, each with the declarations under it."""
import re
from dataclasses import dataclass, field
from pathlib import Path

from documents.calls import DECLARED

COMMENT = re.compile(r"/\*(.*?)\*/", re.DOTALL)
# Comments around lines that tools/write-lists writes.
OF_LISTS = ("Written by tools/write-lists", "To here.")
# Lines that declare nothing: those around a header, and around its names for C++.
AROUND = re.compile(
    r"^(?:#(?:ifn?def (?:VORTEX\w*_H|__cplusplus)|include .*|define VORTEX\w*_H|endif)|"
    r'extern "C" \{|\})\n', re.MULTILINE
)
CODE_LINE = re.compile(r"((?:(?:^    .*)?\n)*^    .*\n?)", re.MULTILINE)
# Names of headers, and names in them, except prefixes such as vb_try_.
NAMED = re.compile(r"(?<![\w`/])((?:vb|VB)_\w*[A-Za-z0-9]\b(?!\w)|vortex_bits\w*\.hp?p?\b)")
TYPE = re.compile(r"^(?:typedef struct \{.*|)\} (\w+);", re.MULTILINE)
CONSTANT = re.compile(r"^(?:#define |    )(V\w+)", re.MULTILINE)


@dataclass
class Declared:
    """What is declared under a name: its text without its body, and the C functions in the body."""

    name: str
    text: str
    line: int
    uses: set[str] = field(default_factory=set)

    @property
    def last(self) -> str:
        return self.name.rpartition("::")[2]


@dataclass
class Entry:
    """Declarations under one comment: calls, or types and constants."""

    path: str
    comment: str
    declared: list[Declared]
    kind: str = "call"
    owner: str = ""

    @property
    def docs(self) -> str:
        return docs_of(self.comment)

    def calls(self) -> list[Declared]:
        """Its declarations, except the checked forms of others."""
        return [it for it in self.declared if not it.name.startswith("vb_try_")]

    def checked(self, call: Declared) -> Declared | None:
        """The checked form of a call of C."""
        name = re.sub("^vb_", "vb_try_", call.name)
        return next((it for it in self.declared if it.name == name and it is not call), None)


@dataclass
class Header:
    """A header: what its first comment says, and its entries."""

    path: str
    text: str
    comment: str = ""
    entries: list[Entry] = field(default_factory=list)

    @property
    def name(self) -> str:
        return self.path.rpartition("/")[2]

    @property
    def language(self) -> str:
        return "C++" if self.name.endswith(".hpp") else "C"

    @property
    def docs(self) -> str:
        return docs_of(self.comment)

    def line(self, at: int) -> int:
        return self.text.count("\n", 0, at) + 1


def plain(comment: str) -> str:
    """The text of a comment, without the stars before its lines."""
    return re.sub(r"^ *\* ?", "", comment.strip("\n "), flags=re.MULTILINE).strip() + "\n"


def docs_of(comment: str) -> str:
    """A comment as a docstring: its indented lines as code, and the names of C as links."""
    parts = CODE_LINE.split(comment)
    for at, it in enumerate(parts):
        if at % 2:
            code = re.sub("^    ", "", it, flags=re.MULTILINE).strip("\n")
            parts[at] = f"\n\n```c\n{code}\n```\n\n"
        else:
            parts[at] = NAMED.sub(r"[`\1`]", it)
    return "".join(parts).strip()


def read_c(root: Path, path: Path) -> Header:
    """A header of C."""
    text = path.read_text(encoding="utf-8")
    header = Header(path.relative_to(root).as_posix(), text)
    found = list(COMMENT.finditer(text))
    ends = [*(it.start() for it in found[1:]), len(text)]
    comment = ""
    for it, end in zip(found, ends):
        if not it.group(1).strip().startswith(OF_LISTS):
            comment = plain(it.group(1))
        header.comment = header.comment or comment
        if code := AROUND.sub("", text[it.end() : end]).strip():
            line = header.line(it.end() + re.match(r"\s*", text[it.end() :]).end())
            header.entries.append(entry_of(header.path, comment, code, line))
    return header


def entry_of(path: str, comment: str, code: str, line: int) -> Entry:
    """The entry of a comment with the code under it."""
    found = []
    for it in re.finditer(r"\S.*?(?:;|\Z)", code, re.DOTALL):
        if name := DECLARED.match(it.group()):
            at = line + code.count("\n", 0, it.start())
            found.append(Declared(name.group(1), it.group(), at))
    if found:
        return Entry(path, comment, found)
    names = dict.fromkeys(TYPE.findall(code) or CONSTANT.findall(code))
    declared = [Declared(it, code, line) for it in names]
    return Entry(path, comment, declared, "type" if TYPE.search(code) else "constant")
