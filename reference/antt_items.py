"""The declarations of an .antt file, each with the sentence above it."""
import re
from dataclasses import dataclass, field

from reference.rust_text import Source, SourceError, dedented

NAMES = re.compile(r"(?:(?:pub|abbrev|unfoldable)\s+)*(?:(record|data|ruleset)\s+)?(\S+)")
DECLARES = re.compile(r"(?:abbrev|unfoldable|pub|record|data|ruleset|infix[lr]?)\b|\S+\s*:(?:\s|$)")
MEMBER = re.compile(r"^\s+(?:pub )?(\S+)\s*:(?=\s)", re.MULTILINE)


@dataclass
class Use:
    """An import: names of a module, each with what it is called here, or a module by an alias."""

    path: str
    names: dict[str, str]
    alias: str = ""
    is_public: bool = False
    line: int = 0


@dataclass
class Declaration:
    """A definition or a lemma."""

    kind: str
    name: str
    source: Source
    line: int
    is_public: bool
    sentence: str
    heading: str
    text: str
    signature: str
    module: str = ""
    fields: list[str] = field(default_factory=list)

    @property
    def place(self) -> str:
        return f"{self.source.path}:{self.line}"


@dataclass
class AnttFile:
    source: Source
    sentence: str
    uses: list[Use]
    modules: list[str]
    declarations: list[Declaration]

    def declaration(self, name: str) -> Declaration | None:
        return next((it for it in self.declarations if it.name == name), None)


def parse_use(text: str, line: int = 0) -> Use:
    """`use A.b.{c, d as e}`, `use A.b as c` or `use A.b`, after `pub` where it is public."""
    is_public = text.startswith("pub ")
    rest = text.removeprefix("pub ").removeprefix("ghost ").removeprefix("use ").rstrip("; \n")
    path, brace, listed = rest.partition(".{")
    if not brace:
        path, _, alias = rest.partition(" as ")
        return Use(path.strip(), {}, alias.strip(), is_public, line)
    names = {}
    for it in (it.strip() for it in listed.rstrip("} \n").split(",")):
        name, _, alias = it.partition(" as ")
        names[alias.strip() or name.strip()] = name.strip()
    return Use(path.strip(), names, "", is_public, line)


def indent_of(line: str) -> int:
    return len(line) - len(line.lstrip(" "))


class Reader:
    """Goes through the lines of a file."""

    def __init__(self, source: Source) -> None:
        self.source = source
        self.lines = source.text.split("\n")
        self.file = AnttFile(source, "", [], [], [])
        self.heading = ""
        self.scopes: list[tuple[int, str, str]] = []  # indentation, header and sentence of a module

    def run(self) -> AnttFile:
        i, comment = 0, []
        while i < len(self.lines):
            line = self.lines[i]
            if not line.strip():
                comment = []
                i += 1
            elif line.lstrip().startswith("--"):
                comment = self.comment(line, comment)
                i += 1
            else:
                end = self.chunk_end(i)
                self.chunk(i, end, " ".join(comment))
                comment, i = [], end
        return self.file

    def comment(self, line: str, before: list[str]) -> list[str]:
        text = line.strip()[2:].strip()
        if text.startswith("----"):
            self.heading = text.strip("- ")
            return []
        if not self.file.sentence and not self.file.uses and not self.file.modules:
            self.top(text)
        return [*before, text]

    def top(self, first: str) -> None:
        """The sentence of the file: the comment that it begins with."""
        said = []
        for line in self.lines:
            if not line.startswith("--"):
                break
            said.append(line[2:].strip())
        self.file.sentence = " ".join(said) if said else first

    def chunk_end(self, i: int) -> int:
        """Returns the line after the part that begins at line `i`. Deeper lines and closing
        brackets belong to the part."""
        own, j = indent_of(self.lines[i]), i + 1
        if self.lines[i].lstrip().startswith("module "):
            while not self.lines[j - 1].rstrip().endswith(" where"):
                j += 1
            return j
        while j < len(self.lines) and self.lines[j].strip():
            deeper = indent_of(self.lines[j]) > own
            if not deeper and self.lines[j].lstrip()[0] not in ")}]":
                break
            j += 1
        return j

    def chunk(self, i: int, end: int, comment: str) -> None:
        own, text = indent_of(self.lines[i]), "\n".join(self.lines[i:end])
        while self.scopes and own <= self.scopes[-1][0]:
            self.scopes.pop()
        text = dedented(text.lstrip(), own)
        if text.startswith(("use ", "pub use ")):
            self.file.uses.append(parse_use(text, i + 1))
        elif text.startswith(("mod ", "pub mod ")):
            if text.startswith("pub "):
                self.file.modules.append(text.split()[-1])
        elif text.startswith("module "):
            self.scopes.append((own, text, comment))
        elif DECLARES.match(text) and not text.startswith("infix"):
            self.declare(i, text, comment)
        elif self.file.declarations:
            self.file.declarations[-1].text += "\n" + text
        elif not text.startswith("infix"):
            raise SourceError(f"{self.source.path}:{i + 1}: not a declaration")

    def declare(self, i: int, text: str, comment: str) -> None:
        found = NAMES.match(text)
        assert found
        kind = found.group(1) or ("definition" if text.startswith(("abbrev", "unf")) else "lemma")
        if not comment and self.scopes:
            comment, self.scopes[-1] = self.scopes[-1][2], (*self.scopes[-1][:2], "")
        is_public = bool(re.match(r"(?:abbrev |unfoldable )?pub ", text))
        module = "\n".join(header for _, header, _ in self.scopes)
        name, line = found.group(2), i + 1
        declared = Declaration(
            kind, name, self.source, line, is_public, comment, self.heading, text, text, module
        )
        if kind in ("record", "data"):
            declared.fields = MEMBER.findall(text.partition(" where")[2])
        self.file.declarations.append(declared)


def parse_antt(source: Source) -> AnttFile:
    return Reader(source).run()
