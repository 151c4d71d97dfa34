"""The documents of the repository, and its sources as words."""
import re
from dataclasses import dataclass
from functools import cached_property
from pathlib import Path

NAMED = ["README.md", "CONTRIBUTING.md", "CHANGELOG.md"]
FOLDERS = ["docs", "crates", "bindings", "demo", "reference"]
SOURCES = {
    ".rt", ".antt", ".rs", ".h", ".hpp", ".c", ".cpp", ".py", ".txt", ".toml", ".in", ".edit", "",
}
PROSE = {"LICENSE", "NOTICE", "HANDLES"}
# The document of measurements. The code that they measured may be gone.
MEASURED = "docs/PERF.md"
WORD = re.compile(r"[^\W\d][\w'-]*|[^\W\d]\w*")


@dataclass
class Document:
    """A document: its path from the top of the repository, and its text."""

    path: str
    text: str

    def lines(self) -> list[tuple[int, str]]:
        """Returns the lines with their numbers, without those of code blocks."""
        found, within = [], False
        for n, line in enumerate(self.text.split("\n"), 1):
            if line.startswith("```"):
                within = not within
            elif not within:
                found.append((n, line))
        return found

    def blocks(self, language: str) -> list[tuple[int, str]]:
        """Returns the code blocks of a language, each with the number of its first line."""
        pattern = re.compile(rf"^```{language}\n(.*?)^```", re.MULTILINE | re.DOTALL)
        return [
            (self.text.count("\n", 0, it.start()) + 2, it.group(1))
            for it in pattern.finditer(self.text)
        ]


class Repository:
    """The files that the checks read."""

    def __init__(self, root: Path) -> None:
        self.root = root

    @cached_property
    def documents(self) -> list[Document]:
        """All documents, except drafts/ and those of bench/, which report measurements."""
        paths = [self.root / it for it in NAMED if (self.root / it).exists()]
        for folder in FOLDERS:
            paths += sorted((self.root / folder).rglob("*.md"))
        kept = [it for it in paths if "out" not in it.parts and "target" not in it.parts]
        return [self.document(it.relative_to(self.root).as_posix()) for it in kept]

    @cached_property
    def standing(self) -> list[Document]:
        """The documents that describe the present sources: all except the one of measurements."""
        return [it for it in self.documents if it.path != MEASURED]

    def document(self, path: str) -> Document:
        return Document(path, self.read(path))

    def read(self, path: str) -> str:
        return (self.root / path).read_text(encoding="utf-8", errors="replace")

    def present(self, path: str) -> str:
        """Returns the text of a file; an empty one if there is no such file."""
        return self.read(path) if (self.root / path).exists() else ""

    def files(self) -> list[Path]:
        """Returns the files that no build writes."""
        made = {"out", "target", "native", ".git", "__pycache__"}
        found, todo = [], [self.root]
        while todo:
            for it in sorted(todo.pop().iterdir()):
                if it.is_dir() and it.name not in made:
                    todo.append(it)
                elif it.is_file():
                    found.append(it)
        return found

    @cached_property
    def paths(self) -> list[str]:
        """The files that no build writes, by their paths from the top."""
        return [it.relative_to(self.root).as_posix() for it in self.files()]

    @cached_property
    def words(self) -> set[str]:
        """The words of the sources, and the names of files."""
        found: set[str] = set()
        for path in self.files():
            relative = path.relative_to(self.root)
            found.update(part for it in relative.parts for part in (it, it.partition(".")[0]))
            if path.suffix in SOURCES and path.name not in PROSE:
                found.update(WORD.findall(self.read(relative.as_posix())))
        return found | {part for it in found for part in re.findall(r"\w+", it)}

    @cached_property
    def code(self) -> dict[str, str]:
        """The sources of the crates by their paths."""
        paths = [it for it in self.files() if it.suffix in (".rt", ".antt")]
        relative = [it.relative_to(self.root).as_posix() for it in paths]
        return {it: self.read(it) for it in relative}
