"""The text of a .rt file as tokens."""
import re
from bisect import bisect_right
from dataclasses import dataclass
from functools import cached_property
from pathlib import Path

TOKEN = re.compile(
    r"""(?P<doc>//[/!](?!/)[^\n]*)
      | (?P<comment>//[^\n]*|/\*.*?\*/)
      | (?P<string>b?"(?:\\.|[^"\\])*"|b?'(?:\\(?:u\{[^}]*\}|x..|.)|[^'\\\n])')
      | (?P<lifetime>'[A-Za-z_]\w*)
      | (?P<number>\d\w*(?:\.\d\w*)?)
      | (?P<word>[^\W\d]\w*)
      | (?P<arrow>->|=>|::)
      | (?P<mark>[^\s\w])""",
    re.VERBOSE | re.DOTALL,
)

CLOSERS = {"(": ")", "[": "]", "{": "}"}


class SourceError(Exception):
    """What can't be read, or isn't as it has to be, with its file and line."""


@dataclass(frozen=True)
class Token:
    kind: str
    text: str
    start: int
    end: int


@dataclass
class Source:
    """A file: its path from the top of the repository, and its text."""

    path: str
    text: str

    @staticmethod
    def read(root: Path, path: Path) -> "Source":
        return Source(path.relative_to(root).as_posix(), path.read_text(encoding="utf-8"))

    @cached_property
    def line_starts(self) -> list[int]:
        return [0] + [it.end() for it in re.finditer("\n", self.text)]

    def line(self, place: int) -> int:
        """The number of the line, from 1, that has this index of the text."""
        return bisect_right(self.line_starts, place)

    def at(self, place: int) -> str:
        return f"{self.path}:{self.line(place)}"

    @cached_property
    def tokens(self) -> list[Token]:
        found = TOKEN.finditer(self.text)
        return [Token(it.lastgroup or "", it.group(), it.start(), it.end()) for it in found]


def skip_group(tokens: list[Token], i: int) -> int:
    """The index behind the group of brackets that opens at `i`."""
    wanted = [CLOSERS[tokens[i].text]]
    i += 1
    while wanted:
        token = tokens[i]
        if token.kind == "mark" and token.text in CLOSERS:
            wanted.append(CLOSERS[token.text])
        elif token.kind == "mark" and token.text == wanted[-1]:
            wanted.pop()
        i += 1
    return i


def dedented(text: str, indent: int) -> str:
    """The text with `indent` spaces fewer in each line after the first one."""
    first, *rest = text.split("\n")
    return "\n".join([first, *(it[indent:] if not it[:indent].strip() else it for it in rest)])
