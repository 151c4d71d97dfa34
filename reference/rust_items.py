"""The items of a .rt file: what it declares, with docstrings and contracts."""
from dataclasses import dataclass, field
from typing import Callable, Iterator

from reference.rust_text import Source, SourceError, Token, dedented, skip_group

MODIFIERS = {"unsafe", "extern", "async", "const", "default"}
CLAUSES = {"requires", "ensures"}


@dataclass
class Clause:
    """A `requires`, `ensures` or `ghost`: its name, if it has one, and the range of its text."""

    kind: str
    name: str
    start: int
    end: int


@dataclass
class Item:
    """What is declared: its kind (`fn`, `struct`, `impl` ..), name, and parts."""

    kind: str
    name: str
    source: Source
    start: int
    end: int = 0
    docs: str = ""
    comment: str = ""
    attributes: list[str] = field(default_factory=list)
    visibility: str = ""
    head: tuple[int, int] = (0, 0)
    body: tuple[int, int] | None = None
    clauses: list[Clause] = field(default_factory=list)
    items: list["Item"] = field(default_factory=list)
    imports: list["Item"] = field(default_factory=list)
    crate: str = ""
    module: tuple[str, ...] = ()
    owner: "Item | None" = None

    @property
    def line(self) -> int:
        return self.source.line(self.start)

    @property
    def place(self) -> str:
        return f"{self.source.path}:{self.line}"

    def text(self, span: tuple[int, int]) -> str:
        start, end = span
        line_start = self.source.line_starts[self.source.line(start) - 1]
        return dedented(self.source.text[start:end], start - line_start).rstrip()

    @property
    def head_text(self) -> str:
        return self.text(self.head)

    @property
    def whole_text(self) -> str:
        return self.text((self.start, self.end))

    def of_kind(self, *kinds: str) -> list["Item"]:
        return [it for it in self.items if it.kind in kinds]

    def member(self, name: str) -> "Item | None":
        return next((it for it in self.items if it.name == name), None)

    @property
    def is_test(self) -> bool:
        return any(it.startswith("#[test") for it in self.attributes)


@dataclass
class File:
    """A .rt file, parsed."""

    source: Source
    docs: str
    items: list[Item]

    def ghost_uses(self) -> list[Item]:
        return [it for it in self.items if it.kind == "ghost use"]


def doc_text(token: Token) -> str:
    text = token.text[3:]
    return text[1:] if text.startswith(" ") else text


class Parser:
    """Reads items one after the other; each method begins at the token `self.i`."""

    def __init__(self, source: Source) -> None:
        self.source = source
        self.all = source.tokens
        self.i = 0

    def peek(self, ahead: int = 0) -> str:
        i = self.i + ahead
        return self.all[i].text if i < len(self.all) else ""

    def fail(self, what: str) -> SourceError:
        at = self.all[min(self.i, len(self.all) - 1)].start
        return SourceError(f"{self.source.at(at)}: {what}, found `{self.peek()}`")

    def expect(self, text: str) -> None:
        if self.peek() != text:
            raise self.fail(f"expected `{text}`")
        self.i += 1

    def take_word(self) -> str:
        if self.i >= len(self.all) or self.all[self.i].kind != "word":
            raise self.fail("expected a name")
        self.i += 1
        return self.all[self.i - 1].text

    def skip_to(self, *stops: str) -> None:
        """Goes on to the first of these outside of brackets."""
        while self.peek() not in stops:
            if self.i >= len(self.all):
                raise self.fail(f"expected one of {stops}")
            if self.peek() in ("(", "[", "{") and self.all[self.i].kind == "mark":
                self.i = skip_group(self.all, self.i)
            else:
                self.i += 1

    def end_of_last(self) -> int:
        return self.all[self.i - 1].end

    # ---- the lines above an item
    def preamble(self) -> Item:
        """The docstring, the comment and the attributes above an item, and its visibility."""
        item = Item("", "", self.source, 0)
        docs: list[str] = []
        comment: list[str] = []
        last = -1
        while self.i < len(self.all):
            token = self.all[self.i]
            if token.kind == "doc":
                docs.append(doc_text(token))
                self.i += 1
            elif token.kind == "comment":
                follows = last >= 0 and self.source.line(token.start) == last + 1
                comment = [*(comment if follows else []), token.text[2:].strip()]
                last = self.source.line(token.start)
                self.i += 1
            elif token.text == "#":
                start = token.start
                self.i = skip_group(self.all, self.i + (2 if self.peek(1) == "!" else 1))
                item.attributes.append(self.source.text[start:self.end_of_last()])
            else:
                break
        item.docs, item.comment = "\n".join(docs), " ".join(comment)
        self.visibility(item)
        return item

    def visibility(self, item: Item) -> None:
        if self.i < len(self.all):
            item.start = self.all[self.i].start
        if self.peek() == "pub":
            self.i += 1
            if self.peek() == "(":
                self.i = skip_group(self.all, self.i)
            item.visibility = self.source.text[item.start:self.end_of_last()]

    # ---- items
    def file(self) -> File:
        docs = []
        while self.i < len(self.all) and self.peek().startswith("//!"):
            docs.append(doc_text(self.all[self.i]))
            self.i += 1
        return File(self.source, "\n".join(docs), list(self.items("")))

    def items(self, closer: str) -> Iterator[Item]:
        while self.i < len(self.all) and self.peek() != closer:
            item = self.item()
            if item is not None:
                yield item

    def item(self) -> Item | None:
        item = self.preamble()
        if self.i >= len(self.all) or self.peek() == "}":
            return None
        readers: dict[str, Callable[[Item], None]] = {
            "ghost": self.ghost,
            "fn": self.function,
            "struct": self.struct,
            "enum": self.enum,
            "trait": self.block,
            "impl": self.block,
            "mod": self.module,
            "use": self.to_semicolon,
            "type": self.to_semicolon,
            "const": self.to_semicolon,
            "static": self.to_semicolon,
            "macro_rules": self.macro,
        }
        self.modifiers()
        item.kind = self.peek()
        if item.kind not in readers:
            raise self.fail("expected an item")
        self.i += 1
        readers[item.kind](item)
        item.end = self.end_of_last()
        return item

    def modifiers(self) -> None:
        while self.peek() in MODIFIERS:
            if self.peek() == "const" and self.peek(1) not in ("fn", "unsafe", "extern"):
                return
            self.i += 2 if self.peek() == "extern" and self.peek(1).startswith('"') else 1

    def to_semicolon(self, item: Item) -> None:
        if item.kind != "use":
            item.name = self.peek()
        self.skip_to(";")
        item.head = (item.start, self.end_of_last())
        self.i += 1

    def macro(self, item: Item) -> None:
        self.expect("!")
        item.name = self.take_word()
        item.head = (item.start, self.end_of_last())
        self.i = skip_group(self.all, self.i)

    def module(self, item: Item) -> None:
        item.name = self.take_word()
        item.head = (item.start, self.end_of_last())
        if self.peek() == "{":
            self.members(item)
        else:
            self.expect(";")

    def members(self, item: Item) -> None:
        self.expect("{")
        for it in self.items("}"):
            (item.imports if it.kind == "ghost use" else item.items).append(it)
        self.expect("}")

    def block(self, item: Item) -> None:
        if item.kind == "trait":
            item.name = self.peek()
        self.skip_to("{", ";")
        item.head = (item.start, self.end_of_last())
        if self.peek() == "{":
            self.members(item)
        else:
            self.i += 1

    def function(self, item: Item) -> None:
        item.name = self.take_word()
        self.skip_to("{", ";", "requires", "ensures")
        item.head = (item.start, self.end_of_last())
        while self.peek() in CLAUSES:
            self.clause(item)
        if self.peek() == ";":
            self.i += 1
            return
        start = self.all[self.i].start
        self.i = skip_group(self.all, self.i)
        item.body = (start, self.end_of_last())

    def clause(self, item: Item) -> None:
        kind = self.take_word()
        if self.peek() == "*":
            self.i += 1
            kind += "*"
        name = self.take_word() if self.peek() != "{" else ""
        item.clauses.append(self.braces(kind, name))

    def braces(self, kind: str, name: str) -> Clause:
        """The text within braces, without them."""
        start = self.all[self.i].end
        self.expect("{")
        self.i = skip_group(self.all, self.i - 1)
        return Clause(kind, name, start, self.all[self.i - 1].start)

    def ghost(self, item: Item) -> None:
        if self.peek() == "use":
            item.kind = "ghost use"
            self.skip_to(";")
            item.head = (item.start, self.end_of_last())
            self.i += 1
            return
        item.name = self.take_word()
        sign = self.peek()
        self.i += 1
        item.clauses.append(self.braces("ghost", sign))
        while self.peek() in ("by", "="):
            self.i += 1
            item.clauses.append(self.braces("ghost", self.peek(-1)))
        item.head = (item.start, self.end_of_last())
        if self.peek() in (";", ","):
            self.i += 1

    def struct(self, item: Item) -> None:
        item.name = self.take_word()
        self.skip_to("{", "(", ";")
        item.head = (item.start, self.end_of_last())
        if self.peek() == "{":
            self.i += 1
            item.items = list(self.fields("}"))
            self.expect("}")
            return
        self.skip_to(";")
        self.i += 1

    def fields(self, closer: str) -> Iterator[Item]:
        while True:
            item = self.preamble()
            if self.peek() == closer:
                return
            if self.peek() == "ghost":
                self.i += 1
                item.kind = "ghost"
                self.ghost(item)
            else:
                item.kind, item.name = "field", self.take_word()
                self.to_comma(item, closer)
            item.end = self.end_of_last()
            yield item

    def to_comma(self, item: Item, closer: str) -> None:
        depth = 0
        while depth or self.peek() not in (",", closer):
            depth += {"<": 1, ">": -1}.get(self.peek(), 0)
            if self.peek() in ("(", "[", "{"):
                self.i = skip_group(self.all, self.i)
            else:
                self.i += 1
        item.head = (item.start, self.end_of_last())
        if self.peek() == ",":
            self.i += 1

    def enum(self, item: Item) -> None:
        item.name = self.take_word()
        self.skip_to("{")
        item.head = (item.start, self.end_of_last())
        self.i += 1
        while True:
            variant = self.preamble()
            if self.peek() == "}":
                break
            variant.kind, variant.name = "variant", self.take_word()
            if self.peek() == "{":
                self.i += 1
                variant.items = list(self.fields("}"))
                self.expect("}")
            self.to_comma(variant, "}")
            variant.end = self.end_of_last()
            item.items.append(variant)
        self.expect("}")


def parse(source: Source) -> File:
    try:
        return Parser(source).file()
    except IndexError:
        raise SourceError(f"{source.path}: ends within brackets") from None
