"""Headers of C++: their classes and calls, without what is private."""
import re
from dataclasses import dataclass
from pathlib import Path

from reference.c_headers import COMMENT, Declared, Entry, Header, plain

OF_C = re.compile(r"\bvb_\w+")
DIRECTIVE = re.compile(r"^#(?:.*\\\n)*.*$", re.MULTILINE)
LABEL = re.compile(r"(public|private|protected):")
CLASS = re.compile(r"\b(class|struct) (\w+)(?: : public \w+)?$")
TEMPLATE = re.compile(r"template <")
NAME = re.compile(r"(operator(?:\[\]|[^\w\s(]+| \w+)|\w+(?:::\w+)*)\(")
VARIABLE = re.compile(r"(\w+) =")
# The list of what a constructor initializes, with all that follows.
INITIALIZED = re.compile(r"(\)(?: const| noexcept)*)\s*:[^:].*", re.DOTALL)
# Signs that end a declaration or enclose its parts, and comments and strings, to pass their signs.
SIGN = re.compile(
    r"/\*.*?\*/|//[^\n]*|\"(?:\\.|[^\"\\])*\"|'(?:\\.|[^'\\])+'|[()\[\]{};]", re.DOTALL
)
OPENS, CLOSES = set("([{"), set(")]}")


@dataclass
class Statement:
    """A declaration: the text before its body, and its body."""

    head: str
    body: str
    inner: int
    line: int = 0


def statement(text: str, start: int) -> tuple[Statement, int]:
    """The declaration that begins here, and where it ends."""
    depth, inner = 0, -1
    for it in SIGN.finditer(text, start):
        sign, at = it.group(), it.start()
        inner = at if sign == "{" and depth == 0 and inner < 0 else inner
        depth += (sign in OPENS) - (sign in CLOSES)
        is_body = sign == "}" and text[at + 1 : at + 2] != ";"
        if depth == 0 and (sign == ";" or is_body):
            body = text[inner + 1 : at] if inner >= 0 else ""
            head = text[start : inner if inner >= 0 else at].strip()
            return Statement(head, body, inner + 1), at + 1
    return Statement("", "", start), len(text)


def after_template(head: str) -> str:
    """A head without the list of its template's parameters."""
    if not TEMPLATE.match(head):
        return head
    depth, at = 0, len("template ")
    while True:
        depth += (head[at] == "<") - (head[at] == ">")
        at += 1
        if depth == 0:
            return head[at:].strip()


def name_of(head: str) -> str:
    """The name that a head declares; an empty text for a specialization of another template."""
    rest = after_template(head)
    variable, call = VARIABLE.search(rest), NAME.search(rest)
    if variable and not (call and call.start() < variable.start()):
        return variable.group(1)
    return call.group(1) if call else ""


class Reader:
    """Reads a header, from namespaces and classes inwards."""

    def __init__(self, header: Header, uses: dict[str, set[str]]) -> None:
        self.header, self.uses = header, uses
        # Directives as blanks, so that each line keeps its place.
        self.text = DIRECTIVE.sub(lambda it: re.sub(r"[^\n]", " ", it.group()), header.text)

    def read(self, start: int, end: int, owner: str, is_public: bool) -> None:
        at, entry = start, None
        while at < end:
            gap = re.compile(r"\s*").match(self.text, at, end)
            entry = None if gap.group().count("\n") > 1 else entry
            at = gap.end()
            if at == end:
                return
            if comment := COMMENT.match(self.text, at):
                entry = self.entry(plain(comment.group(1)), owner)
                self.header.comment = self.header.comment or entry.comment
                at = comment.end()
            elif self.text.startswith("//", at):
                at = self.text.index("\n", at)
            elif label := LABEL.match(self.text, at):
                is_public, at = label.group(1) == "public", label.end()
            else:
                line = self.header.line(at)
                found, at = statement(self.text, at)
                found.line = line
                entry = entry or self.entry("", owner)
                self.add(found, entry if is_public else None, owner)
                entry = None if CLASS.search(found.head) else entry

    def entry(self, comment: str, owner: str) -> Entry:
        return Entry(self.header.path, comment, [], owner=owner)

    def add(self, found: Statement, entry: Entry | None, owner: str) -> None:
        end = found.inner + len(found.body)
        if found.head.startswith("namespace"):
            if not found.head.endswith("detail"):
                self.read(found.inner, end, owner, True)
        elif (it := CLASS.search(found.head)) and found.body:
            if entry is not None:
                entry.kind = "type"
                self.declare(entry, it.group(2), found)
            self.read(found.inner, end, it.group(2), it.group(1) == "struct")
        elif name := name_of(found.head):
            self.uses.setdefault(name, set()).update(OF_C.findall(found.body))
            if entry is not None and "::" not in name and is_shown(found.head, entry):
                self.declare(entry, f"{owner}::{name}" if owner else name, found)

    def declare(self, entry: Entry, name: str, found: Statement) -> None:
        """Adds the declaration to the entry of its comment. A call without a comment, whose body
        calls a C function, gets its own entry."""
        uses = set(OF_C.findall(found.body)) if entry.kind == "call" else set()
        if uses and not entry.comment:
            entry = self.entry("", entry.owner)
        if not entry.declared:
            self.header.entries.append(entry)
        text = INITIALIZED.sub(r"\1", found.head)
        text = re.sub(r"^    " if entry.owner else r"^$", "", text, flags=re.MULTILINE)
        entry.declared.append(Declared(name, text + ";", found.line, uses))


def is_shown(head: str, entry: Entry) -> bool:
    """Whether a user may call it, and it isn't a default without a comment."""
    return not head.endswith("= delete") and bool(entry.comment or not head.endswith("= default"))


def read_cpp(root: Path, paths: list[Path]) -> list[Header]:
    """The headers of C++. A call may have its body in another header than its class."""
    uses: dict[str, set[str]] = {}
    headers = []
    for path in paths:
        header = Header(path.relative_to(root).as_posix(), path.read_text(encoding="utf-8"))
        reader = Reader(header, uses)
        reader.read(0, len(reader.text), "", True)
        headers.append(header)
    for it in (it for header in headers for entry in header.entries for it in entry.declared):
        it.uses |= uses.get(it.name, set())
    return headers
