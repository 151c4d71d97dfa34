"""Fills the templates of families: code that differs only by type or by operator.

A template, tools/families/FAMILY.txt, has the text of a family in each language. Its lines that
begin with `% ` are:

    % file PATH           the text up to `% end` is the whole file
    % items PATH PATTERN  the text replaces the items of a file whose head begins with PATTERN, from
                          the first one, with its docstring, to the end of the last one
    % region PATH         the text goes between two marker comments of a file
    % for NAME in VALUES  the text up to `% end` occurs once for each of the values
    % if CONDITION        the text up to `% end` occurs if the condition holds

Values, conditions and the text within «» are Python, over the names of types.py and questions.py.

The text gets the layout of its language. Docstrings are filled, the head of a function is on one
line if it fits, a prototype of C is wrapped between parameters, and the backslashes of C's macros
are aligned. A line that is too wide is broken at a `¦`, which is a space otherwise; a docstring is
broken at each.
"""
import re
import textwrap
from collections.abc import Iterator
from dataclasses import dataclass

from families import questions, types

WIDEST = 100
HOLE = re.compile(r"«(.+?)»")
DOCSTRING = re.compile(r"(?:^( *)/// .*\n)(?:^\1/// .*\n)*", re.MULTILINE)
HEAD = re.compile(
    r"^( *(?:pub )?(?:extern .C. )?fn \w+(?:<.*>)?)\(\n((?: +.*,\n)+) *\)(.*)$", re.MULTILINE
)
CONTINUED = re.compile(r"^(.*?) *\\$", re.MULTILINE)
PROTOTYPE = re.compile(r"^(?:VB_CHECKED )?\w+ vb_\w+\([^;{]*;$", re.MULTILINE)


@dataclass
class Block:
    """The text between a line that begins with `% ` and its end."""

    head: str
    body: "list[Block | str]"


@dataclass
class Target:
    """A text that a template writes, with its kind and its file."""

    kind: str
    path: str
    pattern: str
    text: str


def parsed(lines: Iterator[str]) -> list[Block | str]:
    found: list[Block | str] = []
    for line in lines:
        if line == "% end":
            break
        found.append(Block(line[2:], parsed(lines)) if line.startswith("% ") else line)
    return found


def value(source: str, names: dict):
    return eval(source, vars(types) | vars(questions), names)


def filled(text: str, names: dict) -> str:
    return HOLE.sub(lambda it: str(value(it[1], names)), text)


def turns(block: Block, names: dict) -> list[dict] | None:
    """Returns the names for each occurrence of the block; None for a block that is a target."""
    word, _, rest = block.head.partition(" ")
    if word == "if":
        return [names] if value(rest, names) else []
    if word != "for":
        return None
    named, _, values = rest.partition(" in ")
    listed = named.split(", ")
    given = [it if len(listed) > 1 else [it] for it in value(values, names)]
    return [names | dict(zip(listed, it)) for it in given]


def rendered(body: list[Block | str], names: dict) -> Iterator[str]:
    for it in body:
        if isinstance(it, str):
            yield filled(it, names)
        else:
            for own in turns(it, names) or []:
                yield from rendered(it.body, own)


def targets(body: list[Block | str], names: dict) -> Iterator[Target]:
    for it in body:
        if isinstance(it, str):
            continue
        own = turns(it, names)
        if own is None:
            kind, path, pattern = (filled(it.head, names) + "  ").split(" ", 2)
            yield Target(kind, path, pattern.strip(), laid_out("\n".join(rendered(it.body, names))))
        for each in own or []:
            yield from targets(it.body, each)


def of_template(text: str) -> list[Target]:
    return list(targets(parsed(iter(text.splitlines())), {}))


def laid_out(text: str) -> str:
    text = text.strip("\n") + "\n"
    text = DOCSTRING.sub(docstring, text)
    text = HEAD.sub(head, text)
    text = PROTOTYPE.sub(prototype, text)
    text = CONTINUED.sub(lambda it: it[1].ljust(WIDEST - 2) + "\\", text)
    return "".join(broken(it) for it in text.splitlines(keepends=True))


def wrapped(text: str, first: str, other: str) -> str:
    return textwrap.fill(
        text, WIDEST, initial_indent=first, subsequent_indent=other,
        break_long_words=False, break_on_hyphens=False,
    )


def docstring(found: re.Match) -> str:
    mark = f"{found[1]}/// "
    text = " ".join(it.removeprefix(mark) for it in found[0].splitlines())
    return "".join(wrapped(it, mark, mark) + "\n" for it in text.split("¦ "))


def head(found: re.Match) -> str:
    parameters = " ".join(found[2].split()).removesuffix(",")
    line = f"{found[1]}({parameters}){found[3]}"
    return line if len(line) <= WIDEST else found[0]


def prototype(found: re.Match) -> str:
    parts = " ".join(found[0].split()).split(", ")
    kept = ", ".join(it.replace(" ", "\0") for it in parts)
    return wrapped(kept, "", " " * 8).replace("\0", " ")


def broken(line: str) -> str:
    whole = line.replace("¦", " ")
    indent = " " * (len(line) - len(line.lstrip(" ")) + 4 * (line.split()[:1] == ["ensures"]))
    return whole if len(whole.rstrip("\n")) <= WIDEST else line.replace("¦", f"\n{indent}")
