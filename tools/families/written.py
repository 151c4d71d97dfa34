"""The files that contain a family's functions, rows or proofs, as the templates write them."""
import re
from collections.abc import Iterator
from dataclasses import dataclass
from pathlib import Path

from documents.files import Repository
from families.fill import Target, of_template

FOLDER = "tools/families"
# How a comment begins in the files whose first line says that a tool writes them; the others have
# markers around each text.
COMMENTS = {".rt": "//", ".antt": "--"}
REGION = re.compile(
    r"^ *(?:/\*|//) Written by tools/write-lists from (\S+\.txt)\.(?: \*/)?\n"
    r"(.*?)(?=^ *(?:/\*|//) To here\.(?: \*/)?\n)",
    re.MULTILINE | re.DOTALL,
)


class NoPlace(Exception):
    """A file has no place for the text of a template, or a place that no template fills."""


@dataclass
class Written:
    """A file with its new text, and how many of its lines templates write."""

    text: str
    lines: int = 0


def templates(repository: Repository) -> dict[str, str]:
    paths = sorted((repository.root / FOLDER).glob("*.txt"))
    return {f"{FOLDER}/{it.name}": it.read_text(encoding="utf-8") for it in paths}


def files(repository: Repository) -> Iterator[tuple[str, Written]]:
    """Yields each file with text of a template, with its path."""
    found: dict[str, list[tuple[str, Target]]] = {}
    for template, text in templates(repository).items():
        for it in of_template(text):
            found.setdefault(it.path, []).append((template, it))
    for path, parts in found.items():
        file = Written(repository.present(path))
        for nth, (template, part) in enumerate(parts):
            before = sum(template == it for it, _ in parts[:nth])
            put(file, template, part, before)
        regions = sum(part.kind == "region" for _, part in parts)
        if len(REGION.findall(file.text)) != regions:
            raise NoPlace(f"{path}: has a place that no template writes")
        yield path, file


def put(file: Written, template: str, part: Target, before: int) -> None:
    """Writes a part. The file has `before` other parts of the template before it."""
    if part.kind == "file":
        where = slice(0, len(file.text))
    elif part.kind == "items":
        where = items(file.text, part)
    else:
        where = region(file.text, part, template, before)
    file.text = file.text[: where.start] + part.text + file.text[where.stop :]
    file.lines += part.text.count("\n")
    mark = COMMENTS.get(Path(part.path).suffix)
    if mark:
        how = "Written" if part.kind == "file" else "Written in part"
        line = f"{mark} {how} by tools/write-lists from {template}.\n"
        rest = file.text.removeprefix(line).removeprefix("\n")
        # An empty line separates this line from a comment about the file.
        gap = "\n" if rest.startswith(f"{mark} ") else ""
        file.text = line + gap + rest


def items(text: str, part: Target) -> slice:
    """Returns the range from the first item with such a head, including its docstring, to the end
    of the last one."""
    heads = list(re.finditer(rf"^{part.pattern}", text, re.MULTILINE))
    if not heads:
        raise NoPlace(f"{part.path}: nothing in it begins as `{part.pattern}`")
    start = text.rindex("\n\n", 0, heads[0].start()) + 2
    return slice(start, text.index("\n}\n", heads[-1].end()) + 3)


def region(text: str, part: Target, template: str, before: int) -> slice:
    found = [it for it in REGION.finditer(text) if it[1] == template]
    if len(found) <= before:
        raise NoPlace(f"{part.path}: has no place for what {template} writes")
    return slice(found[before].start(2), found[before].end(2))
