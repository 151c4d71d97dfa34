"""Finds lines of code that are too wide to read next to another file, and files that are too long.
"""
from collections.abc import Iterator
from pathlib import Path

from documents.files import Repository

WIDEST = 100
LONGEST = 500
CODE = {".rt", ".antt", ".rs", ".c", ".h", ".cpp", ".hpp", ".py", ".sh"}


def code(repository: Repository) -> Iterator[tuple[str, str]]:
    """Yields the path and the text of each file of code and of each script without a suffix.

    Other files can't hold the width. A paragraph of a document, a text of an edit, a crate with its
    dependencies in crates.txt and a row of a table are one line each. A place in a template is
    wider than its text, and the file that the template writes is code.
    """
    for path in sorted(repository.paths):
        suffix = Path(path).suffix
        if suffix in CODE or not suffix and repository.read(path).startswith("#!"):
            yield path, repository.read(path)


def widths(repository: Repository) -> list[str]:
    """Returns the lines of code that have more than 100 columns."""
    return [
        f"{path}:{n}: {len(line)} columns, where {WIDEST} are the most"
        for path, text in code(repository)
        for n, line in enumerate(text.split("\n"), 1)
        if len(line) > WIDEST
    ]


def lengths(repository: Repository) -> list[str]:
    """Returns the files of code and the scripts that have more than 500 lines."""
    counts = {path: text.count("\n") for path, text in code(repository)}
    return [
        f"{path}: {count} lines, where {LONGEST} are the most"
        for path, count in counts.items()
        if count > LONGEST
    ]
