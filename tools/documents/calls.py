"""Checks that the table of calls in bindings/c/README.md names each C function, and no other one,
and that its other columns have names of C++, Rust and Rattle.
"""
import re
from itertools import takewhile

from documents.files import Repository
from documents.lists import OF_THE_LIBRARY, differ
from documents.texts import NAME, alphabet, expanded, missing

PAGE = "bindings/c/README.md"
HEADERS = "bindings/c/vortex_bits*.h"
HEAD = ["Calls", "C", "C++", "Rust", "Rattle"]
# The files that have the names of the columns after that of C.
SOURCES = {
    "C++": re.compile(r"bindings/c/\w+\.hpp"),
    "Rust": re.compile(r"bindings/rust/src/.*\.rs"),
    "Rattle": re.compile(r"crates/(vb_|vortex_buffer/).*\.rt"),
}
DECLARED = re.compile(r"^\w[\w *]*?\b(vb_\w+)\(", re.MULTILINE)


def cells(line: str) -> list[str]:
    """Returns the cells of a row. A bar that is text has a backslash before it."""
    return [it.strip() for it in re.split(r"(?<!\\)\|", line)[1:-1]]


def rows(text: str) -> list[dict[str, str]]:
    """Returns the rows of the table of calls: for each column its cell."""
    lines = text.split("\n")
    starts = [n for n, line in enumerate(lines) if cells(line) == HEAD]
    listed = lines[starts[0] + 2:] if starts else []
    table = takewhile(lambda line: line.startswith("|"), listed)
    return [dict(zip(HEAD, cells(line))) for line in table]


def columns(text: str) -> dict[str, set[str]]:
    """Returns the names in each column of the table of calls, with words in capitals expanded."""
    words = alphabet(text)
    found: dict[str, set[str]] = {it: set() for it in HEAD}
    for row in rows(text):
        for column, cell in row.items():
            for name in NAME.findall(cell):
                found[column].update(expanded(name, words))
    return found


def checked(name: str) -> str:
    """Returns the name of the form that tests its arguments."""
    return name.replace("vb_", "vb_try_", 1)


def of_c(repository: Repository, named: set[str]) -> list[str]:
    """Returns the faults of functions that only the headers or only the table have."""
    headers = sorted(repository.root.glob(HEADERS))
    texts = [it.read_text(encoding="utf-8") for it in headers]
    declared = {it for text in texts for it in DECLARED.findall(text)}
    with_forms = named | {checked(it) for it in named - OF_THE_LIBRARY}
    return differ(PAGE, with_forms, HEADERS, declared)


def of_column(repository: Repository, column: str, named: set[str]) -> list[str]:
    """Returns the faults of names in a column that the sources of its language don't have."""
    paths = [it for it in repository.paths if SOURCES[column].fullmatch(it)]
    words = {word for it in paths for word in re.findall(r"\w+", repository.read(it))}
    gone = sorted({word for it in named for word in missing(it, words)})
    return [f"{PAGE}: `{it}` of the column {column} isn't in its sources" for it in gone]


def calls(repository: Repository) -> list[str]:
    found = columns(repository.read(PAGE))
    wrong = of_c(repository, found["C"])
    for column in SOURCES:
        wrong += of_column(repository, column, found[column])
    return wrong
