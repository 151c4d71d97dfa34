"""Checks the text of documents: names exist, links lead to files, and no figure can go stale."""
import re
import unicodedata
from itertools import product
from pathlib import Path

from documents.files import Document, Repository

NAME = re.compile(r"`([^`\n]+)`")
IDENTIFIER = re.compile(r"&?(?:[^\W\d_]\w*(?:::|\.))*[^\W\d_]\w*")
LINK = re.compile(r"\[(?:[^\[\]]|\[[^\]]*\])*\]\(([^)\s]+)\)")
MONTHS = (
    "January|February|March|April|May|June|July|August|September|October|November|December"
)
STALE = {
    "a date": re.compile(rf"\b\d{{1,2}} (?:{MONTHS})\b|\b\d{{4}}-\d\d-\d\d\b"),
    "a duration": re.compile(r"\b\d[\d,.:]* (?:s|seconds?|minutes?|hours?|CPU-\w+)\b"),
    "a count of edits": re.compile(r"\b\d[\d,]* (?:edits|wrong bodies|public clauses|passed)\b"),
}
# A row with the meanings of a word in capitals within a name: | `OP` | `and`, `or` |
OF_WORD = re.compile(r"^\| `([A-Z]+)` \| ((?:`\w+`(?:, )?)+)", re.MULTILINE)
OUTSIDE = set("rustc cargo rt git errno".split())


def names(repository: Repository) -> list[str]:
    """Returns the names in backquotes that no source has."""
    found = []
    for document in repository.standing:
        words = alphabet(document.text)
        for n, line in document.lines():
            quoted = NAME.findall(ours(document, line))
            for it in (name for text in quoted for name in expanded(text, words)):
                for word in missing(it, repository.words):
                    found.append(f"{document.path}:{n}: `{word}` isn't in the sources")
    return found


def alphabet(text: str) -> dict[str, list[str]]:
    """Returns the meanings of each word in capitals within a name, from the rows of a page."""
    return {word: re.findall(r"`(\w+)`", listed) for word, listed in OF_WORD.findall(text)}


def expanded(name: str, words: dict[str, list[str]]) -> list[str]:
    """Returns the names that a name with words in capitals means: `and_count` and `or_count` of
    `OP_count`."""
    parts = re.split(r"([A-Z]+)", name)
    return ["".join(it) for it in product(*(words.get(part, [part]) for part in parts))]


def ours(document: Document, line: str) -> str:
    """Returns a line without upstream's names: the first cell of a difference, and rows that are
    left out."""
    if document.path.endswith("DIFFERENCES.md") and line.startswith("|"):
        first, *rest = line.split("|")[1:]
        return "" if first.strip() == "left out" else "|".join(rest)
    return line


def missing(text: str, words: set[str]) -> list[str]:
    """Returns the steps of a name that no source has. The name is the first word of `text`."""
    found = IDENTIFIER.match(text)
    if found is None or "/" in text.split()[0]:
        return []
    steps = re.split(r"::|\.", found.group().strip("&"))
    return [it for it in steps if it and it not in words and it not in OUTSIDE]


def slug(heading: str) -> str:
    """Returns the anchor of a heading."""
    text = unicodedata.normalize("NFC", re.sub(r"[`*]", "", heading).strip().lower())
    return re.sub(r"[^\w\- ]", "", text).replace(" ", "-")


def anchors(text: str) -> set[str]:
    return {slug(it) for it in re.findall(r"^#+ (.*)$", text, re.MULTILINE)}


def links(repository: Repository) -> list[str]:
    """Returns the links within the repository that lead to no file."""
    found = []
    for document in repository.documents:
        for n, line in document.lines():
            for to in LINK.findall(line):
                if "://" not in to and not leads(repository.root, document, to):
                    found.append(f"{document.path}:{n}: {to} isn't there")
    return found


def leads(root: Path, document: Document, to: str) -> bool:
    path, _, anchor = to.partition("#")
    target = (root / document.path).parent / path if path else root / document.path
    if not target.exists():
        return False
    is_text = target.suffix == ".md" and bool(anchor)
    return not is_text or anchor in anchors(target.read_text(encoding="utf-8"))


def stale(repository: Repository) -> list[str]:
    """Returns dates, durations of proofs and tests, and counts that the next change makes false."""
    found = []
    for document in repository.standing:
        for n, line in document.lines():
            for what, pattern in STALE.items():
                for it in pattern.finditer(line):
                    found.append(f"{document.path}:{n}: {what}: {it.group()}")
    return found
