"""Checks that each public call of the Rust crate is in an example of its documents. For C's
headers bindings/c/functions does so, and builds a program from the examples.
"""
import re
from pathlib import Path

from documents.files import Repository

SOURCES, README = "bindings/rust/src", "bindings/rust/README.md"
# Files without calls for users, or whose calls tests cover: the kernels, what asks for memory
# ahead, the parts of iterators, the levels, and Arrow's structs.
WITHIN = re.compile(r"(kernels|portable|prefetch|iter|arrow|level|native)(/|\.rs$)")
COMMENT = re.compile(r"^\s*//[/!] ?(.*)$")
PUBLIC = re.compile(r"^\s*pub (?:const |unsafe )*fn (\w+)", re.MULTILINE)
# A call of a bitmap that bitmap/ask.rs forwards to the bitmap's window.
ASKED = re.compile(r"^    (\w+)\([^)]*\) -> .*;$", re.MULTILINE)


def code(lines: list[str]) -> str:
    """Returns the lines between fences."""
    kept, within = [], False
    for line in lines:
        if line.strip().startswith("```"):
            within = not within
        elif within:
            kept.append(line)
    return "\n".join(kept)


def of_source(text: str) -> str:
    matches = (COMMENT.match(line) for line in text.split("\n"))
    return code([it.group(1) for it in matches if it])


def examples(repository: Repository) -> list[str]:
    """Returns the public calls that are in no example."""
    folder = repository.root / SOURCES
    paths = sorted(folder.rglob("*.rs"))
    texts = {it.relative_to(folder).as_posix(): it.read_text(encoding="utf-8") for it in paths}
    readme = repository.root / README
    shown = code(readme.read_text(encoding="utf-8").split("\n")) if readme.exists() else ""
    shown += "\n".join(map(of_source, texts.values()))
    words = set(re.findall(r"\w+", shown))
    found = []
    for path, text in texts.items():
        if WITHIN.match(path):
            continue
        names = PUBLIC.findall(text) + (ASKED.findall(text) if Path(path).name == "ask.rs" else [])
        found += [
            f"{SOURCES}/{path}: no example has `{it}`" for it in names if it not in words
        ]
    return found
