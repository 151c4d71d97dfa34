"""Docstrings as HTML: paragraphs, lists, code, and links to items."""
import re
from html import escape
from typing import Callable

from reference.library import Library
from reference.rust_items import Item

FENCED = re.compile(r"^(```\w*\n.*?^```)$", re.MULTILINE | re.DOTALL)
INLINE = re.compile(
    r"\[(?P<text>`[^`\]]+`|[^`\]\[]+)\](?:\((?P<path>[^)]+)\))?|(?P<code>`[^`]+`)"
)
Lookup = Callable[[str], "str | None"]


def paragraphs(docs: str) -> list[str]:
    """The paragraphs and the blocks of code, each with its fences."""
    found = []
    for at, part in enumerate(FENCED.split(docs.strip())):
        found += [part] if at % 2 else re.split(r"\n\s*\n", part)
    return [it for it in found if it.strip()]


def docs_html(docs: str, lookup: Lookup) -> str:
    """`lookup` gives the address of a path such as `Buffer::slice`, or None."""
    return "".join(block_html(it, lookup) for it in paragraphs(docs))


def block_html(block: str, lookup: Lookup) -> str:
    if block.startswith("```"):
        code = block.partition("\n")[2].removesuffix("```")
        return f"<pre><code>{escape(code, quote=False)}</code></pre>"
    if block.startswith("- "):
        items = re.split(r"\n(?=- )", block)
        listed = "".join(f"<li>{inline_html(it[2:], lookup)}</li>" for it in items)
        return f"<ul>{listed}</ul>"
    return f"<p>{inline_html(block, lookup)}</p>"


def inline_html(text: str, lookup: Lookup) -> str:
    text, parts, at = " ".join(text.split()), [], 0
    for it in INLINE.finditer(text):
        parts.append(escape(text[at : it.start()], quote=False))
        parts.append(match_html(it, lookup))
        at = it.end()
    return "".join(parts) + escape(text[at:], quote=False)


def code_html(text: str) -> str:
    if text.startswith("`"):
        return f"<code>{escape(text.strip('`'), quote=False)}</code>"
    return escape(text, quote=False)


def match_html(found: re.Match[str], lookup: Lookup) -> str:
    if found["code"]:
        return code_html(found["code"])
    text, path = found["text"], found["path"]
    if path is None and not text.startswith("`"):
        return escape(found.group(), quote=False)
    url = lookup(path or text.strip("`"))
    return f'<a href="{escape(url)}">{code_html(text)}</a>' if url else code_html(text)


class DocLinks:
    """The items that the paths in docstrings name."""

    def __init__(self, library: Library) -> None:
        self.library = library

    def find(self, item: Item, path: str) -> Item | None:
        """The item that a path in the docstring of `item` names."""
        *front, name = path.removeprefix("crate::").split("::")
        if not front:
            return self.plain(item, name)
        if front == ["Self"]:
            owner = self.owner(item)
        else:
            owner = self.plain(item, front[-1])
        return self.member(owner, name) if owner is not None else None

    def plain(self, item: Item, name: str) -> Item | None:
        """A name alone: of the module, of the crate's root, or of a module within the crate."""
        crate = self.library.crates[item.crate]
        found = self.library.find(item.crate, item.module, name)
        found = found or self.library.find(item.crate, (), name)
        for module in crate.modules.values():
            if found is None:
                found = self.library.find(item.crate, module.path, name)
        return found

    def owner(self, item: Item) -> Item | None:
        block = item if item.kind == "impl" else item.owner
        if block is None or block.kind != "impl":
            return block if block is not None else item
        return next((of for it, _, _, _, of in self.library.impls if it is block), None)

    def member(self, owner: Item, name: str) -> Item | None:
        if owner.kind == "type":
            aliased = owner.head_text.rpartition(" = ")[2].partition("<")[0]
            owner = self.plain(owner, aliased) or owner
        blocks = [owner, *(impl for impl, _ in self.library.impls_of(owner))]
        return next((it for block in blocks for it in block.items if it.name == name), None)
