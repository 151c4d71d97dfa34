"""The address of each thing in the pages."""
from urllib.parse import quote

from reference.antt_items import AnttFile, Declaration
from reference.library import Library
from reference.rust_heads import base_name, impl_parts
from reference.rust_items import Item


def source_page(path: str) -> str:
    return f"source/{path}.html"


def header_page(name: str, anchor: str = "") -> str:
    """The address of a header's page, or of a name on it."""
    return f"c/{name}.html" + (f"#{quote(anchor)}" if anchor else "")


class Urls:
    """The address of an item or a declaration, from the top of the pages."""

    def __init__(self, library: Library) -> None:
        self.library = library
        self.anchors: dict[int, str] = {}
        for crate in library.shown:
            for item in library.own_items(crate):
                self.number_members(item)

    def number_members(self, item: Item) -> None:
        """Gives each member of a type its own anchor: later ones of equal names get numbers."""
        taken: set[str] = set()
        impls = self.library.impls_of(item)
        for block in [item, *(impl for impl, _ in impls)]:
            for member in block.items:
                first = f"{member.kind}." if member.kind in ("field", "ghost") else ""
                self.take(member, first + member.name, taken)
        for impl, trait in impls:
            if trait:
                self.take(impl, f"impl.{base_name(trait)}", taken)

    def take(self, item: Item, name: str, taken: set[str]) -> None:
        """Gives the item a free anchor: the name, or the name with a number."""
        n, free = 1, name
        while free in taken:
            n += 1
            free = f"{name}-{n}"
        taken.add(free)
        self.anchors[id(item)] = free

    def of(self, item: Item) -> str:
        """The page of a public item, the anchor of its member, or the line of any other."""
        if self.library.is_public(item):
            return f"{item.crate}/{item.name}.html"
        owner = item.owner
        if id(item) in self.anchors and owner is not None and self.has_entry(item, owner):
            page = self.type_of(owner)
            if page is not None and self.library.is_public(page):
                return f"{page.crate}/{page.name}.html#{quote(self.anchors[id(item)])}"
        return f"{source_page(item.source.path)}#L{item.line}"

    def has_entry(self, item: Item, owner: Item) -> bool:
        """Whether the page of a type has an entry for one of its members; associated types have
        none, and are shown in the source."""
        if item.kind == "type":
            return False
        if item.kind in ("variant", "ghost") or owner.kind == "trait" or item.visibility == "pub":
            return True
        if item.kind == "field":
            return owner.kind == "struct" and self.library.model_of(owner) is None
        is_of_trait = owner.kind == "impl" and bool(impl_parts(owner.head_text)[0])
        return is_of_trait and item.kind == "fn" and bool(item.docs or item.clauses)

    def type_of(self, block: Item) -> Item | None:
        if block.kind != "impl":
            return block if block.kind in ("struct", "enum", "trait") else None
        return next((of for it, _, _, _, of in self.library.impls if it is block), None)

    def file(self, file: AnttFile) -> str:
        _, crate, folder, name = file.source.path.split("/")
        return f"{crate}/{folder}/{name.removesuffix('.antt')}.html"

    def declaration(self, declared: Declaration, member: str = "") -> str:
        _, crate, folder, name = declared.source.path.split("/")
        anchor = quote(f"{declared.name}.{member}" if member else declared.name)
        return f"{crate}/{folder}/{name.removesuffix('.antt')}.html#{anchor}"
