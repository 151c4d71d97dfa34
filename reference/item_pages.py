"""The pages of calls, types and traits."""
from html import escape

from reference.fragments import Fragments
from reference.groups import table
from reference.html_text import name_html, rust_html, tag
from reference.library import sentence
from reference.pages import Page
from reference.rust_items import Item
from reference.sight import Sight

KINDS = {
    "fn": "call", "struct": "type", "enum": "type", "type": "type", "trait": "trait",
    "const": "constant",
}


def display(item: Item) -> str:
    return KINDS.get(item.kind, item.kind)


def public_members(fragments: Fragments, item: Item) -> list[tuple[Item, list[Item]]]:
    """The blocks of a type with the calls and constants in them that its users have."""
    blocks = []
    if item.kind == "trait":
        blocks.append((item, item.of_kind("fn", "const")))
    for impl, trait in fragments.library.impls_of(item):
        if not trait:
            members = [it for it in impl.of_kind("fn", "const") if it.visibility == "pub"]
            blocks.append((impl, members))
    return [(block, members) for block, members in blocks if members]


class ItemPages:
    """Makes a page for each public item of a crate."""

    def __init__(self, fragments: Fragments) -> None:
        self.fragments, self.library, self.urls = fragments, fragments.library, fragments.urls
        self.sight = Sight(fragments)

    def page(self, item: Item) -> Page:
        page = Page(self.urls.of(item), f"{item.name} in {item.crate}")
        self.head(page, item)
        if item.kind == "fn":
            self.call_parts(page, item, True)
        elif item.kind == "trait":
            self.trait(page, item)
        elif item.kind in ("struct", "enum"):
            self.type(page, item)
        self.given_by(page, item)
        self.nav(page, item)
        return page

    def head(self, page: Page, item: Item) -> None:
        crate = page.link(f"{item.crate}/index.html", escape(item.crate))
        where = self.fragments.source_link(page, item.source.path, item.line)
        page.add(tag("p", f"{crate} {where}", class_="crumbs"))
        kind = tag("span", display(item), class_="badge")
        page.add(tag("h1", f"{escape(item.name)} {kind}"))
        given = [*self.library.re_exported_by(item)[:1], item.crate]
        page.add(tag("p", f"<code>use {given[0]}::{escape(item.name)};</code>", class_="use"))
        if item.kind != "enum" and item.kind != "struct":
            page.add(self.fragments.signature(page, item))
        page.add(tag("div", self.fragments.docs(page, item), class_="docs"))
        page.add(self.fragments.same_calls(page, self.urls.of(item)))

    # ---- calls
    def call_parts(self, page: Page, item: Item, is_open: bool) -> None:
        page.add(self.fragments.contract(page, item))
        page.add(self.fragments.glossary(page, item, is_open))
        page.add(self.fragments.example(page, item, is_open))

    def call(self, page: Page, item: Item) -> None:
        """A call among those of a type."""
        anchor = self.urls.anchors[id(item)]
        name = page.link(f"{page.url}#{anchor}", escape(item.name), class_="self")
        where = self.fragments.source_link(page, item.source.path, item.line)
        page.add(f'<section class="call" id="{escape(anchor)}">')
        page.add(tag("h3", f"{name} {where}"))
        page.add(self.fragments.signature(page, item))
        page.add(tag("div", self.fragments.docs(page, item), class_="docs"))
        page.add(self.fragments.same_calls(page, self.urls.of(item)))
        self.call_parts(page, item, False)
        page.add("</section>")

    def calls(self, page: Page, item: Item) -> None:
        blocks = public_members(self.fragments, item)
        rows = []
        for _, members in blocks:
            for it in members:
                anchor = self.urls.anchors[id(it)]
                name = page.link(f"{page.url}#{anchor}", tag("code", escape(it.name)))
                says = tag("td", self.fragments.first(page, it))
                rows.append((it.name, tag("tr", tag("th", name, scope="row") + says)))
        if rows:
            constants = any(it.kind == "const" for _, found in blocks for it in found)
            title = "Calls and constants" if constants else "Calls"
            page.add(tag("h2", title, id="calls"), table(rows))
        last = ""
        for block, members in blocks:
            last = self.block_heading(page, item, block, last)
            for it in members:
                self.call(page, it)

    def block_heading(self, page: Page, item: Item, block: Item, last: str) -> str:
        """The heading of a block: its file's first sentence, and the types that it is for."""
        if block is item:
            return last
        crate = self.library.crates[block.crate]
        docs = sentence(crate.modules[block.module].file.docs)
        head = " ".join(block.head_text.split())
        if docs != last and block.module != item.module:
            page.add(tag("h2", self.fragments.plain(docs.rstrip(".")), class_="group"))
        code = rust_html(head, self.fragments.code_link(page, block))
        page.add(tag("p", tag("code", code), class_="block"))
        return docs

    # ---- types
    def type(self, page: Page, item: Item) -> None:
        page.add(self.declaration(page, item))
        self.variants(page, item)
        self.sight.add(page, item)
        self.calls(page, item)
        self.implementations(page, item)

    def declaration(self, page: Page, item: Item) -> str:
        """The head of a type, and its public fields or its variants."""
        members = [it for it in item.items if it.kind == "variant" or it.visibility == "pub"]
        if not members:
            hidden = " { .. }" if item.items else ";"
            return self.fragments.signature(page, item, item.head_text + hidden)
        names = "".join(f"    {it.whole_text.split('//')[0].strip()},\n" for it in members
                        if it.kind == "field")
        names += "".join(f"    {self.variant_text(it)},\n" for it in item.of_kind("variant"))
        if len(members) < len(item.items):
            names += "    ..\n"
        return self.fragments.signature(page, item, f"{item.head_text} {{\n{names}}}")

    def variant_text(self, item: Item) -> str:
        if not item.items:
            return item.head_text
        fields = ", ".join(it.head_text for it in item.items)
        return f"{item.name} {{ {fields} }}"

    def variants(self, page: Page, item: Item) -> None:
        """The variants of an enumeration."""
        rows = []
        for it in item.of_kind("variant"):
            fields = "".join(
                f"<li><code>{escape(f.name)}</code>: {self.fragments.first(page, f)}</li>"
                for f in it.items if f.docs
            )
            says = self.fragments.docs(page, it) + (tag("ul", fields) if fields else "")
            name = tag("code", escape(it.name))
            rows.append(f'<tr id="{escape(self.urls.anchors[id(it)])}">'
                        + tag("th", name, scope="row") + tag("td", says) + "</tr>")
        if rows:
            page.add(tag("h2", "Variants"), tag("table", "".join(rows), class_="list"))

    def implementations(self, page: Page, item: Item) -> None:
        """The traits that a type has, with what contracts say of each."""
        found = self.traits(item)
        derived = [a for a in item.attributes if a.startswith("#[derive")]
        if found or derived:
            page.add(tag("h2", "Traits", id="traits"))
        for a in derived:
            names = a.removeprefix("#[derive(").removesuffix(")]")
            page.add(tag("p", f"Derived: <code>{escape(names)}</code>."))
        for impl, _ in found:
            self.implementation(page, impl)

    def traits(self, item: Item) -> list[tuple[Item, str]]:
        """The implementations of traits for a type, except that of its model."""
        return [it for it in self.library.impls_of(item) if it[1] and it[1] != "Model"]

    def implementation(self, page: Page, impl: Item) -> None:
        head = rust_html(impl.head_text, self.fragments.code_link(page, impl))
        where = self.fragments.source_link(page, impl.source.path, impl.line)
        page.add(f'<section class="impl" id="{escape(self.anchor(impl))}">')
        page.add(tag("h3", f"<code>{head}</code> {where}"))
        page.add(tag("div", self.fragments.docs(page, impl), class_="docs") if impl.docs else "")
        page.add(self.fragments.ghosts(page, impl))
        for it in impl.of_kind("fn"):
            if it.docs or it.clauses:
                page.add(f'<section id="{escape(self.anchor(it))}">')
                page.add(self.fragments.signature(page, it))
                page.add(tag("div", self.fragments.docs(page, it), class_="docs"))
                page.add(self.fragments.contract(page, it), "</section>")
        page.add("</section>")

    def anchor(self, item: Item) -> str:
        """Its anchor; implementations for types of std have none."""
        return self.urls.anchors.get(id(item), f"line-{item.line}")

    # ---- traits
    def trait(self, page: Page, item: Item) -> None:
        ghosts = self.fragments.ghosts(page, item)
        if ghosts:
            page.add(tag("h2", "What a clause sees", id="sees"), ghosts)
        self.calls(page, item)
        found = self.library.impls_for_trait(item)
        if found:
            page.add(tag("h2", "Implementations", id="implementations"))
        for impl, _ in found:
            self.implementation(page, impl)

    # ---- around
    def given_by(self, page: Page, item: Item) -> None:
        others = self.library.re_exported_by(item)
        if others:
            names = ", ".join(page.link(f"{it}/index.html", tag("code", it)) for it in others)
            page.add(tag("p", f"Also re-exported by {names}.", class_="given"))

    def nav(self, page: Page, item: Item) -> None:
        crate = page.link(f"{item.crate}/index.html", escape(item.crate))
        page.nav.append(tag("p", crate, class_="crate"))
        members = [it for _, found in public_members(self.fragments, item) for it in found]
        if members:
            page.nav.append(tag("p", escape(item.name), class_="heading"))
            names = [(it.name, f"{page.url}#{self.urls.anchors[id(it)]}") for it in members]
        else:
            names = [(it.name, self.urls.of(it)) for it in self.library.own_items(
                self.library.crates[item.crate])]
        self.nav_list(page, names)
        traits = self.traits(item)
        if traits:
            page.nav.append(tag("p", "Traits", class_="heading"))
            self.nav_list(page, [(name, f"{page.url}#{self.anchor(it)}") for it, name in traits])

    def nav_list(self, page: Page, names: list[tuple[str, str]]) -> None:
        listed = "".join(tag("li", page.link(url, name_html(name))) for name, url in names)
        page.nav.append(tag("ul", listed))
