"""The pages of headers of C and C++."""
from html import escape

from reference.c_headers import Declared, Entry, Header
from reference.docs_html import Lookup, docs_html, inline_html
from reference.fragments import Fragments
from reference.groups import table
from reference.html_text import Link, name_html, rust_html, tag
from reference.languages import MANY, Languages
from reference.library import sentence
from reference.pages import Page
from reference.urls import header_page


class HeaderPages:
    """Makes a page for each header."""

    def __init__(self, fragments: Fragments, languages: Languages) -> None:
        self.fragments, self.languages = fragments, languages
        self.entry_of = {
            it.name: entry for entry in languages.entries("C") for it in entry.declared
        }

    # ---- text
    def lookup(self, page: Page, place: str) -> Lookup:
        def found(name: str) -> str | None:
            url = self.languages.urls.get(name)
            if url is None:
                self.fragments.errors.append(f"{place}: `{name}` in the comment doesn't exist")
                return None
            return page.href(url)

        return found

    def place(self, entry: Entry) -> str:
        return f"{entry.path}:{entry.declared[0].line}"

    def docs(self, entry: Entry) -> str:
        """The comment; without one, the first sentence on the C function that the entry calls."""
        if entry.comment:
            return entry.docs
        used = [self.entry_of[it] for it in sorted(entry.declared[0].uses) if it in self.entry_of]
        return sentence(used[0].docs) if used else ""

    def first(self, page: Page, entry: Entry) -> str:
        return inline_html(sentence(self.docs(entry)), self.lookup(page, self.place(entry)))

    def add_docs(self, page: Page, entry: Entry) -> None:
        if docs := self.docs(entry):
            html = docs_html(docs, self.lookup(page, self.place(entry)))
            page.add(tag("div", html, class_="docs"))

    def url(self, entry: Entry, it: Declared) -> str:
        return header_page(entry.path.rpartition("/")[2], self.languages.anchors[id(it)])

    # ---- a page
    def row(self, page: Page, header: Header) -> str:
        """The row of a header in the list of all."""
        name = page.link(header_page(header.name), tag("code", header.name))
        says = inline_html(sentence(header.docs), self.lookup(page, header.path))
        return tag("tr", tag("th", name, scope="row") + tag("td", says))

    def page(self, header: Header) -> Page:
        page = Page(header_page(header.name), header.name)
        every = page.link("index.html", "all languages")
        where = self.fragments.source_link(page, header.path, 1)
        page.add(tag("p", f"{every} {where}", class_="crumbs"))
        badge = tag("span", f"{header.language} header", class_="badge")
        page.add(tag("h1", f"{escape(header.name)} {badge}"))
        page.add(tag("p", f"<code>#include \"{header.name}\"</code>", class_="use"))
        lookup = self.lookup(page, header.path)
        page.add(tag("div", docs_html(header.docs, lookup), class_="docs"))
        page.nav.append(tag("p", page.link("index.html", "all languages"), class_="crate"))
        for title, about, entries in self.parts(header):
            self.part(page, title, about, entries)
        return page

    def parts(self, header: Header) -> list[tuple[str, Entry | None, list[Entry]]]:
        """The entries by class, each class with its own entry; then other calls, then types."""
        classes = [it for it in header.entries if it.kind == "type" and header.language == "C++"]
        found: list[tuple[str, Entry | None, list[Entry]]] = [
            (f"class {it.declared[0].name}", it,
             [e for e in header.entries if e.owner == it.declared[0].name]) for it in classes
        ]
        others = [it for it in header.entries if not it.owner and it not in classes]
        calls = [it for it in others if it.kind == "call"]
        types = [it for it in others if it.kind != "call"]
        named: list[tuple[str, Entry | None, list[Entry]]] = [
            ("Calls", None, calls), ("Types and constants", None, types)
        ]
        return found + [it for it in named if it[2]]

    def part(self, page: Page, title: str, about: Entry | None, entries: list[Entry]) -> None:
        anchor = self.languages.anchors[id(about.declared[0])] if about else title.partition(" ")[0]
        page.add(tag("h2", escape(title), id=anchor))
        if about is not None:
            self.add_docs(page, about)
        if title != "Types and constants":
            rows = [(it.declared[0].last.removeprefix("vb_"), self.entry_row(page, it))
                    for it in entries]
            page.add(table(rows))
        page.nav.append(tag("p", page.link(f"{page.url}#{anchor}", escape(title)),
                            class_="heading"))
        names = dict((self.title(it), it) for it in reversed(entries))
        page.nav.append(tag("ul", "".join(
            tag("li", page.link(self.url(it, it.declared[0]), name_html(name)))
            for name, it in reversed(names.items()))))
        for it in entries:
            self.section(page, it)

    def title(self, entry: Entry) -> str:
        """The names of an entry; if there are many, the first one and the last one."""
        names = list(dict.fromkeys(it.last for it in entry.calls()))
        return ", ".join(names) if len(names) <= MANY else f"{names[0]} .. {names[-1]}"

    def entry_row(self, page: Page, entry: Entry) -> str:
        name = page.link(self.url(entry, entry.declared[0]), tag("code", escape(self.title(entry))))
        return tag("tr", tag("th", name, scope="row") + tag("td", self.first(page, entry)))

    # ---- an entry
    def section(self, page: Page, entry: Entry) -> None:
        calls = entry.calls()
        first = self.url(entry, calls[0])
        page.add(f'<section class="call" id="{escape(self.languages.anchors[id(calls[0])])}">')
        name = page.link(first, escape(self.title(entry)), class_="self")
        where = self.fragments.source_link(page, entry.path, calls[0].line)
        page.add(tag("h3", f"{name} {where}"))
        shown = calls if entry.kind == "call" else calls[:1]
        same = [self.fragments.same_calls(page, self.url(entry, it)) for it in shown]
        texts = [self.declaration(page, entry, it, it is not calls[0]) for it in shown]
        is_many = len(shown) > MANY
        is_apart = not is_many and len(set(same)) > 1
        for it in zip(texts, same) if is_apart else zip(texts[:1] if is_many else texts):
            page.add(*it)
        self.add_docs(page, entry)
        page.add(*([] if is_apart else dict.fromkeys(same)))
        if is_many:
            summary = tag("summary", f"The other {len(shown) - 1} functions")
            page.add(tag("details", summary + "".join(texts[1:]), class_="glossary"))
        page.add("</section>")

    def declaration(self, page: Page, entry: Entry, it: Declared, is_named: bool) -> str:
        """A declaration with its checked form."""
        checked = entry.checked(it)
        text = it.text + (f"\n{checked.text}" if checked else "")
        anchor = self.languages.anchors[id(it)] if is_named else ""
        code = tag("code", rust_html(text, self.code_link(page, entry)))
        return tag("pre", code, class_="signature", id=anchor)

    def code_link(self, page: Page, entry: Entry) -> Link:
        """A function of C leads to its contract, and a type to its entry."""

        def link(name: str) -> tuple[str, str]:
            of = self.entry_of.get(name)
            for it in self.languages.contract(name) if of is not None else []:
                return page.href(it.url), f"the contract of {it.name}"
            if of is None or of is entry or of.kind != "type":
                return "", ""
            return page.href(self.languages.urls[name]), ""

        return link
