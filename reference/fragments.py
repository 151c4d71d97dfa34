"""Parts of pages: a signature, a contract and its words, a definition, an example."""
from html import escape
from typing import Callable, Iterable

from reference.antt_items import Declaration
from reference.docs_html import DocLinks, Lookup, docs_html, inline_html
from reference.examples import MOST_LINES, Call, Examples
from reference.html_text import linked_html, rust_html, tag
from reference.languages import Languages
from reference.library import Library, sentence
from reference.links import Linked, Linker
from reference.pages import Page
from reference.rust_items import Clause, Item
from reference.scopes import Scope, Scopes
from reference.urls import Urls, source_page


def clause_text(item: Item, clause: Clause) -> str:
    """The text within the braces of a clause, its later lines indented by four."""
    first, *rest = item.source.text[clause.start : clause.end].strip().split("\n")
    least = min((len(it) - len(it.lstrip()) for it in rest if it.strip()), default=0)
    shift = 4 if rest and rest[-1].strip() not in ("}", ")") else 0
    return "\n".join([first, *(" " * shift + it[least:] for it in rest)])


def words_of_std(linked: Iterable[Linked]) -> dict[str, str]:
    """The words of the standard library with their paths, for readers who can't see titles."""
    found = [it for it in linked if it.target is not None and it.target.kind == "std"]
    return {it.word.text: it.target.title for it in found if it.target.title}


class Fragments:
    """Makes parts of pages, and keeps their errors and the definitions that they cite."""

    def __init__(
        self, library: Library, urls: Urls, examples: Examples, languages: Languages
    ) -> None:
        self.library, self.urls, self.examples = library, urls, examples
        self.same = languages.same
        self.scopes = Scopes(library, urls)
        self.doc_links = DocLinks(library)
        self.errors: list[str] = []
        self.cited: dict[int, list[Item]] = {}
        self.used: dict[int, list[Declaration]] = {}
        self.sources: set[str] = set()

    # ---- text
    def lookup(self, page: Page, item: Item) -> Lookup:
        def found(path: str) -> str | None:
            other = self.doc_links.find(item, path)
            if other is None:
                self.errors.append(f"{item.place}: `{path}` in the docstring doesn't exist")
                return None
            return page.href(self.urls.of(other))

        return found

    def docs(self, page: Page, item: Item) -> str:
        return docs_html(item.docs or item.comment, self.lookup(page, item))

    def first(self, page: Page, item: Item) -> str:
        return inline_html(sentence(item.docs or item.comment), self.lookup(page, item))

    def plain(self, text: str) -> str:
        return inline_html(text, lambda _: None)

    def source_link(self, page: Page, path: str, line: int) -> str:
        self.sources.add(path)
        shown = path.removeprefix("crates/").removeprefix("bindings/c/")
        return page.link(f"{source_page(path)}#L{line}", escape(f"{shown}:{line}"), class_="where")

    def same_calls(self, page: Page, url: str) -> str:
        """The names of the same call in the other languages."""
        said = []
        for language, names in self.same.get(url, {}).items():
            shown = [tag("code", escape(it.name)) for it in names]
            links = [page.link(it.url, code) if it.url else code
                     for it, code in zip(names, shown)]
            if links:
                said.append(f"{language}: {', '.join(links)}")
        return tag("p", "; ".join(said) + ".", class_="given") if said else ""

    # ---- code
    def code_link(self, page: Page, item: Item) -> Callable[[str], tuple[str, str]]:
        """Names of types and traits in code lead to their pages."""

        def link(name: str) -> tuple[str, str]:
            other = self.library.find(item.crate, item.module, name)
            if other is None or other is item or not self.library.is_public(other):
                return "", ""
            return page.href(self.urls.of(other)), sentence(other.docs)

        return link

    def signature(self, page: Page, item: Item, text: str = "") -> str:
        attributes = [it for it in item.attributes if it.startswith(("#[derive", "#[unsafe"))]
        written = "\n".join([*attributes, text or item.head_text])
        code = rust_html(written, self.code_link(page, item))
        return tag("pre", tag("code", code), class_="signature")

    # ---- contracts
    def link_clause(self, item: Item, clause: Clause, scope: Scope) -> list[Linked]:
        linker = Linker(self.library, self.scopes, scope)
        linked = linker.clause(clause_text(item, clause))
        for word in linker.unknown:
            self.errors.append(f"{item.place}: the word `{word.text}` isn't known")
        return linked

    def row(self, page: Page, kind: str, name: str, linked: list[Linked]) -> str:
        text = tag("code", linked_html(linked, page.href))
        title = tag("span", kind, class_="kind")
        title += tag("span", name, class_="name") if name else ""
        return tag("tr", tag("th", title, scope="row") + tag("td", text), class_=kind.rstrip("*"))

    def contract(self, page: Page, item: Item) -> str:
        """The clauses of a function as a table, and what their words say."""
        if not item.clauses:
            return ""
        scope = self.scopes.of_function(item)
        linked = [(it, self.link_clause(item, it, scope)) for it in item.clauses]
        rows = "".join(self.row(page, it.kind, it.name, words) for it, words in linked)
        self.note(item, [word for _, words in linked for word in words])
        return tag("table", rows, class_="contract")

    def note(self, item: Item, linked: Iterable[Linked]) -> None:
        for declared in self.definitions(linked):
            cited = self.cited.setdefault(id(declared), [])
            if item not in cited:
                cited.append(item)

    def definitions(self, linked: Iterable[Linked]) -> list[Declaration]:
        """The definitions that the words name, each once."""
        found = {}
        for it in linked:
            target = it.target
            if target is not None and target.kind == "definition" and target.declared is not None:
                found[id(target.declared)] = target.declared
        return list(found.values())

    def glossary(self, page: Page, item: Item, is_open: bool) -> str:
        """The definitions that a contract cites, each with its sentence."""
        scope = self.scopes.of_function(item)
        linked = [word for it in item.clauses for word in self.link_clause(item, it, scope)]
        declared, of_std = self.definitions(linked), words_of_std(linked)
        if not declared and not of_std:
            return ""
        rows = "".join(
            tag("dt", page.link(self.urls.declaration(it), escape(it.name)))
            + tag("dd", self.plain(it.sentence))
            for it in declared
        )
        rows += "".join(
            tag("dt", escape(word)) + tag("dd", tag("code", escape(path)))
            for word, path in of_std.items()
        )
        summary = tag("summary", "Words of the contract")
        body = summary + tag("dl", rows, class_="words")
        return tag("details", body, class_="glossary", open="open" if is_open else "")

    def ghosts(self, page: Page, block: Item) -> str:
        """The ghosts of a trait or an implementation: only contracts can use these."""
        rows = []
        for it in block.of_kind("ghost"):
            scope = self.scopes.of_block(it)
            linked = self.link_clause(it, it.clauses[0], scope)
            self.note(it, linked)
            row = self.row(page, "ghost", escape(it.name), linked)
            note = self.first(page, it) if it.docs or it.comment else ""
            anchor = self.urls.anchors.get(id(it), "")
            row = row.replace("<tr ", f'<tr id="{escape(anchor)}" ', 1) if anchor else row
            rows.append(row.replace("</td>", tag("span", note, class_="note") + "</td>")
                        if note else row)
        return tag("table", "".join(rows), class_="contract") if rows else ""

    # ---- definitions
    def definition(self, page: Page, declared: Declaration, scope: Scope) -> str:
        """The text of a definition, its words linked."""
        linker = Linker(self.library, self.scopes, scope)
        header, words = linker.declaration(declared)
        for word in linker.unknown:
            self.errors.append(f"{declared.place}: the word `{word.text}` isn't known")
        for it in self.definitions(words):
            if it is not declared:
                self.used.setdefault(id(it), []).append(declared)
        code = linked_html(words, page.href)
        if header:
            module = tag("span", linked_html(header, page.href), class_="module")
            code = f"{module}\n{code}"
        return tag("pre", tag("code", code), class_="definition")

    # ---- examples
    def example(self, page: Page, item: Item, is_open: bool) -> str:
        """The shortest example that calls an item, whole or in part."""
        call = self.examples.best.get(id(item))
        if call is None:
            return ""
        caller = call.caller
        kind = "Example, proved and run" if caller.is_test else "Example, proved"
        where = self.source_link(page, caller.source.path, call.line)
        summary = tag("summary", f"{kind} {where}")
        code = rust_html(self.excerpt(call), self.code_link(page, caller))
        body = summary + tag("pre", tag("code", code), class_="example")
        return tag("details", body, class_="proved", open="open" if is_open else "")

    def excerpt(self, call: Call) -> str:
        """The whole function, or the lines around the call."""
        caller = call.caller
        lines = caller.whole_text.split("\n")
        if len(lines) <= MOST_LINES:
            return "\n".join([*(it for it in caller.attributes if "test" in it), *lines])
        at = call.line - caller.line
        start, end = max(1, at - 8), min(len(lines) - 1, at + 8)
        shown = lines[start:end]
        if start > 1:
            shown.insert(0, "    // ..")
        if end < len(lines) - 1:
            shown.append("    // ..")
        return "\n".join([lines[0], *shown, "}"])
