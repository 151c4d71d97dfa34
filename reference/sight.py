"""What a clause sees of a type: its model, the definitions over its values, or its own parts."""
from html import escape

from reference.antt_items import AnttFile, Declaration
from reference.antt_text import words_of
from reference.fragments import Fragments
from reference.html_text import linked_html, rust_html, tag
from reference.links import Linked
from reference.pages import Page
from reference.rust_items import Item
from reference.scopes import Scope

SAYS = {
    "Value": "its value is a",
    "view": "built from its parts",
    "invariant": "always holds",
    "inverse": "and back",
    "also_owns": "also owns",
}


class Sight:
    """Adds the section to the page of a type."""

    def __init__(self, fragments: Fragments) -> None:
        self.fragments, self.library, self.urls = fragments, fragments.library, fragments.urls
        self.asked = self.asking()

    def asking(self) -> dict[int, list[Declaration]]:
        """For each type the definitions whose first argument is a value of it."""
        found: dict[int, list[Declaration]] = {}
        for crate in self.library.shown:
            for file in crate.specs.values():
                self.ask(file, found)
        return found

    def ask(self, file: AnttFile, found: dict[int, list[Declaration]]) -> None:
        scope = self.fragments.scopes.of_antt(file)
        for declared in file.declarations:
            name = first_argument(declared)
            target = scope.imported.get(name)
            if target is not None and target.item is not None:
                found.setdefault(id(target.item), []).append(declared)

    def add(self, page: Page, item: Item) -> None:
        model = self.library.model_of(item)
        asked = self.asked.get(id(item), [])
        ghosts = self.fragments.ghosts(page, item)
        page.add(tag("h2", "What a clause sees", id="sees"))
        if model is not None:
            self.model(page, model)
        if asked:
            self.questions(page, asked)
        if model is None:
            self.parts(page, item, bool(asked))
        page.add(ghosts)

    def parts(self, page: Page, item: Item, is_folded: bool) -> None:
        """A type without a model is seen as it is: by its variants, or by all of its fields."""
        fields = item.of_kind("field")
        if item.kind == "enum":
            page.add(tag("p", "The variant, with its fields."))
        elif fields:
            table = tag("table", "".join(self.part(page, it) for it in fields), class_="list")
            summary = tag("summary", "Its fields")
            folded = tag("details", summary + table, class_="glossary")
            page.add(folded if is_folded else table)
        else:
            page.add(tag("p", "A clause sees that a value exists."))

    def part(self, page: Page, field: Item) -> str:
        """A field with its type. A clause sees it even if it is private."""
        kind = field.head_text.partition(":")[2].strip()
        shown = tag("code", rust_html(kind, self.fragments.code_link(page, field)))
        says = self.fragments.docs(page, field) if field.docs else ""
        row = tag("th", tag("code", escape(field.name)), scope="row") + tag("td", shown + says)
        return f'<tr id="{escape(self.urls.anchors[id(field)])}">{row}</tr>'

    def model(self, page: Page, model: Item) -> None:
        """The value that represents it in contracts, and what always holds of it."""
        rows = []
        for it in model.of_kind("ghost"):
            scope = self.fragments.scopes.of_block(it)
            linked = self.fragments.link_clause(it, it.clauses[0], scope)
            rows.append(self.fragments.row(page, SAYS.get(it.name, it.name), "", linked))
            if it.name == "Value":
                self.value(page, linked)
        summary = tag("summary", "How its value is built from its parts")
        table = tag("table", "".join(rows), class_="contract")
        page.add(tag("details", summary + table, class_="glossary"))

    def value(self, page: Page, linked: list[Linked]) -> None:
        """The record that the value is, with its sentence and its text; or its type."""
        records = [it for it in self.fragments.definitions(linked) if it.kind == "record"]
        shown = tag("code", linked_html(linked, page.href))
        if not records:
            page.add(tag("p", f"A clause sees it as {shown}."))
            return
        record = records[0]
        says = self.fragments.plain(record.sentence)
        page.add(tag("p", f"A clause sees it as {shown}: {says}."))
        page.add(self.fragments.definition(page, record, self.scope_of(record)))

    def scope_of(self, declared: Declaration) -> Scope:
        _, crate, folder, name = declared.source.path.split("/")
        file = self.library.antt_file(crate, folder, name.removesuffix(".antt"))
        assert file is not None
        return self.fragments.scopes.of_antt(file)

    def questions(self, page: Page, asked: list[Declaration]) -> None:
        rows = "".join(
            tag("dt", page.link(self.urls.declaration(it), escape(it.name)))
            + tag("dd", self.fragments.plain(it.sentence))
            for it in asked
        )
        page.add(tag("dl", rows, class_="words"))


def first_argument(declared: Declaration) -> str:
    """The type of the first argument that a definition takes, or of a record's first parameter."""
    words = [it for it in words_of(declared.signature) if it.kind != "space"]
    at = next((i for i, it in enumerate(words) if it.text == declared.name), len(words)) + 1
    while at < len(words) and words[at].text == "{":
        at = next((i for i in range(at, len(words)) if words[i].text == "}"), len(words)) + 1
    if at < len(words) and words[at].text == ":":
        at += 1
        while at < len(words) and words[at].text == "{":
            at = next((i for i in range(at, len(words)) if words[i].text == "→"), len(words)) + 1
        return words[at].text if at < len(words) else ""
    colon = next((i for i in range(at, len(words)) if words[i].text == ":"), len(words))
    return words[colon + 1].text if colon + 1 < len(words) else ""
