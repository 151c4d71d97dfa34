"""The pages of definitions and of lemmas, a page for each file."""
import re
from html import escape

from documents.kinds import FACADE
from reference.antt_items import AnttFile, Declaration
from reference.fragments import Fragments
from reference.html_text import name_html, tag
from reference.pages import Page
from reference.rust_items import Item

SHOWN_AT_ONCE = 6
VARIABLE = re.compile(r"(?!a\b)[^\W\d_]\d*\b")  # a letter, but for the article


def begun(sentence: str) -> str:
    """A sentence with a capital, unless it begins with a variable or with code."""
    return sentence if VARIABLE.match(sentence) else sentence[:1].upper() + sentence[1:]


class AnttPages:
    """Makes pages of definitions and lemmas."""

    def __init__(self, fragments: Fragments) -> None:
        self.fragments, self.urls = fragments, fragments.urls

    def page(self, file: AnttFile) -> Page:
        _, crate, folder, name = file.source.path.split("/")
        name = name.removesuffix(".antt")
        page = Page(self.urls.file(file), f"{name} in {crate}")
        kind = "definitions" if folder == "specs" else "lemmas"
        top = page.link(f"{crate}/index.html", crate)
        where = self.fragments.source_link(page, file.source.path, 1)
        page.add(tag("p", f"{top} {where}", class_="crumbs"))
        page.add(tag("h1", f'{name} {tag("span", kind, class_="badge")}'))
        page.add(tag("div", f"<p>{self.fragments.plain(file.sentence)}</p>", class_="docs"))
        uses = "\n".join(self.imports(file, crate, folder, name))
        page.add(tag("pre", tag("code", uses), class_="signature"))
        self.declarations(page, file, folder)
        self.nav(page, file, crate)
        return page

    def imports(self, file: AnttFile, crate: str, folder: str, name: str) -> list[str]:
        """The imports of the file's names: from the crate that users name, if it re-exports them,
        and from their own crate."""
        library = self.fragments.library
        given = FACADE in library.crates and library.antt_file(FACADE, folder, name) is file
        owners = [FACADE] if given and crate != FACADE else []
        keyword = tag("span", "ghost use" if folder == "specs" else "use", class_="kw")
        end = ";" if folder == "specs" else ""
        return [f"{keyword} Rattle.{it}.{folder}.{name}.{{..}}{end}" for it in [*owners, crate]]

    def shown(self, file: AnttFile, folder: str) -> list[Declaration]:
        """All definitions, or the lemmas that other files can cite."""
        if folder == "specs":
            return file.declarations
        return [it for it in file.declarations if it.is_public and it.kind != "ruleset"]

    def declarations(self, page: Page, file: AnttFile, folder: str) -> None:
        scope = self.fragments.scopes.of_antt(file)
        heading = ""
        for it in self.shown(file, folder):
            if it.heading != heading:
                heading = it.heading
                page.add(tag("h2", escape(heading.capitalize()), class_="group"))
            page.add(f'<section class="word" id="{escape(it.name)}">')
            name = page.link(self.urls.declaration(it), escape(it.name), class_="self")
            where = self.fragments.source_link(page, it.source.path, it.line)
            hidden = "" if it.is_public else tag("span", "of this file alone", class_="from")
            page.add(tag("h3" if heading else "h2", f"{name} {hidden} {where}"))
            page.add(tag("p", self.fragments.plain(begun(it.sentence)), class_="sentence"))
            # A declaration for its file alone, such as a step of a proof, needs no sentence.
            if not it.sentence and folder == "specs" and it.is_public:
                self.fragments.errors.append(f"{it.place}: `{it.name}` has no sentence above it")
            page.add(self.fragments.definition(page, self.stated(it, folder), scope))
            page.add(f"<!--cited {id(it)}-->", "</section>")

    def stated(self, declared: Declaration, folder: str) -> Declaration:
        """A lemma without its proof; a definition as it is."""
        if folder == "specs":
            return declared
        stated = Declaration(**vars(declared))
        stated.text = declared.signature
        return stated

    def nav(self, page: Page, file: AnttFile, crate: str) -> None:
        page.nav.append(tag("p", page.link(f"{crate}/index.html", crate), class_="crate"))
        names = "".join(
            tag("li", page.link(self.urls.declaration(it), name_html(it.name)))
            for it in file.declarations
            if it.is_public and it.kind != "ruleset"
        )
        page.nav.append(tag("ul", names))

    # ---- who cites what, when all pages are made
    def add_citations(self, page: Page, file: AnttFile) -> None:
        body = "\n".join(page.body)
        for it in file.declarations:
            body = body.replace(f"<!--cited {id(it)}-->", self.citations(page, it))
        page.body = [body]

    def citations(self, page: Page, declared: Declaration) -> str:
        calls = self.fragments.cited.get(id(declared), [])
        links = [self.call_link(page, it) for it in calls if self.is_shown(it)]
        others = dict.fromkeys(id(it) for it in self.fragments.used.get(id(declared), []))
        by_id = {id(it): it for it in self.fragments.used.get(id(declared), [])}
        words = [
            page.link(self.urls.declaration(by_id[it]), tag("code", escape(by_id[it].name)))
            for it in others
        ]
        said = [
            self.listed("Cited by the contracts of", links, "calls"),
            self.listed("Cited by", words, "definitions"),
        ]
        return "".join(it for it in said if it)

    def is_shown(self, item: Item) -> bool:
        return item.kind in ("fn", "ghost") and not self.urls.of(item).startswith("source/")

    def call_link(self, page: Page, item: Item) -> str:
        owner = self.urls.type_of(item.owner) if item.owner is not None else None
        name = f"{owner.name}::{item.name}" if owner is not None else item.name
        return page.link(self.urls.of(item), tag("code", escape(name)))

    def listed(self, title: str, links: list[str], kind: str) -> str:
        links = list(dict.fromkeys(links))
        if not links:
            return ""
        if len(links) <= SHOWN_AT_ONCE:
            return tag("p", f"{title} {', '.join(links)}.", class_="cited")
        summary = tag("summary", f"{title} {len(links)} {kind}")
        return tag("details", summary + tag("p", ", ".join(links)), class_="cited")
