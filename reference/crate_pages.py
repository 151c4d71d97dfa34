"""The page of all crates, and that of one."""
from html import escape

from documents.kinds import EXAMPLES, Dependencies, kind_of, reached
from reference.antt_items import AnttFile
from reference.docs_html import Lookup, docs_html
from reference.fragments import Fragments
from reference.groups import plain, table
from reference.html_text import name_html, tag
from reference.item_pages import display
from reference.library import FOR_TESTS, Crate, Reach, sentence
from reference.pages import Page
from reference.rust_items import Item

SECTIONS = [("type", "Types"), ("trait", "Traits"), ("call", "Calls"), ("constant", "Constants")]
GROUPS = [
    ("The library", ["facade", "library"]),
    ("Commands", ["command"]),
    ("Other languages, and tests", ["c"]),
    ("How to use it", ["example"]),
]


class CratePages:
    """Makes the page of the crates, and one for each of them."""

    def __init__(self, fragments: Fragments) -> None:
        self.fragments, self.library, self.urls = fragments, fragments.library, fragments.urls

    # ---- all crates
    def groups(self) -> list[tuple[str, list[Crate]]]:
        """The crates in four groups: the library, commands, other languages and tests, examples."""
        crates = self.library.crates.values()
        deps = {it.name: it.deps for it in crates}
        linked = {it.name for it in crates if it.is_static}
        found: dict[str, list[Crate]] = {}
        for it in self.library.shown:
            kind = "c" if it.name in FOR_TESTS else kind_of(it.name, deps, linked)
            kind = "example" if kind == "library" and is_for_examples(it.name, deps) else kind
            found.setdefault(kind, []).append(it)
        return [(title, [it for kind in kinds for it in found.get(kind, [])])
                for title, kinds in GROUPS]

    def index(self) -> Page:
        page = Page("index.html", "vortex_buffer reference")
        page.add(tag("h1", "Reference"), HOW_TO_READ)
        for title, crates in self.groups():
            rows = "".join(self.crate_row(page, it) for it in crates)
            self.listed(page, title, rows, [(it.name, f"{it.name}/index.html") for it in crates])
        return page

    def listed(self, page: Page, title: str, rows: str, names: list[tuple[str, str]]) -> None:
        """A part of the page of all crates, with its names in the contents."""
        page.add(tag("h2", title), tag("table", rows, class_="list"))
        page.nav.append(tag("p", title, class_="heading"))
        page.nav.append(tag("ul", "".join(
            tag("li", page.link(url, name)) for name, url in names)))

    def crate_row(self, page: Page, crate: Crate) -> str:
        name = page.link(f"{crate.name}/index.html", tag("code", crate.name))
        says = self.fragments.plain(sentence(crate.docs))
        return tag("tr", tag("th", name, scope="row") + tag("td", says))

    # ---- one crate
    def crate(self, crate: Crate) -> Page:
        page = Page(f"{crate.name}/index.html", crate.name)
        place = crate.modules[()].file.source.path
        every = page.link("index.html", "all languages")
        where = self.fragments.source_link(page, place, 1)
        page.add(tag("p", f"{every} {where}", class_="crumbs"))
        page.add(tag("h1", f'{crate.name} {tag("span", "crate", class_="badge")}'))
        page.add(tag("div", docs_html(crate.docs, self.lookup(page, crate)), class_="docs"))
        if not crate.docs:
            self.fragments.errors.append(f"{place}:1: the crate has no docstring")
        page.nav.append(tag("p", page.link("index.html", "all languages"), class_="crate"))
        self.items(page, crate)
        self.files(page, crate, "specs", "Definitions", "definitions")
        self.files(page, crate, "proofs", "Lemmas", "lemmas")
        return page

    def lookup(self, page: Page, crate: Crate) -> Lookup:
        top = crate.modules[()].file
        stand_in = Item("mod", crate.name, top.source, 0)
        stand_in.crate = crate.name
        return self.fragments.lookup(page, stand_in)

    def items(self, page: Page, crate: Crate) -> None:
        reached = sorted(self.library.reached[crate.name].values(), key=lambda it: it.name.lower())
        for kind, title in SECTIONS:
            found = [it for it in reached if display(it.item) == kind]
            if not found:
                continue
            rows = [(it.name, self.item_row(page, crate, it)) for it in found]
            listed = table(rows) if kind == "call" else plain(rows)
            page.add(tag("h2", title, id=kind), listed)
            page.nav.append(tag("p", page.link(f"{page.url}#{kind}", title), class_="heading"))
            page.nav.append(tag("ul", "".join(
                tag("li", page.link(self.urls.of(it.item), name_html(it.name))) for it in found)))

    def item_row(self, page: Page, crate: Crate, reach: Reach) -> str:
        item = reach.item
        name = page.link(self.urls.of(item), tag("code", escape(reach.name)))
        says = self.fragments.first(page, item)
        if item.crate != crate.name:
            says += " " + tag("span", f"of {item.crate}", class_="from")
        return tag("tr", tag("th", name, scope="row") + tag("td", says))

    # ---- its definitions and lemmas
    def own_files(self, crate: Crate, folder: str) -> list[AnttFile]:
        files = crate.specs if folder == "specs" else crate.proofs
        return [it for name, it in files.items() if name != "Lib"]

    def given_files(self, crate: Crate, folder: str) -> list[AnttFile]:
        """The files of other crates that a crate re-exports."""
        files = crate.specs if folder == "specs" else crate.proofs
        found = []
        for use in files["Lib"].uses if "Lib" in files else []:
            path = use.path.split(".")
            if use.is_public and path[1] in self.library.crates:
                file = self.library.antt_file(path[1], path[2], path[3])
                if file is not None:
                    found.append(file)
        return found

    def files(self, page: Page, crate: Crate, folder: str, title: str, anchor: str) -> None:
        own = self.own_files(crate, folder) if folder == "specs" else []
        given = self.given_files(crate, folder)
        files = sorted([*own, *given], key=lambda it: it.source.path.split("/")[-1])
        if not files:
            return
        rows = "".join(self.file_row(page, crate, it) for it in files)
        page.add(tag("h2", title, id=anchor), tag("table", rows, class_="list"))
        page.nav.append(tag("p", page.link(f"{page.url}#{anchor}", title), class_="heading"))
        page.nav.append(tag("ul", "".join(
            tag("li", page.link(self.urls.file(it), it.source.path.split("/")[-1][:-5]))
            for it in files)))

    def file_row(self, page: Page, crate: Crate, file: AnttFile) -> str:
        name = file.source.path.split("/")[-1].removesuffix(".antt")
        link = page.link(self.urls.file(file), tag("code", name))
        says = self.fragments.plain(file.sentence)
        owner = file.source.path.split("/")[1]
        if owner != crate.name:
            says += " " + tag("span", f"of {owner}", class_="from")
        names = [it.name for it in file.declarations if it.is_public and it.kind != "ruleset"]
        shown = ", ".join(f"<code>{escape(it)}</code>" for it in names[:8])
        more = f" and {len(names) - 8} more" if len(names) > 8 else ""
        says += tag("p", shown + more, class_="names")
        return tag("tr", tag("th", link, scope="row") + tag("td", says))


def is_for_examples(name: str, deps: Dependencies) -> bool:
    """Whether all top crates that need this one are examples. No crate needs a top crate."""
    below = {it for found in deps.values() for it in found}
    tops = [it for it in deps if it not in below and name in reached(it, deps)]
    return bool(tops) and all(it.startswith(EXAMPLES) for it in tops)


HOW_TO_READ = """<div class="docs">
<p>The search finds the names of all languages below. A call links to the same call in the
others.</p>
<p>In Rattle a call has its contract: what its caller must ensure, <code>requires</code>, and what
then holds, <code>ensures</code>. The compiler proves both: it rejects a caller that doesn't ensure
the first, and a body that doesn't give the second.</p>
<p>A word of a clause is a link to its definition, which has a sentence above it. The words of the
standard library are listed with their paths under each contract. The page of a type says what a
clause sees of its values: <code>buffer.list</code> is the list of a buffer's items. Behind a
reference <code>x</code>, <code>x.now</code> is the value; behind a <code>&amp;mut</code>,
<code>x.old</code> and <code>x.new</code> are the values before and after the call.</p>
<p class="scripted-only">Press <kbd>/</kbd> to search, <kbd>↑</kbd> <kbd>↓</kbd> to choose,
<kbd>Enter</kbd> to open.</p>
</div>"""
