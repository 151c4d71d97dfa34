"""All pages: made, and written into a folder."""
import json
import re
import shutil
from html import escape
from pathlib import Path

from documents.kinds import FACADE
from reference.aliases import by_name
from reference.antt_items import AnttFile
from reference.antt_pages import AnttPages
from reference.crate_pages import CratePages
from reference.examples import Examples
from reference.fragments import Fragments
from reference.header_pages import HeaderPages
from reference.html_text import rust_lines, tag
from reference.item_pages import ItemPages, display, public_members
from reference.languages import MANY, Languages
from reference.library import Library, sentence
from reference.pages import HERE, Page
from reference.rust_heads import impl_parts
from reference.rust_items import Item
from reference.rust_text import Source, SourceError
from reference.rustdoc import RUST_CRATE, Rustdoc
from reference.urls import Urls, header_page, source_page


class Site:
    """The pages of a repository."""

    def __init__(self, root: Path, rust: Rustdoc | None = None) -> None:
        self.root, self.rust = root, rust
        self.library = Library(root)
        self.urls = Urls(self.library)
        self.pages: dict[str, Page] = {}
        self.languages = Languages(root, self.library, self.urls, rust)
        examples = Examples(self.library, self.calls())
        self.fragments = Fragments(self.library, self.urls, examples, self.languages)
        self.header_pages = HeaderPages(self.fragments, self.languages)
        self.item_pages = ItemPages(self.fragments)
        self.crate_pages = CratePages(self.fragments)
        self.antt_pages = AnttPages(self.fragments)
        self.make()

    @property
    def errors(self) -> list[str]:
        return self.fragments.errors + self.languages.errors

    def items(self) -> list[Item]:
        """The public items, those of each crate by their names."""
        return [it for crate in self.library.shown for it in self.library.own_items(crate)]

    def members(self, item: Item) -> list[Item]:
        """The public calls and constants of a type or trait."""
        blocks = [item] if item.kind == "trait" else []
        members = [it for block in blocks for it in block.of_kind("fn", "const")]
        for impl, trait in self.library.impls_of(item):
            if not trait:
                members += [it for it in impl.of_kind("fn", "const") if it.visibility == "pub"]
        return members

    def calls(self) -> list[Item]:
        every = [it for item in self.items() for it in [item, *self.members(item)]]
        return [it for it in every if it.kind == "fn"]

    # ---- pages
    def make(self) -> None:
        self.add(self.index())
        for header in self.languages.headers:
            self.add(self.header_pages.page(header))
        for crate in self.library.shown:
            self.add(self.crate_pages.crate(crate))
        for item in self.items():
            self.add(self.item_pages.page(item))
        made = [(self.antt_pages.page(it), it) for it in self.antt_files()]
        made += self.led_to([page for page, _ in made])
        for page, file in made:
            self.antt_pages.add_citations(page, file)
            self.add(page)
        for path in sorted(self.source_paths()):
            self.add(self.source(path))

    def index(self) -> Page:
        """The start page: the crates, the headers, and the Rust crate if cargo made its pages."""
        page = self.crate_pages.index()
        headers = self.languages.headers
        if headers:
            rows = "".join(self.header_pages.row(page, it) for it in headers)
            names = [(it.name, header_page(it.name)) for it in headers]
            self.crate_pages.listed(page, "C and C++", rows, names)
        if self.rust is not None:
            name, url, says = self.rust.crate()
            link = tag("th", page.link(url, tag("code", name)), scope="row")
            rows = tag("tr", link + tag("td", escape(says)))
            self.crate_pages.listed(page, "Rust", rows, [(name, url)])
        return page

    def led_to(self, pages: list[Page]) -> list[tuple[Page, AnttFile]]:
        """The pages of lemmas to which these lead, and which aren't made yet."""
        made = {it.url for it in pages}
        found: list[tuple[Page, AnttFile]] = []
        for page in pages:
            for url in page.links:
                path = url.partition("#")[0]
                crate, _, name = path.partition("/proofs/")
                if name and path not in made:
                    file = self.library.antt_file(crate, "proofs", name.removesuffix(".html"))
                    if file is not None:
                        made.add(path)
                        found.append((self.antt_pages.page(file), file))
        return found

    def add(self, page: Page) -> None:
        if page.url.lower() in (it.lower() for it in self.pages):
            self.fragments.errors.append(f"two pages have the address {page.url}")
        self.pages[page.url] = page

    def antt_files(self) -> list[AnttFile]:
        """All files of definitions, and those of lemmas that another crate re-exports or cites."""
        found = {}
        for crate in self.library.shown:
            own = self.crate_pages.own_files(crate, "specs")
            for it in [*own, *self.crate_pages.given_files(crate, "proofs")]:
                found[it.source.path] = it
        for crate in self.library.shown:
            for module in crate.modules.values():
                for use in module.ghost_uses:
                    self.cited_file(use.path, found)
            for file in crate.specs.values():
                for use in file.uses:
                    self.cited_file(use.path, found)
            for item in crate.all_items():
                for it in item.imports:
                    self.cited_file(it.head_text.split()[2].partition(".{")[0], found)
        return list(found.values())

    def cited_file(self, path: str, found: dict[str, AnttFile]) -> None:
        steps = path.split(".")
        if len(steps) > 3 and steps[1] in self.library.crates and steps[2] == "proofs":
            file = self.library.antt_file(steps[1], "proofs", steps[3])
            if file is not None:
                found[file.source.path] = file

    def source_paths(self) -> set[str]:
        """The files that a page leads to."""
        found = set(self.fragments.sources)
        for page in self.pages.values():
            for url in page.links:
                if url.startswith("source/"):
                    found.add(url.partition("#")[0].removeprefix("source/").removesuffix(".html"))
        return found

    def source(self, path: str) -> Page:
        page = Page(source_page(path), path)
        source = Source.read(self.root, self.root / path)
        if path.endswith(".rt"):
            lines = rust_lines(source)
        else:
            lines = [self.plain_line(it) for it in source.text.rstrip("\n").split("\n")]
        numbered = "".join(
            f'<a id="L{n}" href="#L{n}" data-n="{n}"></a>{line}\n'
            for n, line in enumerate(lines, 1)
        )
        crate, name = path.split("/")[1], path.rpartition("/")[2]
        for url, of in ((f"{crate}/index.html", crate), (header_page(name), name)):
            if url in self.pages:
                page.nav.append(tag("p", page.link(url, of), class_="crate"))
        page.add(tag("h1", escape(path), class_="crumbs"))
        page.add(tag("pre", tag("code", numbered), class_="source"))
        return page

    def plain_line(self, line: str) -> str:
        """A line of definitions or of a header, marked if it is a comment."""
        body, marks = escape(line, quote=False), ("--", "/*", "* ", "*/", "//")
        is_comment = f"{line.strip()} ".startswith(marks)
        return tag("span", body, class_="co") if is_comment else body

    # ---- names to search
    def names(self) -> list[list[str]]:
        """What can be found: name, kind, address, sentence, crate or header, `users`, other words
        and language.

        The sixth is `users` for each name of C, C++ and Rust, and for those of Rattle that the
        facade gives; else it is empty. The seventh has the words of the field that find it too.
        """
        reached = self.library.reached.get(FACADE, {})
        given = {self.urls.of(it.item) for it in reached.values()}
        words = by_name()
        return [
            [*row, "users" if row[2].partition("#")[0] in given else "",
             words.get(last_of(row[0]), ""), "Rattle"]
            for row in self.named()
        ] + self.header_rows() + self.rust_rows()

    def header_rows(self) -> list[list[str]]:
        """The names of headers, each once. Of a family of calls the first one alone has other
        words."""
        rows = []
        for header in self.languages.headers:
            url, language = header_page(header.name), header.language
            rows.append([header.name, "header", url, said(header.docs), "", "users", "", language])
            for entry in header.entries:
                says, calls = said(self.header_pages.docs(entry)), entry.calls()
                named = calls if len(calls) <= MANY else calls[:1]
                for it in entry.declared:
                    url = self.header_pages.url(entry, it)
                    words = self.languages.words(url, it.last) if it in named else ""
                    if url == self.languages.urls[it.name]:
                        rows.append([it.name, entry.kind, url, says, header.name, "users", words,
                                     language])
        return rows

    def rust_rows(self) -> list[list[str]]:
        items = self.rust.items if self.rust is not None else []
        return [[it.name, it.kind, it.url, it.says, RUST_CRATE, "users", it.words, "Rust"]
                for it in items]

    def named(self) -> list[list[str]]:
        """What can be found: name, kind, address, sentence and crate."""
        rows = [
            [it.name, "crate", f"{it.name}/index.html", sentence(it.docs), ""]
            for it in self.library.shown
        ]
        for item in self.items():
            rows.append(self.name_row(item, item.name))
            for _, members in public_members(self.fragments, item):
                rows += [self.name_row(it, f"{item.name}::{it.name}") for it in members]
            variants = item.of_kind("variant")
            rows += [self.name_row(it, f"{item.name}::{it.name}") for it in variants]
            rows += self.trait_rows(item)
        for file in self.antt_files():
            crate, folder = file.source.path.split("/")[1:3]
            kind = "word" if folder == "specs" else "lemma"
            rows += [
                [it.name, kind, self.urls.declaration(it), it.sentence, crate]
                for it in file.declarations
                if it.is_public and it.kind != "ruleset"
            ]
            rows += self.field_rows(file)
        return rows

    def trait_rows(self, item: Item) -> list[list[str]]:
        """The traits of a type, as `&BitBuffer: Not`."""
        rows = []
        for it, trait in self.item_pages.traits(item):
            lent = "&" if impl_parts(it.head_text)[1].startswith("&") else ""
            url = f"{self.urls.of(item)}#{self.urls.anchors[id(it)]}"
            rows.append([f"{lent}{item.name}: {trait}", "trait", url, said(it.docs), item.crate])
        return rows

    def field_rows(self, file: AnttFile) -> list[list[str]]:
        """The fields of the records of a file, as `SharedBuffer.list`."""
        crate = file.source.path.split("/")[1]
        return [
            [f"{it.name}.{name}", "field", self.urls.declaration(it, name), it.sentence, crate]
            for it in file.declarations
            if it.is_public and it.kind == "record"
            for name in it.fields
        ]

    def name_row(self, item: Item, name: str) -> list[str]:
        return [name, display(item), self.urls.of(item), said(item.docs), item.crate]

    # ---- files
    def write(self, folder: Path) -> None:
        """Writes all into a folder that doesn't exist, is empty, or has an earlier run's pages."""
        if folder.exists() and any(folder.iterdir()):
            if not (folder / "names.js").exists():
                raise SourceError(f"{folder} has files that aren't pages of the reference")
            shutil.rmtree(folder)
        for page in self.pages.values():
            path = folder / page.url
            path.parent.mkdir(parents=True, exist_ok=True)
            path.write_text(page.html(), encoding="utf-8")
        for name in ("style.css", "search.js"):
            shutil.copy(HERE / name, folder / name)
        if self.rust is not None:
            self.rust.copy(folder / "rust")
        names = json.dumps(self.names(), ensure_ascii=False, separators=(",", ":"))
        (folder / "names.js").write_text(f"window.NAMES={names};\n", encoding="utf-8")


def said(docs: str) -> str:
    """The first sentence of a docstring as plain text."""
    return re.sub(r"\[(`[^`]+`)\](\([^)]*\))?", r"\1", sentence(docs)).replace("`", "")


def last_of(name: str) -> str:
    """The last part of a name: `add` of `Counter::add`, `BitOr` of `Counter: BitOr<u8>`."""
    return re.split(r"::|: |\.", name.partition("<")[0])[-1]
