"""Whether the pages are exact: nothing public is missing, each link leads somewhere, each public
item has a docstring, and vortex_buffer re-exports the words of each of its contracts."""
import re
from html import unescape
from pathlib import Path
from urllib.parse import unquote

from documents.calls import DECLARED
from documents.kinds import FACADE
from reference.rust_items import Item
from reference.site import Site

DECLARES = re.compile(
    r'^\s*pub (?:unsafe |const (?=fn)|extern "C" )*(?:fn|struct|enum|trait|type|const|static) (\w+)'
)
EXPORTS = re.compile(r"^pub use [^;]*;", re.MULTILINE)
IDENTITY = re.compile(r'\bid="([^"]*)"')


def declared_lines(path: Path) -> list[tuple[int, str]]:
    """The public declarations of a file, by a look at each of its lines."""
    found = []
    for n, line in enumerate(path.read_text(encoding="utf-8").split("\n"), 1):
        it = DECLARES.match(line)
        if it:
            found.append((n, it.group(1)))
    return found


class Checks:
    """What is wrong with the pages, and where."""

    def __init__(self, site: Site) -> None:
        self.site, self.library = site, site.library
        self.found: list[str] = list(dict.fromkeys(site.errors))
        self.shown = {
            (it.source.path, it.line): it for item in site.items()
            for it in [item, *site.members(item)]
        }
        self.missing()
        self.exports()
        self.words()
        self.docstrings()
        self.headers()
        self.links()

    # ---- nothing is missing
    def missing(self) -> None:
        """Each line that declares something public has an entry, unless no user reaches it."""
        for crate in self.library.shown:
            for module in crate.modules.values():
                path = self.site.root / module.file.source.path
                for n, name in declared_lines(path):
                    entry = self.shown.get((module.file.source.path, n))
                    if entry is None and not self.is_hidden(crate.name, module.path, n, name):
                        self.found.append(f"{module.file.source.path}:{n}: `{name}` has no entry")
                    if entry is not None and entry.name != name:
                        where = f"{module.file.source.path}:{n}"
                        self.found.append(f"{where}: `{name}` is shown as `{entry.name}`")

    def is_hidden(self, crate: str, module: tuple[str, ...], n: int, name: str) -> bool:
        """Whether no user can name it: its type isn't public, or no `pub use` exports it."""
        for item in self.library.crates[crate].modules[module].file.items:
            if item.kind == "impl" and any(it.line == n for it in item.items):
                of = self.site.urls.type_of(item)
                return of is None or not self.library.is_public(of)
        top = self.site.root / "crates" / crate / "src" / "lib.rt"
        text = top.read_text(encoding="utf-8")
        is_given = re.search(rf"\b{name}\b", " ".join(EXPORTS.findall(text)))
        return bool(module) and not is_given and f"pub mod {module[0]};" not in text

    def exports(self) -> None:
        """Tests that each name of a crate's `pub use` has an entry on the crate's page."""
        for crate in self.library.shown:
            path = crate.modules[()].file.source.path
            for text in EXPORTS.findall((self.site.root / path).read_text(encoding="utf-8")):
                for name in re.findall(r"\b\w+(?=[,}\s]*[,};])", text):
                    if name not in self.library.reached[crate.name]:
                        self.found.append(f"{path}: `{name}` of a `pub use` has no entry")

    def words(self) -> None:
        """Tests that the facade re-exports each definition that a contract of its items cites."""
        given = self.library.spec_files(FACADE)
        reached = {
            id(entry) for it in self.library.reached[FACADE].values()
            for entry in [it.item, *self.site.members(it.item)]
        }
        files = [it for crate in self.library.shown for it in crate.specs.values()]
        for declared in (it for file in files for it in file.declarations):
            cited = self.site.fragments.cited.get(id(declared), [])
            calls = [it.name for it in cited if id(it) in reached]
            names = (self.library.declared(it, declared.name) for it in given)
            if calls and not any(it is declared for it in names):
                told = f"`{declared.name}`, which `{calls[0]}` cites, isn't re-exported by {FACADE}"
                self.found.append(f"{declared.place}: {told}")

    # ---- docstrings
    def docstrings(self) -> None:
        for item in self.site.items():
            self.documented(item)
            for it in self.site.members(item):
                self.documented(it)
            for it in item.of_kind("variant"):
                self.documented(it)
            for it in item.of_kind("field"):
                if it.visibility == "pub":
                    self.documented(it)

    def documented(self, item: Item) -> None:
        if not item.docs.strip():
            self.found.append(f"{item.place}: `{item.name}` has no docstring")

    def headers(self) -> None:
        """Each function of a header has an entry, and each entry of C a comment."""
        for header in (it for it in self.site.languages.headers if it.language == "C"):
            known = {it.name for entry in header.entries for it in entry.declared}
            missing = [it for it in DECLARED.findall(header.text) if it not in known]
            self.found += [f"{header.path}: `{it}` has no entry" for it in missing]
            for first in (it.declared[0] for it in header.entries if not it.comment.strip()):
                self.found.append(f"{header.path}:{first.line}: `{first.name}` has no comment")

    # ---- links
    def links(self) -> None:
        anchors = {
            url: {unescape(it) for it in IDENTITY.findall("\n".join(page.body))}
            for url, page in self.site.pages.items()
        }
        made = self.site.rust.pages if self.site.rust is not None else set()
        for url, page in self.site.pages.items():
            for to in dict.fromkeys(page.links):
                path, _, anchor = to.partition("#")
                if path in made:
                    continue
                if path not in self.site.pages:
                    self.found.append(f"{url}: leads to {path}, which isn't there")
                elif anchor and unquote(anchor) not in anchors[path]:
                    self.found.append(f"{url}: leads to {to}, which isn't there")
        for row in self.site.names():
            path, _, anchor = row[2].partition("#")
            if path in made:
                continue
            if path not in self.site.pages or anchor and unquote(anchor) not in anchors[path]:
                self.found.append(f"names.js: {row[0]} leads to {row[2]}, which isn't there")
