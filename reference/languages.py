"""Which calls of C, C++, Rust and Rattle do the same, by the table of bindings/c/README.md."""
import re
from dataclasses import dataclass
from itertools import product
from pathlib import Path

from documents.calls import PAGE, rows
from documents.kinds import FACADE, FOR_C
from documents.texts import NAME, alphabet, expanded
from reference.aliases import by_name
from reference.c_headers import Declared, Entry, Header, read_c
from reference.cpp_headers import read_cpp
from reference.library import Library
from reference.rust_items import Item
from reference.rustdoc import RustItem, Rustdoc
from reference.urls import Urls, header_page

COLUMNS = ["C", "C++", "Rust", "Rattle"]
# If several types have a name of the table, it belongs to the type with the least number here.
FIRST = {"Bits": 0, "BitsMut": 1, "Ranks": 2, "BitBuffer": 0}
# An entry of more calls than this is one of a family, such as one for each type of values.
MANY = 4


@dataclass(frozen=True)
class Named:
    """A call: its name, and the address of its page; empty if it has none."""

    name: str
    url: str = ""


def called(text: str) -> dict[str, dict[str, list[str]]]:
    """For each C function of the table the names in the other columns. Names at the same position
    belong together if two columns have the same number of them."""
    words = alphabet(text)
    found: dict[str, dict[str, list[str]]] = {}
    for row in rows(text.replace("\\|", "¦")):
        names = {it: NAME.findall(row[it].replace("¦", "|")) for it in COLUMNS}
        every = {it: [n for name in names[it] for n in expanded(name, words)] for it in COLUMNS}
        for pattern in names["C"]:
            keys = re.findall("[A-Z]+", pattern)
            for meanings in product(*(words.get(it, [it]) for it in keys)):
                bound = {**words, **{key: [it] for key, it in zip(keys, meanings)}}
                (function,) = expanded(pattern, bound)
                at = every["C"].index(function)
                found[function] = {
                    it: [every[it][at]] if len(every[it]) == len(every["C"])
                    else [n for name in names[it] for n in expanded(name, bound)]
                    for it in COLUMNS[1:]
                }
    return found


class Languages:
    """The headers of C and C++, the items of the Rust crate, and what is the same in each."""

    def __init__(self, root: Path, library: Library, urls: Urls, rust: Rustdoc | None) -> None:
        self.library, self.item_urls = library, urls
        self.rust: list[RustItem] = rust.items if rust else []
        self.errors: list[str] = []
        folder = root / "bindings" / "c"
        self.headers = [read_c(root, it) for it in sorted(folder.glob("vortex_bits*.h"))]
        found = read_cpp(root, sorted(folder.glob("vortex_bits*.hpp")))
        self.headers += [it for it in found if it.entries]
        self.urls: dict[str, str] = {}
        self.anchors: dict[int, str] = {}
        for header in self.headers:
            self.number(header)
        self.members = self.members_of(FACADE)
        self.same: dict[str, dict[str, list[Named]]] = {}
        page = root / PAGE
        self.join(called(page.read_text(encoding="utf-8")) if page.exists() else {})

    # ---- addresses
    def number(self, header: Header) -> None:
        """Gives each name of a header an anchor; if calls have the same name, all but the first get
        a number too. A checked form shares its call's anchor; types and constants under one comment
        share one."""
        self.urls[header.name] = header_page(header.name)
        taken: set[str] = set()
        for entry in header.entries:
            calls = entry.calls()
            for it in entry.declared:
                of = it if entry.kind == "call" else calls[0]
                name = of.name.replace("vb_try_", "vb_").replace("::", ".")
                n, anchor = 1, name
                while anchor in taken and it in calls and it is of:
                    n += 1
                    anchor = f"{name}-{n}"
                taken.add(anchor)
                self.anchors[id(it)] = anchor
                self.urls.setdefault(it.name, header_page(header.name, anchor))

    def entries(self, language: str) -> list[Entry]:
        return [it for header in self.headers if header.language == language
                for it in header.entries]

    # ---- names of the table
    def join(self, table: dict[str, dict[str, list[str]]]) -> None:
        for entry in (it for it in self.entries("C") if it.kind == "call"):
            calls = entry.calls()
            for it in calls:
                names, is_family = table.get(it.name, {}), len(calls) > MANY
                like = (other for other in calls if table.get(other.name, {}) == names)
                first = next(like) if is_family else it
                found = {"C": [Named(first.name, self.urls[first.name])]}
                found |= {of: self.named(of, names.get(of, []), it) for of in COLUMNS[1:]}
                found["Contract"] = [] if is_family else self.contract(it.name)
                self.add(found, Named(it.name, self.urls[it.name]))

    def add(self, found: dict[str, list[Named]], call: Named) -> None:
        """Keeps for each of these calls the names of it in the other languages."""
        for language, names in {**found, "C": [call]}.items():
            for url in (it.url for it in names if it.url):
                same = self.same.setdefault(url, {})
                for other in (it for it in found if it != language):
                    if other != "Contract" or language == "C":
                        known = same.setdefault(other, [])
                        known += [it for it in found[other] if it not in known]

    def named(self, language: str, names: list[str], call: Declared) -> list[Named]:
        """The calls that the names of a column mean, in the table's row of a call of C."""
        find = {"C++": self.of_cpp, "Rust": self.of_rust, "Rattle": self.of_rattle}[language]
        found = []
        for name in names:
            known = find(name, call.name)
            is_word = name[0].isalpha()
            if is_word and not known and (language != "Rust" or self.rust):
                told = f"`{name}`, beside `{call.name}`, has no entry in {language}"
                self.errors.append(f"{PAGE}: {told}")
            found += known or [Named(name)]
        return found

    def of_cpp(self, name: str, call: str) -> list[Named]:
        """The calls of this name; if there are several, those that call the C function."""
        name = name if name[0].isalpha() else f"operator{name}"
        calls = [it for entry in self.entries("C++") for it in entry.declared
                 if name in (it.name, it.last)]
        found = [it.name for it in calls if call in it.uses] or [it.name for it in calls]
        return [Named(it, self.urls[it]) for it in dict.fromkeys(found)]

    def of_rust(self, name: str, _: str) -> list[Named]:
        """The item of this name; if there are several, that of a window."""
        found = [it for it in self.rust if f"::{it.name}".endswith(f"::{name}")]
        found.sort(key=lambda it: FIRST.get(it.name.partition("::")[0], len(FIRST)))
        return [Named(it.name, it.url) for it in found[:1]]

    def of_rattle(self, name: str, _: str) -> list[Named]:
        """The function of this name in the facade or in the crate that it names, or a method."""
        crate, _, last = name.rpartition("::")
        reach = self.library.reached.get(crate or FACADE, {}).get(last)
        item = reach.item if reach else self.members.get(name)
        if item is None:
            return []
        owner = self.item_urls.type_of(item.owner) if item.owner else None
        shown = f"{owner.name}::{name}" if owner else name
        return [Named(shown, self.item_urls.of(item))]

    def members_of(self, crate: str) -> dict[str, Item]:
        """The methods of the types that a crate gives, by name; those of sets come first."""
        types = [it.item for it in self.library.reached.get(crate, {}).values()]
        types.sort(key=lambda it: FIRST.get(it.name, len(FIRST)), reverse=True)
        return {
            it.name: it for owner in types for impl, trait in self.library.impls_of(owner)
            if not trait for it in impl.of_kind("fn") if it.visibility == "pub"
        }

    def contract(self, name: str) -> list[Named]:
        """The proved function that a C function runs."""
        for crate, reach in self.library.reached.items():
            if f"{crate}_".startswith(FOR_C) and name in reach and reach[name].item.crate == crate:
                return [Named(f"{crate}::{name}", self.item_urls.of(reach[name].item))]
        return []

    # ---- words
    def words(self, url: str, *names: str) -> str:
        """The words of the field that find a call: its own, and those of the same calls."""
        words = by_name()
        others = [it.name for names in self.same.get(url, {}).values() for it in names]
        found = [words.get(re.split("::", it)[-1], "") for it in [*names, *others]]
        return " ".join(dict.fromkeys(" ".join(found).split()))
