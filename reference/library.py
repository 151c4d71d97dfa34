"""The crates of the repository, and what a name in one of them means."""
import re
from dataclasses import dataclass, field
from functools import cached_property
from pathlib import Path

from documents.kinds import FACADE
from reference.antt_items import AnttFile, Declaration, Use, parse_antt, parse_use
from reference.rust_heads import base_name, impl_parts, use_names
from reference.rust_items import File, Item, parse
from reference.rust_text import Source

FOR_TESTS = ("vb_testing",)  # the library for tests
NAMED = {"fn", "struct", "enum", "trait", "type", "const", "static"}
Path_ = tuple[str, ...]


@dataclass
class Module:
    """A module of a crate: its items, and what its `use` lines bring in."""

    path: Path_
    file: File
    names: dict[str, Item] = field(default_factory=dict)
    uses: dict[str, Path_] = field(default_factory=dict)
    exports: dict[str, Path_] = field(default_factory=dict)
    ghost_uses: list[Use] = field(default_factory=list)
    public_modules: set[str] = field(default_factory=set)


@dataclass
class Reach:
    """An item under the name by which a crate exports it."""

    name: str
    item: Item
    via: str = ""


class Crate:
    """A crate: its modules, definitions and lemmas."""

    def __init__(self, root: Path, name: str, deps: list[str], is_static: bool) -> None:
        self.name, self.deps, self.is_static = name, deps, is_static
        self.folder = root / "crates" / name
        self.modules: dict[Path_, Module] = {}
        for path in sorted((self.folder / "src").rglob("*.rt")):
            self.add_module(root, path)
        self.specs = self.antt_files(root, "specs")
        self.proofs = self.antt_files(root, "proofs")

    @property
    def is_library(self) -> bool:
        return () in self.modules

    @property
    def is_example(self) -> bool:
        return self.name.startswith("use_")

    @property
    def is_tests(self) -> bool:
        return self.name.endswith("_tests")

    @property
    def docs(self) -> str:
        return self.modules[()].file.docs

    def antt_files(self, root: Path, folder: str) -> dict[str, AnttFile]:
        found = sorted((self.folder / folder).glob("*.antt"))
        return {it.stem: parse_antt(Source.read(root, it)) for it in found}

    def add_module(self, root: Path, path: Path) -> None:
        steps = path.relative_to(self.folder / "src").with_suffix("").parts
        module = Module(() if steps == ("lib",) else steps, parse(Source.read(root, path)))
        self.modules[module.path] = module
        for item in module.file.items:
            self.add_item(module, item)

    def add_item(self, module: Module, item: Item) -> None:
        self.own(item, module.path)
        if item.kind in NAMED:
            module.names[item.name] = item
        elif item.kind == "use":
            (module.exports if item.visibility == "pub" else module.uses).update(
                use_names(item.head_text)
            )
        elif item.kind == "ghost use":
            module.ghost_uses.append(parse_use(item.head_text, item.line))
        elif item.kind == "mod" and item.visibility == "pub":
            module.public_modules.add(item.name)

    def own(self, item: Item, path: Path_) -> None:
        item.crate, item.module = self.name, path
        for it in item.items:
            it.owner = item
            self.own(it, path)

    def module_of(self, item: Item) -> Module:
        return self.modules[item.module]

    def all_items(self) -> list[Item]:
        return [it for module in self.modules.values() for it in module.file.items]


class Library:
    """All crates."""

    def __init__(self, root: Path) -> None:
        self.root = root
        self.crates: dict[str, Crate] = {}
        for line in (root / "crates.txt").read_text(encoding="utf-8").splitlines():
            if line.strip() and not line.startswith("#"):
                left, _, deps = line.partition(":")
                name, *flags = left.split()
                self.crates[name] = Crate(root, name, deps.split(), "staticlib" in flags)

    @cached_property
    def shown(self) -> list[Crate]:
        """The crates that have pages: the libraries, and those that show how to use them."""
        return [it for it in self.crates.values() if it.is_library and not it.is_tests]

    # ---- names of Rust
    def find(self, crate: str, module: Path_, name: str, depth: int = 0) -> Item | None:
        """The item that a name in a module means, if it is one of the repository."""
        place = self.crates[crate].modules.get(module) if crate in self.crates else None
        if place is None or depth > 9:
            return None
        if name in place.names:
            return place.names[name]
        path = place.uses.get(name) or place.exports.get(name)
        return self.find_path(crate, module, path, depth + 1) if path else None

    def find_path(self, crate: str, module: Path_, path: Path_, depth: int = 0) -> Item | None:
        """The item that a path in a module means."""
        *front, name = path
        if not front:
            return self.find(crate, module, name, depth)
        first = front[0]
        if first == "crate":
            return self.find(crate, tuple(front[1:]), name, depth)
        if first == "super":
            return self.find(crate, (*module[:-1], *front[1:]), name, depth)
        if first in self.crates:
            return self.find(first, tuple(front[1:]), name, depth)
        return self.find(crate, (*module, *front), name, depth)

    def outside(self, crate: str, module: Path_, name: str) -> str:
        """The path of what a `use` brings in from std or another crate that isn't ours."""
        path = self.crates[crate].modules[module].uses.get(name)
        return "::".join(path) if path else ""

    @cached_property
    def reached(self) -> dict[str, dict[str, Reach]]:
        """What each crate gives under its own name, re-exports included."""
        return {it.name: self.reach(it) for it in self.shown}

    def reach(self, crate: Crate) -> dict[str, Reach]:
        found: dict[str, Reach] = {}
        todo: list[Path_] = [()]
        while todo:
            module = crate.modules[todo.pop()]
            todo += [(*module.path, it) for it in module.public_modules]
            for name, item in module.names.items():
                if item.visibility == "pub":
                    found[name] = Reach(name, item)
            for name, path in module.exports.items():
                item = self.find_path(crate.name, module.path, path)
                if item is not None:
                    via = path[0] if path[0] in self.crates else ""
                    found[name] = Reach(name, item, via)
        return found

    @cached_property
    def public(self) -> set[int]:
        """The items that have pages, by their identities."""
        return {id(it.item) for crate in self.reached.values() for it in crate.values()}

    def is_public(self, item: Item) -> bool:
        return id(item) in self.public

    def own_items(self, crate: Crate) -> list[Item]:
        """The public items that a crate declares itself, in the order of their names."""
        items = [it.item for it in self.reached[crate.name].values() if it.item.crate == crate.name]
        return sorted(items, key=lambda it: it.name.lower())

    def re_exported_by(self, item: Item) -> list[str]:
        """The crates that re-export an item; the one that users name comes first."""
        found = [
            crate
            for crate, reach in self.reached.items()
            if crate != item.crate and any(it.item is item for it in reach.values())
        ]
        return sorted(found, key=lambda it: it != FACADE)

    # ---- implementations
    @cached_property
    def impls(self) -> list[tuple[Item, str, str, Item | None, Item | None]]:
        """Each implementation: its trait and type as texts, and as items of the repository."""
        found = []
        for crate in self.shown:
            for item in crate.all_items():
                if item.kind == "impl":
                    trait, kind = impl_parts(item.head_text.replace("\n", " "))
                    of = self.find(crate.name, item.module, base_name(kind))
                    which = self.find(crate.name, item.module, base_name(trait)) if trait else None
                    found.append((item, trait, kind, which, of))
        return found

    def impls_of(self, item: Item) -> list[tuple[Item, str]]:
        """The implementations for a type, each with its trait; that is empty for inherent ones."""
        found = [(impl, trait) for impl, trait, _, _, of in self.impls if of is item]
        return sorted(found, key=lambda it: self.rank(it[0], item))

    def rank(self, impl: Item, item: Item) -> int:
        """The rank of a block: first those that make values, then those in the type's own file."""
        return 0 if impl.module[-1:] == ("make",) else 1 if impl.module == item.module else 2

    def impls_for_trait(self, item: Item) -> list[tuple[Item, str]]:
        return [(impl, kind) for impl, _, kind, which, _ in self.impls if which is item]

    def model_of(self, item: Item) -> Item | None:
        """The implementation of `Model`, if a type has one."""
        return next((impl for impl, trait in self.impls_of(item) if trait == "Model"), None)

    # ---- names of definitions
    def antt_file(self, crate: str, folder: str, name: str, depth: int = 0) -> AnttFile | None:
        """A file of definitions or lemmas, by the name under which a crate gives it."""
        if crate not in self.crates or depth > 9:
            return None
        files = getattr(self.crates[crate], folder)
        if name in files and name != "Lib":
            return files[name]
        for use in files["Lib"].uses if "Lib" in files else []:
            path = use.path.split(".")
            if use.is_public and path[-1] == name and path[0] == "Rattle" and len(path) == 4:
                return self.antt_file(path[1], path[2], name, depth + 1)
        return None

    def spec_files(self, crate: str) -> list[AnttFile]:
        """The files of definitions that a crate gives: its own, and those that it re-exports."""
        files = self.crates[crate].specs
        uses = files["Lib"].uses if "Lib" in files else []
        names = [*files, *(it.path.split(".")[-1] for it in uses if it.is_public)]
        found = (self.antt_file(crate, "specs", it) for it in names)
        return [it for it in found if it is not None]

    def declared(self, file: AnttFile, name: str, depth: int = 0) -> Declaration | None:
        """What a file gives under a name: its own, or what it re-exports."""
        own = file.declaration(name)
        if own is not None or depth > 9:
            return own
        for use in file.uses:
            if use.is_public and name in use.names:
                path = use.path.split(".")
                other = self.antt_file(path[1], path[2], path[3])
                return self.declared(other, use.names[name], depth + 1) if other else None
        return None

    def rust_of(self, path: list[str]) -> Item | None:
        """The item that `CRATE.specs.declared.MODULE.ITEM` names, or the same with `contracts` in
        place of `declared`."""
        crate, _, _, *steps = path
        return self.find(crate, tuple(steps[:-1]), steps[-1])


def sentence(docs: str) -> str:
    """The first sentence of a docstring."""
    paragraph = " ".join(docs.strip().split("\n\n")[0].split())
    found = re.match(r"(.*?[.!?])(?= [A-Z`\[]|$)", paragraph)
    return found.group(1) if found else paragraph
