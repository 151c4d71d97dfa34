"""The meanings of the words of a clause or of a definition, by the file and block around it."""
from dataclasses import dataclass, field

from reference.antt_items import AnttFile, Declaration, Use, parse_use
from reference.antt_text import parts_of
from reference.library import Library
from reference.rust_heads import WORD, base_name, generics_of, impl_parts, signature_of
from reference.rust_items import Item
from reference.urls import Urls


@dataclass(frozen=True)
class Target:
    """The meaning of a word: where it leads, and what it says. A word of std leads nowhere."""

    kind: str
    url: str = ""
    title: str = ""
    declared: Declaration | None = field(default=None, compare=False, hash=False)
    item: Item | None = field(default=None, compare=False, hash=False)
    path: str = ""


Shape = dict[str, Target]
LOCAL = Target("local")
BUILTINS = {
    "Type": "the type of types",
    "Unit": "the type of one value",
    "tt": "the value of `Unit`",
    "⊥": "what never holds",
    "¬": "not",
    "×": "and; of types, the pair",
    "Prim": "what the prover finds by itself",
    "_": "any",
    "omega": "what the prover finds by arithmetic",
    "cc": "what the prover finds by equations",
    "rw": "rewriting",
    "absurd": "from what never holds",
    "𝓛": "the logic of loans",
    "grind": "what the prover finds by equations and arithmetic",
}
PRELUDE = {"Some", "None", "Ok", "Err", "Vec", "String", "Option", "Result", "u8", "u64", "usize"}


@dataclass
class Scope:
    """Names, the shapes of their types, imported names and aliases, and the module or file."""

    names: dict[str, Target] = field(default_factory=dict)
    shapes: dict[str, list[Shape]] = field(default_factory=dict)
    imported: dict[str, Target] = field(default_factory=dict)
    aliases: dict[str, str] = field(default_factory=dict)
    crate: str = ""
    module: tuple[str, ...] = ()
    own: AnttFile | None = None


class Scopes:
    """Makes scopes."""

    def __init__(self, library: Library, urls: Urls) -> None:
        self.library, self.urls = library, urls
        self.by_module: dict[tuple[str, tuple[str, ...]], tuple[dict, dict]] = {}

    # ---- targets
    def of_declaration(self, declared: Declaration) -> Target:
        kind = "lemma" if "/proofs/" in declared.source.path else "definition"
        url = self.urls.declaration(declared)
        return Target(kind, url, declared.sentence, declared, path=declared.name)

    def of_item(self, item: Item) -> Target:
        title = " ".join((item.docs or item.comment).split("\n\n")[0].split())
        return Target(item.kind, self.urls.of(item), title, item=item)

    def of_constructor(self, declared: Declaration, name: str) -> Target:
        url = self.urls.declaration(declared, name)
        return Target("definition", url, f"one of `{declared.name}`", declared)

    # ---- imports
    def add_uses(self, scope: Scope, uses: list[Use]) -> None:
        for use in uses:
            if use.alias:
                scope.aliases[use.alias] = use.path
            for name, original in use.names.items():
                target = self.import_of(use.path, original)
                for part in parts_of(name) if target else []:
                    scope.imported[part] = target

    def import_of(self, path: str, name: str) -> Target | None:
        """What a module gives under a name; None if it is a module of ours without that name."""
        steps = path.split(".")
        if steps[0] != "Rattle" or steps[1] not in self.library.crates:
            return Target("std", title=f"{path}.{name}", path=f"{path}.{name}")
        if len(steps) < 4:
            return None
        if steps[3] in ("declared", "contracts"):
            return self.import_of_rust(steps[1:], name)
        file = self.library.antt_file(steps[1], steps[2], steps[3])
        if file is None:
            return None
        if len(steps) > 4:
            owner = self.library.declared(file, steps[4])
            return self.of_constructor(owner, name) if owner is not None else None
        declared = self.library.declared(file, name)
        if declared is not None:
            return self.of_declaration(declared)
        data = [it for it in file.declarations if it.kind == "data" and name in it.fields]
        return self.of_constructor(data[0], name) if data else None

    def import_of_rust(self, steps: list[str], name: str) -> Target | None:
        if steps[-1] in ("TheVariants", "TheConstants"):
            owner = self.library.rust_of(steps[:-1])
            # If the path is that of no type, it is that of a module, which has the constant.
            member = owner.member(name) if owner else self.library.rust_of([*steps[:-1], name])
            return self.of_item(member) if member else None
        item = self.library.rust_of(steps)
        return self.of_item(item) if item else None

    # ---- shapes: what a clause sees of a type
    def shape_of(self, item: Item) -> Shape:
        """The fields that a clause sees of a type's values: those of its model, or its own."""
        model = self.library.model_of(item)
        if model is None:
            fields = item.of_kind("field")
            return {it.name: self.of_item(it) for it in fields}
        value = model.member("Value")
        return self.shape_in(value, model) if value else {}

    def shape_in(self, value: Item, model: Item) -> Shape:
        scope = self.of_block(model)
        clause = value.clauses[0]
        for word in WORD.findall(value.source.text[clause.start : clause.end]):
            target = scope.imported.get(word)
            if target and target.declared and target.declared.kind == "record":
                return self.shape_of_record(target.declared)
        return {}

    def shape_of_record(self, declared: Declaration) -> Shape:
        title = f"of `{declared.name}`: {declared.sentence}"
        return {
            it: Target("field", self.urls.declaration(declared, it), title, declared)
            for it in declared.fields
        }

    def shapes_in(self, item: Item, text: str, owner: Item | None, depth: int = 0) -> list[Shape]:
        """The shapes of the types that are named in the text of a type."""
        found = []
        for word in dict.fromkeys(WORD.findall(text)):
            named = owner if word == "Self" else self.library.find(item.crate, item.module, word)
            if named is None or depth > 3:
                continue
            if named.kind == "type":
                aliased = named.head_text.rpartition(" = ")[2]
                found += self.shapes_in(named, aliased, owner, depth + 1)
            elif named.kind in ("struct", "enum"):
                found.append(self.shape_of(named))
        return [it for it in found if it]

    # ---- scopes
    def of_block(self, item: Item) -> Scope:
        """The scope within an item: its file's imports and those of the blocks around it."""
        scope = Scope(crate=item.crate, module=item.module)
        module = self.library.crates[item.crate].module_of(item)
        self.add_uses(scope, module.ghost_uses)
        chain: list[Item] = []
        at: Item | None = item
        while at is not None:
            chain.insert(0, at)
            at = at.owner
        for block in chain:
            self.add_uses(scope, [parse_use(it.head_text) for it in block.imports])
            self.add_generics(scope, block)
            if block.kind in ("trait", "struct", "enum", "impl"):
                self.add_members(scope, block)
            if block.kind == "impl":
                self.add_self(scope, block)
        return scope

    def add_self(self, scope: Scope, block: Item) -> None:
        """In an implementation a value of the type is seen as its model, except in that of `Model`.
        """
        trait, kind = impl_parts(" ".join(block.head_text.split()))
        if trait != "Model":
            scope.shapes["Self"] = self.shapes_in(block, kind, None)

    def add_generics(self, scope: Scope, block: Item) -> None:
        if block.kind not in ("fn", "impl", "struct", "enum", "trait", "type"):
            return
        for name, bound in generics_of(" ".join(block.head_text.split())).items():
            scope.names[name] = Target("generic", title=bound, path=bound)

    def add_members(self, scope: Scope, block: Item) -> None:
        """Ghosts of a trait and fields of a struct are named alone within it."""
        owner: Item | None = block
        if block.kind == "impl":
            trait = base_name(impl_parts(" ".join(block.head_text.split()))[0])
            owner = self.library.find(block.crate, block.module, trait) if trait else None
        for it in owner.items if owner is not None else []:
            if it.kind in ("ghost", "const", "field") or it.kind == "fn" and owner is block:
                scope.names.setdefault(it.name, self.of_item(it))

    def of_function(self, item: Item) -> Scope:
        scope = self.of_block(item)
        owner = self.self_type(item)
        signature = signature_of(" ".join(item.head_text.split()))
        for name, text in signature.parameters.items():
            scope.names[name] = LOCAL
            scope.shapes[name] = self.shapes_in(item, text, owner)
        scope.names["result"] = LOCAL
        scope.shapes["result"] = self.shapes_in(item, signature.result, owner)
        return scope

    def self_type(self, item: Item) -> Item | None:
        return self.urls.type_of(item.owner) if item.owner is not None else None

    def of_antt(self, file: AnttFile) -> Scope:
        scope = Scope(own=file)
        self.add_uses(scope, file.uses)
        for declared in file.declarations:
            for part in parts_of(declared.name):
                scope.imported[part] = self.of_declaration(declared)
            if declared.kind == "data":
                for name in declared.fields:
                    scope.imported[name] = self.of_constructor(declared, name)
        return scope
