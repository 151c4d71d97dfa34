"""Each word of a clause or of a definition, with what it means."""
from dataclasses import dataclass
from typing import Iterator

from reference.antt_items import Declaration
from reference.antt_text import Word, words_of
from reference.library import Library
from reference.scopes import BUILTINS, LOCAL, PRELUDE, Scope, Scopes, Shape, Target

PASSED = {"now", "old", "new", "entry", "exit"}  # states of a lent value, and of a parameter


@dataclass
class Linked:
    """A word with what it means, and its own anchor, if it declares something."""

    word: Word
    target: Target | None = None
    anchor: str = ""
    is_own: bool = False


@dataclass
class Binding:
    """A name that is bound until its brackets close, with its shapes if it is the value in
    `result`."""

    depth: int
    name: str
    shapes: list[Shape] | None = None


class Linker:
    """Goes through the words of one text. What it can't place is in `unknown`."""

    def __init__(self, library: Library, scopes: Scopes, scope: Scope) -> None:
        self.library, self.scopes, self.scope = library, scopes, scope
        self.words: list[Word] = []
        self.bound: list[Binding] = []
        self.unknown: list[Word] = []
        self.members: set[str] = set()
        self.declared: Declaration | None = None

    # ---- entries
    def clause(self, text: str) -> list[Linked]:
        self.words, self.bound = words_of(text), []
        return list(self.run())

    def declaration(self, declared: Declaration) -> tuple[list[Linked], list[Linked]]:
        """The words of the module around a declaration, and its own."""
        self.declared = declared
        self.members = set(declared.fields)
        self.words, self.bound = words_of(declared.module), []
        header = list(self.run())
        self.words = words_of(declared.text)
        return header, list(self.run())

    # ---- the walk
    def run(self) -> Iterator[Linked]:
        depth, i = 0, 0
        while i < len(self.words):
            word = self.words[i]
            if word.kind == "bracket":
                if word.text in "({[":
                    self.binders(i, depth)
                    depth += 1
                else:
                    depth -= 1
                    self.bound = [it for it in self.bound if it.depth <= depth]
            if word.kind == "space" and "\n" in word.text:
                self.drawn(i + 1, depth)
                if word.text.endswith("\n"):
                    self.equation(i + 1, depth)
            if word.text == "λ":
                self.lambda_names(i + 1, depth)
            if word.text == "let" and self.next_name(i + 1):
                self.bind(self.next_name(i + 1), depth)
            if word.kind != "name":
                yield Linked(word)
                i += 1
                if word.text in (")", "}") or word.kind == "rust":
                    at = self.rust_trait(word) if word.kind == "rust" else None
                    for linked in self.fields(i, at, self.all_shapes()):
                        yield linked
                        i += 1
                continue
            for linked in self.chain(i):
                yield linked
                i += 1

    def bind(self, name: str, depth: int, shapes: list[Shape] | None = None) -> None:
        self.bound.append(Binding(depth, name, shapes))

    def next_name(self, i: int) -> str:
        while i < len(self.words) and self.words[i].kind == "space":
            i += 1
        return self.words[i].text if i < len(self.words) and self.words[i].kind == "name" else ""

    def binders(self, i: int, depth: int) -> None:
        """Binds `a` and `b` of `(a b : T)`, for what follows in the same brackets."""
        names = []
        for word in self.words[i + 1 :]:
            if word.kind == "name":
                names.append(word.text)
            elif word.text == ":":
                for name in names:
                    self.bind(name, depth)
                return
            elif word.kind != "space":
                return

    def lambda_names(self, i: int, depth: int) -> None:
        shapes = self.shapes_beside(i - 1)
        for word in self.words[i:]:
            if word.kind == "name":
                self.bind(word.text, depth, shapes)
            elif word.kind == "dot":
                return

    def shapes_beside(self, i: int) -> list[Shape] | None:
        """The shapes of the value that is passed to the `λ` at `i`: those of `result` in
        `IfOk result (λ s. ..)`."""
        words = [it for it in self.words[:i] if it.kind != "space"]
        if not words or words[-1].text != "(":
            return None
        before = words[-2].text if len(words) > 1 else ""
        if before == "result":
            return self.scope.shapes.get("result")
        depth, rest = 1, [it for it in self.words[i + 1 :] if it.kind != "space"]
        for j, word in enumerate(rest):
            depth += {"(": 1, ")": -1}.get(word.text, 0)
            if depth == 0:
                behind = rest[j + 1].text if j + 1 < len(rest) else ""
                return self.scope.shapes.get("result") if behind == "result" else None
        return None

    def drawn(self, i: int, depth: int) -> None:
        """Binds the names before `←` in a line of `do`."""
        names = []
        for word in self.words[i:]:
            if word.text == "←":
                for name in names:
                    self.bind(name, depth)
                return
            if word.kind == "name":
                names.append(word.text)
            elif word.kind not in ("bracket", "stop") and word.text != " ":
                return

    def equation(self, i: int, depth: int) -> None:
        """At the start of a line of a definition: binds the names of its patterns."""
        if self.declared is None or depth or self.declared.kind in ("record", "data"):
            return
        self.bound = [it for it in self.bound if it.depth < 0] + [
            it for it in self.bound if it.name in self.module_names()
        ]
        own, inner = self.own_parts(), 0
        for word in self.words[i:]:
            inner += {"(": 1, "{": 1, ")": -1, "}": -1}.get(word.text, 0)
            if word.text in ("=", ":") and inner == 0:
                return
            if word.kind == "name" and word.text not in own and self.lookup(word.text) is None:
                self.bind(word.text, depth)

    def module_names(self) -> set[str]:
        assert self.declared is not None
        words = words_of(self.declared.module)
        return {it.text for it in words if it.kind == "name" and it.text != "_"}

    def own_parts(self) -> set[str]:
        assert self.declared is not None
        return set(self.declared.name.split("◌")) | {self.declared.name}

    # ---- names
    def chain(self, i: int) -> list[Linked]:
        """A name with the fields behind it, as `self.now.bits`."""
        root = self.root(i)
        shapes = self.shapes_of(self.words[i].text)
        return [root, *self.fields(i + 1, root.target, shapes)]

    def fields(self, i: int, at: Target | None, shapes: list[Shape]) -> list[Linked]:
        """The fields from the dot at `i` on."""
        found = []
        while self.is_field(i):
            dot, word = self.words[i], self.words[i + 1]
            is_passed = word.kind == "number" or word.text in PASSED
            at = at if is_passed else self.field(at, word.text, shapes)
            found += [Linked(dot), Linked(word, None if is_passed else at)]
            i += 2
        return found

    def is_field(self, i: int) -> bool:
        words = self.words
        return (
            i + 1 < len(words)
            and words[i].kind == "dot"
            and words[i + 1].kind in ("name", "number", "keyword")
            and not words[i + 1].text.startswith(("→", "="))
        )

    def root(self, i: int) -> Linked:
        word = self.words[i]
        if self.declared is not None and self.declares(i):
            return Linked(word, LOCAL, self.anchor(word.text), is_own=True)
        if self.is_label(i):
            return Linked(word, self.unique_field(word.text, self.all_shapes()) or Target("field"))
        # An operator as an argument, as `◌+◌` in `fold ◌+◌ 0 l`, is also known without its `◌`.
        target = self.lookup(word.text) or self.lookup(word.text.strip("◌"))
        if target is None:
            self.unknown.append(word)
        is_own = self.declared is not None and target is not None and (
            target.declared is self.declared and target.path == self.declared.name
        )
        return Linked(word, target, is_own=is_own)

    def next_mark(self, i: int) -> str:
        i += 1
        while i < len(self.words) and self.words[i].kind == "space":
            i += 1
        return self.words[i].text if i < len(self.words) else ""

    def declares(self, i: int) -> bool:
        """Whether a member of a record or of data is declared here, or the name itself."""
        name, at = self.words[i].text, self.words[i].start
        assert self.declared is not None
        before = self.declared.text[:at].rsplit("\n", 1)[-1].strip()
        if self.declared.kind in ("record", "data") and name in self.members:
            if before in ("", "pub") and self.next_mark(i) == ":":
                self.bound.append(Binding(0, name))
                return True
        return before.split(" ")[-1:] in (["pub"], ["abbrev"], ["record"], ["data"]) and (
            name == self.declared.name
        )

    def anchor(self, name: str) -> str:
        assert self.declared is not None
        return "" if name == self.declared.name else f"{self.declared.name}.{name}"

    def is_label(self, i: int) -> bool:
        """Whether it names a field in `record { name = .. }`, or in `record { name : .. }`."""
        mark = self.next_mark(i)
        if mark not in ("=", ":"):
            return False
        depth = 0
        for j in range(i - 1, -1, -1):
            text = self.words[j].text
            if text in ")}":
                depth += 1
            elif text in "({":
                if depth == 0:
                    return text == "{" and (mark == "=" or self.opens_record(j))
                depth -= 1
        return False

    def opens_record(self, i: int) -> bool:
        """Whether the brace at `i` is that of `record { .. }` or `record x.y { .. }`."""
        for word in reversed(self.words[:i]):
            if word.text == "record":
                return True
            if word.kind not in ("space", "name", "dot"):
                return False
        return False

    def lookup(self, name: str) -> Target | None:
        if any(it.name == name for it in self.bound):
            return LOCAL
        for names in (self.scope.names, self.scope.imported):
            if name in names:
                return names[name]
        if name in self.scope.aliases:
            return Target("module", path=self.scope.aliases[name], title=self.scope.aliases[name])
        if name == "Self":
            return Target("generic", title="the type itself")
        if self.scope.crate:
            item = self.library.find(self.scope.crate, self.scope.module, name)
            if item is not None:
                return self.scopes.of_item(item)
            path = self.library.outside(self.scope.crate, self.scope.module, name)
            if path:
                return Target("std", title=path)
        if name in BUILTINS:
            return Target("builtin", title=BUILTINS[name])
        return Target("std", title=f"std's {name}") if name in PRELUDE else None

    def rust_trait(self, word: Word) -> Target | None:
        """The trait of `⟦<T as Trait>⟧`."""
        name = word.text.rstrip("⟧>").split()[-1]
        item = self.library.find(self.scope.crate, self.scope.module, name)
        return self.scopes.of_item(item) if item is not None else None

    # ---- fields
    def shapes_of(self, name: str) -> list[Shape]:
        for it in reversed(self.bound):
            if it.name == name:
                return it.shapes or self.all_shapes()
        return self.scope.shapes.get(name) or self.all_shapes()

    def all_shapes(self) -> list[Shape]:
        found = [shape for shapes in self.scope.shapes.values() for shape in shapes]
        return found or self.imported_shapes()

    def imported_shapes(self) -> list[Shape]:
        found = []
        for target in self.scope.imported.values():
            if target.declared is not None and target.declared.kind == "record":
                found.append(self.scopes.shape_of_record(target.declared))
            elif target.item is not None and target.item.kind == "struct":
                found.append(self.scopes.shape_of(target.item))
        return found

    def unique_field(self, name: str, shapes: list[Shape]) -> Target | None:
        found = {shape[name] for shape in shapes if name in shape}
        return found.pop() if len(found) == 1 else None

    def field(self, at: Target | None, name: str, shapes: list[Shape]) -> Target | None:
        if at is not None and at.kind == "module":
            return self.scopes.import_of(at.path, name)
        if at is not None and at.kind == "generic":
            return self.of_generic(at, name)
        if at is not None and at.item is not None and at.item.kind in ("enum", "trait"):
            member = at.item.member(name)
            return self.scopes.of_item(member) if member else Target("field")
        if not any(name in it for it in shapes):
            shapes = self.imported_shapes()
        return self.unique_field(name, shapes) or Target("field")

    def of_generic(self, at: Target, name: str) -> Target:
        """What a bound of a generic type says: a ghost of a trait, or what std has."""
        for bound in at.path.replace("+", " ").split():
            trait = self.library.find(self.scope.crate, self.scope.module, bound.split("<")[0])
            member = trait.member(name) if trait is not None else None
            if member is not None:
                return self.scopes.of_item(member)
        own = self.scope.names.get(name)
        if own is not None and own.item is not None:
            return own
        return Target("std", title=f"of {at.path or 'the type'}")
