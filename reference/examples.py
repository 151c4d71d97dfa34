"""Calls in tests and in the crates that show how to use the library: each is an example, proved."""
from dataclasses import dataclass

from reference.library import Library
from reference.rust_heads import base_name, generics_of, group_end, signature_of, split_top
from reference.rust_items import Item

UNWRAPS = {"expect", "unwrap", "unwrap_or", "ok_or", "ok", "map_err"}
MOST_LINES = 32


@dataclass
class Type:
    """The text of a type, with the item in which it is written."""

    text: str
    item: Item

    def inner(self) -> "Type | None":
        """What `?` makes of it: the first type in brackets."""
        start = self.text.find("<")
        if start < 0:
            return None
        parts = split_top(self.text[start + 1 : group_end(self.text, start) - 1], ",")
        return Type(parts[0], self.item) if parts else None


@dataclass
class Call:
    """A call of a public item: what is called, by which function, and in which line."""

    called: Item
    caller: Item
    line: int


class Reader:
    """Reads the calls in one function, following the types of its variables."""

    def __init__(self, finder: "Examples", caller: Item) -> None:
        self.finder, self.library, self.caller = finder, finder.library, caller
        self.types: dict[str, Type] = {}
        self.bounds = {**self.generics(caller.owner), **self.generics(caller)}
        for name, text in signature_of(" ".join(caller.head_text.split())).parameters.items():
            self.types[name] = Type(text, caller)
        start, end = caller.body or (0, 0)
        self.tokens = [
            it for it in caller.source.tokens
            if start <= it.start < end and it.kind not in ("comment", "doc")
        ]

    def generics(self, item: Item | None) -> dict[str, str]:
        return generics_of(" ".join(item.head_text.split())) if item is not None else {}

    def calls(self) -> list[Call]:
        found = []
        for i, token in enumerate(self.tokens):
            if token.text == "let":
                self.let(i)
            if token.kind == "word" and self.opens_call(i + 1):
                called = self.called(i)
                if called is not None:
                    found.append(Call(called, self.caller, self.caller.source.line(token.start)))
        return found

    def text(self, i: int) -> str:
        return self.tokens[i].text if 0 <= i < len(self.tokens) else ""

    def opens_call(self, i: int) -> bool:
        if self.text(i) == "::" and self.text(i + 1) == "<":
            i = self.behind_angles(i + 1)
        return self.text(i) == "("

    def behind_angles(self, i: int) -> int:
        depth = 0
        while i < len(self.tokens):
            depth += {"<": 1, ">": -1}.get(self.text(i), 0)
            i += 1
            if depth == 0:
                break
        return i

    # ---- variables
    def let(self, i: int) -> None:
        """Keeps the type of `let x = ..;`, if it can be found."""
        i += 1
        wraps = self.text(i) in ("Some", "Ok")
        if wraps:
            i += 2
        if self.text(i) == "mut":
            i += 1
        name = self.text(i)
        if not name.isidentifier():
            return
        if self.text(i + 1) == ":":
            end = self.statement_end(i + 2, "=")
            start = self.tokens[i + 2].start
            written = self.caller.source.text[start : self.tokens[end - 1].end]
            self.types[name] = Type(written, self.caller)
            return
        end = self.statement_end(i + 1, "{" if wraps else ";", "else")
        kind = self.type_before(end)
        if kind is not None and wraps:
            kind = kind.inner()
        if kind is None:
            self.types.pop(name, None)
        else:
            self.types[name] = kind

    def statement_end(self, i: int, *stops: str) -> int:
        depth = 0
        while i < len(self.tokens):
            text = self.text(i)
            if depth == 0 and text in stops:
                return i
            depth += {"(": 1, "[": 1, "{": 1, ")": -1, "]": -1, "}": -1}.get(text, 0)
            i += 1
        return i

    # ---- types of expressions
    def type_before(self, i: int) -> Type | None:
        """The type of the expression that ends before token `i`."""
        last = self.text(i - 1)
        if last == "?":
            kind = self.type_before(i - 1)
            return kind.inner() if kind else None
        if last == ")":
            return self.type_of_call(self.opening(i - 1))
        if last.isidentifier() and self.text(i - 2) not in (".", "::"):
            return self.types.get(last)
        return None

    def opening(self, i: int) -> int:
        depth = 0
        while i >= 0:
            depth += {")": 1, "]": 1, "}": 1, "(": -1, "[": -1, "{": -1}.get(self.text(i), 0)
            if depth == 0:
                return i
            i -= 1
        return 0

    def name_before(self, i: int) -> int:
        """The token of the name that is called by the bracket at `i`, before any `::<..>`."""
        if self.text(i - 1) != ">":
            return i - 1
        depth, i = 0, i - 1
        while i >= 0:
            depth += {">": 1, "<": -1}.get(self.text(i), 0)
            if depth == 0:
                return i - 2
            i -= 1
        return -1

    def type_of_call(self, i: int) -> Type | None:
        at = self.name_before(i)
        if at < 0 or self.tokens[at].kind != "word":
            return None
        called = self.called(at, private=True)
        if called is None:
            if self.text(at) in UNWRAPS and self.text(at - 1) == ".":
                kind = self.type_before(at - 1)
                return kind if self.text(at) == "map_err" or not kind else kind.inner()
            return None
        result = signature_of(" ".join(called.head_text.split())).result
        if "Self" in result and called.owner is not None and called.owner.kind == "trait":
            return self.type_before(at - 1) if self.text(at - 1) == "." else None
        return Type(result, called)

    # ---- what is called
    def called(self, i: int, private: bool = False) -> Item | None:
        name = self.text(i)
        if self.text(i - 1) == ".":
            kind = self.type_before(i - 1)
            found = self.method(kind, name) if kind else None
        elif self.text(i - 1) == "::":
            found = self.by_path(i)
        else:
            found = self.library.find(self.caller.crate, self.caller.module, name)
        if found is None or found.kind != "fn":
            return None
        return found if private or id(found) in self.finder.wanted else None

    def by_path(self, i: int) -> Item | None:
        at = self.name_before(i - 1) if self.text(i - 2) == ">" else i - 2
        front, name = self.text(at), self.text(i)
        if front == "Self":
            owner = self.finder.self_type(self.caller)
        else:
            owner = self.library.find(self.caller.crate, self.caller.module, front)
        if owner is None and front in self.library.crates:
            return self.library.find(front, (), name)
        return self.finder.method_of(owner, name) if owner is not None else None

    def method(self, kind: Type, name: str) -> Item | None:
        base = base_name(kind.text)
        if base == "Self":
            owner = self.finder.self_type(kind.item)
        elif base in self.bounds and kind.item is self.caller:
            return self.of_bound(self.bounds[base], name)
        else:
            owner = self.library.find(kind.item.crate, kind.item.module, base)
        return self.finder.method_of(owner, name) if owner is not None else None

    def of_bound(self, bounds: str, name: str) -> Item | None:
        for bound in bounds.split("+"):
            trait = self.library.find(self.caller.crate, self.caller.module, base_name(bound))
            if trait is not None and trait.kind == "trait" and trait.member(name):
                return trait.member(name)
        return None


class Examples:
    """For each public item the shortest test or example that calls it, else a helper of tests."""

    def __init__(self, library: Library, wanted: list[Item]) -> None:
        self.library = library
        self.wanted = {id(it) for it in wanted}
        self.methods: dict[int, dict[str, Item]] = {}
        self.best: dict[int, Call] = {}
        for crate in library.crates.values():
            for item in crate.all_items():
                self.read(item, crate.is_example)

    def read(self, item: Item, is_example: bool) -> None:
        is_shown = item.is_test or is_example or item.crate.endswith("_tests")
        if item.kind == "fn" and item.body and is_shown:
            for call in Reader(self, item).calls():
                self.take(call)
        for it in item.items if item.kind in ("mod", "impl", "trait") else []:
            self.read(it, is_example)

    def take(self, call: Call) -> None:
        before = self.best.get(id(call.called))
        if before is None or self.rank(call) < self.rank(before):
            self.best[id(call.called)] = call

    def rank(self, call: Call) -> tuple[bool, int]:
        caller = call.caller
        lines = caller.source.line(caller.end) - caller.line
        return (not (caller.is_test or caller.crate.startswith("use_")), lines)

    def self_type(self, item: Item) -> Item | None:
        owner = item.owner
        if owner is None or owner.kind != "impl":
            return owner
        return next((of for it, _, _, _, of in self.library.impls if it is owner), None)

    def method_of(self, owner: Item, name: str) -> Item | None:
        if owner.kind == "type":
            aliased = base_name(owner.head_text.rpartition(" = ")[2])
            other = self.library.find(owner.crate, owner.module, aliased)
            return self.method_of(other, name) if other not in (None, owner) else None
        if owner.kind == "trait":
            return owner.member(name)
        if id(owner) not in self.methods:
            self.methods[id(owner)] = self.methods_of(owner)
        return self.methods[id(owner)].get(name)

    def methods_of(self, owner: Item) -> dict[str, Item]:
        """The methods of a type by name, as a call finds them: its own before those of traits.

        The implementations of traits for references to the type are left out.
        """
        of_type = [it for it in self.library.impls if it[4] is owner and not it[2].startswith("&")]
        found: dict[str, Item] = {}
        for impl, trait, _, which, _ in sorted(of_type, key=lambda it: it[1] != ""):
            for it in (which or impl).of_kind("fn"):
                found.setdefault(it.name, it)
        return found
