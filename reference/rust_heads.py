"""What the head of an item says: its generics, an implementation's trait and type, the names that a
`use` brings in."""
import re
from dataclasses import dataclass

WORD = re.compile(r"[A-Za-z_]\w*")
OPENS = re.compile(
    r"(?:pub(?:\([^)]*\))? )?[^(=:{]*?\b(?:fn|struct|enum|trait|type|impl)\b\s*\w*<"
)
LIFETIME = re.compile(r"'[a-z_]\w*")


def split_top(text: str, mark: str) -> list[str]:
    """The parts of a text between the marks outside of brackets."""
    parts, depth, start = [], 0, 0
    for i, it in enumerate(text):
        if it in "([{<":
            depth += 1
        elif it in ")]}" or (it == ">" and text[i - 1 : i] != "-"):
            depth -= 1
        elif it == mark and depth == 0:
            parts.append(text[start:i])
            start = i + 1
    return [it.strip() for it in [*parts, text[start:]] if it.strip()]


def group_end(text: str, start: int) -> int:
    """The index after the group of brackets that opens at `start`."""
    depth = 0
    for i in range(start, len(text)):
        if text[i] in "([{<":
            depth += 1
        elif text[i] in ")]}" or (text[i] == ">" and text[i - 1] != "-"):
            depth -= 1
            if depth == 0:
                return i + 1
    return len(text)


def generics_of(head: str) -> dict[str, str]:
    """The generic names of a head with their bounds; those of lifetimes are left out."""
    found = {}
    opens = OPENS.match(head)
    if opens:
        start = opens.end() - 1
        for it in split_top(head[start + 1 : group_end(head, start) - 1], ","):
            name, _, bound = it.removeprefix("const ").partition(":")
            if not name.startswith("'"):
                found[name.split("=")[0].strip()] = bound.split("=")[0].strip()
    for name, bound in re.findall(r"(\w+): ([^,{]+)", head.partition(" where ")[2]):
        found[name] = bound
    return found


@dataclass
class Signature:
    """The parameters of a function with the text of their types, and that of its result."""

    parameters: dict[str, str]
    result: str


def signature_of(head: str) -> Signature:
    start = re.search(r"\bfn \w+", head)
    if start is None:
        return Signature({}, "")
    at = start.end()
    if head[at : at + 1] == "<":
        at = group_end(head, at)
    end = group_end(head, at)
    parameters = {}
    for it in split_top(head[at + 1 : end - 1], ","):
        name, colon, kind = it.partition(":")
        name = name.strip().removeprefix("mut ")
        if not colon:
            parameters["self"] = "Self"
        else:
            parameters[name] = kind.strip()
    _, arrow, result = head[end:].partition("->")
    return Signature(parameters, result.partition(" where ")[0].strip() if arrow else "")


def without_lifetimes(text: str) -> str:
    return LIFETIME.sub("", text).strip()


def impl_parts(head: str) -> tuple[str, str]:
    """The trait of an implementation, or nothing, and its type."""
    rest = head.removeprefix("unsafe ").removeprefix("impl")
    if rest.startswith("<"):
        rest = rest[group_end(rest, 0) :]
    rest = rest.strip().partition(" where ")[0]
    depth = 0
    for i, it in enumerate(rest):
        depth += {"<": 1, "(": 1, "[": 1, ">": -1, ")": -1, "]": -1}.get(it, 0)
        if depth == 0 and rest.startswith(" for ", i):
            return rest[:i].strip(), rest[i + 5 :].strip()
    return "", rest


def base_name(type_text: str) -> str:
    """The first name of a type, behind `&` and `mut`: of `&'a mut Buffer<T>` it is `Buffer`."""
    text = without_lifetimes(type_text).lstrip("&( ").strip().removeprefix("mut ")
    found = re.match(r"[\w:]+", text)
    return found.group().split("::")[-1] if found else ""


def use_names(text: str) -> dict[str, tuple[str, ...]]:
    """The names that a `use` brings in, each with its path."""
    tree = re.sub(r"^(?:pub(?:\([^)]*\))? )?use ", "", text.strip()).rstrip(";")
    return dict(tree_names(" ".join(tree.split()), ()))


def tree_names(tree: str, prefix: tuple[str, ...]) -> list[tuple[str, tuple[str, ...]]]:
    head, brace, listed = tree.partition("{")
    if brace:
        inner = (*prefix, *(it for it in head.strip().split("::") if it))
        parts = split_top(listed.rstrip().rstrip("}"), ",")
        return [found for it in parts for found in tree_names(it, inner)]
    path, _, alias = tree.partition(" as ")
    steps = (*prefix, *path.strip().split("::"))
    if steps[-1] == "self":
        steps = steps[:-1]
    return [(alias.strip() or steps[-1], steps)]
