"""Text as HTML: code of Rust with its words marked, and definitions with theirs linked."""
from html import escape
from typing import Callable, Iterable

from reference.antt_text import KEYWORDS
from reference.links import Linked
from reference.rust_text import Source, Token

RUST_KEYWORDS = set(
    "as async await break const continue crate dyn else enum extern fn for if impl in let loop "
    "match mod move mut pub ref return self Self static struct super trait type unsafe use where "
    "while requires ensures ghost by".split()
)
PRIMITIVES = set(
    "bool char str u8 u16 u32 u64 u128 usize i8 i16 i32 i64 i128 isize f32 f64".split()
)


def tag(name: str, content: str, **attributes: str) -> str:
    """An element; an attribute `class_` is written `class`. The content is HTML already."""
    written = "".join(
        f' {key.rstrip("_").replace("_", "-")}="{escape(value)}"'
        for key, value in attributes.items()
        if value
    )
    return f"<{name}{written}>{content}</{name}>"


def name_html(name: str) -> str:
    """A name as HTML. A browser may break it after an underscore only."""
    return escape(name).replace("_", "_<wbr>")


def rust_class(token: Token) -> str:
    if token.kind == "word":
        if token.text in RUST_KEYWORDS:
            return "kw"
        if token.text in PRIMITIVES or token.text[0].isupper():
            return "ty"
        return ""
    kinds = {"string": "st", "number": "nu", "lifetime": "li", "comment": "co", "doc": "co"}
    return kinds.get(token.kind, "")


Link = Callable[[str], tuple[str, str]]


def no_link(_: str) -> tuple[str, str]:
    return "", ""


def rust_html(text: str, link: Link = no_link) -> str:
    """Code, whose names lead where `link` says: to an address with a title."""
    parts, at = [], 0
    for token in Source("", text).tokens:
        parts.append(escape(text[at : token.start], quote=False))
        parts.append(token_html(token, link))
        at = token.end
    return "".join(parts) + escape(text[at:], quote=False)


def token_html(token: Token, link: Link) -> str:
    body, kind = escape(token.text, quote=False), rust_class(token)
    if token.kind == "word" and kind != "kw":
        url, title = link(token.text)
        if url:
            return tag("a", body, class_=kind, href=url, title=title)
    return tag("span", body, class_=kind) if kind else body


def rust_lines(source: Source) -> list[str]:
    """The lines of a file, each as complete HTML."""
    text, parts, at = source.text, [], 0
    for token in source.tokens:
        parts.append(escape(text[at : token.start], quote=False))
        kind, at = rust_class(token), token.end
        lines = escape(token.text, quote=False).split("\n")
        parts.append("\n".join(tag("span", it, class_=kind) if kind else it for it in lines))
    return "".join([*parts, escape(text[at:], quote=False)]).rstrip("\n").split("\n")


def linked_html(linked: Iterable[Linked], href: Callable[[str], str]) -> str:
    """A clause or a definition, each word as a link to what it names, or with a title."""
    return "".join(word_html(it, href) for it in linked)


def word_html(linked: Linked, href: Callable[[str], str]) -> str:
    word, target = linked.word, linked.target
    body = escape(word.text, quote=False)
    if linked.anchor or linked.is_own:
        return tag("span", body, class_="me", id=linked.anchor)
    if target is None:
        if word.kind == "keyword" and word.text in KEYWORDS:
            return tag("span", body, class_="kw")
        kinds = {"number": "nu", "string": "st", "comment": "co", "rust": "ty"}
        return tag("span", body, class_=kinds[word.kind]) if word.kind in kinds else body
    if target.url:
        kind = "de" if target.kind in ("definition", "lemma", "field", "ghost") else "ty"
        return tag("a", body, class_=kind, href=href(target.url), title=target.title)
    if target.kind in ("std", "builtin", "module", "generic") and target.title:
        kind = {"std": "std", "generic": "ge"}.get(target.kind, "bu")
        if kind == "std" and not word.text[0].isalpha():
            kind = "sign"
        return tag("span", body, class_=kind, title=target.title)
    return body
