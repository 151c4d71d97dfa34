"""The text of definitions and of clauses as tokens: names, numbers, brackets and signs."""
import re
from dataclasses import dataclass

KEYWORDS = {
    "abbrev", "pub", "unfoldable", "record", "data", "where", "use", "mod", "module", "let", "in",
    "infixl", "infixr", "infix", "unfolding", "ruleset", "as", "case", "of", "do", "λ", "→", "←",
    "=", ":", "∀",
}
TOKEN = re.compile(
    r"""(?P<comment>--(?=\s|$)[^\n]*)
      | (?P<space>\s+)
      | (?P<string>"(?:\\.|[^"\\])*")
      | (?P<name>\[\])
      | (?P<rust>⟦[^⟧]*⟧)
      | (?P<bracket>[(){}\[\]])
      | (?P<stop>[;,])
      | (?P<sign>λ)
      | (?P<dot>\.)
      | (?P<chunk>[^\s(){}\[\]⟦;,.λ]+)""",
    re.VERBOSE,
)


@dataclass(frozen=True)
class Word:
    """A token; `kind` is comment, space, string, rust, bracket, stop, dot, keyword, number or
    name."""

    kind: str
    text: str
    start: int


def kind_of(chunk: str) -> str:
    if chunk in KEYWORDS:
        return "keyword"
    return "number" if chunk[0].isdigit() else "name"


def words_of(text: str) -> list[Word]:
    found = []
    for it in TOKEN.finditer(text):
        kind = it.lastgroup or ""
        if kind in ("chunk", "sign"):
            kind = kind_of(it.group())
        found.append(Word(kind, it.group(), it.start()))
    return found


def parts_of(name: str) -> list[str]:
    """The parts of a name between its arguments: `≡` for `◌≡◌`, three words for `if◌then◌else◌`."""
    return [it for it in name.split("◌") if it] if "◌" in name else [name]
