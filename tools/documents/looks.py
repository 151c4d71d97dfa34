"""Checks that each call over a counted source keeps the bound on looks, `len / 512 + 16`. It
compares the table under "Looks" of docs/PROMISES.md with the contracts.

A row names calls, a source, the clause with the number of looks at it, and the bound of that
number: 16 in all, clauses of the call itself, or clauses of `most_looks`.
"""
import re
from dataclasses import dataclass

from documents.files import Repository
from documents.lists import exported

PROMISES, HEADING = "docs/PROMISES.md", "### Looks"
FACADE = "crates/vortex_buffer/src/lib.rt"
SOURCE = re.compile(r"crates/(?!use_)\w+?(?<!_tests)/src/")
FUNCTION = re.compile(r"^ *pub fn (\w+)([<(].*?)^ *\{", re.MULTILINE | re.DOTALL)
CLAUSE = re.compile(r"ensures (\w+) \{ (.*?) \}(?=\s*(?:ensures|requires|$))", re.DOTALL)
KIND = re.compile(r"(\w+): (?:\w+ \+ )*Glance\b")
PARAMETER = re.compile(r"(\w+): &mut (?:impl )?(\w+)")
NAME = re.compile(r"`(\w+)`")
MOST = "most_looks"
# The looks of a window, or of a part of it with at most `len` bits.
OF_PART = re.compile(r"looks (?:\w+|\(\w+ \+ \w+\)) (?:len|\(len - \w+\)|\(min len \w+\))")
# The clauses that bound a number of looks: those of a call, and those of `most_looks`.
BOUNDS = {"most": "{} ≤ len / 512 + 16", "short": "len ≤ 512 → {} ≤ 16"}
OF_MOST = {
    "value": "result ≡ len / 512 + 16",
    "most": "(offset : ℕ) → looks offset len ≤ result",
    "short": "len ≤ 512 → (offset : ℕ) → looks offset len ≤ 16",
}


@dataclass(frozen=True)
class Row:
    """A row of the table for one of its calls."""

    call: str
    source: str
    clause: str
    bound: str


def rows(text: str) -> list[Row]:
    """Returns the rows of the table, one for each call."""
    _, _, below = text.partition(f"\n{HEADING}\n")
    lines = [it for it in re.split(r"\n#", below)[0].split("\n") if it.startswith("| `")]
    cells = [[cell.strip() for cell in it.strip("|").split("|")] for it in lines]
    return [
        Row(call, source.strip("`"), clause.strip("`"), bound)
        for calls, source, clause, bound in cells
        for call in NAME.findall(calls)
    ]


def clauses(contract: str) -> dict[str, str]:
    return {name: " ".join(text.split()) for name, text in CLAUSE.findall(contract.rstrip())}


def functions(repository: Repository) -> dict[str, str]:
    """Returns the public functions of the crates, with their parameters and contracts."""
    sources = [text for path, text in repository.code.items() if SOURCE.match(path)]
    return {name: rest for text in sources for name, rest in FUNCTION.findall(text)}


def sources(contract: str) -> list[str]:
    """Returns the parameters that are counted sources."""
    kinds = {*KIND.findall(contract), "Glance"}
    return [name for name, kind in PARAMETER.findall(contract) if kind in kinds]


def unbounded(row: Row, contract: str, most: dict[str, str]) -> str | None:
    """Returns why the bound doesn't follow from the clauses of the row; None if it does."""
    own = clauses(contract)
    said = rf"Looks(?:Exactly|AtMost) (\w+|\(.*?\)) \(\w+\.seen {row.source}\.old\) .*"
    counted = re.fullmatch(said, own.get(row.clause, ""))
    if counted is None:
        return f"has no clause `{row.clause}` with the looks at `{row.source}`"
    number, of_most = re.sub(r"^\((.*)\)$", r"\1", counted[1]), f"`{MOST}`" in row.bound
    if number.isdigit():
        return None if int(number) <= 16 and row.bound == "16" else f"takes {number} looks"
    if of_most and OF_PART.fullmatch(number) is None:
        return f"takes `{number}` looks, of which `{MOST}` says nothing"
    wanted = OF_MOST if of_most else {name: it.format(number) for name, it in BOUNDS.items()}
    named = {*NAME.findall(row.bound)} - {MOST}
    if "most" not in named:
        return f"has no bound on the looks at `{row.source}`"
    given = most if of_most else own
    wrong = [it for it in wanted if it in {*named, "value"} and given.get(it) != wanted[it]]
    return f"isn't bounded: `{wrong[0]}` isn't `{wanted[wrong[0]]}`" if wrong else None


def looks(repository: Repository) -> list[str]:
    """Returns the faults of the table: missing calls over counted sources, and rows that don't
    hold."""
    known, public = functions(repository), exported(repository.read(FACADE))
    most = clauses(known.get(MOST, ""))
    asked = {
        (name, source)
        for name, contract in known.items() if name.endswith("_by") or name in public
        for source in sources(contract)
    }
    listed = rows(repository.read(PROMISES))
    found = [
        f"{PROMISES}: no row of {HEADING} has `{name}` with its source `{source}`"
        for name, source in sorted(asked - {(it.call, it.source) for it in listed})
    ]
    for it in listed:
        if (it.call, it.source) not in asked:
            found.append(f"{PROMISES}: `{it.call}` has no counted source `{it.source}`")
        elif why := unbounded(it, known[it.call], most):
            found.append(f"{PROMISES}: `{it.call}` {why}")
    return found
