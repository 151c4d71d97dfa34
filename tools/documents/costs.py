"""Checks that each public call whose docstring promises a cost has a row in the table
docs/costs.csv, which `tools/growth` measures, and that each call that the table names exists.
"""
import csv
import re
from collections.abc import Iterator
from dataclasses import dataclass

from documents import signatures
from documents.files import Repository
from documents.lists import OF_THE_LIBRARY, exported, headers

COSTS, FACADE = "docs/costs.csv", "crates/vortex_buffer/src/lib.rt"
SOURCE = re.compile(r"crates/(?:vb_\w+?(?<!_tests)|vortex_buffer)/src/.*\.rt")
PROGRAM = re.compile(r"crates/run_growth/src/\w+\.rt")
OWNER = re.compile(r"impl(?:<.*?>)? (?:.* for )?&?(?:'\w+ )?(?:mut )?(\w+)|pub trait (\w+)")
CALL = re.compile(r"\s*(pub )?fn (\w+)")
NAME = re.compile(r"[\w:]+")
LISTED = re.compile(r'^ +"(\w+) (\w+)",$', re.MULTILINE)
# The words by which a docstring promises a cost.
PROMISE = re.compile(
    r"\bconstant\b|amortized|\blinear in\b|at the cost of|\bcosts (?:as much as|the same as|what)\b"
    r"|\bby words\b|packed by 64|\b(?:a word|four words|64(?: \w+)?|\d+ bytes) at a time|by 64 bits"
    r"|(?:four words|eight) at once|\b[Rr]eads? (?:as|up to|from the end|one or two)\b"
    r"|\bone pass over\b|halves the groups",
    re.IGNORECASE,
)
# Begins the name of a form that tests the lengths and then makes the plain call.
TRIED = "try_"


@dataclass(frozen=True)
class Call:
    """A public call: its type or trait, if it has one, its name, and its docstring."""

    owner: str
    name: str
    said: str

    @property
    def path(self) -> str:
        return f"{self.owner}::{self.name}" if self.owner else self.name


def calls(source: str) -> Iterator[Call]:
    """Yields the public functions and the methods of public traits of a file."""
    owner, is_trait, said = "", False, []
    for line in source.split("\n"):
        text = line.strip()
        if found := OWNER.match(line):
            owner, is_trait = found[1] or found[2], bool(found[2])
        elif line == "}":
            owner, is_trait = "", False
        if text.startswith("///"):
            said.append(text[3:].strip())
            continue
        if (found := CALL.match(line)) and (found[1] or is_trait):
            yield Call(owner, found[2], " ".join(said))
        if not text.startswith("#["):
            said = []


def public_calls(repository: Repository) -> list[Call]:
    """Returns the calls that the top crate re-exports, either themselves or with their type."""
    public = exported(repository.read(FACADE))
    files = [text for path, text in repository.code.items() if SOURCE.fullmatch(path)]
    every = [it for text in files for it in calls(text)]
    return [it for it in every if (it.owner or it.name) in public]


def table(repository: Repository) -> list[dict[str, str]]:
    return list(csv.DictReader(repository.read(COSTS).splitlines()))


def costs(repository: Repository) -> list[str]:
    """Returns the faults of the table: missing calls, and calls and rows that don't exist. A form
    `try_..` shares the row of the plain call."""
    rows = table(repository)
    public = public_calls(repository)
    listed = {name for it in rows for name in it["calls"].split() if NAME.fullmatch(name)}
    found = [
        f"{COSTS}: no row has `{it.path}`, whose docstring says '{PROMISE.search(it.said)[0]}'"
        for it in public
        if PROMISE.search(it.said) and not {it.path, it.path.replace(TRIED, "")} & listed
    ]
    known = {it.path for it in public}
    found += [f"{COSTS}: `{it}` is no public call" for it in sorted(listed - known)]
    programs = [text for path, text in repository.code.items() if PROGRAM.fullmatch(path)]
    made = {it for program in programs for it in LISTED.findall(program)}
    said = {(it["family"], it["row"]) for it in rows if it["family"] not in ("session", "c")}
    found += [f"{COSTS}: no row is `{a} {b}`, which a program has" for a, b in sorted(made - said)]
    found += [f"{COSTS}: no program has `{a} {b}`" for a, b in sorted(said - made)]
    return found


def costs_of_c(repository: Repository) -> list[str]:
    """Returns the functions of C without a row, and rows without a function. A checked form shares
    the row of the plain one."""
    rows = {it["row"] for it in table(repository) if it["family"] == "c"}
    texts = [repository.read(it) for it in headers(repository)]
    declared = {name for it in texts for name in signatures.of_header(it)} - OF_THE_LIBRARY
    plain = {it for it in declared if not it.startswith("vb_try_")}
    known = {it.removeprefix("vb_") for it in plain}
    found = [f"{COSTS}: no row is `c {it}`, a function of C" for it in sorted(known - rows)]
    others = {it for it in rows - known if it.removeprefix("far_") not in known}
    return found + [f"{COSTS}: `c {it}` is no function of C" for it in sorted(others)]
