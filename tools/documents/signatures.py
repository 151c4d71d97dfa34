"""The C functions with their parameters: in the crate, in the header, and in the table by which the
Rust crate calls them. A slice of the crate is a pointer and a number of items in the two others.
The header and the table have the same names and types.
"""
import re
from dataclasses import dataclass

from families.types import FLOATS, OPTIONAL, SIGNED, UNSIGNED

OF_NUMBERS = {it.c: it.crossing for it in [*UNSIGNED, *SIGNED, *FLOATS] if it.c}
MISSING = {f"vb_optional_{it}": f"Optional{it.camel}" for it in OPTIONAL}
OTHERS = {"vb_place": "Place", "vb_taken": "Taken", "vb_run": "Run", "void": "()"}
TYPES = OF_NUMBERS | MISSING | OTHERS
# The meaning of a parameter of one letter in the crate. A parameter with the first letter of the
# slice before it is the offset in that slice instead.
LETTERS = {"v": "value"}

OF_CRATE = re.compile(r'^pub extern "C" fn (\w+)\(([^)]*)\)(?: -> (\w+))?', re.MULTILINE)
OF_HEADER = re.compile(r"^(?:VB_CHECKED )?(\w+) (vb_\w+)\((\w[^)]* \*?\w+)\);", re.MULTILINE)
OF_TABLE = re.compile(r"^    (\w+)\(([^)]*)\)(?: -> (\w+))?;", re.MULTILINE)
C_PARAMETER = re.compile(r"(const )?(\w+) (\*?)(\w+)")


@dataclass(frozen=True)
class Parameter:
    """A parameter: its type in Rust, and the names that it may have."""

    kind: str
    names: frozenset[str]

    def __str__(self) -> str:
        return f"{' or '.join(sorted(self.names))}: {self.kind}"


@dataclass(frozen=True)
class Signature:
    parameters: list[Parameter]
    answer: str


def named(kind: str, *names: str) -> Parameter:
    return Parameter(kind, frozenset(names))


def parts(text: str) -> list[str]:
    return [it.strip() for it in " ".join(text.split()).split(",") if it.strip()]


def of_slice(name: str, kind: str) -> list[Parameter]:
    """Returns a slice as its pointer and its number of items."""
    pointer, item = ("*mut", kind[6:-1]) if kind.startswith("&mut") else ("*const", kind[2:-1])
    # Bytes may be a window of bits, or values of a byte each.
    of_bytes = {"size" if name == "bytes" else f"{name}_size"} if item == "u8" else set()
    return [named(f"{pointer} {item}", name), named("usize", f"{name}_count", *of_bytes)]


def of_crate(text: str) -> dict[str, Signature]:
    found = {}
    for function, listed, answer in OF_CRATE.findall(text):
        parameters, window = [], ""
        for part in parts(listed):
            name, _, kind = part.partition(": ")
            if kind.endswith("]"):
                parameters += of_slice(name, kind)
                window = name
            elif kind.startswith("&mut "):
                parameters.append(named(f"*mut {kind[5:]}", name))
            elif len(name) == 1 and window.startswith(name):
                parameters.append(named(kind, f"{window}_offset"))
            else:
                parameters.append(named(kind, LETTERS.get(name, name)))
        found[function] = Signature(parameters, answer or "()")
    return found


def of_header(text: str) -> dict[str, Signature]:
    found = {}
    for answer, function, listed in OF_HEADER.findall(text):
        parameters = [of_prototype(part) for part in parts(listed)]
        found[function] = Signature(parameters, TYPES.get(answer, answer))
    return found


def of_prototype(part: str) -> Parameter:
    """Returns a parameter of a prototype. If it doesn't parse, its text is the type."""
    match = C_PARAMETER.fullmatch(part)
    if match is None:
        return named(part)
    const, kind, star, name = match.groups()
    pointer = "" if not star else "*const " if const else "*mut "
    return named(pointer + TYPES.get(kind, kind), name)


def of_table(text: str) -> dict[str, Signature]:
    _, _, listed = text.partition("\nkernels! {")
    found = {}
    for function, parameters, answer in OF_TABLE.findall(listed.partition("\n}")[0]):
        pairs = [it.partition(": ") for it in parts(parameters)]
        own = [named(kind, name) for name, _, kind in pairs]
        found[f"vb_{function}"] = Signature(own, answer or "()")
    return found


def unlike(wanted: Signature, got: Signature) -> str | None:
    """Returns the first difference; None if there is none."""
    for n, (want, have) in enumerate(zip(wanted.parameters, got.parameters), 1):
        if want.kind != have.kind or not have.names <= want.names:
            return f"parameter {n} is `{have}` in place of `{want}`"
    counts = len(got.parameters), len(wanted.parameters)
    if counts[0] != counts[1]:
        return f"it has {counts[0]} parameters in place of {counts[1]}"
    if got.answer != wanted.answer:
        return f"it returns `{got.answer}` in place of `{wanted.answer}`"
    return None


def differences(path: str, wanted: dict[str, Signature], got: dict[str, Signature]) -> list[str]:
    """Returns the differences of the file at this path, for the functions that both have."""
    both = sorted(wanted.keys() & got.keys())
    found = [(it, unlike(wanted[it], got[it])) for it in both]
    return [f"{path}: `{function}`: {what}" for function, what in found if what]
