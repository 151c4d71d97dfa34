"""Draws the diagram of the crates in docs/LAYERS.md. A line leads from each crate to those that it
needs, as crates.txt says.
"""
import re

from documents.files import Repository
from documents.kinds import FACADE, kind_of, reached, statics

LAYERS = "docs/LAYERS.md"
BLOCK = re.compile(r"(?<=^```mermaid\n).*?(?=^```$)", re.MULTILINE | re.DOTALL)
# The titles of the boxes around crates of a kind.
BOXES = {"command": "commands", "c": "for C", "example": "examples, timed jobs"}
FOR_TESTS = ("_tests", "vb_testing")
# The program whose calls tools/growth measures.
COUNTED = "run_growth"


def dependencies(text: str) -> dict[str, list[str]]:
    """Returns the crates that each crate needs, among those in the diagram: no tests, and nothing
    of the kit."""
    found = {}
    for line in text.splitlines():
        if line.strip() and not line.startswith("#"):
            left, _, right = line.partition(":")
            found[left.split()[0]] = right.split()
    drawn = [it for it in found if not (it.endswith(FOR_TESTS) or it == COUNTED)]
    return {it: [dep for dep in found[it] if dep in drawn] for it in drawn}


def reduced(deps: dict[str, list[str]]) -> dict[str, list[str]]:
    """Removes the crates that a crate also needs by way of another one."""
    below = {it: reached(it, deps) for it in deps}
    return {
        name: [it for it in of if not any(it in below[other] for other in of)]
        for name, of in deps.items()
    }


def diagram(text: str) -> str:
    """Returns the crates of crates.txt as a diagram of Mermaid, from the upper ones down."""
    deps, linked = dependencies(text), statics(text)
    lines = ["flowchart TD"]
    for kind, title in BOXES.items():
        names = [it for it in deps if kind_of(it, deps, linked) == kind]
        if names:
            inner = [f"        {it}" for it in names]
            lines += [f'    subgraph {kind}["{title}"]', *inner, "    end"]
    for name, of in reversed(reduced(deps).items()):
        lines.append(f"    {name} --> {' & '.join(of)}" if of else f"    {name}")
    if FACADE in deps:
        lines.append(f"    style {FACADE} stroke-width:4px")
    return "\n".join(lines) + "\n"


def layers(repository: Repository) -> str:
    """Returns the document, with the diagram of the present crates."""
    drawn = diagram(repository.read("crates.txt"))
    return BLOCK.sub(lambda _: drawn, repository.read(LAYERS))
