"""The kind of each crate: by its name, by the crates that need it, and by its flag in crates.txt.
"""
from collections.abc import Collection, Mapping

FACADE = "vortex_buffer"  # the crate that users name
PROGRAM = "vbits"  # the program that runs commands
EXAMPLES = ("use_", "run_")
FOR_C = "vb_c_"  # the prefix of crates that are linked into C

Dependencies = Mapping[str, Collection[str]]


def statics(text: str) -> set[str]:
    """Returns the crates that crates.txt links into programs of other languages."""
    lefts = (line.partition(":")[0].split() for line in text.splitlines() if line[:1] != "#")
    return {left[0] for left in lefts if "staticlib" in left}


def reached(name: str, deps: Dependencies) -> set[str]:
    """Returns the crates that a crate needs, directly or not."""
    found: set[str] = set()
    todo = list(deps.get(name, ()))
    while todo:
        dep = todo.pop()
        if dep not in found:
            found.add(dep)
            todo += deps.get(dep, ())
    return found


def kind_of(name: str, deps: Dependencies, linked: Collection[str]) -> str:
    """Returns `facade`, `example`, `c`, `command` or, for every other crate, `library`."""
    if name == FACADE:
        return "facade"
    if name.startswith(EXAMPLES):
        return "example"
    if name in linked or name.startswith(FOR_C):
        return "c"
    is_command = name in {PROGRAM, *reached(PROGRAM, deps)} - reached(FACADE, deps)
    return "command" if is_command else "library"
