"""Finds the places of a name. A new command, kernel or file of definitions needs the same ones."""
import re
from dataclasses import dataclass
from functools import lru_cache

from documents.files import Repository
from documents.written import CITED, LISTS
from families.fill import of_template
from families.written import templates

LIBRARY = (
    r"crates/(?!\w+_tests/|vb_c(?:_\w+)?/|vb_command/|vb_pool/|vb_script/|use_|run_)\w+"
)
RUST = r"bindings/rust/src/"
Places = list[tuple[str, list[str]]]
COMMENT = re.compile(r"\s*(?:///?|//!|/?\*|--)(?: .*|$)|(?<=\s)(?://|--) .*")
WRITTEN = "  (written)"
IMPORT = re.compile(r"\s*(?:ghost )?use ")


@dataclass
class Task:
    """A task, with its places: for each a pattern of its path and a pattern of its text.

    NAME represents the name in any of its forms. If the pattern of the text is empty, the place is
    the file. A template is one place too, if the text that it writes has the pattern.
    """

    text: str
    at: list[tuple[str, str]]


COMMAND = [
    Task("What it does: definitions from `Order` to `GivesUp`, `IsQuestion`; what its line means", [
        (r"crates/(vb_command|vb_pool)/specs/", r"\bNAME\b"),
    ]),
    Task("The variant, with its line as docstring, and the arm that reads it", [
        (r"crates/vb_command/src/", r"\bNAME\b"),
    ]),
    Task("What carries it out: a method, and an arm of `serve`", [
        (r"crates/vb_pool/src/", r"\bfn NAME\b|Command::NAME\b"),
        (r"crates/vb_script/src/", r"(?<!\.)\bNAME\b"),
    ]),
    Task("Lines with known answers; what a plain list answers", [
        (r"crates/vb_script_tests/src/(?!machine/)", r"\bNAME\b"),
        (r"crates/vb_script_tests/src/machine/", r"(?<!\.)\bNAME\b"),
        (r"crates/vbits/stdin$", r"\bNAME\b"),
    ]),
    Task("Wrong bodies, and proofs", [
        (r"crates/(vb_command|vb_pool|vb_script)/(edits|must-fail)/NAME[-_]", ""),
        (r"crates/(vb_command|vb_pool|vb_script)/proofs/(.*/)?NAME/[A-Z]\w+\.antt$", ""),
    ]),
    Task("The row that users read", [(r"docs/COMMANDS\.md$", r"\bNAME\b")]),
]
KERNEL = [
    Task("What it returns, over lists of truth values", [
        (r"crates/\w+/specs/(?!Lib\.antt)", r"\bNAME\b"),
    ]),
    Task("Names that are re-exported, by `pub use` and by specs/Lib.antt", [
        (r"crates/(?!vb_c(?:_\w+)?/)\w+/src/lib\.rt$", r"(?<![.\w])NAME(?=[,;} ]|$)"),
        (r"crates/vortex_buffer_tests/src/reached\.rt$", r"\bNAME\b"),
        (r"crates/\w+/specs/Lib\.antt$", r"\bNAME$"),
    ]),
    Task("The body with its contract; methods, and their calls", [
        (rf"{LIBRARY}/src/", r"\bfn NAME\b"),
        (r"crates/(vb_view|vb_bit_buffer|vb_set)/src/", r"(?<![.\w])NAME\("),
    ]),
    Task("Wrong bodies, and proofs", [
        (rf"{LIBRARY}/(edits|must-fail)/NAME[-_]", ""),
        (rf"{LIBRARY}/proofs/(.*/)?NAME/[A-Z]\w+\.antt$", ""),
    ]),
    Task("Tests, and the plain loop", [(r"crates/\w+_tests/src/(?!reached)", r"\bNAME\b")]),
    Task("The template that tools/write-lists fills, for all of its family", [
        (r"tools/families/\w+\.txt$", r"\bfn (?:vb_NAME|NAME)"),
        (r"tools/families/questions\.py$", r'"NAME",'),
    ]),
    Task("C: the call and its form `vb_try_`; the header, in C++ too, and its tests", [
        (r"crates/vb_c(_\w+)?/src/", r"\bvb_NAME\(|::NAME\("),
        (r"bindings/c/\w+\.hp?p?$", r"\bvb_NAME\b"),
        (r"bindings/c/\w+\.c(pp)?$", r"\bvb_NAME\b|\bNAME\("),
    ]),
    Task("Rust: the table, the calls, plain Rust, the methods, and the limits", [
        (rf"{RUST}native\.rs$", r"^    NAME\("),
        (RUST, r"\bfn NAME\b|!\(NAME:"),
        (rf"{RUST}\w+\.rs$", r"::NAME\(|\bkernels\.NAME\b"),
        (r"bindings/rust/tests/", r"\bNAME\("),
    ]),
    Task("The comparison with a loop over bits, and with upstream's call", [
        (r"bindings/diff/src/", r"\bNAME\("),
    ]),
    Task("A timed row, its plain loop, and upstream's call", [
        (r"bench/src/\w+\.rs$", r"\bfn (vb_)?NAME\b"),
        (r"bench/src/parts/", r'"`NAME`'),
    ]),
    Task("What users read", [
        (r"(README|docs/(?!PERF)\w+|crates/\w+/CALLING|bindings/\w+/README)\.md$", r"\bNAME\b"),
    ]),
]


class Name:
    """A name in its forms: with `_` between its words or not, and for C after `vb_` or `vb_try_`.

    A name in small letters, of a command or a call, also matches capitals. One with a capital is
    the name of a definition.
    """

    def __init__(self, text: str) -> None:
        self.form = "_?".join(re.escape(it) for it in text.replace("_", ""))
        self.is_small = text == text.lower()

    def pattern(self, text: str) -> re.Pattern:
        text = text.replace("vb_NAME", "vb_(?:try_)?NAME").replace("NAME", self.form)
        return re.compile(text, re.IGNORECASE if self.is_small else 0)

    def is_command(self, repository: Repository) -> bool:
        command = repository.read("crates/vb_command/src/command.rt")
        _, _, variants = command.partition("\npub enum Command")
        return self.pattern(r"(?m)^    NAME\(").search(variants) is not None


def code_of(path: str, text: str) -> list[str]:
    """Returns the lines of a file without comments and imports; of a document only the code. The
    files that re-export names keep their imports."""
    if path.endswith(".md"):
        return quoted(text)
    lines = [COMMENT.sub("", it.replace("\\n", "  ")) for it in text.split("\n")]
    if path.endswith(("/lib.rt", "/reached.rt", "/Lib.antt")):
        return lines
    return ["" if IMPORT.match(it) else it for it in lines]


def quoted(text: str) -> list[str]:
    """Returns the lines of a document. Outside of code blocks it keeps only the text in backquotes.
    """
    found, within = [], False
    for line in text.split("\n"):
        within ^= line.startswith("```")
        found.append(line if within else " ".join(re.findall(r"`[^`]*`", line)))
    return found


def is_of_std(name: Name, text: str) -> bool:
    """Returns whether a file of definitions imports the name from the standard library."""
    return name.pattern(r"(?m)^use Rattle\.std\..*\bNAME\b").search(text) is not None


def found_at(repository: Repository, name: Name, tasks: list[Task]) -> Places:
    """Returns the tasks that have places, each with these. A place belongs to the first task that
    has it."""
    taken: set[str] = set()
    groups = []
    for task in tasks:
        found = [it for at in task.at for it in found_by(repository, name, at)]
        lines = [it for it in dict.fromkeys(found) if it not in taken]
        taken.update(lines)
        if lines:
            groups.append((task.text, lines))
    return groups


def found_by(repository: Repository, name: Name, at: tuple[str, str]) -> list[str]:
    where, what = at
    paths = sorted(it for it in repository.paths if name.pattern(where).match(it))
    return [it for path in paths for it in found_in(repository, name, path, what)]


def found_in(repository: Repository, name: Name, path: str, what: str) -> list[str]:
    if not what:
        return [path]
    text = repository.read(path)
    if path.endswith(".antt") and is_of_std(name, text):
        return []
    pattern, lines = name.pattern(what), text.split("\n")
    if path in templates(repository):
        return [path] if any(pattern.search(it.text) for it in of_template(text)) else []
    made = by_tools(repository).get(path, set())
    return [
        f"{path}:{n}: {' '.join(lines[n - 1].split())[:100]}{WRITTEN * (lines[n - 1] in made)}"
        for n, it in enumerate(code_of(path, text), 1)
        if pattern.search(it)
    ]


@lru_cache(maxsize=1)
def by_tools(repository: Repository) -> dict[str, set[str]]:
    """Returns the lines that tools/write-lists writes, by the files that have them."""
    found: dict[str, set[str]] = {}
    for text in templates(repository).values():
        for it in of_template(text):
            found.setdefault(it.path, set()).update(it.text.split("\n"))
    for path in (*LISTS, *CITED):
        found.setdefault(path, set()).update(repository.present(path).split("\n"))
    return found


def places(repository: Repository, text: str, is_all: bool) -> Places:
    """Returns the places of a name by task; for a command only the tasks of commands."""
    name = Name(text)
    if not name.is_small:
        return found_at(repository, name, KERNEL[:2])
    if not name.is_command(repository):
        return found_at(repository, name, KERNEL)
    return found_at(repository, name, COMMAND + KERNEL if is_all else COMMAND)
