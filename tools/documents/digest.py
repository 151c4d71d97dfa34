"""The digest of the sources that the archives of bindings/build are proved and compiled from. The
Rust crate recognizes its archives by it.
"""
import hashlib
import re

from documents.files import Repository

BUILD = "bindings/build"
DIGEST = "bindings/rust/src/digest.rs"
NAMED = re.compile(r'"[0-9a-f]*"')


def libraries(repository: Repository) -> list[str]:
    """Returns the crates with C functions, as bindings/build lists them."""
    return re.search(r"^crates=\((.*)\)$", repository.read(BUILD), re.MULTILINE)[1].split()


def below(crates: list[str], repository: Repository) -> set[str]:
    """Returns the crates, and the crates of the repository that they need, directly or not."""
    lines = re.findall(r"^(\w+)[^:#\n]*:(.*)$", repository.read("crates.txt"), re.MULTILINE)
    uses, found, todo = {name: it.split() for name, it in lines}, set(), list(crates)
    while todo:
        name = todo.pop()
        if name in uses and name not in found:
            found.add(name)
            todo += uses[name]
    return found


def sources(repository: Repository) -> list[str]:
    """Returns the paths of the code and of the specs that its contracts cite. Proofs are
    left out: they change neither."""
    crates = "|".join(below(libraries(repository), repository))
    source = re.compile(rf"crates/({crates})/(src|specs)/")
    return sorted(it for it in repository.paths if source.match(it))


def digest(repository: Repository) -> str:
    """Returns the digest of the lines that `sha256sum` prints for the sources, in the order of
    their paths."""
    lines = hashlib.sha256()
    for path in sources(repository):
        content = (repository.root / path).read_bytes()
        lines.update(f"{hashlib.sha256(content).hexdigest()}  {path}\n".encode())
    return lines.hexdigest()


def written_digest(repository: Repository) -> str:
    """Returns the text of the Rust crate's file, with the digest of the sources."""
    return NAMED.sub(f'"{digest(repository)}"', repository.read(DIGEST))
