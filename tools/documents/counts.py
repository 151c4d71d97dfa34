"""Checks that some documents have no more words than their own limits, and all together no more
than one limit. The sum leaves out demo/README.md, which shows the output of a program. Words are
counted as `wc -w` does."""
from documents.files import Document, Repository

MOST = 13_000
OF_DRAWINGS = "demo/README.md"
LIMITS = {"README.md": 900, "docs/PERF.md": 2_500, "bench/README.md": 1_500, OF_DRAWINGS: 750}
# A document in bench/, which Repository.documents leaves out.
OF_BENCH = "bench/README.md"


def words(document: Document) -> int:
    """Returns the number of words of a document. A bar of a table is one too."""
    return len(document.text.split())


def counts(repository: Repository) -> list[str]:
    """The documents with more words than they may have."""
    of_bench = Document(OF_BENCH, repository.present(OF_BENCH))
    found = {it.path: words(it) for it in [*repository.documents, of_bench]}
    wrong = [
        f"{path}: {found[path]} words, where {most} are the most"
        for path, most in LIMITS.items() if found.get(path, 0) > most
    ]
    if (total := sum(found.values()) - found.get(OF_DRAWINGS, 0)) > MOST:
        wrong.append(f"all documents: {total} words, where {MOST} are the most")
    return wrong
