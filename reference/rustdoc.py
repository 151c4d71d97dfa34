"""The pages that cargo doc writes of the Rust crate, and the items in them."""
import os
import re
import shutil
import subprocess
from dataclasses import dataclass
from html import unescape
from pathlib import Path

from reference.aliases import by_name
from reference.library import sentence
from reference.rust_text import SourceError

FOLDER = "bindings/rust"
RUST_CRATE = "vortex_bits"
KINDS = {"struct": "type", "enum": "type", "type": "type", "fn": "call", "method": "call",
         "tymethod": "call", "associatedconstant": "constant"}
ITEM = re.compile(r'<li><a href="((?:\w+/)*(\w+)\.\w+\.html)">([\w:]+)</a></li>')
# The members that a type has itself, not those of its traits.
MEMBER = re.compile(
    r'<section id="((method|tymethod|variant|associatedconstant)\.(\w+)(?:-\d+)?)" class="\w+">'
)
SAID = re.compile(r'<div class="docblock">\s*<p>(.*?)</p>', re.DOTALL)
ALIASES = re.compile(
    r"#\[doc\(alias(.*?)\)\]\n(?:\s*(?:#\[.*\]|///.*)\n)*"
    r"\s*(?:pub )?(?:const )?(?:(?:fn|struct|enum|trait|type) )?(\w+)"
)
OF_DOCS = re.compile(r"^\[package\.metadata\.docs\.rs\]\nfeatures = \[(.*)\]", re.MULTILINE)
LENT = 'id="deref-methods-'  # the methods of a slice to which a type dereferences
MAIN = re.compile(r'<section id="main-content"[^>]*>')


@dataclass
class RustItem:
    """An item of the crate: its name with its type or module, and its page from the top."""

    name: str
    kind: str
    url: str
    says: str
    words: str


class Rustdoc:
    """The pages in a folder, which are shown in rust/."""

    def __init__(self, root: Path, folder: Path) -> None:
        self.folder, self.aliases = folder, aliases(root)
        self.pages = {f"rust/{it.relative_to(folder).as_posix()}" for it in folder.rglob("*.html")}
        self.items = self.listed(folder / RUST_CRATE / "all.html")

    def listed(self, every: Path) -> list[RustItem]:
        """The items of the list of all, each with its members."""
        found = []
        for path, kind, name in ITEM.findall(every.read_text(encoding="utf-8")):
            url = f"rust/{every.parent.name}/{path}"
            text = (every.parent / path).read_text(encoding="utf-8")
            top, *parts = MEMBER.split(text.partition(LENT)[0])
            found.append(self.item(name, kind, url, top))
            for at in range(0, len(parts), 4):
                anchor, of, member, says = parts[at : at + 4]
                says = says.partition("<section id=")[0]
                found.append(self.item(f"{name}::{member}", of, f"{url}#{anchor}", says))
        return found

    def item(self, name: str, kind: str, url: str, html: str) -> RustItem:
        says = SAID.search(html)
        text = unescape(re.sub(r"<[^>]+>", "", says.group(1))) if says else ""
        last = name.rpartition("::")[2]
        words = [known.get(last, "") for known in (self.aliases, by_name())]
        return RustItem(name, KINDS.get(kind, kind), url, sentence(text), " ".join(words).strip())

    def crate(self) -> tuple[str, str, str]:
        """The crate's name, the address of its page, and its first sentence."""
        url = f"{RUST_CRATE}/index.html"
        it = self.item(RUST_CRATE, "crate", f"rust/{url}", (self.folder / url).read_text("utf-8"))
        return it.name, it.url, it.says

    def copy(self, to: Path) -> None:
        """Copies the pages, each with a link to the start page of the reference."""
        shutil.copytree(self.folder, to)
        for path in to.rglob("*.html"):
            top = "../" * len(path.relative_to(to).parts) + "index.html"
            text = path.read_text(encoding="utf-8")
            back = rf'\g<0><p><a href="{top}">vortex_buffer reference: all languages</a></p>'
            path.write_text(MAIN.sub(back, text, count=1), encoding="utf-8")


def aliases(root: Path) -> dict[str, str]:
    """For each name of the crate the words of its `doc(alias)`."""
    found: dict[str, str] = {}
    for path in sorted((root / FOLDER / "src").rglob("*.rs")):
        for words, name in ALIASES.findall(path.read_text(encoding="utf-8")):
            listed = " ".join(re.findall(r'"([^"]+)"', words))
            found[name] = f"{found[name]} {listed}" if name in found else listed
    return found


def document(root: Path, into: Path) -> Rustdoc | None:
    """Runs cargo doc as docs.rs does, with the portable code, which needs no archives."""
    if not shutil.which("cargo"):
        print("no cargo here: the Rust crate is left out")
        return None
    manifest = (root / FOLDER / "Cargo.toml").read_text(encoding="utf-8")
    features = re.findall(r'"([\w-]+)"', OF_DOCS.search(manifest).group(1))
    done = subprocess.run(
        ["cargo", "doc", "--no-deps", "--offline", "--target-dir", str(into),
         "--features", ",".join(features)],
        cwd=root / FOLDER, capture_output=True, text=True,
        env={**os.environ, "VORTEX_BITS_NATIVE": str(into), "RUSTC_BOOTSTRAP": "1",
             "RUSTDOCFLAGS": "--cfg docsrs"},
    )
    if done.returncode != 0:
        raise SourceError(f"cargo doc fails: {done.stderr.strip()}")
    return Rustdoc(root, into / "doc")
