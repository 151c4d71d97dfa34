"""One page: its addresses, and the text around it."""
import posixpath
from dataclasses import dataclass, field
from pathlib import Path
from string import Template

from reference.html_text import tag

HERE = Path(__file__).resolve().parent
TEMPLATE = Template((HERE / "page.html").read_text(encoding="utf-8"))


@dataclass
class Page:
    """A page under its address; `links` keeps each address that it leads to."""

    url: str
    title: str
    body: list[str] = field(default_factory=list)
    nav: list[str] = field(default_factory=list)
    links: list[str] = field(default_factory=list)

    @property
    def root(self) -> str:
        return "../" * self.url.count("/")

    def href(self, url: str) -> str:
        """An address from the top of the pages, made relative to this page."""
        self.links.append(url)
        path, mark, anchor = url.partition("#")
        if path == self.url and mark:
            return f"#{anchor}"
        return posixpath.relpath(path, posixpath.dirname(self.url) or ".") + mark + anchor

    def link(self, url: str, content: str, **attributes: str) -> str:
        return tag("a", content, href=self.href(url), **attributes)

    def add(self, *parts: str) -> None:
        self.body.extend(it for it in parts if it)

    def html(self) -> str:
        return TEMPLATE.substitute(
            title=self.title,
            root=self.root,
            nav="\n".join(self.nav),
            body="\n".join(self.body),
        )
