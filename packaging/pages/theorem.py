"""The page of the theorem: what it says, and below each word all that it stands on, unfolded in place.

A module of packaging/site. docs/THEOREM.md names the items; here nothing behind them is left out, down to the tables of one step.
"""
from __future__ import annotations

import re
from html import escape
from typing import Dict, List, Tuple

from catalogue import Catalogue, Item
from documents import Document, read
from linked_code import Linker, way
from urllib.parse import quote

THEOREM = "docs/THEOREM.md"
CALL = re.compile(r"<!-- tools/reading (.*?) -->")
INTRO = """<h2 id="unfolded">The theorem, unfolded</h2>
<p>Each block is followed by the definitions that it names, each of which opens in place: a click on a word opens its definition, and
what it stands on stands below it in the same way. A definition stands once, where it is named first; later words lead there. Nothing is
left out, down to the tables by which a processor, a router and a bank take one step. Brown words are those of the toolchain's library.</p>
<p><button data-all="open">unfold all</button> <button data-all="shut">fold all</button></p>"""


def parts() -> Tuple[str, List[str]]:
    """The text that people write, and the items that the page prints."""
    text = read(THEOREM)
    found = CALL.search(text)
    if not found:
        return text, []
    words = re.sub(r"--but \S+", "", found[1]).split()
    return text[:found.start()], words


class Tree:
    """The items, each below the first that names it, in breadth: so that each stands as high as it can."""

    def __init__(self, catalogue: Catalogue, page: str, items: List[str]) -> None:
        self.catalogue, self.page = catalogue, page
        self.roots = [it for name in items for it in catalogue.by_name.get(name, [])[:1]]
        self.below: Dict[str, List[Item]] = {}
        self.anchors: Dict[str, str] = {}
        seen, queue = {it.url for it in self.roots}, list(self.roots)
        while queue:
            one = queue.pop(0)
            linker = Linker(catalogue, page)
            linker.code(one)
            fresh = [it for it in linker.named.values() if it.url not in seen]
            self.below[one.url] = fresh
            seen |= {it.url for it in fresh}
            queue += fresh
        self.linker = Linker(catalogue, page, lambda it: f"#{quote(self.anchor(it))}" if it.url in self.below else way(page, it.url))

    def anchor(self, item: Item) -> str:
        """The item's anchor on this page; of two of one name the second has its module too."""
        name = f"type.{item.name}" if item.kind == "type" else item.name
        if self.anchors.setdefault(f"{item.crate}::{name}", item.url) != item.url:
            name = f"{item.inside}.{name}"
        return f"{item.crate}::{name}"

    def block(self, item: Item) -> str:
        """An item's text, and below it those that it names first."""
        inside = "\n".join(self.folded(it) for it in self.below[item.url])
        return self.linker.code(item, anchors=False) + "\n" + inside

    def folded(self, item: Item) -> str:
        """An item that opens in place."""
        place = f'<a class="where" href="{way(self.page, item.url)}">{item.crate}</a>'
        said = f": {escape(item.said, quote=False)}" if item.said else ""
        return (f'<details id="{escape(self.anchor(item))}"><summary><code>{escape(item.name)}</code> {place}{said}</summary>\n'
                f"{self.block(item)}</details>")

    def html(self) -> str:
        """All of it."""
        made = [INTRO]
        for it in self.roots:
            own = f'<a class="where" href="{way(self.page, it.url)}">{escape(it.path)}</a>'
            made.append(f'<h3 id="{escape(self.anchor(it))}"><code>{escape(it.crate)}::{escape(it.name)}</code></h3><p>{own}</p>\n{self.block(it)}')
        return "\n".join(made)


def theorem_page(document: Document) -> Tuple[str, Tree]:
    """The page, and its tree."""
    text, items = parts()
    tree = Tree(document.catalogue, document.page, items)
    return document.render(text, tree.html()), tree
