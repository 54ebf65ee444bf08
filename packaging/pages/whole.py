"""The whole site: all pages, and the index by which names are found.

A module of packaging/site.
"""
from __future__ import annotations

import json
import os
import re
from html import escape
from typing import List, Tuple

from catalogue import Catalogue
from documents import Document, documents, neighbours, read, rows_of_table
from frame import framed
from linked_code import way
from rooms import crate_page, floor_page, heading, house_page, library_page
from torusmem_tools.repository.sources import purpose
from theorem import THEOREM, theorem_page
from torusmem_tools.repository.word_places import Words, by_folder, summary

KINDS = ["crate", "law", "function", "definition", "type", "word of the glossary", "where to look", "command", "files that name it", "part of a page",
         "impl of a trait", "page", "floor"]
CALLED = {"impl": "impl of a trait"}
Row = Tuple[str, int, str, str]


def row(name: str, kind: str, url: str, said: str = "") -> Row:
    """A row of the index."""
    return name, KINDS.index(kind), url, plain(said)


def plain(text: str) -> str:
    """A text without marks of Markdown."""
    return re.sub(r"\[([^\]]*)\]\([^)]*\)", r"\1", text).replace("`", "")


class Site:
    """The pages that are written, and the rows of the index."""

    def __init__(self, out: str) -> None:
        self.out, self.catalogue = out, Catalogue()
        self.rows: List[Row] = []
        self.count = 0

    def put(self, page: str, text: str) -> None:
        """Writes a page."""
        os.makedirs(os.path.dirname(f"{self.out}/{page}"), exist_ok=True)
        with open(f"{self.out}/{page}", "w", encoding="utf-8") as it:
            it.write(text)
        self.count += page.endswith(".html")

    def house(self) -> None:
        """The crates and the floors."""
        for crate, room in self.catalogue.rooms.items():
            self.put(room.page, crate_page(self.catalogue, room)[0])
            self.rows.append(row(crate, "crate", room.page, purpose(crate)))
            for it in room.items():
                name = it.name if it.kind == "impl" else f"{crate}::{it.name}"
                self.rows.append(row(name, CALLED.get(it.kind, it.kind), it.url, it.said))
        for floor in self.catalogue.floors:
            page, text = floor_page(self.catalogue, floor)
            self.put(page, text)
            self.rows.append(row(heading(floor), "floor", page, ", ".join(self.catalogue.floors[floor])))
        self.put(*house_page(self.catalogue))
        self.put("library.html", library_page(self.catalogue))

    def pages(self) -> None:
        """The pages of the repository, and the list of them."""
        paths, listed = documents(), []
        for path in paths:
            document = Document(self.catalogue, path, set(paths), self.out)
            text = theorem_page(document)[0] if path == THEOREM else document.render()
            self.put(document.page, text)
            title = next((it for depth, it, _ in document.markdown.headings if depth == 1), path)
            self.rows.append(row(title, "page", document.page, path))
            self.rows += [row(it, "part of a page", f"{document.page}#{name}", title) for depth, it, name in document.markdown.headings if depth > 1]
            listed.append(f'<tr><td><a href="{document.page}">{escape(title)}</a></td><td><code>{path}</code></td></tr>')
            if path == "docs/DEFINITIONS.md":
                self.glossary(document)
        inside = "<h1>Pages</h1><table>" + "\n".join(listed) + "</table>"
        self.put("pages.html", framed("pages.html", "Pages", inside))

    def glossary(self, document: Document) -> None:
        """The words of the glossary, each at its part of the page."""
        place = document.page
        for line in read(document.path).split("\n"):
            if line.startswith("## "):
                place = f"{document.page}#{next(name for _, it, name in document.markdown.headings if it == plain(line[3:].strip()))}"
            cells = [it.strip() for it in re.split(r"(?<!\\)\|", line)]
            if len(cells) > 3 and cells[1] not in ("word", "---", ""):
                self.rows.append(row(plain(cells[1]), "word of the glossary", place, cells[2]))

    def where_to_look(self) -> None:
        """The rows of the page that says what to open first, and the commands of the program."""
        document = Document(self.catalogue, "docs/ARCHITECTURE.md", set(documents()), self.out)
        for what, files in rows_of_table("docs/ARCHITECTURE.md", "What to open first"):
            first = re.search(r"`([^`]+)`", files)
            url = document.file(first[1], files) if first else ""
            if url:
                self.rows.append(row(plain(what), "where to look", url, files))
        for words, what in rows_of_table("README.md", "Commands"):
            for name in re.findall(r"`([a-z]+)\b", words):
                self.rows.append(row(name, "command", "index.html#commands", what))

    def files(self) -> None:
        """The files that name each command, and each neighbour that CONTRIBUTING.md names."""
        asked, words, page = neighbours(), Words(), "files.html"
        made = ["<h1>How to add something</h1>", '<p><a href="CONTRIBUTING.html">CONTRIBUTING</a> says how to add an operation, a command, a model, '
                "a topology or a check. Below stand, for a neighbour of each, the files of the repository that name it (edits of proofs and "
                "pictures apart), as <code>tools/reading --where NAME</code> prints them.</p>",
                "<p>" + " ".join(f'<a href="#{it.lower()}"><code>{it}</code></a>' for it in asked) + "</p>"]
        for it in asked:
            paths = words.naming(it)
            self.rows.append(row(it, "files that name it", f"{page}#{it.lower()}", summary(paths)))
            rows = [f"<tr><td><code>{folder}</code></td><td>{' '.join(self.file_link(page, path, folder) for path in files)}</td></tr>"
                    for folder, files in by_folder(paths).items()]
            note = " It is an ordinary word too, so that not each of them has to do with it." if len(paths) > 150 else ""
            made.append(f'<h2 id="{it.lower()}"><code>{it}</code></h2><p>{escape(summary(paths))}.{note}</p><table>{"".join(rows)}</table>')
        self.put(page, framed(page, "How to add something", "\n".join(made)))

    def file_link(self, page: str, path: str, folder: str) -> str:
        """A file, which leads to its part of a page where there is one."""
        shown = f"<code>{escape(os.path.relpath(path, folder))}</code>"
        parts = path.split("/")
        room = self.catalogue.rooms.get(parts[1]) if parts[0] == "crates" and len(parts) > 2 else None
        inner = "/".join(parts[2:])
        return f'<a href="{way(page, f"{room.page}#{inner}")}">{shown}</a>' if room and inner in room.files else shown

    def search(self) -> None:
        """The index, and the page of what is found."""
        rows = [list(it) for it in self.rows]
        data = json.dumps({"kinds": KINDS, "rows": rows}, ensure_ascii=False, separators=(",", ":"))
        self.put("search.js", f"window.NAMES = {data};\n")
        inside = '<h1>Search</h1><p id="count">Type a name above. This page needs JavaScript.</p><div id="hits"></div>'
        self.put("search.html", framed("search.html", "Search", inside))


def write(out: str) -> int:
    """Writes all of it; how many pages there are."""
    site = Site(out)
    site.house()
    site.pages()
    site.where_to_look()
    site.files()
    site.search()
    return site.count
