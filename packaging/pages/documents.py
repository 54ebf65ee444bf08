"""The pages of the repository in the frame of the site: README.md, those of docs/ and of the other folders.

A module of packaging/site. A name in backticks becomes a link to what it names: a claim leads to the clause that carries it.
"""
from __future__ import annotations

import os
import posixpath
import re
import shutil
from html import escape
from typing import Callable, List, Optional, Set, Tuple

from catalogue import Catalogue, Item
from frame import framed
from linked_code import way
from markdown import Markdown
from torusmem_tools.repository.sources import ROOT

# Pages about the inside, where a plain small word in backticks may be a crate or a function; in others it is a word of a format.
INSIDE = {"docs/PROVED.md", "docs/ARCHITECTURE.md", "docs/DECISIONS.md", "docs/DEFINITIONS.md", "docs/THEOREM.md"}
FIRST = ("law", "function", "definition", "type")
CLAUSES = re.compile(r"clauses? (?:(?:on|about) \S+ )?(?:`\w+`(?:, | and | or ))*$")
OWNER = re.compile(r"`(?:(?:,|,? and| or)(?: the)?(?: laws?)? `[^`]+`)* of `(\w+)`")  # behind a name: `judge` of `network_judge`
PATH = re.compile(r"[\w.*-]+(/[\w.*-]+)+/?|[\w-]+\.(?:rt|antt|md)")


def page_of(path: str) -> str:
    """The page of a document."""
    return "index.html" if path == "README.md" else path[: -len(".md")] + ".html"


def read(path: str) -> str:
    """The text of a file of the repository."""
    with open(f"{ROOT}/{path}", encoding="utf-8") as it:
        return it.read()


def documents() -> List[str]:
    """All pages that people read, README.md first."""
    found = []
    for folder, folders, files in os.walk(ROOT):
        folders[:] = sorted(it for it in folders if it not in (".git", ".ci", "out", "target", "__pycache__", "crates", "packaging"))
        found += [os.path.relpath(f"{folder}/{it}", ROOT) for it in sorted(files) if it.endswith(".md")]
    return sorted(found, key=lambda it: (it != "README.md", "/" in it, not it.startswith("docs/"), it))


class Document:
    """One page, as it is rendered."""

    def __init__(self, catalogue: Catalogue, path: str, known: Set[str], out: str) -> None:
        self.catalogue, self.path, self.known, self.out = catalogue, path, known, out
        self.page = page_of(path)
        self.markdown = Markdown(self.link, self.word)
        self.row, self.named = "", []  # type: Tuple[str, List[Item]]
        self.floors = {it.lower(): list(crates) for it, crates in catalogue.floors.items()}

    def link(self, url: str) -> str:
        """The place of a link: a page of the site, a copy of a file, or another host's page as it is."""
        if "://" in url or url.startswith("#"):
            return url
        path, mark, place = url.partition("#")
        target = posixpath.normpath(posixpath.join(posixpath.dirname(self.path), path))
        if target in self.known:
            return way(self.page, page_of(target)) + mark + place
        if os.path.isfile(f"{ROOT}/{target}"):
            os.makedirs(os.path.dirname(f"{self.out}/{target}"), exist_ok=True)
            shutil.copyfile(f"{ROOT}/{target}", f"{self.out}/{target}")
        return way(self.page, target) + mark + place

    # Words in backticks.

    def word(self, word: str, row: str, at: int) -> str:
        """A word in backticks: a link, where it names something that the site has."""
        if row != self.row:
            self.row, self.named = row, []
        url = self.clause(word, row) if CLAUSES.search(row[:at]) else self.place(word, row, at)
        shown = f"<code>{escape(word, quote=False)}</code>"
        return f'<a href="{escape(way(self.page, url))}">{shown}</a>' if url else shown

    def place(self, word: str, row: str, at: int) -> str:
        """The place that a word names; empty where it names none."""
        asked = re.fullmatch(r"tools/reading --where ([\w-]+)", word)
        if asked:
            return f"files.html#{asked[1].lower()}" if asked[1] in neighbours() else ""
        asked = re.fullmatch(r"tools/reading (\w+::\S+)", word)
        if PATH.fullmatch(word):
            return self.file(word.rstrip("/"), row)
        item = self.item(asked[1] if asked else word, row, at)
        if item is None:
            return self.catalogue.rooms[word].page if word in self.catalogue.rooms and self.may_be_small(word) else ""
        if item.contract:
            self.named.append(item)
        return item.url

    def may_be_small(self, word: str) -> bool:
        """Whether a plain word may be a name here, and isn't one of a format."""
        return self.path in INSIDE or bool(re.search(r"[A-Z_:]", word))

    def clause(self, word: str, row: str) -> str:
        """The place of a clause: of the contract that was named last and has it, else of the first one in the crates of the row."""
        beside = [it for crate in re.findall(r"`(\w+)`", row) if crate in self.catalogue.rooms for it in self.catalogue.rooms[crate].items()]
        for item in [*reversed(self.named), *beside]:
            if item.contract and item.kind != "impl" and any(name.split()[-1] == word for name, _ in item.contract.clauses):
                return f"{item.url}.{word}"
        return ""

    def item(self, word: str, row: str, at: int) -> Optional[Item]:
        """What a name means: of the crates that the row names the nearest one that has it, else of the heading's, or the only one."""
        owner = OWNER.match(row[at + len(word) + 1:])
        word = word[:-2] if word.endswith("()") else word
        found = [it for it in self.catalogue.by_name.get(word, []) if it.kind in FIRST]
        if owner and owner[1] in self.catalogue.rooms:
            found = [it for it in found if it.crate == owner[1]]
        elif not self.may_be_small(word):
            return None
        if not found:
            return None
        near = {it[1]: abs(it.start() - at) for it in reversed(list(re.finditer(r"`(\w+)(?:::\w+)*`", row))) if it[1] in self.catalogue.rooms}
        heading = self.markdown.headings[-1][1] if self.markdown.headings else ""
        floor = [it for name, crates in self.floors.items() if name in heading.lower() for it in crates]
        floor += [it for it in re.findall(r"\w+", heading) if it in self.catalogue.rooms]
        rank: Callable[[Item], Tuple[int, bool, int]] = lambda it: (near.get(it.crate, 10**6 if it.crate in floor else 10**7), it.name not in (word, word.split("::", 1)[-1]), FIRST.index(it.kind))
        best = min(found, key=rank)
        rivals = [it for it in found if rank(it) == rank(best)]
        if len(rivals) > 1 or rank(best)[0] == 10**7 and len({it.crate for it in found}) > 1 and not re.search("[A-Z_]", word):
            return None
        if word in self.catalogue.rooms and (rank(best)[0] >= 10**6 or best.crate == word):
            return None
        return best

    def file(self, path: str, row: str) -> str:
        """The place of a file: a page, or the part of a crate's page that has what stands in it."""
        beside = posixpath.normpath(posixpath.join(posixpath.dirname(self.path), path))
        for it in (path, beside, f"docs/{path}"):
            if it in self.known:
                return page_of(it)
        parts = path[len("crates/"):].split("/") if path.startswith("crates/") else path.split("/")
        room = self.catalogue.rooms.get(parts[0])
        rooms = [(room, "/".join(parts[1:]))] if room else [(self.catalogue.rooms[it], path) for it in re.findall(r"`(\w+)`", row) if it in self.catalogue.rooms]
        for one, inner in rooms:
            found = [it for it in one.files if it in (inner, f"{inner}.antt")]
            if found:
                return f"{one.page}#{found[0]}"
        return room.page if room and len(parts) == 1 else ""

    # The page.

    def render(self, text: Optional[str] = None, more: str = "") -> str:
        """The page as HTML, with its contents where it is long."""
        inside = self.markdown.page(read(self.path) if text is None else text)
        title = next((it for depth, it, _ in self.markdown.headings if depth == 1), self.path)
        heads = [(it, name) for depth, it, name in self.markdown.headings if depth == 2]
        if len(heads) > 3:
            rows = "".join(f'<li><a href="#{name}">{escape(it)}</a></li>' for it, name in heads)
            inside = re.sub(r"(</h1>)", rf'\1<details><summary>On this page</summary><ul class="short">{rows}</ul></details>'.replace("\\1", r"\1"), inside, 1)
        note = f'<footer>This page is <code>{self.path}</code> of the repository.</footer>'
        return framed(self.page, title, inside + more + note)


def rows_of_table(path: str, heading: str) -> List[Tuple[str, str]]:
    """The rows of the first table below a heading: the first cell, and the second."""
    text = read(path).partition(f"\n## {heading}\n")[2].partition("\n## ")[0]
    rows = [[cell.strip() for cell in re.split(r"(?<!\\)\|", it)[1:-1]] for it in text.split("\n") if it.startswith("|")]
    return [(it[0], it[1]) for it in rows[2:] if len(it) > 1]


def commands() -> List[str]:
    """The commands of the program, by README.md's table."""
    return list(dict.fromkeys(it for first, _ in rows_of_table("README.md", "Commands") for it in re.findall(r"`([a-z]+)\b", first)))


def neighbours() -> List[str]:
    """The words whose files the site lists: the neighbours that CONTRIBUTING.md names, and the commands."""
    return list(dict.fromkeys([*re.findall(r"`tools/reading --where ([\w-]+)`", read("CONTRIBUTING.md")), *commands()]))
