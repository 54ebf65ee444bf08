"""The pages of the house: one for each crate, one for each floor, and the floors as a picture whose rooms are links.

A module of packaging/site.
"""
from __future__ import annotations

import re
from html import escape
from typing import Dict, List, Set, Tuple

from catalogue import Catalogue, Item, Room, slug
from linked_code import Linker, library_url, way
from frame import framed
from torusmem_tools.repository.floors_picture import floors_picture
from torusmem_tools.repository.sources import purpose

NAMES_OF_KINDS = {"impl": "impl of a trait"}


def heading(floor: str) -> str:
    """A floor's heading."""
    return floor[:1].upper() + floor[1:]


def said(text: str) -> str:
    """A comment as HTML: what stands in backticks is code."""
    return re.sub(r"`([^`]+)`", r"<code>\1</code>", escape(text, quote=False))


def item_block(item: Item, linker: Linker) -> str:
    """An item with its text, under its anchor."""
    anchor = escape(item.anchor)
    kind = f'<span class="kind {item.kind}">{NAMES_OF_KINDS.get(item.kind, item.kind)}</span>'
    empty = item.contract is not None and not item.contract.clauses
    note = '<p class="where">No clause: of it only this is proved, that it is safe and ends.</p>' if empty else ""
    return (f'<div class="item" id="{anchor}"><h4><a href="#{anchor}"><b>{escape(item.name)}</b></a> {kind}</h4>\n'
            f"{linker.code(item)}{note}</div>")


def crate_page(catalogue: Catalogue, room: Room) -> Tuple[str, Linker]:
    """The page of a crate: its contracts and laws, its types and its definitions, file by file."""
    linker = Linker(catalogue, room.page)
    floor = f'<a href="{way(room.page, f"floors/{slug(room.floor)}/index.html")}">{escape(heading(room.floor))}</a>'
    below = [f'<a href="{way(room.page, catalogue.rooms[it].page)}">{it}</a>' for it in room.needs if it in catalogue.rooms]
    above = [f'<a href="{way(room.page, it.page)}">{it.crate}</a>' for it in catalogue.rooms.values() if room.crate in it.needs]
    page = [f"<h1><code>{room.crate}</code></h1>", f"<p>{said(purpose(room.crate))}</p>",
            f'<p class="where">A crate of the floor {floor}, <code>crates/{room.crate}</code>. '
            f"It stands on {', '.join(below) or 'no other crate'}. On it stand {', '.join(above) or 'none'}.</p>"]
    for title, kinds in (("Laws", ("law",)), ("Functions", ("function",)), ("Types", ("type",)), ("Definitions", ("definition",))):
        found = [it for it in room.items() if it.kind in kinds]
        if found:
            links = "".join(f'<li><a href="#{escape(it.anchor)}">{escape(it.name)}</a></li>' for it in found)
            page.append(f"<details><summary>{title} ({len(found)})</summary><ul class=\"parts\">{links}</ul></details>")
    for inner, items in room.files.items():
        page.append(f'<h2 id="{escape(inner)}"><code>{escape(inner)}</code></h2>')
        page += [item_block(it, linker) for it in items]
    return framed(room.page, room.crate, "\n".join(page)), linker


def floor_page(catalogue: Catalogue, floor: str) -> Tuple[str, str]:
    """The page of a floor: its crates, and what each has proved, a line a contract."""
    page = f"floors/{slug(floor)}/index.html"
    made = [f"<h1>{escape(heading(floor))}</h1>",
            f'<p>A floor of <a href="{way(page, "floors/index.html")}">the house</a>. Each crate with its contracts, a line each; '
            "a name leads to its clauses.</p>"]
    for crate in catalogue.floors[floor]:
        room = catalogue.rooms[crate]
        made.append(f'<h2 id="{crate}"><a href="{way(page, room.page)}"><code>{crate}</code></a></h2><p>{said(purpose(crate))}</p>')
        for title, kind in (("Laws", "law"), ("Functions", "function")):
            rows = [f'<li><a href="{way(page, it.url)}"><code>{escape(it.name)}</code></a>{": " if it.said else ""}{said(it.said)}</li>'
                    for it in room.items() if it.kind == kind]
            made += [f'<h4>{title}</h4><ul class="short">', *rows, "</ul>"] if rows else []
    return page, framed(page, heading(floor), "\n".join(made))


def house_page(catalogue: Catalogue) -> Tuple[str, str]:
    """The page of all floors: the picture, and the numbers of what stands on each."""
    page = "floors/index.html"
    picture = floors_picture(lambda crate: way(page, catalogue.rooms[crate].page),
                             lambda floor: way(page, f"floors/{slug(floor)}/index.html"))
    rows = []
    for floor, crates in catalogue.floors.items():
        kinds = [it.kind for crate in crates for it in catalogue.rooms[crate].items()]
        counts = "".join(f"<td>{kinds.count(it)}</td>" for it in ("law", "function", "definition"))
        link = f'<a href="{way(page, f"floors/{slug(floor)}/index.html")}">{escape(heading(floor))}</a>'
        rows.append(f"<tr><td>{link}</td><td>{len(crates)}</td>{counts}</tr>")
    inside = ["<h1>The floors</h1>", "<p>A crate uses crates of its own floor and of those below it. Each room is a link to its page.</p>",
              picture, "<table><tr><th>floor</th><th>crates</th><th>laws</th><th>public functions</th><th>definitions</th></tr>", *rows, "</table>"]
    return page, framed(page, "The floors", "\n".join(inside))


def library_page(catalogue: Catalogue) -> str:
    """The words of the toolchain's library that contracts and definitions use, module by module."""
    words: Dict[str, Set[str]] = {}
    for room in catalogue.rooms.values():
        for item in room.items():
            for name, where in (item.module.library if item.module else {}).items():
                words.setdefault(where, set()).add(name)
    made = ["<h1>Words of the toolchain's library</h1>", READING]
    for where in sorted(words):
        made.append(f'<h3 id="{library_url(where).partition("#")[2]}"><code>{escape(where)}</code></h3>')
        made.append("<p>" + " ".join(f"<code>{escape(it)}</code>" for it in sorted(words[where])) + "</p>")
    return framed("library.html", "Words of the library", "\n".join(made))


READING = """<p>Contracts and definitions are written over these words, which come with the toolchain and which this project trusts
(<code>rt doc</code> prints what each says). How a clause is read:</p>
<table><tr><th>written</th><th>read</th></tr>
<tr><td><code>(x : T) → ..</code></td><td>for every x of T</td></tr>
<tr><td><code>(x : T) × ..</code></td><td>there is an x of T, and</td></tr>
<tr><td><code>a → b</code>, <code>a × b</code>, <code>a ⊎ b</code></td><td>if a then b; a and b; a or b</td></tr>
<tr><td><code>a ≡ b</code>, <code>a ≢ b</code>, <code>⊥</code></td><td>a is equal to b; a isn't; never</td></tr>
<tr><td><code>◌+◌</code></td><td>an operation that stands between what it takes: <code>m + n</code></td></tr>
<tr><td><code>record</code>, <code>data</code></td><td>all fields hold together; exactly one of the constructors does</td></tr>
<tr><td><code>requires</code>, <code>ensures</code></td><td>what a caller must see to; what the function then does</td></tr>
<tr><td><code>self.now</code>, <code>self.old</code>, <code>self.new</code></td><td>the value behind <code>&amp;self</code>; those of <code>&amp;mut self</code> before and after the call</td></tr>
<tr><td><code>IfOk result p</code>, <code>IfErr result p</code></td><td>where the result is <code>Ok</code> (<code>Err</code>), p holds of what is in it</td></tr></table>"""
