"""The floors of crates.txt as a picture: a band for each floor, the lowest below, and a room in it for each crate.

`tools/reading` prints it (docs/pictures/floors.svg), and packaging/site with a link in each room.
"""
from __future__ import annotations

from html import escape
from typing import Callable, List, Optional

from torusmem_tools.draw import svg_text
from torusmem_tools.repository.contracts import contracts_in, files_of
from torusmem_tools.repository.sources import floors, purpose

WIDTH, LABEL, HIGH, GAP, LETTERS = 900.0, 150.0, 24.0, 6.0, 11.0
CODE, LAWS, TESTS = "#ddf4ff", "#dafbe1", "#ffffff"
Href = Callable[[str], str]


def kind_of(crate: str) -> str:
    """What a crate has: `laws` alone, `tests` alone, or `code`."""
    found = [it for file in files_of(crate) for it in contracts_in(file) if it.is_function]
    if not found:
        return "tests" if crate.endswith("_tests") else "code"
    return "laws" if all(it.is_law for it in found) else "code"


def room(crate: str, x: float, y: float, wide: float, href: Optional[Href]) -> str:
    """The box of a crate; its purpose stands where the pointer rests."""
    kind = kind_of(crate)
    fill = {"laws": LAWS, "tests": TESTS, "code": CODE}[kind]
    dash = "3 2" if kind == "tests" else None
    box = svg_text.element("rect", x=x, y=y, width=wide, height=HIGH, rx=3, fill=fill, stroke="#57606a", stroke_width=1, stroke_dasharray=dash)
    name = svg_text.text(x + wide / 2, y + HIGH * 0.66, crate, LETTERS, text_anchor="middle", font_family=svg_text.MONO)
    parts = [svg_text.title(f"{crate}: {purpose(crate)}"), box, name]
    return linked(parts, href(crate) if href else None)


def linked(parts: List[str], url: Optional[str]) -> str:
    """Elements that go together, as a link where there is a place to go."""
    return svg_text.group(parts) if url is None else f'<a href="{escape(url)}">\n' + "\n".join(parts) + "\n</a>"


def band(floor: str, crates: List[str], y: float, href: Optional[Href], floor_href: Optional[Href]) -> "tuple[List[str], float]":
    """A floor that begins at y, and how high it is."""
    x, row, rooms = LABEL, y + GAP, []
    for crate in crates:
        wide = len(crate) * LETTERS * svg_text.MONO_WIDTH + 14
        if x + wide > WIDTH - GAP:
            x, row = LABEL, row + HIGH + GAP
        rooms.append(room(crate, x, row, wide, href))
        x += wide + GAP
    high = row + HIGH + GAP - y
    ground = svg_text.element("rect", x=1, y=y, width=WIDTH - 2, height=high, fill="#f6f8fa", stroke="#d0d7de")
    label = svg_text.text(10, y + GAP + HIGH * 0.7, floor, 14, font_weight="bold")
    return [ground, linked([label], floor_href(floor) if floor_href else None), *rooms], high


def legend(y: float) -> List[str]:
    """What the colours mean."""
    parts, x = [], LABEL
    for fill, said, dash in ((CODE, "code with contracts", None), (LAWS, "laws alone", None), (TESTS, "tests alone", "3 2")):
        parts.append(svg_text.element("rect", x=x, y=y, width=22, height=14, rx=3, fill=fill, stroke="#57606a", stroke_dasharray=dash))
        parts.append(svg_text.text(x + 28, y + 11, said, 12))
        x += 44 + 7 * len(said)
    parts.append(svg_text.text(x + 8, y + 11, "A crate uses its own floor and those below.", 12))
    return parts


def floors_picture(href: Optional[Href] = None, floor_href: Optional[Href] = None) -> str:
    """The picture; with links where it is told where a crate and a floor are."""
    parts, y = [], 2.0
    for floor, crates in reversed(floors().items()):
        made, high = band(floor, list(crates), y, href, floor_href)
        parts += made
        y += high + 3
    named = ("The floors of torusmem", "A band for each floor, the lowest below; a box in it for each crate.")
    return svg_text.svg(WIDTH, y + 24, parts + legend(y + 6), named)
