"""Writes pictures as SVG (Scalable Vector Graphics 1.1): elements as lines of text, on a white ground."""
from __future__ import annotations

from html import escape
from typing import Iterable, Optional, Tuple

MONO = "DejaVu Sans Mono, Menlo, Consolas, Liberation Mono, monospace"
SANS = "DejaVu Sans, Verdana, Helvetica, Arial, sans-serif"
INK = "#1f2328"
# How wide a character of MONO is, in sizes of the font.
MONO_WIDTH = 0.61

Point = Tuple[float, float]


def short(x: float) -> str:
    """A number with at most two decimals."""
    return f"{x:.2f}".rstrip("0").rstrip(".")


def element(name: str, inside: str = "", /, **attributes: object) -> str:
    """An element; `_` in a name of an attribute stands for `-`, and attributes of None are left out."""
    text = f"<{name}"
    for key, it in attributes.items():
        if it is not None:
            shown = short(it) if isinstance(it, (int, float)) else escape(str(it))
            text += f' {key.rstrip("_").replace("_", "-")}="{shown}"'
    return f"{text}>{inside}</{name}>" if inside else f"{text}/>"


def text(x: float, y: float, said: str, size: float = 12, **attributes: object) -> str:
    """A line of text whose baseline begins at the point."""
    attributes.setdefault("fill", INK)
    return element("text", escape(said), x=x, y=y, font_size=size, **attributes)


def title(said: str) -> str:
    """What is shown while the pointer is over the group in which this stands."""
    return element("title", escape(said))


def group(parts: Iterable[str], **attributes: object) -> str:
    """Elements that go together."""
    return element("g", "\n" + "\n".join(parts) + "\n", **attributes)


def path(points: Iterable[Point]) -> str:
    """The `d` of a path along the points."""
    return "M" + " L".join(f"{short(x)},{short(y)}" for x, y in points)


def svg(width: float, height: float, parts: Iterable[str], named: Optional[Tuple[str, str]] = None, unit: str = "", scale: float = 1) -> str:
    """A picture on a white ground; with a title and a description where it's named, which screen readers say. It is shown at
    this scale."""
    inside, more = [element("rect", width=width, height=height, fill="#ffffff"), *parts], ""
    if named:
        heads = [element(name, escape(it), id=name) for name, it in zip(("title", "desc"), named)]
        inside, more = [*heads, *inside], ' role="img" aria-labelledby="title desc"'
    return (
        f'<svg xmlns="http://www.w3.org/2000/svg" width="{short(width * scale)}{unit}" height="{short(height * scale)}{unit}" '
        f'viewBox="0 0 {short(width)} {short(height)}" font-family="{SANS}"{more}>\n' + "\n".join(inside) + "\n</svg>\n"
    )
