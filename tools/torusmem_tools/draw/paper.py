"""The paper of a picture: its width as the command line says it, and letters of 7 points where that is in points."""
from __future__ import annotations

import math
from dataclasses import dataclass
from typing import Iterable, List, Optional, Tuple

from torusmem_tools import command
from torusmem_tools.draw import svg_text
from torusmem_tools.draw.strokes import width_of

# A picture for a paper is drawn in units of which its letters have so many; and how many points, or pixels, they get.
LETTERS = 11.0
POINTS, PIXELS = 7.0, 11.0
LINE, MARGIN = 15.0, 8.0
HELP = "the width of the picture, as 620 or 252pt; in points letters have 7 points, else 11 pixels"


@dataclass(frozen=True)
class Paper:
    """A width, in points or in pixels."""

    wide: float
    unit: str = ""

    def letters(self) -> float:
        """The size of the letters."""
        return POINTS if self.unit == "pt" else PIXELS

    def room(self, letters: float = LETTERS) -> float:
        """The width of a picture of which letters have so many units."""
        return self.wide * letters / self.letters()

    def inside(self) -> float:
        """The width between the margins."""
        return self.room() - 2 * MARGIN

    def svg(self, tool: str, wide: float, high: float, parts: Iterable[str], named: Optional[Tuple[str, str]] = None,
            letters: float = LETTERS) -> str:
        """A picture of these units on the paper. One that is too wide is made smaller, and standard error says so."""
        room = self.room(letters)
        scale = self.wide / max(wide, room)
        if wide > room * 1.01:
            least = math.ceil(wide * self.letters() / letters)
            unit = "points" if self.unit else "pixels"
            small = f"{letters * scale:.1f}".rstrip("0").rstrip(".")
            command.say(tool, f"letters have {small} {unit}; with --width {least}{self.unit} they have {self.letters():g}")
        return svg_text.svg(max(wide, room), high, parts, named, self.unit, scale)


def paper_of(word: str) -> Paper:
    """The reader of the word behind --width: a number of pixels, or of points."""
    digits = word[:-2] if word.endswith("pt") else word
    if not (digits.isascii() and digits.isdigit()) or not 200 <= int(digits[:5]) <= 2000:
        raise command.bad_word(f"{word!r} is no width from 200 to 2000, as 620 or 252pt")
    return Paper(int(digits), word[len(digits) :])


def add_word(parser: command.Parser, of: str = "", default: Optional[Paper] = None) -> None:
    """The word `--width` of the command line."""
    more = f"; {default.wide:g} if not given" if default else ""
    parser.add_argument("--width", metavar="W", type=paper_of, default=default, help=of + HELP + more)


def wrapped(said: str, wide: float) -> List[str]:
    """A text in lines that are as wide as there is room."""
    lines: List[str] = []
    for word in said.split(" "):
        if lines and width_of(f"{lines[-1]} {word}", LETTERS) * 0.94 <= wide:
            lines[-1] += f" {word}"
        else:
            lines.append(word)
    return lines


def say(parts: List[str], x: float, y: float, said: str, wide: float, **looks: object) -> float:
    """Adds a text in lines, the first of which stands there; and where the next one may stand."""
    for line in wrapped(said, wide / (1.15 if looks.get("font_weight") else 1)):
        parts.append(svg_text.text(x, y, line, LETTERS, **looks))
        y += LINE
    return y


def say_signed(parts: List[str], y: float, signs: List[Tuple[List[str], str]], wide: float, column: float = 34) -> float:
    """Adds the rows of a legend, as many side by side as there is room, each a sign that is drawn round (0, 0) and a
    text; and where the next row may stand."""
    x = MARGIN
    for sign, said in signs:
        far = column + width_of(said, LETTERS) + 8
        if x > MARGIN and x + far > MARGIN + wide:
            x, y = MARGIN, y + LINE + 1
        parts.append(svg_text.group(sign, transform=f"translate({svg_text.short(x)},{svg_text.short(y - 4)})"))
        y = say(parts, x + column, y, said, wide - column) - LINE
        x += far
    return y + LINE + 1
