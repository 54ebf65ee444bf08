"""Distribution functions of times: the share of things that take longer than a time, which tells a heavy tail where a histogram is one
bar and a lawn. The share has a logarithmic axis, and so have the times where the longest is far above the median."""
from __future__ import annotations

import bisect
import math
from typing import Any, Callable, Dict, List, Optional, Tuple

from torusmem_tools import command
from torusmem_tools.draw import palette, svg_text
from torusmem_tools.draw.histogram import drawn_bars
from torusmem_tools.draw.paper import Paper
from torusmem_tools.draw.svg_text import Point

COLOURS = (palette.BLUE, palette.VERMILLION, palette.GREEN)
DASHES = (None, "5 2", "1.5 2")
# The longest time is so many times the median, where the tail is heavy.
HEAVY = 10
Times = Tuple[str, List[int]]


def is_heavy(times: List[int]) -> bool:
    """Whether some of the times are far above the median."""
    rising = sorted(times)
    return bool(rising) and rising[-1] >= HEAVY * max(rising[len(rising) // 2], 1)


def steps(times: List[int]) -> List[Tuple[int, float]]:
    """The times that there are, each with the share of those that are longer; but of the longest, of which none is."""
    rising = sorted(times)
    found = [(it, (len(rising) - bisect.bisect_right(rising, it)) / len(rising)) for it in sorted(set(rising))]
    return [(0, 1.0 - rising.count(0) / len(rising)), *((it, share) for it, share in found if it and share)]


class Axes:
    """A panel with shares from 1 down to the least one, and times from 0 or 1 up."""

    def __init__(self, of: List[Times], box: Tuple[float, float, float, float], letters: float) -> None:
        self.left, self.top, self.wide, self.high = box
        self.letters, every = letters, [it for _, times in of for it in times]
        self.is_log = any(is_heavy(times) for _, times in of)
        self.low = -math.ceil(math.log10(max(len(times) for _, times in of)) - 1e-9) or -1
        most = max([2, *every])
        self.step = next(f * 10**p for p in range(12) for f in (1, 2, 5) if f * 10**p * 6 >= most)
        self.most = 10 ** math.ceil(math.log10(most)) if self.is_log else self.step * -(-most // self.step)

    def at(self, time: float, share: float) -> Point:
        """The place of a time and a share."""
        part = math.log10(max(time, 1)) / math.log10(self.most) if self.is_log else time / self.most
        return self.left + self.wide * part, self.top + self.high * min(math.log10(share) / self.low, 1)

    def parts(self, unit: str, things: str) -> List[str]:
        """The lines and numbers of the axes, and what they are of."""
        low, right, size = self.top + self.high, self.left + self.wide, self.letters
        line: Callable[[Point, Point], str] = lambda p, q: svg_text.element("path", d=svg_text.path([p, q]), stroke=palette.GRID, stroke_width=0.6)
        ticks = [10**k for k in range(12) if 10**k <= self.most] if self.is_log else list(range(0, self.most + 1, self.step))
        made = []
        for it in ticks:
            x, _ = self.at(it, 1)
            made += [line((x, self.top), (x, low)), svg_text.text(x, low + 1.4 * size, str(it), size, text_anchor="middle")]
        for k in range(-self.low + 1):
            _, y = self.at(1, 10.0**-k)
            said = f"{10.0**-k:.{k}f}"
            made += [line((self.left, y), (right, y)), svg_text.text(self.left - 0.5 * size, y + 0.35 * size, said, size, text_anchor="end")]
        y = self.top + self.high / 2
        turned = f"rotate(-90 {svg_text.short(1.1 * size)} {svg_text.short(y)})"
        made.append(svg_text.text(1.1 * size, y, f"share of {things} that take longer", size, text_anchor="middle", transform=turned))
        return [*made, svg_text.text(self.left + self.wide / 2, low + 3.0 * size, f"{unit}s", size, text_anchor="middle")]


def curve(axes: Axes, times: List[int], number: int) -> str:
    """A distribution function, as a staircase."""
    found, places = steps(times), []
    for (time, share), (_, before) in zip(found, [(0, 1.0), *found]):
        places += [axes.at(time, before), axes.at(time, share)] if share else []
    places.append(axes.at(max(times), found[-1][1] or 1.0))
    places.append((places[-1][0], axes.top + axes.high))
    look: Dict[str, Any] = {"fill": "none", "stroke": COLOURS[number % 3], "stroke_width": 0.16 * axes.letters, "stroke_dasharray": DASHES[number % 3]}
    return svg_text.element("path", d=svg_text.path(places), **look)


def drawn(of: List[Times], said: str, unit: str, things: str, paper: Paper) -> str:
    """The distribution functions of some times, and what each is of."""
    wide, letters = paper.wide, paper.letters()
    left, right = 5.6 * letters, 1.4 * letters
    axes = Axes(of, (left, 3.0 * letters, wide - left - right, 0.55 * (wide - left - right)), letters)
    parts = [svg_text.text(left, 1.5 * letters, said, letters, font_weight="bold"), *axes.parts(unit, things)]
    y = axes.top + axes.high + 5.2 * letters
    for number, (name, times) in enumerate(of):
        parts.append(curve(axes, times, number))
        look: Dict[str, Any] = {"stroke": COLOURS[number % 3], "stroke_width": 0.16 * letters, "stroke_dasharray": DASHES[number % 3]}
        parts.append(svg_text.element("path", d=svg_text.path([(left, y - 0.35 * letters), (left + 3 * letters, y - 0.35 * letters)]), **look))
        parts.append(svg_text.text(left + 3.5 * letters, y, f"{name}: at most {max(times)}", letters))
        y += 1.5 * letters
    return svg_text.svg(wide, y, parts, unit=paper.unit)


def drawn_all(of: List[Times], said: str, unit: str, things: str, given: Optional[Paper], is_distribution: bool) -> str:
    """Times as histograms below each other, or as distribution functions over each other."""
    on = given or Paper(730)
    if is_distribution:
        return drawn(of, said, unit, things, on)
    heavy = [name for name, times in of if is_heavy(times)]
    if heavy:
        command.say("load", f"{heavy[-1]} has a heavy tail, which --distribution shows")
    parts = [svg_text.text(12, 24, said, 11 if given else 14, font_weight="bold")]
    for at, (heading, times) in enumerate(of):
        parts += drawn_bars(times, heading, unit, 36 + 220 * at, on.room() - 30, 11 if given else 13, things)
    return on.svg("load", on.room(), 36 + 220 * len(of), parts)
