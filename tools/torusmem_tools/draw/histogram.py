"""Histograms of times: how many things took how long, a bar for each step; and what is said of a list of times."""
from __future__ import annotations

from typing import Any

from torusmem_tools.draw import palette, svg_text
from torusmem_tools.draw.channel_load import step_of
from torusmem_tools.model.percentiles import percentile

BARS = 24


def summary_of(found: list[int]) -> dict[str, Any] | None:
    """What is printed of a list of numbers; None if there are none."""
    if not found:
        return None
    rising = sorted(found)
    mean = round(sum(rising) / len(rising), 2)
    parts = {name: percentile(rising, part) for name, part in (("median", 50), ("p95", 95), ("p99", 99))}
    return {"count": len(rising), "least": rising[0], "mean": mean, **parts, "greatest": rising[-1]}


def bars(values: list[int], step: int) -> list[int]:
    """How many of the values are in each step from 0 on."""
    made = [0] * (max(values, default=0) // step + 1)
    for it in values:
        made[it // step] += 1
    return made


def drawn_bars(values: list[int], heading: str, unit: str, top: float, right: float, size: int, things: str = "operations") -> list[str]:
    """A histogram: a bar for each step of the times."""
    step = step_of(max(values, default=0) + 1, BARS)
    found = bars(values, step)
    tick, width = step_of(max(found), 4), (right - 60) / len(found)
    high = tick * -(-max(found) // tick)
    turned = f"rotate(-90 20 {top + 100})"
    parts = [svg_text.text(60, top + 14, heading, size, font_weight="bold")]
    parts.append(svg_text.text(20, top + 100, things, 11, text_anchor="middle", transform=turned))
    for line in range(0, high + 1, tick):
        y = top + 170 - 140 * line / high
        parts.append(svg_text.element("path", d=svg_text.path([(60, y), (right, y)]), stroke=palette.GRID))
        parts.append(svg_text.text(54, y + 4, str(line), 11, text_anchor="end"))
    apart = -(-step_of(max(values, default=0) + 1, max(2, int((right - 60) // 42))) // step)
    for at, count in enumerate(found):
        x, tall = 60 + at * width, 140 * count / high
        end = f" to {at * step + step - 1}" if step > 1 else ""
        said = svg_text.title(f"{at * step}{end} {unit}s: {count} {things}")
        place = {"x": x + 1, "y": top + 170 - tall, "width": max(width - 2, 1), "height": tall}
        parts.append(svg_text.group([said, svg_text.element("rect", fill=palette.BLUE, **place)]))
        if at % apart == 0:
            middle = x + (width / 2 if step == 1 else 0)
            parts.append(svg_text.element("path", d=svg_text.path([(middle, top + 170), (middle, top + 174)]), stroke=svg_text.INK))
            parts.append(svg_text.text(middle, top + 186, str(at * step), 11, text_anchor="middle"))
    return [*parts, svg_text.text(right, top + 200, f"{unit}s", 11, text_anchor="end")]
