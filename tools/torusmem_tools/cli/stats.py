"""Counts what a report tells of a run, as a table, or as JSON with --json.

    tools/stats examples/report.txt
    tools/stats --json examples/report.txt

The operations that banks have served, for each kind, home bank and processor, and how many of them are not
answered yet (outstanding); the least, mean, median and greatest distance from issue to service and from
service to answer; and the addresses with the most operations. A distance is a difference of event numbers
(issues, services and answers of the whole machine, counted together), not of cycles. An operation that is
issued and not served has no line in a report, and isn't counted.
"""
from __future__ import annotations

import json
from collections import Counter
from typing import Any, Iterable

from torusmem_tools import command
from torusmem_tools.texts import report
from torusmem_tools.texts.columns import aligned

TOOL = "stats"


def distances(found: list[int]) -> dict[str, float] | None:
    """Least, mean, median and greatest of the numbers, the mean rounded to two decimals; None if there are none."""
    if not found:
        return None
    rising, half = sorted(found), len(found) // 2
    both = rising[half] + rising[-1 - half]
    median = both / 2 if both % 2 else both // 2
    mean = round(sum(rising) / len(rising), 2)
    return {"least": rising[0], "mean": mean, "median": median, "greatest": rising[-1]}


def counts(name: str, keys: Iterable[Any], open_keys: Iterable[Any]) -> list[dict[str, Any]]:
    """How often each key is there, keys rising, and how often among those of outstanding operations."""
    every, out = Counter(keys), Counter(open_keys)
    return [{name: it, "operations": every[it], "outstanding": out[it]} for it in sorted(every)]


def hottest(entries: list[report.Entry], tiles: int, most: int) -> list[dict[str, int]]:
    """The addresses with the most operations; the lower address first where there are as many."""
    found = Counter(it.address for it in entries)
    ranked = sorted(found, key=lambda it: (-found[it], it))[:most]
    return [{"address": it, "bank": it % tiles, "operations": found[it]} for it in ranked]


def figures(found: report.Report, most: int) -> dict[str, Any]:
    """All that is counted."""
    entries, ordered = found.entries, found.ordered()
    out = [it for it in entries if it.index is None]
    return {
        "radices": found.radices,
        "tiles": found.tiles(),
        "words": found.words,
        "complete": found.is_complete,
        "operations": len(entries),
        "answered": len(entries) - len(out),
        "outstanding": len(out),
        "kinds": counts("kind", (it.kind for it in entries), (it.kind for it in out)),
        "banks": counts("bank", (it.bank for it in entries), (it.bank for it in out)),
        "processors": counts("processor", (it.source for it in entries), (it.source for it in out)),
        "issue_to_service": distances([it.served - it.issued for it in ordered]),
        "service_to_answer": distances([it.answered - it.served for it in ordered if it.answered is not None]),
        "hottest": hottest(entries, found.tiles(), most),
    }


def part(rows: list[dict[str, Any]]) -> list[str]:
    """A part of the table: a heading, and the rows; nothing where there are none."""
    return ["", *aligned([list(rows[0]), *(list(map(str, it.values())) for it in rows)])] if rows else []


def distance_part(made: dict[str, Any]) -> list[str]:
    """The part of the table that tells the distances."""
    rows = []
    for key in ("issue_to_service", "service_to_answer"):
        if made[key]:
            shown = {**made[key], "mean": f"{made[key]['mean']:.2f}"}
            rows.append({"events": key.replace("_", " "), **shown})
    if made["operations"] and not rows:
        return ["", "The report has no `order` lines, so that no distances are known."]
    return part(rows)


def table(made: dict[str, Any]) -> str:
    """What is counted, as text."""
    shape = " x ".join(map(str, made["radices"]))
    lines = [f"{shape} tiles, {made['words']} words, {'complete' if made['complete'] else 'incomplete'}", ""]
    lines += aligned([[it, str(made[it])] for it in ("operations", "answered", "outstanding")])
    for key in ("kinds", "banks", "processors"):
        lines += part(made[key])
    lines += distance_part(made) + part(made["hottest"])
    return "\n".join(lines) + "\n"


def words() -> command.Parser:
    """The words of the command line."""
    parser = command.parser(TOOL, __doc__)
    report.add_words(parser)
    parser.add_argument("--json", action="store_true", help="print JSON")
    most = command.whole(0, 65536)
    parser.add_argument("--top", metavar="N", type=most, default=10, help="how many addresses to name; 10 if not given")
    return parser


def work() -> str:
    """What the tool prints."""
    given = words().parse_args()
    made = figures(report.read_report(given), given.top)
    return json.dumps(made, indent=2) + "\n" if given.json else table(made)
