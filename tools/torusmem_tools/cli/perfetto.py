"""Writes a run in the Trace Event format (JSON), for ui.perfetto.dev and the tracing pages of browsers.

    tools/perfetto examples/report.txt > run.json

Each processor has a track, and further tracks where it has several operations out at once: a slice runs from
the issue of an operation to its answer, and two slices in it lie before and after the service. Each bank has
a track with a slice of one event at each of its services. One event of the report counts as one microsecond.
An operation without an answer is a slice that doesn't end.
"""
from __future__ import annotations

import json
from typing import Any, Dict, Iterator

from torusmem_tools import command
from torusmem_tools.texts import report

TOOL = "perfetto"
# The two processes of the trace, and the first of the tracks of each: no number stands for two things.
PROCESSORS, BANKS = 1, 2
FIRST_BANK, FIRST_ROW = 10, 100
Event = Dict[str, Any]


def named(process: int, track: int | None, name: str, place: int) -> Iterator[Event]:
    """The name of a process or of a track in it, and its place among the others."""
    what = "process" if track is None else "thread"
    where = {"pid": process} if track is None else {"pid": process, "tid": track}
    yield {"ph": "M", "name": f"{what}_name", **where, "args": {"name": name}}
    yield {"ph": "M", "name": f"{what}_sort_index", **where, "args": {"sort_index": place}}


def arguments(entry: report.Entry) -> dict[str, Any]:
    """What is shown of an operation that is picked. Values are texts: numbers of JSON are exact to 53 bits only."""
    made: dict[str, Any] = {"processor": entry.source, "index": entry.index, "tag": entry.tag, "address": entry.address}
    made.update(values=list(map(str, entry.values)), reply=entry.replied(), bank=entry.bank, place=entry.place)
    made.update(issued=entry.issued, served=entry.served, answered=entry.answered)
    return {key: it for key, it in made.items() if it is not None}


def slice_of(name: str, process: int, track: int, start: int, end: int | None, args: Event) -> Event:
    """A slice; without an end it is begun and never ended."""
    kind = "B" if end is None else "X"
    made = {"ph": kind, "name": name, "cat": "operation", "pid": process, "tid": track, "ts": start}
    if end is not None:
        made["dur"] = end - start
    return {**made, "args": args} if args else made


def slices(entry: report.Entry, track: int) -> Iterator[Event]:
    """The slices of an operation, the outer ones first."""
    said = f"{entry.asked()}: {entry.replied()}"
    args = arguments(entry)
    yield slice_of(said, PROCESSORS, track, entry.issued, entry.answered, args)
    yield slice_of(f"to bank {entry.bank}", PROCESSORS, track, entry.issued, entry.served, {})
    yield slice_of(f"from bank {entry.bank}", PROCESSORS, track, entry.served, entry.answered, {})
    of = {key: args[key] for key in ("processor", "index") if key in args}
    yield slice_of(said, BANKS, FIRST_BANK + entry.bank, entry.served, entry.served + 1, of)


def events(found: report.Report) -> Iterator[Event]:
    """All events of the trace: first the names, and then the slices, by processor and issue."""
    ordered, first = found.ordered(), FIRST_ROW
    yield from named(PROCESSORS, None, "processors", 0)
    yield from named(BANKS, None, "banks", 1)
    for bank in sorted({it.bank for it in ordered}):
        yield from named(BANKS, FIRST_BANK + bank, f"bank {bank}", bank)
    by_source: dict[int, list[report.Entry]] = {}
    for it in ordered:
        by_source.setdefault(it.source, []).append(it)
    for processor in sorted(by_source):
        entries = by_source[processor]
        rows = report.rows_of(entries)
        for row in range(1 + max(rows)):
            name = f"processor {processor}" + (f", row {row}" if row else "")
            yield from named(PROCESSORS, first + row, name, first + row)
        for entry, row in zip(entries, rows):
            yield from slices(entry, first + row)
        first += 1 + max(rows)


def text_of(found: report.Report) -> str:
    """The JSON text, an event a line."""
    lines = ",\n".join(map(json.JSONEncoder(separators=(",", ":")).encode, events(found)))
    return '{"displayTimeUnit":"ns","traceEvents":[\n' + lines + "\n]}\n"


def work() -> str:
    """What the tool prints."""
    parser = command.parser(TOOL, __doc__)
    report.add_words(parser)
    given = parser.parse_args()
    found = report.read_report(given)
    if found.entries and not found.ordered():
        raise command.Refusal(f"{given.report} has no `order` lines, so that the times of its operations aren't known")
    return text_of(found)
