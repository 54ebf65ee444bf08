"""Draws a run as a timeline, an SVG picture, from a report with `order` lines.

    tools/timeline examples/report.txt > run.svg
    tools/timeline trace.txt > trace.svg
    tools/timeline examples/stale_calls.csv > stale.svg

Each processor has a lane, and time is the number of an event (issues, services and answers together, from 1,
as they happened). A bar runs from the issue of an operation to its answer; it is dashed and open at its end
where there is no answer. The line in the bar is the service. The colour, and the mark on the line, are those of the
home bank. Left of the line stands the operation, right of it the reply, where there is room; the tooltip of the bar says
all. With --width 252pt, a column of a paper, time is broken into pieces that stand below each other.

At most 400 operations are drawn: of a longer run the first 400, or the first 400 of the window of events
that --from and --to choose. The picture says so. --processors and --addresses choose lanes and operations, by
numbers and ranges: --processors 0,8..11. Where there are many lanes the numbers of the events stand again between
them.

Of a trace text, which has no services, the bars have the operation, its reply, and its place in the one order that
`torusmem linearize` finds. Where there is none, the events around the first from which on there is none are drawn, and
that event is red, as are the borders of the operations that are open on its word; above stand the values that its
answer may tell. --from and --to choose others. A trace text is a file, and not standard input.

Of a table of calls and replies, or a log, as `tools/from_csv --trace` reads them, the same is drawn with their own words. Where
there is no order, the key at fault alone is drawn, with the times of that text: the answer that no order gives, who wrote
what it found, and who wrote over that before.
"""
from __future__ import annotations

import re
from argparse import Namespace
from typing import Callable

from torusmem_tools import command
from torusmem_tools.draw import call_timeline, lanes, paper, trace_timeline
from torusmem_tools.draw.lanes import Window
from torusmem_tools.texts import call_table, report

TOOL = "timeline"
MOST = 400


def window_of(entries: list[report.Entry], total: int, first: int | None, last: int | None) -> Window:
    """The window that is asked for, of the chosen ones of so many operations, made shorter where it has more than
    MOST operations."""
    latest = max((it.answered or it.served for it in entries), default=1)
    begin = first or 1
    end = max(begin, min(last or latest, latest))
    found = [it for it in entries if it.issued <= end and (it.answered is None or it.answered >= begin)]
    of_all = f" of {total} operations" if len(found) < total else ""
    if len(found) <= MOST:
        return Window(begin, end, found, of_all and f"{len(found)}{of_all}")
    which = f"the first {MOST} of {len(found)}" + (f" in the window,{of_all}" if of_all else " operations")
    return Window(begin, max(begin, found[MOST].issued - 1), found[:MOST], f"{which}; --from and --to choose others")


def numbers_of(most: int) -> Callable[[str], set[int]]:
    """The reader of numbers and ranges up to the greatest."""

    def read(word: str) -> set[int]:
        found: set[int] = set()
        for part in word.split(","):
            ends = re.fullmatch(r"([0-9]{1,9})(?:\.\.([0-9]{1,9}))?", part)
            if ends is None or not int(ends[1]) <= int(ends[2] or ends[1]) <= most:
                raise command.bad_word(f"'{part}' is no number and no range up to {most}, as 3 or 8..11")
            found.update(range(int(ends[1]), int(ends[2] or ends[1]) + 1))
        return found

    return read


def chosen(given: Namespace, found: report.Report) -> tuple[list[report.Entry], list[int]]:
    """The operations and the processors that are asked for."""
    tiles = found.tiles()
    processors = sorted(given.processors) if given.processors else list(range(tiles))
    if processors[-1] >= tiles:
        raise command.WrongWords(f"there is no processor {processors[-1]}: the report has 0 to {tiles - 1}")
    if given.addresses and max(given.addresses) >= found.words:
        raise command.WrongWords(f"there is no address {max(given.addresses)}: the report has 0 to {found.words - 1}")
    is_chosen: Callable[[report.Entry], bool] = lambda it: it.source in processors and (not given.addresses or it.address in given.addresses)
    return [it for it in found.ordered() if is_chosen(it)], processors


def words() -> command.Parser:
    """The words of the command line."""
    parser = command.parser(TOOL, __doc__)
    report.add_words(parser)
    event = command.whole(1, report.MOST_EVENTS)
    parser.add_argument("--from", dest="first", metavar="EVENT", type=event, help="the first event that is drawn")
    parser.add_argument("--to", dest="last", metavar="EVENT", type=event, help="the last event that is drawn")
    only = numbers_of(report.MOST_TILES - 1)
    parser.add_argument("--processors", metavar="LIST", type=only, help="the processors that are drawn, as 0,8..11")
    only = numbers_of(65535)
    parser.add_argument("--addresses", metavar="LIST", type=only, help="the addresses whose operations are drawn")
    bare = "of a table or a log: addresses, values and replies are hexadecimal where they are bare digits, as 00ff"
    parser.add_argument("--hex", action="store_true", help=bare)
    paper.add_word(parser)
    return parser


def work() -> str:
    """What the tool prints."""
    given = words().parse_args()
    if given.first and given.last and given.first > given.last:
        raise command.WrongWords("--from is greater than --to")
    if given.hex and not call_table.is_calls(given.report):
        raise command.WrongWords("--hex is of use with a table or a log alone (--help says more)")
    if trace_timeline.is_trace(given.report):
        if given.processors or given.addresses:
            raise command.WrongWords("--processors and --addresses choose nothing of a trace text")
        if given.unchecked:
            raise command.WrongWords("--unchecked is of no use with a trace text (--help says more)")
        trace = trace_timeline.judge_trace(command.contents(given.report), given.report)
        return trace_timeline.draw_trace(trace, trace_timeline.window_of(trace, given.first, given.last), given.width, TOOL)
    if call_table.is_calls(given.report):
        if given.processors or given.addresses or given.unchecked:
            raise command.WrongWords("--processors, --addresses and --unchecked are of no use with a table or a log (--help says more)")
        text = command.contents(given.report)
        return call_timeline.picture(text, given.report, given.first, given.last, TOOL, given.width, given.hex)
    call_table.refuse_other_table(given.report)
    found = report.read_report(given)
    total = len(found.ordered())
    if found.entries and not total:
        raise command.Refusal(f"{given.report} has no `order` lines, so that the times of its operations aren't known")
    entries, processors = chosen(given, found)
    window = window_of(entries, total, given.first, given.last)
    if window.note:
        command.say(TOOL, f"draws {window.note}")
    return lanes.on_paper(found, window, processors, given.width, TOOL) if given.width else lanes.draw_lanes(found, window, processors)
