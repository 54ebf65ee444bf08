"""Reads the report of a run (docs/FORMATS.md, Reports).

A report is first judged by `torusmem check`. The reader here looks only at what a tool needs: that each line
has its words, and that what it names is there. So with `--unchecked` a bad report can be looked at too.
"""
from __future__ import annotations

import argparse
from dataclasses import dataclass, field
from typing import Callable, Iterator

from torusmem_tools import command
from torusmem_tools.model.operations import VALUES

MOST_TILES = 64
MOST_EVENTS = 196608


@dataclass
class Entry:
    """A service of a bank, with what the report tells of its operation. A reply of None is `ok`."""

    bank: int
    place: int
    source: int
    tag: int
    kind: str
    address: int
    values: tuple[int, ...]
    reply: int | None
    # of its `answer` line: the number of the operation among those of its processor
    index: int | None = None
    # of its `order` line: the numbers of its events; 0 where there is no such line
    issued: int = 0
    served: int = 0
    answered: int | None = None

    def asked(self) -> str:
        """The operation, as a report spells it."""
        return " ".join([self.kind, str(self.address), *map(str, self.values)])

    def replied(self) -> str:
        """The reply, as a report spells it."""
        return "ok" if self.reply is None else str(self.reply)


@dataclass
class Report:
    """The contents of a report: its entries by bank and place, and the words that are not 0, by address."""

    radices: list[int] = field(default_factory=list)
    words: int = 0
    opening: dict[int, int] = field(default_factory=dict)
    entries: list[Entry] = field(default_factory=list)
    closing: dict[int, int] = field(default_factory=dict)
    is_complete: bool = False

    def tiles(self) -> int:
        """The number of tiles."""
        return product(self.radices)

    def ordered(self) -> list[Entry]:
        """The entries that have an `order` line, by their issue."""
        return sorted((it for it in self.entries if it.issued), key=lambda it: it.issued)


class BadLine(Exception):
    """A line is not one of a report: why."""


def product(numbers: list[int]) -> int:
    """The numbers multiplied together."""
    made = 1
    for it in numbers:
        made *= it
    return made


def number(word: str, least: int, most: int, what: str) -> int:
    """The number that a word spells, which is to lie between `least` and `most`."""
    if not (word.isascii() and word.isdigit() and len(word) <= 20):
        raise BadLine(f"{what} is no number")
    found = int(word)
    if not least <= found <= most:
        raise BadLine(f"{what} is not {least} to {most}")
    return found


def value(word: str) -> int:
    """A word of the memory."""
    return number(word, 0, 2**64 - 1, "a value")


def reply(word: str) -> int | None:
    """A reply; None for `ok`."""
    return None if word == "ok" else value(word)


class Reader:
    """Takes the lines of a report, one after the other."""

    def __init__(self) -> None:
        self.report = Report()
        self.last_tile = 0
        self.by_place: dict[tuple[int, int], Entry] = {}
        self.kinds: dict[str, Callable[..., None]] = {
            "init": self.init_line,
            "entry": self.entry_line,
            "answer": self.answer_line,
            "word": self.word_line,
            "order": self.order_line,
            "end": self.end_line,
        }

    def take(self, line: int, words: list[str]) -> None:
        """Takes the line of that number, counted from 1."""
        if line == 1:
            if words not in (["torusmem", "1"], ["torusmem", "2"]):
                raise BadLine("a report begins with `torusmem 1` or `torusmem 2`")
        elif line == 2:
            self.shape_line(words)
        elif words[0] in self.kinds:
            self.kinds[words[0]](*self.counted(words))
        else:
            raise BadLine("no line of a report begins so")

    def counted(self, words: list[str]) -> list[str]:
        """The words behind the first, if there are as many as such a line has."""
        wanted = {"init": 3, "answer": 6, "word": 3, "order": 6, "end": 2}.get(words[0])
        if words[0] == "entry":
            if len(words) < 6 or words[5] not in VALUES:
                raise BadLine("there is no such operation")
            wanted = 8 + VALUES[words[5]]
        if len(words) != wanted:
            raise BadLine(f"a line `{words[0]}` has not so many words")
        return words[1:]

    def shape_line(self, words: list[str]) -> None:
        if len(words) != 4 or words[0] != "shape":
            raise BadLine("the second line of a report is `shape RADIX DIMS WORDS`")
        radices = [number(it, 2, 8, "a radix") for it in words[1].split("x")]
        dims = number(words[2], 1, 3, "the number of dimensions")
        if len(radices) == 1:
            radices *= dims
        if len(radices) != dims or product(radices) > MOST_TILES:
            raise BadLine("there is no such shape")
        self.report = Report(radices, number(words[3], 1, 65536, "the number of words"))
        self.last_tile = self.report.tiles() - 1

    def tile(self, word: str, what: str) -> int:
        return number(word, 0, self.last_tile, what)

    def address(self, word: str) -> int:
        return number(word, 0, self.report.words - 1, "an address")

    def init_line(self, address: str, word: str) -> None:
        self.report.opening[self.address(address)] = value(word)

    def word_line(self, address: str, word: str) -> None:
        self.report.closing[self.address(address)] = value(word)

    def entry_line(self, bank: str, place: str, source: str, tag: str, kind: str, address: str, *rest: str) -> None:
        at = (self.tile(bank, "a bank"), number(place, 0, 65535, "a place"))
        asked = (self.tile(source, "a source"), number(tag, 0, 15, "a tag"))
        values = tuple(map(value, rest[:-1]))
        made = Entry(*at, *asked, kind, self.address(address), values, reply(rest[-1]))
        if at in self.by_place:
            raise BadLine("there is such an entry already")
        self.by_place[at] = made
        self.report.entries.append(made)

    def entry(self, bank: str, place: str) -> Entry:
        """The entry that a line names."""
        found = self.by_place.get((self.tile(bank, "a bank"), number(place, 0, 65535, "a place")))
        if found is None:
            raise BadLine("there is no such entry")
        return found

    def answer_line(self, processor: str, index: str, bank: str, place: str, word: str) -> None:
        found = self.entry(bank, place)
        if self.tile(processor, "a processor") != found.source or reply(word) != found.reply:
            raise BadLine("the entry is of another processor, or has another reply")
        found.index = number(index, 0, 4095, "an index")

    def order_line(self, bank: str, place: str, issued: str, served: str, answered: str) -> None:
        event: Callable[[str], int] = lambda word: number(word, 1, MOST_EVENTS, "an event")
        found = self.entry(bank, place)
        found.issued, found.served = event(issued), event(served)
        found.answered = None if answered == "-" else event(answered)
        if not found.issued < found.served < (found.answered or MOST_EVENTS + 1):
            raise BadLine("issue, service and answer do not come in this order")

    def end_line(self, word: str) -> None:
        if word not in ("complete", "incomplete"):
            raise BadLine("a report ends with `end complete` or `end incomplete`")
        self.report.is_complete = word == "complete"


def lines(text: bytes, path: str) -> Iterator[tuple[int, list[str]]]:
    """The lines of a text, each with its number and cut into words."""
    rows = text.split(b"\n")
    if rows[-1] == b"":
        rows.pop()
    for at, row in enumerate(rows):
        if not row.isascii():
            raise command.Refusal(f"{path}, line {at + 1}: a report has ASCII characters only")
        yield at + 1, row.decode("ascii").split(" ")


def parse_report(text: bytes, path: str) -> Report:
    """The contents of a report's text. Refused with the first line that can't be understood."""
    reader = Reader()
    at = 0
    for at, words in lines(text, path):
        try:
            reader.take(at, words)
        except BadLine as why:
            raise command.Refusal(f"{path}, line {at}: {why}") from None
    if not reader.report.radices:
        raise command.Refusal(f"{path}, line {at + 1}: the report ends here, and has no `shape` line yet")
    return reader.report


def add_words(parser: command.Parser) -> None:
    """The words of the command line that every tool for reports has."""
    what = "the report of a run, as `torusmem steps` prints it; - is standard input"
    parser.add_argument("report", metavar="REPORT", help=what)
    parser.add_argument("--unchecked", action="store_true", help="don't have `torusmem check` judge the report first")


def read_report(given: argparse.Namespace) -> Report:
    """The report that the command line names, which `torusmem check` finds good if it is asked."""
    text = command.contents(given.report, command.MOST_BYTES)
    if not given.unchecked:
        with command.temporary_file(text) as path:
            command.torusmem_on({path: given.report}, "check", path)
    return parse_report(text, given.report)


def rows_of(entries: list[Entry]) -> list[int]:
    """For each entry, given by their issue, the lowest row in which no earlier one is still out.

    The entries are those of one processor; so that the bars of operations that are out together lie in
    different rows.
    """
    ends: list[float] = []
    rows = []
    for it in entries:
        row = next((at for at, end in enumerate(ends) if end < it.issued), len(ends))
        ends[row : row + 1] = [float("inf") if it.answered is None else it.answered]
        rows.append(row)
    return rows
