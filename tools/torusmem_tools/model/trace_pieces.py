"""Judges a trace of any length by reports: of its addresses, and of a long one of its operations, some in each.

A trace is linearizable if it is for each word alone (linearizability is local: Herlihy and Wing, TOPLAS 12(3), 1990,
theorem 1), so the words may be parted among reports. The operations on one word are cut by the order of their
services; each piece opens with the word that the one before left. In a piece words are numbered anew, and operations
by the order of their services, as those of 64 processors of up to 1024 each: the rules of a report ask only that no
two have one processor and one index, which is looked at here for the whole trace (`twice`). Whether a piece is good
says `torusmem check`. Of a bad one the first operation is looked for, in the order of services, with which it isn't
good any more, and `torusmem check` is asked again: that it is good before this operation, and bad with it.
"""
from __future__ import annotations

import os
from dataclasses import dataclass, field, replace
from itertools import chain, groupby, islice
from operator import itemgetter
from typing import Dict, Final, Iterator, List, Optional, Tuple

from torusmem_tools import command
from torusmem_tools.model.operations import word_after
from torusmem_tools.texts.table import Row, moment_text

MOST_ENTRIES = 65536
LATER_KINDS = {"and", "or", "xor", "max", "min"}
BANKS = 64
ADDRESS: Final = 0
SERVED: Final = 1
LINE: Final = 2


@dataclass
class Image:
    """Words of a memory, and the line of a text in which each stands; all others are 0."""

    path: str = ""
    words: Dict[int, int] = field(default_factory=dict)
    lines: Dict[int, int] = field(default_factory=dict)

    def place_of_word(self, address: int) -> str:
        """Where the word stands."""
        return f"{self.path}, line {self.lines[address]}" if address in self.lines else self.path


@dataclass
class Memory:
    """The words that a trace opens with, and those that it ends with, where they are known."""

    opening: Image
    closing: Optional[Image]


@dataclass
class Fault:
    """What is wrong with a trace: its place among other faults, the line of the table, and why."""

    place: Tuple[int, int, int]
    line: int
    why: str


@dataclass
class Piece:
    """Operations by address and service: those that are judged in one report. Of the first address the last operation
    before them, where there is one; and whether there are further ones on the last address."""

    rows: List[Row]
    before: Optional[Row]
    goes_on: bool


def left_by(row: Row) -> int:
    """The word that an operation left, where its reply is right."""
    return word_after(row[5], tuple(map(int, row[6].split())), 0 if row[7] == "ok" else int(row[7]))


def pieces_of(rows: List[Row], before: Optional[Row], after: Optional[int]) -> Iterator[Piece]:
    """Operations by address and service, cut into pieces that reports have room for, where `before` is the operation
    before them and `after` the address of the one behind."""
    for start in range(0, len(rows), MOST_ENTRIES):
        mine = rows[start : start + MOST_ENTRIES]
        ahead = rows[start - 1] if start else before
        behind = rows[start + MOST_ENTRIES][ADDRESS] if start + MOST_ENTRIES < len(rows) else after
        is_same = ahead is not None and ahead[ADDRESS] == mine[0][ADDRESS]
        yield Piece(mine, ahead if is_same else None, behind == mine[-1][ADDRESS])


def words_of(piece: Piece, memory: Memory) -> Iterator[tuple[int, int, int]]:
    """Each address of a piece with the words that it opens and ends with."""
    closing, last = memory.closing, piece.rows[-1][ADDRESS]
    for address, rows in groupby(piece.rows, itemgetter(ADDRESS)):
        for row in rows:
            pass
        is_first = piece.before is not None and piece.before[ADDRESS] == address
        opening = left_by(piece.before) if is_first and piece.before else memory.opening.words.get(address, 0)
        is_over = closing is not None and not (piece.goes_on and address == last)
        yield address, opening, closing.words.get(address, 0) if is_over and closing else left_by(row)


def events_of(rows: List[Row]) -> tuple[list[int], list[int]]:
    """The numbers of the events: those of all issues, then of all services, then of all answers (0 where there is
    none), each in the order of the rows; and the rows' places by their service. At one time issues come first, then
    services, then answers, and of the same kind that of the earlier row."""
    count = len(rows)
    times = [row[3] for row in rows]
    times += [row[SERVED] for row in rows]
    times += [-1 if row[4] is None else row[4] for row in rows]
    every = sorted(range(len(times)), key=times.__getitem__)
    numbers, unanswered = [0] * len(times), times.count(-1)
    for event, at in enumerate(islice(every, unanswered, None), 1):
        numbers[at] = event
    return numbers, [at - count for at in every if count <= at < 2 * count]


def report_of(piece: Piece, memory: Memory) -> str:
    """The report of a piece (docs/FORMATS.md, Reports)."""
    rows, count = piece.rows, len(piece.rows)
    words = list(words_of(piece, memory))
    entries: list[list[str]] = [[] for _ in range(BANKS)]
    homes = {address: (at, at % BANKS, entries[at % BANKS]) for at, (address, _, _) in enumerate(words)}
    events, order = events_of(rows)
    issued, served, answered = events[:count], events[count : 2 * count], events[2 * count :]
    replies, times = [], []
    for number, at in enumerate(order):
        address, _, _, _, _, kind, values, reply = rows[at]
        place, bank, mine = homes[address]
        name = f"{bank} {len(mine)}"
        answer = answered[at]
        mine.append(f"entry {name} {number >> 10} 0 {kind} {place}{values} {reply}\n")
        times.append(f"order {name} {issued[at]} {served[at]} {answer or '-'}\n")
        if answer:
            replies.append(f"answer {number >> 10} {number & 1023} {name} {reply}\n")
    version = 1 if LATER_KINDS.isdisjoint(map(itemgetter(5), rows)) else 2
    head = [f"torusmem {version}\nshape 8 2 {len(words)}\n"]
    head += [f"init {at} {opening}\n" for at, (_, opening, _) in enumerate(words) if opening]
    last = [f"word {at} {closing}\n" for at, (_, _, closing) in enumerate(words) if closing]
    end = "end complete\n" if len(replies) == count else "end incomplete\n"
    return "".join(chain(head, *entries, replies, last, times, [end]))


@dataclass
class Judge:
    """Asks the program, by reports in a folder."""

    program: str
    folder: str
    memory: Memory

    def is_good(self, piece: Piece, with_last: bool = True) -> bool:
        """Whether a piece is good; without what the memory ends with where that is asked."""
        if not piece.rows:
            return True
        memory = self.memory if with_last else replace(self.memory, closing=None)
        path = os.path.join(self.folder, f"report-{os.getpid()}")
        with open(path, "w", encoding="ascii") as file:
            file.write(report_of(piece, memory))
        try:
            command.torusmem("check", path, program=self.program)
        except command.Refusal as why:
            if not str(why).startswith("bad report at line "):
                raise
            return False
        return True

    def fault(self, piece: Piece) -> Optional[Fault]:
        """What is wrong with a piece, if anything is."""
        if self.is_good(piece):
            return None
        found = first_fault(piece, self.memory.opening)
        if found is not None:
            ahead = [row for row in piece.rows if row[1:3] < found.place[1:]]
            until = [row for row in piece.rows if row[1:3] <= found.place[1:]]
            is_first = self.is_good(replace(piece, rows=ahead), False)
            is_first = is_first and not self.is_good(replace(piece, rows=until), False)
        else:
            found = last_fault(piece, self.memory)
            is_first = found is not None and self.is_good(piece, False)
        if found is None or not is_first:
            lines = [row[LINE] for row in piece.rows]
            raise command.Refusal(f"the report of {len(lines)} of the lines {min(lines)} to {max(lines)} is bad")
        return found


def replay_piece(piece: Piece, opening: Image) -> Iterator[tuple[Row, int, Optional[Row]]]:
    """Each operation of a piece with the word that it found, and the one before it on this word."""
    last, word = piece.before, left_by(piece.before) if piece.before else 0
    for row in piece.rows:
        if last is None or last[ADDRESS] != row[ADDRESS]:
            last, word = None, opening.words.get(row[ADDRESS], 0)
        yield row, word, last
        last, word = row, word_after(row[5], tuple(map(int, row[6].split())), word)


def why_bad(row: Row, word: int, last: Optional[Row]) -> str:
    """What is wrong with an operation that found the word; nothing where it is right."""
    _, served, _, issued, answered, _, _, reply = row
    if reply not in ("ok", str(word)):
        origin = "as it opens" if last is None else f"line {last[LINE]}"
        return f"reply {reply}, but the word is {word} ({origin})"
    if served < issued:
        return f"served at {moment_text(served)}, but issued at {moment_text(issued)}"
    if answered is not None and answered < served:
        return f"served at {moment_text(served)}, but answered at {moment_text(answered)}"
    return ""


def first_fault(piece: Piece, opening: Image) -> Optional[Fault]:
    """The first operation of a piece, in the order of services, that is wrong."""
    found = None
    for row, word, last in replay_piece(piece, opening):
        if found is None or row[1:3] < found.place[1:]:
            why = why_bad(row, word, last)
            found = Fault((0, row[SERVED], row[LINE]), row[LINE], why) if why else found
    return found


def last_fault(piece: Piece, memory: Memory) -> Optional[Fault]:
    """The last operation on a word that doesn't end as it is said; of several words the first."""
    closing = memory.closing
    ends: Dict[int, tuple[Row, int]] = {}
    for row, word, _ in replay_piece(piece, memory.opening):
        ends[row[ADDRESS]] = row, word_after(row[5], tuple(map(int, row[6].split())), word)
    if closing is None or piece.goes_on:
        ends.pop(piece.rows[-1][ADDRESS])
    found = None
    for address, (row, word) in ends.items():
        said = closing.words.get(address, 0) if closing else word
        if said != word and (found is None or row[1:3] < found.place[1:]):
            why = f"the last operation on address {address} leaves {word}, but the word is {said} at the end"
            found = Fault((1, row[SERVED], row[LINE]), row[LINE], f"{why} ({closing.place_of_word(address) if closing else ''})")
    return found
