"""Makes a trace text (docs/FORMATS.md, Trace text), which `torusmem linearize` judges, from calls and replies: what
texts/call_table.py reads of a table, and texts/histories.py of a log (`tools/from_csv --help` says what each may have).
"""
from __future__ import annotations

from collections import Counter
from dataclasses import dataclass, field
from itertools import chain
from typing import Callable, Dict, Iterable, List, Optional, Set, Tuple

from torusmem_tools import command
from torusmem_tools.model.operations import MASK
from torusmem_tools.texts import literals
from torusmem_tools.texts.numbering import LAST_PROCESSOR, MOST_WORDS, NIL, Names, processors

COUNTING = {"add", "and", "or", "xor", "max", "min"}
# What an operation is called whose failure says that it did not happen.
FAILED = {"load": "read", "store": "write"}


@dataclass
class Calls:
    """Operations, a place in each list for each: its processor as the text names it; what it asks and its reply, as a trace
    text has them but with marks for names, the reply empty where there is none; and the lines that tell of its issue and of
    its answer, 0 where none does. `order` has the events in the order of time: the issue of operation K as K, its answer as
    -1-K. Operations that did not happen, and each cas that found another word, are no part of the trace text."""

    path: str
    processors: List[str] = field(default_factory=list)
    asked: List[str] = field(default_factory=list)
    replies: List[str] = field(default_factory=list)
    issues: List[int] = field(default_factory=list)
    answers: List[int] = field(default_factory=list)
    order: List[int] = field(default_factory=list)
    dropped: Set[int] = field(default_factory=set)
    failed: Set[int] = field(default_factory=set)
    skipped: Counter[str] = field(default_factory=Counter)
    names: Names = field(default_factory=Names)
    who: str = "processor"
    spelled: Dict[str, str] = field(default_factory=dict)
    # The first line of a cas whose reply is `true` or `false`, as it is spelled there.
    yes_or_no: Optional[Tuple[int, str]] = None
    times: Callable[[int], Tuple[str, str]] = lambda at: ("", "")

    def add(self, processor: str, asked: str, line: int) -> int:
        """Takes an operation that is issued in a line, and answers its place."""
        self.processors.append(processor)
        self.asked.append(asked)
        self.replies.append("")
        self.issues.append(line)
        self.answers.append(0)
        return len(self.asked) - 1

    def fail(self, at: int, line: int, has_error: bool) -> None:
        """An operation failed. That did not happen, but for a cas without an error, which found another word."""
        kind = self.asked[at].split(" ", 1)[0]
        if kind == "cas" and not has_error:
            self.failed.add(at)
            self.answers[at] = line
        else:
            self.dropped.add(at)
            self.skipped[f"failed {FAILED.get(kind, kind)}" + (" with an error" if kind == "cas" else "")] += 1

    def settle(self) -> None:
        """Gives numbers to what is named. Refused where an operation counts with what is no number."""
        names = self.names
        if names.has_values():
            self.refuse_counting()
            self.refuse_unclear()
        if not names.keys and not names.has_values():
            return
        parts = [it.split(" ") for it in self.asked]
        values = chain(chain.from_iterable(it[2:] for it in parts), (it for it in self.replies if it not in ("", "ok")))
        names.settle((it[1] for it in parts), values)
        self.asked = [names.settled(it) for it in self.asked]
        self.replies = [names.settled(it) if it[:1] == "~" else it for it in self.replies]

    def refuse_counting(self) -> None:
        """Refuses the first operation that counts on a key whose values aren't all numbers."""
        counted = {it.split(" ", 2)[1] for it in self.asked if it.split(" ", 1)[0] in COUNTING}
        for at, it in enumerate(self.asked if counted else []):
            marks = [mark for mark in [*it.split(" ")[2:], self.replies[at]] if mark[:1] == "~"]
            if it.split(" ", 2)[1] in counted and marks:
                name = next(name for name, mark in self.names.values.items() if mark == marks[0])
                value = f"the value `{name}`" if literals.looks_odd(name) else "a value"
                why = f"{value} is no number, and other operations count with it"
                raise command.Refusal(f"{self.path}, line {self.issues[at]}: {why}")

    def refuse_unclear(self) -> None:
        """Refuses `true` and `false` as replies of cas where values are named so: they could be the word that it found."""
        named = next((it for it in self.names.value_lines if it.lower() in ("true", "false")), None)
        if named and self.yes_or_no:
            line, word = self.yes_or_no
            also = f"a value is named {named} in line {self.names.value_lines[named]}"
            why = f"the reply {word} of a cas is not clear, since {also}: write ok or fail"
            raise command.Refusal(f"{self.path}, line {line}: {why}")

    def opening(self, given: Dict[int, int], word: Optional[str]) -> Dict[int, int]:
        """The words that aren't 0 at first: those given, and for every other key the word, or nil where a value is named."""
        names = self.names
        known = {name: number for number, name in names.value_names.items()}
        first = known.get(NIL if word is None else word, "0" if word is None else "")
        if not first and word is not None:
            number = literals.literal(word, names.is_hex)
            if number is None or number > MASK:
                raise command.Refusal(f"{self.path} has no value `{word}`: --opening is a number, or spelled as there")
            first = str(number)
            if literals.is_other_base(word, names.is_hex):
                names.spelled_values.setdefault(first, word)
        if first == "0":
            return given
        counted = {it.split(" ", 2)[1] for it in self.asked if it.split(" ", 1)[0] in COUNTING} if word is None else set()
        keys = {it.split(" ", 2)[1] for it in self.asked} - counted
        return {**{int(it): int(first) for it in keys}, **given}

    def greatest_address(self) -> int:
        """The greatest address that is named."""
        return max(map(int, {it.split(" ", 2)[1] for it in self.asked}), default=0)

    def first_address_from(self, least: int) -> Tuple[int, str]:
        """The first line that names an address from this one on, and the address, with the name that it stands for."""
        numbers = (it.split(" ", 2)[1] for it in self.asked)
        line, number = next((line, it) for line, it in zip(self.issues, numbers) if int(it) >= least)
        name = self.names.shown_key(number)
        return line, number if name == number else f"{number} of `{name}`"

    def left_out(self, is_placed: bool) -> str:
        """What was skipped and why, by count; empty where nothing was. Failed cas count if they aren't placed."""
        gone = [f"{count} {what}" for what, count in self.skipped.items()]
        is_left = self.failed and not is_placed
        gone += [f"{len(self.failed)} failed cas, so a yes says nothing of them (--check does)"] if is_left else []
        lost = sum(not it for it in self.replies) - len(self.dropped) - len(self.failed)
        said = [f"left out: {', '.join(gone)}"] if gone else []
        said += [f"{lost} without an answer kept open"] if lost else []
        return "; ".join(said)


@dataclass
class Trace:
    """A trace text: the lines in front of its events, and the events, which are some of the calls' order."""

    calls: Calls
    head: List[str]
    events: List[int]
    lanes: List[str]
    indexes: List[int]

    def told(self, event: int, fixed: Dict[int, str]) -> str:
        """The line of an event, where some replies are fixed."""
        at = event if event >= 0 else ~event
        if event >= 0:
            return f"issue {self.lanes[at]} {self.calls.asked[at]}"
        return f"answer {self.lanes[at]} {self.indexes[at]} {fixed.get(at) or self.calls.replies[at]}"

    def text(self, fixed: Dict[int, str] = {}) -> str:
        """The whole text."""
        lanes, asked, indexes, replies = self.lanes, self.calls.asked, self.indexes, self.calls.replies
        if fixed:
            replies = [fixed.get(at) or it for at, it in enumerate(replies)]
        lines = [
            f"issue {lanes[it]} {asked[it]}" if it >= 0 else f"answer {lanes[~it]} {indexes[~it]} {replies[~it]}"
            for it in self.events
        ]
        return "\n".join([*self.head, *lines, ""])

    def event_of(self, line: int) -> Optional[int]:
        """The event of a line of the text."""
        at = line - 1 - len(self.head)
        return self.events[at] if 0 <= at < len(self.events) else None

    def line_of(self, event: int) -> int:
        """The line of the table or of the log that tells of an event."""
        return self.calls.issues[event] if event >= 0 else self.calls.answers[~event]

    def shown(self, event: int) -> str:
        """The line of an event, with what is numbered as its text names it."""
        names, at = self.calls.names, event if event >= 0 else ~event
        if event >= 0:
            return f"issue {self.calls.processors[at]} {names.shown_operation(self.calls.asked[at])}"
        return f"answer {self.calls.processors[at]} {self.indexes[at]} {names.shown(self.calls.replies[at])}"


def trace_of(calls: Calls, words: int, opening: Dict[int, int], asks: Iterable[int] = ()) -> Trace:
    """The trace text of the calls whose marks are settled, of so many words, with those of the failed ones that it asks."""
    lane = processors(dict.fromkeys(calls.processors))
    lanes = [lane[it] for it in calls.processors]
    absent = (calls.dropped | calls.failed).difference(asks)
    events = [it for it in calls.order if it not in absent and ~it not in absent] if absent else calls.order
    head = ["trace 1", f"words {words}", *calls.names.comments()]
    head += [f"init {address} {opening[address]}" for address in sorted(opening)]
    indexes, issued = [0] * len(lanes), dict.fromkeys(lane.values(), 0)
    for it in events:
        if it >= 0:
            indexes[it] = issued[lanes[it]]
            issued[lanes[it]] += 1
    return Trace(calls, head, events, lanes, indexes)


def processor_of(word: str) -> int:
    """The number of a processor."""
    return literals.number(word, 0, LAST_PROCESSOR, "the processor")


def address_of(word: str, is_hex: bool) -> int:
    """An address."""
    return literals.number(word, 0, MOST_WORDS - 1, "the address", is_hex)
