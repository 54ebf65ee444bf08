"""Tells why no order gives an answer, in the lines and times of the table or of the log: the values that were possible, who
wrote the one that came and when it was surely gone, and two operations that both wrote over one value.
"""
from __future__ import annotations

import re
from dataclasses import dataclass, field
from typing import Dict, List, Optional, Tuple

from torusmem_tools.model import operations
from torusmem_tools.texts.call_trace import Calls, Trace

FOREVER = 2**62


@dataclass
class Operation:
    """An operation on the key: its place among the calls, the places of its issue and of its answer among all events, what it
    does, and its reply; None where there is none."""

    at: int
    issued: int
    answered: int
    kind: str
    values: Tuple[int, ...]
    reply: Optional[int]

    def found(self) -> Optional[int]:
        """The word that it found, where its reply tells it."""
        return None if self.kind == "store" else self.reply

    def leaves(self) -> Optional[int]:
        """The word that it leaves, where that is known; that of an operation without an answer, if it had its effect."""
        if self.kind == "store" or self.kind == "swap":
            return self.values[0]
        if self.kind == "cas" and self.reply is None:
            return self.values[1]
        return None if self.reply is None else operations.word_after(self.kind, self.values, self.reply)

    def changes(self) -> bool:
        """Whether it surely leaves another word than it found."""
        return self.found() is not None and self.leaves() != self.found()

    def writes(self) -> bool:
        """Whether it can leave another word than it finds."""
        return self.kind != "load" and (self.found() is None or self.changes())


@dataclass
class Story:
    """The operations on the key of an answer, and what is found out of it."""

    calls: Calls
    operations: List[Operation]
    failed: Operation
    value: int
    opening: int
    writers: List[Operation] = field(default_factory=list)
    over: Optional[Operation] = None
    witness: Optional[Operation] = None
    twin: Optional[Operation] = None

    def was_opening(self) -> bool:
        """Whether the key held the value at first."""
        return self.value == self.opening

    def last_writer(self) -> Optional[Operation]:
        """The writer of the value whose issue is the last."""
        return max(self.writers, key=lambda it: it.issued) if self.writers else None

    def gone_after(self, writer: Optional[Operation]) -> Tuple[int, Optional[Operation], Optional[Operation]]:
        """When the value of a writer, or the opening word, was surely gone, who wrote over it, and who saw that it was gone."""
        behind = writer.answered if writer else -1
        best: Tuple[int, Optional[Operation], Optional[Operation]] = (FOREVER, None, None)
        is_only = len(self.writers) + self.was_opening() == 1
        for it in self.operations:
            if it is self.failed or it is writer or it.answered >= self.failed.issued:
                continue
            takes = is_only and it.found() == self.value and it.changes()
            covers = it.issued > behind and it.writes() and it.leaves() != self.value
            sees = it.issued > behind and it.found() is not None and it.found() != self.value
            if (takes or covers) and it.answered < best[0]:
                best = it.answered, it, None
            elif sees and it.answered < best[0]:
                best = it.answered, self.writer_of(it), it
        return best

    def writer_of(self, reader: Operation) -> Optional[Operation]:
        """The only operation that can have left the word that another one found; None where there are more or none."""
        found = [it for it in self.operations if it is not reader and it.leaves() == reader.found() and it.issued < reader.answered and it.writes()]
        return found[0] if len(found) == 1 and reader.found() != self.opening else None

    def find(self) -> None:
        """Finds who wrote the value, who wrote over it, and who did so too."""
        before = [it for it in self.operations if it is not self.failed and it.issued < self.failed.answered]
        self.writers = [it for it in before if it.writes() and it.leaves() == self.value]
        sources = [*self.writers, *([None] if self.was_opening() else [])]  # type: List[Optional[Operation]]
        if any(it.writes() and it.leaves() is None for it in before):
            return  # it may have left the value too
        gone = [self.gone_after(it) for it in sources]
        if gone and all(it[1] or it[2] for it in gone):
            _, self.over, self.witness = max(gone, key=lambda it: it[0])
        if self.failed.changes() and len(sources) == 1:
            self.twin = next((it for it in before if it.found() == self.value and it.changes()), None)


def operations_on(trace: Trace, key: str, but: int) -> List[Operation]:
    """The operations on a key, in the order of issue, without those that failed, but for one."""
    calls, found = trace.calls, {}  # type: Calls, Dict[int, Operation]
    for place, event in enumerate(trace.events):
        at = event if event >= 0 else ~event
        kind, address, *values = calls.asked[at].split(" ")
        if address != key or at in calls.failed and at != but:
            continue
        if event >= 0:
            found[at] = Operation(at, place, FOREVER, kind, tuple(map(int, values)), None)
        else:
            found[at].answered = place
            found[at].reply = int(calls.replies[at]) if calls.replies[at].isdigit() else None
    return list(found.values())


def story_of(calls: Calls, trace: Trace, event: int) -> Story:
    """What is found out of the answer of an event."""
    at = ~event
    key = calls.asked[at].split(" ", 2)[1]
    mine = operations_on(trace, key, at)
    opening = next((int(it.split(" ")[2]) for it in trace.head if it.startswith(f"init {key} ")), 0)
    failed = next(it for it in mine if it.at == at)
    value = failed.values[0] if at in calls.failed else failed.reply
    made = Story(calls, mine, failed, opening if value is None else value, opening)
    if at not in calls.failed:
        made.find()
    else:
        made.writers = [it for it in mine if it.issued < failed.answered and it.writes() and it.leaves() == made.value]
    return made


class StoryTeller:
    """Says what operations are, as the table or the log has them."""

    def __init__(self, calls: Calls, trace: Trace) -> None:
        self.calls, self.names, self.trace = calls, calls.names, trace

    def times(self, at: int) -> str:
        """When an operation was issued and answered."""
        begin, end = self.calls.times(at)
        where = "in " if self.calls.who == "process" else ""
        return f"issued {where}{begin}, {f'answered {where}{end}' if end else 'never answered'}"

    def line(self, it: Operation) -> str:
        """Where it stands."""
        return f"line {self.calls.issues[it.at]}"

    def asked(self, at: int) -> str:
        """An operation with its processor."""
        kind, *rest = self.names.shown_operation(self.calls.asked[at]).split(" ")
        asked = " ".join([self.calls.spelled.get(kind, kind), *rest])
        return f"{asked} by {self.calls.who} {self.calls.processors[at]}"

    def operation(self, it: Operation) -> str:
        """An operation with its processor and its times."""
        return f"{self.asked(it.at)}, {self.times(it.at)}"

    def put(self, it: Operation, says: str, answer: bool = False) -> str:
        """A line of the story, at the line of an operation, or at that of its answer."""
        line = self.calls.answers[it.at] if answer else self.calls.issues[it.at]
        return f"{self.calls.path}:{line}: {self.operation(it)}: {says}"


def possible(calls: Calls, reasons: List[str]) -> str:
    """The values that the answer could have told, as the text names them."""
    found = re.search(r" can be (.*)$", reasons[0]) if reasons else None
    return re.sub("[0-9]+(?! others?)", lambda it: calls.names.shown(it[0]), found[1]) if found else ""


def left_lines(found: Story, teller: StoryTeller, reasons: List[str]) -> List[str]:
    """A line where the reply is what the operation leaves in a word that it could have found: perhaps the log has that word."""
    it, match = found.failed, re.search(r" can be (.*)$", reasons[0]) if reasons else None
    if it.kind in ("load", "store") or match is None:
        return []
    words = [int(word) for word in re.findall("[0-9]+(?! others?)", match[1])]
    for word in words:
        if operations.word_after(it.kind, it.values, word) == found.value:
            shown = teller.names.shown
            leaves = f"where it finds {shown(str(word))} it leaves {shown(str(found.value))}"
            return [f"{found.calls.path}: {leaves}, and a reply is the word before: does the log have the new word?"]
    return []


def story_lines(calls: Calls, trace: Trace, event: int, reasons: List[str], is_failed_cas: bool) -> List[str]:
    """The lines of the story."""
    if event >= 0:
        return []
    found, teller = story_of(calls, trace, event), StoryTeller(calls, trace)
    can, value = possible(calls, reasons), calls.names.shown(str(found.value))
    could = f", but the word could only be {can}" if can else ", and in no order the word can be so"
    if is_failed_cas:
        expected = calls.names.shown(str(found.failed.values[0]))
        lines = [teller.put(found.failed, f"it failed, so the word was not {expected}{could}", True)]
        writer = found.last_writer()
        return lines + ([teller.put(writer, f"wrote {expected}")] if writer else []) + open_lines(found, teller)
    lines = [teller.put(found.failed, f"it found {value}{could}", True), *left_lines(found, teller, reasons)]
    writer = found.last_writer()
    if writer:
        count = len(found.writers)
        lines.append(teller.put(writer, f"wrote {value}" + (f", the last of {count} that did" if count > 1 else "")))
    elif not found.was_opening():
        later = next((it for it in found.operations if it.writes() and it.leaves() == found.value), None)
        none = f"{calls.path}: no operation whose reply is known writes {value} there"
        lines.append(teller.put(later, f"wrote {value}, and was issued behind that answer") if later else none)
        lines += [] if later else failed_lines(found, teller)
    if found.was_opening():
        lines.append(f"{calls.path}: {value} is what the word was at first")
    before = f"before {teller.line(found.failed)} was issued"
    if found.twin:
        lines.append(teller.put(found.twin, f"it found {value} too, and both wrote over it: one of the two is lost"))
    elif found.witness:
        if found.over:
            lines.append(teller.put(found.over, f"wrote {calls.names.shown(str(found.witness.found()))}"))
        lines.append(teller.put(found.witness, f"it found {calls.names.shown(str(found.witness.found()))}, and was answered {before}: {value} was gone by then"))
    elif found.over:
        lines.append(teller.put(found.over, f"wrote over {value}, and was answered {before}"))
    return lines + open_lines(found, teller)


def failed_lines(found: Story, teller: StoryTeller) -> List[str]:
    """A line for the first operation that failed and would have written the value."""
    calls, key = found.calls, found.calls.asked[found.failed.at].split(" ", 2)[1]
    for at in sorted(calls.dropped | calls.failed):
        kind, address, *values = calls.asked[at].split(" ")
        if address == key and kind in ("store", "swap", "cas") and int(values[-1]) == found.value:
            return [f"{calls.path}:{calls.issues[at]}: {teller.asked(at)}: it failed, and would have written {calls.names.shown(values[-1])}"]
    return []


def open_lines(found: Story, teller: StoryTeller) -> List[str]:
    """A line for each other operation that is open when the answer comes, at most eight."""
    mine = [it for it in found.operations if it.issued < found.failed.answered < it.answered and it.kind != "load"]
    lines = [teller.put(it, "it was open then") for it in mine[:8]]
    return lines + ([f"{found.calls.path}: {len(mine) - 8} others were open then"] if len(mine) > 8 else [])
