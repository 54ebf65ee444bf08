"""Has the calls of a table or of a log judged by `torusmem linearize`, and tells a no in the lines of that text.

A cas that failed says that the word was another than the one it expected, and changes nothing. A trace text has no such
reply. So the rest is judged first. Where there is an order of it, each failed cas is put between its operations, where its time
allows and the word is another (which words of one key there are says the order alone: linearizability is local, Herlihy and
Wing, TOPLAS 12(3), 1990, theorem 1). Where there is no such place, model/failed_cas.py looks for a word that each of them found, and
the trace is judged again with these as replies.
"""
from __future__ import annotations

import re
from dataclasses import dataclass, field
from typing import Callable, Dict, List, Optional, Tuple

from torusmem_tools import command
from torusmem_tools.model import failed_cas, operations, refusal_story
from torusmem_tools.progress import Progress
from torusmem_tools.texts.call_trace import Calls, Trace, trace_of

NO = re.compile("(not linearizable|undecided) (at|by) line ([0-9]+)(.*)", re.DOTALL)


@dataclass
class Answer:
    """What the program says of a trace text: its order, or the event from which on there is none, at the latest where an earlier one
    isn't decided, and why."""

    order: List[str] = field(default_factory=list)
    event: Optional[int] = None
    is_undecided: bool = False
    more: str = ""
    reasons: List[str] = field(default_factory=list)
    is_late: bool = False


@dataclass
class Judge:
    """What judges: the words and opening words of the trace, and what the command line says."""

    calls: Calls
    words: int
    opening: Dict[int, int]
    options: List[str]
    progress: Progress

    def trace(self, fixed: Dict[int, str]) -> Trace:
        """The trace text with the failed ones whose word is fixed."""
        return trace_of(self.calls, self.words, self.opening, fixed)

    def answer(self, fixed: Dict[int, str], wants_reasons: bool) -> Tuple[Answer, Trace]:
        """What the program says where the words that some failed ones found are fixed."""
        trace = self.trace(fixed)
        with command.temporary_file(trace.text(fixed).encode("ascii")) as name, self.progress.waiting("judging"):
            try:
                said = command.torusmem("linearize", name, *self.options)
                return Answer(order=[it for it in said.split("\n") if it.startswith("order ")]), trace
            except command.Refusal as refused:
                found = NO.fullmatch(str(refused))
                if not found:
                    raise
            reasons = command.explain_answer(name, *self.options) if wants_reasons and found[1][0] == "n" else []
        event = trace.event_of(int(found[3]))
        assert event is not None
        is_late = found[2] == "by"
        return Answer([], event, found[1] == "undecided", "" if is_late else found[4], reasons, is_late), trace


class NoOrder(command.Refusal):
    """The line of the table, or of the log, from which on there is no order, or it isn't known."""

    def __init__(self, calls: Calls, trace: Trace, said: Answer) -> None:
        assert said.event is not None
        self.calls, self.trace, self.event, self.reasons, self.is_undecided = calls, trace, said.event, said.reasons, said.is_undecided
        self.status = 5 if said.is_undecided else 1
        at = ~said.event if said.event < 0 else said.event
        self.is_failed_cas = at in calls.failed
        shown = trace.shown(said.event)
        if self.is_failed_cas:
            shown = shown[: shown.rindex(" ")] + " fail"
        verdict = "undecided" if said.is_undecided else "not linearizable"
        told = f"by `{shown}`; an earlier line isn't decided" if said.is_late else f"from `{shown}` on{said.more}"
        super().__init__(f"{calls.path}, line {trace.line_of(said.event)}: {verdict} {told}")


def explain_no(calls: Calls, trace: Trace, said: Answer, wants_story: bool) -> NoOrder:
    """The same, with the story where it is wanted."""
    why = NoOrder(calls, trace, said)
    if wants_story and not said.is_undecided:
        why.story = why.lines = refusal_story.story_lines(calls, trace, why.event, said.reasons, why.is_failed_cas)
    return why


def verdict(judge: Judge, wants_story: bool) -> str:
    """The verdict. Refused with the line from which on there is no order."""
    calls = judge.calls
    said, trace = judge.answer({}, wants_story)
    if said.event is not None:
        raise explain_no(calls, trace, said, wants_story)
    count = len(said.order) + len(calls.failed)
    if lacks_place(judge, trace, said.order):
        judge.progress.say("looking for the words that failed operations found")
        words = all_words(judge, wants_story)
        said, trace = judge.answer(words, wants_story)
        if said.event is not None:
            raise explain_no(calls, trace, said, wants_story)
        count = len(said.order)
    more = f", {len(calls.failed)} cas that found another word among them" if calls.failed else ""
    return f"linearizable: {count} operation{'' if count == 1 else 's'} in one order{more}\n"


def all_words(judge: Judge, wants_story: bool) -> Dict[int, str]:
    """The word that each failed cas found, so that there is an order. Refused where there is none, or none is found."""
    calls, found = judge.calls, {}  # type: Calls, Dict[int, str]
    worst: Optional[Tuple[int, failed_cas.Search]] = None
    trace = judge.trace(dict.fromkeys(calls.failed, "0"))
    place = {event: at for at, event in enumerate(calls.order)}
    for key in sorted({calls.asked[it].split(" ", 2)[1] for it in calls.failed}, key=int):
        search, event = failed_cas.words_found(trace, key, calls.failed, judge.opening.get(int(key), 0))
        if event is None:
            found.update(search.words_of_failed())
        elif worst is None or place[event] < place[worst[0]]:
            worst = event, search
    if worst is None:
        return found
    event, search = worst
    numbers = [str(it) for it in search.words]
    reasons = [f" can be {' or '.join(filter(None, [', '.join(numbers[:-1]), numbers[-1]]))}"] if 0 < len(numbers) <= 16 else []
    raise explain_no(calls, trace, Answer([], event, search.is_undecided, "", reasons), wants_story)


def lacks_place(judge: Judge, trace: Trace, order: List[str]) -> bool:
    """Whether some failed cas has no place in an order of the others."""
    left = judge.calls.failed
    if not left:
        return False
    names = {(trace.lanes[it], str(trace.indexes[it])): it for it in trace.events if it >= 0}
    row_of = [names[lane, index] for _, lane, index, *_ in (it.split(" ", 3) for it in order)]
    key_of: Callable[[int], str] = lambda at: judge.calls.asked[at].split(" ", 2)[1]
    keys = {key_of(it) for it in left}
    by_key: Dict[str, List[int]] = {it: [] for it in keys}
    for it in row_of:
        if key_of(it) in keys:
            by_key[key_of(it)].append(it)
    return any(without_place(judge, key, by_key[key], left) for key in keys)


def without_place(judge: Judge, key: str, rows: List[int], left: set[int]) -> bool:
    """The same of the operations on one key, in their order."""
    calls, place, words = judge.calls, {it: at for at, it in enumerate(rows, 1)}, [judge.opening.get(int(key), 0)]
    for it in rows:
        kind, _, *values = calls.asked[it].split(" ")
        words.append(operations.word_after(kind, tuple(map(int, values)), words[-1]))
    change = [len(words)] * len(words)
    for at in range(len(words) - 2, -1, -1):
        change[at] = change[at + 1] if words[at] == words[at + 1] else at + 1
    mine = [it for it in calls.order if (it if it >= 0 else ~it) in place or (it if it >= 0 else ~it) in left]
    mine = [it for it in mine if calls.asked[it if it >= 0 else ~it].split(" ", 2)[1] == key]
    found: Dict[int, int] = {}
    latest = 0
    for it in mine:
        at = ~it if it < 0 else it
        if it < 0:
            latest = max(latest, place[at] if at in place else found[at])
        elif at in left:
            expected = int(calls.asked[at].split(" ")[2])
            found[at] = latest if words[latest] != expected else change[latest]
            if found[at] == len(words):
                return True
    first = len(words)
    for it in reversed(mine):
        at = ~it if it < 0 else it
        if it >= 0 and at in place:
            first = min(first, place[at])
        elif it < 0 and at in left and found[at] >= first:
            return True
    return False
