"""Reads a run's report against its machine and scripts, by rules of its own beside those of `torusmem check`.

What is looked at: the entries replay on one memory; the operations of each processor are those of its script, with
what `last` and a spin were answered; operations of a processor at one bank are served in the order of the script;
what waits for an answer (a fence, `last`, a further load of a spin and what follows it) waits; the tags. Where a
report has `order` lines the events are looked at; else there must be an order of all services that keeps them.
"""
from __future__ import annotations

from collections import Counter
from dataclasses import dataclass, field
from typing import Tuple

from torusmem_tools.model.campaign_cases import Case
from torusmem_tools.model.operations import word_after
from torusmem_tools.texts.report import Entry, Report
# A service of a bank, or a fence of a processor: its kind, whose, and its number.
Event = Tuple[str, int, int]


class BadReport(Exception):
    """A report isn't one of its run: in which way, in one word, and what."""

    def __init__(self, kind: str, what: str) -> None:
        super().__init__(what)
        self.kind = kind


@dataclass
class Asked:
    """An operation that a script asks for: its spelling, which one it waits for, and how many fences are before it."""

    text: str
    after: int | None
    fences: int


@dataclass
class ScriptPlace:
    """A script as far as its answers lead: its operations, and whether no further one comes."""

    asked: list[Asked] = field(default_factory=list)
    is_over: bool = False


def check_memory(case: Case, found: Report) -> None:
    """The report is of this machine, and its entries replay on one memory."""
    memory = {address: word for address, word in case.opening if word}
    if (found.radices, found.words, found.opening) != (case.radices, case.words, memory):
        raise BadReport("machine", "the shape, the words or what they open with are another machine's")
    memory = dict(memory)
    for it in found.entries:
        old = memory.get(it.address, 0)
        if it.bank != it.address % case.tiles():
            raise BadReport("memory", f"entry {it.bank} {it.place} isn't in its home bank")
        if it.reply != (None if it.kind == "store" else old):
            raise BadReport("memory", f"entry {it.bank} {it.place} found {old} and replied {it.replied()}")
        memory[it.address] = word_after(it.kind, it.values, old)
    if found.closing != {address: word for address, word in memory.items() if word}:
        raise BadReport("memory", "the words at the end aren't those that the entries leave")


def follow_script(lines: list[str], answers: dict[int, Entry]) -> ScriptPlace:
    """What the lines of a script ask for, given its answers by index, as far as these lead."""
    made, fences, waits = ScriptPlace(), 0, False

    def last_number() -> int | None:
        """What the last operation was answered, `ok` as 0; None where it isn't answered."""
        before = answers.get(len(made.asked) - 1)
        return None if before is None else before.reply or 0

    for text in lines:
        first, *rest = text.split()
        if first == "fence":
            fences += 1
            if len(made.asked) > sum(it in answers for it in range(len(made.asked))):
                return made
            continue
        for _ in range(int(rest[2]) if first == "spin" else 1):
            needs = waits or "last" in rest
            if needs and last_number() is None:
                return made
            words = ["load", rest[0]] if first == "spin" else [first, *rest]
            words = [str(last_number()) if it == "last" else it for it in words]
            asked = " ".join(str(int(it)) if it.isdigit() else it for it in words)
            made.asked.append(Asked(asked, len(made.asked) - 1 if needs else None, fences))
            waits = first == "spin"
            if waits and last_number() == int(rest[1]):
                break
    made.is_over = not (waits and last_number() is None)
    return made


def check_script(processor: int, script: ScriptPlace, mine: list[Entry]) -> bool:
    """The entries of a processor are of its script, in its order at each bank; whether the script is finished."""
    answers = {it.index: it for it in mine if it.index is not None}
    for index in sorted(answers):
        asked = script.asked[index].text if index < len(script.asked) else "nothing yet"
        if answers[index].asked() != asked:
            found = answers[index].asked()
            raise BadReport("script", f"operation {index} of processor {processor} is {found}, not {asked}")
    left = Counter(it.text for at, it in enumerate(script.asked) if at not in answers)
    for it in mine:
        if it.index is None:
            left[it.asked()] -= 1
            if left[it.asked()] < 0:
                raise BadReport("script", f"processor {processor} had no {it.asked()} to ask for")
    places: dict[int, int] = {}
    for index in sorted(answers):
        it = answers[index]
        if it.place < places.get(it.bank, -1):
            raise BadReport("order", f"operation {index} of processor {processor} overtook one before it at bank {it.bank}")
        places[it.bank] = it.place
    return script.is_over and len(answers) == len(script.asked)


def check_waits(processor: int, script: ScriptPlace, mine: dict[int, Entry]) -> None:
    """By the numbers of events: operations are issued in order, and what waits for an answer is issued behind it."""
    latest = fence = fences = issued = 0
    for index in sorted(mine):
        it, asked = mine[index], script.asked[index]
        if asked.fences > fences:
            fence, fences = latest, asked.fences
        if it.issued < fence:
            raise BadReport("fence", f"operation {index} of processor {processor} passed a fence")
        if it.issued < issued:
            raise BadReport("order", f"operation {index} of processor {processor} is issued before an earlier one")
        if asked.after is not None and it.issued < (mine[asked.after].answered or 0):
            raise BadReport("waits", f"operation {index} of processor {processor} didn't wait for the answer before it")
        latest, issued = max(latest, it.answered or 0), it.issued


def check_tags(case: Case, found: Report, is_finished: bool) -> None:
    """By the numbers of events: no tag is given twice at once, and in a finished run always the lowest free one."""
    out: dict[int, set[int]] = {it: set() for it in range(case.tiles())}
    events = [(it.issued, True, it) for it in found.entries]
    events += [(it.answered, False, it) for it in found.entries if it.answered is not None]
    for _, is_issue, it in sorted(events, key=lambda event: event[0]):
        mine = out[it.source]
        if not is_issue:
            mine.discard(it.tag)
            continue
        lowest = next(tag for tag in range(len(mine) + 1) if tag not in mine)
        if it.tag in mine or (is_finished and it.tag != lowest):
            raise BadReport("tags", f"processor {it.source} gave tag {it.tag}, while {sorted(mine)} were out")
        mine.add(it.tag)
    numbers = sorted(at for it in found.entries for at in (it.issued, it.served, it.answered) if at is not None)
    if is_finished and numbers != list(range(1, len(numbers) + 1)):
        raise BadReport("order", "the numbers of the events have gaps")


def check_one_order(
    scripts: dict[int, ScriptPlace], by_index: dict[int, dict[int, Entry]], entries: list[Entry]
) -> None:
    """There is an order of the services that keeps that of each bank and what waited: Kahn, CACM 5(11), 1962."""
    behind: dict[Event, list[Event]] = {}
    before: Counter[Event] = Counter()

    def edge(one: Event, other: Event) -> None:
        behind.setdefault(one, []).append(other)
        before[other] += 1

    for it in entries:
        if it.place:
            edge(("entry", it.bank, it.place - 1), ("entry", it.bank, it.place))
    for processor, mine in by_index.items():
        for index, it in mine.items():
            here, asked = ("entry", it.bank, it.place), scripts[processor].asked[index]
            if asked.fences:
                edge(("fence", processor, asked.fences), here)
            edge(here, ("fence", processor, asked.fences + 1))
            if asked.after is not None:
                edge(("entry", mine[asked.after].bank, mine[asked.after].place), here)
        for fence in range(1, 1 + max((it.fences for it in scripts[processor].asked), default=0)):
            edge(("fence", processor, fence), ("fence", processor, fence + 1))
    free = [one for one in behind if not before[one]]
    while free:
        for one in behind.pop(free.pop(), []):
            before[one] -= 1
            if not before[one]:
                free.append(one)
    if behind:
        raise BadReport("order", "no order of the services keeps that of the banks, and what waited for answers")


def check_report(case: Case, found: Report, status: int) -> None:
    """The report is one of the run, which ended with this status."""
    check_memory(case, found)
    lines: dict[int, list[str]] = {it: [] for it in range(case.tiles())}
    mine: dict[int, list[Entry]] = {it: [] for it in lines}
    for processor, text in case.lines:
        lines[processor].append(text)
    for it in found.entries:
        mine[it.source].append(it)
        if it.tag >= case.tags:
            raise BadReport("tags", f"entry {it.bank} {it.place} has the tag {it.tag}")
    by_index = {at: {it.index: it for it in mine[at] if it.index is not None} for at in lines}
    scripts = {it: follow_script(lines[it], by_index[it]) for it in lines}
    is_finished = all([check_script(it, scripts[it], mine[it]) for it in lines])
    if found.is_complete != is_finished or status != (0 if is_finished else 3):
        raise BadReport("end", f"status {status}, complete: {found.is_complete}, but finished: {is_finished}")
    has_order = any(it.issued for it in found.entries)
    if has_order != (case.way != "workers" and bool(found.entries)):
        raise BadReport("order", "there are `order` lines" if has_order else "there are no `order` lines")
    if has_order:
        check_tags(case, found, is_finished)
        for at in lines:
            check_waits(at, scripts[at], by_index[at])
    else:
        check_one_order(scripts, by_index, found.entries)
