"""Makes a run that goes wrong smaller, as long as it goes wrong in the same way.

Lines of scripts are left out by halves, quarters and so on down to single ones (Zeller and Hildebrandt, Simplifying and
isolating failure-inducing input, IEEE TSE 28(2), 2002); then tiles, words, tags, places of channels and workers are
taken away, and values made small; then steps are left out, as lines were; and again, until nothing of this leaves the
fault.
"""
from __future__ import annotations

from typing import Callable, Iterator, List, Tuple, TypeVar

from torusmem_tools.model.campaign_cases import Case

Fails = Callable[[Case], bool]
Item = TypeVar("Item")


def without_parts(items: List[Item], fails: Callable[[List[Item]], bool]) -> List[Item]:
    """As few of the items as one comes to by leaving out parts, larger ones first."""
    size = max(1, len(items) // 2)
    while items:
        at, is_less = 0, False
        while at < len(items):
            rest = items[:at] + items[at + size :]
            if fails(rest):
                items, is_less = rest, True
            else:
                at += size
        if size == 1 and not is_less:
            break
        size = max(1, size // 2)
    return items


def on_tiles(case: Case, radices: list[int]) -> Case:
    """The run on other tiles: processors that aren't there any more hand their lines to those that are, in turn."""
    made = case.with_(radices=radices, datelines=None)
    tiles, ports = made.tiles(), 8 * len(radices) + 2
    lines = [(processor % tiles, text) for processor, text in case.lines]
    steps = []
    for step in case.steps:
        agent, choice, *number = step.split()
        if not number or int(number[0]) < ports:
            steps.append(" ".join([str(int(agent) % (3 * tiles)), choice, *number]))
    return made.with_(lines=lines, steps=steps)


def on_words(case: Case, words: int) -> Case:
    """The run on fewer words: each address is taken by its remainder."""
    lines = []
    for processor, text in case.lines:
        kind, *rest = text.split()
        lines.append((processor, " ".join([kind, str(int(rest[0]) % words), *rest[1:]]) if rest else kind))
    return case.with_(words=words, lines=lines, opening=[it for it in case.opening if it[0] < words])


def fewer_tiles(case: Case) -> Iterator[list[int]]:
    """Smaller tori, the smallest first."""
    seen = [case.radices]
    found = [[it] for it in range(2, 9)]
    found += [case.radices[:at] + case.radices[at + 1 :] for at in range(len(case.radices))]
    found += [[it - (at == there) for at, it in enumerate(case.radices)] for there in range(len(case.radices))]
    for radices in found:
        tiles = 1
        for it in radices:
            tiles *= it
        is_less = (tiles, len(radices)) < (case.tiles(), len(case.radices))
        if radices and min(radices) >= 2 and radices not in seen and is_less:
            seen.append(radices)
            yield radices


def fewer_numbers(options: list[str]) -> Iterator[list[str]]:
    """The words of a command line with a number of it made smaller, and without an option and its number."""
    for at, word in enumerate(options):
        if word.startswith("--"):
            yield options[:at] + options[at + 2 :]
        elif int(word) < 2**32:
            for less in dict.fromkeys([1, int(word) // 2, int(word) - 1]):
                if 0 < less < int(word):
                    yield options[:at] + [str(less)] + options[at + 1 :]


def others(case: Case) -> Iterator[Case]:
    """Runs that are smaller in one thing but lines and steps, each of which is to be tried."""
    for radices in fewer_tiles(case):
        yield on_tiles(case, radices)
        kept = [it for it in case.lines if it[0] < on_tiles(case, radices).tiles()]
        yield on_tiles(case.with_(lines=kept), radices)
    for words in dict.fromkeys([1, 2, 4, case.words // 2, case.words - 1]):
        if 0 < words < case.words:
            yield on_words(case, words)
    for depth in dict.fromkeys([1, case.depth - 1]):
        if 0 < depth < case.depth:
            yield case.with_(depth=depth)
    for tags in dict.fromkeys([1, case.tags // 2, case.tags - 1]):
        if 0 < tags < case.tags:
            yield case.with_(tags=tags)
    if case.datelines is not None:
        yield case.with_(datelines=None)
    for options in fewer_numbers(case.options):
        yield case.with_(options=options)


def plainer_lines(text: str) -> Iterator[str]:
    """A line of a script with one of its values made 0 or 1."""
    words = text.split()
    for at in range(2, len(words)):
        for plain in ("0", "1"):
            if words[at] == "last" or (len(words[at]), words[at]) > (len(plain), plain):
                yield " ".join(words[:at] + [plain] + words[at + 1 :])


def plainer(case: Case, fails: Fails) -> Case:
    """The run with plain values, line after line, where it goes wrong with them too."""
    at = 0
    while at < len(case.lines):
        processor, text = case.lines[at]
        for other in plainer_lines(text):
            lines = case.lines[:at] + [(processor, other)] + case.lines[at + 1 :]
            if fails(case.with_(lines=lines)):
                case = case.with_(lines=lines)
                break
        else:
            at += 1
    return case


def size(case: Case) -> Tuple[object, ...]:
    """What is compared of two runs."""
    texts = (case.lines, case.steps, case.opening, case.datelines, case.options)
    return (case.tiles(), len(case.radices), case.depth, case.tags, case.words, *texts)


def smaller(case: Case, fails: Fails) -> Case:
    """A run that goes wrong, and no longer does with any part of it taken away."""
    while True:
        before = size(case)
        whole = case
        case = case.with_(lines=without_parts(case.lines, lambda it: fails(whole.with_(lines=it))))
        lined = case
        case = case.with_(opening=without_parts(case.opening, lambda it: fails(lined.with_(opening=it))))
        found = next((it for it in others(case) if fails(it)), None)
        while found is not None:
            case = found
            found = next((it for it in others(case) if fails(it)), None)
        case = plainer(case, fails)
        # steps last: where few are left they lead nowhere on other tiles
        rest = case
        case = case.with_(steps=without_parts(case.steps, lambda it: fails(rest.with_(steps=it))))
        if size(case) == before:
            return case
