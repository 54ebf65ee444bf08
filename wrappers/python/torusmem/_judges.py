"""The judges of reports, networks and traces."""

from __future__ import annotations

from ctypes import c_uint64, create_string_buffer
from dataclasses import dataclass
from operator import index as whole
from typing import Any, Dict, Iterable, Mapping, NamedTuple, Optional, Tuple, Union

from . import _library
from ._faults import EVENT_REASONS, NETWORK_REASONS, REASONS, BadReport, EventFault, TextFault
from ._records import VALUES, Operation, Text, bytes_of, number_of, word_of


def check(report: Text, file: str = "report") -> None:
    """Checks a report. BadReport tells the first bad line of one that isn't good; file is how it names the text.

    A good report replays on one memory, whichever machine or simulator wrote it.
    """
    text = bytes_of(report, "report")
    said = _library.library().check(text, len(text))
    if said.code == _library.BAD_REPORT:
        raise BadReport(file, said.value)
    if said.code != _library.OK:
        raise MemoryError(f"torusmem: {REASONS[12]} (F12)")


class Rising(NamedTuple):
    """A network that is free of deadlock: each pair has a route, and the numbers, by channel, rise along all of them."""

    numbers: Tuple[int, ...]


class NoRoute(NamedTuple):
    """The first pair of a network, from channel src to channel dst, whose walk is no route: the reason, and the step at
    which it shows, from 0, if it shows at one."""

    src: int
    dst: int
    reason: str
    step: Optional[int]


class NoPair(NamedTuple):
    """A network that joins no pair: no packets go anywhere, so nothing is judged."""


class Link(NamedTuple):
    """A channel of a cycle, which waits for the next one: by packets to the ejection channel `to`, or, where that is
    None, by replies on the injection channel `replies`."""

    channel: int
    to: Optional[int]
    replies: Optional[int]


class Fill(NamedTuple):
    """A channel that fills up: the one at this step, from 0, of the route of packets of one flit from channel src to
    channel dst."""

    src: int
    dst: int
    step: int


class Cycle(NamedTuple):
    """A network that deadlocks: channels that wait for one another in a circle, in their order, and the channels that
    fill up then, the first to be filled first. There are none of these where they weren't found."""

    links: Tuple[Link, ...]
    jam: Tuple[Fill, ...] = ()


Verdict = Union[Rising, NoRoute, NoPair, Cycle]


def network(text: Text, file: str = "network text") -> Verdict:
    """Judges the network of a network text of fixed routes (docs/FORMATS.md, "Network text"): whether each pair that it joins has a
    route, and whether its channels can wait for one another in a circle, so that it deadlocks. TextFault tells the first fault of the text;
    file is how it names the text.

        >>> from torusmem import network
        >>> network("channels 3\\ninject 0\\neject 2\\njoin 0 2\\nnext 0 2 1\\nnext 1 2 2\\n")
        Rising(numbers=(0, 1, 2))
        >>> network("channels 2\\ninject 0\\neject 1\\njoin 0 1\\n")
        NoRoute(src=0, dst=1, reason='no channel', step=1)
    """
    given, calls = bytes_of(text, "network"), _library.library()
    out = create_string_buffer(1 << 16)
    said = calls.network(given, len(given), out, len(out))
    if said.code == _library.SHORT:
        out = create_string_buffer(said.value)
        said = calls.network(given, len(given), out, len(out))
    if said.code == _library.FAULT_MEMORY:
        raise MemoryError(f"torusmem: {REASONS[12]} (F12)")
    if said.code not in (_library.OK, _library.NO_ROUTE, _library.CYCLE, _library.NO_PAIR):
        raise TextFault(file, said.value, said.code, "network", NETWORK_REASONS.get(said.code, ""))
    if said.code == _library.NO_PAIR:
        return NoPair()
    lines = out.raw[: said.value].decode("ascii").splitlines()
    if said.code == _library.OK:
        return Rising(tuple(int(line.split()[2]) for line in lines if line.startswith("number ")))
    if said.code == _library.CYCLE:
        said_of = [line.split() for line in lines[1:] if not line.startswith(("locks up", "pairs "))]
        links = tuple(link_from(*words) for words in said_of if words[0] != "fill")
        return Cycle(links, tuple(Fill(*map(int, words[1:])) for words in said_of if words[0] == "fill"))
    pair, _, why = lines[0].partition(": ")
    reason, _, step = why.partition(" at step ")
    return NoRoute(int(pair.split()[2]), int(pair.split()[3]), reason, int(step) if step else None)


def network_answer(text: Text, file: str = "network text") -> Tuple[bool, str]:
    """Whether the numbers of a network's channels rise, so that it never deadlocks, and the text that the program prints of
    a network text, whose routers may choose (docs/FORMATS.md, "Network text"). TextFault tells the first fault of the text.

        >>> from torusmem import network_answer
        >>> network_answer("channels 2\\ninject 0\\neject 1\\njoin 0 1\\n")
        (False, 'no route 0 1: no channel at step 1\\n')
    """
    given, calls = bytes_of(text, "network"), _library.library()
    out = create_string_buffer(1 << 16)
    said = calls.network_answer(given, len(given), out, len(out))
    if said.code == _library.SHORT:
        out = create_string_buffer(said.value)
        said = calls.network_answer(given, len(given), out, len(out))
    if said.code == _library.FAULT_MEMORY:
        raise MemoryError(f"torusmem: {REASONS[12]} (F12)")
    if said.code not in (_library.OK, _library.NOT_RISING):
        raise TextFault(file, said.value, said.code, "network", NETWORK_REASONS.get(said.code, ""))
    return said.code == _library.OK, out.raw[: said.value].decode("ascii")


def link_from(channel: str, by: str, end: str) -> Link:
    if by == "to":
        return Link(int(channel), int(end), None)
    return Link(int(channel), None, int(end))


class Issued(NamedTuple):
    """An event of a trace: a processor, below 4096, issues an operation on the word of an address. Its values are none
    of a load, expected and new of a cas, else one."""

    processor: int
    operation: Operation
    address: int
    values: Tuple[int, ...] = ()


@dataclass(frozen=True)
class Answered:
    """An event of a trace: an operation of a processor is answered, the one of this index, from 0. old: the word that
    was there before; None of a store."""

    processor: int
    index: int
    old: Optional[int] = None


Event = Union[Issued, Answered]


class Linearizable(NamedTuple):
    """One order explains a trace: the places of its operations' issues among the events, from 0, in the order. Each
    operation that is answered is in it; one that isn't may be."""

    order: Tuple[int, ...]


class NotLinearizable(NamedTuple):
    """What comes before this event has such an order, and with it there is none."""

    event: int


class Undecided(NamedTuple):
    """A trace isn't decided: at this event a word has more configurations than were allowed, or, if too_open, 64 other
    operations are open on it."""

    event: int
    too_open: bool


Judged = Union[Linearizable, NotLinearizable, Undecided]


def linearize(
    events: Iterable[Event], opening: Optional[Mapping[int, int]] = None, configurations: int = 1_000_000
) -> Judged:
    """Judges a trace: whether one order explains events that are given in the order of time, over a memory that opens
    with these words, each at its address, and with 0 at all others. Addresses may be any numbers. EventFault tells the
    first event that can't stand. With the default as many configurations of a word are looked at, at once, as by the
    program.

        >>> from torusmem import Answered, Issued, Operation, linearize
        >>> store, load = Issued(0, Operation.STORE, 5, (17,)), Issued(1, Operation.LOAD, 5)
        >>> linearize([store, load, Answered(1, 0, 17), Answered(0, 0)])
        Linearizable(order=(0, 1))
        >>> linearize([store, Answered(0, 0), load, Answered(1, 0, 3)], {5: 3})
        NotLinearizable(event=3)
    """
    places: Dict[int, int] = {}
    made = [event_from(event, places) for event in events]
    words, order = (c_uint64 * (len(places) or 1))(), (c_uint64 * (len(made) or 1))()
    for address, word in (opening or {}).items():
        if address in places:
            words[places[address]] = word_of(word, "an opening word")
    raw = (_library.RawEvent * (len(made) or 1))(*made)
    most = word_of(configurations, "configurations")
    said = _library.library().linearize(words, len(places), raw, len(made), most, order, len(made))
    if said.code == _library.OK:
        return Linearizable(tuple(order[: said.value]))
    if said.code == _library.NOT_LINEARIZABLE:
        return NotLinearizable(said.value)
    if said.code in (_library.TOO_MANY, _library.TOO_OPEN):
        return Undecided(said.value, said.code == _library.TOO_OPEN)
    if said.code == _library.FAULT_MEMORY:
        raise MemoryError(f"torusmem: {REASONS[12]} (F12)")
    raise EventFault(said.value, said.code)


class Said(NamedTuple):
    """What is said of a trace text. linearizable: True with the operations in an order in text; False or, where it isn't
    decided, None, with the reasons in text. line: where it shows, from 1; else 0."""

    linearizable: Optional[bool]
    line: int
    text: str


def linearize_answer(text: Text, configurations: int = 1_000_000, file: str = "trace text") -> Said:
    """Judges the trace of a trace text (docs/FORMATS.md, "Trace text") as linearize() does, and says why. TextFault tells the first
    fault of the text; file is how it names the text.

        >>> from torusmem import linearize_answer
        >>> print(linearize_answer("trace 1\\nwords 8\\nissue 0 load 5\\nanswer 0 0 3\\n").text.splitlines()[0])
        not linearizable at line 4
    """
    given, calls, most = bytes_of(text, "trace"), _library.library(), word_of(configurations, "configurations")
    out = create_string_buffer(1 << 12)
    said = calls.linearize_answer(given, len(given), most, out, len(out))
    if said.code == _library.SHORT:
        out = create_string_buffer(said.length)
        said = calls.linearize_answer(given, len(given), most, out, len(out))
    if said.code == _library.FAULT_MEMORY:
        raise MemoryError(f"torusmem: {REASONS[12]} (F12)")
    found = {_library.OK: True, _library.NOT_LINEARIZABLE: False, _library.TOO_MANY: None, _library.TOO_OPEN: None}
    if said.code not in found:
        raise TextFault(file, said.line, said.code, "trace", EVENT_REASONS.get(said.code, ""))
    return Said(found[said.code], said.line, out.raw[: said.length].decode("ascii"))


def event_from(event: Event, places: Dict[int, int]) -> Any:
    """An event as the library takes it; its address is numbered among those that were named before."""
    processor = number_of(event.processor, "a processor")
    if isinstance(event, Issued):
        if len(event.values) != VALUES.get(event.operation, 1):
            raise ValueError(f"{Operation(event.operation).name} doesn't have the values {event.values!r}")
        place = places.setdefault(whole(event.address), len(places))
        first, second = ([word_of(it, "a value") for it in event.values] + [0, 0])[:2]
        operation = number_of(event.operation, "an operation")
        return _library.RawEvent(_library.ISSUE, processor, operation, place, 0, 0, first, second, 0)
    index, old = number_of(event.index, "an index"), event.old
    has_old, word = (0, 0) if old is None else (1, word_of(old, "an old word"))
    return _library.RawEvent(_library.ANSWER, processor, 0, 0, index, has_old, 0, 0, word)
