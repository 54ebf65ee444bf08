"""Reads which signals of a waveform are the ports of the processors (`tools/from_rtl --help` says how such a text is written),
and the operations that these ports issue and answer."""
from __future__ import annotations

from dataclasses import dataclass, field
from typing import Dict, Iterator, List, Optional, Tuple

from torusmem_tools import command
from torusmem_tools.texts import waveform

OPERATIONS = ("load", "store", "swap", "cas", "add", "and", "or", "xor", "max", "min")
NEEDED = ("clock", "issue", "operation", "first", "answer", "reply")
SIGNALS = (*NEEDED, "reset", "second", "address", "bank", "word", "tag", "answer_tag", "place")
NUMBERS = {"processors": 4096, "words": 2**32, "banks": 2**16}


@dataclass
class Names:
    """What a text of signals says: names of signals, numbers, and which number is which operation."""

    path: str
    signals: Dict[str, str] = field(default_factory=dict)
    numbers: Dict[str, int] = field(default_factory=dict)
    codes: Dict[int, str] = field(default_factory=dict)

    def add(self, words: List[str], line: int) -> None:
        """A line of the text."""
        key, at = words[0], f"{self.path}, line {line}"
        if key == "code" and len(words) == 3 and words[1].isdigit() and words[2] in OPERATIONS:
            self.codes[int(words[1])] = words[2]
        elif key in NUMBERS and len(words) == 2:
            if not (words[1].isdigit() and 1 <= int(words[1]) <= NUMBERS[key]):
                raise command.Refusal(f"{at}: {key} is 1 to {NUMBERS[key]}")
            self.numbers[key] = int(words[1])
        elif key in SIGNALS and len(words) == 2:
            if key in self.signals:
                raise command.Refusal(f"{at}: {key} is given twice")
            self.signals[key] = words[1]
        else:
            raise command.Refusal(f"{at}: '{' '.join(words)}' is no line of it (--help says more)")


def read(path: str) -> Names:
    """The names of a text."""
    names = Names(path)
    for line, text in enumerate(command.contents(path).decode("utf-8", "replace").split("\n"), 1):
        words = text.split("#")[0].split()
        if words:
            names.add(words, line)
    missing = [it for it in NEEDED if it not in names.signals] + [it for it in ("processors", "words") if it not in names.numbers]
    if "address" not in names.signals:
        missing += [it for it in ("bank", "word") if it not in names.signals] + ["banks"] * ("banks" not in names.numbers)
    if ("tag" in names.signals) != ("answer_tag" in names.signals):
        missing.append("tag" if "answer_tag" in names.signals else "answer_tag")
    if missing:
        raise command.Refusal(f"{path}: there is no line {missing[0]}")
    names.codes = names.codes or dict(enumerate(OPERATIONS))
    return names


@dataclass
class Port:
    """Some bits of a signal: those of one processor."""

    signal: waveform.Signal
    high: int
    low: int

    def value(self, bits: Dict[bytes, bytes]) -> int:
        return waveform.number(bits[self.signal.code], self.high, self.low)


def port(dump: waveform.Dump, name: str, processor: int) -> Port:
    """The bits of a name for a processor: `{P}` in it is the processor's number, and `/N` behind it says that each processor
    has N bits of it, the first one the lowest."""
    base, _, share = name.replace("{P}", str(processor)).partition("/")
    signal = dump.find(base)
    width = int(share) if share.isdigit() else signal.width
    low = processor * width if share else 0
    if share and not share.isdigit() or low + width > signal.width or not width:
        raise command.Refusal(f"{dump.path}: {name}: {base} has {signal.width} bits, and processor {processor} has none of it "
                              "there")
    return Port(signal, low + width - 1, low)


@dataclass
class Operation:
    """An operation: its processor, its number there, the edges at which it was issued and answered, and its reply."""

    processor: int
    index: int
    asked: str
    address: int
    kind: str
    issued: int
    answered: Optional[int] = None
    reply: str = ""
    place: int = -1


class Reader:
    """The operations of a dump, in the order of time."""

    def __init__(self, dump: waveform.Dump, names: Names) -> None:
        self.dump, self.names = dump, names
        self.clock = dump.find(names.signals["clock"])
        self.reset = port(dump, names.signals["reset"], 0) if "reset" in names.signals else None
        per = [it for it in names.signals if it not in ("clock", "reset")]
        self.ports = [{it: port(dump, names.signals[it], p) for it in per} for p in range(names.numbers["processors"])]
        self.open: List[Dict[int, List[Operation]]] = [{} for _ in self.ports]
        self.made: List[List[Operation]] = [[] for _ in self.ports]

    def value(self, processor: int, key: str, bits: Dict[bytes, bytes], time: int) -> int:
        """What a port has at an edge, where it counts."""
        it = self.ports[processor][key]
        found = it.value(bits)
        if found < 0:
            said = f"{it.signal.name}, the {key} of processor {processor}, is not known"
            raise command.Refusal(f"{self.dump.path}, time {time}: {said}")
        return found

    def issue(self, p: int, bits: Dict[bytes, bytes], time: int) -> Tuple[int, Operation]:
        """The operation that a processor issues at an edge, and its tag."""
        code = self.value(p, "operation", bits, time)
        kind = self.names.codes.get(code)
        if kind is None:
            raise command.Refusal(f"{self.dump.path}, time {time}: processor {p} issues operation {code}, which is none")
        if "address" in self.ports[p]:
            address = self.value(p, "address", bits, time)
        else:
            address = self.value(p, "word", bits, time) * self.names.numbers["banks"] + self.value(p, "bank", bits, time)
        if address >= self.names.numbers["words"]:
            raise command.Refusal(f"{self.dump.path}, time {time}: processor {p} asks address {address}, and there are "
                                  f"{self.names.numbers['words']} words")
        values = [] if kind == "load" else [self.value(p, "first", bits, time)]
        if kind == "cas":
            if "second" not in self.ports[p]:
                raise command.Refusal(f"{self.names.path}: there is no line second, and processor {p} issues a cas")
            values.append(self.value(p, "second", bits, time))
        asked = " ".join([kind, str(address), *map(str, values)])
        tag = self.value(p, "tag", bits, time) if "tag" in self.ports[p] else 0
        return tag, Operation(p, len(self.made[p]), asked, address, kind, time)

    def answer(self, p: int, bits: Dict[bytes, bytes], time: int) -> Operation:
        """The operation of a processor that is answered at an edge: of those with its tag the one that waits longest."""
        tag = self.value(p, "answer_tag", bits, time) if "answer_tag" in self.ports[p] else 0
        waiting = self.open[p].get(tag, [])
        if not waiting:
            raise command.Refusal(f"{self.dump.path}, time {time}: an answer to processor {p}, which waits for none"
                                  + (f" with tag {tag}" if "answer_tag" in self.ports[p] else ""))
        it = waiting.pop(0)
        it.answered = time
        it.reply = "ok" if it.kind == "store" else str(self.value(p, "reply", bits, time))
        if "place" in self.ports[p]:
            it.place = self.value(p, "place", bits, time)
        return it

    def events(self) -> Iterator[Tuple[bool, Operation]]:
        """Each issue, and each answer, in the order of time; at one edge issues first. At the end of the dump no issue counts, as
        no edge takes it."""
        wanted = [it.signal for its in self.ports for it in its.values()] + ([self.reset.signal] if self.reset else [])
        for time, is_end, bits in waveform.edges(self.dump, self.clock, wanted):
            if self.reset and self.reset.value(bits) != 0:
                continue
            issuing = [p for p in range(len(self.ports)) if not is_end and self.value(p, "issue", bits, time)]
            for p in issuing:
                tag, it = self.issue(p, bits, time)
                self.made[p].append(it)
                self.open[p].setdefault(tag, []).append(it)
                yield False, it
            for p in range(len(self.ports)):
                if self.value(p, "answer", bits, time):
                    yield True, self.answer(p, bits, time)
