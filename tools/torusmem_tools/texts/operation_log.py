"""Makes a log text (docs/FORMATS.md, Log text), which `torusmem model` judges, from a table of operations in program order
(`tools/from_csv --help` says what each column is).
"""
from __future__ import annotations

import re
from dataclasses import dataclass, field
from typing import Callable, Dict, Iterator, List, Optional, Tuple

from torusmem_tools import command
from torusmem_tools.model import operations
from torusmem_tools.texts import call_trace, junit, literals, table
from torusmem_tools.texts.report import BadLine

COLUMNS = "processor,operation,address,values,reply".split(",")
# The columns that a table may have, too. The last three name the lines that an operation depends on.
FURTHER = "order,source,annotations,address on,data on,control on".split(",")
DEPENDENCIES = {f"{it} on": it for it in ("address", "data", "control")}
# The words behind an operation, in their order.
ANNOTATIONS = ("reserved", "conditional", "acquire", "release", "rcpc")
SETS = ("r", "w", "rw")


@dataclass
class Row:
    """An operation: its line, its processor, its index there, its kind (or fence), its word and its values, what it
    replied, when it was served, and which line it read (0 for the opening word), if the table says so; its annotations, or a
    fence's sets; and in which way it depends on which lines."""

    line: int
    processor: int
    index: int
    kind: str
    address: int = 0
    values: Tuple[int, ...] = ()
    reply: Optional[int] = None
    is_answered: bool = False
    order: Optional[int] = None
    source: Optional[int] = None
    words: Tuple[str, ...] = ()
    on: List[Tuple[str, int]] = field(default_factory=list)

    def asked(self) -> str:
        numbers = () if self.kind == "fence" else (self.address, *self.values)
        return " ".join(map(str, (self.kind, *numbers, *self.words)))

    def is_write(self) -> bool:
        return self.kind not in ("load", "fence")


@dataclass
class Table:
    """The operations in the order of their lines; of each word its writes in their order, and of each load its source."""

    rows: List[Row] = field(default_factory=list)
    writes: Dict[int, List[Row]] = field(default_factory=dict)
    sources: Dict[int, Optional[Row]] = field(default_factory=dict)

    def greatest_address(self) -> int:
        """The greatest address that is named."""
        return max((it.address for it in self.rows), default=0)

    def first_address_from(self, least: int) -> Tuple[int, str]:
        """The first line that names an address from this one on, and the address."""
        return next((it.line, str(it.address)) for it in self.rows if it.address >= least)

    def lines(self, words: int, opening: Dict[int, int]) -> Iterator[Tuple[int, str]]:
        """The lines of the log text, each with the line of the table that tells of it; 0 for one that none tells of."""
        yield 0, "log 1"
        yield 0, f"words {words}"
        for address in sorted(opening):
            yield 0, f"init {address} {opening[address]}"
        for it in self.rows:
            yield it.line, f"made {it.processor} {it.asked()}"
            if it.is_answered:
                yield it.line, f"replied {it.processor} {it.index} {'ok' if it.reply is None else it.reply}"
        index = {it.line: it.index for it in self.rows}
        for it in self.rows:
            for kind, line in it.on:
                yield it.line, f"depends {it.processor} {it.index} on {index[line]} {kind}"
        for address in sorted(self.writes):
            for it in self.writes[address]:
                yield it.line, f"wrote {it.processor} {it.index}"
        for it in self.rows:
            if it.kind == "load":
                source = self.sources[it.line]
                told = f"from {source.processor} {source.index}" if source else "opening"
                yield it.line, f"read {it.processor} {it.index} {told}"


def row_of(said: Dict[str, str], line: int, counts: Dict[int, int], is_hex: bool) -> Row:
    """The operation of a row of a table, where so many of each processor stand before it."""
    processor = call_trace.processor_of(said["processor"])
    kind, found = said["operation"], Row(line, processor, counts.get(processor, 0), said["operation"])
    found.words = annotations_of(kind, said.get("annotations", ""))
    if kind == "fence":
        if any(said.get(it) for it in ("address", "values", "reply", "order", "source", *DEPENDENCIES)):
            raise BadLine("a fence has no address, values, reply, order, source and dependency")
        return found
    found.on = [(how, literals.number(it, 2, 10**12, f"the line in `{column}`"))
                for column, how in DEPENDENCIES.items() for it in said.get(column, "").split()]
    found.address = call_trace.address_of(said["address"], is_hex)
    found.values = table.values_of(kind, said["values"].split(), is_hex)
    if said["reply"]:
        found.reply, found.is_answered = table.reply_of(kind, said["reply"], found.values, is_hex), True
    if said.get("order"):
        found.order = table.moment(said["order"], "`order`")
    elif "order" in said and kind != "load":
        raise BadLine("a write has no `order`")
    if said.get("source"):
        if kind != "load":
            raise BadLine("a write has a `source`, and only loads have one")
        found.source = 0 if said["source"] == "opening" else literals.number(said["source"], 2, 10**12, "the source")
    return found


def annotations_of(kind: str, text: str) -> Tuple[str, ...]:
    """The annotations of an operation, in their order; of a fence its sets, or `tso`."""
    words = tuple(text.split())
    if kind == "fence":
        if words not in ((), ("tso",)) and not (len(words) == 2 and set(words) <= set(SETS)):
            raise BadLine(f"the sets of a fence are two of r, w and rw, or tso, and not `{text}`")
        return words
    for it in words:
        if it not in ANNOTATIONS or it == "reserved" and kind != "load" or it == "conditional" and kind != "store":
            raise BadLine(f"no annotation of a {kind}: `{it}`")
    if "rcpc" in words and not {"acquire", "release"} & set(words):
        raise BadLine("`rcpc` stands without acquire and release")
    return tuple(it for it in ANNOTATIONS if it in words)


def find_dependencies(found: Table, path: str) -> None:
    """Refuses a dependency on what is no operation of the processor before the line, or gives it no register."""
    by_line = {it.line: it for it in found.rows}
    for it in found.rows:
        for kind, line in it.on:
            on = by_line.get(line)
            gives = on is not None and (on.kind not in ("store", "fence") or "conditional" in on.words)
            if on is None or not gives or on.processor != it.processor or on.line >= it.line:
                raise command.Refusal(f"{path}, line {it.line}: line {line} is no operation of its processor before it that gives it a value")
            if kind == "data" and not it.is_write():
                raise command.Refusal(f"{path}, line {it.line}: a load has no data dependency")


def read_log(text: bytes, path: str, opening: Dict[int, int], is_hex: bool) -> Table:
    """The operations of a table. Refused with the first line that can't be understood."""
    rows = table.cut(table.with_commas(text, path), path)
    columns: List[str] = next((it for _, it in rows), [])
    if missing := [it for it in COLUMNS if it not in columns]:
        raise table.missing_columns(path, missing, columns, [*COLUMNS, *FURTHER])
    found, counts = Table(), {}  # type: Table, Dict[int, int]
    for line, fields in rows:
        try:
            table.refuse_count(len(fields), len(columns))
            said = dict(zip(columns, fields))
            it = row_of(said, line, counts, is_hex)
        except BadLine as why:
            raise command.Refusal(f"{path}, line {line}: {why}") from None
        counts[it.processor] = it.index + 1
        found.rows.append(it)
    order_writes(found, path)
    find_sources(found, path, opening)
    find_dependencies(found, path)
    return found


def order_writes(found: Table, path: str) -> None:
    """Puts each word's writes in their order: by the column `order`, or as the lines stand."""
    for it in found.rows:
        if it.is_write():
            found.writes.setdefault(it.address, []).append(it)
    for writes in found.writes.values():
        writes.sort(key=lambda it: it.order or 0)
        for one, other in zip(writes, writes[1:]):
            if one.order is not None and one.order == other.order:
                both = f"line {other.line}: its `order` is that of line {one.line}, which writes the same word"
                raise command.Refusal(f"{path}, {both}")


def find_sources(found: Table, path: str, opening: Dict[int, int]) -> None:
    """Finds what each load read."""
    by_line = {it.line: it for it in found.rows}
    left: Dict[int, Dict[int, List[Optional[Row]]]] = {}
    for it in found.rows:
        try:
            if it.kind != "load":
                continue
            if it.source is not None:
                found.sources[it.line] = named_source(it, by_line)
            elif it.order is not None:
                before = [w for w in found.writes.get(it.address, []) if w.order is not None and w.order < it.order]
                found.sources[it.line] = before[-1] if before else None
            else:
                if it.address not in left:
                    left[it.address] = leavers(found.writes.get(it.address, []), opening.get(it.address, 0))
                found.sources[it.line] = by_value(it, left[it.address])
        except BadLine as why:
            raise command.Refusal(f"{path}, line {it.line}: {why}") from None


def named_source(it: Row, by_line: Dict[int, Row]) -> Optional[Row]:
    """The write that the column `source` names."""
    if not it.source:
        return None
    source = by_line.get(it.source)
    if source is None or not source.is_write() or source.address != it.address:
        raise BadLine(f"the source, line {it.source}, is no write of address {it.address}")
    return source


def leavers(writes: List[Row], word: int) -> Dict[int, List[Optional[Row]]]:
    """Of each value the writes of a word that leave it; none is the opening word."""
    found: Dict[int, List[Optional[Row]]] = {word: [None]}
    for it in writes:
        word = operations.word_after(it.kind, it.values, word)
        found.setdefault(word, []).append(it)
    return found


def by_value(it: Row, left: Dict[int, List[Optional[Row]]]) -> Optional[Row]:
    """The one write that left what a load replied."""
    if it.reply is None:
        raise BadLine("a load has neither `source`, nor `order`, nor a reply")
    found = left.get(it.reply, [])
    if not found:
        raise BadLine(f"no write of address {it.address} leaves {it.reply}")
    if len(found) > 1:
        names = " and ".join("the opening word" if one is None else f"line {one.line}" for one in found[:2])
        raise BadLine(f"it can have read {names}, which are both {it.reply}: give its `source`, or the `order`")
    return found[0]


def model_verdict(lines: List[Tuple[int, str]], path: str) -> Tuple[str, bool]:
    """What `torusmem model` says of the log, its lines as those of the table, and whether it obeys each model."""
    at: Callable[[str], str] = lambda told: re.sub(r"\bline ([0-9]+)", lambda it: f"line {lines[int(it[1]) - 1][0]}", told)
    with command.temporary_file("".join(f"{text}\n" for _, text in lines).encode("ascii")) as name:
        try:
            said = command.torusmem("model", name, fine=(0, 1)) or command.torusmem("model", name)
        except command.Refusal as refused:
            made = command.No if str(refused).startswith("reply ") else command.Refusal
            raise made(f"{path}: {at(str(refused))}") from None
    return at(said), not re.search("^[a-z]+ no$", said, re.MULTILINE)


def cases_of(said: str, path: str) -> List[junit.Case]:
    """A case for each model that was judged. The cycle, which is one of the weakest that isn't obeyed, says why."""
    lines = said.rstrip("\n").split("\n")
    models = [it.split(" ", 1) for it in lines if re.fullmatch("[a-z]+ (yes|no)", it)]
    cycle = lines[next((k for k, it in enumerate(lines) if it.endswith(":")), len(lines)) :]
    why: Callable[[str], List[str]] = lambda name: cycle if cycle and cycle[0].startswith(f"no order of {name}") else []
    return [junit.Case(f"{path}: {name}", int(it == "no"), f"{name} {it}", why(name)) for name, it in models]
