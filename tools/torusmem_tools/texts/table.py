"""Reads tables of operations (CSV, comma-separated values; `tools/from_csv --help` says what each column is).

A line can be read in two ways. The plain way takes many lines at once by one regular expression: lines without
spaces at their fields and without quotes. What it can't take, or what is out of its range, is read field by field,
which says what is wrong. A table with quotes is read field by field altogether, since a field in quotes may go over
lines.
"""
from __future__ import annotations

import csv
import io
import re
from dataclasses import dataclass, field
from typing import Callable, Iterator, List, Optional, Sequence, Tuple

from torusmem_tools import command
from torusmem_tools.model.operations import MASK, VALUES
from torusmem_tools.texts import column_names, literals
from torusmem_tools.texts.report import BadLine, Entry

COLUMNS = "processor,index,tag,operation,address,values,reply,bank,issued,served,answered".split(",")
LATEST = 10**20 - 1
# Times are kept in parts of this size, so that those with a point are whole numbers too.
BILLION = 10**9
# An operation that was served: its address, the time of its service, its line, the times of its issue and of its
# answer, its kind, its values as a report spells them, each with a space before it, and its reply as a report does.
Row = Tuple[int, int, int, int, Optional[int], str, str, str]

NUMBER = "(?:0|[1-9][0-9]{0,19})"
TIME = f"({NUMBER})"
# (processors, indexes, addresses and banks below 10^19, which are below 2^64)
SHORT = "(0|[1-9][0-9]{0,18})"
PLAIN = re.compile(
    rf"^{SHORT},{SHORT},(?:[0-9]|1[0-5])?,([a-z]{{2,5}}),{SHORT},((?:{NUMBER}(?: {NUMBER})?)?),({NUMBER}|ok),"
    rf"{SHORT}?,{TIME},{TIME},{TIME}?\r?$|^(.*)$",
    re.ASCII | re.MULTILINE,
)
# The line of the column names, up to a line feed, with what stands before it; and a carriage return that ends no such line.
HEAD = re.compile(rb"(?:\xef\xbb\xbf)?[\s,]*[^\n]*\n?")
ALONE = re.compile(rb"\r(?!\n)")
# What the reader of Python says of a row, in other words.
SAID = {
    "unexpected end of data": "a quote is opened in this row and never closed",
    "field larger than field limit (131072)": "a field has more than 131072 characters: is a quote left open?",
    "new-line character seen in unquoted field - do you need to open the file in universal-newline mode?":
        "a carriage return stands alone, and lines end with a line feed",
    "new-line character seen in unquoted field - do you need to open the file with newline=''?":
        "a carriage return stands alone, and lines end with a line feed",
    "',' expected after '\"'": "behind a closing quote stands neither a comma nor the end of the line",
}
# What a cas replies that found what it expected, and one that didn't.
FOUND, FOUND_ANOTHER = ("ok", "true"), ("fail", "false")
# What stands between the columns of other tables.
MARKS = ((b";", "semicolons"), (b"\t", "tabs"))
# Of each kind how many values there are, and whether the reply is `ok`.
PLAIN_KINDS = {(kind, count, kind == "store") for kind, count in VALUES.items()}


@dataclass
class Limits:
    """What a table may have: so many tiles and words, where that is known, and indexes up to the last; and whether bare digits of
    addresses and words are hexadecimal."""

    tiles: Optional[int]
    words: Optional[int]
    last_index: int = MASK
    is_hex: bool = False

    def last_tile(self) -> int:
        """The greatest number of a processor or of a bank."""
        return MASK if self.tiles is None else self.tiles - 1

    def last_address(self) -> int:
        """The greatest address."""
        return MASK if self.words is None else self.words - 1


def not_utf8(text: bytes, path: str, before: int = 0) -> command.Refusal:
    """The refusal of a text that isn't one in UTF-8, where so many lines stand before it."""
    try:
        text.decode("utf-8")
    except UnicodeDecodeError as fault:
        before += text.count(b"\n", 0, fault.start)
    return command.Refusal(f"{path}, line {before + 1}: this is no text in UTF-8")


def cut(text: bytes, path: str, before: int = 0) -> Iterator[tuple[int, list[str]]]:
    """The rows of a table, each with the number of its line, where so many lines stand before the text."""
    head = HEAD.match(text) if not before else None
    if head and (alone := ALONE.search(text, 0, head.end())):
        line = text.count(b"\n", 0, alone.start()) + 1
        raise command.Refusal(f"{path}, line {line}: a carriage return stands alone, and lines end with a line feed")
    rows, begun = csv.reader(io.TextIOWrapper(io.BytesIO(text), encoding="utf-8-sig", newline=""), strict=True), 1
    try:
        for row in rows:
            if any(map(str.strip, row)):
                yield before + rows.line_num, [it.strip() for it in row]
            begun = rows.line_num + 1
    except UnicodeDecodeError:
        raise not_utf8(text, path, before) from None
    except csv.Error as fault:
        why = SAID.get(str(fault), str(fault))
        raise command.Refusal(f"{path}, line {before + begun}: {why}") from None


def first_line(text: bytes) -> bytes:
    """The first line of a text that isn't empty."""
    found = HEAD.match(text)
    return found[0].lstrip(b"\xef\xbb\xbf \r\n") if found else b""


def mark_of(head: bytes) -> tuple[bytes, str]:
    """What stands between the columns of a table with this first line, and what that is called."""
    marks = [it for it in MARKS if head.count(it[0]) > 1] if b"," not in head else []
    return marks[0] if marks else (b",", "commas")


def with_commas(text: bytes, path: str) -> bytes:
    """A table with commas in place of the semicolons or tabs between its columns. Refused where it has commas or quotes."""
    mark, name = mark_of(first_line(text))
    if mark == b",":
        return text
    for other, called in ((b",", "a comma"), (b'"', "a quote")):
        at = text.find(other)
        if at >= 0:
            line = bytes(text[:at]).count(b"\n") + 1
            raise command.Refusal(f"{path}, line {line}: {called} stands in a table whose columns {name} part: part them by commas")
    return bytes(text[:]).replace(mark, b",")


def missing_columns(path: str, missing: List[str], columns: List[str], wanted: List[str]) -> command.Refusal:
    """The refusal of a table whose first line doesn't name these columns of the wanted ones."""
    hint = column_names.hint(missing, columns, wanted)
    return command.Refusal(f"{path}: the first line doesn't name the column{'s' * (len(missing) > 1)} {','.join(missing)}{hint}")


def refuse_count(count: int, wanted: int) -> None:
    """Refuses a row that has not so many fields as it must have."""
    if count != wanted:
        has = "there is 1 field" if count == 1 else f"there are {count} fields"
        raise BadLine(f"{has} in place of {wanted}")


def values_of(kind: str, words: list[str], is_hex: bool) -> tuple[int, ...]:
    """The values of an operation, as many as it has."""
    if kind not in VALUES:
        raise BadLine(f"there is no operation `{kind}`{column_names.operation_hint(kind, VALUES)}" if kind else "there is no operation")
    if len(words) != VALUES[kind]:
        wanted = ("no value", "one value", "two values")[VALUES[kind]]
        raise BadLine(f"{kind} takes {wanted}, and here {'is' if len(words) == 1 else 'are'} {len(words)}")
    return tuple(literals.number(it, 0, MASK, "a value", is_hex) for it in words)


def reply_of(kind: str, word: str, values: Sequence[int], is_hex: bool) -> int | None:
    """The reply of an operation with these values: of a cas that says that it found what it expected that word."""
    if kind == "cas" and word.lower() in FOUND:
        return values[0]
    if kind == "cas" and word.lower() in FOUND_ANOTHER:
        raise BadLine(f"the reply {word} of a cas doesn't say which word it found, which is wanted here (--trace takes it)")
    if (kind == "store") != (word == "ok"):
        raise BadLine("the reply is `ok` for a store, and a number for every other operation")
    if not word:
        raise BadLine("there is no reply")
    return literals.number(word, 0, MASK, "the reply", is_hex) if word != "ok" else None


def moment(word: str, what: str) -> int:
    """The time that a word spells, in billionths: a whole number, or one with one to nine digits behind a point."""
    if not word:
        raise BadLine(f"{what} is missing")
    whole, point, part = word.partition(".")
    is_fine = part.isascii() and part.isdigit() and len(part) <= 9 if point else True
    if not (is_fine and whole.isascii() and whole.isdigit()):
        if literals.literal(word) is None:
            raise BadLine(f"{what} is no number as 1000 or 2.5, with at most nine digits behind the point")
        return literals.number(word, 0, LATEST, what) * BILLION
    return literals.number(whole, 0, LATEST, what) * BILLION + int(part.ljust(9, "0"))


def moment_text(moment: int) -> str:
    """A time as a table has it."""
    whole, part = divmod(moment, BILLION)
    return f"{whole}.{part:09}".rstrip("0") if part else str(whole)


def entry_of(fields: list[str], limits: Limits) -> Entry | None:
    """The operation of a row, with its times in place of event numbers, and no place yet; None if it isn't served."""
    refuse_count(len(fields), len(COLUMNS))
    row = dict(zip(COLUMNS, fields))
    if not row["served"] and not row["answered"]:
        return None
    tile: Callable[[str, str], int] = lambda name, word: literals.number(word, 0, limits.last_tile(), f"the {name}")
    time: Callable[[str], int] = lambda name: moment(row[name], f"the time `{name}`")
    address = literals.number(row["address"], 0, limits.last_address(), "the address", limits.is_hex)
    kind = row["operation"]
    bank = tile("bank", row["bank"] or str(address % (limits.tiles or 1)))
    source = tile("processor", row["processor"])
    tag = literals.number(row["tag"] or "0", 0, 15, "the tag")
    values = values_of(kind, row["values"].split(), limits.is_hex)
    made = Entry(bank, 0, source, tag, kind, address, values, reply_of(kind, row["reply"], values, limits.is_hex))
    made.index = literals.number(row["index"], 0, limits.last_index, "the index")
    made.issued, made.served = time("issued"), time("served")
    made.answered = time("answered") if row["answered"] else None
    return made


def first_row(text: bytes, path: str) -> None:
    """Refuses a table whose first line doesn't name its columns."""
    columns: list[str] = next((it for _, it in cut(text, path)), [])
    if columns != COLUMNS:
        hint = column_names.hint([it for it in COLUMNS if it not in columns], columns, COLUMNS)
        raise command.Refusal(f"{path}: the first line isn't {','.join(COLUMNS)}{hint}")


def entries_of(text: bytes, path: str, limits: Limits) -> Iterator[tuple[int, Entry | None]]:
    """The operations of a table, each with its line; None where one isn't served. Refused with the first line that
    can't be understood."""
    first_row(text, path)
    rows = cut(text, path)
    next(rows)
    for line, row in rows:
        try:
            yield line, entry_of(row, limits)
        except BadLine as why:
            raise command.Refusal(f"{path}, line {line}: {why}") from None


@dataclass
class Rows:
    """The operations of a part of a table: those that were served; of each the processor and the index in one number,
    its name; and how many weren't served."""

    path: str
    limits: Limits
    served: List[Row] = field(default_factory=list)
    names: List[int] = field(default_factory=list)
    unserved: int = 0

    def take(self, line: int, fields: list[str]) -> None:
        """Takes a row, field by field. Refused if it can't be understood, or tells another bank than the home."""
        try:
            found = entry_of(fields, self.limits)
            home = found and self.limits.tiles and found.address % self.limits.tiles
            if found and home is not None and found.bank != home:
                why = f"the bank is {found.bank}, and the home of address {found.address} is {home}"
                raise command.No(f"{self.path}, line {line}: {why}")
        except BadLine as why:
            raise command.Refusal(f"{self.path}, line {line}: {why}") from None
        if found is None:
            self.unserved += 1
            return
        values = "".join(f" {it}" for it in found.values)
        times = (found.address, found.served, line, found.issued, found.answered)
        self.served.append((*times, found.kind, values, found.replied()))
        self.names.append(found.source << 64 | (found.index or 0))

    def take_all(self, text: bytes, before: int) -> None:
        """Takes the rows of a text field by field, where so many lines stand before it."""
        for line, row in cut(text, self.path, before):
            self.take(line, row)

    def take_plain(self, text: str, before: int) -> None:
        """Takes the rows of a text without quotes, the plain way where that can be."""
        last_tile, last_address, tiles = self.limits.last_tile(), self.limits.last_address(), self.limits.tiles
        for line, fields in enumerate(PLAIN.findall(text), before + 1):
            source, index, kind, place, values, reply, bank, issued, served, answered, other = fields
            if not kind:
                if other:
                    self.take_all(other.encode("utf-8"), line - 1)
                continue
            address, processor = int(place), int(source)
            is_far = address > last_address or processor > last_tile
            if tiles and bank:
                is_far = is_far or int(bank) != address % tiles
            if len(values) + len(reply) >= 20:
                is_far = is_far or reply != "ok" and int(reply) > MASK or any(int(it) > MASK for it in values.split())
            count = values.count(" ") + 1 if values else 0
            if is_far or (kind, count, reply == "ok") not in PLAIN_KINDS:
                self.take_all(text.split("\n")[line - before - 1].encode("utf-8"), line - 1)
                continue
            end = int(answered) * BILLION if answered else None
            spelled = f" {values}" if values else ""
            times = (int(served) * BILLION, line, int(issued) * BILLION, end)
            self.served.append((address, *times, kind, spelled, reply))
            self.names.append(processor << 64 | int(index))

    def take_text(self, text: bytes, before: int) -> None:
        """Takes the rows of a text, where so many lines stand before it."""
        try:
            if b'"' in text or self.limits.is_hex:
                self.take_all(text, before)
            else:
                self.take_plain(text.decode("utf-8"), before)
        except UnicodeDecodeError:
            raise not_utf8(text, self.path, before) from None
