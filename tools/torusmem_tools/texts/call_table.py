"""Reads a table of calls and replies (CSV; `tools/from_csv --help` says what each column is).

Lines without quotes are taken many at once: by one regular expression where all is plain numbers, and else field by field.
"""
from __future__ import annotations

import calendar
import functools
import os
import re
from itertools import repeat
from operator import lt
from typing import Iterable, Iterator, List, Optional, Tuple

from torusmem_tools import command
from torusmem_tools.model.operations import MASK, VALUES
from torusmem_tools.progress import Progress
from torusmem_tools.texts import histories, literals, table
from torusmem_tools.texts.call_trace import COUNTING, Calls
from torusmem_tools.texts.report import BadLine
from torusmem_tools.texts.table import BILLION

COLUMNS = "processor,operation,address,values,reply,issued,answered".split(",")
NUMBER = "(?:0|[1-9][0-9]{0,18})"
PLAIN = {
    "processor": r"([^\s,]+)",
    "operation": "([a-z]{2,5})",
    "address": "(0|[1-9][0-9]{0,8})",
    "values": f"((?:{NUMBER}(?: {NUMBER})?)?)",
    "reply": f"({NUMBER}|ok|)",
    "issued": rf"({NUMBER}(?:\.[0-9]{{1,9}})?)",
    "answered": rf"((?:{NUMBER}(?:\.[0-9]{{1,9}})?)?)",
}
# Of each operation whether it has values, and how many spaces in them; whether its reply is `ok`, and there at all, where it
# is answered.
SHAPES = {(kind, count > 0, max(count - 1, 0), kind == "store", True, True) for kind, count in VALUES.items()}
SHAPES |= {(*it[:3], *reply, False) for it in SHAPES for reply in ((True, True), (False, True), (False, False))}
# The time of the answer that there is none of.
OPEN = 2**200
# https://www.rfc-editor.org/rfc/rfc3339
DATE = re.compile(
    r"([0-9]{4})-([0-9]{2})-([0-9]{2})[Tt _]([0-9]{2}):([0-9]{2}):([0-9]{2})(?:\.([0-9]{1,9}))?"
    r"(?:[Zz]|([+-])([0-9]{2}):([0-9]{2}))", re.ASCII,
)
# What begins as a date does.
DATED = re.compile("[0-9]+[-/.][0-9]+[-/.][0-9]")
CHUNK = 2**22


@functools.lru_cache(maxsize=1024)
def second_of(year: str, month: str, day: str, hour: str, minute: str) -> Optional[int]:
    """The seconds from 1970 to a minute; None where there is no such minute."""
    at = [int(it) for it in (year, month, day, hour, minute)]
    if not (1 <= at[1] <= 12 and 1 <= at[2] <= calendar.monthrange(at[0], at[1])[1] and at[3] < 24 and at[4] < 60 and at[0]):
        return None
    return calendar.timegm((*at, 0))


def date_of(word: str, what: str) -> Optional[int]:
    """The time of a date, in billionths of a second; None for what is no date."""
    if word[4:5] != "-" or not (found := DATE.fullmatch(word)):
        return None
    minute, second = second_of(*found.group(1, 2, 3, 4, 5)), int(found[6])
    away = (int(found[9] or 0) * 60 + int(found[10] or 0)) * 60
    if minute is None or second > 60 or away >= 86400:
        raise BadLine(f"{what} is no date")
    return (minute + second - (-away if found[8] == "-" else away)) * BILLION + int((found[7] or "").ljust(9, "0"))


def exact(words: Iterable[str]) -> List[int]:
    """Plain times in billionths."""
    parts = [it.partition(".") for it in words]
    return [int(whole + part.ljust(9, "0")) for whole, _, part in parts]


class Reader:
    """Takes the lines of a table."""

    def __init__(self, calls: Calls, columns: List[str], is_exact: bool) -> None:
        self.calls, self.columns, self.is_exact = calls, columns, is_exact
        self.issued: List[int] = []
        self.answered: List[int] = []
        self.is_dated: Optional[bool] = None
        parts = [PLAIN.get(it, r'[^,"\r\n]*') for it in columns]
        self.plain = re.compile("^" + ",".join(parts) + r"\r?$|^(.*)$", re.ASCII | re.MULTILINE)
        named = [it for it in columns if it in PLAIN]
        self.at = [named.index(it) for it in COLUMNS]

    def time(self, word: str, name: str) -> int:
        """A time: a number, with up to nine digits behind a point, or a date."""
        date = date_of(word, f"the time `{name}`")
        if date is not None and not self.is_exact:
            date //= BILLION
        if self.is_dated is None:
            self.is_dated = date is not None
        if self.is_dated != (date is not None):
            raise BadLine(f"the time `{name}` is {'no date' if self.is_dated else 'a date'}, and others are{'' if self.is_dated else ' none'}")
        if date is None and DATED.match(word):
            raise BadLine(f"the time `{name}` is no date as 2026-11-27T10:00:00.5Z, with a zone and at most nine digits behind the point")
        return date if date is not None else table.moment(word, f"the time `{name}`") // (1 if self.is_exact else BILLION)

    def asked(self, kind: str, address: str, values: str) -> str:
        """What an operation asks."""
        names, words = self.calls.names, [values] if kind in ("store", "swap") and values else values.split()
        if kind not in VALUES or kind in COUNTING or len(words) != VALUES[kind]:
            table.values_of(kind, values.split(), names.is_hex)
        return " ".join([kind, names.key(address), *map(names.value, words)])

    def reply(self, kind: str, asked: str, word: str) -> str:
        """A reply that tells of no failure: of a cas that says that it found what it expected that word."""
        if kind == "cas" and word.lower() in table.FOUND:
            return asked.split(" ")[2]
        if not word or (kind == "store") != (word == "ok"):
            wanted = f"the reply of a {kind} is `ok`" if kind == "store" else "there is no reply"
            wanted = f"the reply of {kind} is the word that was there before, and not `ok`" if word == "ok" else wanted
            raise BadLine(wanted + ("" if word == "ok" else "; where none came, `answered` is empty"))
        if kind in COUNTING:
            return str(literals.number(word, 0, MASK, "the reply", self.calls.names.is_hex))
        return word if kind == "store" else self.calls.names.value(word, "reply")

    def take(self, line: int, fields: List[str]) -> None:
        """Takes a row, field by field."""
        table.refuse_count(len(fields), len(self.columns))
        said = dict(zip(self.columns, fields))
        kind, calls, word = said["operation"], self.calls, said["reply"]
        calls.names.line = line
        if not said["processor"]:
            raise BadLine("there is no processor")
        asked, issued = self.asked(kind, said["address"], said["values"]), self.time(said["issued"], "issued")
        is_over = bool(said["answered"])
        answered = self.time(said["answered"], "answered") if is_over else OPEN
        is_failed = word == "fail" or kind == "cas" and word.lower() in table.FOUND_ANOTHER
        reply = self.reply(kind, asked, word) if is_over and not is_failed else ""
        if is_failed and not is_over:
            raise BadLine("it failed, and has no time `answered`")
        if kind == "cas" and word.lower() in ("true", "false") and is_over:
            calls.yes_or_no = calls.yes_or_no or (line, word)
        if is_over and answered < issued:
            raise BadLine("it is answered before it is issued")
        at = calls.add(said["processor"], asked, line)
        calls.replies[at], calls.answers[at] = reply, line if is_over else 0
        self.issued.append(issued)
        self.answered.append(answered)
        if is_failed:
            calls.fail(at, line, False)

    def take_text(self, text: str, before: int) -> None:
        """Takes lines without quotes, before which so many lines stand."""
        rows = [] if self.calls.names.is_hex else self.plain.findall(text)
        if not rows or not self.take_plain(rows, before):
            for line, row in enumerate(text.split("\n"), before + 1):
                if row.strip("\r ,\t"):
                    self.take_fields(line, row.split(","))

    def take_fields(self, line: int, fields: List[str]) -> None:
        """The same of a row, whose line is named where it is refused."""
        try:
            self.take(line, [it.strip() for it in fields])
        except BadLine as why:
            raise command.Refusal(f"{self.calls.path}, line {line}: {why}") from None

    def take_plain(self, rows: List[Tuple[str, ...]], before: int) -> bool:
        """Takes rows that are all plain, or none."""
        columns, lines = list(zip(*rows)), list(range(before + 1, before + len(rows) + 1))
        kind = self.at[1]
        if not all(columns[kind]):
            if any(it.strip("\r ,\t") for it in columns[-1]):
                return False
            lines = [it for it, row in zip(lines, rows) if row[kind]]
            columns = list(zip(*(row for row in rows if row[kind])))
        if not columns or self.is_dated:
            return not columns
        who, kinds, addresses, values, replies, issued, answered = (columns[it] for it in self.at)
        counts = map(str.count, values, repeat(" "))
        shapes = set(zip(kinds, map(bool, values), counts, map("ok".__eq__, replies), map(bool, replies), map(bool, answered)))
        if not shapes <= SHAPES:
            return False
        to = exact if self.is_exact else whole
        begins, is_open = to(issued), "" in answered
        ends = [to([it])[0] if it else OPEN for it in answered] if is_open else to(answered)
        if any(map(lt, ends, begins)):
            return False
        self.is_dated, calls = False, self.calls
        calls.processors += who
        calls.asked += [f"{k} {a} {v}" if v else f"{k} {a}" for k, a, v in zip(kinds, addresses, values)]
        calls.replies += [r if e else "" for r, e in zip(replies, answered)] if is_open else replies
        calls.issues += lines
        calls.answers += [line if e else 0 for line, e in zip(lines, answered)] if is_open else lines
        self.issued += begins
        self.answered += ends
        return True


def whole(words: Iterable[str]) -> List[int]:
    """Times without a point."""
    return list(map(int, words))


def chunks(text: str, begin: int) -> Iterator[Tuple[int, str]]:
    """The text from a place on in parts of whole lines, each with how many lines stand before it."""
    before = text.count("\n", 0, begin)
    while begin < len(text):
        end = text.find("\n", begin + CHUNK)
        part = text[begin:] if end < 0 else text[begin:end]
        yield before, part
        before, begin = before + part.count("\n") + 1, begin + len(part) + 1


def in_order(begins: List[int], ends: List[int], is_strict: bool) -> List[int]:
    """The events in the order of time. At equal times issues come before answers, or with `is_strict` behind those of
    operations that were issued earlier."""
    answered = [at for at, it in enumerate(ends) if it < OPEN]
    keys = [3 * it + 1 for it in begins]
    keys += [3 * ends[at] + (0 if is_strict and ends[at] > begins[at] else 2) for at in answered]
    events = [*range(len(begins)), *(~at for at in answered)]
    return [events[it] for it in sorted(range(len(keys)), key=keys.__getitem__)]


def of_table(text: bytes, path: str, is_strict: bool, is_hex: bool, progress: Progress) -> Calls:
    """The calls of a table."""
    calls = Calls(path)
    calls.names.is_hex = is_hex
    rows = table.cut(text, path)
    none: tuple[int, list[str]] = (0, [])
    first, columns = next(rows, none)
    if missing := [it for it in COLUMNS if it not in columns]:
        raise table.missing_columns(path, missing, columns, table.COLUMNS)
    reader = Reader(calls, columns, b"." in text)
    if b'"' in text or len(set(columns)) < len(columns):
        for line, fields in rows:
            reader.take_fields(line, fields)
    else:
        try:
            plain = text.decode("utf-8-sig")
        except UnicodeDecodeError:
            raise table.not_utf8(text, path) from None
        begin = sum(len(it) + 1 for it in plain.split("\n", first)[:first])
        for before, part in chunks(plain, begin):
            reader.take_text(part, before)
            progress.say(f"{len(calls.asked)} operations are read")
    calls.order = in_order(reader.issued, reader.answered, is_strict)
    calls.times = functools.partial(times_of, text, path, columns, calls)
    return calls


def times_of(text: bytes, path: str, columns: List[str], calls: Calls, at: int) -> Tuple[str, str]:
    """The times of an operation as the table has them."""
    line = calls.issues[at]
    if b'"' in text:
        fields = next(row for number, row in table.cut(text, path) if number == line)
    else:
        fields = [it.strip() for it in text.split(b"\n", line)[line - 1].decode("utf-8").split(",")]
    said = dict(zip(columns, fields))
    return said["issued"], said["answered"]


def read_calls(text: bytes, path: str, is_strict: bool, progress: Progress, is_hex: bool = False) -> Calls:
    """The calls of a table or of a log, with numbers for what is named."""
    is_map, is_line = histories.is_log(text)
    is_named = text[: text.find(b"\n") % 2**16].count(b",") >= 6
    if is_map or is_line and not is_named:
        calls = histories.of_log(text, path, is_map, is_hex, progress)
    else:
        calls = of_table(table.with_commas(text, path), path, is_strict, is_hex, progress)
    calls.settle()
    return calls


def begin_of(path: str) -> bytes:
    """How a file begins. What isn't a file is left unread."""
    try:
        if not os.path.isfile(path):
            return b""
        with open(path, "rb") as file:
            return file.read(2**16)
    except OSError:
        return b""


def columns_of(begin: bytes) -> List[str]:
    """What the first line of a text names, with commas, semicolons or tabs between."""
    head = begin.split(b"\n", 1)[0]
    mark = table.mark_of(head)[0].decode("ascii")
    return [it.strip(' "\r') for it in head.decode("utf-8-sig", "replace").split(mark)]


def is_calls(path: str) -> bool:
    """Whether a file is a table of calls and replies, or a log."""
    begin = begin_of(path)
    return any(histories.is_log(begin)) or set(COLUMNS) <= set(columns_of(begin))


def refuse_other_table(path: str) -> None:
    """Refuses a file whose first line names some columns of such a table, and not all."""
    columns = columns_of(begin_of(path))
    missing = [it for it in COLUMNS if it not in columns]
    if 0 < len(missing) < len(COLUMNS) - 1:
        raise table.missing_columns(path, missing, columns, table.COLUMNS)


def refuse_calls(path: str, is_log: bool) -> None:
    """Refuses calls and replies where a report, or a log text, is asked for: they have no times of services, or no order."""
    begin = begin_of(path)
    columns = columns_of(begin)
    is_map, is_line = histories.is_log(begin)
    if is_map or is_line and len(columns) < len(COLUMNS):
        raise command.Refusal(f"{path} is a log, and needs --trace (--help says more)")
    if not is_log and set(COLUMNS) <= set(columns) and "served" not in columns:
        raise command.Refusal(f"{path} has no column `served`, and needs --trace (--help says more)")
