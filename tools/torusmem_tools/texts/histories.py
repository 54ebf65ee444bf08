"""Reads a log of invocations and completions: a map on each line, as EDN (a history of Jepsen) or as JSON, or the lines of
`jepsen.util` in Jepsen's own log (`tools/from_csv --help` says what each may have).
"""
from __future__ import annotations

import json
import re
from dataclasses import dataclass, field
from typing import Callable, Dict, Optional, Tuple

from torusmem_tools import command
from torusmem_tools.model.operations import MASK
from torusmem_tools.progress import Progress
from torusmem_tools.texts import edn, literals, table
from torusmem_tools.texts.call_trace import Calls
from torusmem_tools.texts.numbering import NIL
from torusmem_tools.texts.report import BadLine

KEYS = (":process", ":type", ":f", ":value", ":key", ":error")
TYPES = ("invoke", "ok", "fail", "info")
KINDS = {"read": "load", "get": "load", "write": "store", "put": "store", "cas": "cas"}
# `INFO  jepsen.util - 0 :invoke :write 2`, or with `jepsen.util:` in place of the dash.
LINE = re.compile(r"jepsen\.util(?:\s+-|:)?\s+(\S+)\s+:(invoke|ok|fail|info)\s+:(\S+)(?:\s+(.*))?")
TIME = re.compile(r'[:"]time"?:?\s+([0-9]+)')
IS_LINE = re.compile(rb"jepsen\.util")
TAG = re.compile(rb"#[A-Za-z]")


@dataclass
class LogLine:
    """What a line says: of which process, what happened, which operation, its key where that stands apart, and its value."""

    process: object
    kind: str
    operation: str
    value: object
    key: object = None
    has_error: bool = False


def without_colon(it: object) -> str:
    """A keyword or a text without its colon."""
    return it.lstrip(":").strip('"') if isinstance(it, str) else str(it)


def said_by_map(text: str) -> LogLine:
    """What a map says."""
    if re.match(r'\{\s*"', text):
        try:
            found = json.loads(text)
        except (ValueError, RecursionError):
            raise BadLine("it is no JSON: each map has a line of its own") from None
        found = {f":{key}": as_edn(it) for key, it in found.items()} if isinstance(found, dict) else found
    elif edn.FLAT.fullmatch(text):
        pairs = dict(edn.PAIR.findall(text))
        found = {key: edn.value(pairs[key]) for key in KEYS if key in pairs}
    else:
        found = edn.one(text)
    if not isinstance(found, dict) or any(it not in found for it in KEYS[:4]):
        raise BadLine("it is no map with :process, :type, :f and :value")
    process, error = found[":process"], found.get(":error")
    return LogLine(process, without_colon(found[":type"]), without_colon(found[":f"]), found[":value"], found.get(":key"), error is not None)


def as_edn(it: object) -> object:
    """A value of JSON as one of EDN."""
    if isinstance(it, list):
        return [as_edn(each) for each in it]
    if isinstance(it, bool):
        return "true" if it else "false"
    if isinstance(it, float) and it.is_integer() and abs(it) < 2**53:
        return int(it)
    if isinstance(it, str):
        return json.dumps(it, ensure_ascii=False)
    return it


def said_by_line(text: str) -> Optional[LogLine]:
    """What a line of Jepsen's log says of an operation; None where it says nothing of one."""
    found = LINE.search(text)
    if not found:
        if "jepsen.util" in text and re.search(r":(invoke|ok|fail|info)\b", text):
            raise BadLine("it is no `jepsen.util - PROCESS :TYPE :OPERATION VALUE`")
        return None
    forms = edn.forms(found[4] or "")
    process = edn.value(found[1])
    is_odd = len(forms) > 1 or isinstance(forms[0] if forms else None, str) and str(forms[0])[0] == ":"
    return LogLine(process, found[2], found[3], forms[0] if forms else None, None, is_odd)


@dataclass
class Log:
    """The calls of a log, those that are open, by process, and whether it has pairs of a register and its value."""

    calls: Calls
    is_hex: bool = False
    is_open: Dict[str, int] = field(default_factory=dict)
    has_pairs: Optional[bool] = None

    def number(self, it: object) -> Optional[int]:
        """The number of 64 bits that a value or a key is; with --hex also a string of hexadecimal digits."""
        if self.is_hex and isinstance(it, str) and it[:1] == '"':
            it = literals.literal(it[1:-1], True)
        return it if isinstance(it, int) and 0 <= it <= MASK else None

    def word(self, value: object) -> str:
        """A value."""
        if isinstance(value, (list, dict, float)):
            raise BadLine("a value is no number of 64 bits and no string")
        number = self.number(value)
        return self.calls.names.named_value(NIL if value is None else str(value)) if number is None else str(number)

    def key(self, it: object) -> str:
        """A key."""
        number, names = self.number(it), self.calls.names
        return names.named_key(NIL if it is None else str(it)) if number is None else names.numbered_key(number)

    def split(self, said: LogLine) -> Tuple[str, object]:
        """The key that is named by an issue, and what is said of it."""
        if said.key is not None:
            return self.key(said.key), said.value
        pair = said.value if isinstance(said.value, list) and len(said.value) == 2 else None
        is_pair = pair is not None and (said.operation != "cas" or isinstance(pair[1], list))
        if self.has_pairs not in (None, is_pair):
            raise BadLine("the value is no pair of a register and its value" if self.has_pairs else "a pair, and the values before are none")
        self.has_pairs = is_pair
        if pair is None or not is_pair:
            return "0", said.value
        if isinstance(pair[0], (list, dict, float)):
            raise BadLine("a register is no number and no string")
        return self.key(pair[0]), pair[1]

    def asked(self, said: LogLine) -> str:
        """The operation that a line invokes."""
        kind = KINDS.get(said.operation)
        if kind is None:
            raise BadLine(f"`{said.operation}` is no operation of a register: read, write or cas")
        key, value = self.split(said)
        self.calls.spelled[kind] = said.operation
        if kind == "load":
            return f"load {key}"
        if kind == "store":
            return f"store {key} {self.word(value)}"
        if not isinstance(value, list) or len(value) != 2:
            raise BadLine("the value of a cas is no pair")
        return f"cas {key} {self.word(value[0])} {self.word(value[1])}"

    def reply(self, said: LogLine, asked: str) -> str:
        """The reply to an operation that is done: of a cas the word that it expected."""
        kind, _, *values = asked.split(" ")
        if kind == "store":
            return "ok"
        if kind == "cas":
            return values[0]
        if said.key is None and self.has_pairs:
            if not isinstance(said.value, list) or len(said.value) != 2:
                raise BadLine("the value is no pair of a register and its value")
            return self.word(said.value[1])
        return self.word(said.value)

    def refuse_other(self, said: LogLine, at: int) -> None:
        """Refuses an answer that is one to another operation than the process has open, or that tells of another key."""
        kind, key = self.calls.asked[at].split(" ", 2)[:2]
        if KINDS.get(said.operation) != kind:
            raise BadLine(f"`{said.operation}` is answered, but `{self.calls.spelled[kind]}` is open, of line {self.calls.issues[at]}")
        told = said.value[:1] if self.has_pairs and isinstance(said.value, list) and len(said.value) == 2 else []
        told = told if said.key is None else [said.key]
        if said.kind == "ok" and told and self.key(told[0]) != key:
            raise BadLine(f"it answers for the key {told[0]}, and line {self.calls.issues[at]} asks for another")

    def take(self, said: LogLine, line: int) -> None:
        """Takes what a line says."""
        process, calls = said.process, self.calls
        calls.names.line = line
        if said.kind not in TYPES:
            raise BadLine(f"`{said.kind}` is no type: invoke, ok, fail or info")
        if isinstance(process, str) and (process[0] == ":" or process == '"nemesis"'):
            calls.skipped[f"of the {without_colon(process)}"] += 1
            return
        if not isinstance(process, (int, str)) or isinstance(process, int) and not 0 <= process <= MASK:
            raise BadLine("a process is no number")
        name = str(process)
        if said.kind == "invoke":
            if name in self.is_open:
                raise BadLine(f"the process {name} has an operation open, of line {calls.issues[self.is_open[name]]}")
            self.is_open[name] = calls.add(name, self.asked(said), line)
            calls.order.append(self.is_open[name])
            return
        if name not in self.is_open:
            raise BadLine(f"the process {name} has no operation open")
        at = self.is_open.pop(name)
        self.refuse_other(said, at)
        if said.kind == "ok":
            calls.replies[at], calls.answers[at] = self.reply(said, calls.asked[at]), line
            calls.order.append(~at)
        elif said.kind == "fail":
            calls.fail(at, line, said.has_error)
            calls.order.append(~at)


def is_log(text: bytes) -> Tuple[bool, bool]:
    """Whether a text is a log of maps, and whether it is one of `jepsen.util`."""
    begin = text[: 2**16].lstrip(b"\xef\xbb\xbf \t\r\n[")
    # A tag of EDN has its letters behind the `#`, and a comment a space.
    return begin[:1] == b"{" or bool(TAG.match(begin)), bool(IS_LINE.search(begin))


def of_log(text: bytes, path: str, is_map: bool, is_hex: bool, progress: Progress) -> Calls:
    """The calls of a log, in the order of time."""
    log = Log(Calls(path, who="process"), is_hex)
    try:
        lines = text.decode("utf-8-sig").split("\n")
    except UnicodeDecodeError:
        raise table.not_utf8(text, path) from None
    for line, row in enumerate(lines, 1):
        try:
            row = row.strip(" \t\r,[]") if is_map and row[:1] in "[]" or row[-2:] in ("}]", "},") else row.strip()
            if not row:
                continue
            said = said_by_map(row) if is_map else said_by_line(row)
            if said:
                log.take(said, line)
            else:
                log.calls.skipped["of the log's other lines"] += 1
        except BadLine as why:
            raise command.Refusal(f"{path}, line {line}: {why}") from None
        if line % 4096 == 0:
            progress.say(f"{line} of {len(lines)} lines are read")
    at: Callable[[int], str] = lambda line: f"line {line}" + "".join(f" at {it}" for it in TIME.findall(lines[line - 1])[:1]) if line else ""
    log.calls.times = lambda it: (at(log.calls.issues[it]), at(log.calls.answers[it]))
    return log.calls
