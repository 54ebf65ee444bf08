"""Reads litmus tests as litmus7 has them (Alglave, Maranget, Sarkar and Sewell, Litmus: Running Tests against Hardware, TACAS 2011),
of x86 or RISC-V: words, registers and constants; loads, stores, atomics and full fences; `exists` or `~exists`.

What a script of the machine can't say is refused by file, line and reason: a branch, an address or a value that comes of a load, a
weaker fence, an annotation.
"""
from __future__ import annotations

import re
from dataclasses import dataclass, field
from typing import Callable, Dict, List, Tuple, Union

from torusmem_tools.command import Refusal
from torusmem_tools.model.operations import MASK, Operation
from torusmem_tools.texts import litmus_code
from torusmem_tools.texts.litmus_code import BadLine, Thread

# A condition has at most so many words.
MOST_TOKENS = 200
# A register of a thread.
Register = Tuple[int, str]
COMMENT = re.compile(r"\(\*.*?\*\)", re.S)
SETTING = re.compile(r"(?:[\w*]+\s+)*?(?:(\d+):)?\[?(\w+)\]?\s*=\s*(\w+)")
TOKEN = re.compile(r"\s*(/\\|\\/|~|\bnot\b|\(|\)|(?:\d+:)?\[?\w+\]?\s*=\s*\w+)")


# A condition of what registers and words hold in the end.
Values = Dict[Union[Register, str], int]
Condition = Callable[[Values], bool]


@dataclass
class Litmus:
    """A test: its name, its words with their openings, its threads, its condition and whether this is said to be `~exists`."""

    name: str
    openings: Dict[str, int] = field(default_factory=dict)
    threads: List[Thread] = field(default_factory=list)
    condition: Condition = lambda _: True
    is_negated: bool = False

    def operations(self) -> List[Operation]:
        """The operations of all threads, with the words by their numbers."""
        return [it for thread in self.threads for it in thread.operations]

    def values(self, replies: Dict[Tuple[int, int], int], words: List[int]) -> Values:
        """What registers and words hold in the end, by the replies of operations and by the words."""
        found: Values = dict(zip(self.openings, words))
        for p, thread in enumerate(self.threads):
            for register, held in thread.registers.items():
                found[p, register] = replies[p, -held - 1] if held < 0 else held
        return found


class Reader:
    """Takes the lines of a test."""

    def __init__(self, name: str) -> None:
        self.name, self.line = name, 1

    def refused(self, text: str, why: str) -> Refusal:
        return Refusal(f"{self.name}:{self.line}: {text.strip()}: {why}")

    def read(self, text: str) -> Litmus:
        """The test of a text."""
        lines = COMMENT.sub(lambda it: "\n" * it[0].count("\n"), text).split("\n")
        head = lines[0].split()
        if len(head) < 2 or head[0].upper() not in litmus_code.DIALECTS:
            raise self.refused(lines[0][:40], "a test of X86 or RISCV begins with this word and its name")
        made = Litmus(head[1])
        body = "\n".join(lines)
        opening, code, final = self.parts(body)
        registers = self.openings(made, *opening)
        self.code(made, litmus_code.DIALECTS[head[0].upper()], registers, *code)
        self.final(made, *final)
        return made

    def parts(self, body: str) -> List[Tuple[str, int]]:
        """The openings, the code and the condition, each with the line on which it begins."""
        first, last = body.find("{"), body.find("}")
        found = re.compile(r"(?m)^\s*(~\s*exists|exists|forall|locations|filter)\b").search(body, max(last, 0))
        if not 0 <= first < last or found is None:
            raise self.refused(body.split("\n")[0], "a test has openings in braces, columns of threads and a condition")
        cuts = ((first + 1, last), (last + 1, found.start(1)), (found.start(1), len(body)))
        return [(body[a:b], body.count("\n", 0, a) + 1) for a, b in cuts]

    def openings(self, made: Litmus, text: str, line: int) -> Dict[Register, str]:
        """Notes what words hold at first, and answers what registers do."""
        registers: Dict[Register, str] = {}
        for number, row in enumerate(text.split("\n"), line):
            self.line = number
            for part in filter(str.strip, row.split(";")):
                found = SETTING.fullmatch(part.strip())
                if not found:
                    raise self.refused(part, "an opening is a word or a register, `=` and a number or a word")
                if found[1]:
                    registers[int(found[1]), found[2].upper()] = found[3]
                else:
                    made.openings[found[2]] = self.number(found[3])
        return registers

    def number(self, word: str) -> int:
        if not litmus_code.NUMBER.fullmatch(word) or not 0 <= int(word, 0) <= MASK:
            raise self.refused(word, "no number from 0 to 2^64 - 1")
        return int(word, 0)

    def code(self, made: Litmus, dialect: litmus_code.Dialect, registers: Dict[Register, str], text: str, line: int) -> None:
        """Takes the columns of the threads."""
        for number, row in enumerate(text.split("\n"), line):
            self.line = number
            cells = [it.strip() for it in row.strip().rstrip(";").split("|")]
            if not row.strip():
                continue
            if not made.threads:
                if cells != [f"P{p}" for p in range(len(cells))]:
                    raise self.refused(row, "above the columns stand the names of the threads, from P0 on")
                made.threads = [Thread(p, {of: held for (q, of), held in registers.items() if q == p}) for p in range(len(cells))]
                continue
            if len(cells) != len(made.threads):
                raise self.refused(row, f"a row has {len(made.threads)} columns")
            for thread, cell in zip(made.threads, cells):
                try:
                    if cell:
                        dialect(thread, cell, made.openings)
                except BadLine as why:
                    raise self.refused(cell, str(why)) from None
        for thread in made.threads:
            thread.end()

    def final(self, made: Litmus, text: str, line: int) -> None:
        """Takes the condition."""
        self.line = line
        found = re.match(r"(~\s*)?exists\b", text)
        if not found:
            raise self.refused(text.split("\n")[0], "a condition begins with `exists` or `~exists`")
        made.is_negated = bool(found[1])
        rest = text[found.end() :]
        self.line += rest[: len(rest) - len(rest.lstrip())].count("\n")
        tokens = self.tokens(rest)
        if len(tokens) > MOST_TOKENS:
            raise self.refused("the condition", f"it has more than {MOST_TOKENS} parts")
        made.condition = self.either(made, tokens)
        if tokens:
            raise self.refused(tokens[0], "nothing more stands behind a condition")

    def tokens(self, text: str) -> List[str]:
        found, at = [], 0
        while text[at:].strip():
            it = TOKEN.match(text, at)
            if not it:
                raise self.refused(text[at:].strip().split("\n")[0], "no part of a condition")
            found.append(re.sub(r"\s", "", it[1]))
            at = it.end()
        return found

    def either(self, made: Litmus, tokens: List[str]) -> Condition:
        parts = [self.both(made, tokens)]
        while tokens[:1] == ["\\/"]:
            tokens.pop(0)
            parts.append(self.both(made, tokens))
        return lambda values: any(it(values) for it in parts)

    def both(self, made: Litmus, tokens: List[str]) -> Condition:
        parts = [self.one(made, tokens)]
        while tokens[:1] == ["/\\"]:
            tokens.pop(0)
            parts.append(self.one(made, tokens))
        return lambda values: all(it(values) for it in parts)

    def one(self, made: Litmus, tokens: List[str]) -> Condition:
        """A part of a condition."""
        if not tokens:
            raise self.refused("the end", "a condition goes on here")
        word = tokens.pop(0)
        if word in ("~", "not"):
            inner = self.one(made, tokens)
            return lambda values: not inner(values)
        if word == "(":
            whole = self.either(made, tokens)
            if tokens[:1] != [")"]:
                raise self.refused(tokens[0] if tokens else "the end", "`)` stands here")
            tokens.pop(0)
            return whole
        if "=" not in word:
            raise self.refused(word, "a register or a word stands here, with `=` and a number")
        return self.holds(made, *word.split("="))

    def holds(self, made: Litmus, name: str, number: str) -> Condition:
        """The condition that a register or a word holds a number."""
        thread, colon, register = name.partition(":")
        wanted = self.number(number)
        if not colon:
            word = name.strip("[]")
            if word not in made.openings:
                raise self.refused(name, "no thread has this word")
            return lambda values: values[word] == wanted
        of = int(thread), register.upper()
        if of[0] >= len(made.threads) or of[1] not in made.threads[of[0]].registers:
            raise self.refused(name, "no thread sets this register")
        return lambda values: values[of] == wanted


def read(text: bytes, name: str) -> Litmus:
    """The test of a file of this name."""
    return Reader(name).read(text.decode("utf-8", "replace").replace("\r\n", "\n"))
