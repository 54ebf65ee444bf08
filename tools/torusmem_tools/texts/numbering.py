"""Numbers for what a table or a log names by words: keys, values and clients.

While a text is read, a word that is no number has a mark: `@K` for a key and `~K` for a value, K counting the words as they
come. So has an address above all words of a trace text, whatever its base. Behind the last line each mark becomes a number
that the text itself doesn't use, the first one free. `nil` is the value ~0: a key that isn't there holds it.
"""
from __future__ import annotations

import re
from dataclasses import dataclass, field
from itertools import count, cycle, islice
from typing import Dict, Iterable, List, Optional

from torusmem_tools import command
from torusmem_tools.model.operations import MASK
from torusmem_tools.texts import literals
from torusmem_tools.texts.report import BadLine

MOST_WORDS = 2**32
LAST_PROCESSOR = 4095
NIL = "nil"
MARK = re.compile("[@~][0-9]+")


@dataclass
class Names:
    """The words that stand for keys and for values, each with its mark, and what each mark became. Of numbers in another base
    than ten how they are spelled first, and of each name the line that has it first."""

    keys: Dict[str, str] = field(default_factory=dict)
    values: Dict[str, str] = field(default_factory=lambda: {NIL: "~0"})
    is_nil_used: bool = False
    numbers: Dict[str, str] = field(default_factory=dict)
    key_names: Dict[str, str] = field(default_factory=dict)
    value_names: Dict[str, str] = field(default_factory=dict)
    # Whether bare digits of a table are hexadecimal, and which line is being read.
    is_hex: bool = False
    line: int = 0
    spelled_keys: Dict[str, str] = field(default_factory=dict)
    spelled_values: Dict[str, str] = field(default_factory=dict)
    key_lines: Dict[str, int] = field(default_factory=dict)
    value_lines: Dict[str, int] = field(default_factory=dict)
    has_numbers: Dict[str, bool] = field(default_factory=dict)

    def number(self, word: str, column: str) -> Optional[int]:
        """The number that a word of a table spells; None for a name."""
        found = literals.literal(word, self.is_hex)
        if found is not None and found > MASK:
            raise BadLine(f"the column `{column}` has {word}, and the greatest number is {MASK}")
        return found

    def key(self, word: str) -> str:
        """The key that a word of a table spells: its number, or a mark."""
        found = self.number(word, "address")
        if found is None:
            return self.named_key(word)
        made = self.numbered_key(found)
        if literals.is_other_base(word, self.is_hex):
            self.spelled_keys.setdefault(str(found), word)
        return made

    def numbered_key(self, number: int) -> str:
        """A key that is a number: itself, or a mark if no trace text has room for it."""
        name = str(number)
        if number < MOST_WORDS:
            return name
        return self.keys.get(name) or self.keys.setdefault(name, f"@{len(self.keys)}")

    def named_key(self, word: str) -> str:
        """The mark of a key that is a name."""
        if not word:
            raise BadLine("there is no address")
        self.key_lines.setdefault(word, self.line)
        return self.keys.get(word) or self.keys.setdefault(word, f"@{len(self.keys)}")

    def value(self, word: str, column: str = "values") -> str:
        """The value that a word of a table spells: its number, or a mark."""
        found = self.number(word, column)
        if found is None:
            return self.named_value(word)
        name = str(found)
        if literals.is_other_base(word, self.is_hex):
            self.spelled_values.setdefault(name, word)
        return name

    def named_value(self, word: str) -> str:
        """The mark of a value that is a name."""
        if word in ("", "ok", "fail"):
            raise BadLine(f"`{word}` is no value" if word else "there is no value")
        if word == NIL:
            self.is_nil_used = True
        else:
            self.value_lines.setdefault(word, self.line)
        return self.values.get(word) or self.values.setdefault(word, f"~{len(self.values)}")

    def has_values(self) -> bool:
        """Whether a value is named by a word."""
        return self.is_nil_used or len(self.values) > 1

    def settle(self, keys: Iterable[str], values: Iterable[str]) -> None:
        """Gives a number to each mark, where these keys and values are used, marks among them."""
        if self.keys:
            taken = {int(it) for it in keys if it[0] != "@"}
            self.has_numbers["addresses"] = bool(taken) or len(self.keys) > len(self.key_lines)
            shown = (self.spelled_keys.get(it, it) for it in self.keys)
            self.key_names = dict(zip(free(taken, len(self.keys)), shown))
            self.numbers.update(zip(self.keys.values(), self.key_names))
        if self.has_values():
            taken = {int(it) for it in values if it[0] != "~"}
            self.has_numbers["values"] = bool(taken)
            self.value_names = dict(zip(free(taken, len(self.values)), self.values))
            self.numbers.update(zip(self.values.values(), self.value_names))

    def left(self) -> List[str]:
        """What is said of words that are names: those that look like numbers, and others in a column that has numbers."""
        said = []
        for column, lines in (("values", self.value_lines), ("addresses", self.key_lines)):
            has_bare = any(literals.looks_odd(it) and literals.is_bare(it) for it in lines)
            odd = [it for it in lines if literals.looks_odd(it) or has_bare and literals.is_bare(it)]
            if odd:
                advice = "; --hex reads them" if not self.is_hex and all(map(literals.is_bare, odd)) else ""
                said.append(f"left as names: {count_words(odd, column)}, as {odd[0]} (line {lines[odd[0]]}){advice}")
            others = [it for it in lines if not literals.looks_odd(it) and not (has_bare and literals.is_bare(it))]
            if others and self.has_numbers.get(column):
                are = "is a name" if len(others) == 1 else "are names"
                said.append(f"{count_words(others, column)} {are}, as {others[0]} (line {lines[others[0]]})")
        return said

    def settled(self, said: str) -> str:
        """A text with numbers in place of its marks."""
        return MARK.sub(lambda it: self.numbers[it[0]], said)

    def shown_key(self, number: str) -> str:
        """A key as the text names it."""
        return self.key_names.get(number, "") or self.spelled_keys.get(number, number)

    def shown(self, number: str) -> str:
        """A value as the text names it."""
        return self.value_names[number] if number in self.value_names else self.spelled_values.get(number, number)

    def shown_operation(self, asked: str) -> str:
        """An operation of a trace text, its key and its values as the text names them."""
        kind, key, *values = asked.split(" ")
        return " ".join([kind, self.shown_key(key), *map(self.shown, values)])

    def comments(self) -> List[str]:
        """Lines of a trace text that say what is numbered."""
        of_keys = [f"# key {number} is {in_ascii(name)}" for number, name in self.key_names.items()]
        return of_keys + [f"# value {number} is {in_ascii(name)}" for number, name in self.value_names.items()]


def count_words(words: List[str], column: str) -> str:
    """How many there are of a column."""
    return f"{len(words)} {column}" if len(words) != 1 else f"1 {'address' if column == 'addresses' else 'value'}"


def in_ascii(name: str) -> str:
    """A name in one line of ASCII characters."""
    return command.printable(name).encode("ascii", "backslashreplace").decode("ascii")


def free(taken: set[int], wanted: int) -> List[str]:
    """So many numbers from 0 that aren't taken."""
    return [str(it) for it in islice((it for it in count() if it not in taken), wanted)]


def processors(names: Iterable[str]) -> Dict[str, str]:
    """A number below 4096 for each client: its own, or a free one. Where none is free, some get one that another has, which
    only means that a processor of the trace text has operations of both."""
    found, others = {}, []
    for it in names:
        number = literals.literal(it)
        if number is not None and number <= LAST_PROCESSOR:
            found[it] = str(number)
        else:
            others.append(it)
    taken = set(map(int, found.values()))
    spare = [it for it in range(LAST_PROCESSOR + 1) if it not in taken] or list(range(LAST_PROCESSOR + 1))
    found.update(zip(others, map(str, cycle(spare))))
    return found
