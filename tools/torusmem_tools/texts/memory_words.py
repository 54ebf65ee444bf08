"""The words of a memory at its beginning and at its end, as the command line and texts give them, for tools/from_csv."""
from __future__ import annotations

from argparse import Namespace

from torusmem_tools import command
from torusmem_tools.model.operations import MASK
from torusmem_tools.model.trace_pieces import Image, Memory
from torusmem_tools.texts import literals, table
from torusmem_tools.texts.report import BadLine


def add_word(image: Image, address: str, word: str, limits: table.Limits, line: int) -> None:
    """Adds a word to those of a text, in which it stands in the line, or to those of the command line (line 0)."""
    at = literals.number(address, 0, limits.last_address(), "the address", limits.is_hex)
    if at in image.words:
        where = f", in line {image.lines[at]}" if at in image.lines else ""
        raise BadLine(f"the address {at} is given already{where}")
    image.words[at] = literals.number(word, 0, MASK, "a value", limits.is_hex)
    if line:
        image.lines[at] = line


def read_image(image: Image, path: str, limits: table.Limits) -> None:
    """Adds the words of a text. Refused with the first line that can't be understood."""
    for line, text in enumerate(command.contents(path).decode("utf-8", "replace").split("\n"), 1):
        words = text.split()
        try:
            if len(words) not in (0, 2):
                raise BadLine("a line is an address and a word")
            if words:
                add_word(image, words[0], words[1], limits, line)
        except BadLine as why:
            raise command.Refusal(f"{path}, line {line}: {why}") from None


def memory_of(given: Namespace, limits: table.Limits) -> Memory:
    """The words that the command line gives."""
    opening = Image()
    for word in given.init:
        if not isinstance(word, str):
            try:
                address, value = word
                add_word(opening, address, value, limits, 0)
            except BadLine as why:
                raise command.WrongWords(f"--init {' '.join(word)}: {why}") from None
    for word in given.init:
        if isinstance(word, str):
            read_image(opening, word, limits)
    closing = Image(given.final) if given.final else None
    if closing:
        read_image(closing, given.final, limits)
    return Memory(opening, closing)


def words_given(words: list[str]) -> list[str]:
    """The words of the command line, with the two numbers behind an --init in one word."""
    made: list[str] = []
    for word in words:
        if made[-2:-1] == ["--init"] and literals.literal(made[-1]) is not None:
            made[-1] += f" {word}"
        else:
            made.append(word)
    return made


def opening_of(word: str) -> str | list[str]:
    """The reader of what stands behind --init: a text, or an address and a word."""
    first, space, _ = word.partition(" ")
    return word.split() if space and literals.literal(first) is not None else word
