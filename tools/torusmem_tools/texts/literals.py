"""Reads whole numbers as programs, chips and data frames write them in a table: `17`, `+17`, `17.0`, `1_000`, `0x1f`, `0b1_0001`;
and `00ff` where a table's columns are bare hexadecimal.
"""
from __future__ import annotations

import re
from typing import Optional

from torusmem_tools.model.operations import MASK
from torusmem_tools.texts.report import BadLine

HEX = "[0-9A-Fa-f]+(?:_[0-9A-Fa-f]+)*"
LITERAL = re.compile(rf"\+?(?:0[xX]({HEX})|0[bB]([01]+(?:_[01]+)*)|([0-9]+(?:_[0-9]+)*)(?:\.0+)?)", re.ASCII)
BARE = re.compile(rf"\+?(?:0[xX])?({HEX})", re.ASCII)
# What is above every limit, in place of a number of more digits than a word has bits.
ENDLESS = 2**300
# What looks like a number and isn't one: digits, a sign, a point, an exponent or a base.
ODD = re.compile(
    r"[+-]?(?:[0-9][0-9A-Fa-f_]*|[0-9]*\.?[0-9]+(?:[eE][+-]?[0-9]+)?|[0-9]+\.[0-9]*)"
    r"|\"?[+-]?0[xXbBoO]\w*\"?|[0-9]*'[sS]?[hHbBdDoO]\w*", re.ASCII,
)


def literal(word: str, is_hex: bool = False) -> Optional[int]:
    """The number that a word spells, all bare digits hexadecimal where that is said; None for what is no number."""
    if not is_hex and len(word) <= 20 and word.isascii() and word.isdigit():
        return int(word)
    found = (BARE if is_hex else LITERAL).fullmatch(word)
    if not found:
        return None
    digits = found[found.lastindex or 0].replace("_", "").lstrip("0") or "0"
    if len(digits) > MASK.bit_length():
        return ENDLESS
    return int(digits, 16 if is_hex else (16, 2, 10)[(found.lastindex or 1) - 1])


def is_other_base(word: str, is_hex: bool) -> bool:
    """Whether a number isn't spelled in decimal."""
    return is_hex or word.lstrip("+")[:2] in ("0x", "0X", "0b", "0B")


def looks_odd(word: str) -> bool:
    """Whether a word that is no number looks like one."""
    return ODD.fullmatch(word) is not None


def is_bare(word: str) -> bool:
    """Whether a word, in quotes or not, is a number of 64 bits where bare digits are hexadecimal."""
    found = literal(word.strip('"'), True)
    return found is not None and found <= MASK


def number(word: str, least: int, most: int, what: str, is_hex: bool = False) -> int:
    """The number that a word spells, which is to lie between `least` and `most`."""
    found = literal(word, is_hex)
    if found is None:
        advice = "; --hex reads it" if looks_odd(word) and is_bare(word) else ""
        raise BadLine(f"{what} is no number" + (f": `{word}`{advice}" if looks_odd(word) else ""))
    if not least <= found <= most:
        raise BadLine(f"{what} is not {least} to {most}")
    return found
