"""Reads forms of EDN, the notation of Clojure's data (https://github.com/edn-format/edn), as logs have them.

A number is an int, also where it is spelled `0x1f`, `0b11`, `1_000` or `17.0`; a list or a vector a list; a map a dict; nil is None. A keyword, a string and every other word stay text, as
they are written: `:ok`, `"a b"`, `true`. A tag, as `#jepsen.history.Op`, is passed over.
"""
from __future__ import annotations

import functools
import re
from typing import List, Tuple

from torusmem_tools.model.operations import MASK
from torusmem_tools.texts import literals
from torusmem_tools.texts.report import BadLine

TOKEN = re.compile(r'[\s,]*([{}\[\]()]|:[^\s,{}\[\]()"]+|"(?:[^"\\]|\\.)*"|[^\s,{}\[\]()":]+)')
ENDS = {"[": "]", "(": ")", "{": "}"}
# (A word to its end, so that there is one way to part a text into words.)
ATOM = r'(?:[^\s,{}\[\]()"#]+(?![^\s,{}\[\]()"#])|"(?:[^"\\]|\\.)*")'
VECTOR = rf"\[(?:{ATOM}|\[[^\[\]{{}}()\"#]*\]|[\s,])*\]"
# A map of keywords, and of values without maps, and one of its pairs.
FLAT = re.compile(rf"\s*\{{(?:[\s,]*:[^\s,{{}}\[\]()\"]+\s+(?:{ATOM}|{VECTOR}))*[\s,]*\}}\s*")
PAIR = re.compile(rf"(:[^\s,{{}}\[\]()\"]+)\s+({ATOM}|{VECTOR})")


def atom(token: str) -> object:
    """What a token stands for that is no bracket."""
    if token[:1] == ":" and len(token) > 1 or token[:1] == '"':
        return token
    if token == "nil":
        return None
    digits = token[1:] if token[:1] in ("-", "+") else token
    if digits.isascii() and digits.isdigit():
        return int(token) if len(token) <= 21 else token
    number = literals.literal(token)
    if number is not None and number > MASK:
        raise BadLine(f"the number {token} is above {MASK}")
    if number is not None:
        return number
    if re.fullmatch(r"[A-Za-z*!_?$%&=<>.][^\s]*", token):
        return token
    raise BadLine(f"`{token}` is not understood" if token else "it ends too soon")


def form(tokens: List[str], at: int) -> Tuple[object, int]:
    """The form that begins at a token, and where the one behind it begins."""
    token = tokens[at] if at < len(tokens) else ""
    if token[:1] == "#":
        return form(tokens, at + 1)
    if token not in ENDS:
        return atom(token), at + 1
    end, items, at = ENDS[token], [], at + 1
    while at < len(tokens) and tokens[at] != end:
        made, at = form(tokens, at)
        items.append(made)
    if at >= len(tokens):
        raise BadLine(f"there is no `{end}`")
    return (items if token != "{" else dict(zip(map(str, items[::2]), items[1::2]))), at + 1


def forms(text: str) -> List[object]:
    """The forms of a text, one behind the other."""
    if other := TOKEN.sub("", text).strip(" \t\r,"):
        raise BadLine("a string has no end" if other[0] == '"' else f"`{other[:20]}` is not understood")
    tokens, found, at = TOKEN.findall(text), [], 0
    try:
        while at < len(tokens):
            made, at = form(tokens, at)
            found.append(made)
    except RecursionError:
        raise BadLine("its brackets lie too deep in each other") from None
    return found


def one(text: str) -> object:
    """The form of a text that has one alone."""
    found = forms(text)
    if len(found) != 1:
        raise BadLine("something stands behind the map" if found else "it ends too soon")
    return found[0]


@functools.lru_cache(maxsize=4096)
def value(text: str) -> object:
    """The form of a text without space around it."""
    return one(text) if text[:1] in "[({#" else atom(text)
