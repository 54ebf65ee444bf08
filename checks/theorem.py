"""The names on docs/THEOREM.md, for checks/documents: each is printed there, listed as left out, linked, or of the library."""
from __future__ import annotations

import re
from typing import Iterable, Iterator

from tree import read

THEOREM = "docs/THEOREM.md"
LEFT_OUT, LIBRARY = "Used above and not printed here: ", "## Words of the toolchain's library"
NAME = re.compile(r"[A-Za-z_]\w*(?:::[A-Za-z_]\w*)*\Z")
TOKEN = re.compile(r"(?<![\w.])[A-Z]\w+")  # of a statement: what isn't a field of something
# What the page explains, and what the toolchain's language has without an import; and types of Rust that no statement speaks of.
OWN = {"Type", "Unit", "u32", "u64", "Self", "Vec", "Allocator", "Copy", "Clone", "Debug", "PartialEq", "Eq"}


def blocks(text: str) -> Iterator[tuple[str, str]]:
    """The pieces of code of a text, each with its language, without comments."""
    for language, code in re.findall(r"(?ms)^```(\w+)\n(.*?)^```$", text):
        yield language, re.sub(r"(?m)(^|\s)(--|///?|#\[).*$", "", code)


def printed(tail: str) -> set[str]:
    """What the printed part has: its items, its definitions, their fields, variants and constructors, and the clauses."""
    found = {part for it in re.findall(r"(?m)^## `([\w:]+)`$", tail) for part in (it, it.partition("::")[2], it.split("::")[-1])}
    found |= set(re.findall(r"(?m)^`(\w+)` \(crates/", tail))
    for language, code in blocks(tail):
        found |= set(re.findall(r"(?m)^\s*pub (\w+) :", code)) | set(re.findall(r"(?m)^\s*ensures (\w+) \{", code))
        if language == "rust":
            found |= set(re.findall(r"(?m)^    (?:pub )?(\w+)(?:\(|,|:| \{)", code))
        elif re.search(r"(?m)^(?:pub )?data", code):
            found |= set(re.findall(r"(?m)^ +(\w+) :", code))
    return found


def foreign(tail: str) -> set[str]:
    """The words of the library, and what a definition calls by another name."""
    _, _, library = tail.partition(LIBRARY)
    found = set(re.findall(r"(?<= )`(\w+)`", library.partition("\n## ")[0]))
    return found | set(re.findall(r"`(\w+)` is `", " ".join(re.findall(r"(?m)^Here (`.*)\.$", tail))))


def known(head: str, tail: str) -> set[str]:
    """The names that need no more: printed, listed, of the library, or said to be another one; and links."""
    listed = re.findall(rf"(?m)^{LEFT_OUT}(.*)\.$", tail)
    found = printed(tail) | {part for it in re.findall(r"`([\w:]+)`", " ".join(listed)) for part in (it, it.split("::")[-1])}
    return found | foreign(tail) | {it.split("::")[-1] for it in re.findall(r"\[`([\w:]+)`\]\(", head)} | OWN


def unknown(crates: Iterable[str]) -> Iterator[tuple[int, str]]:
    """Each name of the page that is none of these, with its line: those in backquotes ahead of the printed part, and of the
    printed part every word of a statement that begins with a capital letter."""
    text = read(THEOREM)
    head, mark, tail = text.partition("<!-- tools/reading ")
    have = known(head, tail) | set(crates)
    for number, row in enumerate(head.split("\n"), 1):
        for name in re.findall(r"`([^`]+)`", row):
            if NAME.match(name) and len(name) > 1 and name.split("::")[-1] not in have:
                yield number, name
    first = head.count("\n") + 1
    rows = tail.split("\n")
    for name in sorted({it for _, code in blocks(tail) for it in TOKEN.findall(code)} - have):
        yield first + next(at for at, row in enumerate(rows) if re.search(rf"\b{name}\b", row)), name
