"""The contracts of public functions, as they stand in the sources.

`tools/reading` and `crate_lists` stand on it. It reads the sources alone.
"""
from __future__ import annotations

import os
import re
from collections import OrderedDict
from dataclasses import dataclass, field

from torusmem_tools import command
from torusmem_tools.repository.sources import CRATES, KNOWN, ROOT, Module, lines_of, module, read_imports

BLOCK = re.compile(r"(?:pub )?(?:unsafe )?(impl|trait)\b(?:<.*?>)? *(.*?) *\{\}?$")
FUNCTION = re.compile(r"\s*(pub )?(?:const |unsafe )*(?:extern \"C\" )?fn (\w+)")
CLAUSE = re.compile(r"\s*(requires|ensures)\*?(?: (\w+))? \{ ?(.*)")
MEMBER = re.compile(r"\s*ghost (\w+) = \{ ?(.*)")


@dataclass
class Contract:
    """A public function, a method of a public trait, or what an `impl` says of a trait's: its clauses by kind and name."""

    path: str
    name: str
    comment: list[str] = field(default_factory=list)
    rows: list[str] = field(default_factory=list)
    clauses: list[tuple[str, str]] = field(default_factory=list)
    is_law: bool = False
    is_function: bool = True


def files_of(crate: str) -> list[str]:
    """The sources of a crate, but its tests."""
    found = []
    for folder, _, files in sorted(os.walk(f"{CRATES}/{crate}/src")):
        found += [f"{folder}/{it}" for it in sorted(files) if it.endswith(".rt")]
    tests = {f"{CRATES}/{crate}/src/{it}.rt" for it in tests_of(crate)}
    return [it for it in found if it not in tests]


def tests_of(crate: str) -> set[str]:
    """The modules that a crate has for its tests alone."""
    file = f"{CRATES}/{crate}/src/lib.rt"
    text = "\n".join(lines_of(file)) if os.path.isfile(file) else ""
    return set(re.findall(r"#\[cfg\(test\)\]\nmod (\w+);", text))


def owner_of(row: str) -> tuple[str, str, bool] | None:
    """Of the head of a block: the type or trait, how it is written, and whether functions need no `pub` there."""
    found = BLOCK.match(row)
    if not found:
        return None
    head = re.sub(r"<[^<>]*>", "", re.sub(r"<[^<>]*>", "", re.sub(r"<[^<>]*>", "", found[2])))
    words = re.findall(r"\w+", head.split(" where ")[0].split(":")[0])
    if not words:
        return None
    return words[0 if found[1] == "trait" else -1], head.strip(), found[1] == "trait" and row.startswith("pub")


def text_from(rows: list[str], at: int, start: str) -> str:
    """The text of a clause or member: what stands between its braces, on one line."""
    depth, kept, rest = 1, "", start
    while True:
        for mark in rest:
            depth += (mark == "{") - (mark == "}")
            if not depth:
                return " ".join(kept.split())
            kept += mark
        at, kept = at + 1, kept + " "
        if at >= len(rows):
            return " ".join(kept.split())
        rest = rows[at]


def taken(rows: list[str], at: int) -> tuple[int, list[tuple[str, str]]]:
    """Where the head of the function of a row ends, and its clauses."""
    indent = rows[at][: len(rows[at]) - len(rows[at].lstrip())]
    clauses: list[tuple[str, str]] = []
    last = at
    while last < len(rows):
        row = rows[last]
        found = CLAUSE.match(row)
        if found:
            clauses.append((" ".join(filter(None, found.groups()[:2])), text_from(rows, last, found[3])))
        if row in (indent + "{", indent + "{}") or not clauses and not found and re.search(r"(\{|\{\}|\)|>|\w);?$", row) \
                and row.rstrip().endswith(("{", "{}", ";")):
            return last, clauses
        if clauses and row.rstrip().endswith("};"):
            return last, clauses
        last += 1
    return last, clauses


def contracts_in(file: str) -> list[Contract]:
    """The public contracts of a file, in order."""
    rows = lines_of(file)
    path = os.path.relpath(file, ROOT)
    found: list[Contract] = []
    owner, head, is_trait, members = "", "", False, None
    for at, row in enumerate(rows):
        block = owner_of(row) if row and not row[0].isspace() else None
        if block:
            (owner, head, is_trait), members = block, None
            owner = "" if row.endswith("{}") else owner
        elif row == "}":
            owner, is_trait = "", False
        member = MEMBER.match(row) if owner else None
        if member and " for " in head:
            if members is None:
                members = Contract(path, f"impl {head}", is_function=False)
                found.append(members)
            members.clauses.append((member[1], text_from(rows, at, member[2])))
        function = FUNCTION.match(row)
        if not function or row[0].isspace() != bool(owner) or not (function[1] or is_trait and row.startswith("    fn ")):
            continue
        first = at
        while first and rows[first - 1].lstrip().startswith(("///", "#[")):
            first -= 1
        last, clauses = taken(rows, at)
        indent = row[: len(row) - len(row.lstrip())]
        made = Contract(path, f"{owner}::{function[2]}" if owner else function[2], clauses=clauses)
        made.comment = [it for it in rows[first:at] if it.lstrip().startswith("///")]
        end = last if rows[last].strip() in ("{", "{}") else last + 1
        made.rows = [it[len(indent):] for it in rows[first:end] if "#[" not in it]
        made.is_law = rows[last] == "{}" and row.endswith("()") and bool(clauses)
        found.append(made)
    return found


def contract(crate: str, item: str) -> tuple[str, Module, str] | None:
    """A public function: its file, what its clauses may name, and its comment, head and clauses."""
    for file in files_of(crate):
        for one in contracts_in(file):
            if one.is_function and one.name == item:
                here = Module(one.path)
                read_imports(here, lines_of(file))
                return one.path, here, "\n".join(one.rows)
    return None


def find(item: str) -> tuple[str, str, Module, str, str, str]:
    """What an item names: the file, the crate, its module, the text, the path of the module and the own name."""
    crate, _, rest = item.partition("::")
    if crate not in KNOWN or not rest:
        raise command.WrongWords(f"{item}: there is no crate {crate}" if rest else f"{item}: an item is CRATE::NAME")
    found = contract(crate, rest)
    if found:
        return found[0], crate, found[1], found[2], "", rest
    for path, here in modules_of(crate).items():
        if rest in here.texts:
            return here.path, crate, here, here.texts[rest], path, rest
    raise command.WrongWords(f"{item}: the crate {crate} has no public function and no definition of that name")


def modules_of(crate: str) -> OrderedDict[str, Module]:
    """The modules of a crate's specs, by their paths."""
    found: OrderedDict[str, Module] = OrderedDict()
    for folder, _, files in sorted(os.walk(f"{CRATES}/{crate}/specs")):
        for file in sorted(it for it in files if it.endswith(".antt")):
            path = os.path.relpath(f"{folder}/{file}", f"{CRATES}/{crate}/specs")[: -len(".antt")]
            here = module(crate, path)
            if here:
                found[path] = here
    return found
