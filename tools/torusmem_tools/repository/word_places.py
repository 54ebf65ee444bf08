"""The files of the repository that name a word, folder by folder.

`tools/reading --where` prints the list, and packaging/site has it as a page. Who adds an operation, a command or a
model finds by a neighbour of it which files know of all of them.
"""
from __future__ import annotations

import os
import re
from collections import OrderedDict
from typing import Dict, Iterable, List, Set

from torusmem_tools.repository.sources import ROOT

SKIPPED = {".git", ".ci", "__pycache__", "out", "target", "must-fail", "must-fail-in-batches", "wrong-bodies", "pictures"}
ENDINGS = (".svg", ".egg-info", ".json", ".png")
TOKEN = re.compile(r"[A-Za-z][A-Za-z0-9_]*(?:-[A-Za-z0-9]+)*")
INSIDE = ("src", "specs", "proofs")  # the folders of a crate


class Words:
    """The words of all files: of each the files that have it."""

    def __init__(self) -> None:
        self.files: Dict[str, Set[str]] = {}
        for folder, folders, names in os.walk(ROOT):
            folders[:] = sorted(it for it in folders if it not in SKIPPED)
            for name in names:
                path = os.path.relpath(f"{folder}/{name}", ROOT)
                if not name.endswith(ENDINGS) and not os.path.islink(f"{ROOT}/{path}"):
                    self.take(path)

    def take(self, path: str) -> None:
        """Reads a file; what isn't text names nothing."""
        try:
            with open(f"{ROOT}/{path}", encoding="utf-8") as it:
                text = it.read()
        except (OSError, UnicodeDecodeError):
            return
        for word in set(TOKEN.findall(text)) | set(TOKEN.findall(path)):
            self.files.setdefault(word, set()).add(path)

    def naming(self, word: str) -> List[str]:
        """The files that name a word: as it is, or as a part of a longer name (`op_xor`, `BitXor`, `--west-first`)."""
        pattern = spellings(word)
        found: Set[str] = set()
        for token, files in self.files.items():
            if pattern.search(token):
                found |= files
        return sorted(found)


def spellings(word: str) -> "re.Pattern[str]":
    """All spellings of a word: small, as a part of a name in capitals, or with one capital."""
    parts = [it for it in re.split(r"[-_ ]+", word) if it]
    small = "[-_]".join(re.escape(it.lower()) for it in parts)
    camel = "[-_]?".join(re.escape(it.capitalize()) for it in parts)
    upper = "[-_]".join(re.escape(it.upper()) for it in parts)
    return re.compile(rf"(?<![A-Za-z]){small}(?![a-z])|(?<![A-Z]){camel}(?![a-z])|(?<![A-Za-z]){upper}(?![A-Za-z])")


def folder_of(path: str) -> str:
    """The group of a file: a folder of a crate, or the file's own folder."""
    parts = path.split("/")
    if parts[0] == "crates" and len(parts) > 3 and parts[2] in INSIDE:
        return "/".join(parts[:3])
    return os.path.dirname(path) or "."


def by_folder(paths: Iterable[str]) -> "OrderedDict[str, List[str]]":
    """Files by their groups."""
    found: "OrderedDict[str, List[str]]" = OrderedDict()
    for path in sorted(paths, key=lambda it: (not it.startswith("crates/"), folder_of(it), it)):
        found.setdefault(folder_of(path), []).append(path)
    return found


def summary(paths: List[str]) -> str:
    """How many files there are of each kind."""
    kinds: "OrderedDict[str, int]" = OrderedDict()
    for path in paths:
        parts = path.split("/")
        kind = parts[2] if parts[0] == "crates" and len(parts) > 3 and parts[2] in INSIDE else parts[0] if len(parts) > 1 else "the top"
        kinds[kind] = kinds.get(kind, 0) + 1
    rows = [f"{kinds[it]} of {it}" for it in [*INSIDE, *sorted(set(kinds) - set(INSIDE))] if it in kinds]
    crates = len({it.split("/")[1] for it in paths if it.startswith("crates/")})
    return f"{len(paths)} files, of {crates} crates and of other folders: " + ", ".join(rows)


def list_places(word: str) -> List[str]:
    """The list as `reading` prints it."""
    paths = Words().naming(word)
    rows = [f"`{word}`: {summary(paths)}." if paths else f"No file names `{word}`.", ""]
    for folder, files in by_folder(paths).items():
        rows.append(f"{folder}/" if folder != "." else "at the top")
        rows += [f"    {os.path.relpath(it, folder)}" for it in files]
    return rows
