"""The record of the edits that the prover has refused, checks/refused.txt, for checks/wrong_bodies.

It has a section for each toolchain, and in it a line for each edit: the crate, the edit, and a sum of all that the verdict
depends on. A run reads the section of its own toolchain only.
"""
from __future__ import annotations

import glob
import hashlib
import os
import re
import shutil
import subprocess
import sys
import threading
from typing import Callable

from judging import PARTS, ROOT, Crate, Edit, below, lines_of_crates, read

RECORD, NEW = "checks/refused.txt", "out/refused.txt"
# The folders of edits.
FOLDERS = ("wrong-bodies", "must-fail-in-batches", "must-fail")
# The parts of a toolchain on which a verdict depends.
KIT_PARTS = ("bin", "rlibs", "logic_built", "rattle/logic")
HEAD = """# The edits that the prover has refused. A section for each toolchain: what `rt version` prints, and a sum of the prover and
# of the files of its libraries. In it a line for each edit: the crate, the edit, and a sum of checks/judging.py, of the edit,
# and of the line of crates.txt, of src, specs and proofs of the crate and of those below it, without lines of comments. Of a
# crate below, what only proves one function's body (Answers.antt and Invariants.antt in the function's folder) isn't summed,
# for no other proof can rest on it. `checks/wrong_bodies` reads and writes it.
"""
# A line that is a comment alone, by the ending of the file's name.
COMMENT = {".rt": re.compile(r"(?m)^[ \t]*//.*\n"), ".antt": re.compile(r"(?m)^[ \t]*--(?: .*)?\n")}
# A file of answers in the folder of its function, and an import of one.
OF_ONE_BODY = re.compile(r"proofs/.+/(?:Answers|Invariants)\.antt$")
TAKEN_FROM_ONE = re.compile(r"\bproofs\.[\w.]+\.(?:Answers|Invariants)\.")


def kit() -> str:
    """Which toolchain this is: what `rt version` prints, and a sum of the prover, and of the names and sizes of the files of
    its libraries."""
    said = subprocess.run(["rt", "version"], cwd=ROOT, stdin=subprocess.DEVNULL, stdout=subprocess.PIPE,
                          stderr=subprocess.DEVNULL, encoding="utf-8", errors="replace", check=False).stdout
    folder = os.path.dirname(os.path.dirname(os.path.realpath(shutil.which("rt") or "")))
    total = hashlib.sha256()
    for name in ("KIT-ID", "bin/rattle"):
        if os.path.isfile(f"{folder}/{name}"):
            with open(f"{folder}/{name}", "rb") as file:
                total.update(hashlib.sha256(file.read()).digest())
    for part in KIT_PARTS:
        for at, folders, names in os.walk(f"{folder}/{part}"):
            folders.sort()
            paths = [f"{at}/{it}" for it in sorted(names) if not it.endswith(".pyc")]
            rows = [(os.path.relpath(it, folder), os.lstat(it).st_size) for it in paths]
            total.update(repr(rows).encode())
    return " ".join([*said.split(), "files", total.hexdigest()[:16]])


def without_comments(path: str) -> str:
    """The text of a source without the lines that are comments alone. Where it has a text that goes over several lines, its
    whole text, for a line of that could look like a comment."""
    text = read(path)
    pattern = COMMENT.get(os.path.splitext(path)[1])
    left = pattern.sub("", text) if pattern else text
    return left if all(it.count('"') % 2 == 0 for it in left.split("\n")) else text


def sources_sums(name: str, lines: dict[str, list[str]]) -> tuple[str, str]:
    """Two sums of a crate's line in crates.txt and of its sources: of all, and of what a crate above can rest on."""
    whole, seen = (hashlib.sha256(repr((name, lines[name])).encode()) for _ in range(2))
    for path in sorted(it for part in PARTS for it in glob.glob(f"{ROOT}/crates/{name}/{part}/**", recursive=True)):
        if not os.path.isfile(path):
            continue
        text, at = without_comments(path), os.path.relpath(path, ROOT)
        if TAKEN_FROM_ONE.search(text):
            sys.exit(f"{at}: imports from a file that proves one function's body, which the sums of the record leave out")
        whole.update(repr((at, text)).encode())
        if not OF_ONE_BODY.search(at):
            seen.update(repr((at, text)).encode())
    return whole.hexdigest(), seen.hexdigest()


class Sources:
    """Sums of the sources of crates; each crate is read once."""

    def __init__(self) -> None:
        self.lines, self.alone = lines_of_crates(), threading.Lock()
        self.judging = read(f"{ROOT}/checks/judging.py")
        self.known: dict[str, tuple[str, str]] = {}
        self.sums: dict[str, str] = {}

    def below(self, name: str) -> str:
        """A sum of this judging, of a crate and of those below it."""
        with self.alone:
            if name not in self.sums:
                total = hashlib.sha256(self.judging.encode())
                for it in sorted(below(name, self.lines)):
                    self.known[it] = self.known.get(it) or sources_sums(it, self.lines)
                    total.update(self.known[it][it != name].encode())
                self.sums[name] = total.hexdigest()
            return self.sums[name]

    def line(self, name: str, edit: Edit) -> str:
        """The line of an edit: its crate, its name, and a sum of all that its verdict depends on but for the toolchain."""
        return f"{name} {edit.name} {hashlib.sha256(repr((edit.changes, self.below(name))).encode()).hexdigest()[:24]}"


def sections_of(text: str) -> dict[str, set[str]]:
    """The lines of a record, by the toolchain of their section."""
    found: dict[str, set[str]] = {}
    rows = None
    for line in text.split("\n"):
        if line.startswith("kit: "):
            rows = found.setdefault(line[len("kit: "):].strip(), set())
        elif line and not line.startswith("#") and rows is not None:
            rows.add(line)
    return found


class Record:
    """What is recorded of this toolchain, and of others. What a run adds is written at once, so that a run that is cut off loses
    no check that has ended."""

    def __init__(self, sources: Sources, is_read: bool, to: str) -> None:
        self.sources, self.is_read, self.to, self.alone = sources, is_read, to, threading.Lock()
        self.kit = kit()
        self.sections: dict[str, set[str]] = {}
        # What earlier runs here have added counts as what is committed.
        for path in (RECORD, NEW):
            text = read(f"{ROOT}/{path}") if os.path.exists(f"{ROOT}/{path}") else ""
            for name, rows in sections_of(text).items():
                self.sections[name] = self.sections.get(name, set()) | rows
        self.lines = self.sections.setdefault(self.kit, set())
        self.there = {sources.line(it, edit) for it in sources.lines for edit in Crate(it).edits(FOLDERS)}
        self.added: set[str] = set()

    def first_line(self, of: str, edits: list[tuple[str, Edit]]) -> str:
        """Says which section this is, and how many of some edits it has."""
        count = sum(self.sources.line(*it) in self.lines for it in edits)
        read_so = "" if self.is_read else "; --anew reads none of it"
        return f"{RECORD}: the section `{self.kit}` has {count} of {len(edits)} {of}{read_so}"

    def has(self, name: str, edit: Edit) -> bool:
        return self.sources.line(name, edit) in self.lines

    def lacks(self, name: str, edits: list[Edit]) -> list[Edit]:
        """Those of these edits that it doesn't have; all of them where it isn't read."""
        return [it for it in edits if not self.is_read or not self.has(name, it)]

    def note(self, name: str, edits: list[Edit], refused: Callable[[str], bool]) -> list[str]:
        """Notes what a check said of some edits, and writes that; answers the lines that it found false."""
        with self.alone:
            false = []
            for it in edits:
                line = self.sources.line(name, it)
                if refused(it.name):
                    self.added |= {line} - self.lines
                    self.lines.add(line)
                elif line in self.lines:
                    false.append(f"  FALSE LINE   {it.name}: {RECORD} has it as refused: {line}")
                    self.lines.discard(line)
            self.write()
            return false

    def write(self) -> None:
        """Writes the lines of the edits that there are with their sums, and of no others."""
        path = f"{ROOT}/{self.to}"
        os.makedirs(os.path.dirname(path), exist_ok=True)
        with open(f"{path}.new", "w", encoding="utf-8") as file:
            file.write(HEAD)
            for name, rows in sorted(self.sections.items()):
                left = sorted(rows & self.there)
                file.write("".join(f"{it}\n" for it in [f"kit: {name}", *left]) if left else "")
        os.replace(f"{path}.new", path)


def drawn(seed: int, names: list[str]) -> list[str]:
    """A tenth of some crates, at least one, drawn by a number."""
    order = sorted(names, key=lambda it: hashlib.sha256(f"{seed} {it}".encode()).digest())
    return sorted(order[:-(-len(names) // 10)])
