"""What stands in the repository, as checks/documents looks it up: its files, its crates, and what each declares."""
from __future__ import annotations

import os
import re
from typing import Iterable, Iterator

from crates import rows

ROOT = os.path.dirname(os.path.dirname(os.path.realpath(__file__)))
SKIPPED = {".git", ".ci", "__pycache__", "out", "target"}


def read(path: str) -> str:
    """The text of a file; none where there is no such file."""
    if not os.path.isfile(f"{ROOT}/{path}"):
        return ""
    with open(f"{ROOT}/{path}", encoding="utf-8", errors="replace") as it:
        return it.read()


def write(path: str, text: str) -> None:
    with open(f"{ROOT}/{path}", "w", encoding="utf-8") as it:
        it.write(text)


def lines_in(path: str) -> int:
    return len(read(path).splitlines())


def parents(path: str) -> Iterator[str]:
    while "/" in path:
        path = path.rpartition("/")[0]
        yield path


# The names that a file declares.
DECLARED = re.compile(r"\b(?:fn|struct|enum|trait|type|const|static|mod)\s+(\w+)")
CLAUSE = re.compile(r"\b(?:ensures|requires|ghost)\*?\s+(\w+)\s*[:{=]")
MEMBER = re.compile(r"(?m)^[ \t]+(?:pub(?:\([a-z]+\))? )?(\w+)\s*(?::|,|\(|\{|$)")
BLOCK = re.compile(r"(?ms)^(?:pub(?:\([a-z]+\))? )?(?:unsafe )?(impl|trait|enum|struct)\b([^\n]*?)\{[ \t]*\n(.*?)^\}")
LAW = re.compile(r"(?ms)^pub fn (\w+)(?:<[^\n]*>)?\(\)\n((?:(?!^pub |^fn |^\}).)*?)^\{\}")
SPEC = re.compile(r"(?m)^[ \t]*(?:(?:pub|abbrev|record|data)[ \t]+)*((?:[^\W\d][\w'?]*[ \t]+)+):[ \t]")
PASSED_ON = re.compile(r"(?m)^pub use \S+\.\{(.*?)\}")
HEAD = re.compile(r"(?m)^[ \t]*(?:pub[ \t]+)?(?:record|data)[ \t]+(?:pub[ \t]+)?([^\W\d]\w*)")


def names_of_code(text: str) -> set[str]:
    names = set(DECLARED.findall(text)) | set(CLAUSE.findall(text))
    for kind, head, body in BLOCK.findall(text):
        if kind in ("enum", "struct"):
            names |= set(MEMBER.findall(body))
    return names


def names_of_definitions(text: str) -> set[str]:
    names = set(HEAD.findall(text)) | {it for row in SPEC.findall(text) for it in row.split()}
    return names | {it for row in PASSED_ON.findall(text) for it in re.findall(r"\w+", row)}


def members_of(text: str) -> Iterator[tuple[str, str]]:
    """Pairs of a type, or a trait, and a name of one of its blocks."""
    for kind, head, body in BLOCK.findall(text):
        plain = re.sub(r"<[^<>]*>", "", re.sub(r"<[^<>]*>", "", re.sub(r"<[^<>]*>", "", head)))
        words = re.findall(r"\w+", plain.split(" where ")[0])
        for owner in {words[0], words[-1]} if words and kind == "impl" else words[:1]:
            for name in re.findall(r"\b(?:fn|ghost) (\w+)", body) + MEMBER.findall(body):
                yield owner, name


class Tree:
    """What stands in the repository: its files, its crates, and what each of them declares."""

    def __init__(self) -> None:
        self.files: list[str] = []
        for folder, folders, files in os.walk(ROOT):
            folders[:] = sorted(it for it in folders if it not in SKIPPED)
            self.files += [os.path.relpath(f"{folder}/{it}", ROOT) for it in sorted(files)]
        self.there = set(self.files) | {it for path in self.files for it in parents(path)}
        self.needs = {name: uses for name, (_, uses) in rows(ROOT).items()}
        self.names: dict[str, set[str]] = {it: set() for it in self.needs}  # by crate, but those of proofs/
        self.laws: dict[str, set[str]] = {it: set() for it in self.needs}
        self.by_file: dict[str, set[str]] = {}
        self.members: dict[str, set[str]] = {}
        self.inner: set[str] = set()
        self.others: set[str] = set()
        for path in self.files:
            self.take(path)

    def take(self, path: str) -> None:
        top, _, rest = path.partition("/")
        if top == "tests":
            self.others.add(rest.partition("/")[0])
        if top in ("checks", "tools", "bench", "include", "wrappers", "tests") or path.startswith(("examples/golden/", "examples/runtime/")):
            self.others |= set(re.findall(r"\w+", read(path)))
        if top != "crates" or not path.endswith((".rt", ".antt")):
            return
        crate, text = rest.split("/")[0], read(path)
        found = names_of_code(text) if path.endswith(".rt") else names_of_definitions(text)
        found.add(os.path.basename(path).partition(".")[0])
        self.by_file[path] = found
        if "/proofs/" in path:
            self.inner |= found
            return
        self.names.setdefault(crate, set()).update(found)
        if path.endswith(".rt"):
            self.laws.setdefault(crate, set()).update(name for name, clauses in LAW.findall(text) if "ensures" in clauses)
            for owner, name in members_of(text):
                self.members.setdefault(owner, set()).add(name)

    def below(self, crates: Iterable[str]) -> list[str]:
        """These crates, and all that they stand on."""
        found: list[str] = []
        left = list(crates)
        while left:
            one = left.pop(0)
            if one in self.needs and one not in found:
                found.append(one)
                left += self.needs[one]
        return found

    def has(self, path: str) -> bool:
        """Whether there is such a file or folder, or one of this pattern."""
        path = os.path.normpath(path)
        if "*" not in path:
            return path in self.there
        pattern = re.compile("[^/]*".join(re.escape(it) for it in path.split("*")))
        return any(pattern.fullmatch(it) for it in self.there)

    def edits(self, kinds: tuple[str, ...], of_definitions: bool) -> int:
        """How many edits of these folders change a definition; or how many change none."""
        paths = [it for it in self.files if it.endswith(".edit") and it.split("/")[2] in kinds]
        return sum(bool(re.search(r"(?m)^file: specs/", read(it))) == of_definitions for it in paths)

    def channels(self, machine: str) -> int:
        """The channels of a machine of equal radices."""
        said = dict(it.split(None, 1) for it in read(machine).splitlines())
        count: int = int(said["radix"]) ** int(said["dims"]) * (8 * int(said["dims"]) + 4)
        return count


def why_no_edit(folder: str, text: str) -> str:
    """Why an edit of a crate can't be made; empty where it can."""
    file = ""
    old: str | None = None
    texts: dict[str, str] = {}
    for line in text.split("\n"):
        key, _, rest = line.partition(":")
        if key == "file":
            file = f"{folder}/{rest.strip()}"
        elif key == "old":
            old = rest[1:] if rest.startswith(" ") else rest
        elif key == "new":
            if not file or old is None:
                return "a change names no file, or nothing that it changes"
            new = rest[1:] if rest.startswith(" ") else rest
            if not os.path.isfile(f"{ROOT}/{file}"):
                return f"there is no {file}"
            before = texts.get(file) or read(file)
            if before.count(old) != 1:
                return f"stands {before.count(old)} times in {file}: {old}"
            if old == new:
                return f"changes nothing: {old}"
            texts[file], old = before.replace(old, new), None
    return "" if texts and old is None else "has no change, or one without its new text"
