"""The documents line by line, and what a word in backticks of one of them names in the tree; for checks/documents."""
from __future__ import annotations

import os
import re

from torusmem_tools.repository.sources import own_path
from tree import SKIPPED, Tree, read

MADE = {"./golden", "./rounds", "./clocked"}  # programs that commands of the documents make
SUFFIXES = ".rt .antt .rattle .md .txt .svg .h .c .cpp .v .rs .py .edit .json .csv .toml .a".split()
# Words in backticks that nothing of the repository declares, and why they are no fault.
EXCEPTIONS = {
    "names of Rust, of std and of the kit's other crates": """Arc AtomicU64 Box BufWriter Copy Display Drop Err None Ok
        Option SeqCst Some Vec Wait arrayvec atomic_table clap libc linked_list_allocator os std thiserror""",
    "programs and functions that aren't the repository's": "cargo cc gcc malloc md5sum realloc free rt rustc verilator",
}
EXCEPTED = {word for words in EXCEPTIONS.values() for word in words.split()}
LINK = re.compile(r"(?<!!)\[[^\]]*\]\(([^)\s]+)\)|!\[[^\]]*\]\(([^)\s]+)\)")


def is_path(word: str) -> bool:
    """Whether a word is written as the path of a file or folder."""
    return bool(re.fullmatch(r"[\w.*-]+(/[\w.*-]+)*/?", word)) and ("/" in word or os.path.splitext(word)[1] in SUFFIXES)


def anchor(heading: str) -> str:
    """How a link names a heading."""
    return re.sub(r"[^\w -]", "", heading.lower()).replace(" ", "-")


class Line:
    """A line of a document: its number, the heading above it, its block (None outside), and what it speaks of."""

    def __init__(self, number: int, text: str, heading: str, block: str | None) -> None:
        self.number, self.text, self.heading, self.block = number, text, heading, block
        # what is imported from std isn't looked up
        self.words = re.findall(r"`([^`\n]+)`", text) if block is None and "`Rattle.std." not in text else []


class Document:
    def __init__(self, path: str) -> None:
        self.path = path
        self.lines: list[Line] = []
        self.headings: list[str] = []
        heading = ""
        block: str | None = None
        for number, text in enumerate(read(path).split("\n"), 1):
            if text.startswith("```"):
                block = (text[3:].strip() or "text") if block is None else None
                continue
            if block is None and re.match(r"#+ ", text) and path.endswith(".md"):
                heading = text.lstrip("#").strip()
                self.headings.append(heading)
            self.lines.append(Line(number, text, heading, block))


class Names:
    """The documents, and the names that they may use: those of the tree, of scripts, of commands and of C."""

    def __init__(self, tree: Tree) -> None:
        self.tree = tree
        # The page of an archive speaks of the paths there.
        pages = [it for it in self.tree.files if it.endswith(".md") and not it.startswith("packaging/archive/")]
        paths = [*pages, "include/torusmem.h"]
        self.documents = {it: Document(it) for it in paths}
        scripts = [it for it in self.tree.files if it.split("/")[0] in ("checks", "tools", "bench", "wrappers", "packaging")]
        self.flags = set(re.findall(r"--[a-z][a-z-]*", "".join(read(it) for it in scripts)))
        self.c_names = {it.split()[-1].split("::")[-1] for it in read("docs/trusted.txt").splitlines() if it and it[0] != "#"}
        self.flags |= {f"--{it}" for path in self.tree.by_file if "/command_line/" in path
                       for it in re.findall(r'"([a-z]+)"', read(path))}

    def has_path(self, word: str, folders: list[str]) -> bool:
        """Whether a path leads somewhere, from the top or from one of the folders that are spoken of."""
        if SKIPPED & set(word.split("/")):
            return True  # it is built, and not kept
        word = re.sub(r"\bNAME\b", "*", word)
        return any(self.tree.has(f"{it}/{word}{end}" if it else word + end) for it in ["", "crates", *folders] for end in ("", ".antt"))

    def why_no_command(self, words: str, folders: list[str]) -> str:
        at = re.match(r"\(?cd ([\w./-]+)", words)
        folders = folders + [at[1]] if at else folders
        plain = re.sub(r"-?-o \S+|>\s*\S+", "", words)  # what a command writes needn't be there
        bad = [it for it in re.split(r"[\s()]+", plain) if "/" in it and it not in MADE and is_path(it)]
        bad = [it for it in bad if not it.startswith("../") and not self.has_path(it, folders)]
        own = not re.match(r"(rt|cargo|cc|c\+\+|pkg-config|pip|python3) ", words)  # the flags of other programs aren't looked up
        bad += [it for it in re.findall(r"(?<![\w-])--[a-z][a-z-]*", words) if own and it not in self.flags]
        return f"there is no {bad[0]}" if bad else ""

    def why_no_member(self, names: list[str]) -> str:
        first, last = names[0], names[-1]
        if first in self.tree.needs and len(names) > 2 and names[-2] in self.tree.members:
            good = names[-2] in self.tree.names[first] and last in self.tree.members[names[-2]]
            return "" if good else f"crate {first} has no such name"
        if first in self.tree.needs:
            among = self.tree.laws[first] if "laws" in names[1:-1] else self.tree.names[first]
            modules = all(self.tree.has(f"crates/{first}/src/{it}.rt") for it in names[1:-1])
            return "" if modules and last in among else f"crate {first} has no such name"
        if first in self.tree.members:
            return "" if last in self.tree.members[first] else f"{first} has no {last}"
        return "there is no such type or crate"

    def why_no_module(self, word: str) -> str:
        """Of a whole name of definitions, as `Rattle.a.specs.M` or with `.{n}` behind it, also where `a` passes it on."""
        module, _, names = word.partition(".{")
        parts = [it for it in own_path(module).split(".")[1:] if it != "specs"]
        crates = [it for it in parts if it in self.tree.needs]
        path = f"crates/{crates[-1]}/specs/{parts[-1]}.antt" if crates else ""
        known = self.tree.by_file.get(path, set())
        bad = [it for it in re.findall(r"\w+", names) if it not in known]
        return "" if known and not bad else "there are no such definitions"

    def why_not(self, word: str, crates: list[str], folders: list[str], inner: bool) -> str:
        """Why a word names nothing of the tree; empty where it does, or where it is no name."""
        if re.search(r"\s", word):
            return self.why_no_command(word, folders)
        if re.match(r"Rattle\.(std|core)\.", word):
            return ""
        if word.startswith("Rattle."):
            return self.why_no_module(word)
        if is_path(word):
            return "" if self.has_path(word, folders) else "there is no such file"
        word = word[:-2] if word.endswith("()") else word
        if re.fullmatch(r"\w+(::\w+)+", word):
            return self.why_no_member(word.split("::"))
        if not re.fullmatch(r"[A-Za-z_]\w*", word) or word in EXCEPTED:
            return ""
        if re.fullmatch(r"F\d+", word):
            return "" if f"| {word} |" in read("docs/FORMATS.md") else "docs/FORMATS.md has no such fault"
        if word in self.c_names or word in self.tree.needs or word in self.tree.others or f"torusmem{word}" in self.tree.others:
            return ""
        known = any(word in self.tree.names[it] for it in crates) or inner and word in self.tree.inner
        return "" if known else "nothing of this name is declared" + (f" in {crates[0]} or below" if len(crates) < len(self.tree.needs) else "")
