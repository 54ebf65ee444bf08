"""The numbers that documents state and that checks/documents counts in the tree."""
from __future__ import annotations

import re
from typing import Callable

from tree import BLOCK, Tree, lines_in, read

README, CONTRIBUTING = "README.md", "CONTRIBUTING.md"
TOUR, LIBRARY, ARCHITECTURE = "docs/TOUR.md", "docs/LIBRARY.md", "docs/ARCHITECTURE.md"
PROVED, FORMATS, DECISIONS, TRACES = "docs/PROVED.md", "docs/FORMATS.md", "docs/DECISIONS.md", "docs/CHECK-YOUR-TRACE.md"
FRONT = (README, TOUR, LIBRARY, CONTRIBUTING)
BOTH = (README, CONTRIBUTING)
INSIDE = (CONTRIBUTING, ARCHITECTURE, DECISIONS)
GATED = ("must-fail", "must-fail-in-batches")  # where the edits stand that the gate tries
FURTHER = ("wrong-bodies",)  # and those that checks/wrong_bodies alone tries
UP_TO_TWENTY = """no one two three four five six seven eight nine ten eleven twelve thirteen fourteen fifteen sixteen
    seventeen eighteen nineteen twenty""".split()
IN_WORDS = {**{word: k for k, word in enumerate(UP_TO_TWENTY)}, "fifty": 50}


def variants(path: str, name: str) -> int:
    """How many variants an enum has, or how many constructors a type of definitions."""
    text = read(path)
    if path.endswith(".rt"):
        body = next(body for kind, head, body in BLOCK.findall(text) if kind == "enum" and re.match(rf" {name}\b", head))
        return len(re.findall(r"(?m)^    (\w+)(?:\(.*\)|\s*\{.*\})?,", body))
    found = re.search(rf"(?ms)^pub data {name} .*?where\n(.*?)(?:^\S|\Z)", text)
    return len(re.findall(r"(?m)^  (\w+) :", found[1])) if found else 0


def stands(path: str, number: int) -> int | None:
    """The number, where it stands in the file by itself; else None."""
    return number if re.search(rf"(?<![\w.]){number}(?![\w.])", read(path)) else None


def calls_for_c(tree: Tree) -> int:
    return sum(len(re.findall(r'pub (?:unsafe )?extern "C" fn torusmem_', read(it))) for it in tree.by_file)


def trusted(crate: str, within: str = "") -> list[str]:
    """The C functions that docs/trusted.txt lists of a crate, but those by which it has threads."""
    rows = [it.split() for it in read("docs/trusted.txt").splitlines() if not it.startswith("#")]
    return [it[1] for it in rows if len(it) == 2 and it[0] == crate and it[1].startswith(within)]


def threads(crate: str) -> list[str]:
    """Those by which it has threads."""
    rows = [it.split() for it in read("docs/trusted.txt").splitlines() if not it.startswith("#")]
    return [it[2] for it in rows if it[:2] == [crate, "thread"]]


def both(tree: Tree, kinds: tuple[str, ...]) -> int:
    """How many edits stand in these folders."""
    return tree.edits(kinds, True) + tree.edits(kinds, False)


def tests(tree: Tree) -> int:
    """How many tests stand below tests/."""
    return sum(len(re.findall(r"(?m)^#\[test\]$", read(it))) for it in tree.files if it.startswith("tests/") and it.endswith(".rattle"))


# Each: the pages of which exactly one has the sentence, once; its words with one group for the number (digits or a
# word); and how it is counted. A row whose sentence is gone for good leaves this table.
NUMBERS: list[tuple[tuple[str, ...], str, Callable[[Tree], int | None]]] = [
    (BOTH, r"tries (\d+) edits", lambda t: both(t, GATED)),
    (BOTH, r"has (\d+) tests of public calls", tests),
    (BOTH, r"Another (\d+) wrong bodies", lambda t: t.edits(FURTHER, False)),
    (BOTH, r"(\d+) changed definitions", lambda t: t.edits(FURTHER, True)),
    (FRONT, r"(\d+) C functions that the program reaches", lambda t: len(trusted("torusmem")) + len(threads("torusmem"))),
    (FRONT, r"(\d+) that the library for C does", lambda t: len(trusted("torusmem_c")) + len(threads("torusmem_c"))),
    (FRONT, r"first example (?:have )?(\d+) channels", lambda t: t.channels("examples/machine.txt")),
    (FRONT, r"The (\w+) of `examples/steps.txt`", lambda t: lines_in("examples/steps.txt")),
    (FRONT, r"prints the (\w+) lines of (?:above|`examples/report.txt`)", lambda t: lines_in("examples/report.txt")),
    (FRONT, r"words of the memory \| 1 to (\d+)", lambda t: stands("crates/script/specs/Machine.antt", 65536)),
    (FRONT, r"operations of a script \| at most (\d+)", lambda t: stands("crates/script/specs/Scripts.antt", 4096)),
    (FRONT, r"operations of all scripts \| at most (\d+)", lambda t: stands("crates/script/specs/Scripts.antt", 65536)),
    (FRONT, r"tags of a processor \| 1 to (\d+)", lambda t: stands("crates/script_lines/specs/Machine.antt", 16)),
    ((FORMATS,), r"`examples/steps.txt` has these (\w+) steps", lambda t: lines_in("examples/steps.txt")),
    ((TRACES,), r"has (\w+) lines \(`examples/trace.txt`\)", lambda t: lines_in("examples/trace.txt")),
    (INSIDE, r"(?:each of its|layer of) (\d+) calls", calls_for_c),
    (INSIDE, r"A want is one of (\w+):", lambda t: variants("crates/flit_buffer/src/want.rt", "Want")),
    (INSIDE, r"one of `wormhole`'s (\w+) events", lambda t: variants("crates/wormhole/specs/Events.antt", "NetEvent")),
    (INSIDE, r"no more than (\d+) for each operation", lambda t: stands("crates/core_laws/specs/ProgressMoves.antt", 241)),
    ((PROVED,), r"reaches the same (\d+) functions of C", lambda t: len(trusted("torusmem"))),
    ((PROVED,), r"`axioms=(\d+)`", lambda t: len(trusted("torusmem"))),
    ((PROVED,), r"reaches (\d+) functions of C more", lambda t: len(threads("torusmem"))),
    ((PROVED,), r"(\d+) of `libc`", lambda t: len(trusted("torusmem", "libc::"))),
    ((PROVED,), r"(\d+) of `os`", lambda t: len(trusted("torusmem", "os::"))),
    ((PROVED,), r"of the library for C reaches (\d+)", lambda t: len(trusted("torusmem_c"))),
    ((PROVED,), r"meaning of the (\w+) operations", lambda t: variants("crates/packet/src/kinds.rt", "Op")),
    ((PROVED,), r"exactly its code, F1 to F(\d+)", lambda t: variants("crates/torus/src/fault.rt", "Fault")),
    ((PROVED,), r"at most (79873) words", lambda t: stands("crates/core_laws/src/row_laws.rt", 79873)),
    ((PROVED,), r"number, at most (67)", lambda t: stands("crates/channel_number/src/number.rt", 67)),
    ((PROVED,), r"more moves than (\d+) for each operation", lambda t: stands("crates/core_laws/specs/ProgressMoves.antt", 241)),
]
# Where the version stands.
VERSIONS = [
    ("CHANGELOG.md", r"(?m)^## (\d\S*)"),
    ("include/torusmem.h", r'(?m)^#define TORUSMEM_VERSION "(.*?)"'),
    ("wrappers/rust/torusmem/Cargo.toml", r'(?m)^version = "(.*?)"'),
    ("wrappers/rust/torusmem-sys/Cargo.toml", r'(?m)^version = "(.*?)"'),
    ("wrappers/python/pyproject.toml", r'(?m)^version = "(.*?)"'),
    ("wrappers/python/torusmem/__init__.py", r'(?m)^__version__ = "(.*?)"'),
    ("crates/command_line/src/making.rt", r'\.version\("(.*?)"\)'),
    ("crates/command_jobs/src/version.rt", r'b"torusmem (.*?)\\n"'),
    ("launcher/words.py", r'(?m)^VERSION = "torusmem (.*?)\\n"'),
]
