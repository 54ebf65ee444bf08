"""What the sources say: the floors of crates.txt, and the definitions of specs with their comments.

`tools/reading`, `contracts` and `crate_lists` stand on it, and so do checks/documents and checks/house.
It reads the sources alone.
"""
from __future__ import annotations

import os
import re
from collections import OrderedDict
from dataclasses import dataclass, field


ROOT = os.path.dirname(os.path.dirname(os.path.dirname(os.path.dirname(os.path.realpath(__file__)))))
CRATES = os.path.join(ROOT, "crates")
USE = re.compile(r"^\s*(?:pub )?(?:ghost )?use ([\w.]+?)(?:\.\{(.*)\}|( as \w+))?;?\s*$")
HEAD = re.compile(r"^(\s*)(?:pub )?(?:abbrev|unfoldable|record|data)(?: pub)? ([^\s:{(]+)")
TYPE = re.compile(r"(?m)^pub (?:struct|enum) (\w+)")
TOKEN = re.compile(r"[A-Za-z_]\w*'*\??(?:\.[A-Za-z_]\w*)*")


@dataclass(frozen=True)
class Name:
    """A definition of a crate's specs, or a type of its sources: the crate, the module's path, the name."""

    crate: str
    module: str
    name: str

    def __str__(self) -> str:
        return f"{self.crate}::{self.name}"


@dataclass
class Module:
    """A file of definitions: what each says, by its name, and where the names that it imports lead."""

    path: str
    texts: OrderedDict[str, str] = field(default_factory=OrderedDict)
    imports: dict[str, Name] = field(default_factory=dict)
    aliases: dict[str, tuple[str, str]] = field(default_factory=dict)
    library: dict[str, str] = field(default_factory=dict)


MODULES: dict[tuple[str, str], Module] = {}


def crates() -> set[str]:
    return {it for it in os.listdir(CRATES) if os.path.isdir(f"{CRATES}/{it}/src")}


KNOWN = crates()


def floors() -> OrderedDict[str, OrderedDict[str, list[str]]]:
    """The floors of crates.txt by their headings, from the lowest: the crates of each, with what they stand on.

    A heading is a comment that is no sentence.
    """
    found: OrderedDict[str, OrderedDict[str, list[str]]] = OrderedDict()
    for row in lines_of(f"{ROOT}/crates.txt"):
        if row.startswith("#"):
            heading = row.lstrip("# ").rstrip()
            if heading and not heading.endswith("."):
                found[heading] = OrderedDict()
            continue
        name, colon, needs = row.partition("#")[0].partition(":")
        if colon:
            below = next(reversed(found)) if found else ""
            found.setdefault(below, OrderedDict())[name.split()[0]] = needs.split()
    return found


def comment_of(rows: list[str]) -> str:
    """A comment as one text: its rows without their marks, up to the first empty one."""
    kept: list[str] = []
    for row in rows:
        text = row.strip().lstrip("/-!").strip()
        if not text and kept:
            break
        kept += [text] if text else []
    return " ".join(kept)


def sentence(text: str) -> str:
    """The first sentence of a text."""
    found = re.match(r"(.*?\.)(?= [A-Z`(]|$)", text)
    return found[1] if found else text


def purpose(crate: str) -> str:
    """What a crate is: the first sentence of its `//!` comment."""
    for name in ("lib", "main"):
        file = f"{CRATES}/{crate}/src/{name}.rt"
        if os.path.isfile(file):
            rows = lines_of(file)
            return sentence(comment_of(rows[: next((at for at, it in enumerate(rows) if not it.startswith("//!")), 0)]))
    return ""


def passed_on(crate: str, kind: str) -> dict[str, str]:
    """The modules of other crates that a crate passes on, by their names: `pub use Rattle.low.specs.Grid`."""
    file = f"{CRATES}/{crate}/{kind}/Lib.antt"
    rows = lines_of(file) if os.path.isfile(file) else []
    found = (re.match(r"pub use (Rattle\.\w+\.(?:specs|proofs)\.[\w.]+)$", it) for it in rows)
    return {it[1].split(".")[-1]: it[1] for it in found if it}


def own_path(path: str) -> str:
    """A path in the words of the crate that has the definition, where another one passes it on."""
    parts = path.split(".")
    if len(parts) > 3 and parts[0] == "Rattle" and parts[1] in KNOWN and parts[2] in ("specs", "proofs"):
        own = passed_on(parts[1], parts[2]).get(parts[3])
        if own:
            return ".".join([own, *parts[4:]])
    return path


def placed(path: str) -> tuple[str, str] | None:
    """The crate and the module that an import leads to; None where it is of the toolchain's library."""
    parts = own_path(path).split(".")
    if parts[0] != "Rattle" or len(parts) < 2 or parts[1] not in KNOWN:
        return None
    inside = parts[3:] if parts[2:3] == ["specs"] else parts[2:]
    return parts[1], "/".join(inside)


def lines_of(path: str) -> list[str]:
    with open(path, encoding="utf-8") as it:
        return it.read().split("\n")


def read_imports(into: Module, lines: list[str]) -> None:
    for line in lines:
        found = USE.match(line)
        if not found:
            continue
        path, names, alias = found[1], found[2], found[3]
        at = placed(path)
        if names is None:
            if at and alias:
                into.aliases[alias[4:].strip()] = at
            continue
        for one in filter(None, (it.strip() for it in names.split(","))):
            name, _, new = one.partition(" as ")
            if at:
                into.imports[(new or name).strip()] = Name(*at, name.strip())
            else:
                into.library[(new or name).strip()] = path


def module(crate: str, path: str) -> Module | None:
    """A module of a crate's specs, or of its declared types."""
    key = (crate, path)
    if key in MODULES:
        return MODULES[key]
    if path.startswith("declared/"):
        return declared(key)
    file = f"{CRATES}/{crate}/specs/{path}.antt"
    if not os.path.isfile(file):
        return None
    here = MODULES[key] = Module(os.path.relpath(file, os.path.dirname(CRATES)))
    rows = lines_of(file)
    read_imports(here, rows)
    start, comment, inside, depth = None, None, "", 0
    for at, row in enumerate([*rows, ""]):
        head = HEAD.match(row)
        if row.startswith("module _"):
            inside = row
        elif row and not row[0].isspace() and not row.startswith("--"):
            inside = inside if head and head[1] else ""
        if row.strip().startswith("--") and start is None:
            comment = at if comment is None else comment
        elif head and not (start and len(head[1]) > depth):  # deeper, `record r { .. }` is a value of what is defined
            depth = len(head[1])
            start = (head[2], at if comment is None else comment, inside if head[1] else "")
        elif not row.strip():
            if start:
                text = "\n".join(rows[start[1]:at])
                here.texts[start[0]] = f"{start[2]}\n{text}" if start[2] else text
            start = comment = None
    return here


def lines_of_type(rows: list[str], at: int) -> tuple[int, int]:
    """The first and the last line of a type or trait whose head is the line `at`: its comment and attributes belong to it."""
    first, last = at, at
    while first and rows[first - 1].startswith(("///", "#[")):
        first -= 1
    while not rows[last].rstrip().endswith((";", "}")) or (rows[at].rstrip().endswith("{") and rows[last] != "}"):
        last += 1
    return first, last


def declared(key: tuple[str, str]) -> Module:
    """The module of a type that stands in the sources: its text is the type with its comment."""
    crate, path = key
    parts = path.split("/")[1:]
    here = MODULES[key] = Module(f"crates/{crate}/src")
    kind = parts[-2] if parts[-1] == "TheVariants" else parts[-1]
    files = [f"{CRATES}/{crate}/src/{'/'.join(parts[:n])}.rt" for n in range(len(parts), 0, -1)]
    for file in [*filter(os.path.isfile, files), f"{CRATES}/{crate}/src/lib.rt"]:
        rows = lines_of(file)
        for at, row in enumerate(rows):
            found = TYPE.match(row)
            if not found or found[1] != kind:
                continue
            first, last = lines_of_type(rows, at)
            here.path = os.path.relpath(file, os.path.dirname(CRATES))
            here.texts[kind] = "\n".join(rows[first:last + 1])
            return here
    return here


def named_in(text: str, here: Module, crate: str, path: str, own: str) -> list[Name | str]:
    """The definitions that a text names, in order, and the words of the library."""
    found: OrderedDict[Name | str, None] = OrderedDict()
    code = "\n".join(re.sub(r"--.*|///.*|//.*", "", row) for row in text.split("\n"))
    for token in TOKEN.findall(code):
        base, _, rest = token.partition(".")
        if base in here.aliases and rest:
            found[Name(*here.aliases[base], rest.split(".")[0])] = None
        elif base in here.imports:
            found[here.imports[base]] = None
        elif base in here.texts and base != own:
            found[Name(crate, path, base)] = None
        elif base in here.library:
            found[f"{here.library[base]}.{base}"] = None
    return list(found)


def variants_of(path: str) -> str:
    """The type whose variants a module has; nothing where it has others."""
    parts = path.split("/")
    return parts[-2] if parts[-1] == "TheVariants" else ""


def renamed_in(text: str, here: Module) -> list[str]:
    """What a text calls by another name than its own, in order, as a sentence says it."""
    found: OrderedDict[str, None] = OrderedDict()
    code = "\n".join(re.sub(r"--.*|///.*|//.*", "", row) for row in text.split("\n"))
    for token in TOKEN.findall(code):
        base, _, rest = token.partition(".")
        if base in here.aliases and rest:
            crate, path = here.aliases[base]
            of = f"the variants of `{variants_of(path)}`" if variants_of(path) else f"names of `{crate}`"
            found[f"`{base}.` stands before {of}"] = None
        elif base in here.imports and here.imports[base].name != base:
            own = here.imports[base]
            found[f"`{base}` is `{variants_of(own.module) or own.crate}::{own.name}`"] = None
    return list(found)


def text_of(name: Name) -> tuple[Name, Module, str] | None:
    """A definition's own name, module and text; a variant or a constructor is that of its type."""
    here = module(name.crate, name.module)
    if here is None:
        return None
    if name.module.startswith("declared/"):
        kind = next(iter(here.texts), None)
        return (Name(name.crate, name.module.split("/TheVariants")[0], kind), here, here.texts[kind]) if kind else None
    if name.name in here.texts:
        return name, here, here.texts[name.name]
    if name.name in here.imports:
        return text_of(here.imports[name.name])
    kind = next((it for it, text in here.texts.items() if re.search(rf"(?m)^(pub )?data(?s:.*)^ +{re.escape(name.name)} :", text)), None)
    return (Name(name.crate, name.module, kind), here, here.texts[kind]) if kind else None
