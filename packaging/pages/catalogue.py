"""What the site has a place for: each crate, contract, law, definition and type, with the page and the anchor of each.

A module of packaging/site. It reads the sources alone, by tools/torusmem_tools/repository/contracts.py and tools/torusmem_tools/repository/sources.py.
"""
from __future__ import annotations

import os
import re
from collections import OrderedDict
from dataclasses import dataclass, field
from typing import Dict, List, Optional, Set, Tuple
from urllib.parse import quote

from torusmem_tools.repository.contracts import Contract, contracts_in, files_of, modules_of
from torusmem_tools.repository.sources import CRATES, ROOT, Module, Name, comment_of, floors, lines_of, lines_of_type, read_imports, sentence

HEAD_OF_TYPE = re.compile(r"pub (struct|enum|trait|union) (\w+)")
RUST_USE = re.compile(r"^\s*(?:pub )?use (\w+)::(?:.*?::)?(?:\{(.*)\}|(\w+));")
OWN = r" \(this project's own format\)|; this project's own format"  # what most comments end with
FIELD = re.compile(r"(?m)^\s+pub (\w+)\s*:")
CASE = re.compile(r"(?m)^\s+(\w+) :")  # a constructor of a type of definitions


@dataclass
class Item:
    """Something that has a place in the site: its kind, its name as a reader asks for it, and where it stands."""

    kind: str
    crate: str
    name: str
    page: str
    anchor: str
    said: str = ""
    path: str = ""
    text: str = ""
    module: Optional[Module] = None
    inside: str = ""
    contract: Optional[Contract] = None

    @property
    def url(self) -> str:
        """The place from the top of the site."""
        return f"{self.page}#{quote(self.anchor, safe='/:.@')}" if self.anchor else self.page


def slug(floor: str) -> str:
    """A floor's folder in the site."""
    return re.sub(r"\W+", "-", floor.lower()).strip("-")


@dataclass
class Room:
    """A crate: its floor, its page, and what stands on it, file by file."""

    crate: str
    floor: str
    needs: List[str]
    files: "OrderedDict[str, List[Item]]" = field(default_factory=OrderedDict)

    @property
    def page(self) -> str:
        """The page from the top of the site."""
        return f"floors/{slug(self.floor)}/{self.crate}.html"

    def items(self) -> List[Item]:
        """All that stands on the page."""
        return [it for items in self.files.values() for it in items]


class Catalogue:
    """All items of the site, by the names that lead to them."""

    def __init__(self) -> None:
        self.rooms: "OrderedDict[str, Room]" = OrderedDict()
        self.floors = floors()
        self.by_name: Dict[str, List[Item]] = {}
        self.by_definition: Dict[Tuple[str, str, str], Item] = {}
        self.types: Dict[Tuple[str, str], Item] = {}
        self.fields: Dict[str, List[Item]] = {}
        self.rust: Dict[str, Dict[str, str]] = {}
        self.modules: Dict[str, "OrderedDict[str, Module]"] = {}
        for floor, crates in self.floors.items():
            for crate, needs in crates.items():
                self.rooms[crate] = self.room(crate, floor, needs)

    def room(self, crate: str, floor: str, needs: List[str]) -> Room:
        """A crate with all that stands in it."""
        room, taken = Room(crate, floor, needs), set()  # type: Tuple[Room, Set[str]]
        for file in files_of(crate):
            inner = os.path.relpath(file, f"{CRATES}/{crate}")
            here = Module(os.path.relpath(file, ROOT))
            read_imports(here, lines_of(file))
            self.rust[here.path] = rust_imports(lines_of(file), crate)
            found = self.types_in(room, file, here) + self.contracts_of(room, file, here)
            room.files[inner] = [self.placed(it, taken) for it in found]
        self.modules[crate] = modules_of(crate)
        for path, here in self.modules[crate].items():
            found = [self.definition(room, path, here, name, text) for name, text in here.texts.items()]
            room.files[f"specs/{path}.antt"] = [self.placed(it, taken) for it in found]
        room.files = OrderedDict((inner, items) for inner, items in room.files.items() if items)
        return room

    def placed(self, item: Item, taken: Set[str]) -> Item:
        """The item under an anchor that no other one of its page has, and under its names."""
        if item.anchor in taken:
            item.anchor += "@" + os.path.basename(item.path)
        while item.anchor in taken:
            item.anchor += "@"
        taken.add(item.anchor)
        for name in {item.name, item.name.split("::")[-1], f"{item.crate}::{item.name}"}:
            self.by_name.setdefault(name, []).append(item)
        if item.kind == "definition":
            self.by_definition[item.crate, item.inside, item.name] = item
            for name in FIELD.findall(item.text):
                self.fields.setdefault(name, []).append(item)
            if re.search(r"(?m)^\s*(?:pub )?data ", item.text):
                for name in CASE.findall(item.text):
                    self.by_definition.setdefault((item.crate, item.inside, name), item)
        elif item.kind == "type":
            self.types.setdefault((item.crate, item.name), item)
        return item

    def types_in(self, room: Room, file: str, here: Module) -> List[Item]:
        """The public types and traits of a file, each with its comment and its text."""
        rows, found = lines_of(file), []
        for at, row in enumerate(rows):
            head = HEAD_OF_TYPE.match(row)
            if not head:
                continue
            first, last = lines_of_type(rows, at)
            said = [it for it in rows[first:at] if it.startswith("///")]
            text = [it for it in rows[first:last + 1] if not it.startswith("#[")]
            if head[1] == "trait":
                text = text[:at - first + 1 - sum(it.startswith("#[") for it in rows[first:at])]
            found.append(Item("type", room.crate, head[2], room.page, f"type.{head[2]}", sentence(comment_of(said)), here.path,
                              "\n".join(text), here))
        return found

    def contracts_of(self, room: Room, file: str, here: Module) -> List[Item]:
        """The public functions and laws of a file, and what its `impl` blocks say of traits."""
        found = []
        for one in contracts_in(file):
            kind = "law" if one.is_law else "function" if one.is_function else "impl"
            rows = one.rows or [f"{one.name} {{", *(f"    ghost {name} = {{ {text} }}" for name, text in one.clauses), "}"]
            anchor = one.name if one.is_function else re.sub(r"\W+", "-", one.name).strip("-")
            found.append(Item(kind, room.crate, one.name, room.page, anchor, sentence(comment_of(one.comment)), one.path,
                              "\n".join(rows), here, contract=one))
        return found

    def definition(self, room: Room, path: str, here: Module, name: str, text: str) -> Item:
        """A definition of a module of specs."""
        rows = [it for it in text.split("\n") if not it.startswith("module _")]
        end = next((at for at, it in enumerate(rows) if not it.strip().startswith("--")), len(rows))
        said = re.sub(OWN, "", comment_of(rows[:end]))
        return Item("definition", room.crate, name, room.page, f"specs/{path}.{name}", said, here.path, text, here, path)

    # What a word of some code leads to.

    def of_definition(self, name: Name) -> Optional[Item]:
        """The item of a definition, or of the type that declares it."""
        seen: Set[Name] = set()
        while name not in seen:
            seen.add(name)
            if name.module.startswith("declared/"):
                parts = [it for it in name.module.split("/") if it not in ("TheVariants", "TheInside")]
                return self.types.get((name.crate, parts[-1]))
            above, _, last = name.module.rpartition("/")
            item = self.by_definition.get((name.crate, name.module, name.name)) or self.by_definition.get((name.crate, above, last))
            if item:
                return item
            here = self.modules[name.crate].get(name.module) if name.crate in self.modules else None
            if here is None or name.name not in here.imports:
                return None
            name = here.imports[name.name]
        return None

    def of_word(self, item: Item, word: str) -> Tuple[Optional[Item], str]:
        """What a word of an item's text leads to: an item, or a word of the toolchain's library, or neither."""
        base, _, rest = word.partition(".")
        here = item.module
        if here is None:
            return None, ""
        if base in here.aliases and rest:
            return self.of_definition(Name(*here.aliases[base], rest.split(".")[0])), ""
        if base in here.imports:
            return self.of_definition(here.imports[base]), ""
        if base in here.texts or (item.crate, item.inside, base) in self.by_definition:
            return self.by_definition.get((item.crate, item.inside, base)), ""
        if base in here.library:
            return None, here.library[base]
        if item.path.endswith(".rt"):
            crate = self.rust.get(item.path, {}).get(base, item.crate)
            return self.types.get((crate, base)), ""
        return None, ""

    def of_field(self, item: Item, word: str) -> Optional[Item]:
        """The record that has a field of this name, where the item's file can mean only one."""
        found = self.fields.get(word, [])
        near = [it for it in found if it.crate == item.crate and it.path == item.path]
        room = self.rooms[item.crate]
        below = near or [it for it in found if it.crate == item.crate or it.crate in room.needs] or found
        return below[0] if len(below) == 1 else None


def rust_imports(rows: List[str], crate: str) -> Dict[str, str]:
    """The crate from which each name of a file is imported."""
    found = {}
    for row in rows:
        it = RUST_USE.match(row)
        if it:
            of = crate if it[1] in ("crate", "self", "super") else it[1]
            for name in re.findall(r"\w+", it[2] or it[3] or ""):
                found[name] = of
    return found
