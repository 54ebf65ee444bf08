"""Prints what one has to read to know what a contract says: its clauses, and each definition that they stand on.

    tools/reading machine_core::Machine::run
    tools/reading one_order::HasOneOrder
    tools/reading core_laws::IsLawful --but core_laws
    tools/reading --contracts
    tools/reading --where xor

An item is a crate and a public function of it, with its type if it is a method (`Machine::run`), or a crate
and a definition of its specs. The page is Markdown: the items, then the definitions from the top down, each after
the first that names it, with its file and with what it calls by another name, and at the end the words of the toolchain's
library. With --but the page names the definitions of a crate, or one of them (CRATE::NAME), and doesn't print them, nor
what stands behind them.

With --contracts it prints each public function and law of all crates with the clauses of its contract, with --words each
public definition with its comment, with --crates what each crate is (the table in docs/ARCHITECTURE.md), with --floors
the picture of the floors (docs/pictures/floors.svg). With --where it prints the files that name a word, folder by folder:
who adds an operation, a command or a model asks for a neighbour of it. It reads the sources alone; `make site` prints all
of this as pages.
"""
from __future__ import annotations

import re


from collections import OrderedDict
from typing import Callable

from torusmem_tools import command
from torusmem_tools.repository import crate_lists, floors_picture, word_places
from torusmem_tools.repository.contracts import find
from torusmem_tools.repository.sources import Module, Name, named_in, renamed_in, text_of

TOOL = "reading"
LISTS: dict[str, Callable[[], str]] = {"contracts": crate_lists.contracts, "words": crate_lists.words, "crates": crate_lists.crates, "floors": floors_picture.floors_picture}


def ends(spoken: OrderedDict[str, None], words: set[str], counts: OrderedDict[str, int]) -> list[str]:
    """The end of the page: what it leaves out, the words of the library, and how much of each file it has."""
    page: list[str] = []
    if spoken:
        page += ["Used above and not printed here: " + ", ".join(f"`{it}`" for it in spoken) + ".", ""]
    by_module: dict[str, list[str]] = {}
    for word in sorted(words):
        where, _, name = word.rpartition(".")
        by_module.setdefault(where, []).append(name)
    page += ["## Words of the toolchain's library", ""]
    page += [f"- `{where}`: {' '.join(f'`{it}`' for it in names)}" for where, names in by_module.items()]
    page += ["", "## Lines", "", "| file | lines |", "| --- | --- |"]
    page += [f"| `{path}` | {count} |" for path, count in counts.items()]
    page += [f"| {len(counts)} files | {sum(counts.values())} |"]
    return page


def printed(text: str, here: Module) -> list[str]:
    """A text as the page has it, with what it calls by another name than its own."""
    renamed = renamed_in(text, here)
    rows = [f"```{'rust' if here.path.endswith('.rt') else 'agda'}", text, "```", ""]
    return rows + ([f"Here {', and '.join(renamed)}.", ""] if renamed else [])


def reading(items: list[str], but: list[str]) -> list[str]:
    """The page: the items, then all that they stand on, from the top down."""
    page: list[str] = []
    seen: set[Name] = set()
    spoken: OrderedDict[str, None] = OrderedDict()
    words: set[str] = set()
    counts: OrderedDict[str, int] = OrderedDict()
    queue: list[Name | str] = []

    def note(path: str, text: str) -> None:
        counts[path] = counts.get(path, 0) + text.count("\n") + 1

    for item in items:
        path, crate, here, text, inside, own = find(item)
        page += [f"## `{item}`", "", f"`{path}`", "", *printed(text, here)]
        note(path, text)
        if inside:
            seen.add(Name(crate, inside, own))
        queue += named_in(text, here, crate, inside, own)
    page += ["## What it stands on", ""]
    while queue:
        one = queue.pop(0)
        if isinstance(one, str):
            words.add(one)
            continue
        found = text_of(one)
        if found is None:
            words.add(f"{one.crate}.{one.name}")
            continue
        name, here, text = found
        if name in seen:
            continue
        seen.add(name)
        if name.crate in but or str(name) in but:
            spoken[str(name)] = None
            continue
        page += [f"`{name.name}` ({here.path})", "", *printed(text, here)]
        note(here.path, text)
        queue += named_in(text, here, name.crate, name.module, name.name)
    return page + ends(spoken, words, counts)


def words() -> command.Parser:
    """The words of the command line."""
    parser = command.parser(TOOL, __doc__)
    parser.add_argument("items", metavar="ITEM", nargs="*", help="CRATE::FUNCTION, CRATE::TYPE::FUNCTION or CRATE::DEFINITION")
    parser.add_argument("--but", metavar="NAME", action="append", default=[], help="a crate, or CRATE::DEFINITION, that is not printed")
    kinds = parser.add_mutually_exclusive_group()
    kinds.add_argument("--contracts", dest="kind", action="store_const", const="contracts", help="the contracts of all crates")
    kinds.add_argument("--words", dest="kind", action="store_const", const="words", help="the definitions of all crates")
    kinds.add_argument("--crates", dest="kind", action="store_const", const="crates", help="what each crate is, as tables")
    kinds.add_argument("--floors", dest="kind", action="store_const", const="floors", help="the floors of crates.txt, as a picture (SVG)")
    kinds.add_argument("--where", metavar="WORD", help="the files that name a word, by folder, but edits of proofs and pictures")
    return parser


def work() -> str:
    """What the tool prints."""
    given = words().parse_args()
    alone = given.kind or ("where" if given.where is not None else None)
    if alone and (given.items or given.but):
        raise command.WrongWords(f"--{alone} stands alone")
    if given.kind:
        return LISTS[given.kind]()
    if given.where is not None:
        if not re.fullmatch(r"[A-Za-z][\w-]*", given.where):
            raise command.WrongWords(f"argument --where: '{given.where}' is no word of letters, digits, - and _")
        return "\n".join(word_places.list_places(given.where)) + "\n"
    if not given.items:
        raise command.WrongWords("the following arguments are required: ITEM (--help says more)")
    return "\n".join(reading(given.items, given.but)) + "\n"
