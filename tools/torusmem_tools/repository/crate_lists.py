"""The lists that `reading` prints of all crates: their contracts, their words, and the table of what each of them is.

checks/documents compares the printed pages by it, and writes them.
"""
from __future__ import annotations

import re
from typing import Callable

from torusmem_tools.repository.contracts import Contract, contracts_in, files_of, modules_of
from torusmem_tools.repository.sources import comment_of, floors, purpose, sentence



def link(page: str) -> str:
    """A link to a page of docs/, from another one."""
    return f"[{page}.md]({page}.md)"


CONTRACTS_HEAD = f"""# The contracts

Each public function and law with the clauses of its contract, by floor and crate, as `crates.txt` has them. A clause that
begins with `requires` is what a caller must see to; one with `ensures` is what the function then does. A *law* is a
function that does nothing, whose contract states a theorem. Of an `impl` of a trait the page shows the members that say
what the trait's functions do there. "No clause" means that of the function only this is proved: it is safe and ends.

`tools/reading --words` prints each definition that a clause names, and `tools/reading NAME` a contract with all definitions
behind it. {link("PROVED")} says what of all this is proved, what is only tested, and what is not covered.

`tools/reading --contracts` prints this page from the sources; `make site` prints them as pages whose words are links."""
WORDS_HEAD = f"""# The words

Each public definition that contracts stand on, by floor and crate, with the comment above it and its file.
{link("DEFINITIONS")} explains the terms of the field and names their sources; `tools/reading CRATE::NAME` prints a
definition with all that stand behind it.

`tools/reading --words` prints this page from the sources; `make site` prints them as pages whose words are links."""
OWN = r" \(this project's own format\)|; this project's own format"  # what most comments end with
PUBLIC = r"(?m)^\s*(?:pub record|pub data|abbrev pub|unfoldable pub) {}(?=[\s:{{(]|$)"


def heading(floor: str) -> str:
    """A floor's heading, as documents have it."""
    return floor[:1].upper() + floor[1:]


def clause_rows(one: Contract) -> list[str]:
    """The clauses of a contract, one a line."""
    return [f"  - `{name}`: `{text}`" for name, text in one.clauses] or ["  - no clause"]


def contract_rows(crate: str) -> list[str]:
    """The contracts of a crate, each a bullet with its clauses below."""
    rows: list[str] = []
    for file in files_of(crate):
        for one in contracts_in(file):
            name = one.name if not one.is_function else f"{crate}::{one.name}"
            said = sentence(comment_of(one.comment))
            law = " (law)" if one.is_law else ""
            rows.append(f"- `{name}`{law}, `{one.path}`" + (f": {said}" if said else ""))
            rows += clause_rows(one)
    return rows


def word_rows(crate: str) -> list[str]:
    """The public definitions of a crate, one a line."""
    rows: list[str] = []
    for here in modules_of(crate).values():
        for name, text in here.texts.items():
            if not re.search(PUBLIC.format(re.escape(name)), text):
                continue
            lines = [it for it in text.split("\n") if not it.startswith("module _")]
            end = next(at for at, it in enumerate(lines) if not it.strip().startswith("--"))
            said = re.sub(OWN, "", comment_of(lines[:end]))
            rows.append(f"- `{name}`, `{here.path}`" + (f": {said}" if said else ""))
    return rows


def by_crate(head: str, rows_of: Callable[[str], list[str]]) -> str:
    """A page: a heading for each floor and one for each crate, where there are rows, and the rows."""
    page = [head, ""]
    for floor, crates in floors().items():
        part: list[str] = []
        for crate in crates:
            rows = rows_of(crate)
            if rows:
                part += [f"### `{crate}`", "", purpose(crate), "", *rows, ""]
        page += [f"## {heading(floor)}", "", *part] if part else []
    return "\n".join(page).rstrip() + "\n"


def contracts() -> str:
    """The page of all contracts."""
    return by_crate(CONTRACTS_HEAD, contract_rows)


def words() -> str:
    """The page of all definitions."""
    return by_crate(WORDS_HEAD, word_rows)


def crates() -> str:
    """The tables of crates, one for each floor."""
    page: list[str] = []
    for floor, named in floors().items():
        page += [f"### {heading(floor)}", "", "| crate | what it is |", "| --- | --- |"]
        page += [f"| `{crate}` | {purpose(crate)} |" for crate in named]
        page += [""]
    return "\n".join(page).rstrip() + "\n"
