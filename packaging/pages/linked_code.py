"""Code as HTML: each word of a clause, a definition or a signature is a link to what defines it.

A module of packaging/site.
"""
from __future__ import annotations

import posixpath
import re
from collections import OrderedDict
from html import escape
from typing import Callable, List, Optional, Set, Tuple

from catalogue import Catalogue, Item

WORD = re.compile(r"[^\W\d][\w']*\??(?:\.[^\W\d][\w']*)*")
COMMENT = re.compile(r"\s*(--|///|//)")
TAIL = re.compile(r"(.*?)(\s(?:--|//).*)?$")
CLAUSE = re.compile(r"\s*(?:requires|ensures)\*? (?:(\w+) )?\{|\s*ghost (\w+) = \{")
NAMED = re.compile(r"(?:\bfn|\bensures\*?|\brequires\*?|\bghost) $")  # what stands behind it is a name of its own
KEYWORDS = set("""λ abbrev pub record data unfoldable where let in module public field forall fn mut const unsafe extern impl for trait
    struct enum requires ensures ghost self result now old new u8 u32 u64 usize bool Self dyn use if then else as Type""".split())
Target = Callable[[Item], str]


def way(page: str, url: str) -> str:
    """The link from a page to a place, both from the top of the site."""
    path, mark, anchor = url.partition("#")
    if path == page and mark:
        return f"#{anchor}"
    return posixpath.relpath(path, posixpath.dirname(page) or ".") + mark + anchor


def library_url(where: str) -> str:
    """The place of a module of the toolchain's library."""
    return f"library.html#{where}"


class Linker:
    """Makes links of the words of items' texts, as they stand on one page. It notes the items that it links, and words of clauses
    that lead nowhere."""

    def __init__(self, catalogue: Catalogue, page: str, target: Optional[Target] = None) -> None:
        self.catalogue, self.page = catalogue, page
        self.target = target or (lambda item: way(page, item.url))
        self.named: "OrderedDict[str, Item]" = OrderedDict()
        self.loose: List[Tuple[str, str]] = []
        self.clauses: Set[str] = set()

    def word(self, item: Item, word: str, locals_: Set[str], before: str) -> str:
        """A word with the parts behind its points, by the code before it."""
        base, point, rest = word.partition(".")
        shown = escape(base)
        if before.endswith("."):  # a field of what stands before
            shown = self.field(item, base)
        elif NAMED.search(before):
            pass
        elif base not in locals_ or base in item.text.split("\n")[0] and base == item.name:
            found, library = self.catalogue.of_word(item, word)
            if found and base in (item.module.aliases if item.module else {}):
                base, point, rest = word, "", ""
                shown = escape(word)
            if found and found is not item:
                if is_imported(item, word.partition(".")[0]):
                    self.named[found.url] = found
                shown = self.link(found, shown)
            elif library:
                shown = f'<a class="l" href="{way(self.page, library_url(library))}" title="{escape(library)}">{shown}</a>'
            elif found is None and base not in KEYWORDS:
                self.loose.append((item.url, base))
        return shown + "".join(f".{self.field(item, it)}" for it in rest.split(".") if point)

    def link(self, found: Item, shown: str) -> str:
        """A link to an item, which says what it is where the pointer rests."""
        said = f"{found.crate}::{found.name}" + (f": {found.said}" if found.said else "")
        return f'<a href="{escape(self.target(found))}" title="{escape(said)}">{shown}</a>'

    def field(self, item: Item, name: str) -> str:
        """A field, which leads to its record."""
        found = None if name in KEYWORDS else self.catalogue.of_field(item, name)
        if found is None or found is item:
            return escape(name)
        return f'<a class="f" href="{escape(self.target(found))}" title="a field of {escape(found.name)}">{escape(name)}</a>'

    def row(self, item: Item, row: str, locals_: Set[str]) -> str:
        """A row of code."""
        if COMMENT.match(row):
            return f'<span class="c">{escape(row)}</span>'
        code, comment = TAIL.match(row).groups()  # type: ignore[union-attr]
        made, at = "", 0
        for found in WORD.finditer(code):
            made += escape(code[at:found.start()])
            made += self.word(item, found[0], locals_, code[:found.start()])
            at = found.end()
        return made + escape(code[at:]) + (f'<span class="c">{escape(comment)}</span>' if comment else "")

    def clause_anchor(self, item: Item, name: str) -> str:
        """The place of a clause; where two have one name, that of the second ends with another mark."""
        anchor = f"{item.anchor}.{name}"
        while anchor in self.clauses:
            anchor += "'"
        self.clauses.add(anchor)
        return anchor

    def code(self, item: Item, anchors: bool = True) -> str:
        """The text of an item as a block; its clauses have anchors."""
        locals_, rows = bound(item.text), []
        for row in item.text.split("\n"):
            made = self.row(item, row, locals_)
            clause = CLAUSE.match(row) if item.contract and anchors else None
            if clause:
                made = f'<span id="{escape(self.clause_anchor(item, clause[1] or clause[2] or row.split()[0].rstrip("*")))}">{made}</span>'
            rows.append(made)
        return '<pre class="code">' + "\n".join(rows) + "</pre>"


def is_imported(item: Item, base: str) -> bool:
    """Whether a word is a definition by the file's own account, and not only a type of Rust."""
    here = item.module
    return here is not None and (base in here.imports or base in here.aliases or not item.path.endswith(".rt"))


def bound(text: str) -> Set[str]:
    """The names that a text binds: of `(x y : T)`, `λ x.`, and of a function's parameters."""
    code = "\n".join("" if COMMENT.match(it) else it for it in text.split("\n"))
    names: Set[str] = set()
    for words in re.findall(r"[({]([^\W\d][\w' ]*?) : ", code) + re.findall(r"λ ([\w' ]+)\.", code):
        names |= set(words.split())
    names |= set(re.findall(r"[(,]\s*(?:mut )?(\w+): ", code))
    return names
