"""Markdown as HTML, as far as the pages of this repository use it: headings, paragraphs, lists, tables, blocks of code, code,
links, pictures, bold and slanted text. Comments are left out.

A module of packaging/site. What a link leads to, and what a word in backticks does, the caller says.
"""
from __future__ import annotations

import re
from html import escape
from typing import Callable, Dict, List, Tuple

BULLET = re.compile(r"( *)(?:[-*]|(\d+)\.) +(.*)")
PIECES = re.compile(r"(`+)(.+?)\1|!\[([^\]]*)\]\(([^)\s]+)\)|\[((?:[^\[\]]|\[[^\]]*\]|`[^`]*`)*)\]\(([^)\s]+)\)|\*\*(.+?)\*\*"
                    r"|(?<![\w*])\*([^*\s](?:[^*]*[^*\s])?)\*(?![\w*])|\\([\\`*_|\[\]#])")


def anchor(heading: str) -> str:
    """How a link names a heading."""
    return re.sub(r"[^\w -]", "", heading.lower()).replace(" ", "-")


class Markdown:
    """Renders a text. `link` gives the place of a link or picture, `word` the HTML of a word in backticks, by the row and where it
    stands in it; `heading` hears each heading."""

    def __init__(self, link: Callable[[str], str], word: Callable[[str, str, int], str]) -> None:
        self.link, self.word = link, word
        self.headings: List[Tuple[int, str, str]] = []
        self.taken: Dict[str, int] = {}

    def inline(self, text: str, row: str = "", start: int = 0) -> str:
        """A piece of text within a row."""
        row, made, at = row or text, "", 0
        for it in PIECES.finditer(text):
            made += escape(text[at:it.start()], quote=False)
            at = it.end()
            if it[1]:
                made += self.word(it[2].strip() if len(it[1]) > 1 else it[2], row, start + it.start())
            elif it[4]:
                made += f'<img src="{escape(self.link(it[4]))}" alt="{escape(it[3])}">'
            elif it[6]:
                inside = re.sub(r"</?a\b[^>]*>", "", self.inline(it[5], row, start + it.start()))
                made += f'<a href="{escape(self.link(it[6]))}">{inside}</a>'
            elif it[7]:
                made += f"<strong>{self.inline(it[7], row, start + it.start())}</strong>"
            elif it[8]:
                made += f"<em>{self.inline(it[8], row, start + it.start())}</em>"
            else:
                made += escape(it[9])
        return made + escape(text[at:], quote=False)

    def heading(self, row: str) -> str:
        """A heading under an anchor of its own."""
        depth = len(row) - len(row.lstrip("#"))
        said = row.lstrip("#").strip()
        name = anchor(said.replace("`", ""))
        self.taken[name] = self.taken.get(name, -1) + 1
        name += f"-{self.taken[name]}" if self.taken[name] else ""
        self.headings.append((depth, re.sub(r"`|\*", "", said), name))
        return f'<h{depth} id="{escape(name)}">{self.inline(said)}</h{depth}>'

    def table(self, rows: List[str]) -> str:
        """A table: its head, the line below it, and its rows."""
        cells = [[it.strip().replace("\\|", "|") for it in re.split(r"(?<!\\)\|", row.strip().strip("|"))] for row in rows]
        line: Callable[[str, List[str], str], str] = lambda kind, row, text: "<tr>" + "".join(f"<{kind}>{self.inline(it, text, max(text.find(it), 0))}</{kind}>" for it in row) + "</tr>"
        head = line("th", cells[0], rows[0]) if any(cells[0]) else ""
        return "<table>" + head + "\n".join(line("td", row, text) for row, text in zip(cells[2:], rows[2:])) + "</table>"

    def items(self, rows: List[str]) -> str:
        """A list, with lists in it."""
        first = BULLET.match(rows[0])
        assert first
        depth, made, inside = len(first[1]), [], []  # type: Tuple[int, List[str], List[str]]
        kind = "ol" if first[2] else "ul"

        def close() -> None:
            if inside:
                made.append(f"<li>{self.inner(inside)}</li>")

        for row in rows:
            it = BULLET.match(row)
            if it and len(it[1]) <= depth:
                close()
                inside = [it[3]]
            else:
                inside.append(row)
        close()
        return f"<{kind}>" + "\n".join(made) + f"</{kind}>"

    def inner(self, rows: List[str]) -> str:
        """What stands in one item of a list: its text, and what is indented below it."""
        at = next((k for k, row in enumerate(rows) if k and (BULLET.match(row) or row.strip().startswith("```"))), len(rows))
        text = " ".join(it.strip() for it in rows[:at] if it.strip())
        rest = rows[at:]
        indent = min((len(it) - len(it.lstrip()) for it in rest if it.strip()), default=0)
        return self.inline(text) + (self.blocks([it[indent:] for it in rest]) if rest else "")

    def blocks(self, rows: List[str]) -> str:
        """The blocks of some rows."""
        made, at = [], 0
        while at < len(rows):
            row, last = rows[at], at
            if not row.strip():
                at += 1
                continue
            if row.startswith("```"):
                last = next((k for k in range(at + 1, len(rows)) if rows[k].startswith("```")), len(rows))
                made.append("<pre><code>" + escape("\n".join(rows[at + 1:last]), quote=False) + "</code></pre>")
            elif re.match(r"#{1,6} ", row):
                made.append(self.heading(row))
            elif row.startswith("<!--"):
                last = next((k for k in range(at, len(rows)) if "-->" in rows[k]), at)
            elif row.startswith("|"):
                last = self.end(rows, at, lambda it: it.startswith("|"))
                made.append(self.table(rows[at:last + 1]))
            elif BULLET.match(row):
                last = self.end(rows, at, lambda it: bool(BULLET.match(it)) or it.startswith("  "))
                made.append(self.items(rows[at:last + 1]))
            else:
                last = self.end(rows, at, lambda it: bool(it.strip()) and not re.match(r"```|#{1,6} |\||<!--|[-*] ", it))
                text = " ".join(rows[at:last + 1])
                made.append(f"<p>{self.inline(text)}</p>")
            at = last + 1
        return "\n".join(made)

    @staticmethod
    def end(rows: List[str], at: int, goes_on: Callable[[str], bool]) -> int:
        """The last row of a block that begins here; an empty row goes on in a list if an indented one follows."""
        while at + 1 < len(rows) and goes_on(rows[at + 1]):
            at += 1
        return at

    def page(self, text: str) -> str:
        """A whole page."""
        return self.blocks(text.split("\n"))
