"""The record of a campaign: a line for each run, and the summary of all."""
from __future__ import annotations

import contextlib
import os
import re
from collections import Counter
from dataclasses import dataclass
from typing import IO, Iterable, Iterator, Optional

from torusmem_tools import command
from torusmem_tools.model import campaign_cases
from torusmem_tools.texts.columns import aligned

HEAD = "seed\tshape\toperations\tway\tverdict\trounds\twall\n"
SHOWN = 20


@dataclass
class Row:
    """A line of a record."""

    seed: int
    shape: str
    operations: int
    way: str
    verdict: str
    rounds: str
    wall: str

    def text(self) -> str:
        """The line."""
        parts = [self.seed, self.shape, self.operations, self.way, self.verdict, self.rounds, self.wall]
        return "\t".join(map(str, parts)) + "\n"

    def key(self) -> tuple[str, int]:
        """What no two lines of a record have in common: the way, in one word, and the seed."""
        return self.way.split(" ")[0], self.seed

    def is_good(self) -> bool:
        """Whether nothing was wrong."""
        return self.verdict in ("good", "good unfinished")


def row_of(line: str) -> Optional[Row]:
    """What a line of a record says; None where it is no such line."""
    parts = line.rstrip("\n").split("\t")
    if len(parts) != 7 or not re.fullmatch(r"\d{1,20}", parts[0]) or not re.fullmatch(r"\d{1,9}", parts[2]):
        return None
    if parts[3].split(" ")[0] not in campaign_cases.WAYS or not re.fullmatch(r"\d+\.\d+", parts[6]):
        return None
    return Row(int(parts[0]), parts[1], int(parts[2]), *parts[3:])


def read_rows(path: str) -> dict[tuple[str, int], Row]:
    """The lines of a record. A last line that is cut, as where a campaign was killed, is skipped."""
    rows = command.contents(path).decode("utf-8", "replace").split("\n")
    if rows[0] + "\n" != HEAD:
        raise command.Refusal(f"{path}, line 1: no record of a campaign begins so")
    made: dict[tuple[str, int], Row] = {}
    for at, line in enumerate(rows[1:-1]):
        found = row_of(line)
        if found is None:
            raise command.Refusal(f"{path}, line {at + 2}: this is no line of a record")
        add(made, found)
    return made


def add(rows: dict[tuple[str, int], Row], row: Row) -> None:
    """Adds a line to a record. Of two lines of one seed the one that went wrong stays, else the first."""
    if row.key() not in rows or (rows[row.key()].is_good() and not row.is_good()):
        rows[row.key()] = row


def summary(rows: list[Row]) -> str:
    """What is to be said of a record."""
    lines = [["way", "runs", "good", "unfinished", "wrong", "operations", "shapes", "seconds"]]
    for way in campaign_cases.WAYS:
        mine = [it for it in rows if it.key()[0] == way]
        counts = Counter(it.verdict if it.is_good() else "wrong" for it in mine)
        numbers = [len(mine), counts["good"], counts["good unfinished"], counts["wrong"]]
        numbers += [sum(it.operations for it in mine), len({it.shape for it in mine})]
        numbers += [round(sum(float(it.wall) for it in mine))]
        lines += [[way, *map(str, numbers)]] if mine else []
    made = aligned(lines)
    wrong = [it for it in rows if not it.is_good()]
    made += [f"seed {it.seed} by {it.way}: {it.verdict}" for it in wrong[:SHOWN]]
    made += [f"and {len(wrong) - SHOWN} more"] if len(wrong) > SHOWN else []
    return "".join(f"{it}\n" for it in made)


def write_record(path: str, rows: Iterable[Row]) -> None:
    """Writes a record, in place of one that is there."""
    with open(f"{path}.new", "w", encoding="utf-8", newline="\n") as file:
        file.write(HEAD + "".join(it.text() for it in rows))
    os.replace(f"{path}.new", path)


@contextlib.contextmanager
def append_row(path: Optional[str], rows: dict[tuple[str, int], Row]) -> Iterator[IO[str]]:
    """A record that lines can be added to, first written anew from its whole lines; nowhere if there is no path."""
    if path:
        write_record(path, rows.values())
    with open(path or os.devnull, "a", encoding="utf-8", newline="\n") as file:
        yield file
