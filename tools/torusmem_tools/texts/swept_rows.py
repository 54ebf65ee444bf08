"""Reads rows that `tools/sweep` printed with --json or --csv: of loads, and of saturations."""
from __future__ import annotations

import csv
import json
from typing import Any, Callable, Dict, List, Optional

from torusmem_tools import command

Row = Dict[str, Any]
# The columns that each row has; those of a load and those of a saturation, with numbers; and those that have words.
OF_ALL = ("shape", "traffic", "by", "unit")
OF_LOAD = ("offered", "accepted", "accepted_within", "latency", "latency_within", "depth")
OF_SATURATION = ("saturation", "saturation_within")
WORDS = ("shape", "traffic", "by", "unit", "length", "arbiter")


def cell(name: str, word: str) -> Any:
    """What a cell of CSV means: a word, or nothing, or a number or a truth as JSON writes it."""
    return None if not word else word if name in WORDS else json.loads(word)


def of_text(text: str) -> List[Row]:
    """The rows of a text, under the names that the columns of a machine have."""
    renamed: Callable[[str], str] = lambda name: "shape" if name == "network" else name
    if text.startswith("["):
        return [{renamed(name): it for name, it in row.items()} for row in json.loads(text)]
    return [{renamed(name): cell(renamed(name), it) for name, it in row.items()} for row in csv.DictReader(text.splitlines())]


def is_number(it: Any) -> bool:
    """Whether a value is a number, from 0 on."""
    return isinstance(it, (int, float)) and not isinstance(it, bool) and it >= 0


def is_row(row: Row) -> bool:
    """Whether a row has what is drawn of it."""
    is_load = "offered" in row
    has_rest = isinstance(row["saturated"], bool) and "length" in row if is_load else row["zero_load"] is not None
    has_zero = row["zero_load"] is None or is_number(row["zero_load"])
    return has_rest and has_zero and all(isinstance(row[it], str) for it in OF_ALL) and all(is_number(row[it]) for it in (OF_LOAD if is_load else OF_SATURATION))


def of_file(path: str) -> List[Row]:
    """The rows of a file; a file without any row, or with another text, is refused."""
    try:
        rows = [{"arbiter": None, **row} for row in of_text(command.contents(path).decode("utf-8"))]
        if rows and all(map(is_row, rows)):
            return rows
    except (ValueError, KeyError, TypeError, AttributeError):
        pass
    raise command.Refusal(f"{path} isn't what sweep --json or --csv prints of loads")


def place(row: Row) -> tuple[str, str, Optional[str]]:
    """The curve that a row belongs to."""
    return row["shape"], row["traffic"], row["arbiter"]


def read(paths: List[str]) -> List[Row]:
    """The rows of some files, those of loads first; a saturation belongs to a curve."""
    found = [(path, row) for path in paths for row in of_file(path)]
    loads, others = ([it for it in found if ("offered" in it[1]) == is_load] for is_load in (True, False))
    curves = {place(row) for _, row in loads}
    for path, row in others:
        if place(row) not in curves:
            raise command.Refusal(f"{path}: no load is given of {' '.join(it for it in place(row) if it)}")
    return [row for _, row in loads + others]
