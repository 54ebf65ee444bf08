"""Rows of a table (CSV, comma-separated values) for tools/network, and the text of which they are the lines."""
from __future__ import annotations

import csv
import io
from typing import List, Tuple

from torusmem_tools.command import Refusal
from torusmem_tools.texts.table import SAID


def cells_of(text: str, path: str) -> List[Tuple[int, List[str]]]:
    """The rows of a table, the first of which names its columns, each with the number of its line. Refused where there is none."""
    read, rows, begun = csv.reader(io.StringIO(text.lstrip("\ufeff")), strict=True), [], 1
    try:
        for row in read:
            rows.append((begun, row))
            begun = read.line_num + 1
    except csv.Error as fault:
        why = SAID.get(str(fault)) or str(fault).partition(" - ")[0]
        raise Refusal(f"{path}, line {begun}: {why}") from None
    return rows or [(1, [])]


def table(text: str, path: str) -> str:
    """The lines of a table, their words as columns."""
    rows = [row for _, row in cells_of(text, path)]
    if rows[0][:1] != ["line"]:
        raise Refusal(f"{path}: the first line doesn't begin with `line`")
    if len(rows) == 1:
        raise Refusal(f"{path}: there is no row behind the first line")
    return "".join(" ".join(word for word in row if word) + "\n" for row in rows[1:])
