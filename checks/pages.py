"""The pages that scripts print, whole or a part of them, for checks/documents."""
from __future__ import annotations

import re
import subprocess
import sys
from typing import Iterator

from tree import ROOT, read

# Whole files, and the words that print them.
PRINTED = {"docs/pictures/floors.svg": ("tools/reading", "--floors")}
PRINTED.update({f"docs/man/{it}": ("packaging/manual", it) for it in ("torusmem.1", "torusmem-tools.1", "torusmem.h.3")})
THEOREM, ARCHITECTURE = "docs/THEOREM.md", "docs/ARCHITECTURE.md"  # the end of the first is printed, behind a line that names the call
TABLE = ("<!-- crates: printed by tools/reading --crates -->", "<!-- end -->")  # around the table of crates in the second


def printed(script: str, *words: str) -> str:
    """What a script prints."""
    made = subprocess.run([sys.executable, f"{ROOT}/{script}", *words], stdout=subprocess.PIPE, check=True)
    return made.stdout.decode("utf-8")


def printed_pages() -> Iterator[tuple[str, str, str]]:
    """Each page that a script prints, or of which it prints a part: what it must say, or why that can't be made."""
    for path, call in PRINTED.items():
        yield path, printed(*call), ""
    head, line, _ = next((it for it in re.findall(r"(?s)\A(.*?)(<!-- tools/reading (.*?) -->\n)", read(THEOREM))), ("", "", ""))
    words = line[len("<!-- tools/reading "):-len(" -->\n")].split()
    yield THEOREM, head + line + "\n" + (printed("tools/reading", *words) if words else ""), "" if words else "has no line `<!-- tools/reading .. -->`"
    text, (first, last) = read(ARCHITECTURE), TABLE
    good = text.count(first) == 1 and text.count(last) == 1 and text.index(first) < text.index(last)
    before, after = (text.split(first)[0], text.split(last)[1]) if good else ("", "")
    yield ARCHITECTURE, f"{before}{first}\n\n{printed('tools/reading', '--crates')}\n{last}{after}", "" if good else f"has not once each of the lines `{first}` and `{last}`"
