"""Writes what a tool judged as a JUnit file, one test case for each verdict, as build systems read it (the form of Ant's task
`junit`: https://github.com/testmoapp/junitxml).
"""
from __future__ import annotations

import os
from dataclasses import dataclass
from typing import Iterable, List, Optional, Sequence
from xml.etree import ElementTree

from torusmem_tools import command

UNDECIDED = 5


@dataclass
class Case:
    """What was judged, the status of its verdict (0 is a yes, 1 a no, 5 undecided, and another one that it couldn't be read), the
    line that says the verdict, and the lines that say why."""

    name: str
    status: int = 0
    said: str = ""
    story: Sequence[str] = ()

    def element(self, tool: str, seconds: float) -> ElementTree.Element:
        """The case in XML: a failure is a no, and an error what has no verdict."""
        made = ElementTree.Element("testcase", classname=tool, name=command.printable(self.name), time=f"{seconds:.3f}")
        lines = [command.printable(it) for it in (self.said, *self.story)]
        if self.status == 0:
            ElementTree.SubElement(made, "system-out").text = "\n".join(lines)
            return made
        kind = {1: "no", UNDECIDED: "undecided"}.get(self.status, "refused")
        why = ElementTree.SubElement(made, "failure" if self.status == 1 else "error", type=kind, message=lines[0])
        why.text = "\n".join(lines)
        return made


def refused_case(path: str, why: command.Refusal, status: int) -> Case:
    """The case of what was refused, with this status where the refusal has none of its own."""
    return Case(path, status if why.status is None else why.status, str(why), why.story or why.lines)


def text_of(tool: str, path: str, cases: List[Case], seconds: float) -> bytes:
    """The file: a suite of the cases."""
    failures = sum(it.status == 1 for it in cases)
    counts = {"tests": len(cases), "failures": failures, "errors": sum(it.status != 0 for it in cases) - failures}
    numbers = {name: str(count) for name, count in counts.items()}
    numbers["time"] = f"{seconds:.3f}"
    root = ElementTree.Element("testsuites", numbers)
    suite = ElementTree.SubElement(root, "testsuite", {"name": command.printable(path), **numbers, "skipped": "0"})
    for it in cases:
        suite.append(it.element(tool, seconds / len(cases)))
    for each in root.iter():
        each.tail = "\n"
        each.text = each.text or ("\n" if len(each) else None)
    made: bytes = ElementTree.tostring(root, encoding="utf-8", xml_declaration=True)
    return made


def write(path: str, text: bytes) -> None:
    """Writes the file. An empty text before anything is judged says early that it can't be written, and leaves no old verdict."""
    try:
        with open(path, "wb") as file:
            file.write(text)
    except OSError as fault:
        raise command.Refusal(f"cannot write {path}: {fault.strerror or fault}") from None


def refuse_input(path: str, inputs: Iterable[Optional[str]]) -> None:
    """Refuses a file that is one of the texts that are read, or no file."""
    if path == "-":
        raise command.WrongWords("argument --junit: - is no file (--help says more)")
    for it in inputs:
        if it and os.path.exists(it) and os.path.exists(path) and os.path.samefile(it, path):
            raise command.WrongWords(f"argument --junit: {path} is read, too (--help says more)")
