"""Starts a tool by its name: the command `torusmem-tools` of an installation by pip."""
from __future__ import annotations

import ast
import os
import pkgutil
import sys
from importlib import metadata
from typing import Iterator, NoReturn

from torusmem_tools import cli, command

TOOL = "torusmem-tools"


def names() -> list[str]:
    """The tools that are there."""
    return sorted(it.name for it in pkgutil.iter_modules(cli.__path__))


def listed() -> str:
    """The tools, each with what it does, as its text begins."""
    return f"Usage: {TOOL} NAME [WORD]...\n\nTools (each has --help):\n" + "".join(f"  {name:<9} {line}\n" for name, line in purposes())


def purposes() -> Iterator[tuple[str, str]]:
    """Each tool with the first line of its text."""
    for name in names():
        with open(os.path.join(os.path.dirname(cli.__file__), f"{name}.py"), encoding="utf-8") as file:
            yield name, (ast.get_docstring(ast.parse(file.read())) or "").split("\n")[0]


def version() -> str:
    """The version that is installed."""
    try:
        return metadata.version("torusmem")
    except metadata.PackageNotFoundError:
        return "of a repository"


def main() -> NoReturn:
    """Starts the tool that the command line names, with the words behind its name."""
    name, *words = sys.argv[1:] or [""]
    if name in ("-h", "--help", "-V", "--version"):
        command.put(TOOL, listed() if name in ("-h", "--help") else f"{TOOL} {version()}\n")
        command.leave(TOOL, 0)
    if not name:
        for line in listed().splitlines():
            command.put_line(line)
        command.leave(TOOL, 2)
    if name not in names():
        command.leave(TOOL, 2, f"there is no tool '{name}' (--help names them)")
    sys.argv = [name, *words]
    command.start(name)


if __name__ == "__main__":
    main()
