#!/usr/bin/env python3
"""Runs the toolchain's `rt`, and has it visit each crate below a crate once.

    launcher/rt_once.py ARGUMENT..      as `rt ARGUMENT..`

`rt` lists the crates below a crate, and sums their files, along each path of crates.txt. That is quick with some versions of
the toolchain; others take minutes a visit at the program, below which there are 180,000 paths. Here a visit remembers what it found
of a crate until the outermost visit ends, so each still sees the files as they are then. Nothing else of `rt` is another.
Where a version of `rt` has other parts, it runs as it is."""

from __future__ import annotations

import importlib.machinery
import importlib.util
import os
import shutil
import sys
import threading
from types import ModuleType
from typing import Any, Callable

# What `rt` asks of a crate along each path: the crates below it, and a sum of its files and of theirs.
VISITS = ("below", "stamp")


def once(visit: Callable[[Any], Any]) -> Callable[[Any], Any]:
    """The same visit of a crate and of those below, each of which it visits once."""
    found = threading.local()

    def visited(crate: Any) -> Any:
        is_outermost = getattr(found, "of", None) is None
        if is_outermost:
            found.of = {}
        try:
            if crate.folder not in found.of:
                found.of[crate.folder] = visit(crate)
            it = found.of[crate.folder]
            return list(it) if isinstance(it, list) else it
        finally:
            if is_outermost:
                found.of = None

    return visited


def loaded(path: str) -> ModuleType:
    """The toolchain's `rt` as a module, with its visits replaced."""
    loader = importlib.machinery.SourceFileLoader("rt", path)
    spec = importlib.util.spec_from_loader("rt", loader)
    if spec is None:
        raise ImportError(path)
    module = importlib.util.module_from_spec(spec)
    loader.exec_module(module)
    crate = module.rtlib.Crate
    for name in VISITS:
        setattr(crate, name, once(getattr(crate, name)))
    return module


def main(words: list[str]) -> int:
    place = shutil.which("rt")
    if place is None:
        print("rt_once: there is no command 'rt' on the path", file=sys.stderr)
        return 127
    sys.dont_write_bytecode = True
    sys.argv = [place, *words]
    try:
        run: Callable[[list[str]], int] = loaded(os.path.realpath(place)).main
    except (SyntaxError, ValueError, ImportError, AttributeError, OSError):
        os.execv(place, [place, *words])
    return run(words)


if __name__ == "__main__":
    sys.exit(main(sys.argv[1:]))
