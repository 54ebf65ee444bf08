"""On a terminal, a line of standard error that says how far a tool is: after a second, and then each half. It is gone at the
end."""
from __future__ import annotations

import contextlib
import os
import threading
import time
from typing import Iterable, Iterator, TypeVar

Item = TypeVar("Item")
FIRST, EACH = 1.0, 0.5


def rewrite(text: str) -> None:
    """Writes in place of what standard error's last line has."""
    with contextlib.suppress(OSError):
        os.write(2, b"\r\x1b[K" + text.encode("utf-8"))


class Progress:
    """The line of a tool."""

    def __init__(self, tool: str) -> None:
        self.tool, self.begun, self.said, self.is_left = tool, time.monotonic(), 0.0, False
        self.is_shown = os.isatty(2)

    def say(self, what: str) -> None:
        """Says it, where it is time to."""
        now = time.monotonic()
        if self.is_shown and now - self.begun > FIRST and now - self.said > EACH:
            self.said, self.is_left = now, True
            rewrite(f"{self.tool}: {what}, {now - self.begun:.0f} s")

    def clear(self) -> None:
        """Erases the line."""
        if self.is_left:
            rewrite("")
            self.is_left = False

    def counted(self, items: Iterable[Item], of: int, what: str) -> Iterator[Item]:
        """The items, of so many, each told as it comes."""
        for at, it in enumerate(items, 1):
            yield it
            self.say(f"{what} {at} of {of}")

    @contextlib.contextmanager
    def waiting(self, what: str) -> Iterator[None]:
        """Says it over and over while something is waited for."""
        if not self.is_shown:
            yield
            return
        over = threading.Event()

        def tell() -> None:
            while not over.wait(EACH):
                self.say(what)

        teller = threading.Thread(target=tell, daemon=True)
        teller.start()
        try:
            yield
        finally:
            over.set()
            teller.join()
            self.clear()
