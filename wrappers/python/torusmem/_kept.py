"""What the library keeps for its caller: a machine or a watch, which one call at a time may use."""

from __future__ import annotations

import threading
from ctypes import byref
from functools import wraps
from typing import Any, Callable, NoReturn, TypeVar

from . import _library

Own = TypeVar("Own", bound="Kept")


Method = TypeVar("Method", bound=Callable[..., Any])


def alone(method: Method) -> Method:
    """A method during which other threads wait."""

    @wraps(method)
    def held(self: Any, *given: Any, **named: Any) -> Any:
        with self._lock:
            return method(self, *given, **named)

    return held  # type: ignore[return-value]


class Kept:
    """What the library keeps for its caller until it is closed. Its lock lets one call in at a time, from any thread."""

    _what = ""  # how messages call it
    _letting_go = ""  # the call that gives its memory back

    def _begin(self) -> None:
        self._calls = _library.library()
        self._lock = threading.RLock()
        self._held = _library.Held(False, None)
        self._at = byref(self._held)

    @property
    def closed(self) -> bool:
        """Whether it is closed."""
        return not self._held.full

    def close(self) -> None:
        """Gives its memory back. A second time nothing happens."""
        with self._lock:
            getattr(self._calls, self._letting_go)(self._at)

    def __enter__(self: Own) -> Own:
        return self

    def __exit__(self, *why: object) -> None:
        self.close()

    def __del__(self) -> None:
        try:
            getattr(self._calls, self._letting_go)(self._at)
        except (AttributeError, TypeError):
            pass  # it was never begun, or Python ends

    def __reduce__(self) -> NoReturn:
        raise TypeError(f"a {self._what} can't be copied or pickled")
