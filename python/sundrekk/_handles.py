"""Objects that the library keeps for Python."""
from __future__ import annotations

import threading
from types import TracebackType
from typing import Any, Optional, Type, TypeVar

from . import _library
from ._library import library
from .reasons import Refused

Self = TypeVar("Self", bound="Held")


class Held:
    """An object in the library, until it is closed. It stays on the thread that made it and cannot be copied."""

    def __init__(self) -> None:
        self._handle = _library.Handle()
        self._thread = threading.get_ident()

    @property
    def _own(self) -> _library.Handle:
        """Returns the handle, for a call on its thread."""
        if threading.get_ident() != self._thread:
            raise RuntimeError(f"a {type(self).__name__} stays on the thread that made it")
        return self._handle

    def close(self) -> None:
        """Frees its memory. After that each call raises `Refused` with `Reason.WRONG_HANDLE`; closing it again does nothing."""
        library.free(self._own)

    def __enter__(self: Self) -> Self:
        return self

    def __exit__(self, kind: Optional[Type[BaseException]], error: Optional[BaseException], trace: Optional[TracebackType]) -> None:
        self.close()

    def __del__(self) -> None:
        # If another thread collects the object, its memory is not freed: a handle never leaves its thread.
        if getattr(self, "_thread", None) == threading.get_ident():
            library.free(self._handle)

    def __reduce__(self) -> Any:
        raise TypeError(f"a {type(self).__name__} is not copied: take its snapshot")


def done(answer: Any) -> Any:
    """Returns an answer, or raises its refusal."""
    if answer.code != _library.OK:
        raise Refused(answer.code, getattr(answer, "detail", 0))
    return answer


def found(answer: Any) -> Any:
    """Returns the result of a look-up, or None."""
    return None if answer.code == _library.ABSENT else done(answer)
