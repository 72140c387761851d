"""Memory to pass to the library, and checks that numbers fit."""
from __future__ import annotations

import array
import contextlib
import ctypes as c
import mmap
import operator
from typing import TYPE_CHECKING, Any, Iterable, Iterator, Tuple

if TYPE_CHECKING:
    from _typeshed import ReadableBuffer

# Pages that are only allocated when written to, however many are requested. Python has had this name since 3.13.
NO_RESERVE = getattr(mmap, "MAP_NORESERVE", 0x4000)


class View(c.Structure):
    """Python's description of an object's bytes (Py_buffer)."""

    _fields_ = [("buf", c.c_void_p), ("obj", c.c_void_p), ("len", c.c_ssize_t), ("itemsize", c.c_ssize_t), ("readonly", c.c_int),
                ("ndim", c.c_int), ("format", c.c_char_p), ("shape", c.c_void_p), ("strides", c.c_void_p), ("suboffsets", c.c_void_p),
                ("internal", c.c_void_p)]


_get = c.PYFUNCTYPE(c.c_int, c.py_object, c.POINTER(View), c.c_int)(("PyObject_GetBuffer", c.pythonapi))
_release = c.PYFUNCTYPE(None, c.POINTER(View))(("PyBuffer_Release", c.pythonapi))
# The address to pass for no bytes: the library does not accept null.
_nothing = c.create_string_buffer(1)
NOWHERE = c.addressof(_nothing)


@contextlib.contextmanager
def bytes_of(data: ReadableBuffer) -> Iterator[Tuple[int, int]]:
    """Yields the address and the length of a buffer's bytes, which stay in place meanwhile. Raises TypeError if the object is not a
    buffer, and BufferError if its bytes are not contiguous."""
    view = View()
    _get(data, view, 0)
    try:
        yield view.buf or NOWHERE, view.len
    finally:
        _release(view)


@contextlib.contextmanager
def room_for(size: int) -> Iterator[mmap.mmap]:
    """Returns this many writable bytes. Those that are never written to take no memory."""
    with mmap.mmap(-1, size, flags=mmap.MAP_PRIVATE | mmap.MAP_ANONYMOUS | NO_RESERVE) as room:
        yield room


def number(value: int, bits: int, what: str) -> int:
    """Returns a number if it fits into this many bits; ctypes would truncate it. Rejects truth values, which are mistakes."""
    if isinstance(value, bool):
        raise TypeError(f"{what} is a number, and not {value}")
    value = operator.index(value)
    if not 0 <= value < 2**bits:
        raise ValueError(f"{what} is from 0 to {2**bits - 1}, and not {value}")
    return value


def locate_of(value: int) -> int:
    return number(value, 16, "a locate")


def locates_of(values: Iterable[int]) -> Any:
    """Returns locates in the form that the library expects."""
    listed = array.array("H", [locate_of(value) for value in values])
    return (c.c_uint16 * len(listed)).from_buffer(listed)


def is_buy(side: str) -> bool:
    """Returns whether a side is that of the bids."""
    if side not in ("B", "S"):
        raise ValueError(f"a side is 'B' or 'S', and not {side!r}")
    return side == "B"
