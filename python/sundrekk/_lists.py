"""The contents of a handle's market, written into Python's memory."""
from __future__ import annotations

import ctypes as c
from typing import Any, Callable, Dict, Iterable, List, Mapping, Optional, Tuple

from . import _buffers, _library
from ._handles import done, found
from ._library import library
from .tables import SIDES, Levels, Orders, Part, Stock


def locates(handle: _library.Handle) -> List[int]:
    """Returns the locates in the directory, in ascending order."""
    out = (c.c_uint16 * (1 << 16))()
    return out[:done(library.locates(handle, out, len(out))).len]


def stock(handle: _library.Handle, locate: int) -> Optional[str]:
    """Returns the stock of a locate in the directory, or None."""
    name = found(library.stock(handle, locate))
    return None if name is None else bytes(name.stock).decode().rstrip(" ")


def stocks(handle: _library.Handle) -> Dict[int, str]:
    """Returns the stock of each locate in the directory."""
    return {locate: stock(handle, locate) or "" for locate in locates(handle)}


def places(directory: Mapping[int, str]) -> Dict[str, List[int]]:
    """Returns the locates of each stock in a directory."""
    found: Dict[str, List[int]] = {}
    for locate, name in directory.items():
        found.setdefault(name, []).append(locate)
    return found


def locate_in(directory: Mapping[str, List[int]], stock: Stock) -> int:
    """Returns the given locate, or the locate of the stock with this name."""
    if not isinstance(stock, str):
        return _buffers.locate_of(stock)
    having = directory.get(stock, [])
    if len(having) != 1:
        raise ValueError(f"the directory has no stock {stock!r}" if not having else f"the locates {having} have the stock {stock!r}")
    return having[0]


def orders(handle: _library.Handle, locate: Optional[int]) -> Orders:
    """Returns the live orders of all locates, or of one."""
    names = _named(handle, locate)
    calls = [(it,) for it in names]
    room = library.order_count(handle).count if locate is None else _items(library.orders, handle, calls)
    array, ends = _filled(library.orders, handle, _library.Order, calls, room)
    return Orders(array, names, [Part(it, "", end) for it, end in zip(names, ends)])


def levels(handle: _library.Handle, locate: Optional[int]) -> Levels:
    """Returns the price levels of all locates, or of one."""
    names = _named(handle, locate)
    calls = [(it, buy) for it in names for buy in (True, False)]
    # There are at most as many levels as orders.
    room = library.order_count(handle).count if locate is None else _items(library.levels, handle, calls)
    array, ends = _filled(library.levels, handle, _library.PriceLevel, calls, room)
    return Levels(array, names, [Part(it, SIDES[not buy], end) for (it, buy), end in zip(calls, ends)])


def snapshot(handle: _library.Handle, next_number: int, only: Optional[Iterable[int]]) -> bytes:
    """Returns the canonical snapshot, of all locates or of some."""
    room = 64 + 200 * len(locates(handle)) + 42 * library.order_count(handle).count
    if only is None:
        return written(lambda at, size: library.snapshot(handle, next_number, at, size), room)
    some = _buffers.locates_of(only)
    return written(lambda at, size: library.snapshot_only(handle, next_number, some, len(some), at, size), room)


def written(call: Callable[[int, int], Any], room: int) -> bytes:
    """Returns the bytes that a call writes to the given address and length. Calls once if there is enough room."""
    while True:
        with _buffers.room_for(room) as out, _buffers.bytes_of(out) as (at, size):
            answer = call(at, size)
            if answer.code != _library.NO_ROOM:
                return out[:done(answer).len]
            room = answer.len


def _named(handle: _library.Handle, locate: Optional[int]) -> Dict[int, str]:
    """Returns the stocks of all locates, or of one, by locate."""
    return stocks(handle) if locate is None else {locate: stock(handle, locate) or ""}


def _items(function: Any, handle: _library.Handle, calls: List[Tuple[int, ...]]) -> int:
    """Returns how many items these calls list in total."""
    return sum(function(handle, *words, _buffers.NOWHERE, 0).len for words in calls)


def _filled(function: Any, handle: _library.Handle, kind: Any, calls: List[Tuple[int, ...]], room: int) -> Tuple[Any, List[int]]:
    """Returns an array of the items that these calls list, one call after another, and the index at which the items of each call
    end."""
    out = (kind * room)()
    start, size, at, ends = c.addressof(out), c.sizeof(kind), 0, []
    for words in calls:
        at += done(function(handle, *words, start + at * size, room - at)).len
        ends.append(at)
    return (kind * at).from_buffer(out), ends
