"""Snapshots, as values."""
from __future__ import annotations

import functools
import os
from pathlib import Path
from typing import TYPE_CHECKING, Any, Dict, Iterable, Union

from . import _lists
from ._buffers import bytes_of
from ._handles import Held
from ._library import OK, library
from .reasons import Refused
from .tables import Levels, Orders, Stock

if TYPE_CHECKING:
    from _typeshed import ReadableBuffer

# The block of End of Snapshot, and its digits at the end.
END_BLOCK, END_DIGITS = 23, 20


class Snapshot:
    """The market at one message of a feed, as the canonical bytes from which it can be rebuilt.

    Two snapshots are equal if and only if their markets are the same and they were taken at the same message number. `Snapshot(data)` reads a
    snapshot file from any buffer and puts it into canonical order; its messages may be in any order that follows the order rules.
    """

    def __init__(self, data: ReadableBuffer) -> None:
        with Held() as held:
            next_number = load(held, data)
            self._data = _lists.snapshot(held._own, next_number, None)

    @classmethod
    def _canonical(cls, data: bytes) -> Snapshot:
        """Makes a snapshot from bytes that the library wrote."""
        made = cls.__new__(cls)
        made._data = data
        return made

    @classmethod
    def read(cls, path: Union[str, os.PathLike[str]]) -> Snapshot:
        """Reads a snapshot file. Raises `Refused` with the reason if it is not one."""
        return cls(Path(path).read_bytes())

    def write(self, path: Union[str, os.PathLike[str]]) -> None:
        """Writes a snapshot file. Writes to `PATH.part`, which is renamed when it is complete and removed if writing fails."""
        part = Path(f"{os.fspath(path)}.part")
        try:
            part.write_bytes(self._data)
            part.replace(path)
        except BaseException:
            part.unlink(missing_ok=True)
            raise

    @property
    def data(self) -> bytes:
        """The canonical bytes, including End of Snapshot."""
        return self._data

    @property
    def next_number(self) -> int:
        """The number of the first message of the feed that the snapshot does not contain, counted from 1."""
        return int(self._data[-END_DIGITS:])

    def same_market(self, other: Snapshot) -> bool:
        """Returns whether two snapshots have the same market, whatever their numbers."""
        if not isinstance(other, Snapshot):
            raise TypeError(f"a Snapshot is compared with a Snapshot, and not with {other!r}")
        return self._data[:-END_BLOCK] == other._data[:-END_BLOCK]

    def only(self, locates: Iterable[Stock]) -> Snapshot:
        """Returns the snapshot reduced to these locates, or stocks by name. A name that no locate or several locates have raises
        ValueError."""
        with Held() as held:
            next_number = load(held, self._data)
            directory = _lists.places(_lists.stocks(held._own))
            some = [_lists.locate_in(directory, locate) for locate in locates]
            return self._canonical(_lists.snapshot(held._own, next_number, some))

    @functools.cached_property
    def stocks(self) -> Dict[int, str]:
        """The directory: the stock of each locate."""
        with Held() as held:
            load(held, self._data)
            return _lists.stocks(held._own)

    @functools.cached_property
    def orders(self) -> Orders:
        """The live orders: by locate, bids before asks, each side by priority."""
        with Held() as held:
            load(held, self._data)
            return _lists.orders(held._own, None)

    @functools.cached_property
    def levels(self) -> Levels:
        """The price levels: by locate, bids before asks, the best price of each side first."""
        with Held() as held:
            load(held, self._data)
            return _lists.levels(held._own, None)

    def __bytes__(self) -> bytes:
        return self._data

    def __eq__(self, other: object) -> bool:
        return self._data == other._data if isinstance(other, Snapshot) else NotImplemented

    def __hash__(self) -> int:
        return hash(self._data)

    def __repr__(self) -> str:
        return f"<snapshot before message {self.next_number}, {len(self._data)} bytes>"

    def __reduce__(self) -> Any:
        return self._canonical, (self._data,)


def load(held: Held, snapshot: ReadableBuffer) -> int:
    """Fills the handle with the market of a snapshot file, and returns the number of the next message."""
    with bytes_of(snapshot) as (at, size):
        loaded = library.market_load(held._own, at, size)
    if loaded.code != OK:
        raise Refused(loaded.code, loaded.detail, loaded.place or None)
    return loaded.next
