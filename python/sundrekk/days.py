"""Day files."""
from __future__ import annotations

import datetime
import mmap
import os
import stat
from types import TracebackType
from typing import TYPE_CHECKING, Callable, Iterable, Iterator, Optional, Tuple, Type, Union

from . import _buffers, _library, _lists, reading
from ._buffers import bytes_of
from ._library import library
from .books import books
from .columns import Columns, columns_of
from .executions import Execution, executions
from .kinds import LAYOUTS, Message
from .packed import is_packed, unpacked
from .reading import Range, Stocks
from .reasons import Refused
from .snapshots import END_BLOCK, Snapshot
from .tables import Levels, Stock
from .times import Time, distance, first_at, nanoseconds

if TYPE_CHECKING:
    from _typeshed import ReadableBuffer


class Day:
    """A day file: the messages of a feed, in order, as blocks: two bytes with the length of a message, and then the message.

        with Day("day.itch") as day:
            noon = day.snapshot(until="12:00")

    A plain file is mapped, not copied: its pages are in the system's cache, so even the largest file needs only the memory of its market and its
    snapshot. It must not be shortened while it is open. A pipe is read into memory, and so is a file compressed with gzip, bzip2, xz or zstd. Any
    thread may call a day's methods, and calls run in parallel. A day that is a file may be pickled: it is reopened by its path.
    """

    def __init__(self, path: Union[str, os.PathLike[str]]) -> None:
        self._path: Optional[str] = None
        with open(path, "rb") as file:
            status = os.fstat(file.fileno())
            if stat.S_ISREG(status.st_mode) and status.st_size:
                self._path = os.path.abspath(os.fsdecode(path))
                view = memoryview(mmap.mmap(file.fileno(), 0, access=mmap.ACCESS_READ))
            else:
                view = memoryview(file.read())
        self._view: Optional[memoryview] = memoryview(unpacked(bytes(view))) if is_packed(bytes(view[:8])) else view

    @classmethod
    def of(cls, data: ReadableBuffer) -> Day:
        """Makes a day of bytes in memory, in any buffer. They are not copied."""
        day = cls.__new__(cls)
        day._path, day._view = None, memoryview(data).cast("B")
        return day

    def __reduce__(self) -> Tuple[Callable[..., Day], Tuple[Union[str, bytes]]]:
        return (Day.of, (bytes(self.blocks),)) if self._path is None or self._view is None else (Day, (self._path,))

    @property
    def blocks(self) -> memoryview:
        """The bytes of the file. Slices are not copies."""
        if self._view is None:
            raise ValueError("the day is closed")
        return self._view

    def check(self) -> int:
        """Returns the number of messages, if all of them follow the order rules. Otherwise raises `Refused` with the number of the first one that
        does not, and the reason."""
        with bytes_of(self.blocks) as (at, size):
            outcome = library.check(at, size)
        if outcome.code != _library.OK:
            raise Refused(outcome.code, outcome.detail, outcome.count + 1)
        return outcome.count

    def snapshot(self, *, after: Optional[int] = None, until: Optional[Time] = None, only: Optional[Iterable[Stock]] = None) -> Snapshot:
        """Returns the snapshot after all messages of the file, or after some of them.

        after: stop after this many messages. If the file has fewer, it is refused as `Reason.SHORT`.
        until: stop before the first message whose timestamp is this time or later: nanoseconds since midnight, a text such as '10:30' or
        '10:30:00.000000001', or a `datetime.time`. If `after` is also given, whichever comes first applies.
        only: keep only these locates, or stocks by name. Every message must still follow the order rules.

        The file is read once. For many times of a day, it is faster to apply `pieces` to a market.
        """
        stocks = None if only is None else list(only)
        if stocks is not None and any(isinstance(stock, str) for stock in stocks):
            return self.snapshot(after=after, until=until).only(stocks)
        some = None if stocks is None else _buffers.locates_of(stocks)
        # No file contains 2^64 - 1 messages; as an argument it would mean all.
        most = _library.ALL if after is None else min(_buffers.number(after, 64, "a number of messages"), _library.ALL - 1)
        end = _library.ALL if until is None else nanoseconds(until)

        def call(at: int, size: int) -> _library.Outcome:
            if some is None:
                outcome = library.snap(*day, most, end, at, size)
            else:
                outcome = library.snap_only(*day, most, end, some, len(some), at, size)
            if outcome.code not in (_library.OK, _library.NO_ROOM):
                raise Refused(outcome.code, outcome.detail, outcome.count + 1)
            return outcome

        # Each message of a snapshot comes from a message of the day that is at least as long, so there is enough room, and the blocks are read once.
        with bytes_of(self.blocks) as day:
            return Snapshot._canonical(_lists.written(call, day[1] + END_BLOCK))

    def pieces(self, times: Iterable[Time]) -> Iterator[Tuple[int, memoryview]]:
        """Splits the day at ascending times, for `Market.apply_blocks`. For each time, in nanoseconds since midnight, yields the blocks that are
        before the first message at that time or later and not in an earlier piece. Messages after the last time are in no piece. Takes one pass of
        about 25 ns per message: timestamps need not be in order, so every message up to the last time is examined."""
        at, before = 0, 0
        for time in map(nanoseconds, times):
            if time < before:
                raise ValueError("the times of pieces have to rise")
            cut = first_at(self.blocks, time, at)
            end = len(self.blocks) if cut is None else cut
            yield time, self.blocks[at:end]
            at, before = end, time

    def messages(self, *, types: Optional[Iterable[str]] = None, stock: Union[Stock, Iterable[Stock], None] = None, since: Optional[Time] = None,
                 until: Optional[Time] = None) -> Iterator[Message]:
        """Yields the messages, one by one, as the named tuples of `sundrekk.kinds`. Applies no order rule.

        types: only messages of these types, such as 'AF'.
        stock: only messages of this stock, given by name or locate, or of several. A name is that of the last Stock Directory message at a locate.
        since: begin with the first message whose timestamp is this time or later.
        until: stop before the first message whose timestamp is this time or later.

        Raises `Refused` at a payload of one of the types that is not a valid message. Other types are decoded only as far as necessary.
        """
        return reading.messages(self.blocks, None if types is None else reading.types_of(types), _stocks(stock), Range.of(since, until))

    def columns(self, type: str, *, stock: Union[Stock, Iterable[Stock], None] = None, since: Optional[Time] = None,
                until: Optional[Time] = None) -> Columns:
        """Returns the messages of one type, such as 'A', as columns for numpy and Arrow, and everything that reads Arrow. `stock`, `since` and
        `until` are as in `messages`, and the same payloads are refused.

        type: one of S R H Y h L A F E C X D U P Q B.
        """
        if type not in LAYOUTS:
            raise ValueError(f"a type with columns is one of {' '.join(LAYOUTS)}, and not {type!r}")
        pieces = reading.pieces(self.blocks, type.encode(), _stocks(stock), Range.of(since, until))
        return columns_of(type, pieces, len(self.blocks))

    def executions(self, *, stock: Union[Stock, Iterable[Stock], None] = None, since: Optional[Time] = None,
                   until: Optional[Time] = None) -> Iterator[Execution]:
        """Yields the executions of live orders, with the stock, the side and the price of the order. `stock`, `since` and `until` are as in
        `messages`. Every message up to the end must follow the order rules."""
        return executions(self.blocks, _stocks(stock), Range.of(since, until))

    def book(self, every: Union[str, int, datetime.timedelta], *, stock: Optional[Stock] = None, since: Optional[Time] = None,
             until: Optional[Time] = None) -> Iterator[Tuple[int, Levels]]:
        """Yields the price levels at regular intervals: each time, in nanoseconds since midnight, with the levels after all messages before the first
        one at that time or later.

        every: the interval: a text such as '30s', '1m' or '1h', a `datetime.timedelta`, or nanoseconds.
        stock: only the levels of this stock, given by name or locate.
        since: the first time [default: the first multiple of the interval after the first timestamp].
        until: the last possible time [default: the first time after which there are no messages].
        """
        return books(self.blocks, distance(every), stock, Range.of(since, until))

    def compare(self, other: Day) -> Optional[int]:
        """Returns None if both days end in the same market. Otherwise returns the place, counted from 1, of the first message in which the snapshots
        of the two markets differ. Raises `Refused` with the number of the refused file, 1 for this day or 2 for the other."""
        with bytes_of(self.blocks) as first, bytes_of(other.blocks) as second:
            compared = library.compare(*first, *second)
        if compared.code != _library.OK:
            raise Refused(compared.code, compared.detail, compared.count + 1, file=compared.file)
        return compared.place or None

    def close(self) -> None:
        """Releases the file. Its mapping ends with the last slice of it that is in use. Any call after that raises ValueError; closing it again does
        nothing."""
        self._view = None

    def __enter__(self) -> Day:
        return self

    def __exit__(self, kind: Optional[Type[BaseException]], error: Optional[BaseException], trace: Optional[TracebackType]) -> None:
        self.close()


def _stocks(stock: Union[Stock, Iterable[Stock], None]) -> Optional[Stocks]:
    return None if stock is None else Stocks(stock)
