"""Iterates over the messages of a day, optionally only those of some types, stocks or times."""
from __future__ import annotations

import struct
from itertools import chain, repeat
from typing import Iterable, Iterator, NamedTuple, Optional, Set, Tuple, Union

from . import _rows
from ._buffers import locate_of, locates_of
from ._rows import PAYLOAD, SIZE, Batch, Piece
from .decoding import DECODERS, END_SIZE, HEADER_SIZE, decoded_rows
from .kinds import EndOfSnapshot, Message, Undecoded
from .tables import Stock
from .times import Time, first_at, nanoseconds

# The locate of a message, and the two parts of its timestamp.
LOCATE, TIME = struct.Struct(">H"), struct.Struct(">HI")
# The length of a block, and the offset in the blocks of a row's payload.
LENGTH, OFFSET = struct.Struct(">H"), struct.Struct("=Q")
DIRECTORY, END = ord("R"), ord("G")
# The types of TotalView-ITCH 5.0, and End of Snapshot.
TYPES = {chr(kind) for kind in DECODERS} | set("VWKJINOG")
# Every possible type byte, beginning with the most frequent ones of a day.
ALL = bytes(dict.fromkeys([*b"ADUEXFCPQ", *range(256)]))


class Range(NamedTuple):
    """The messages from the first one at `since` or later up to the one before the first one at `until` or later, in nanoseconds since
    midnight."""

    since: int
    until: Optional[int]

    @classmethod
    def of(cls, since: Optional[Time], until: Optional[Time]) -> Range:
        return cls(0 if since is None else nanoseconds(since), None if until is None else nanoseconds(until))


class Span(NamedTuple):
    """The beginning and the end of some blocks, the number of the last message before them, and the selected locates."""

    begin: int
    end: int
    before: int
    locates: Set[int]


class Stocks:
    """The locates that have one of these stocks, by the last Stock Directory message at each."""

    def __init__(self, wanted: Union[Stock, Iterable[Stock]]) -> None:
        listed = [wanted] if isinstance(wanted, (str, int)) else list(wanted)
        self._names = {name.encode().ljust(8) for name in listed if isinstance(name, str)}
        self._given = {locate_of(locate) for locate in listed if not isinstance(locate, str)}
        self._named: Set[int] = set()

    def pass_entry(self, blocks: memoryview, at: int) -> None:
        """Takes note of the Stock Directory message whose payload begins here."""
        locate, = LOCATE.unpack_from(blocks, at + 1)
        has_name = bytes(blocks[at + HEADER_SIZE:at + HEADER_SIZE + 8]) in self._names
        (self._named.add if has_name else self._named.discard)(locate)

    def have(self, locate: int) -> bool:
        return locate in self._named or locate in self._given

    def spans(self, blocks: memoryview) -> Iterator[Span]:
        """Splits the blocks where the set of locates that have these stocks changes."""
        begin, before, locates = 0, 0, set(self._given)
        for at, number in _entries(blocks) if self._names else ():
            self.pass_entry(blocks, at)
            if self._named | self._given != locates:
                yield Span(begin, at - 2, before, locates)
                begin, before, locates = at - 2, number - 1, self._named | self._given
        yield Span(begin, len(blocks), before, locates)


def _entries(blocks: memoryview) -> Iterator[Tuple[int, int]]:
    """Yields the offset of the payload and the number of each Stock Directory message."""
    for batch in _rows.batches(_rows.everywhere(blocks, b"R"), is_strict=False):
        first = len(blocks) - len(batch.blocks)
        yield from ((first + at, number) for at, number in zip(batch.numbers(1), batch.numbers(0)))


def types_of(letters: Iterable[str]) -> bytes:
    """The bytes of message types."""
    if unknown := sorted(set(letters) - TYPES):
        raise ValueError(f"no message has the type {', '.join(map(repr, unknown))}")
    return "".join(sorted(set(letters))).encode()


def is_late(blocks: memoryview, kind: int, at: int, end: int, time: Optional[int]) -> bool:
    """Returns whether the message of a payload has a timestamp that is this time or later."""
    if time is None or kind not in DECODERS or end - at < HEADER_SIZE:
        return False
    high, low = TIME.unpack_from(blocks, at + 5)
    return bool(high << 32 | low >= time)


def pieces(blocks: memoryview, types: bytes, stocks: Optional[Stocks], part: Range) -> Iterator[Piece]:
    """Yields the blocks of a part, each piece with the types and the locates of its selected messages."""
    begin = first_at(blocks, part.since) if part.since else 0
    blocks = blocks if part.until is None else blocks[:first_at(blocks, part.until)]
    before = _rows.count(blocks[:begin]) if begin != 0 else 0
    if begin is None:
        return
    if stocks is None:
        yield Piece(blocks[begin:], before, types, locates_of(()))
        return
    for span in stocks.spans(blocks):
        if span.begin < begin:
            span = span._replace(begin=begin, before=before)
        if span.begin < span.end:
            yield Piece(blocks[span.begin:span.end], span.before, types if span.locates else b"", locates_of(sorted(span.locates)))


def messages(blocks: memoryview, types: Optional[bytes], stocks: Optional[Stocks], part: Range) -> Iterator[Message]:
    """Yields the messages of a part that have one of these types and one of these stocks."""
    wanted = pieces(blocks, ALL if types is None else types, stocks, part)
    return chain.from_iterable(_decoded(batch, piece.types) for piece in wanted for batch in _rows.batches(piece))


def _decoded(batch: Batch, types: bytes) -> Iterator[Message]:
    """Yields the messages of rows, which have these types."""

    def other(kind: int, at: int, number: int) -> Union[EndOfSnapshot, Undecoded]:
        if kind == END:
            return EndOfSnapshot(number, int(bytes(batch.rows[at + 1:at + END_SIZE])))
        begin, = OFFSET.unpack_from(batch.rows, at - PAYLOAD + OFFSET.size)
        size, = LENGTH.unpack_from(batch.blocks, begin - 2)
        return Undecoded(number, bytes(batch.blocks[begin:begin + size]))

    # (unpacking from the bytes themselves is faster than from a view of them)
    data, places = batch.rows.obj, range(PAYLOAD, PAYLOAD + batch.count * SIZE, SIZE)
    numbers, times = batch.sequence(), batch.numbers(2)
    if len(types) == 1 and types[0] in DECODERS:
        return map(DECODERS[types[0]][1], repeat(data), places, numbers, times)
    return decoded_rows(data, batch.kinds(), places, numbers, times, other)
