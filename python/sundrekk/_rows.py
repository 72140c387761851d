"""The messages of a part of a day as the library decodes them: rows of a fixed size, each with the number, the timestamp and the payload of a
message."""
from __future__ import annotations

import ctypes as c
from typing import Any, Iterator, List, NamedTuple, Sequence, Tuple

from . import _library
from ._buffers import NOWHERE, bytes_of, locates_of
from ._library import library
from .reasons import Refused

SIZE, PAYLOAD = c.sizeof(_library.Row), _library.Row.payload.offset
WORDS = SIZE // 8
# The codes for payloads that are not valid messages.
FAULTS = range(1, 6)


class Piece(NamedTuple):
    """Blocks, the number of the last message before them, and the types and locates of the messages to decode. No locates means any."""

    blocks: memoryview
    number: int
    types: bytes
    locates: Any


class Batch(NamedTuple):
    """Some rows, and the blocks that their offsets refer to. The next batch overwrites the memory of the rows."""

    rows: memoryview
    count: int
    blocks: memoryview

    def numbers(self, place: int) -> List[int]:
        """Returns one number of each row: at place 0 that of the message, at 1 the offset of its payload, at 2 its timestamp."""
        return self.rows.cast("Q")[place:self.count * WORDS:WORDS].tolist()

    def sequence(self) -> Sequence[int]:
        """Returns the number of each message: a range, which takes less time than a list, if no message between them is left out."""
        words = self.rows.cast("Q")
        first, last = words[0], words[(self.count - 1) * WORDS]
        return range(first, last + 1) if last - first == self.count - 1 else self.numbers(0)

    def kinds(self) -> bytes:
        """Returns the type of each message."""
        return self.rows[PAYLOAD:self.count * SIZE:SIZE].tobytes()


def everywhere(blocks: memoryview, types: bytes) -> Piece:
    """Returns the piece for blocks that begin with message 1, with messages of these types at any locate."""
    return Piece(blocks, 0, types, locates_of(()))


def written(piece: Piece, room: int, most: int) -> Tuple[_library.Decoded, Piece]:
    """Writes the first messages of a piece to an address, as many rows as there is room for. Returns the result and the rest of the piece."""
    with bytes_of(piece.blocks) as (at, size):
        done = library.decode_blocks(at, size, piece.number, piece.types, len(piece.types), piece.locates, len(piece.locates), room, most)
    return done, piece._replace(blocks=piece.blocks[done.len:], number=done.count)


def batches(piece: Piece, most: int = 4096, is_strict: bool = True) -> Iterator[Batch]:
    """Yields the messages of a piece in batches. Raises `Refused` at an invalid payload of one of the piece's types and at an unfinished block. If
    not strict, skips the payload, and stops at the block."""
    memory = bytearray(most * SIZE)
    room = c.addressof((c.c_uint8 * len(memory)).from_buffer(memory))
    while True:
        done, rest = written(piece, room, most)
        if done.rows:
            yield Batch(memoryview(memory), done.rows, piece.blocks)
        if not is_strict and done.code in FAULTS:
            rest = rest._replace(blocks=rest.blocks[2 + int.from_bytes(rest.blocks[:2], "big"):], number=rest.number + 1)
        elif done.code != _library.NO_ROOM:
            break
        piece = rest
    if is_strict:
        raise_for(done)


def count(blocks: memoryview) -> int:
    """Returns the number of messages. Raises `Refused` at an unfinished block."""
    done, _ = written(everywhere(blocks, b""), NOWHERE, 0)
    raise_for(done)
    return done.count


def raise_for(done: _library.Decoded) -> None:
    """Raises `Refused` unless the end of the blocks was reached."""
    if done.code != _library.OK:
        raise Refused(done.code, done.detail, done.count + 1)
