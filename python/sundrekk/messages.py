"""Messages, one by one."""
from __future__ import annotations

import struct
from typing import TYPE_CHECKING, Iterator, Optional, Tuple

from ._buffers import bytes_of
from ._library import OK, TRUNCATED, library
from .reasons import Refused

if TYPE_CHECKING:
    from _typeshed import ReadableBuffer

# The length of a block, and the type of its message.
BEGINNING = struct.Struct(">HB")


def fault_of(payload: ReadableBuffer) -> Optional[Refused]:
    """Returns the first fault of a payload, or None if it is a valid message."""
    with bytes_of(payload) as (at, size):
        answer = library.decode_fault(at, size)
    return None if answer.code == OK else Refused(answer.code, answer.detail)


def places(blocks: memoryview) -> Iterator[Tuple[int, int, int, int]]:
    """Yields the number, the type, the beginning and the end of each payload, up to the end of the blocks or to a block of length 0. Raises
    `Refused` with `Reason.TRUNCATED` at an unfinished block."""
    unpack, at, number, size = BEGINNING.unpack_from, 0, 0, len(blocks)
    while at + 2 < size:
        length, kind = unpack(blocks, at)
        if not length:
            return
        number, begin, at = number + 1, at + 2, at + 2 + length
        if at > size:
            raise Refused(TRUNCATED, size - begin + 2, number)
        yield number, kind, begin, at
    if bytes(blocks[at:]) not in (b"", b"\0\0"):
        raise Refused(TRUNCATED, size - at, number + 1)


def payloads(blocks: ReadableBuffer) -> Iterator[memoryview]:
    """Yields the payloads of blocks without copying them, up to the end or to a block of length 0. Raises `Refused` with `Reason.TRUNCATED` at
    an unfinished block."""
    view = memoryview(blocks).cast("B")
    return (view[at:end] for _, _, at, end in places(view))


def is_ended(blocks: bytes) -> bool:
    """Returns whether blocks, the last of them complete, include a block of length 0."""
    return sum(2 + len(payload) for payload in payloads(blocks)) < len(blocks)
