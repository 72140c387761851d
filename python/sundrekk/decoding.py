"""Decodes payloads into the named tuples of `kinds`."""
from __future__ import annotations

import struct
from itertools import chain, repeat
from typing import TYPE_CHECKING, Any, Callable, Dict, Iterator, List

from .kinds import LAYOUTS, EndOfSnapshot, Message, Undecoded
from .messages import fault_of
from .reasons import Refused

if TYPE_CHECKING:
    from _typeshed import ReadableBuffer

# Locate and tracking number, between the type and the timestamp, which has two parts.
HEADER, TIME = ">xHH6x", struct.Struct(">5xHI")
HEADER_SIZE, END_SIZE = 11, 21
# Names of stocks and codes repeat, so each is decoded once. A day has fewer different ones than this.
MOST_KEPT = 100_000


class Texts(Dict[bytes, str]):
    """Texts, cached by their bytes."""

    def __missing__(self, raw: bytes) -> str:
        if not all(0x20 <= byte <= 0x7E for byte in raw):
            raise ValueError("no text")
        return self.kept(raw, raw.decode().rstrip(" "))

    def kept(self, raw: bytes, text: str) -> str:
        if len(self) >= MOST_KEPT:
            self.clear()
        self[raw] = text
        return text


class Codes(Texts):
    """Codes as characters, cached by their bytes, which may have any value."""

    def __missing__(self, raw: bytes) -> str:
        return self.kept(raw, raw.decode("latin-1"))


# How the code of a decoder spells a field, by the last letter of its layout.
SPELLED = {"S": "texts[{}]", "s": "codes[{}]", "c": "codes[{}]", "B": "sides[{}]"}
# The types with a header, beginning with the most frequent ones of a day.
LETTERS = dict.fromkeys([*"ADUEXFCPQ", *LAYOUTS])
STRUCTS = {letter: struct.Struct(HEADER + LAYOUTS[letter][1].replace(" ", "").replace("S", "s").replace("B", "c")) for letter in LETTERS}


def _steps(letter: str, last: str) -> List[str]:
    """Returns the code that decodes the payload of a type: `data` from `at` on, with the message's `number` and its timestamp `ns`."""
    cls, layout = LAYOUTS[letter]
    kinds = layout.split()
    names = [f"field{at}" for at in range(len(kinds))]
    values = ", ".join(SPELLED.get(kind[-1], "{}").format(name) for kind, name in zip(kinds, names))
    return [f"locate, tracking, {', '.join(names)} = unpack_{letter}(data, at)",
            f"{last} new({cls.__name__}, (number, locate, tracking, ns, {values}))"]


def _compiled(lines: List[str]) -> Any:
    """Returns the function with this code, as namedtuple and dataclass do: a call per field would take longer than everything else."""
    made: Dict[str, Any] = {"texts": Texts(), "codes": Codes(), "sides": {b"B": "B", b"S": "S"}, "new": tuple.__new__}
    made.update({f"unpack_{letter}": layout.unpack_from for letter, layout in STRUCTS.items()}, **{cls.__name__: cls for cls, _ in LAYOUTS.values()})
    exec("\n".join(lines), made)
    return made["decode"]


def _decoder(letter: str) -> Callable[[ReadableBuffer, int, int, int], Any]:
    """Returns a function that decodes a payload of a type."""
    return _compiled(["def decode(data, at, number, ns):", *(f"    {it}" for it in _steps(letter, "return"))])


def _decoder_of_rows() -> Callable[..., Iterator[Message]]:
    """Returns a generator that decodes payloads of all types, given their types, places, numbers and timestamps. `other` decodes those that have no
    header. A call per message would take longer than the comparisons."""
    lines = ["def decode(data, kinds, places, numbers, times, other):", "    for kind, at, number, ns in zip(kinds, places, numbers, times):"]
    for word, letter in zip(chain(["if"], repeat("elif")), LETTERS):
        lines += [f"        {word} kind == {ord(letter)}:", *(f"            {it}" for it in _steps(letter, "yield"))]
    return _compiled([*lines, "        else:", "            yield other(kind, at, number)"])


# The length and the decoder of payloads, keyed by the byte of the type.
DECODERS = {ord(letter): (layout.size, _decoder(letter)) for letter, layout in STRUCTS.items()}
decoded_rows = _decoder_of_rows()


def decoded(data: memoryview, at: int, end: int, number: int) -> Message:
    """Returns the message of the payload from `at` to `end`. Raises `Refused` with this number if it is not a valid message."""
    size, decode = DECODERS.get(data[at] if at < end else -1, (None, None))
    try:
        if decode is not None and size == end - at:
            high, low = TIME.unpack_from(data, at)
            return decode(data, at, number, high << 32 | low)
    except (KeyError, ValueError):
        pass  # not a valid message, and the library says why
    if fault := fault_of(data[at:end]):
        raise Refused(fault.reason, fault.detail, number)
    payload = bytes(data[at:end])
    if payload[:1] == b"G" and len(payload) == END_SIZE:
        return EndOfSnapshot(number, int(payload[1:]))
    return Undecoded(number, payload)
