"""The messages of one type, as one column per field."""
from __future__ import annotations

import ctypes as c
import importlib.util
import mmap
from array import array
from itertools import accumulate
from typing import TYPE_CHECKING, Any, Dict, Iterable, Iterator, List, NamedTuple

from . import _rows
from ._arrow import Batch, Source, stream_of
from ._buffers import NO_RESERVE
from ._rows import PAYLOAD, SIZE, Piece
from .decoding import DECODERS, HEADER_SIZE
from .kinds import LAYOUTS

if TYPE_CHECKING:
    import numpy
    import pyarrow

# The column format of a field in numpy and in Arrow, keyed by the letter of its layout. Texts and codes have other letters.
NUMBERS = {"Q": (">u8", "L"), "I": (">u4", "I"), "H": (">u2", "S"), "N": ("<u8", "L")}
# The number of rows of a record batch.
AT_ONCE = 1 << 16
HAS_NUMPY = importlib.util.find_spec("numpy") is not None


class Field(NamedTuple):
    """A field: its offset in a row, its size there, and its letter: that of a number (`NUMBERS`), S for a text, or c for a code."""

    name: str
    offset: int
    width: int
    letter: str

    @property
    def numpy_format(self) -> str:
        return NUMBERS[self.letter][0] if self.letter in NUMBERS else f"S{self.width}"

    @property
    def arrow_format(self) -> str:
        return NUMBERS[self.letter][1] if self.letter in NUMBERS else "u"


def fields_of(letter: str) -> List[Field]:
    """Returns the fields of a type, in order."""
    kind, layout = LAYOUTS[letter]
    found = [Field("number", 0, 8, "N"), Field("stock_locate", PAYLOAD + 1, 2, "H"), Field("tracking_number", PAYLOAD + 3, 2, "H"),
             Field("ns", 16, 8, "N")]
    at = PAYLOAD + HEADER_SIZE
    for name, form in zip(kind._fields[len(found):], layout.split()):
        width = {"Q": 8, "I": 4}.get(form) or int(form[:-1] or 1)
        found.append(Field(name, at, width, form[-1] if form[-1] in "QIS" else "c"))
        at += width
    return found


class Columns:
    """The messages of one type, as `Day.columns` returns them: one column for each field of the named tuple in `sundrekk.kinds`.

    `len` is the number of messages, and `columns["price"]` a numpy array of a field. pyarrow, polars, DuckDB and others read all columns directly,
    without numpy: `pyarrow.table(columns)`, `polars.DataFrame(columns)`.
    """

    def __init__(self, letter: str, memory: mmap.mmap, count: int) -> None:
        self.type = letter
        self.fields = {field.name: field for field in fields_of(letter)}
        self._memory, self._count = memory, count
        self._made: Dict[str, Any] = {}

    def __len__(self) -> int:
        return self._count

    def __repr__(self) -> str:
        return f"<{self._count} messages of type {self.type}: {', '.join(self.fields)}>"

    def __getitem__(self, name: str) -> numpy.ndarray:
        """Returns the column of a field: numbers, bytes of a text without its trailing spaces, or bytes of a code. Needs numpy."""
        if name not in self._made:
            field = self.fields[name]
            self._made[name] = _column(self.to_numpy()[name], field.letter)
        return self._made[name]

    def to_numpy(self) -> numpy.ndarray:
        """Returns a read-only structured array over the memory that the library has written, without a copy. Numbers are big-endian as
        in messages, and texts keep their trailing spaces. Needs numpy."""
        import numpy

        fields = self.fields.values()
        dtype = numpy.dtype({"names": [it.name for it in fields], "formats": [it.numpy_format for it in fields],
                             "offsets": [it.offset for it in fields], "itemsize": SIZE})
        rows = numpy.frombuffer(self._memory, dtype, self._count) if self._count else numpy.empty(0, dtype)
        rows.flags.writeable = False
        return rows

    def to_arrow(self) -> pyarrow.Table:
        """Returns an Arrow table. Needs pyarrow."""
        import pyarrow

        return pyarrow.table(self)

    def __arrow_c_stream__(self, requested_schema: Any = None) -> Any:
        """Arrow's C stream interface: numbers, and texts without trailing spaces."""
        return stream_of(Source([(it.name, it.arrow_format) for it in self.fields.values()], self._batches()))

    def _batches(self) -> Iterator[Batch]:
        for begin in range(0, self._count, AT_ONCE):
            end = min(begin + AT_ONCE, self._count)
            rows = self._memory[begin * SIZE:end * SIZE]
            packed = _packed_by_numpy(self.to_numpy()[begin:end], self.fields.values()) if HAS_NUMPY else {}
            yield Batch(end - begin, [packed.get(it.name) or _packed(rows, it) for it in self.fields.values()])


def columns_of(letter: str, pieces: Iterable[Piece], most_bytes: int) -> Columns:
    """Yields the messages of a type, in pieces of a day of at most this many bytes."""
    most = most_bytes // (2 + DECODERS[ord(letter)][0])
    # Pages that are never written to take no memory.
    memory = mmap.mmap(-1, most * SIZE or 1, flags=mmap.MAP_PRIVATE | mmap.MAP_ANONYMOUS | NO_RESERVE)
    room, count = c.addressof(c.c_uint8.from_buffer(memory)), 0
    for piece in pieces:
        done, _ = _rows.written(piece, room + count * SIZE, most - count)
        _rows.raise_for(done)
        count += done.rows
    return Columns(letter, memory, count)


def _column(raw: numpy.ndarray, letter: str) -> numpy.ndarray:
    """Returns a column in native byte order, with texts without their trailing spaces."""
    import numpy

    made = numpy.array(raw, raw.dtype.newbyteorder("="), order="C")
    if letter == "S" and len(made):
        bytes_of_texts = made.view("u1").reshape(len(made), -1)
        is_text = numpy.zeros(len(made), "?")
        for place in reversed(range(bytes_of_texts.shape[1])):
            is_text |= bytes_of_texts[:, place] != ord(" ")
            bytes_of_texts[:, place] *= is_text
    made.flags.writeable = False
    return made


def _packed_by_numpy(rows: numpy.ndarray, fields: Iterable[Field]) -> Dict[str, List[bytearray]]:
    """Returns the same as `_packed` for each field in a fraction of the time, except for codes that are not ASCII."""
    import numpy

    packed = {}
    for field in fields:
        column = _column(rows[field.name], field.letter)
        if field.letter in NUMBERS:
            packed[field.name] = [bytearray(column)]
            continue
        characters = column.view("u1").reshape(len(column), field.width)
        if field.letter == "S":
            is_text = characters != 0
            ends = numpy.concatenate(([0], numpy.cumsum(is_text.sum(1)))).astype("i4")
            packed[field.name] = [bytearray(ends), bytearray(characters[is_text])]
        elif characters.max() < 128:
            ends = numpy.arange(0, (len(column) + 1) * field.width, field.width, "i4")
            packed[field.name] = [bytearray(ends), bytearray(characters)]
    return packed


def _packed(rows: bytes, field: Field) -> List[bytearray]:
    """Returns the buffers of a column of a record batch."""
    if field.letter not in NUMBERS:
        return _texts(rows, field)
    # A number that is stored with its high byte first is reversed.
    places = range(field.width) if field.letter == "N" else reversed(range(field.width))
    packed = bytearray(len(rows) // SIZE * field.width)
    for to, place in enumerate(places):
        packed[to::field.width] = rows[field.offset + place::SIZE]
    return [packed]


def _texts(rows: bytes, field: Field) -> List[bytearray]:
    """Returns the ends and the characters of texts without their trailing spaces, or of codes, each byte of which is a character."""
    texts = [rows[at:at + field.width] for at in range(field.offset, len(rows), SIZE)]
    spelled = {it: it.rstrip(b" ") if field.letter == "S" else it.decode("latin-1").encode() for it in set(texts)}
    made = [spelled[it] for it in texts]
    return [bytearray(array("i", accumulate(map(len, made), initial=0))), bytearray(b"".join(made))]
