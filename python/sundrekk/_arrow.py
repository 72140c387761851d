"""Record batches over Arrow's C stream interface, which pyarrow, polars, DuckDB and others read."""
from __future__ import annotations

import ctypes as c
import itertools
from typing import Any, Dict, Iterator, List, NamedTuple, Sequence, Tuple

STREAM = b"arrow_array_stream"
FAILED = 5  # EIO


class Schema(c.Structure):
    """struct ArrowSchema."""


class Array(c.Structure):
    """struct ArrowArray."""


class Stream(c.Structure):
    """struct ArrowArrayStream."""


SchemaRelease, ArrayRelease, StreamRelease = (c.CFUNCTYPE(None, c.POINTER(it)) for it in (Schema, Array, Stream))
GetSchema, GetNext = (c.CFUNCTYPE(c.c_int, c.POINTER(Stream), c.POINTER(it)) for it in (Schema, Array))
GetLastError = c.CFUNCTYPE(c.c_void_p, c.POINTER(Stream))

Schema._fields_ = [("format", c.c_char_p), ("name", c.c_char_p), ("metadata", c.c_char_p), ("flags", c.c_int64), ("n_children", c.c_int64),
                   ("children", c.POINTER(c.POINTER(Schema))), ("dictionary", c.POINTER(Schema)), ("release", SchemaRelease),
                   ("private_data", c.c_void_p)]
Array._fields_ = [("length", c.c_int64), ("null_count", c.c_int64), ("offset", c.c_int64), ("n_buffers", c.c_int64), ("n_children", c.c_int64),
                  ("buffers", c.POINTER(c.c_void_p)), ("children", c.POINTER(c.POINTER(Array))), ("dictionary", c.POINTER(Array)),
                  ("release", ArrayRelease), ("private_data", c.c_void_p)]
Stream._fields_ = [("get_schema", GetSchema), ("get_next", GetNext), ("get_last_error", GetLastError), ("release", StreamRelease),
                   ("private_data", c.c_void_p)]


class Batch(NamedTuple):
    """A record batch: its number of rows, and the buffers of each column. There are no missing values."""

    length: int
    columns: Sequence[Sequence[bytearray]]


class Source:
    """The contents of a stream: the name and the format of each column, and the batches."""

    def __init__(self, fields: Sequence[Tuple[str, str]], batches: Iterator[Batch]) -> None:
        self.fields, self.batches = fields, batches
        self.error = c.create_string_buffer(b"")


# Everything that a structure refers to, keyed by its `private_data`, until the consumer releases the structure.
_lent: Dict[int, Any] = {}
_numbers = itertools.count(1)


def _lend(it: Any) -> int:
    number = next(_numbers)
    _lent[number] = it
    return number


def _release(it: Any, nothing: Any) -> None:
    """Releases a structure, and those of its children that were not moved out of it."""
    for at in range(it.n_children):
        child = it.children[at]
        if child.contents.release:
            child.contents.release(child)
    lent, it.release = it.private_data, nothing
    _lent.pop(lent, None)


@SchemaRelease
def _release_schema(pointer: Any) -> None:
    _release(pointer.contents, SchemaRelease())


@ArrayRelease
def _release_array(pointer: Any) -> None:
    _release(pointer.contents, ArrayRelease())


@StreamRelease
def _release_stream(pointer: Any) -> None:
    lent, pointer.contents.release = pointer.contents.private_data, StreamRelease()
    _lent.pop(lent, None)


def _family(children: List[Any]) -> Any:
    return (c.POINTER(type(children[0])) * len(children))(*map(c.pointer, children)) if children else None


def _describe(out: Any, form: str, name: str, children: List[Any]) -> None:
    """Fills in a schema."""
    lent = form.encode(), name.encode(), _family(children), children
    out.format, out.name, out.metadata, out.flags, out.n_children = lent[0], lent[1], None, 0, len(children)
    out.children, out.dictionary, out.release, out.private_data = lent[2], None, _release_schema, _lend(lent)


def _hold(out: Any, length: int, buffers: Sequence[bytearray], children: List[Any]) -> None:
    """Fills in an array without a buffer for missing values."""
    memory = [(c.c_uint8 * len(it)).from_buffer(it) for it in buffers]
    addresses = (c.c_void_p * (1 + len(memory)))(None, *map(c.addressof, memory))
    lent = addresses, memory, _family(children), children
    out.length, out.null_count, out.offset, out.n_buffers, out.n_children = length, 0, 0, len(addresses), len(children)
    out.buffers, out.children, out.dictionary, out.release, out.private_data = addresses, lent[2], None, _release_array, _lend(lent)


@GetSchema
def _get_schema(stream: Any, out: Any) -> int:
    source, children = _lent[stream.contents.private_data], []
    for name, form in source.fields:
        children.append(Schema())
        _describe(children[-1], form, name, [])
    _describe(out.contents, "+s", "", children)
    return 0


@GetNext
def _get_next(stream: Any, out: Any) -> int:
    source, children = _lent[stream.contents.private_data], []
    try:
        batch = next(source.batches, None)
    except Exception as error:  # exceptions must not propagate into C
        source.error = c.create_string_buffer(str(error).encode())
        return FAILED
    if batch is None:
        out.contents.release = ArrayRelease()
        return 0
    for buffers in batch.columns:
        children.append(Array())
        _hold(children[-1], batch.length, buffers, [])
    _hold(out.contents, batch.length, [], children)
    return 0


@GetLastError
def _get_last_error(stream: Any) -> int:
    return c.addressof(_lent[stream.contents.private_data].error)


# The destructor of a capsule receives an address, because the object must no longer be referenced.
_pointer_of = c.PYFUNCTYPE(c.c_void_p, c.c_void_p, c.c_char_p)(("PyCapsule_GetPointer", c.pythonapi))
Destructor = c.PYFUNCTYPE(None, c.c_void_p)
_capsule = c.PYFUNCTYPE(c.py_object, c.c_void_p, c.c_char_p, Destructor)(("PyCapsule_New", c.pythonapi))
# The structures in capsules, keyed by their address.
_streams: Dict[int, Stream] = {}


@Destructor
def _destroy(capsule: int) -> None:
    """Releases a stream that no consumer took."""
    stream = _streams.pop(_pointer_of(capsule, STREAM))
    if stream.release:
        stream.release(stream)


def stream_of(source: Source) -> Any:
    """Returns a capsule with a stream."""
    stream = Stream(_get_schema, _get_next, _get_last_error, _release_stream, _lend(source))
    _streams[c.addressof(stream)] = stream
    return _capsule(c.addressof(stream), STREAM, _destroy)
