"""Messages as columns, in numpy and pyarrow, if installed, and over Arrow's C interface; the fields of `itchsnap_decode`; and the texts of codes.

RUNS lists the runs: functions that yield the differences found.
"""
import ctypes as c
import functools
import re
import struct
import weakref

import large
import samples
from common import differs, split
from messages import FIELDS, of_all_types
from samples import MINUTE, TOP, generated, refusal, said, timed
from sundrekk import Day, Reason, Refused, _arrow, kinds
from tables import left_out

HEADER = (TOP / "c/itchsnap.h").read_text()
NUMBERS = {"L": 8, "I": 4, "S": 2}
# The number of rows in an Arrow batch, and the number that the library writes at once for `Day.messages`.
BATCH, AT_ONCE = 1 << 16, 4096


@functools.lru_cache(maxsize=1)
def several():
    """Returns a day with messages of all types."""
    return of_all_types(3000, 7)


def read(day):
    """Returns the messages of a day by type: the number, and the fields by the standard's layouts, texts as bytes without trailing spaces."""
    found = {letter: [] for letter in FIELDS}
    for number, block in enumerate(split(day), 1):
        payload, letter = block[2:], chr(block[2])
        if letter in FIELDS:
            row, at = [number, *struct.unpack(">HH", payload[1:5]), int.from_bytes(payload[5:11], "big")], 11
            for field in FIELDS[letter].split():
                raw, at = payload[at:at + int(field[1:])], at + int(field[1:])
                row.append(int.from_bytes(raw, "big") if field[0] == "I" else raw.rstrip(b" ") if field[0] == "T" else raw)
            found[letter].append(tuple(row))
    return found


def released(it):
    """Releases a structure. After that, nothing to which it or its children refer may be kept."""
    lent = [it.private_data, *(it.children[at].contents.private_data for at in range(getattr(it, "n_children", 0)) if it.children[at].contents.release)]
    assert all(number in _arrow._lent for number in lent)
    it.release(it)
    assert not it.release and not any(number in _arrow._lent for number in lent)


def schema_of(stream):
    """Returns the name and the format of each column of a stream, and releases its schema."""
    schema = _arrow.Schema()
    assert stream.get_schema(stream, schema) == 0 and schema.format == b"+s"
    fields = [(schema.children[at].contents.name.decode(), schema.children[at].contents.format.decode()) for at in range(schema.n_children)]
    released(schema)
    return fields


def values_of(array, form):
    """Returns the values of a column, texts as bytes."""
    assert (array.null_count, array.offset, array.buffers[0]) == (0, 0, None)
    if form in NUMBERS:
        raw, width = c.string_at(array.buffers[1], array.length * NUMBERS[form]), NUMBERS[form]
        return [int.from_bytes(raw[at:at + width], "little") for at in range(0, len(raw), width)]
    ends = struct.unpack(f"={array.length + 1}i", c.string_at(array.buffers[1], 4 * array.length + 4))
    characters = c.string_at(array.buffers[2], ends[-1])
    return [characters[begin:end].decode().encode("latin-1") for begin, end in zip(ends, ends[1:])]


def moved(capsule):
    """Takes a stream out of its capsule, as consumers do: its structure is moved."""
    stream = _arrow.Stream()
    place = c.PYFUNCTYPE(c.c_void_p, c.py_object, c.c_char_p)(("PyCapsule_GetPointer", c.pythonapi))(capsule, b"arrow_array_stream")
    c.memmove(c.addressof(stream), place, c.sizeof(stream))
    _arrow.Stream.from_address(place).release = _arrow.StreamRelease()
    assert stream.private_data in _arrow._lent
    return stream


def of_arrow(columns):
    """Returns the fields of a stream, the rows, and the length of each batch. Releases everything."""
    stream, rows, lengths = moved(columns.__arrow_c_stream__()), [], []
    fields = schema_of(stream)
    while True:
        batch = _arrow.Array()
        assert stream.get_next(stream, batch) == 0
        if not batch.release:
            released(stream)
            return fields, rows, lengths
        lengths.append(batch.length)
        rows += zip(*(values_of(batch.children[at].contents, form) for at, (_, form) in enumerate(fields)))
        released(batch)


def arrow_streams_have_the_fields_of_the_standard():
    for label, day in (("any codes", several()), ("codes of ASCII", generated())):
        wanted = read(day)
        for letter, (kind, _) in kinds.LAYOUTS.items():
            columns = Day.of(day).columns(letter)
            fields, rows, _ = of_arrow(columns)
            yield from differs(f"{label}, {letter}: names", tuple(name for name, _ in fields), kind._fields)
            yield from differs(f"{label}, {letter}: rows", (len(columns), len(rows)), (len(wanted[letter]), len(wanted[letter])))
            yield from differs(f"{label}, {letter}", next(((it, its) for it, its in zip(rows, wanted[letter]) if it != its), None), None)


def streams_have_batches_and_are_released():
    order = large.added(1, 100)
    columns = Day.of(large.entry(1) + order * (BATCH + 1)).columns("A")
    _, rows, lengths = of_arrow(columns)
    yield from differs("two batches", (lengths, len(set(rows))), ([BATCH, 1], BATCH + 1))
    yield from differs("again", of_arrow(columns)[2], [BATCH, 1])
    yield from differs("no message", of_arrow(Day.of(b"").columns("A"))[1:], ([], []))
    stream, batch, child = moved(columns.__arrow_c_stream__()), _arrow.Array(), _arrow.Array()
    stream.get_next(stream, batch)
    released(stream)
    c.memmove(c.addressof(child), c.addressof(batch.children[0].contents), c.sizeof(child))
    batch.children[0].contents.release = _arrow.ArrayRelease()
    released(batch)
    yield from differs("a column that is taken out", values_of(child, "L")[:2], [2, 3])
    released(child)


def a_stream_that_nobody_reads_is_released():
    source = _arrow.Source([], iter(()))
    capsule, kept = _arrow.stream_of(source), weakref.ref(source)
    del source
    yield from differs("a capsule", kept() is not None, True)
    del capsule
    yield from differs("no capsule", kept() is None, True)


def an_error_of_a_batch_is_told():
    def broken():
        raise MemoryError("no more")
        yield

    stream = moved(_arrow.stream_of(_arrow.Source([("number", "L")], broken())))
    yield from differs("status", stream.get_next(stream, _arrow.Array()), 5)
    yield from differs("text", c.string_at(stream.get_last_error(stream)), b"no more")
    released(stream)


def columns_are_the_messages_that_are_chosen():
    day, name = Day.of(timed()), large.stock(2).decode().strip()
    for label, options in (("all", {}), ("stock", {"stock": name}), ("locates", {"stock": [1, 3]}), ("both", {"stock": [name, 1]}), ("since", {"since": "9:40"}),
                           ("until", {"until": "9:40"}), ("part", {"stock": name, "since": 575 * MINUTE, "until": "9:50"}), ("late", {"since": "12:00"}),
                           ("early", {"until": 1}), ("unknown", {"stock": "NONE"}), ("other locate", {"stock": 9})):
        for letter in "ADR":
            wanted = [it.number for it in day.messages(types=letter, **options)]
            yield from differs(f"{letter} {label}", [it[0] for it in of_arrow(day.columns(letter, **options))[1]], wanted)
    first, order = large.entry(1), large.added(1, 100)
    twice = Day.of(first + order + first[:13] + b"OTHER   " + first[21:] + order + first + order)
    name = large.stock(1).decode().strip()
    for stock, wanted in ((name, [2, 6]), ("OTHER", [4]), ([name, "OTHER"], [2, 4, 6])):
        yield from differs(f"an entry that changes: {stock}", [it[0] for it in of_arrow(twice.columns("A", stock=stock))[1]], wanted)


def messages_cross_the_bounds_of_what_is_decoded_at_once():
    for more in (-1, 0, 1):
        day = Day.of(large.entry(1) + large.added(1, 100) * (AT_ONCE + more))
        numbers = [it.number for it in day.messages(types="A")]
        yield from differs(f"{AT_ONCE + more} messages", numbers, list(range(2, AT_ONCE + more + 2)))
    long = b"\xff\xffz" + bytes(65534)
    got = list(Day.of(large.entry(1) + long + large.added(1, 1)).messages())
    yield from differs("the longest", (len(got), got[1].payload, got[2].number), (3, long[2:], 3))


def what_is_no_message_is_refused():
    good = large.entry(1)
    bad_text, bad_side, short = good[:13] + b"\0" + good[14:], large.added(1, 100)[:21] + b"X" + large.added(1, 100)[22:], b"\0\x02SS"
    for label, block, letter, wanted in (
            ("text", bad_text, "R", ("BAD_TEXT", 11, 2)), ("another type", bad_text, "A", None), ("side", bad_side, "A", ("BAD_SIDE", 19, 2)),
            ("length", short, "S", ("WRONG_LENGTH", 12, 2)), ("cut", good[:-1], "A", ("TRUNCATED", len(good) - 1, 2)),
            ("a byte", b"\0", "A", ("TRUNCATED", 1, 2)), ("an end", b"\0\0" + good[:-1], "R", None)):
        for how, options in (("all", {}), ("of a locate", {"stock": 1}), ("of a stock", {"stock": large.stock(1).decode().strip()}),
                             ("of none", {"stock": "NONE"})):
            expected = wanted if how != "of none" or label in ("cut", "a byte") else None
            yield from differs(f"{label} {how}", refusal(Day.of(good + block).columns, letter, **options), expected)
    yield from differs("type", said(Day.of(good).columns, "AF"), "a type with columns is one of S R H Y h L A F E C X D U P Q B, and not 'AF'")
    day = Day.of(good)
    columns = day.columns("R")
    day.close()
    yield from differs("a day that is closed", (len(columns), said(day.columns, "R")), (1, "the day is closed"))


def columns_of_numpy():
    if left_out("columns", "numpy"):
        return
    import numpy

    wanted = read(several())
    for letter, (kind, _) in kinds.LAYOUTS.items():
        columns = Day.of(several()).columns(letter)
        for place, name in enumerate(kind._fields):
            column = columns[name]
            # A code that ends with a zero byte loses that byte as an element of an array.
            values = [it[place].rstrip(b"\0") if isinstance(it[place], bytes) else it[place] for it in wanted[letter]]
            yield from differs(f"{letter} {name}", column.tolist() == values, True)
            yield from differs(f"{letter} {name}: memory", (column.dtype.isnative, column.flags.c_contiguous, column.flags.writeable), (True, True, False))
        rows = columns.to_numpy()
        yield from differs(f"{letter}: rows", (rows.dtype.names, len(rows), rows.base is not None), (kind._fields, len(columns), True))
        if letter in "AF":
            yield from differs(f"{letter}: prices", numpy.array_equal(rows["price"], columns["price"]), True)
    padded = Day.of(large.entry(1)[:13] + b"AB      " + large.entry(1)[21:]).columns("R")
    yield from differs("a text of one row", (padded["stock"].tolist(), padded.to_numpy()["stock"].tolist()), ([b"AB"], [b"AB      "]))
    empty = Day.of(b"").columns("A")
    yield from differs("nothing", (len(empty), empty["price"].tolist(), empty["stock"].tolist(), len(empty.to_numpy())), (0, [], [], 0))
    yield from differs("no such field", samples.raised(empty.__getitem__, "mpid"), "KeyError")


def tables_of_pyarrow():
    if left_out("columns as Arrow tables", "pyarrow"):
        return
    wanted = read(several())["F"]
    table = Day.of(several()).columns("F").to_arrow()
    yield from differs("rows", [tuple(it.encode("latin-1") if isinstance(it, str) else it for it in row.values()) for row in table.to_pylist()], wanted)


def fields_in_c_are_those_of_the_standard():
    """The fields of `itchsnap_message`, as declared in the header, of each message and of cut payloads."""
    body = re.search(r"typedef struct \{\n((?:(?!typedef).)*?)\} itchsnap_message;", HEADER, re.S)[1]
    declared = re.findall(r"^ +uint(\d+)_t (\w+)(?:\[(\d+)\])?;", body, re.M)
    widths = {"8": c.c_uint8, "16": c.c_uint16, "32": c.c_uint32, "64": c.c_uint64}
    message = type("message", (c.Structure,), {"_fields_": [(name, widths[bits] * int(size) if size else widths[bits]) for bits, name, size in declared]})
    decode = c.CDLL(str(TOP / "python/sundrekk/libitchsnap.so")).itchsnap_decode
    decode.argtypes = [c.c_char_p, c.c_size_t, c.POINTER(message)]
    found, wanted = {letter: [] for letter in FIELDS}, read(several())
    for number, block in enumerate(split(several()), 1):
        got = message()
        decode(block[2:], len(block) - 2, got)
        values = {name: bytes(getattr(got, name)) if size else getattr(got, name) for _, name, size in declared}
        letter = chr(values.pop("message_type"))
        yield from differs(f"message {number}: type", letter, chr(block[2]))
        if letter == "G":
            yield from differs(f"message {number}", values.pop("sequence_number"), int(block[3:]))
        elif letter in FIELDS:
            names = ["timestamp" if it == "ns" else it for it in kinds.LAYOUTS[letter][0]._fields[1:]]
            found[letter].append((number, *map(values.pop, names)))
        yield from differs(f"message {number}: fields of other types", {name for name, value in values.items() if value and any(bytes_of(value))}, set())
    for letter, rows in found.items():
        yield from differs(letter, [tuple(map(comparable, it)) for it in rows], [tuple(map(comparable, it)) for it in wanted[letter]])


def bytes_of(value):
    return value if isinstance(value, bytes) else value.to_bytes(8, "little")


def comparable(value):
    """Returns a text without its trailing spaces, or a code of one byte as a number."""
    if isinstance(value, bytes) and len(value) == 1:
        return value[0]
    return value.rstrip(b" ") if isinstance(value, bytes) else value


def each_code_has_words():
    shared = c.CDLL(str(TOP / "python/sundrekk/libitchsnap.so"))
    written = type("written", (c.Structure,), {"_fields_": [("len", c.c_size_t), ("code", c.c_uint32)]})
    shared.itchsnap_reason_text.restype = written
    shared.itchsnap_reason_text.argtypes = [c.c_uint32, c.c_char_p, c.c_size_t]
    codes = {int(it) for it in re.findall(r"^    ITCHSNAP_\w+ = (\d+)\b", HEADER, re.M)}
    texts = {}
    for code in range(1000):
        out = c.create_string_buffer(64)
        answer = shared.itchsnap_reason_text(code, out, 64)
        if answer.code == 0:
            texts[code] = out.value.decode()
            yield from differs(f"code {code}: length", answer.len, len(out.value) + 1)
    yield from differs("codes", set(texts), codes)
    yield from differs("words that are the same", len(set(texts.values())), len(texts))
    for reason in (Reason.EMPTY, Reason.STOCK_MISMATCH, Reason.NO_END, Reason.AFTER_END, Reason.SECOND_LOGIN, Reason.NOT_JOINED):
        yield from differs(reason.name, texts[reason], str(Refused(reason)))


RUNS = [arrow_streams_have_the_fields_of_the_standard, streams_have_batches_and_are_released, a_stream_that_nobody_reads_is_released, an_error_of_a_batch_is_told,
        columns_are_the_messages_that_are_chosen, messages_cross_the_bounds_of_what_is_decoded_at_once, what_is_no_message_is_refused, columns_of_numpy,
        tables_of_pyarrow, fields_in_c_are_those_of_the_standard, each_code_has_words]
