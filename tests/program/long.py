"""Long inputs and unusual arguments: a list of many locates, the longest message, arguments that are not text.

RUNS lists the runs: functions that take the program and yield the differences found.
"""
import importlib
import struct
import sys
import tempfile
import time
from pathlib import Path

import large
from common import differs, ended
from costs import cost

TOP = Path(__file__).resolve().parent.parent.parent
LONGEST = 65_535
# Codes from itchsnap.h.
OK, KEPT, JOINED, CONFLICT = 0, 64, 68, 73

# How an error describes a list with an item that is too long to be quoted.
LISTED = b"  a list has locates from 0 to 65535 and ascending ranges such as 1-40, between commas"

def of_locates(snapshot, wanted):
    """Returns a snapshot reduced to some locates."""
    kept, at = [], 0
    while at < len(snapshot):
        size, kind, locate = struct.unpack_from(">HcH", snapshot, at)
        if kind == b"G" or locate in wanted:
            kept.append(snapshot[at:at + 2 + size])
        at += 2 + size
    return b"".join(kept)


def a_list_of_1000_locates_is_read(program):
    day, snapshot = large.orders(20_000, symbols=2000)
    wanted = range(2, 2001, 2)
    cut = of_locates(snapshot, wanted)
    words = ",".join(map(str, reversed(wanted)))
    yield from differs("snap", ended(program, "snap", "day.itch", "--only", words, day=day), (0, cut, b""))
    yield from differs("join", ended(program, "join", "start.itch", "day.itch", "--only", words, day=day, start=large.closing(1)), (0, cut, b""))
    yield from differs("a list with an empty end", ended(program, "snap", "day.itch", "--only", words + ",", day=day),
                       (2, b"", b"itchsnap: bad locate list\n" + LISTED + b"\n"))


def a_list_of_1000_stocks_is_read(program):
    day, snapshot = large.orders(20_000, symbols=2000)
    wanted = range(2, 2001, 2)
    cut = of_locates(snapshot, wanted)
    names = [large.stock(it).decode() for it in reversed(wanted)]
    words = ",".join(names)
    yield from differs("snap", ended(program, "snap", "day.itch", "--stock", words, day=day), (0, cut, b""))
    yield from differs("join", ended(program, "join", "start.itch", "day.itch", "--stock", words, day=day, start=large.closing(1)), (0, cut, b""))
    yield from differs("book", ended(program, "book", "--stock", words, "day.itch", day=day),
                       ended(program, "book", ",".join(map(str, wanted)), "day.itch", day=day))
    yield from differs("an unknown one among them", ended(program, "snap", "day.itch", "--stock", words + ",S,S0000002", day=day),
                       (1, b"", b"itchsnap: unknown stock\n  day.itch: no stock S\n"))


def books_and_stocks_of_65536_locates_are_found(program):
    day, snapshot = large.locates(65_536)
    titles = [b"%d %s\n" % (it, large.stock(it)) for it in range(65_536)]
    yield from differs("book of all", ended(program, "book", "0-65535", "day.itch", day=day), (0, b"".join(titles), b""))
    yield from differs("book of the last", ended(program, "book", "--stock", "S0065535,S0000000", "day.itch", day=day), (0, titles[0] + titles[-1], b""))
    yield from differs("book without the last", ended(program, "book", "0-65535", "day.itch", day=large.locates(65_535)[0]),
                       (1, b"", b"itchsnap: unknown locate\n  day.itch: no locate 65535\n"))
    yield from differs("snap of the last", ended(program, "snap", "--stock", "S0065535", "day.itch", day=day),
                       (0, of_locates(snapshot, [65_535]), b""))
    same = b"".join(large.block(b"R", it, b"SAME    " + large.ENTRY) for it in range(65_536))
    yield from differs("snap of one stock at all locates", ended(program, "snap", "--stock", "SAME", "day.itch", day=same),
                       (0, same + large.closing(65_537), b""))


def a_large_snapshot_of_all_market_categories_is_canonical(program):
    entries = (large.block(b"R", it, large.stock(it) + b"QGSNAPZV "[it % 9:][:1] + large.ENTRY[1:]) for it in range(65_536))
    snapshot = b"".join(entries) + large.closing(65_537)
    yield from differs("canon", ended(program, "canon", "day.itch", day=snapshot), (0, snapshot, b""))
    yield from differs("canon --check", ended(program, "canon", "--check", "day.itch", day=snapshot), (0, b"canonical\n", b""))
    yield from differs("another end", ended(program, "canon", "--check", "day.itch", day=snapshot[:-20] + b"%020d" % 65_537), (1, b"not canonical\n", b""))


def words_that_are_no_utf_8_are_refused(program):
    login = ["--port", "1", "--user", b"\xff", "--pass", "p"]
    for words in ([b"\xff"], ["check", b"\xff.itch"], ["check", b"--progress\xc3"], ["snap", "--only", b"1,\x80"], ["snap", b"--only=\xe2\x82"],
                  ["book", b"\xf8", "day.itch"], ["fetch", *login], ["serve", "day.itch", "--count", "1", *login]):
        status, output, error = ended(program, *words, day=b"")
        yield from differs(words, (status, output, error.split(b"\n")[0]), (2, b"", b"error: an argument is not UTF-8"))


def a_word_of_100000_letters_is_refused(program):
    word = "x" * 100_000
    for words, status, line in (
            (["check", word], 3, f"itchsnap: cannot open\n  {word}: File name too long (os error 36)".encode()),
            (["snap", "--only", word], 2, b"itchsnap: bad locate list\n" + LISTED),
            (["book", word], 2, b"itchsnap: bad locate list\n" + LISTED),
            (["snap", "--stock", word], 1, b"itchsnap: unknown stock\n  standard input: no stock has more than 8 characters"),
            (["fetch", "--port", "1", "--user", word, "--pass", "p"], 2, b"itchsnap: bad user\n  a user name has 1 to 6 printable characters"),
            (["fetch", "--port", "1", "--user", "u", "--pass", word], 2, b"itchsnap: bad password\n  a password has 1 to 10 printable characters")):
        yield from differs(words[0], ended(program, *words), (status, b"", line + b"\n"))


def the_longest_message_is_read(program):
    longest = struct.pack(">H", LONGEST) + b"z" * LONGEST
    entry = large.entry(1)
    day = longest + entry + longest
    snapshot = entry + large.closing(4)
    shown = b"1 other 7a 65535\n", b"3 other 7a 65535\n"
    yield from differs("check", ended(program, "check", "day.itch", day=day), (0, b"ok 3 messages\n", b""))
    yield from differs("snap", ended(program, "snap", "day.itch", day=day), (0, snapshot, b""))
    yield from differs("compare", ended(program, "compare", "day.itch", "other.itch", day=day, other=entry), (0, b"same\n", b""))
    yield from differs("compare --first", ended(program, "compare", "--first", "day.itch", "other.itch", day=day, other=longest + entry), (0, b"same\n", b""))
    yield from differs("canon", ended(program, "canon", "day.itch", day=longest + snapshot), (0, snapshot, b""))
    yield from differs("join", ended(program, "join", "snap.itch", "day.itch", snap=longest + large.closing(2), day=day), (0, snapshot, b""))
    status, output, error = ended(program, "show", "day.itch", day=day)
    lines = output.splitlines(keepends=True)
    yield from differs("show", (status, tuple(lines[::2]), len(lines), error), (0, shown, 3, b""))
    yield from differs("a byte less", ended(program, "check", "day.itch", day=day[:-1]),
                       (1, b"", b"itchsnap: message 3: truncated, 65536 bytes held\n"))


def the_longest_message_waits_in_a_joiner(_program):
    """This uses the released C library, because nothing waits in the program's `join`."""
    sys.path.insert(0, str(TOP / "python"))
    package = importlib.import_module("sundrekk._library")
    library, joiner = package.library, package.Handle()
    longest, other, end = b"z" * LONGEST, b"z" * (LONGEST - 1) + b"y", b"G" + b"1".rjust(20)
    yield from differs("a new joiner", library.joiner_new(joiner, 2).code, OK)
    yield from differs("the second message", library.joiner_live(joiner, 2, longest, LONGEST).code, KEPT)
    yield from differs("the second message again", library.joiner_live(joiner, 2, longest, LONGEST).code, KEPT)
    yield from differs("with another last byte", library.joiner_live(joiner, 2, other, LONGEST).code, CONFLICT)
    yield from differs("the first message", library.joiner_live(joiner, 1, other, LONGEST).code, KEPT)
    joined = library.joiner_snapshot(joiner, end, len(end))
    yield from differs("End of Snapshot", (joined.code, joined.number), (JOINED, 3))
    yield from differs("what waits", library.joiner_waiting(joiner).count, 0)
    library.free(joiner)


def small_orders(locate, count, first):
    """Returns `count` orders of one share, starting with this reference."""
    return [large.block(b"A", locate, struct.pack(">QcI8sI", first + it, b"B", 1, large.stock(locate), 1)) for it in range(count)]


def effects(kinds, count, first):
    """Returns `count` messages, of these kinds in turn, each of which takes the only share of an order, starting with this reference."""
    fields = {b"E": struct.pack(">IQ", 1, 7), b"X": struct.pack(">I", 1), b"D": b"", b"C": struct.pack(">IQcI", 1, 8, b"Y", 1)}
    return [large.block(kind, 1, struct.pack(">Q", first + it) + fields[kind]) for it, kind in zip(range(count), kinds * count)]


def without_effect(kinds, count):
    """Returns `count` messages, of these kinds in turn, that change nothing."""
    blocks = {
        b"P": large.block(b"P", 1, struct.pack(">QcI8sIQ", 0, b"B", 1, large.stock(1), 1, 0)),
        b"B": large.block(b"B", 1, bytes(8)),
        b"I": large.block(b"I", 1, bytes(39)),
        b"E": large.block(b"E", 1, struct.pack(">QIQ", 1, 0, 9)),
        b"R": large.entry(1),
    }
    return [blocks[kind] for _, kind in zip(range(count), kinds * count)]


def three_million_live_orders_are_kept(program):
    """They take less than twice the memory of their day file."""
    day, snapshot = large.queue(3_000_000)
    with tempfile.TemporaryDirectory() as folder:
        (Path(folder) / "day.itch").write_bytes(day)
        taken = cost(program, "snap", f"{folder}/day.itch", "--output", f"{folder}/out.snap")
        yield from differs("the snapshot", (taken.status, (Path(folder) / "out.snap").read_bytes() == snapshot), (0, True))
        if 1024 * taken.kilobytes > 2 * len(day):
            yield f"{taken}"


def different_messages_with_one_effect_take_no_time(program):
    """There are 100,000 live orders, so comparing the markets at each of 200,000 pairs would take hours."""
    count = 100_000
    market, _ = large.orders(count, symbols=2)
    fronts = market + b"".join(small_orders(1, count, count + 1))
    one = [*without_effect([b"P", b"E", b"R"], count), *effects([b"E", b"D", b"C"], count, count + 1)]
    other = [*without_effect([b"I", b"B", b"P"], count), *effects([b"D", b"X", b"E"], count, count + 1)]
    tail = without_effect([b"P"], count)
    day, second = fronts + b"".join(one), fronts + b"".join(other + tail)
    began = time.monotonic()
    yield from differs("same", ended(program, "compare", "--first", "day.itch", "other.itch", day=day, other=second), (0, b"same\n", b""))
    last = fronts + b"".join([*other[:-1], *small_orders(1, 1, 3 * count)])
    wanted = 1, b"different after %d\n" % (2 + 4 * count), b""
    yield from differs("different", ended(program, "compare", "--first", "day.itch", "other.itch", day=day, other=last), wanted)
    taken = time.monotonic() - began
    if taken > 20:
        yield f"{taken:.1f} seconds"


RUNS = [
    a_list_of_1000_locates_is_read,
    a_list_of_1000_stocks_is_read,
    books_and_stocks_of_65536_locates_are_found,
    a_large_snapshot_of_all_market_categories_is_canonical,
    words_that_are_no_utf_8_are_refused,
    a_word_of_100000_letters_is_refused,
    the_longest_message_is_read,
    three_million_live_orders_are_kept,
    different_messages_with_one_effect_take_no_time,
    the_longest_message_waits_in_a_joiner,
]
