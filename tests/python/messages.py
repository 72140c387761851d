"""Messages of a day by their types, executions with their orders, the book over time, and a feed that is followed.

RUNS lists the runs: functions that yield the differences found.
"""
import bz2
import datetime
import gzip
import json
import lzma
import multiprocessing
import random
import shutil
import socket
import struct
import subprocess
import tempfile
import threading
from concurrent.futures import ProcessPoolExecutor
from pathlib import Path

import large
import samples
from common import differs, split
from living import Feed, feeding, plays
from samples import MINUTE, generated, raised, refusal, said, timed
from sundrekk import Day, Market, follow, kinds

# The fields after the header, as in the standard: I is an integer or a price of this many bytes, T a text, S a side, and C a code.
FIELDS = {
    "S": "C1", "R": "T8 C1 C1 I4 C1 C1 C2 C1 C1 C1 C1 C1 I4 C1", "H": "T8 C1 C1 C4", "Y": "T8 C1", "h": "T8 C1 C1", "L": "T4 T8 C1 C1 C1",
    "A": "I8 S1 I4 T8 I4", "F": "I8 S1 I4 T8 I4 T4", "E": "I8 I4 I8", "C": "I8 I4 I8 C1 I4", "X": "I8 I4", "D": "I8", "U": "I8 I8 I4 I4",
    "P": "I8 S1 I4 T8 I4 I8", "Q": "I8 T8 I4 I8 C1", "B": "I8",
}
PRICES = {"price", "execution_price", "cross_price"}


def drawn(rng, field):
    """Returns random bytes of a field."""
    kind, size = field[0], int(field[1:])
    if kind == "T":
        return "".join(rng.choice("AZaz09 .-\"'") for _ in range(size)).strip().encode().ljust(size)
    return rng.choice((b"B", b"S")) if kind == "S" else rng.randbytes(size)


def of_all_types(count, seed=1):
    """Returns a day of messages of all types with random fields that follow no order rules. Some have a type that is not decoded."""
    rng, day = random.Random(seed), []
    for _ in range(count):
        letter = rng.choice([*FIELDS, "I", "G"])
        if letter == "I":
            payload = b"I" + rng.randbytes(rng.randint(0, 60))
        elif letter == "G":
            payload = b"G" + str(rng.randint(1, 10**19)).encode().center(20)
        else:
            payload = letter.encode() + rng.randbytes(10) + b"".join(drawn(rng, it) for it in FIELDS[letter].split())
        day.append(struct.pack(">H", len(payload)) + payload)
    return b"".join(day)


def of_program(day, *words):
    """Returns the objects that the program prints for a day."""
    status, output, error = samples.program("show", "-", "--json", *words, day=day)
    return [json.loads(line) for line in output.splitlines()]


def object_of(message):
    """Returns a message as the program prints it."""
    if isinstance(message, kinds.Undecoded):
        return {"number": message.number, "type": chr(message.payload[0]), "length": len(message.payload)}
    fields = {name: f"{value // 10**4}.{value % 10**4:04}" if name in PRICES else value for name, value in message._asdict().items()}
    letter = next((it for it, (cls, _) in kinds.LAYOUTS.items() if isinstance(message, cls)), "G")
    if letter == "G":
        return {"number": message.number, "type": "G", "sequence_number": message.sequence_number}
    clock = {"time": time_of(message.ns), "ns": message.ns}
    return {"number": message.number, "type": letter, "stock_locate": message.stock_locate, "tracking_number": message.tracking_number, **clock,
            **dict(list(fields.items())[4:])}


def time_of(ns):
    seconds, rest = divmod(ns, 10**9)
    return f"{seconds // 3600:02}:{seconds // 60 % 60:02}:{seconds % 60:02}.{rest:09}"


def messages_of_all_types_are_those_of_the_program():
    for seed in range(5):
        day = of_all_types(2000, seed)
        got, wanted = [object_of(it) for it in Day.of(day).messages()], of_program(day)
        yield from differs(f"day {seed}", len(got), len(wanted))
        yield from differs(f"day {seed}", next(((it, its) for it, its in zip(got, wanted) if it != its), None), None)


def chosen_messages_are_those_of_the_program():
    day, first, name = timed(), *(large.stock(it).decode().strip() for it in (1, 2))
    for label, options, words in (
            ("types", {"types": "DR"}, ["--types", "DR"]), ("stock", {"stock": name}, ["--stock", name]), ("locate", {"stock": 3}, ["--only", "3"]),
            ("since", {"since": "9:40"}, ["--since", "9:40"]), ("until", {"until": datetime.time(9, 40)}, ["--until", "9:40"]),
            ("part", {"since": 575 * MINUTE, "until": "9:50"}, ["--since", "9:35", "--until", "9:50"]),
            ("all", {"stock": [name, first], "types": "A", "since": "9:40"}, ["--stock", f"{name},{first}", "--types", "A", "--since", "9:40"])):
        got = [it.number for it in Day.of(day).messages(**options)]
        yield from differs(label, (bool(got), got), (True, [it["number"] for it in of_program(day, *words)]))


def an_entry_may_give_a_locate_another_stock():
    """No order rule is applied, so a locate may have one stock after another."""
    first, second = large.entry(2), large.entry(2)[:13] + b"OTHER   " + large.entry(2)[21:]
    day = first + large.added(1, 100) + second + large.deleted(1)
    for name in (large.stock(2).decode().strip(), "OTHER"):
        got = [it.number for it in Day.of(day).messages(stock=name)]
        yield from differs(name, got, [it["number"] for it in of_program(day, "--stock", name)])


def payloads_that_are_no_messages_are_refused():
    good = large.entry(1)
    bad_text, bad_side, short = good[:13] + b"\0" + good[14:], large.added(1, 100)[:21] + b"X" + large.added(1, 100)[22:], b"\0\x02SS"
    for label, block, wanted in (("text", bad_text, ("BAD_TEXT", 11, 2)), ("side", bad_side, ("BAD_SIDE", 19, 2)), ("length", short, ("WRONG_LENGTH", 12, 2)),
                                 ("cut", good[:-1], ("TRUNCATED", len(good) - 1, 2)), ("a byte", b"\0", ("TRUNCATED", 1, 2)),
                                 ("an end", b"\0\0" + good[:-1], None)):
        yield from differs(label, refusal(lambda: list(Day.of(good + block).messages())), wanted)
    yield from differs("types", said(Day.of(good).messages, types="Az"), "no message has the type 'z'")


def executions_have_the_price_of_their_orders():
    day = generated()
    wanted = [(it["number"], it["ns"], it["stock_locate"], it["stock"], it["buy_sell_indicator"], it.get("execution_price", it["order_price"]),
               it["executed_shares"], it["order_price"], it["order_reference_number"], it["match_number"], it.get("printable", "Y") != "N")
              for it in of_program(day, "--orders", "--types", "EC")]
    got = [it._replace(price=f"{it.price / 10**4:.4f}", order_price=f"{it.order_price / 10**4:.4f}") for it in Day.of(day).executions()]
    yield from differs("executions", len(got), len(wanted))
    yield from differs("executions", next(((it, its) for it, its in zip(map(tuple, got), wanted) if it != its), None), None)
    stock = got[0].stock
    yield from differs("of a stock", list(Day.of(day).executions(stock=stock)), [it for it in Day.of(day).executions() if it.stock == stock])
    blocks, number = split(day), got[50].number
    blocks.insert(number, blocks[number - 1][:13] + b"\xff" * 8 + blocks[number - 1][21:])
    refused = Day.of(b"".join(blocks))
    yield from differs("refused", refusal(lambda: list(refused.executions())), ("UNKNOWN_REFERENCE", 0, number + 1))
    until = [it.number for it in refused.executions(until=0)]
    yield from differs("until", until, [])


def the_book_over_time_is_the_book_at_each_time():
    day = Day.of(timed())
    times = [570 * MINUTE + at * MINUTE * 5 for at in range(0, 7)]
    got = [(time, list(levels)) for time, levels in day.book("5m", since="9:30", until="10:00")]
    yield from differs("times", [time for time, _ in got], times)
    for time, levels in got:
        yield from differs(str(time), levels, list(day.snapshot(until=time).levels))
    name = large.stock(2).decode().strip()
    of_stock = [list(levels) for _, levels in day.book(datetime.timedelta(minutes=5), stock=name, since="9:35", until="9:50")]
    yield from differs("a stock", of_stock, [[it for it in levels if it.stock == name] for _, levels in got[1:5]])
    yield from differs("to the end", [time for time, _ in day.book("10m", since="9:45")][-1] >= 600 * MINUTE, True)
    yield from differs("a distance", said(day.book, "5 minutes"), "a distance of time is as '30s', '1m' or '1h', and not '5 minutes'")


def compressed_days_are_read_as_others():
    day = generated()
    makers = {"gz": gzip.compress, "bz2": bz2.compress, "xz": lzma.compress, "zst": lambda data: subprocess.run(
        ["zstd", "-q", "-c"], input=data, stdout=subprocess.PIPE, check=True).stdout}
    if not shutil.which("zstd"):
        print("skipped: days compressed with zstd: zstd is not installed")
        del makers["zst"]
    with tempfile.TemporaryDirectory() as folder:
        for ending, compressed in makers.items():
            path = Path(folder, f"day.itch.{ending}")
            path.write_bytes(compressed(day))
            yield from differs(ending, Day(path).blocks == day, True)


def a_day_goes_to_other_processes():
    day = generated()
    with tempfile.TemporaryDirectory() as folder, ProcessPoolExecutor(2, mp_context=multiprocessing.get_context("fork")) as others:
        path = Path(folder, "day.itch")
        path.write_bytes(day)
        for label, it in (("file", Day(path)), ("memory", Day.of(day))):
            yield from differs(label, others.submit(Day.check, it).result(timeout=60), it.check())


def stocks_stand_for_their_locates():
    day = Day.of(timed())
    first, second = (large.stock(at).decode().strip() for at in (1, 2))
    with Market() as market:
        market.apply_blocks(day.blocks[:41])
        yield from differs("before its entry", said(market.best, second, "B"), f"the directory has no stock {second!r}")
        market.apply_blocks(day.blocks[41:])
        price = market.next_price(2, "S")
        for label, by_name, by_locate in (
                ("best", market.best(second, "B"), market.best(2, "B")), ("next price", market.next_price(second, "S"), price),
                ("level", market.level(second, "S", price), market.level(2, "S", price)),
                ("orders", list(market.orders(second)), list(market.orders(2))), ("levels", list(market.levels(second)), list(market.levels(2))),
                ("snapshot", market.snapshot(only=[second, 1]), market.snapshot(only=[2, 1])),
                ("of a day", day.snapshot(only=[first]), day.snapshot(only=[1])), ("of a snapshot", day.snapshot().only([first]), day.snapshot(only=[1])),
                ("rows", day.snapshot().levels.at(first), day.snapshot().levels.at(1))):
            yield from differs(label, (bool(by_name), by_name), (True, by_locate))
        again = bytearray(large.entry(9))
        again[13:21] = large.stock(2)
        market.apply_blocks(bytes(again))
        yield from differs("two locates", said(market.best, second, "B"), f"the locates [2, 9] have the stock {second!r}")
        yield from differs("a locate", raised(market.best, 70000, "B"), "ValueError")


def a_feed_is_followed():
    day = generated()
    with tempfile.TemporaryDirectory() as folder:
        path = Path(folder, "day.itch")
        path.write_bytes(day)
        with feeding(samples.PROGRAM, path) as feed:
            got = list(follow("127.0.0.1", feed.port, "user", "secret", start=101))
        yield from differs("messages", got == list(Day.of(day).messages())[100:], True)
        with feeding(samples.PROGRAM, path) as feed:
            yield from differs("rejected", said(lambda: next(follow("127.0.0.1", feed.port, "user", "wrong"))), "the login is rejected with A")


def a_feed_that_is_lost_is_reported():
    """It is reported after the messages that arrived. A silent feed receives heartbeats meanwhile."""
    day = b"".join(split(generated())[:30])
    with Feed(plays(day)) as feed:
        got, lost = [], None
        try:
            for message in follow("127.0.0.1", feed.port, "user", "secret"):
                got.append(message.number)
        except ConnectionError as error:
            lost = str(error)
        yield from differs("lost", (got, lost), (list(range(1, 31)), "the server closed the connection before it ended the session"))
    wait, beats = threading.Event(), []

    def silent(peer, login):
        plays(day)(peer, login)
        beats.append(peer.recv(3))
        wait.set()
        peer.sendall(b"\0\x01Z")

    with Feed(silent) as feed:
        got = [it.number for it in follow("127.0.0.1", feed.port, "user", "secret")]
        yield from differs("silent", (got, beats), (list(range(1, 31)), [b"\0\x01R"]))
    with socket.create_server(("127.0.0.1", 0)) as taken:
        port = taken.getsockname()[1]
    yield from differs("nobody", raised(lambda: next(follow("127.0.0.1", port, "user", "secret"))), "ConnectionRefusedError")


RUNS = [messages_of_all_types_are_those_of_the_program, chosen_messages_are_those_of_the_program, an_entry_may_give_a_locate_another_stock,
        payloads_that_are_no_messages_are_refused, executions_have_the_price_of_their_orders, the_book_over_time_is_the_book_at_each_time,
        compressed_days_are_read_as_others, a_day_goes_to_other_processes, stocks_stand_for_their_locates, a_feed_is_followed,
        a_feed_that_is_lost_is_reported]
