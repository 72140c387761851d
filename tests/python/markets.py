"""`Market`: buffers of all kinds, pieces, look-ups against lists, refusals, and closed markets.

RUNS lists the runs: functions that yield the differences found.
"""
import array
import copy
import ctypes
import gzip
import io
import mmap
import pickle
import struct
import tempfile
import threading

import common
import large
import samples
from common import differs
from samples import example, generated, raised, refusal
from sundrekk import Applied, Day, Level, Market, Order, Reason, Refused, Snapshot, fault_of, payloads

DAY, SNAPSHOT = example("first_order.itch"), example("first_order.snap")
CLOSED = ("WRONG_HANDLE", 0, None)
# Every call of an open market, with valid arguments.
CALLS = {
    "apply": (b"S",), "apply_blocks": (DAY,), "apply_file": (io.BytesIO(DAY),), "best": (1, "B"), "level": (1, "B", 1), "levels": (),
    "locates": (), "next_price": (1, "S"), "order": (1,), "order_count": (), "orders": (), "snapshot": (), "stock": (1,), "stocks": (),
}


def buffers(path):
    """Yields the bytes of a file in every kind of buffer."""
    data = path.read_bytes()
    with open(path, "rb") as file:
        mapped = mmap.mmap(file.fileno(), 0, access=mmap.ACCESS_READ)
    of_ctypes = (ctypes.c_uint8 * len(data)).from_buffer_copy(data)
    return [data, bytearray(data), memoryview(data), memoryview(b"  " + data)[2:], array.array("B", data), mapped, of_ctypes]


def any_buffer_is_taken():
    for name in samples.NAMES:
        wanted = Snapshot(example(f"{name}.snap"))
        for buffer in buffers(samples.EXAMPLES / f"{name}.itch"):
            with Market() as market:
                market.apply_blocks(buffer)
                yield from differs(f"{name} in a {type(buffer).__name__}", market.snapshot(), wanted)
            with Market() as market:
                for payload in payloads(buffer):
                    market.apply(bytearray(payload))
                yield from differs(f"{name}, message by message", market.snapshot(), wanted)
            yield from differs(f"a day of {name} in a {type(buffer).__name__}", Day.of(buffer).snapshot(), wanted)
        for buffer in buffers(samples.EXAMPLES / f"{name}.snap"):
            with Market.load(buffer) as market:
                yield from differs(f"{name}.snap in a {type(buffer).__name__}", market.snapshot(), wanted)


def what_is_no_buffer_is_not_taken():
    with Market() as market:
        yield from differs("a text", raised(market.apply_blocks, "text"), "TypeError")
        yield from differs("every other byte", raised(market.apply_blocks, memoryview(DAY)[::2]), "BufferError")
        yield from differs("nothing", market.apply_blocks(b""), Applied(0, 0))


def a_buffer_stays_as_it_is_during_a_call():
    """A buffer is released after a call, even after a refused one, and can then be resized."""
    day = bytearray(DAY)
    with Market() as market:
        market.apply_blocks(day)
        yield from differs("the same again", refusal(market.apply_blocks, day), ("DUPLICATE_REFERENCE", 0, 6))
    day.append(0)


def a_day_may_be_cut_at_each_byte():
    for cut in range(len(DAY) + 1):
        with Market() as market:
            first = market.apply_blocks(DAY[:cut])
            rest = market.apply_blocks(memoryview(DAY)[cut - first.unfinished:])
            yield from differs(f"cut at {cut}", (first.messages + rest.messages, rest.unfinished), (3, 0))
            yield from differs(f"cut at {cut}", market.snapshot().data, SNAPSHOT)


def a_file_is_read_in_pieces():
    """Whatever the number of bytes read at a time: a complete file, one with an end block followed by other bytes, one that ends within a
    block, and one that is refused."""
    for size in (1, 2, 3, 7, 14, 57, 64, 95, 96, 1 << 20):
        for after in (b"", b"\0\0", b"\0\0\0\1S" + DAY):
            with Market() as market:
                market.apply_blocks(common.file("START"))
                yield from differs(f"{size} at once, then {after}", market.apply_file(io.BytesIO(DAY + after), size), 3)
                yield from differs(f"{size} at once, then {after}", market.snapshot().data[:-23], SNAPSHOT[:-23])
        with Market() as market:
            yield from differs(f"{size} at once of a part", refusal(market.apply_file, io.BytesIO(DAY[:-1]), size), ("TRUNCATED", 37, 3))
            yield from differs(f"{size} at once of the rest", market.apply_file(io.BytesIO(DAY[55:]), size), 1)
            again = refusal(market.apply_file, io.BytesIO(DAY[55:]), size)
            yield from differs(f"{size} at once again", again, ("DUPLICATE_REFERENCE", 0, 4))
    with tempfile.NamedTemporaryFile() as file, Market() as market:
        file.write(gzip.compress(generated()))
        file.flush()
        with gzip.open(file.name) as day:
            yield from differs("a gzip file", market.apply_file(day), 20000)
        yield from differs("its market", market.snapshot(), Day.of(generated()).snapshot())


def look_ups_are_those_of_the_lists():
    with Market() as market:
        market.apply_blocks(generated())
        everything = list(market.orders())
        yield from differs("the number of orders", market.order_count(), len(everything))
        yield from differs("the locates", market.locates(), list(range(1, 51)))
        yield from differs("the stocks", market.stocks(), {locate: f"S{locate:07}" for locate in range(1, 51)})
        for locate in market.locates():
            orders = list(market.orders(locate))
            yield from differs(f"the orders of {locate}", orders, [it for it in everything if it.locate == locate])
            yield from differs(f"the look-ups of {locate}", [market.order(it.reference) for it in orders], orders)
            levels = []
            for side in "BS":
                of_side = [it for it in orders if it.side == side]
                yield from differs(f"the best of {locate} {side}", market.best(locate, side), of_side[0] if of_side else None)
                levels += look_up_levels(market, locate, side, of_side)
            yield from differs(f"the levels of {locate}", list(market.levels(locate)), levels)
        rows = [row for locate in market.locates() for row in market.levels(locate)]
        yield from differs("the levels of all", list(market.levels()), rows)


def look_ups_between_pieces_are_those_of_the_part_before():
    """After pieces that are larger than the market, after single messages, and after both in turn."""
    day = generated()
    ends = [0]
    for payload in payloads(day):
        ends.append(ends[-1] + 2 + len(payload))
    for numbers in ([5000, 12000, 20000], [200, *range(201, 240)], [9000, 9001, 9002, 15000, 15001, 20000], [0, 1, 2, 60, 61, 20000]):
        with Market() as market:
            done = 0
            for number in numbers:
                market.apply_blocks(memoryview(day)[ends[done]:ends[number]])
                done = number
                yield from differs(f"after {number} of {numbers}", seen(market), seen_in(Day.of(day[:ends[number]]).snapshot()))


def seen(market):
    """Returns what look-ups by price find."""
    best = {(locate, side): market.best(locate, side) for locate in market.locates() for side in "BS"}
    return list(market.orders()), list(market.levels()), {it: order for it, order in best.items() if order}, market.snapshot()


def seen_in(snapshot):
    """Returns the same from the lists of a snapshot."""
    best = {}
    for order in snapshot.orders:
        best.setdefault((order.locate, order.side), order)
    return list(snapshot.orders), list(snapshot.levels), best, snapshot


def look_up_levels(market, locate, side, orders):
    """Returns the levels of these orders, and checks that looking up each gives the same."""
    price = market.next_price(locate, side)
    while price is not None:
        of_price = [it for it in orders if it.price == price]
        level = Level(locate, market.stock(locate), side, price, sum(it.shares for it in of_price), len(of_price))
        assert market.level(locate, side, price) == level, level
        yield level
        price = market.next_price(locate, side, price)


def what_is_not_there_is_none():
    with Market() as market:
        market.apply_blocks(DAY)
        found = (market.best(1, "S"), market.best(7, "B"), market.order(2), market.level(1, "B", 1), market.next_price(1, "S"),
                 market.stock(7), market.next_price(1, "B", 1_500_000))
        yield from differs("look-ups", found, (None,) * 7)
        yield from differs("lists", (list(market.orders(7)), list(market.levels(7)), market.locates()), ([], [], [1]))
        yield from differs("an attribution of none", market.best(1, "B"), Order(1, "AAPL", "B", 1_500_000, 100, 1, None))
    with Market() as market:
        market.apply_blocks(common.file("AAPL ATTRIBUTED_1"))
        yield from differs("an attribution", market.best(1, "B").mpid, "ABCD")
        yield from differs("a price of no order", market.next_price(1, "B", 0), None)


def a_refusal_has_its_reason_and_leaves_the_market():
    rows = [
        ("AAPL BUY_1", b"", "EMPTY", 0),
        ("AAPL BUY_1", b"A", "WRONG_LENGTH", 36),
        ("AAPL", payload_of("DELETE_1"), "UNKNOWN_REFERENCE", 0),
        ("AAPL BUY_1", payload_of("BUY_1"), "DUPLICATE_REFERENCE", 0),
        ("AAPL BUY_1", payload_of("MSFT_AT_1"), "STOCK_MISMATCH", 0),
        ("AAPL BUY_1", payload_of("BUY_9_AT_3"), "UNKNOWN_LOCATE", 0),
        ("AAPL", payload_of("BUY_1_OF_0"), "ZERO_SHARES", 0),
        ("AAPL BUY_1", payload_of("END_3"), "UNEXPECTED_END", 0),
    ]
    for before, payload, *wanted in rows:
        with Market() as market:
            market.apply_blocks(common.file(before))
            snapshot, number = market.snapshot(), market.next_number
            yield from differs(f"{payload}", refusal(market.apply, payload), (*wanted, number))
            if payload:
                block = len(payload).to_bytes(2, "big") + payload
                yield from differs(f"a block of {payload}", refusal(market.apply_blocks, block), (*wanted, number))
            yield from differs(f"the market after {payload}", market.snapshot(), snapshot)


def payload_of(name):
    return common.file(name)[2:]


def messages_before_a_refusal_count():
    """A piece is applied up to the refused message, whose number is that in the complete feed."""
    day = common.file("AAPL BUY_1 BUY_2 BUY_1 DELETE_1")
    with Market() as market:
        market.apply_blocks(common.file("START"))
        yield from differs("the piece", refusal(market.apply_blocks, day), ("DUPLICATE_REFERENCE", 0, 5))
        yield from differs("the next number", market.next_number, 5)
        yield from differs("the market", market.snapshot().data, common.file("START AAPL BUY_1 BUY_2") + large.closing(5))
        market.apply(common.file("DELETE_1")[2:])
        yield from differs("the next number after a delete", (market.next_number, market.order_count()), (6, 1))


def too_many_shares_say_how_many_remain():
    with Market() as market:
        market.apply_blocks(DAY)
        payload = large.block(b"X", 1, struct.pack(">QI", 1, 101))[2:]
        try:
            market.apply(payload)
            yield "101 shares of 100 are taken"
        except Refused as refused:
            yield from differs("the words", str(refused), "message 4: too many shares, 100 remain")
            yield from differs("the reason", (refused.reason, refused.detail), (Reason.TOO_MANY_SHARES, 100))
            again = pickle.loads(pickle.dumps(refused))
            yield from differs("what another process gets", (str(again), again.reason), (str(refused), refused.reason))


def faults_of_payloads():
    yield from differs("a message", fault_of(DAY[2:14]), None)
    texts = {b"": "empty message", b"A": "wrong length: want 36", DAY[57:93].replace(b"AAPL", b"AA\0L"): "bad text at 26",
             DAY[57:93].replace(b"B", b"?"): "bad side at 19", b"G" + b" " * 20: "bad number"}
    for payload, words in texts.items():
        yield from differs(repr(payload), str(fault_of(payload)), words)


def the_payloads_of_blocks():
    yield from differs("of a day", [bytes(it[:1]) for it in payloads(DAY)], [b"S", b"R", b"A"])
    yield from differs("up to an end block", len(list(payloads(DAY + b"\0\0\xff"))), 3)
    for cut, held in ((1, 1), (20, 6)):
        yield from differs(f"of {cut} bytes", refusal(list, payloads(DAY[:cut])), ("TRUNCATED", held, 1 if cut < 14 else 2))


def a_closed_market_refuses_each_call():
    public = {name for name in dir(Market) if not name.startswith("_")} - {"close", "load", "next_number"}
    yield from differs("the calls", set(CALLS), public)
    market = Market()
    market.apply_blocks(DAY)
    market.close()
    market.close()
    for name, words in CALLS.items():
        yield from differs(name, refusal(getattr(market, name), *words), CLOSED)
    with Market() as market:
        pass
    yield from differs("after its block", refusal(market.best, 1, "B"), CLOSED)


def numbers_that_do_not_fit_are_refused():
    with Market() as market:
        market.apply_blocks(DAY)
        calls = [(market.best, 65537, "B"), (market.best, -1, "B"), (market.stock, 65537), (market.orders, 65537),
                 (market.levels, -65535), (market.level, 1, "B", 2**32 + 1_500_000), (market.next_price, 1, "B", -1),
                 (market.order, 2**64 + 1), (market.best, 1, "b"), (market.best, 1, ""), (market.best, 1, "BS")]
        for call, *words in calls:
            yield from differs(f"{call.__name__} of {words}", raised(call, *words), "ValueError")
        yield from differs("a list", raised(market.snapshot, only=[65537]), "ValueError")
        yield from differs("a broken number", raised(market.best, 1.5, "B"), "TypeError")


def a_market_is_loaded_with_its_number():
    for name in samples.NAMES:
        snapshot = Snapshot(example(f"{name}.snap"))
        with Market.load(snapshot) as market:
            yield from differs(name, (market.next_number, market.snapshot()), (snapshot.next_number, snapshot))
    rows = [("AAPL", ("NO_END", 0, None)), ("AAPL END_2 START", ("AFTER_END", 0, None)), ("00", ("TRUNCATED", 1, None)),
            ("AAPL MSFT_AT_1 END_3", ("STOCK_MISMATCH", 0, 2)), ("000141", ("WRONG_LENGTH", 36, 1))]
    for name, wanted in rows:
        yield from differs(name, refusal(Market.load, common.file(name)), wanted)


def a_market_stays_on_its_thread():
    found = []
    with Market() as market:
        other = threading.Thread(target=lambda: found.extend([raised(market.best, 1, "B"), raised(market.close)]))
        other.start()
        other.join()
        yield from differs("another thread", found, ["RuntimeError", "RuntimeError"])
        yield from differs("the market's own", market.apply_blocks(DAY).messages, 3)


def a_market_is_not_copied():
    with Market() as market:
        for copied in copy.copy, copy.deepcopy, pickle.dumps:
            yield from differs(copied.__name__, raised(copied, market), "TypeError")


RUNS = [any_buffer_is_taken, what_is_no_buffer_is_not_taken, a_buffer_stays_as_it_is_during_a_call, a_day_may_be_cut_at_each_byte,
        a_file_is_read_in_pieces, look_ups_are_those_of_the_lists, look_ups_between_pieces_are_those_of_the_part_before,
        what_is_not_there_is_none, a_refusal_has_its_reason_and_leaves_the_market, messages_before_a_refusal_count,
        too_many_shares_say_how_many_remain, faults_of_payloads, the_payloads_of_blocks, a_closed_market_refuses_each_call,
        numbers_that_do_not_fit_are_refused, a_market_is_loaded_with_its_number, a_market_stays_on_its_thread,
        a_market_is_not_copied]
