"""`Day`: times, numbers of messages, pieces, files of all kinds, memory, threads, and closed days.

RUNS lists the runs: functions that yield the differences found.
"""
import array
import datetime
import os
import random
import re
import tempfile
import threading
import time
from concurrent.futures import ThreadPoolExecutor
from pathlib import Path

import common
import samples
from common import differs
from samples import MINUTE, example, generated, raised, ran_python, refusal, stamped, timed
from sundrekk import Day, Market, Refused, Snapshot, nanoseconds

DAY = example("book.itch")
# Prints the peak of a snapshot's own memory in KiB, sampled every millisecond by a thread, and then the snapshot's length.
MEMORY = """
import re, sys, threading
from sundrekk import Day

def own():
    return int(re.search(r"RssAnon:\\s+(\\d+)", open("/proc/self/status").read())[1])

def watch():
    while not ended.wait(0.001):
        seen.append(own())

before, seen, ended = own(), [], threading.Event()
watching = threading.Thread(target=watch)
watching.start()
snapshot = Day(sys.argv[1]).snapshot(until=sys.argv[2] if len(sys.argv) > 2 else None)
ended.set()
watching.join()
print(max(seen) - before, len(snapshot.data))
"""
LARGE, LEAST = 256 << 20, 16 << 10


def of_program(day, **options):
    """Returns the program's snapshot, or the first line of its refusal, in the wording of the package."""
    words = [word for name, value in options.items() for word in (f"--{name}", str(value))]
    status, output, error = samples.program("snap", *words, day=day)
    error = re.sub(r"wrong length for .: (want \d+), got \d+", r"wrong length: \1", error.partition("\n")[0]).replace("itchsnap: ", "")
    return output if status == 0 else error


def of_package(day, **options):
    try:
        return Day.of(day).snapshot(**options).data
    except Refused as refused:
        return str(refused)


def of_piece(day, time):
    """Returns the same for the piece of a day before a time."""
    [(_, blocks)] = Day.of(day).pieces([time])
    return of_package(blocks)


def a_day_until_a_time_is_that_of_the_program():
    for minute in range(568, 603):
        time = minute * MINUTE + minute % 7
        yield from differs(f"until {time}", of_package(timed(), until=time), of_program(timed(), until=time))
        if minute % 6 == 0:
            text = f"{minute // 60:02}:{minute % 60:02}:00.0000001"
            yield from differs(f"until {text}", of_package(timed(), until=text, only=[2]), of_program(timed(), until=text, only=2))


def the_earlier_of_a_time_and_a_number_ends_a_day():
    for minute in (569, 571, 585, 601):
        for after in (0, 1, 3, 100, 3000, 6000, 7000):
            options = {"after": after, "until": minute * MINUTE}
            yield from differs(f"{options}", of_package(timed(), **options), of_program(timed(), **options))


def hostile_days_until_a_time_are_those_of_the_program():
    """Blocks whose bytes are changed, dropped or repeated, with times before and after their own."""
    rng = random.Random(3)
    blocks = common.split(timed())[:40] + common.split(DAY) + [bytes(2), b"\0\1A", b"\0\x15G" + b" " * 19 + b"9", b"\0\x0bN" + bytes(10)]
    times = [0, 1, 5, 2**40, 2**47, 2**48 - 1, 2**48, 2**63, 570 * MINUTE + 10**9]
    for _ in range(300):
        day = bytearray(b"".join(rng.choices(blocks[:-4], k=9) + rng.choices(blocks, k=3)))
        if rng.random() < 0.5:
            day[rng.randrange(len(day))] = rng.choice((0, 1, 0x20, 0x41, 0x52, 0xff, rng.randrange(256)))
        if rng.random() < 0.2:
            del day[rng.randrange(len(day)):]
        options = {"until": rng.choice(times)}
        if rng.random() < 0.3:
            options["after"] = rng.randrange(12)
        yield from differs(f"{day.hex()} {options}", of_package(day, **options), of_program(day, **options))
        yield from differs(f"{day.hex()}: the piece", of_piece(day, options["until"]), of_program(day, until=options["until"]))


def a_message_of_each_type_may_end_a_day():
    """Each block of blocks.ini at, before and after its time, and the other types of TotalView-ITCH 5.0, which do not end a day."""
    others = [bytes((0, size)) + kind + bytes(4) + bytes([255] * (size - 5)) for kind, size in
              ((b"I", 50), (b"J", 35), (b"K", 28), (b"N", 20), (b"O", 48), (b"V", 35), (b"W", 12))]
    day = common.file("AAPL MSFT BUY_1")
    for block in [*common.blocks().values(), *others]:
        for time in (49, 50, 2**40):
            late = day + (stamped(block, time) if len(block) > 13 and block not in others else block) + common.file("START")
            for of_day in of_package(late, until=50), of_piece(late, 50):
                yield from differs(f"{block.hex()} at {time}", of_day, of_program(late, until=50))


def each_byte_of_a_time_decides():
    """A message at, before and after a time that differs in each of the six bytes of a timestamp."""
    entry, order = common.split(DAY)[1:3]
    for place in range(6):
        for time in (1 << 8 * place, (1 << 8 * place) - 1, (0x0a5c5d2e7b5b >> 8 * place) << 8 * place, 0xff << 8 * place):
            for own in (time - 1, time, time + 1, 0, 2**48 - 1):
                own = max(0, min(own, 2**48 - 1))
                day = entry[:7] + bytes(6) + entry[13:] + stamped(order, own)
                count = (0 if time == 0 else 1) if own >= time else 2
                yield from differs(f"{own} until {time}", Day.of(day).snapshot(until=time).next_number - 1, count)
                wanted = b"".join(common.split(day)[:count])
                yield from differs(f"the piece of {own} until {time}", [bytes(it) for _, it in Day.of(day).pieces([time])], [wanted])


def a_day_ends_after_a_number_of_messages():
    for after in range(12):
        yield from differs(f"after {after}", of_package(DAY, after=after), of_program(DAY, after=after))
    yield from differs("more than there are", refusal(Day.of(DAY).snapshot, after=12), ("SHORT", 0, 12))
    yield from differs("more than any file has", refusal(Day.of(DAY).snapshot, after=2**64 - 1), ("SHORT", 0, 12))
    yield from differs("its words", of_package(DAY, after=12), "only 11 messages")
    for after in (-1, 2**64):
        yield from differs(f"after {after}", raised(Day.of(DAY).snapshot, after=after), "ValueError")
    yield from differs("after a truth value", raised(Day.of(DAY).snapshot, after=True), "TypeError")


def times_are_given_in_four_ways():
    wanted = {0: (0, "00:00", datetime.time()), 37_800 * 10**9: ("10:30", "10:30:00", "10:30:00.0", datetime.time(10, 30)),
              86_399_999_999_999: ("23:59:59.999999999",), 2**64 - 1: (2**64 - 1,), 37_800_250_000_000: ("10:30:00.25",), 34_200 * 10**9: ("9:30", "09:30", "9:30:00"),
              37_800_000_007_000: (datetime.time(10, 30, 0, 7),)}
    for number, times in wanted.items():
        for time in times:
            yield from differs(repr(time), nanoseconds(time), number)
    for time in (-1, 2**64, "", "10", "1030", "10:3", "009:30", ":30", "24:00", "10:60", "10:30 ", "10:30:00.1234567891", "1\u0660:30"):
        yield from differs(repr(time), raised(nanoseconds, time), "ValueError")
    for time in (1.5, None, True, b"10:30"):
        yield from differs(repr(time), raised(nanoseconds, time), "TypeError")


def pieces_are_the_days_until_their_times():
    times = [minute * MINUTE for minute in (0, 569, 571, 571, 580, 590, 1439)]
    with Market() as market:
        for time, blocks in Day.of(timed()).pieces(times):
            market.apply_blocks(blocks)
            yield from differs(f"until {time}", market.snapshot(), Day.of(timed()).snapshot(until=time))
        yield from differs("the last", market.snapshot(), Day.of(timed()).snapshot())
    ended = DAY + b"\0\0" + stamped(common.split(DAY)[2], 90 * 10**9)
    day = Day.of(ended)
    yield from differs("after an end block", [bytes(blocks) for _, blocks in day.pieces(["00:01", "00:02"])], [ended, b""])
    yield from differs("no time", list(day.pieces([])), [])
    yield from differs("times that fall", raised(list, day.pieces(["10:30", "10:29"])), "ValueError")


def a_day_is_checked_as_by_the_program():
    for day in (DAY, generated(), timed(), b"", DAY + b"\0\0\xff"):
        words = samples.program("check", day=day)[1].decode()
        yield from differs("a day", f"ok {Day.of(day).check()} messages\n", words)
    rows = [("AAPL MSFT_AT_1", ("STOCK_MISMATCH", 0, 2)), ("AAPL 0024", ("TRUNCATED", 2, 2)), ("000141", ("WRONG_LENGTH", 36, 1))]
    for name, wanted in rows:
        yield from differs(name, refusal(Day.of(common.file(name)).check), wanted)


def days_are_compared():
    day = Day.of(common.file("START AAPL BUY_1"))
    rows = [("START AAPL BUY_1", None), ("AAPL START BUY_1", None), ("AAPL BUY_1", 1), ("START AAPL", 3), ("START AAPL BUY_2", 3)]
    for words, wanted in rows:
        yield from differs(words, day.compare(Day.of(common.file(words))), wanted)
    for first, second, wanted in (("AAPL MSFT_AT_1", "BUY_1", (1, "first: message 2: stock mismatch")),
                                  ("AAPL", "AAPL BUY_1 BUY_1", (2, "second: message 3: duplicate reference"))):
        try:
            yield f"{first} is compared: {Day.of(common.file(first)).compare(Day.of(common.file(second)))}"
        except Refused as refused:
            yield from differs(first, (refused.file, str(refused)), wanted)


def a_day_is_a_file_or_a_pipe():
    with tempfile.TemporaryDirectory() as name:
        path, empty, pipe = (Path(name) / it for it in ("day.itch", "empty.itch", "pipe"))
        path.write_bytes(DAY)
        empty.touch()
        os.mkfifo(pipe)
        for target in path, str(path):
            with Day(target) as day:
                yield from differs("a file", (bytes(day.blocks), day.check()), (DAY, 11))
        yield from differs("an empty file", (Day(empty).check(), Day(empty).snapshot()), (0, Snapshot(common.file("END_1"))))
        writing = threading.Thread(target=pipe.write_bytes, args=(DAY,))
        writing.start()
        yield from differs("a pipe", Day(pipe).check(), 11)
        writing.join()
        yield from differs("what is not there", raised(Day, Path(name) / "none.itch"), "FileNotFoundError")
        yield from differs("a folder", raised(Day, name), "IsADirectoryError")


def a_closed_day_refuses_each_call():
    with tempfile.TemporaryDirectory() as name:
        path = Path(name) / "day.itch"
        path.write_bytes(DAY)
        with Day(path) as day:
            (_, kept), = day.pieces(["10:30"])
        day.close()
        yield from differs("a piece that is kept", bytes(kept), DAY)
        calls = [day.check, day.snapshot, lambda: day.compare(Day.of(DAY)), lambda: Day.of(DAY).compare(day), lambda: list(day.pieces([1])),
                 lambda: day.snapshot(until=1)]
        for at, call in enumerate(calls):
            yield from differs(f"call {at}", raised(call), "ValueError")


def a_large_day_takes_no_memory_but_that_of_its_market():
    """A file of 256 MiB that leaves a small market: messages that are not decoded, and then a small day."""
    block = b"\xff\xffz" + bytes(65534)
    with tempfile.TemporaryDirectory() as name:
        path = Path(name) / "day.itch"
        with open(path, "wb") as file:
            file.writelines([block] * (LARGE // len(block)))
            file.write(DAY)
        for words in ([], ["10:30"]):
            printed = ran_python(MEMORY, path, *words, PYTHONPATH=str(samples.TOP / "python"))
            taken, size = map(int, printed.split()) if re.fullmatch(r"\d+ \d+\n", printed) else (None, printed)
            yield from differs("the snapshot", size, 344)
            if taken is None or taken > LEAST:
                yield f"{taken} KiB of memory for a file of {LARGE >> 10}"


def a_day_may_be_in_a_buffer_of_wider_items():
    whole, times = timed(), [570 * MINUTE, 571 * MINUTE, 590 * MINUTE]
    data = whole + bytes(2 + (-len(whole) - 2) % 8)
    for kind in "HIQ":
        day = Day.of(array.array(kind, data))
        yield from differs(f"items {kind}", (day.check(), bytes(day.blocks), day.snapshot()), (Day.of(whole).check(), data, Day.of(whole).snapshot()))
        pieces = [bytes(blocks) for _, blocks in day.pieces(times)]
        yield from differs(f"pieces of items {kind}", pieces, [bytes(blocks) for _, blocks in Day.of(data).pieces(times)])
        yield from differs("pieces", len(set(pieces)), len(times))


def other_threads_go_on_during_a_call():
    """During a long call, the longest wait of another thread is a small part of it, in one of three attempts."""
    day, shares = Day.of(b"\0\1z" * 4_000_000), []
    for _ in range(3):
        times, ended = [], threading.Event()

        def look():
            while not ended.wait(0.001):
                times.append(time.monotonic())

        looking = threading.Thread(target=look)
        looking.start()
        begun = time.monotonic()
        day.check()
        seconds = time.monotonic() - begun
        ended.set()
        looking.join()
        seen = [begun, *(it for it in times if begun < it < begun + seconds), begun + seconds]
        shares.append(max(after - before for before, after in zip(seen, seen[1:])) / seconds)
        if shares[-1] < 0.5:
            return
    yield f"another thread waits for {shares} of a call"


def days_are_read_side_by_side():
    day = Day.of(generated())
    wanted = day.snapshot()
    with ThreadPoolExecutor(4) as threads:
        for snapshot in threads.map(lambda after: day.snapshot(after=after), [20000] * 8):
            yield from differs("a thread's", (snapshot, list(snapshot.levels)), (wanted, list(wanted.levels)))


RUNS = [a_day_until_a_time_is_that_of_the_program, the_earlier_of_a_time_and_a_number_ends_a_day,
        hostile_days_until_a_time_are_those_of_the_program, a_message_of_each_type_may_end_a_day, each_byte_of_a_time_decides,
        a_day_ends_after_a_number_of_messages, times_are_given_in_four_ways, pieces_are_the_days_until_their_times,
        a_day_is_checked_as_by_the_program, days_are_compared, a_day_is_a_file_or_a_pipe, a_closed_day_refuses_each_call,
        a_large_day_takes_no_memory_but_that_of_its_market, a_day_may_be_in_a_buffer_of_wider_items, other_threads_go_on_during_a_call,
        days_are_read_side_by_side]
