"""`book --at` and `book --every` on random days, against an independent reader.

RUNS lists the runs: functions that take the program and yield the differences found.
"""
import csv
import io
import json
import random
import subprocess
import tempfile
from pathlib import Path

import large
from common import differs, ended, ended_in, file, first_unmet
from failing import build_shim
from infos import RandomDay
from messages import clock, price
from orders import Writer, payload
from ranges import blocks_of, first_from, time_of

SEEDS = range(30)
WAYS = 4
HOUR = 3600 * 10 ** 9
DURATIONS = {"1h": HOUR, "7h": 7 * HOUR, "24h": 24 * HOUR, "90m": 90 * HOUR // 60, "100m": 100 * HOUR // 60, "5000s": 5000 * 10 ** 9, "3600000ms": HOUR}
COLUMNS = ["time", "locate", "stock", "side", "price", "shares", "orders"]


def number(data, at, width):
    return int.from_bytes(data[at:at + width], "big")


class Market:
    """The directory and the live orders after some messages, read by the offsets of the standard."""

    def __init__(self, payloads):
        self.stocks, self.live = {}, {}
        for it in payloads:
            self.apply(chr(it[0]), it)

    def apply(self, kind, it):
        locate, reference = number(it, 1, 2), number(it, 11, 8)
        if kind == "R":
            self.stocks[locate] = it[11:19].decode().rstrip(" ")
        elif kind in "AF":
            self.live[reference] = [locate, chr(it[19]), number(it, 20, 4), number(it, 32, 4)]
        elif kind in "ECX":
            self.live[reference][2] -= number(it, 19, 4)
            if not self.live[reference][2]:
                del self.live[reference]
        elif kind == "D":
            del self.live[reference]
        elif kind == "U":
            locate, side, _, _ = self.live.pop(reference)
            self.live[number(it, 19, 8)] = [locate, side, number(it, 27, 4), number(it, 31, 4)]

    def levels(self, locate, depth):
        """Returns a row for each price of a locate: bids before asks, the best first."""
        for side, descends in (("B", True), ("S", False)):
            shares, counts = {}, {}
            for at, of, left, level in self.live.values():
                if (at, of) == (locate, side):
                    shares[level] = shares.get(level, 0) + left
                    counts[level] = counts.get(level, 0) + 1
            for level in sorted(shares, reverse=descends)[:depth]:
                yield side, price(level), shares[level], counts[level]


class Words:
    """Some locates or stocks, a depth and a format, and the arguments for them."""

    def __init__(self, rng, payloads):
        stocks = sorted({it[11:19].decode().rstrip(" ") for it in payloads if it[:1] == b"R"})
        stocks = [it for it in stocks if it and "," not in it]
        locates = sorted({number(it, 1, 2) for it in payloads if it[:1] == b"R"})
        self.locates = self.stocks = None
        if stocks and rng.random() < 0.5:
            self.stocks = rng.sample(stocks, rng.randint(1, len(stocks)))
            self.words = ["--stock", ",".join(self.stocks)]
        else:
            self.locates = rng.sample(locates, rng.randint(1, len(locates))) if locates else [1]
            self.words = [",".join(map(str, self.locates))]
        self.depth = rng.choice((None, None, 0, 1, 2))
        self.words += [] if self.depth is None else ["--depth", str(self.depth)]
        self.form = rng.choice(("", "--csv", "--json"))
        self.words += [self.form] if self.form else []

    def lack(self, market):
        """Returns the stocks or locates that the directory lacks."""
        if self.stocks:
            return set(self.stocks) - set(market.stocks.values())
        return set(self.locates) - set(market.stocks)

    def chosen(self, market):
        return sorted(at for at, stock in market.stocks.items() if (stock in self.stocks if self.stocks else at in self.locates))

    def lines(self, market, time):
        """Returns the lines for a market at a time."""
        for locate in self.chosen(market):
            stock = market.stocks[locate]
            if not self.form:
                yield f"{clock(time)} {locate} {stock}\n"
            for row in market.levels(locate, self.depth):
                if not self.form:
                    yield " ".join(map(str, (clock(time), *row))) + "\n"
                elif self.form == "--json":
                    yield json.dumps(dict(zip(COLUMNS, (clock(time), locate, stock, *row))), separators=(",", ":")) + "\n"
                else:
                    made = io.StringIO()
                    csv.writer(made, lineterminator="\n").writerow((clock(time), locate, stock, *row))
                    yield made.getvalue()

    def head(self):
        return ",".join(COLUMNS) + "\n" if self.form == "--csv" else ""

    def fault(self, market):
        """Returns the first line on standard error for a directory that lacks something."""
        return f"itchsnap: unknown {'stock' if self.stocks else 'locate'}\n" if self.lack(market) else ""


class Day:
    """The payloads of a day, and the index of the first refused one, if any."""

    def __init__(self, payloads, refused=None):
        self.payloads, self.refused = payloads, refused
        self.times = [time_of(it) if at != refused or len(it) > 11 else None for at, it in enumerate(payloads)]

    def before(self, time):
        """Returns how many messages precede the first one at this time or later."""
        return first_from(self.times, time)

    def reaches_refused(self, time):
        return self.refused is not None and self.before(time) > self.refused

    def market(self, time):
        return Market(self.payloads[:self.before(time)])


def printed_at(day, words, times):
    """Returns the output for these times, the first line on standard error, and the status."""
    text, error = words.head(), ""
    for time in times:
        if day.reaches_refused(time):
            return text, f"itchsnap: message {day.refused + 1}: ", 1
        market = day.market(time)
        error = words.fault(market)
        text += "" if error else "".join(words.lines(market, time))
    return text, error, int(bool(error))


def printed_every(day, words, step):
    """Returns the same for the multiples of an interval."""
    text, time = words.head(), step
    while day.before(time) < len(day.payloads) and not day.reaches_refused(time):
        market = day.market(time)
        if day.before(time) and not words.lack(market):
            text += "".join(words.lines(market, time))
        time += step
    if day.refused is not None:
        return text, f"itchsnap: message {day.refused + 1}: ", 1
    error = words.fault(Market(day.payloads))
    return text, error, int(bool(error))


def agreement(label, program, day, words, more, wanted):
    """Yields what is wrong unless the program ends as the independent reader predicts."""
    status, output, error = ended(program, "book", *words.words, "day.itch", *more, day=blocks_of(day.payloads))
    text, line, number = wanted
    yield from differs(f"{label}: {words.words} {more}", (status, output), (number, text.encode()))
    if not error.startswith(line.encode()) or bool(error) != bool(line):
        yield f"{label}: {words.words} {more}: {error!r}, not {line!r}"


def some_times(rng, day):
    """Returns times of messages, and between, before and after them, in order."""
    around = [it for it in day.times if it is not None] or [0]
    near = [rng.choice(around) + rng.choice((-1, 0, 0, 1)) for _ in range(rng.randint(1, 6))]
    return sorted({min(max(it, 0), 2 ** 48 - 1) for it in (*near, *rng.sample((0, 9 * HOUR, 2 ** 48 - 1), rng.randint(0, 2)))})


def list_of(rng, times):
    """Returns the times as an argument, some in nanoseconds."""
    return ",".join(clock(it) if it < 24 * HOUR and rng.random() < 0.5 else str(it) for it in times)


def days(seed):
    """Yields random days: one whose timestamps ascend, one whose timestamps go back and forth, and both with a message that is refused."""
    made = [Writer(seed, 120).payloads, RandomDay(seed).payloads]
    yield from (Day(it) for it in made)
    rng = random.Random(seed)
    for it in made:
        place = rng.randrange(len(it) + 1)
        bad = rng.choice((payload("D", stock_locate=1, time=rng.choice((0, 10 * HOUR)), order_reference_number=2 ** 60), b"E123", payload("G", sequence_number=b"%20d" % 7)))
        yield Day([*it[:place], bad, *it[place:]], place)


def books_at_times_are_those_of_another_reader(program):
    for seed in SEEDS:
        rng = random.Random(seed)
        for at, day in enumerate(days(seed)):
            for _ in range(WAYS):
                words, times = Words(rng, day.payloads), some_times(rng, day)
                yield from agreement(f"seed {seed}, day {at}", program, day, words, ["--at", list_of(rng, times)], printed_at(day, words, times))


def books_at_every_multiple_are_those_of_another_reader(program):
    for seed in SEEDS:
        rng = random.Random(seed)
        for at, day in enumerate(days(seed)):
            words, (text, step) = Words(rng, day.payloads), rng.choice(list(DURATIONS.items()))
            yield from agreement(f"seed {seed}, day {at}", program, day, words, ["--every", text], printed_every(day, words, step))


def untimed(form, output, time):
    """Removes this time from the beginning of each line."""
    begins = {"": f"{clock(time)} ", "--csv": f"{clock(time)},", "--json": f'{{"time":"{clock(time)}",'}[form]
    for line in output.decode().splitlines(keepends=True):
        if line == ",".join(COLUMNS) + "\n":
            yield line.removeprefix("time,")
        else:
            yield ("{" if form == "--json" else "") + line.removeprefix(begins) if line.startswith(begins) else f"no time: {line}"


def a_time_prints_what_book_prints_until_then(program):
    for seed in SEEDS:
        rng = random.Random(seed)
        for at, day in enumerate(days(seed)):
            data, words = blocks_of(day.payloads), Words(rng, day.payloads)
            for time in some_times(rng, day):
                one = ended(program, "book", *words.words, "day.itch", "--until", str(time), day=data)
                status, output, error = ended(program, "book", *words.words, "day.itch", "--at", str(time), day=data)
                # If a file is refused, there are no lines with `--until`, and only the heading with `--at`.
                head = words.head().removeprefix("time,").encode() if one[0] else b""
                # (the hint on the second line depends on the options)
                found = status, "".join(untimed(words.form, output, time)).encode(), error.partition(b"\n")[0]
                yield from differs(f"seed {seed}, day {at}: {words.words} {time}", found, (one[0], head + one[1], one[2].partition(b"\n")[0]))


def examples_are_printed_as_by_hand(program):
    """The times are those of the messages: 1 ns, 2 ns and so on."""
    day = file("START_STAMPED AAPL_STAMPED BUY_1_STAMPED")
    times = [f"00:00:00.{it:09}" for it in range(10)]
    level = "B 150.0000 100 1"
    rows = [
        ("1 DAY --at 4", 0, f"{times[4]} 1 AAPL\n{times[4]} {level}\n", ""),
        ("1 DAY --at 3,4", 0, f"{times[3]} 1 AAPL\n{times[4]} 1 AAPL\n{times[4]} {level}\n", ""),
        # Before the directory entry there are no lines.
        ("1 DAY --at 1,2,4", 0, f"{times[4]} 1 AAPL\n{times[4]} {level}\n", ""),
        ("1 DAY --at 1,2", 1, "", "itchsnap: unknown locate\n  day.itch: no locate 1\n"),
        ("--stock AAPL,MSFT DAY --at 4,5", 1, "", "itchsnap: unknown stock\n  day.itch: no stock MSFT\n"),
        # No multiple lies between the first message and the last.
        ("1 DAY --every 1ms", 0, "", ""),
        ("2 DAY --every 1ms", 1, "", "itchsnap: unknown locate\n  day.itch: no locate 2\n"),
    ]
    for words, status, output, error in rows:
        yield from differs(words, ended(program, "book", *words.replace("DAY", "day.itch").split(), day=day), (status, output.encode(), error.encode()))


def what_comes_after_the_last_time_is_not_read(program):
    day = file("START_STAMPED AAPL_STAMPED BUY_1_STAMPED")
    late = payload("S", time=9, event_code=b"Q")
    data = day + len(late).to_bytes(2, "big") + late + b"\0\5E1234"
    status, output, error = ended(program, "book", "1", "day.itch", "--at", "4,9", "--csv", day=data)
    yield from differs("status", (status, error), (0, b""))
    yield from differs("lines", len(output.splitlines()), 3)
    yield from differs("one later", ended(program, "book", "1", "day.itch", "--at", "4,10", "--csv", day=data),
                       (1, output[:output.rindex(b"\n", 0, -1) + 1], b"itchsnap: message 5: wrong length for E: want 31, got 5\n"))


def an_empty_day_has_no_multiples(program):
    yield from differs("every", ended(program, "book", "1", "day.itch", "--every", "1m", day=b""), (1, b"", b"itchsnap: unknown locate\n  day.itch: no locate 1\n"))
    yield from differs("at", ended(program, "book", "1", "day.itch", "--at", "9:30", "--csv", day=b""),
                       (1, (",".join(COLUMNS) + "\n").encode(), b"itchsnap: unknown locate\n  day.itch: no locate 1\n"))


def each_allocation_read_and_write_fails_in_turn(program):
    made = Writer(3, 200)
    day = Day(made.payloads)
    rng = random.Random(3)
    words = Words(rng, day.payloads)
    statuses = {"memory": 4, "read": 3, "write": 3}
    with tempfile.TemporaryDirectory() as name, tempfile.TemporaryDirectory() as apart:
        folder, shim, failed = Path(name), build_shim(apart), Path(apart) / "a call failed"
        (folder / "day.itch").write_bytes(blocks_of(day.payloads))
        wanted = printed_every(day, words, HOUR)[0].encode()
        for kind, status in statuses.items():
            def fails(nth):
                failed.unlink(missing_ok=True)
                got = ended_in(folder, program, "book", *words.words, "day.itch", "--every", "1h", LD_PRELOAD=str(shim), FAIL=f"{kind}:{nth}", FAILED=str(failed))
                return got, failed.exists()

            for nth in range(1, first_unmet(lambda nth: fails(nth)[1])):
                (ends, output, error), _ = fails(nth)
                if (ends, output) != (0, wanted) and (ends != status or not wanted.startswith(output) or not error.startswith(b"itchsnap: ")):
                    yield f"{kind} {nth}: {ends}, {output}, {error}"


def many_times_of_a_large_day_are_one_pass(program):
    """The day comes from standard input, which cannot be read twice."""
    data, _ = large.orders(20_000, symbols=50)
    with tempfile.TemporaryDirectory() as folder:
        (Path(folder) / "day.itch").write_bytes(data)
        wanted = ended_in(folder, program, "book", "7", "day.itch", "--csv")[1].splitlines()
        with open(Path(folder) / "day.itch", "rb") as source:
            found = subprocess.run([program, "book", "7", "-", "--csv", "--at", "1,2,3"], stdin=source, capture_output=True, timeout=60)
        lines = found.stdout.splitlines()
        yield from differs("lines", (found.returncode, len(lines)), (0, 1 + 3 * (len(wanted) - 1)))
        yield from differs("last", [it.partition(b",")[2] for it in lines[-len(wanted) + 1:]], wanted[1:])


RUNS = [
    books_at_times_are_those_of_another_reader,
    books_at_every_multiple_are_those_of_another_reader,
    a_time_prints_what_book_prints_until_then,
    examples_are_printed_as_by_hand,
    what_comes_after_the_last_time_is_not_read,
    an_empty_day_has_no_multiples,
    each_allocation_read_and_write_fails_in_turn,
    many_times_of_a_large_day_are_one_pass,
]
