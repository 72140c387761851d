"""`book --changes` on random days, against a reader of its own.

RUNS lists the runs. Each is a function that is given the program and yields the differences.
"""
import csv
import io
import json
import random
import subprocess
import tempfile
from pathlib import Path

import large
from common import differs, ended, ended_in, file, first_unmet
from failing import build_shim
from infos import RandomDay
from messages import clock, price
from orders import Writer
from over_time import Day, Market, days, number
from ranges import blocks_of, time_of

SEEDS = range(40)
WAYS = 4


class Request:
    """One locate or one stock, a depth and a form, and the words for them."""

    def __init__(self, rng, payloads):
        entries = [it for it in payloads if it[:1] == b"R"]
        stocks = sorted({it[11:19].decode().rstrip(" ") for it in entries})
        stocks = [it for it in stocks if it and "," not in it]
        self.locate = self.stock = None
        if stocks and rng.random() < 0.5:
            self.stock = rng.choice(stocks)
            self.words = ["--stock", self.stock]
        else:
            self.locate = rng.choice([number(it, 1, 2) for it in entries] or [1])
            self.words = [str(self.locate)]
        self.depth = rng.choice((None, 1, 2, 3, 1000))
        self.words += [] if self.depth is None else ["--depth", str(self.depth)]
        self.depth = self.depth or 1
        self.form = rng.choice(("", "--csv", "--json"))
        self.words += [self.form] if self.form else []

    def place(self, market):
        """The first locate that has the stock."""
        has = (lambda at: at == self.locate) if self.stock is None else (lambda at: market.stocks[at] == self.stock)
        return next((at for at in sorted(market.stocks) if has(at)), None)

    def best(self, market):
        """The best levels of each side."""
        found = {"B": [], "S": []}
        for side, level, shares, count in market.levels(self.place(market), self.depth):
            found[side].append((level, shares, count))
        return found

    def head(self):
        places = range(1, self.depth + 1)
        columns = [f"{it}_{place}" for place in places for it in ("ask_price", "ask_shares", "bid_price", "bid_shares")]
        return ",".join(["message", "time", *columns]) + "\n" if self.form == "--csv" else ""

    def lines(self, market, at, time):
        """What is printed after a message."""
        locate, best = self.place(market), self.best(market)
        stock = market.stocks[locate]
        if self.form == "--json":
            sides = {name: [dict(zip(("price", "shares", "orders"), it)) for it in best[side]] for name, side in (("bids", "B"), ("asks", "S"))}
            return json.dumps({"message": at, "time": clock(time), "locate": locate, "stock": stock, **sides}, separators=(",", ":")) + "\n"
        if self.form == "--csv":
            cells = [cell for place in range(self.depth) for side in "SB" for cell in (best[side][place][:2] if place < len(best[side]) else ("", ""))]
            made = io.StringIO()
            csv.writer(made, lineterminator="\n").writerow((at, clock(time), *cells))
            return made.getvalue()
        front = f"{at} {clock(time)} "
        rows = [f"{locate} {stock}"] + [" ".join(map(str, (side, *it))) for side in "BS" for it in best[side]]
        return "".join(f"{front}{row}\n" for row in rows)


def printed(day, request, most):
    """What is printed for the first messages of a day, the first line on standard error, and the status."""
    payloads, text = day.payloads[:most], request.head()
    market = Market([])
    best = request.best(market)
    for at, it in enumerate(payloads):
        if at == day.refused:
            return text, f"itchsnap: message {at + 1}: ", 1
        market.apply(chr(it[0]), it)
        now = request.best(market)
        if now != best:
            text += request.lines(market, at + 1, time_of(it))
        best = now
    if request.place(market) is None:
        return text, f"itchsnap: unknown {'stock' if request.stock else 'locate'}\n", 1
    return text, "", 0


def agreement(label, program, day, request, more, most):
    """The program ends as another reader says."""
    status, output, error = ended(program, "book", *request.words, "day.itch", "--changes", *more, day=blocks_of(day.payloads))
    text, line, number_of = printed(day, request, most)
    yield from differs(f"{label}: {request.words} {more}", (status, output), (number_of, text.encode()))
    if not error.startswith(line.encode()) or bool(error) != bool(line):
        yield f"{label}: {request.words} {more}: {error!r}, not {line!r}"


def doubled(seed):
    """A day in which another locate gets a stock that one already has."""
    payloads = Writer(seed, 200).payloads
    rng = random.Random(seed)
    entry = rng.choice([it for it in payloads if it[:1] == b"R"])
    again = entry[:1] + rng.choice((0, 60)).to_bytes(2, "big") + entry[3:]
    place = rng.randrange(payloads.index(entry) + 1, len(payloads) + 1)
    return Day([*payloads[:place], again, *payloads[place:]])


def changes_are_those_of_another_reader(program):
    for seed in SEEDS:
        rng = random.Random(seed)
        for at, day in enumerate([*days(seed), doubled(seed)]):
            for _ in range(WAYS):
                yield from agreement(f"seed {seed}, day {at}", program, day, Request(rng, day.payloads), [], len(day.payloads))


def a_part_of_a_day_has_its_changes(program):
    """`--after` and `--until` end the day there."""
    for seed in SEEDS:
        rng = random.Random(seed)
        for at, day in enumerate(days(seed)):
            request = Request(rng, day.payloads)
            last = len(day.payloads) if day.refused is None else day.refused
            count = rng.randint(0, last)
            yield from agreement(f"seed {seed}, day {at}", program, day, request, ["--after", str(count)], count)
            around = [it for it in day.times if it is not None] or [0]
            time = rng.choice(around) + rng.choice((-1, 0, 1))
            if time >= 0:
                yield from agreement(f"seed {seed}, day {at}", program, day, request, ["--until", str(time)], day.before(time))


def each_change_is_the_book_after_its_message(program):
    """The lines of a message are those of `book --after`, and the books between two changes are the same."""
    for seed in range(6):
        rng = random.Random(seed)
        day = Day(Writer(seed, 60).payloads)
        data, request = blocks_of(day.payloads), Request(rng, day.payloads)
        request.words = [it for it in request.words if it not in ("--csv", "--json")]
        shown = {}
        for line in ended(program, "book", *request.words, "day.itch", "--changes", day=data)[1].decode().splitlines():
            at, _, row = line.split(" ", 2)
            shown.setdefault(int(at), []).append(row)
        words = request.words if "--depth" in request.words else [*request.words, "--depth", "1"]
        before = []
        for at in range(1, len(day.payloads) + 1):
            rows = ended(program, "book", *words, "day.itch", "--after", str(at), day=data)[1].decode().splitlines()
            if at in shown:
                yield from differs(f"seed {seed}, message {at}", shown[at], rows)
            elif rows[1:] != before[1:]:
                yield f"seed {seed}, message {at}: a change is not printed"
            before = rows


def examples_are_printed_as_by_hand(program):
    """The times are those of the messages: 1 ns, 2 ns and so on."""
    day = file("START_STAMPED AAPL_STAMPED BUY_1_STAMPED")
    rows = [
        ("1 DAY", 0, "3 00:00:00.000000003 1 AAPL\n3 00:00:00.000000003 B 150.0000 100 1\n", ""),
        ("1 DAY --csv", 0, "message,time,ask_price_1,ask_shares_1,bid_price_1,bid_shares_1\n3,00:00:00.000000003,,,150.0000,100\n", ""),
        ("--stock AAPL DAY --json", 0,
         '{"message":3,"time":"00:00:00.000000003","locate":1,"stock":"AAPL","bids":[{"price":"150.0000","shares":100,"orders":1}],"asks":[]}\n', ""),
        ("1 DAY --after 2", 0, "", ""),
        ("1 DAY --after 4", 1, "3 00:00:00.000000003 1 AAPL\n3 00:00:00.000000003 B 150.0000 100 1\n", "itchsnap: only 3 messages\n"),
        ("2 DAY", 1, "", "itchsnap: unknown locate\n"),
        ("--stock MSFT DAY", 1, "", "itchsnap: unknown stock\n  day.itch: no stock MSFT\n"),
    ]
    for words, status, output, error in rows:
        found = ended(program, "book", *words.replace("DAY", "day.itch").split(), "--changes", day=day)
        yield from differs(words, found[:2], (status, output.encode()))
        if not found[2].startswith(error.encode()) or bool(found[2]) != bool(error):
            yield f"{words}: {found[2]!r}, not {error!r}"


def each_allocation_read_and_write_fails_in_turn(program):
    day = Day(Writer(3, 200).payloads)
    request = Request(random.Random(3), day.payloads)
    statuses = {"memory": 4, "read": 3, "write": 3}
    with tempfile.TemporaryDirectory() as name, tempfile.TemporaryDirectory() as apart:
        folder, shim, failed = Path(name), build_shim(apart), Path(apart) / "a call failed"
        (folder / "day.itch").write_bytes(blocks_of(day.payloads))
        wanted = printed(day, request, len(day.payloads))[0].encode()
        for kind, status in statuses.items():
            def fails(nth):
                failed.unlink(missing_ok=True)
                got = ended_in(folder, program, "book", *request.words, "day.itch", "--changes", LD_PRELOAD=str(shim), FAIL=f"{kind}:{nth}", FAILED=str(failed))
                return got, failed.exists()

            for nth in range(1, first_unmet(lambda nth: fails(nth)[1])):
                (ends, output, error), _ = fails(nth)
                if (ends, output) != (0, wanted) and (ends != status or not wanted.startswith(output) or not error.startswith(b"itchsnap: ")):
                    yield f"{kind} {nth}: {ends}, {output}, {error}"


def the_changes_of_a_large_day_are_those_of_its_books(program):
    """From standard input. The last line of each message with a change is compared with the book after it."""
    data, _ = large.orders(20_000, symbols=50)
    with tempfile.TemporaryDirectory() as folder:
        (Path(folder) / "day.itch").write_bytes(data)
        with open(Path(folder) / "day.itch", "rb") as source:
            found = subprocess.run([program, "book", "7", "-", "--changes", "--depth", "5"], stdin=source, capture_output=True, timeout=60)
        shown = {}
        for line in found.stdout.decode().splitlines():
            at, _, row = line.split(" ", 2)
            shown.setdefault(int(at), []).append(row)
        yield from differs("status", (found.returncode, found.stderr, len(shown) > 20), (0, b"", True))
        for at in random.Random(1).sample(sorted(shown), 40):
            rows = ended_in(folder, program, "book", "7", "day.itch", "--depth", "5", "--after", str(at))[1].decode().splitlines()
            yield from differs(f"message {at}", shown[at], rows)


RUNS = [
    changes_are_those_of_another_reader,
    a_part_of_a_day_has_its_changes,
    each_change_is_the_book_after_its_message,
    examples_are_printed_as_by_hand,
    each_allocation_read_and_write_fails_in_turn,
    the_changes_of_a_large_day_are_those_of_its_books,
]
