"""Ranges of `show` and `cut`, over random days whose timestamps go back and forth, against an independent reader.

RUNS lists the runs: functions that take the program and yield the differences found.
"""
import random
import re

from common import differs, ended
from infos import RandomDay
from messages import FIELDS, clock

DAYS = 40
WAYS = 6


def blocks_of(payloads):
    """Returns the day file of these payloads."""
    return b"".join(len(it).to_bytes(2, "big") + it for it in payloads)


def time_of(payload):
    """Returns the timestamp of a payload, or None for End of Snapshot and messages that are not decoded."""
    kind = chr(payload[0])
    return int.from_bytes(payload[5:11], "big") if kind in FIELDS and kind != "G" else None


def first_from(times, time):
    """Returns how many messages precede the first one at this time or later."""
    return next((at for at, it in enumerate(times) if it is not None and it >= time), len(times))


class Range:
    """A range of a day, and the arguments for it."""

    def __init__(self, rng, payloads):
        times = [time_of(it) for it in payloads]
        some = [it for it in times if it is not None] or [0]
        self.words, begins, ends = [], [0], [len(payloads)]
        if rng.random() < 0.5:
            number = rng.randrange(1, len(payloads) + 3)
            self.words += ["--from", str(number)]
            begins.append(number - 1)
        if rng.random() < 0.5:
            time = max(0, rng.choice(some) + rng.choice((-1, 0, 0, 1)))
            self.words += ["--since", clock(time) if time < 86_400 * 10 ** 9 and rng.random() < 0.5 else str(time)]
            begins.append(first_from(times, time))
        if rng.random() < 0.4:
            number = rng.randrange(len(payloads) + 1)
            self.words += ["--after", str(number)]
            ends.append(number)
        if rng.random() < 0.4:
            time = rng.choice(some)
            self.words += ["--until", str(time)]
            ends.append(first_from(times, time))
        self.numbers = range(max(begins) + 1, min(ends) + 1)


def ranges(seed):
    """Yields a random day, and some ranges of it."""
    payloads, rng = RandomDay(seed).payloads, random.Random(seed)
    return payloads, [Range(rng, payloads) for _ in range(WAYS)]


def numbered(output):
    """Returns the lines with these numbers, whether text, JSON or comma-separated values."""
    lines = output.decode("latin-1").splitlines(keepends=True)
    return [(int(re.match(r'\{"number":(\d+)|(\d+)', line)[0].rpartition(":")[2]), line) for line in lines]


def are_of_the_range(program, forms, others):
    """Of the lines without a range, `show` prints exactly those whose numbers are in the range."""
    for seed in range(DAYS):
        payloads, some = ranges(seed)
        day = blocks_of(payloads)
        for at, it in enumerate(some):
            words = [*forms[(seed + at) % len(forms)], *others[(seed * 7 + at) % len(others)]]
            status, output, error = ended(program, "show", "day.itch", *words, day=day)
            head = b"number,type,"
            first, lines = (output[:output.index(b"\n") + 1], output[output.index(b"\n") + 1:]) if output.startswith(head) else (b"", output)
            wanted = first + "".join(line for number, line in numbered(lines) if number in it.numbers).encode("latin-1")
            found = ended(program, "show", "day.itch", *words, *it.words, day=day)
            yield from differs(f"seed {seed}: show {words} {it.words}", found, (0, wanted, b""))
            yield from differs(f"seed {seed}: without a range", (status, error), (0, b""))


def show_of_a_range_has_the_lines_of_its_messages(program):
    yield from are_of_the_range(program, ([], ["--names"], ["--json"]), ([], ["--only", "0-7"], ["--types", "AEDU"], ["--reference", "5"]))


def orders_of_a_range_are_those_of_the_complete_day(program):
    yield from are_of_the_range(program, (["--orders"], ["--orders", "--names"], ["--orders", "--json"], ["--orders", "--csv"]),
                                ([], ["--only", "1-9"], ["--types", "EX"]))


def what_comes_until_a_time_and_what_comes_since_then_are_all(program):
    for seed in range(DAYS):
        payloads, rng = RandomDay(seed).payloads, random.Random(seed)
        day, time = blocks_of(payloads), str(rng.choice([time_of(it) or 0 for it in payloads] or [0]))
        before, since, all_of_it = (ended(program, "show", "day.itch", *words, day=day) for words in (("--until", time), ("--since", time), ()))
        yield from differs(f"seed {seed}: {time}", (0, before[1] + since[1], b""), all_of_it)


def messages_before_a_range_are_passed(program):
    """A stock may come from a directory entry before the range, and an order may have a number that it received in a replace before the range."""
    entry = bytes.fromhex("514e000000644e435a20504e4e314e000000004e")
    names = [b"AAPL    ", b"MSFT    "]
    listed = [b"R" + bytes([0, at]) + bytes(8) + name + entry for at, name in enumerate(names, 1)]
    added = [b"A" + bytes([0, at]) + bytes(8) + at.to_bytes(8, "big") + b"B\0\0\0d" + name + bytes(4) for at, name in enumerate(names, 1)]
    replaced = b"U" + bytes([0, 1]) + bytes(8) + (1).to_bytes(8, "big") + (9).to_bytes(8, "big") + bytes([0, 0, 0, 9, 0, 0, 0, 7])
    deleted = [b"D" + bytes([0, at]) + bytes(8) + reference.to_bytes(8, "big") for at, reference in ((2, 2), (1, 9))]
    day = blocks_of([*listed, *added, replaced, *deleted])
    for words, wanted in (
        (("--from", "5", "--stock", "AAPL"), b"5 U 1 0 0 1 9 9 0.0007\n7 D 1 0 0 9\n"),
        (("--from", "6", "--reference", "1"), b"7 D 1 0 0 9\n"),
        (("--from", "7", "--orders"), b"7 D 1 0 0 9 | B [AAPL] 0.0007 9 0\n"),
        (("--from", "8"), b""),
        (("--from", "8", "--stock", "AAPL"), b""),
    ):
        yield from differs(str(words), ended(program, "show", "day.itch", *words, day=day), (0, wanted, b""))


class Selection:
    """Some locates, stocks and types, and the arguments for them."""

    def __init__(self, rng, payloads):
        self.words, self.locates, self.stocks, self.types = [], None, None, None
        stocks = sorted({it[11:19].decode().rstrip() for it in payloads if it[:1] == b"R"})
        if rng.random() < 0.4:
            self.locates = rng.sample((0, 1, 2, 7, 9, 65535), rng.randint(1, 4))
            self.words += ["--only", ",".join(map(str, self.locates))]
        if stocks and rng.random() < 0.5:
            self.stocks = rng.sample(stocks, rng.randint(1, len(stocks)))
            self.words += ["--stock", ",".join(self.stocks)]
        if rng.random() < 0.3:
            self.types = "".join(rng.sample("SRHYhLAFECXDUPQBINGVW", rng.randint(4, 16)))
            self.words += ["--types", self.types]

    def kept(self, payloads):
        """Returns the numbers of the messages that are kept. These include messages about no stock, and messages that are not decoded."""
        named = {}
        for number, it in enumerate(payloads, 1):
            kind, locate = chr(it[0]), int.from_bytes(it[1:3], "big")
            if kind == "R":
                named[locate] = it[11:19].decode().rstrip()
            about = kind in FIELDS and kind not in "SG"
            if (not about or (self.locates is None or locate in self.locates) and (self.stocks is None or named.get(locate) in self.stocks)) \
                    and (self.types is None or kind in self.types):
                yield number


def cut_writes_the_blocks_of_the_messages_that_it_keeps(program):
    for seed in range(DAYS):
        payloads, some = ranges(seed)
        rng = random.Random(-seed)
        for it in some:
            selection = Selection(rng, payloads)
            wanted = blocks_of(payloads[number - 1] for number in selection.kept(payloads) if number in it.numbers)
            # (a stock that first appears after the part is not known in it)
            listed = {it[11:19].decode().rstrip() for it in payloads[:it.numbers.stop - 1] if it[:1] == b"R"}
            status = int(not set(selection.stocks or ()) <= listed)
            found = ended(program, "cut", "day.itch", *it.words, *selection.words, day=blocks_of(payloads))
            yield from differs(f"seed {seed}: cut {it.words} {selection.words}", found[:2], (status, wanted))
            yield from differs(f"seed {seed}: error", b"unknown stock" in found[2], bool(status))


def what_is_cut_until_a_time_and_since_then_is_the_day(program):
    for seed in range(DAYS):
        payloads, rng = RandomDay(seed).payloads, random.Random(seed)
        day, time = blocks_of(payloads), str(rng.choice([time_of(it) or 0 for it in payloads] or [0]))
        parts = [ended(program, "cut", "day.itch", *words, day=day) for words in (("--until", time), ("--since", time))]
        yield from differs(f"seed {seed}: {time}", (parts[0][1] + parts[1][1], *(it[0] for it in parts)), (day, 0, 0))


def a_day_that_is_cut_to_locates_leaves_their_market(program):
    """The output follows the order rules, and its snapshot is that of the day, reduced to the locates, except for the number in End of Snapshot."""
    for seed in range(DAYS):
        payloads, rng = RandomDay(seed).payloads, random.Random(seed)
        day = blocks_of(payloads)
        stocks = sorted({it[11:19].decode().rstrip() for it in payloads if it[:1] == b"R"})
        options = [("--only", "0"), ("--only", "1,2"), ("--only", "7-65535"), *(("--stock", it) for it in stocks)]
        for words in options:
            _, part, _ = ended(program, "cut", "day.itch", *words, day=day)
            yield from differs(f"seed {seed}: check of {words}", ended(program, "check", "day.itch", day=part)[0], 0)
            whole, found = (ended(program, "snap", "day.itch", *more, day=data) for more, data in ((words, day), ((), part)))
            yield from differs(f"seed {seed}: snap of {words}", (found[0], found[1][:-23]), (0, whole[1][:-23]))


RUNS = [
    show_of_a_range_has_the_lines_of_its_messages,
    orders_of_a_range_are_those_of_the_complete_day,
    what_comes_until_a_time_and_what_comes_since_then_are_all,
    messages_before_a_range_are_passed,
    cut_writes_the_blocks_of_the_messages_that_it_keeps,
    what_is_cut_until_a_time_and_since_then_is_the_day,
    a_day_that_is_cut_to_locates_leaves_their_market,
]
