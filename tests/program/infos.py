"""`info` of random and of refused days, against an independent reader.

RUNS lists the runs: functions that take the program and yield the differences found.
"""
import json
import random
import re
import tempfile
from collections import Counter
from pathlib import Path

from common import blocks, differs, ended, ended_in, first_unmet, split
from failing import build_shim
from messages import characters, clock

DAYS = 60
STOCKS = [b"AAPL    ", b"MSFT    ", b"BRK.A   ", b"ZVZZT   "]
# Types that are not decoded, one of which is not a printable character.
OTHERS = [b"I", b"N", b"'", b'"', b"\\", b"\x00", b"\xff"]


def header(kind, locate, time):
    return kind + locate.to_bytes(2, "big") + bytes(2) + time.to_bytes(6, "big")


def order_of(payload):
    return int.from_bytes(payload[11:19], "big")


class RandomDay:
    """Generates the payloads of a day that follows the order rules."""

    def __init__(self, seed):
        self.random = random.Random(seed)
        self.listed, self.live, self.reference = {}, {}, 0
        self.payloads = [self.payload() for _ in range(self.random.randrange(120))]

    def time(self):
        return self.random.choice((0, 1, 2**48 - 1, self.random.randrange(2**48), 34_200_000_000_000 + self.random.randrange(10**9)))

    def payload(self):
        kinds = "SROO" if not self.listed else "SRHYPBOAAAAFF" if not self.live else "SRHYPBOAAFEECXXDDUU"
        return getattr(self, self.random.choice(kinds))()

    def S(self):
        return header(b"S", 0, self.time()) + self.random.choice((b"O", b"S", b"Q", b"M", b"E", b"C", b"'", b"\x80"))

    def R(self):
        locate = self.random.choice((0, 1, 2, 7, 65535))
        stock = self.listed.setdefault(locate, self.random.choice(STOCKS))
        return header(b"R", locate, self.time()) + stock + b"QN\0\0\0dNCZ PNN1N\0\0\0\0N"

    def about(self, kind, rest):
        locate = self.random.choice(list(self.listed))
        return header(kind, locate, self.time()) + self.listed[locate] + rest

    def H(self):
        return self.about(b"H", b"T     ")

    def Y(self):
        return self.about(b"Y", b"0")

    def P(self):
        return header(b"P", 9, self.time()) + bytes(8) + b"B\0\0\0d" + STOCKS[0] + bytes(12)

    def B(self):
        return header(b"B", 9, self.time()) + bytes(8)

    def O(self):
        return self.random.choice(OTHERS) * self.random.randrange(1, 20)

    def added(self, kind, rest):
        locate = self.random.choice(list(self.listed))
        self.reference += self.random.randrange(1, 9)
        self.live[self.reference] = locate, self.random.randrange(1, 200)
        shares = self.live[self.reference][1].to_bytes(4, "big")
        return header(kind, locate, self.time()) + self.reference.to_bytes(8, "big") + self.random.choice((b"B", b"S")) + shares + self.listed[locate] + bytes(4) + rest

    def A(self):
        return self.added(b"A", b"")

    def F(self):
        return self.added(b"F", b"ABCD")

    def chosen(self, kind):
        reference = self.random.choice(list(self.live))
        locate, shares = self.live[reference]
        return reference, locate, shares, header(kind, locate, self.time()) + reference.to_bytes(8, "big")

    def taken(self, kind, rest):
        reference, locate, shares, beginning = self.chosen(kind)
        fewer = self.random.choice((shares, self.random.randrange(1, shares + 1)))
        self.live[reference] = locate, shares - fewer
        if fewer == shares:
            del self.live[reference]
        return beginning + fewer.to_bytes(4, "big") + rest

    def E(self):
        return self.taken(b"E", bytes(8))

    def C(self):
        return self.taken(b"C", bytes(8) + b"Y" + bytes(4))

    def X(self):
        return self.taken(b"X", b"")

    def D(self):
        reference, _, _, payload = self.chosen(b"D")
        del self.live[reference]
        return payload

    def U(self):
        original, locate, _, beginning = self.chosen(b"U")
        del self.live[original]
        self.reference += 1
        self.live[self.reference] = locate, 100
        return beginning + self.reference.to_bytes(8, "big") + b"\0\0\0d" + bytes(4)


def summary(payloads):
    """Returns the summary of these messages, all of which follow the order rules. They are read independently, by the offsets of the standard."""
    times, events, stocks, shares, peak = [], [], set(), {}, 0
    for number, payload in enumerate(payloads, 1):
        kind, time = chr(payload[0]), int.from_bytes(payload[5:11], "big")
        if kind in "SRHYhLAFECXDUPQB":
            times.append(time)
        if kind == "S":
            events.append({"number": number, "time": clock(time), "ns": time, "event_code": chr(payload[11])})
        elif kind == "R":
            stocks.add(payload[1:3])
        elif kind in "AF":
            shares[order_of(payload)] = int.from_bytes(payload[20:24], "big")
        elif kind in "ECX":
            shares[order_of(payload)] -= int.from_bytes(payload[19:23], "big")
        elif kind == "D":
            shares[order_of(payload)] = 0
        elif kind == "U":
            shares[order_of(payload)] = 0
            shares[int.from_bytes(payload[19:27], "big")] = int.from_bytes(payload[27:31], "big")
        peak = max(peak, sum(left > 0 for left in shares.values()))
    return {
        "messages": len(payloads),
        "bytes": sum(2 + len(payload) for payload in payloads),
        "first": moment(min(times, default=None)),
        "last": moment(max(times, default=None)),
        "stocks": len(stocks),
        "live": sum(left > 0 for left in shares.values()),
        "peak": peak,
        "ended": bool(events) and events[-1]["event_code"] == "C",
        "types": {chr(kind): count for kind, count in sorted(Counter(payload[0] for payload in payloads).items())},
        "events": events,
    }


def moment(time):
    return None if time is None else {"time": clock(time), "ns": time}


def quoted(character):
    return characters(character.encode("latin-1"))


def lines(told):
    """Returns the same as lines of text."""
    yield from (f"{name} {told[name]}" for name in ("messages", "bytes"))
    yield from (f"{name} {told[name]['time'] if told[name] else 'none'}" for name in ("first", "last"))
    yield from (f"{name} {told[name]}" for name in ("stocks", "live", "peak"))
    yield f"ended {'yes' if told['ended'] else 'no'}"
    yield from (f"type {quoted(kind)} {count}" for kind, count in told["types"].items())
    yield from (f"event {it['number']} {it['time']} {quoted(it['event_code'])}" for it in told["events"])


def block(payload):
    return len(payload).to_bytes(2, "big") + payload


def is_told(program, label, data, payloads, *words):
    """Checks both forms of the summary of a file that begins with these messages, and then ends or is refused as `check` refuses it."""
    checked = ended(program, "check", "day.itch", *words, day=data)
    told = summary(payloads)
    status, output, error = ended(program, "info", "day.itch", *words, day=data)
    yield from differs(f"{label}: ending", (status, error), (checked[0], checked[2]))
    yield from differs(f"{label}: lines", output.decode().splitlines(), list(lines(told)))
    status, output, error = ended(program, "info", "--json", "day.itch", *words, day=data)
    yield from differs(f"{label}: ending of JSON", (status, error), (checked[0], checked[2]))
    yield from differs(f"{label}: one line of JSON", (output.count(b"\n"), b" " in output), (1, False))
    yield from differs(f"{label}: JSON", list(json.loads(output).items()), list(told.items()))


def random_days_are_summarized(program):
    for seed in range(DAYS):
        payloads = RandomDay(seed).payloads
        yield from is_told(program, f"day {seed}", b"".join(map(block, payloads)), payloads)


def parts_of_a_day_are_summarized(program):
    payloads = RandomDay(7).payloads
    data = b"".join(map(block, payloads))
    for count in (0, 1, len(payloads) // 2, len(payloads)):
        yield from is_told(program, f"after {count}", data, payloads[:count], "--after", str(count))
    yield from is_told(program, "after too many", data, payloads, "--after", str(len(payloads) + 1))
    end = next(at for at, payload in enumerate(payloads) if payload[:1] in b"SRHYPBAFECXDU" and int.from_bytes(payload[5:11], "big") >= 2)
    yield from is_told(program, "until a time", data, payloads[:end], "--until", "2")


def a_refused_day_is_summarized_up_to_there(program):
    for seed in range(DAYS):
        day = RandomDay(1000 + seed)
        first = b"".join(map(block, day.payloads))
        for name, rest in (("a block cut short", b"\0\x13D\0"), ("half a length", b"\0"), ("an unknown locate", block(header(b"H", 3, 0) + b"AAPL    T     ")),
                           ("a wrong length", block(b"D")), ("an unknown reference", block(header(b"D", 1, 0) + b"\xff" * 8)), ("an end block", b"\0\0\0\x01I"),
                           ("an End of Snapshot", block(b"G" + b"1".rjust(20)))):
            yield from is_told(program, f"day {seed}, then {name}", first + rest, day.payloads)


def a_day_on_standard_input_is_summarized(program):
    payloads = RandomDay(5).payloads
    with tempfile.TemporaryDirectory() as folder:
        (Path(folder) / "day.itch").write_bytes(b"".join(map(block, payloads)))
        got = ended_in(folder, "sh", "-c", f"cat day.itch | '{program}' info")
        yield from differs("lines", (got[0], got[1].decode().splitlines()), (0, list(lines(summary(payloads)))))


def each_call_of_info_may_fail(program):
    """If a read fails or memory runs out, the messages before are summarized, or nothing is printed. If a write fails, the output is a beginning."""
    payloads = RandomDay(3).payloads
    data = b"".join(map(block, payloads))
    with tempfile.TemporaryDirectory() as folder:
        shim = build_shim(folder)
        (Path(folder) / "day.itch").write_bytes(data)
        whole = ended_in(folder, program, "info", "day.itch")
        for kind, status, said in (("read", 3, "read failed"), ("memory", 4, "out of memory"), ("write", 3, "write failed")):
            def run(nth, kind=kind):
                mark = Path(folder) / "failed"
                mark.unlink(missing_ok=True)
                return ended_in(folder, program, "info", "day.itch", LD_PRELOAD=str(shim), FAIL=f"{kind}:{nth}", FAILED=str(mark)), mark.exists()
            for nth in range(1, first_unmet(lambda nth: run(nth)[1])):
                got, _ = run(nth)
                if got == whole:
                    continue
                place = re.match(rf"itchsnap: (?:message (\d+): )?{said}\n", got[2].decode())
                if got[0] != status or not place:
                    yield f"{kind} {nth}: {got}"
                elif kind == "write":
                    yield from differs(f"{kind} {nth}: beginning", whole[1].startswith(got[1]), True)
                else:
                    told = summary(payloads[:int(place[1]) - 1]) if place[1] else None
                    yield from differs(f"{kind} {nth}: lines", got[1].decode().splitlines(), list(lines(told)) if told else [])


def a_day_of_the_table_is_summarized(program):
    """Named blocks of the other tests, which follow the rules together."""
    names = "START_STAMPED AAPL_STAMPED BUY_1_STAMPED EXECUTE_40 CANCEL_40 START"
    data = b"".join(blocks()[name] for name in names.split())
    yield from is_told(program, "named blocks", data, [payload[2:] for payload in split(data)])


RUNS = [
    random_days_are_summarized,
    parts_of_a_day_are_summarized,
    a_refused_day_is_summarized_up_to_there,
    a_day_on_standard_input_is_summarized,
    each_call_of_info_may_fail,
    a_day_of_the_table_is_summarized,
]
