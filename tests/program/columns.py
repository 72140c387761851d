"""`show --csv` of one type of message, against an independent reader that is written from the standard.

RUNS lists the runs: functions that take the program and yield the differences found.
"""
import csv
import io
import random

from common import differs, ended
from forms import STOCKS
from messages import FIELDS, clock, fields_of, file_of, messages, price
from orders import Writer
from ranges import RandomDay, blocks_of

# The types of the standard that are not decoded.
WHOLE = "VWKJINO"
DAYS = range(8)


def names_of(kind):
    """Returns the names of the columns of a type."""
    names = [it for name, sort, _ in fields_of(kind) for it in ([name, "ns"] if sort == "t" else [name])] if kind in FIELDS else ["length"]
    return ["number", "type", *names]


def values_of(payload):
    """Returns the values of a message after its number and its type, as texts."""
    kind, at, found = chr(payload[0]), 1, []
    if kind not in FIELDS:
        return [str(len(payload))]
    for _, sort, width in fields_of(kind):
        data, number = payload[at:at + width], int.from_bytes(payload[at:at + width], "big")
        at += width
        if sort == "t":
            found += [clock(number), str(number)]
        elif sort == "c":
            found.append("".join(chr(it) if 32 <= it < 127 else f"\\x{it:02x}" for it in data))
        else:
            found.append({"n": str(number), "p": price(number), "d": sort == "d" and str(int(data))}.get(sort, data.decode("latin-1").rstrip(" ")))
    return found


def field(text):
    """Returns a field as in RFC 4180, in quotation marks only if it needs them."""
    return '"' + text.replace('"', '""') + '"' if "," in text or '"' in text else text


def wanted_of(kind, payloads):
    """Returns the heading and the rows of a type, for messages with their numbers."""
    return [names_of(kind), *([str(number), kind, *values_of(it)] for number, it in payloads)]


def agreement(label, program, day, kind, payloads, *words):
    """Yields the differences between the program's output and the rows of these messages."""
    status, output, error = ended(program, "show", "day.itch", "--csv", "--types", kind, *words, day=day)
    wanted = wanted_of(kind, payloads)
    yield from differs(f"{label} {kind}: status and error", (status, error), (0, b""))
    yield from differs(f"{label} {kind}: as they are read", list(csv.reader(io.StringIO(output.decode("latin-1"), newline=""), strict=True)), wanted)
    yield from differs(f"{label} {kind}: as they are written", output.decode("latin-1"), "".join(",".join(map(field, it)) + "\n" for it in wanted))


def every_message_of_every_type_is_a_row(program):
    found = [payload for _, payload, _ in messages(STOCKS)]
    for kind in [*FIELDS, *WHOLE]:
        chosen = [(number, it) for number, it in enumerate(found, 1) if it[:1] == kind.encode()]
        yield from differs(f"{kind} comes", bool(chosen), True)
        yield from agreement("every message", program, file_of(STOCKS), kind, chosen)


def rows_of_random_days_are_those_of_another_reader(program):
    for seed in DAYS:
        for payloads in (RandomDay(seed).payloads, Writer(seed).payloads):
            for kind in [*FIELDS, *WHOLE]:
                chosen = [(number, it) for number, it in enumerate(payloads, 1) if it[:1] == kind.encode()]
                yield from agreement(f"seed {seed}", program, blocks_of(payloads), kind, chosen)


def filters_choose_the_messages_that_lines_have(program):
    """The messages are those that `show` prints as lines with the same arguments."""
    for seed in DAYS:
        made, rng = Writer(seed), random.Random(seed)
        for words in (("--stock", "AAPL"), ("--only", "2,4-5"), ("--reference", str(rng.randint(1, 60))), ("--from", "40"), ("--since", "10:30"),
                      ("--until", "11:30"), ("--after", "150"), ("--from", "30", "--after", "300", "--until", "12:00", "--stock", "AAPL", "--only", "1-3")):
            for kind in "RAFECXDUPS":
                _, lines, _ = ended(program, "show", "day.itch", "--types", kind, *words, day=made.day())
                numbers = [int(line.split()[0]) for line in lines.splitlines()]
                yield from agreement(f"seed {seed} {words}", program, made.day(), kind, [(it, made.payloads[it - 1]) for it in numbers], *words)


def anything_but_one_type_is_a_usage_fault(program):
    for words in ((), ("--types", "AF"), ("--types", "AA"), ("--stock", "AAPL"), ("--types", "ABCDEFGHLPQRSUXYh")):
        status, output, error = ended(program, "show", "--csv", *words)
        yield from differs(f"{words}: status and output", (status, output), (2, b""))
        yield from differs(f"{words}: names --types", b"--csv needs --orders, or one type, such as --types A" in error, True)
    for words in (("--json", "--csv"), ("--names", "--csv"), ("--json", "--names")):
        status, _, error = ended(program, "show", "--types", "A", *words)
        yield from differs(f"{words}: status", (status, b"cannot be used with" in error), (2, True))


RUNS = [
    every_message_of_every_type_is_a_row,
    rows_of_random_days_are_those_of_another_reader,
    filters_choose_the_messages_that_lines_have,
    anything_but_one_type_is_a_usage_fault,
]
