"""The rows of tests/program/runs.ini for `snap`, `check`, `compare`, `canon`, `book` and `join`, by the package: the same bytes and refusals. Rows
with arguments for which the package has no call are skipped.

RUNS lists the runs: functions that yield the differences found.
"""
import csv
import io
import os
import re

import common
from sundrekk import Day, Joiner, Level, Reason, Refused, Snapshot, Step, nanoseconds, payloads

# The options that the package supports, by command: those with a value, and flags.
OPTIONS = {
    "snap": ({"--after", "--until", "--only"}, set()),
    "check": (set(), {"--json"}),
    "compare": (set(), {"--json"}),
    "canon": (set(), {"--check"}),
    "book": ({"--depth", "--after", "--until"}, {"--csv", "--snapshot"}),
    "join": ({"--only"}, set()),
}
# Rows about files, streams and terminals apply only to the program, and large days have their own tests.
OTHERS = re.compile(r"^(day|snapshot) of |^folder$|^itchsnap: unknown stock$")
# A little less than the actual number, so that rows skipped by mistake are noticed.
LEAST_ROWS = 200


class Unknown(Exception):
    """A locate that is not in the directory, which `book` refuses."""


def words_of(row):
    """Returns the command of a row with its files and options, or None if the package has no call for it."""
    command, *words = row.get("words", "").split() or [""]
    valued, flags = OPTIONS.get(command, (set(), set()))
    files, options = [], {}
    words = iter(words)
    for word in words:
        if word in valued:
            options[word] = next(words, "")
        elif word in flags:
            options[word] = ""
        elif word.startswith("-") and word != "-":
            return None
        else:
            files.append(word)
    return (command, files, options) if command in OPTIONS else None


def is_here(row):
    """Returns whether the package can answer a row: the row is about bytes, and ends with status 0 or 1. A joiner has messages and no files, and only
    the program reads a list of locates from a file (`@`)."""
    if row.get("words", "").startswith("join ") and re.search("truncated|no end", row.get("error", "")):
        return False
    return (words_of(row) is not None and "@" not in row.get("words", "") and row.get("status", "0") in "01"
            and "any" not in (row.get("output"), row.get("error")) and not any(OTHERS.search(value) for value in row.values()) and not {"stdout", "stderr"} & set(row))


def locates_of(text):
    """Returns the locates of a list with ranges."""
    ends = [part.split("-") for part in text.split(",")]
    return [locate for end in ends for locate in range(int(end[0]), int(end[-1]) + 1)]


def time_of(text):
    return int(text) if text.isdigit() else text


def part_of(options):
    """Returns the arguments of `Day.snapshot` for these options."""
    kinds = {"--after": ("after", int), "--until": ("until", time_of), "--only": ("only", locates_of)}
    return {kinds[name][0]: kinds[name][1](value) for name, value in options.items() if name in kinds}


def text(line):
    return line.encode() + b"\n"


def snap(files, options):
    return Day.of(files[0]).snapshot(**part_of(options)).data


def check(files, options):
    count = Day.of(files[0]).check()
    return text(f'{{"messages":{count}}}' if options else f"ok {count} messages")


def compare(files, options):
    place = Day.of(files[0]).compare(Day.of(files[1]))
    if options:
        return text('{"same":true}' if place is None else f'{{"same":false,"place":{place}}}')
    return text("same" if place is None else f"different at {place}")


def canon(files, options):
    canonical = Snapshot(files[0]).data
    return canonical if not options else text("canonical" if canonical == files[0] else "not canonical")


def price(ten_thousandths):
    return f"{ten_thousandths // 10_000}.{ten_thousandths % 10_000:04}"


def book(files, options):
    """Returns the lines of `book`. The first of the files is its list of locates."""
    locates = sorted(set(locates_of(files[0].decode())))
    snapshot = Snapshot(files[1]) if "--snapshot" in options else Day.of(files[1]).snapshot(**part_of(options))
    if set(locates) - set(snapshot.stocks):
        raise Unknown("unknown locate")
    depth = int(options.get("--depth", 10**12))
    best = {locate: best_of(snapshot.levels.at(locate), depth) for locate in locates}
    if "--csv" in options:
        return values(level._replace(price=price(level.price)) for locate in locates for level in best[locate])
    lines = []
    for locate in locates:
        lines.append(f"{locate} {snapshot.stocks[locate]}")
        lines += [f"{it.side} {price(it.price)} {it.shares} {it.orders}" for it in best[locate]]
    return text("\n".join(lines))


def best_of(levels, depth):
    """Returns the best prices of each side, at most this many."""
    bids, asks = ([it for it in levels if it.side == side] for side in "BS")
    return bids[:depth] + asks[:depth]


def values(levels):
    """Returns comma-separated values below the names of their columns."""
    out = io.StringIO()
    written = csv.writer(out, lineterminator="\n")
    written.writerow(Level._fields)
    written.writerows(levels)
    return out.getvalue().encode()


def join(files, options):
    with Joiner(0, **part_of(options)) as joiner:
        steps = (joiner.snapshot_message(payload) for payload in payloads(files[0]))
        if Step.JOINED not in steps:
            raise Refused(Reason.NO_END)
        for number, payload in enumerate(payloads(files[1]), 1):
            joiner.live_message(number, payload)
        return joiner.snapshot().data


COMMANDS = {"snap": snap, "check": check, "compare": compare, "canon": canon, "book": book, "join": join}


def answered(command, files, options):
    """Returns the status, the output and the line on standard error to compare with the program's."""
    try:
        output = COMMANDS[command](files, options)
        return int(output.startswith((b"different", b"not", b'{"same":false'))), output, ""
    except Unknown as unknown:
        return 1, b"", str(unknown)
    except Refused as refused:
        return 1, b"", str(refused)


def bytes_of(row, command, files):
    """Returns the bytes of each file of a row: the file of that name, or standard input. The locates of `book` stay as they are."""
    names, wanted = (files[1:], 1) if command == "book" else (files, 2 if command in ("compare", "join") else 1)
    names = names + ["-"] * (wanted - len(names))
    given = [common.file(row.get("input", "") if name == "-" else row[os.path.basename(name)]) for name in names]
    return [files[0].encode(), *given] if command == "book" else given


def output_of(row):
    output = row.get("output", "")
    return text(output[len("text "):]) if output.startswith("text ") else common.file(output)


def error_of(row, command):
    """Returns the error line of a row in the wording of the package. For a wrong length it states only the expected one, and for a joiner that it has
    halted."""
    error = re.sub(r"wrong length for .: (want \d+), got \d+", r"wrong length: \1", row.get("error", "").replace("itchsnap: ", "", 1))
    if command == "join":
        error = re.sub(r"^message (\d+): ", r"message \1: halted: ", error)
        error = re.sub(r"^snapshot: message (\d+): ", r"message \1: bad snapshot: ", error)
    return error


def each_row_of_the_table():
    table = common.read_table("runs.ini")
    here = [(name, dict(table[name])) for name in table.sections() if is_here(dict(table[name]))]
    if len(here) < LEAST_ROWS:
        yield f"only {len(here)} rows of the table"
    for name, row in here:
        command, files, options = words_of(row)
        got = answered(command, bytes_of(row, command, files), options)
        yield from common.differs(name, got, (int(row.get("status", "0")), output_of(row), error_of(row, command)))


def a_text_that_is_no_time():
    """Each row with `--until` and status 2 is also refused as a time."""
    table = common.read_table("runs.ini")
    times = {name: words_of(table[name])[2]["--until"] for name in table.sections() if name.startswith("a time that is none")
             and words_of(table[name]) and "--until" in words_of(table[name])[2]}
    if not times:
        yield "no row has such a time"
    for name, time in times.items():
        try:
            yield f"{name}: {nanoseconds(time_of(time))}"
        except ValueError:
            pass


RUNS = [each_row_of_the_table, a_text_that_is_no_time]
