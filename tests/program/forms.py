"""JSON and comma-separated values for every character that a stock may have, parsed by Python's own modules.

RUNS lists the runs: functions that take the program and yield the differences found.
"""
import csv
import io
import json

from common import blocks, differs, ended
from messages import file_of, jsons_of, lines_of

# Every character that a stock may contain, eight per stock.
STOCKS = [bytes(range(first, first + 8)) for first in range(0x20, 0x78, 8)] + [b"xyz{|}~ ", b'"""""""\\', b"\\\\\\\\\\\\\\\"", b",,,,,,,,", b"x,\"y\"   "]
AAPL, BUY = "AAPL", "BUY_1"


def day(stock):
    """Returns a directory entry with this stock, and an order in it."""
    return b"".join(blocks()[name].replace(b"AAPL    ", stock) for name in (AAPL, BUY))


def columns(stock):
    """Returns the book's values for the stock as they must be parsed, each a text or a number."""
    return {"locate": 1, "stock": stock.decode().rstrip(" "), "side": "B", "price": "150.0000", "shares": 100, "orders": 1}


def a_book_as_json_is_read_for_every_stock(program):
    for stock in STOCKS:
        status, output, error = ended(program, "book", "1", "day.itch", "--json", day=day(stock))
        yield from differs(f"{stock}: status and error", (status, error), (0, b""))
        yield from differs(f"{stock}: rows", [json.loads(line) for line in output.splitlines()], [columns(stock)])


def a_book_as_csv_is_read_for_every_stock(program):
    for stock in STOCKS:
        status, output, error = ended(program, "book", "1", "day.itch", "--csv", day=day(stock))
        yield from differs(f"{stock}: status and error", (status, error), (0, b""))
        rows = list(csv.DictReader(io.StringIO(output.decode()), strict=True))
        yield from differs(f"{stock}: rows", rows, [{name: str(value) for name, value in columns(stock).items()}])


def a_stock_of_any_characters_is_found_by_its_name(program):
    """Except for a stock with a comma, which separates names."""
    for stock in STOCKS:
        name = stock.decode().rstrip(" ")
        found = ended(program, "book", f"--stock={name}", "day.itch", day=day(stock))
        if "," not in name:
            yield from differs(stock, found, (0, f"1 {name}\nB 150.0000 100 1\n".encode(), b""))
        elif all(name.split(",")):
            yield from differs(stock, found, (1, b"", f"itchsnap: unknown stock\n  day.itch: no stock {name.split(',')[0]}\n".encode()))
        else:
            yield from differs(stock, found[:2], (2, b""))


def counts_and_verdicts_as_json_are_read(program):
    data = day(b"AAPL    ")
    cases = [
        (("check", "day.itch"), 0, {"messages": 2}),
        (("compare", "day.itch", "day.itch"), 0, {"same": True}),
        (("compare", "day.itch", "other.itch"), 1, {"same": False, "place": 2}),
        (("compare", "--first", "day.itch", "day.itch"), 0, {"same": True}),
        (("compare", "--first", "day.itch", "other.itch"), 1, {"same": False, "after": 2}),
    ]
    for words, wanted, value in cases:
        status, output, error = ended(program, *words, "--json", day=data, other=blocks()[AAPL])
        yield from differs(f"{words}: status and error", (status, error), (wanted, b""))
        yield from differs(f"{words}: lines", [json.loads(line) for line in output.splitlines()], [value])


def every_message_as_json_is_read(program):
    status, output, error = ended(program, "show", "day.itch", "--json", day=file_of(STOCKS))
    yield from differs("status and error", (status, error), (0, b""))
    lines, wanted = output.splitlines(), jsons_of(STOCKS)
    yield from differs("lines", len(lines), len(wanted))
    for line, value in zip(lines, wanted):
        yield from differs(f"{line}", list(json.loads(line).items()), value)


def every_message_has_its_line_with_names(program):
    status, output, error = ended(program, "show", "day.itch", "--names", day=file_of(STOCKS))
    yield from differs("status and error", (status, error), (0, b""))
    lines, wanted = output.decode().splitlines(), lines_of(STOCKS)
    yield from differs("lines", len(lines), len(wanted))
    for line, value in zip(lines, wanted):
        yield from differs("line", line, value)


RUNS = [
    a_book_as_json_is_read_for_every_stock,
    a_book_as_csv_is_read_for_every_stock,
    a_stock_of_any_characters_is_found_by_its_name,
    counts_and_verdicts_as_json_are_read,
    every_message_as_json_is_read,
    every_message_has_its_line_with_names,
]
