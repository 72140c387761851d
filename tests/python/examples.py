"""The examples of the package, against the program's output.

RUNS lists the runs: functions that yield the differences found.
"""
import functools
import itertools
import os
import re
import struct
import subprocess
import sys
import tempfile
import xml.etree.ElementTree
from pathlib import Path

import large
import samples
from common import differs
from tables import left_out, ten_thousandths

FOLDER = samples.TOP / "python/examples"
SVG = "{http://www.w3.org/2000/svg}"
STOCKS = ("AAPL", "MSFT", "NVDA")


# The name of the first symbol, in a day with a crossed book.
CROSSED = "S0000001"


def ran(name, *words, day=b""):
    """Runs an example with `day.itch` in its folder, and returns its status and both outputs."""
    with tempfile.TemporaryDirectory() as folder:
        (Path(folder) / "day.itch").write_bytes(day)
        done = subprocess.run([sys.executable, "-B", FOLDER / name, *words], cwd=folder, capture_output=True, timeout=60,
                              env={**os.environ, "PYTHONPATH": str(samples.TOP / "python")})
    return done.returncode, done.stdout, done.stderr.decode()


@functools.lru_cache(maxsize=1)
def day():
    """Returns the small day that an example writes."""
    return ran("day.py")[1]


@functools.lru_cache(maxsize=1)
def crossed():
    """Returns a day whose bids reach its ask before 9:30, and then exceed it by a cent, by a dollar and by more. In the end the ask is
    deleted."""
    def added(reference, side, price):
        fields = struct.pack(">QcI8sI", reference, side, 100, large.stock(1), price)
        return large.block(b"A", 1, fields)

    ask = added(1, b"S", 1_000_000)
    bids = [added(2 + step, b"B", price) for step, price in enumerate((1_000_000, 1_000_100, 1_010_000, 1_023_456))]
    gone = large.block(b"D", 1, struct.pack(">Q", 1))
    times = (569, 569, 569, 570, 571, 572, 573)
    return b"".join(samples.stamped(block, minute * samples.MINUTE) for block, minute in zip([large.entry(1), ask, *bids, gone], times))


def levels(*words, of=None):
    """Returns the levels that the program prints for a day, by default the small one: stock, side, price in ten-thousandths of a dollar,
    and shares."""
    lines = samples.program("book", "--csv", *words, day=of or day())[1].decode().splitlines()[1:]
    return [(stock, side, ten_thousandths(price), int(shares)) for _, stock, side, price, shares, _ in (line.split(",") for line in lines)]


def the_small_day_is_whole():
    lines = samples.program("check", "--ended", day=day())
    yield from differs("the day", (lines[0], lines[2]), (0, ""))


def the_spread_by_minute_is_that_of_the_program():
    status, output, error = ran("spread.py", "day.itch", *STOCKS, day=day())
    printed = output.decode().splitlines()
    yield from differs("the end", (status, error, len(printed)), (0, "", 1 + 391 * len(STOCKS)))
    yield from differs("the titles", printed[0], "time,stock,bid,ask,spread")
    lines = [line.split(",") for line in printed[1:]]
    for minute in range(0, 391, 13):
        time = f"{(570 + minute) // 60:02}:{(570 + minute) % 60:02}"
        best = levels("--stock", ",".join(STOCKS), "--depth", "1", "--until", time)
        for stock, line in zip(STOCKS, lines[3 * minute:]):
            bid, ask = ([price for its, side, price, _ in best if (its, side) == (stock, wanted)] for wanted in "BS")
            wanted = [bid, ask, [ask[0] - bid[0]] if bid and ask else []]
            got = [[ten_thousandths(it)] if it else [] for it in line[2:]]
            yield from differs(f"{stock} at {time}", (line[:2], got), ([time, stock], wanted))


def the_spread_of_a_crossed_book_is_negative():
    status, output, error = ran("spread.py", "day.itch", CROSSED, "--end", "09:34", day=crossed())
    wanted = [("09:30", "100.0000", "100.0000", "0.0000"), ("09:31", "100.0100", "100.0000", "-0.0100"),
              ("09:32", "101.0000", "100.0000", "-1.0000"), ("09:33", "102.3456", "100.0000", "-2.3456"), ("09:34", "102.3456", "", "")]
    lines = [tuple(line.split(",")) for line in output.decode().splitlines()[1:]]
    yield from differs("the spreads", (status, error, lines), (0, "", [(time, CROSSED, *prices) for time, *prices in wanted]))


def a_part_of_a_day_is_asked_for():
    output = ran("spread.py", "day.itch", "MSFT", "--begin", "11:59", "--end", "12:01", day=day())[1].decode().splitlines()
    yield from differs("minutes", [line.split(",")[0] for line in output], ["time", "11:59", "12:00", "12:01"])
    status, _, error = ran("spread.py", "day.itch", "AAPL", "NONE", day=day())
    yield from differs("a stock that is not there", (status, error), (1, "spread: unknown stock NONE\n"))


def texts_by_places(picture, axis, place):
    """Returns the texts at the ticks of an axis, by position."""
    for tick in picture.iterfind(f".//{SVG}g[@id]"):
        if tick.get("id").startswith(f"{axis}tick_"):
            yield tick.find(f".//{SVG}text").text, float(tick.find(f".//{SVG}use").get(place))


def line_through(points):
    """Returns a function from positions to numbers: the line through the first and the last of these points."""
    (first, begin), (last, end) = points[0], points[-1]
    return lambda place: first + (last - first) * (place - begin) / (end - begin)


def depth_differs(picture, stock="NVDA", until="12:00", of=None):
    """Read with the numbers on its axes, the picture shows the program's prices, and at each price the shares there and at better ones."""
    prices = line_through([(ten_thousandths(words), x) for words, x in texts_by_places(picture, "x", "x")])
    shares = line_through([(int(words.replace(",", "")), y) for words, y in texts_by_places(picture, "y", "y")])
    for name, wanted in (("bids", "B"), ("asks", "S")):
        best = levels("--stock", stock, "--depth", "40", "--until", until, of=of)
        side = [(price, size) for _, its, price, size in best if its == wanted]
        drawn = re.findall(r"[ML] (\S+) (\S+)", picture.find(f".//{SVG}g[@id='{name}']/{SVG}path").get("d"))
        corners = [(float(x), float(y)) for x, y in drawn[1:2 * len(side):2]]
        read = [(round(prices(x), -2), round(shares(y), -2)) for x, y in corners]
        totals = itertools.accumulate(size for _, size in side)
        yield from differs(name, read, [(price, total) for (price, _), total in zip(side, totals)])


def the_picture_of_the_package_shows_the_depth_of_the_book():
    yield from depth_differs(xml.etree.ElementTree.parse(FOLDER / "depth.svg").getroot())


def the_example_draws_the_depth_of_the_book():
    if left_out("a picture", "matplotlib"):
        return
    status, output, error = ran("depth.py", "day.itch", "NVDA", "--until", "12:00", day=day())
    yield from differs("the end", (status, error), (0, ""))
    yield from depth_differs(xml.etree.ElementTree.fromstring(output))
    yield from differs("again", ran("depth.py", "day.itch", "NVDA", "--until", "12:00", day=day())[1] == output, True)
    yield from differs("a stock that is not there", ran("depth.py", "day.itch", "NONE", day=day())[::2], (1, "depth: no orders of NONE\n"))


def the_example_draws_a_crossed_book():
    if left_out("a picture", "matplotlib"):
        return
    status, output, error = ran("depth.py", "day.itch", CROSSED, "--until", "09:32", day=crossed())
    yield from differs("the end", (status, error), (0, ""))
    yield from depth_differs(xml.etree.ElementTree.fromstring(output), CROSSED, "09:32", crossed())


RUNS = [the_small_day_is_whole, the_spread_by_minute_is_that_of_the_program, the_spread_of_a_crossed_book_is_negative,
        a_part_of_a_day_is_asked_for, the_picture_of_the_package_shows_the_depth_of_the_book, the_example_draws_the_depth_of_the_book,
        the_example_draws_a_crossed_book]
