#!/usr/bin/env python3
"""Prints the best bid, the best ask and the spread of some stocks at each minute of a day, as comma-separated values.

    spread.py DAY STOCK .. [--begin 09:30] [--end 16:00]

The line for a minute shows the market before the first message at that minute or later. Prices are in dollars. A field is empty if
its side has no orders. The spread of a crossed book is negative.
"""
import argparse
import sys

from sundrekk import Day, Market, nanoseconds

MINUTE = 60 * 10**9


def dollars(ten_thousandths):
    whole, rest = divmod(abs(ten_thousandths), 10_000)
    return f"{'-' if ten_thousandths < 0 else ''}{whole}.{rest:04}"


def quote(market, locate):
    """Returns the best bid, the best ask and the spread of a locate."""
    bid, ask = (market.next_price(locate, side) for side in "BS")
    spread = None if bid is None or ask is None else ask - bid
    return ["" if price is None else dollars(price) for price in (bid, ask, spread)]


def locates_of(market, stocks):
    """Returns the locates of these stocks in the directory, which precedes the first minute."""
    found = {stock: locate for locate, stock in market.stocks().items()}
    unknown = [stock for stock in stocks if stock not in found]
    if unknown:
        sys.exit(f"spread: unknown stock {unknown[0]}")
    return [found[stock] for stock in stocks]


def main():
    words = argparse.ArgumentParser(description="Prints the spread of some stocks at each minute of a day.")
    words.add_argument("day", metavar="DAY")
    words.add_argument("stocks", metavar="STOCK", nargs="+")
    words.add_argument("--begin", type=nanoseconds, default="09:30")
    words.add_argument("--end", type=nanoseconds, default="16:00")
    given = words.parse_args()
    print("time,stock,bid,ask,spread")
    locates = []
    with Day(given.day) as day, Market() as market:
        for time, blocks in day.pieces(range(given.begin, given.end + 1, MINUTE)):
            market.apply_blocks(blocks)
            locates = locates or locates_of(market, given.stocks)
            minutes = time // MINUTE
            for stock, locate in zip(given.stocks, locates):
                print(f"{minutes // 60:02}:{minutes % 60:02}", stock, *quote(market, locate), sep=",")


main()
