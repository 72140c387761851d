#!/usr/bin/env python3
"""Writes a small day file to standard output: orders of three stocks from 9:30 to 16:00, the same in each run.

    day.py > small.itch
"""
import random
import struct
import sys

# The locate, the middle of the book in ten-thousandths of a dollar, and its weight among the messages.
STOCKS = {"AAPL": (1, 1_500_000, 3), "MSFT": (2, 4_000_000, 2), "NVDA": (3, 1_200_000, 5)}
MESSAGES, LIVE = 24_000, 400
TICK, SECOND = 100, 10**9
BEGIN, END = 34_200 * SECOND, 57_600 * SECOND
ENTRY = b"QN" + struct.pack(">I", 100) + b"NCZ PNN1N" + struct.pack(">I", 0) + b"N"


def block(kind, locate, time, fields):
    message = struct.pack(">cHH", kind, locate, 0) + struct.pack(">Q", time)[2:] + fields
    return struct.pack(">H", len(message)) + message


class Book:
    """The orders of a stock, whose bids stay below its middle and whose asks stay above it."""

    def __init__(self, stock, rng):
        self.locate, self.middle, _ = STOCKS[stock]
        self.stock = stock.ljust(8).encode()
        self.rng = rng
        self.orders = {}

    def change(self, time, reference):
        """Returns the next messages of the stock: those of a price change, of a deleted order, or of a new one."""
        chance = self.rng.random()
        if chance < 0.03:
            return self.move(time)
        if self.orders and chance < 0.45 * len(self.orders) / LIVE + 0.1:
            gone = self.rng.choice(list(self.orders))
            del self.orders[gone]
            return [block(b"D", self.locate, time, struct.pack(">Q", gone))]
        side, away = self.rng.choice((-1, 1)), 1 + int(self.rng.expovariate(0.07))
        price, shares = self.middle + side * away * TICK, 100 * self.rng.randint(1, 10)
        self.orders[reference] = side, price, shares
        fields = struct.pack(">QcI8sI", reference, b"B" if side < 0 else b"S", shares, self.stock, price)
        return [block(b"A", self.locate, time, fields)]

    def move(self, time):
        """Moves the middle by one tick, and executes the orders that it reaches."""
        self.middle += self.rng.choice((-TICK, TICK))
        reached = [it for it, (side, price, _) in self.orders.items() if (price - self.middle) * side <= 0]
        return [block(b"E", self.locate, time, struct.pack(">QIQ", it, self.orders.pop(it)[2], it)) for it in reached]


def main():
    rng, out = random.Random(7), sys.stdout.buffer
    books = {stock: Book(stock, rng) for stock in STOCKS}
    weights = [weight for _, _, weight in STOCKS.values()]
    out.write(block(b"S", 0, BEGIN - SECOND, b"Q"))
    for book in books.values():
        out.write(block(b"R", book.locate, BEGIN - SECOND, book.stock + ENTRY))
    for reference in range(1, MESSAGES + 1):
        time = BEGIN + (END - BEGIN) * reference // MESSAGES
        stock, = rng.choices(list(books), weights)
        out.writelines(books[stock].change(time, reference))
    out.write(block(b"S", 0, END + SECOND, b"C"))


main()
