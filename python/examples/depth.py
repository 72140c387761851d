#!/usr/bin/env python3
"""Draws the depth of a book as an SVG picture: how many shares are bid at or above each price, and offered at or below it.

    depth.py DAY STOCK [--until TIME] [--prices N] > depth.svg

Draws the best N prices of each side [default: 40]. Needs matplotlib.
"""
import argparse
import itertools
import sys

import matplotlib
from matplotlib.figure import Figure

from sundrekk import Day

# The name of a side, its colour, and how far its last price is drawn. Each price is drawn up to the next one.
SIDES = {"B": ("bids", "tab:blue", -0.01), "S": ("asks", "tab:orange", 0.01)}


def draw(axes, side, levels):
    """Draws the levels of a side, best first. The height at each level is the sum of its shares and those of all better levels."""
    name, colour, width = SIDES[side]
    prices = [level.price / 10_000 for level in levels]
    shares = list(itertools.accumulate(level.shares for level in levels))
    axes.stairs(shares, [*prices, prices[-1] + width], fill=True, color=colour, alpha=0.4, label=name, gid=name)


def picture(stock, levels):
    """Returns a picture of these levels, which have at most two sides."""
    figure = Figure(figsize=(7.2, 4), layout="constrained")
    axes = figure.add_subplot(title=f"{stock}: depth of the book", xlabel="price in dollars", ylabel="shares at this price or a better one")
    axes.xaxis.set_major_formatter("{x:.4f}")
    axes.yaxis.set_major_formatter("{x:,.0f}")
    for side, its in itertools.groupby(levels, lambda level: level.side):
        draw(axes, side, list(its))
    axes.legend(loc="upper center")
    return figure


def main():
    words = argparse.ArgumentParser(description="Draws the depth of a book as an SVG picture.")
    words.add_argument("day", metavar="DAY")
    words.add_argument("stock", metavar="STOCK")
    words.add_argument("--until", metavar="TIME")
    words.add_argument("--prices", metavar="N", type=int, default=40)
    given = words.parse_args()
    with Day(given.day) as day:
        levels = [level for level in day.snapshot(until=given.until).levels if level.stock == given.stock]
    sides = ([level for level in levels if level.side == side][:given.prices] for side in SIDES)
    if not (best := [*itertools.chain(*sides)]):
        sys.exit(f"depth: no orders of {given.stock}")
    # Texts stay texts, and the same book always gives the same picture.
    matplotlib.rc("svg", fonttype="none", hashsalt="depth")
    picture(given.stock, best).savefig(sys.stdout.buffer, format="svg", metadata={"Date": None})


main()
