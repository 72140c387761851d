"""The book of a day over time."""
from __future__ import annotations

from typing import Iterator, Optional, Tuple

from .markets import Market
from .reading import Range, messages
from .tables import Levels, Stock
from .times import first_at


def books(blocks: memoryview, every: int, stock: Optional[Stock], part: Range) -> Iterator[Tuple[int, Levels]]:
    """Yields each time of a part, from its first time on, with the price levels of all stocks or of one."""
    time = part.since or _first_multiple(blocks, every)
    at: Optional[int] = 0
    with Market() as market:
        while at is not None and time is not None and (part.until is None or time <= part.until):
            begin, at = at, first_at(blocks, time, at)
            market.apply_blocks(blocks[begin:at])
            yield time, market.levels(stock)
            time += every


def _first_multiple(blocks: memoryview, every: int) -> Optional[int]:
    """Returns the first multiple of an interval after the first timestamp, if there is a timestamp."""
    first = next((it.ns for it in messages(blocks, None, None, Range(0, None)) if hasattr(it, "ns")), None)
    return None if first is None else (first // every + 1) * every
