"""Executions with the price, the side and the stock of their orders."""
from __future__ import annotations

from typing import Iterator, NamedTuple, Optional

from .decoding import decoded
from .kinds import OrderExecutedWithPrice
from .markets import Market
from .messages import places
from .reading import DIRECTORY, LOCATE, Range, Stocks, is_late

EXECUTIONS = b"EC"


class Execution(NamedTuple):
    """An execution of a live order: a message `E` or `C`. `side` is that of the order, 'B' for a bid. `price` is the price of the execution, and
    `order_price` that of the order, in ten-thousandths of a dollar. `ns` is in nanoseconds since midnight. An execution that is not printable also
    appears in a later trade message, and does not count towards volumes."""

    number: int
    ns: int
    locate: int
    stock: str
    side: str
    price: int
    shares: int
    order_price: int
    order_reference_number: int
    match_number: int
    printable: bool


def executions(blocks: memoryview, stocks: Optional[Stocks], part: Range) -> Iterator[Execution]:
    """Yields the executions of a part of a day. Every message up to its end must follow the order rules."""
    begin, is_begun = 0, not part.since
    with Market() as market:
        for number, kind, at, end in places(blocks):
            if is_late(blocks, kind, at, end, part.until):
                blocks = blocks[:at - 2]
                break
            is_begun = is_begun or is_late(blocks, kind, at, end, part.since)
            if stocks is not None and kind == DIRECTORY:
                stocks.pass_entry(blocks, at)
            if is_begun and kind in EXECUTIONS and (stocks is None or stocks.have(LOCATE.unpack_from(blocks, at + 1)[0])):
                market.apply_blocks(blocks[begin:at - 2])
                yield _execution(market, blocks, at, end, number)
                begin = end
        market.apply_blocks(blocks[begin:])


def _execution(market: Market, blocks: memoryview, at: int, end: int, number: int) -> Execution:
    """Returns the execution of a message, and applies the message to the market."""
    message = decoded(blocks, at, end, number)
    order = market.order(message.order_reference_number)  # type: ignore[union-attr]
    market.apply(blocks[at:end])
    assert order is not None, "an execution that is not refused has an order"
    price, printable = order.price, True
    if isinstance(message, OrderExecutedWithPrice):
        price, printable = message.execution_price, message.printable != "N"
    return Execution(number, message.ns, order.locate, order.stock, order.side, price, message.executed_shares, order.price,  # type: ignore[union-attr]
                     order.reference, message.match_number, printable)  # type: ignore[union-attr]
