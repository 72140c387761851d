"""The types of messages of TotalView-ITCH 5.0, as named tuples with the standard's names.

Each has its `number` in the file, counted from 1. Types with a header also have its locate, its tracking number, and its timestamp as `ns`,
nanoseconds since midnight. Prices are in ten-thousandths of a dollar. Texts have no trailing spaces; codes are the characters of their bytes.
"""
from __future__ import annotations

from typing import NamedTuple, Union


class SystemEvent(NamedTuple):
    """`S`."""

    number: int
    stock_locate: int
    tracking_number: int
    ns: int
    event_code: str


class StockDirectory(NamedTuple):
    """`R`."""

    number: int
    stock_locate: int
    tracking_number: int
    ns: int
    stock: str
    market_category: str
    financial_status_indicator: str
    round_lot_size: int
    round_lots_only: str
    issue_classification: str
    issue_sub_type: str
    authenticity: str
    short_sale_threshold_indicator: str
    ipo_flag: str
    luld_reference_price_tier: str
    etp_flag: str
    etp_leverage_factor: int
    inverse_indicator: str


class TradingAction(NamedTuple):
    """`H`, Stock Trading Action."""

    number: int
    stock_locate: int
    tracking_number: int
    ns: int
    stock: str
    trading_state: str
    reserved: str
    reason: str


class RegShoRestriction(NamedTuple):
    """`Y`."""

    number: int
    stock_locate: int
    tracking_number: int
    ns: int
    stock: str
    reg_sho_action: str


class OperationalHalt(NamedTuple):
    """`h`."""

    number: int
    stock_locate: int
    tracking_number: int
    ns: int
    stock: str
    market_code: str
    operational_halt_action: str


class ParticipantPosition(NamedTuple):
    """`L`, Market Participant Position."""

    number: int
    stock_locate: int
    tracking_number: int
    ns: int
    mpid: str
    stock: str
    primary_market_maker: str
    market_maker_mode: str
    market_participant_state: str


class AddOrder(NamedTuple):
    """`A`."""

    number: int
    stock_locate: int
    tracking_number: int
    ns: int
    order_reference_number: int
    buy_sell_indicator: str
    shares: int
    stock: str
    price: int


class AttributedAddOrder(NamedTuple):
    """`F`, Add Order with MPID Attribution."""

    number: int
    stock_locate: int
    tracking_number: int
    ns: int
    order_reference_number: int
    buy_sell_indicator: str
    shares: int
    stock: str
    price: int
    attribution: str


class OrderExecuted(NamedTuple):
    """`E`."""

    number: int
    stock_locate: int
    tracking_number: int
    ns: int
    order_reference_number: int
    executed_shares: int
    match_number: int


class OrderExecutedWithPrice(NamedTuple):
    """`C`."""

    number: int
    stock_locate: int
    tracking_number: int
    ns: int
    order_reference_number: int
    executed_shares: int
    match_number: int
    printable: str
    execution_price: int


class OrderCancel(NamedTuple):
    """`X`."""

    number: int
    stock_locate: int
    tracking_number: int
    ns: int
    order_reference_number: int
    cancelled_shares: int


class OrderDelete(NamedTuple):
    """`D`."""

    number: int
    stock_locate: int
    tracking_number: int
    ns: int
    order_reference_number: int


class OrderReplace(NamedTuple):
    """`U`."""

    number: int
    stock_locate: int
    tracking_number: int
    ns: int
    original_order_reference_number: int
    new_order_reference_number: int
    shares: int
    price: int


class Trade(NamedTuple):
    """`P`, Trade, non-cross."""

    number: int
    stock_locate: int
    tracking_number: int
    ns: int
    order_reference_number: int
    buy_sell_indicator: str
    shares: int
    stock: str
    price: int
    match_number: int


class CrossTrade(NamedTuple):
    """`Q`."""

    number: int
    stock_locate: int
    tracking_number: int
    ns: int
    shares: int
    stock: str
    cross_price: int
    match_number: int
    cross_type: str


class BrokenTrade(NamedTuple):
    """`B`."""

    number: int
    stock_locate: int
    tracking_number: int
    ns: int
    match_number: int


class EndOfSnapshot(NamedTuple):
    """`G`, which has no header. `sequence_number` is that of the first message that the snapshot does not contain."""

    number: int
    sequence_number: int


class Undecoded(NamedTuple):
    """A message of any other type, as the bytes of its payload."""

    number: int
    payload: bytes


Message = Union[SystemEvent, StockDirectory, TradingAction, RegShoRestriction, OperationalHalt, ParticipantPosition, AddOrder, AttributedAddOrder,
                OrderExecuted, OrderExecutedWithPrice, OrderCancel, OrderDelete, OrderReplace, Trade, CrossTrade, BrokenTrade, EndOfSnapshot, Undecoded]

# The types with a header, and the fields after it in the notation of `struct`, texts in capitals.
LAYOUTS = {
    "S": (SystemEvent, "c"), "R": (StockDirectory, "8S c c I c c 2s c c c c c I c"), "H": (TradingAction, "8S c c 4s"), "Y": (RegShoRestriction, "8S c"),
    "h": (OperationalHalt, "8S c c"), "L": (ParticipantPosition, "4S 8S c c c"), "A": (AddOrder, "Q B I 8S I"), "F": (AttributedAddOrder, "Q B I 8S I 4S"),
    "E": (OrderExecuted, "Q I Q"), "C": (OrderExecutedWithPrice, "Q I Q c I"), "X": (OrderCancel, "Q I"), "D": (OrderDelete, "Q"),
    "U": (OrderReplace, "Q Q I I"), "P": (Trade, "Q B I 8S I Q"), "Q": (CrossTrade, "Q 8S I Q c"), "B": (BrokenTrade, "Q"),
}
