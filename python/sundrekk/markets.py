"""Markets, to which messages are applied, and the look-ups that they share with joiners."""
from __future__ import annotations

from typing import TYPE_CHECKING, BinaryIO, Dict, Iterable, List, NamedTuple, Optional, Union

from . import _buffers, _library, _lists
from ._buffers import bytes_of, is_buy, locate_of
from ._handles import Held, done, found
from ._library import library
from .messages import is_ended
from .reasons import Refused
from .snapshots import Snapshot, load
from .tables import SIDES, Level, Levels, Order, Orders, Stock

if TYPE_CHECKING:
    from _typeshed import ReadableBuffer


class Applied(NamedTuple):
    """The result of applying a piece of a day file: the number of messages, and the number of bytes of an unfinished block at its
    end."""

    messages: int
    unfinished: int


class Lookups(Held):
    """Look-ups in a market. Prices are in ten-thousandths of a dollar; a side is 'B' for bids or 'S' for asks. Instead of a locate,
    the name of its stock may be given. A name that is not in the directory, or is there at several locates, raises ValueError.

    The first look-up by price after a message sorts the orders. Once such look-ups are frequent, one of them builds an index instead, and
    messages take longer from then on."""

    # The locates of each stock when the directory had this many entries. The directory only grows, and an entry keeps its stock.
    _places: Dict[str, List[int]] = {}
    _entries = 0

    @property
    def next_number(self) -> int:
        """The number of the next message of the feed, counted from 1."""
        raise NotImplementedError

    def best(self, locate: Stock, side: str) -> Optional[Order]:
        """Returns the order that has priority at a locate and side, or None if there is none."""
        return self._order(found(library.best(self._own, self._locate(locate), is_buy(side))))

    def order(self, reference: int) -> Optional[Order]:
        """Returns the live order with this reference number, or None if there is none."""
        return self._order(found(library.order_by(self._own, _buffers.number(reference, 64, "a reference"))))

    def level(self, locate: Stock, side: str, price: int) -> Optional[Level]:
        """Returns the shares and the number of orders at a price, or None if there are no orders."""
        locate = self._locate(locate)
        total = done(library.level(self._own, locate, is_buy(side), _buffers.number(price, 32, "a price")))
        if not total.orders:
            return None
        return Level(locate, self.stock(locate) or "", side, price, total.shares_high << 64 | total.shares_low, total.orders)

    def next_price(self, locate: Stock, side: str, after: Optional[int] = None) -> Optional[int]:
        """Returns the best price of a side, or the best one that is worse than `after`; None if there is none."""
        last = _buffers.number(after or 0, 32, "a price")
        price = found(library.next_price(self._own, self._locate(locate), is_buy(side), after is not None, last))
        return None if price is None else price.price

    def order_count(self) -> int:
        """Returns the number of live orders."""
        return done(library.order_count(self._own)).count

    def stock(self, locate: int) -> Optional[str]:
        """Returns the stock of a locate in the directory, without trailing spaces, or None."""
        return _lists.stock(self._own, locate_of(locate))

    def stocks(self) -> Dict[int, str]:
        """Returns the directory: the stock of each locate, in ascending order of locate."""
        return _lists.stocks(self._own)

    def locates(self) -> List[int]:
        """Returns the locates in the directory, in ascending order."""
        return _lists.locates(self._own)

    def orders(self, locate: Optional[Stock] = None) -> Orders:
        """Returns the live orders of all locates, or of one: bids before asks, each side by priority."""
        return _lists.orders(self._own, None if locate is None else self._locate(locate))

    def levels(self, locate: Optional[Stock] = None) -> Levels:
        """Returns the price levels of all locates, or of one: bids before asks, the best price of each side first."""
        return _lists.levels(self._own, None if locate is None else self._locate(locate))

    def snapshot(self, *, only: Optional[Iterable[Stock]] = None) -> Snapshot:
        """Returns the snapshot of the market, or of its part at some locates, with the number of the next message."""
        return Snapshot._canonical(_lists.snapshot(self._own, self.next_number, None if only is None else map(self._locate, only)))

    def _locate(self, stock: Stock) -> int:
        """Returns the given locate, or that of the stock with this name."""
        if isinstance(stock, str) and (entries := library.locates(self._own, None, 0).len) != self._entries:
            self._places, self._entries = _lists.places(self.stocks()), entries
        return _lists.locate_in(self._places, stock)

    def _order(self, order: Optional[_library.Order]) -> Optional[Order]:
        if order is None:
            return None
        mpid = bytes(order.mpid).decode() if order.attributed else None
        stock = self.stock(order.locate) or ""
        return Order(order.locate, stock, SIDES[not order.buy], order.price, order.shares, order.reference, mpid)


class Market(Lookups):
    """A market: messages in; look-ups, tables and snapshots out. It numbers the messages that it applies, starting with 1.

        with Market() as market:
            market.apply_blocks(blocks)
            market.best(1, "B")
    """

    def __init__(self) -> None:
        super().__init__()
        done(library.market_new(self._own))
        self._next = 1

    @classmethod
    def load(cls, snapshot: Union[Snapshot, ReadableBuffer]) -> Market:
        """Makes the market of a snapshot. Its next message has the snapshot's number."""
        market = cls()
        market.close()
        market._next = load(market, snapshot.data if isinstance(snapshot, Snapshot) else snapshot)
        return market

    @property
    def next_number(self) -> int:
        return self._next

    def apply(self, payload: ReadableBuffer) -> None:
        """Applies the message of a payload. A refused message leaves the market unchanged."""
        with bytes_of(payload) as (at, size):
            answer = library.market_apply(self._own, at, size)
        if answer.code != _library.OK:
            raise Refused(answer.code, answer.detail, self._numbered(answer.code))
        self._next += 1

    def apply_blocks(self, blocks: ReadableBuffer) -> Applied:
        """Applies the messages of a piece of a day file, which consists of blocks: two bytes with the length of a payload, and then
        the payload. A piece may end within a block: begin the next piece with the unfinished bytes. A block of length 0 ends the
        piece. If a message is refused, those before it stay applied."""
        with bytes_of(blocks) as (at, size):
            applied = library.market_apply_blocks(self._own, at, size)
        self._next += applied.count
        if applied.code not in (_library.OK, _library.TRUNCATED):
            raise Refused(applied.code, applied.detail, self._numbered(applied.code))
        return Applied(applied.count, applied.detail if applied.code == _library.TRUNCATED else 0)

    def apply_file(self, file: BinaryIO, at_once: int = 1 << 20) -> int:
        """Applies the messages of an open file, such as one of `gzip.open`, up to its end or to a block of length 0, and returns their
        number. `at_once` is the number of bytes to read at a time. A file that ends within a block is refused as `Reason.TRUNCATED`;
        the messages before that stay applied."""
        first, rest = self._next, b""
        while True:
            read = file.read(at_once)
            piece = rest + read
            rest = piece[len(piece) - self.apply_blocks(piece).unfinished:]
            if not read and rest:
                raise Refused(_library.TRUNCATED, len(rest), self._next)
            if not read or not rest and is_ended(piece):
                return self._next - first

    def _numbered(self, code: int) -> Optional[int]:
        """Returns the number of the refused message, if a message was refused."""
        return None if code == _library.WRONG_HANDLE else self._next
