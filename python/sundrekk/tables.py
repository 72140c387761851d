"""Orders and price levels as rows, as numpy arrays, and as frames.

A table holds the data that the library wrote and makes rows one by one, as they are used. numpy, pandas and pyarrow get complete columns.
Prices are always integers in ten-thousandths of a dollar, so that equal prices compare equal: 1500500 is 150.0500.
"""
from __future__ import annotations

import bisect
import ctypes as c
import itertools
import struct
from typing import TYPE_CHECKING, Any, Dict, Iterator, List, Mapping, NamedTuple, Optional, Sequence, Tuple, TypeVar, Union

if TYPE_CHECKING:
    import numpy
    import pandas
    import pyarrow

Row = TypeVar("Row")
# A stock by its name, or an object that maps locates to stocks.
Stock = Union[str, int]
SIDES = ("B", "S")


class Order(NamedTuple):
    """A live order. `side` is 'B' for a bid and 'S' for an ask. `price` is in ten-thousandths of a dollar. `shares` are the remaining
    shares. `mpid` is the market participant with whom the order came, of four characters, or None."""

    locate: int
    stock: str
    side: str
    price: int
    shares: int
    reference: int
    mpid: Optional[str]


class Level(NamedTuple):
    """A price level: the total shares and the number of orders at a price of one side. `price` is in ten-thousandths of a dollar."""

    locate: int
    stock: str
    side: str
    price: int
    shares: int
    orders: int


class Part(NamedTuple):
    """Where the rows of a locate, or of one side of it, end. They begin where those of the previous part end."""

    locate: int
    side: str
    end: int


class Table(Sequence[Row]):
    """Rows in ascending order of locate: bids before asks, the best price first.

    It is a sequence of named tuples; `to_numpy`, `to_pandas` and `to_arrow` return the same rows. `array` is the data that the library
    wrote, a ctypes array of structures with named fields, and also a buffer.
    """

    _layout: struct.Struct

    def __init__(self, array: Any, stocks: Mapping[int, str], parts: List[Part]) -> None:
        self.array = array
        self._stocks = stocks
        self._parts = parts
        self._ends = [part.end for part in parts]
        self._locates = [part.locate for part in parts]

    def __len__(self) -> int:
        return len(self.array)

    def __iter__(self) -> Iterator[Row]:
        return itertools.chain.from_iterable(map(self._rows, range(len(self._parts))))

    def __getitem__(self, index: Any) -> Any:
        if isinstance(index, slice):
            return [self[at] for at in range(*index.indices(len(self)))]
        at = range(len(self))[index]
        part = bisect.bisect_right(self._ends, at)
        return self._row(self._parts[part], self._layout.unpack_from(memoryview(self.array).cast("B"), at * self._layout.size))

    def __repr__(self) -> str:
        return f"<{len(self)} {type(self).__name__.lower()}>"

    def at(self, locate: Stock) -> List[Row]:
        """Returns the rows of one locate, or of the locates whose stock has this name."""
        if isinstance(locate, str):
            return [row for place, stock in self._stocks.items() if stock == locate for row in self.at(place)]
        first, last = bisect.bisect_left(self._locates, locate), bisect.bisect_right(self._locates, locate)
        return [row for part in range(first, last) for row in self._rows(part)]

    def to_numpy(self) -> numpy.ndarray:
        """Returns the rows as a structured array."""
        raise NotImplementedError

    def to_pandas(self) -> pandas.DataFrame:
        """Returns the rows as a frame."""
        raise NotImplementedError

    def to_arrow(self) -> pyarrow.Table:
        """Returns the rows as an Arrow table, with the columns and types of the frame. Needs pandas and pyarrow."""
        import pyarrow

        return pyarrow.Table.from_pandas(self.to_pandas(), preserve_index=False)

    def _rows(self, part: int) -> Iterator[Row]:
        begin = self._ends[part - 1] if part else 0
        bytes_of_rows = memoryview(self.array).cast("B")[begin * self._layout.size:self._ends[part] * self._layout.size]
        return (self._row(self._parts[part], fields) for fields in self._layout.iter_unpack(bytes_of_rows))

    def _row(self, part: Part, fields: Tuple[Any, ...]) -> Row:
        raise NotImplementedError

    def _frame(self, columns: Mapping[str, Any], buys: numpy.ndarray) -> pandas.DataFrame:
        """Returns a frame of locate, stock and side, followed by these columns."""
        import numpy
        import pandas

        names = sorted(set(self._stocks.values()))
        codes = numpy.zeros(1 << 16, numpy.int32)
        for locate, stock in self._stocks.items():
            codes[locate] = bisect.bisect_left(names, stock)
        locates = columns["locate"]
        stocks = pandas.Categorical.from_codes(codes[locates], categories=names)
        sides = pandas.Categorical.from_codes(numpy.where(buys, 0, 1), categories=list(SIDES))
        return pandas.DataFrame({"locate": locates, "stock": stocks, "side": sides, **columns})


class Orders(Table[Order]):
    """Live orders, each side of a locate in order of priority.

    array: structures with the fields reference, price, shares, locate, buy, attributed, mpid and code.
    """

    _layout = struct.Struct("=QIIH??4s4x4x")

    def to_numpy(self) -> numpy.ndarray:
        """Returns a read-only structured array over the same memory: `reference`, `price` in ten-thousandths of a dollar, `shares`,
        `locate`, `buy`, `attributed`, and `mpid`, which consists of zeros if the order is not attributed. Needs numpy."""
        return _over(self.array, {"reference": "u8", "price": "u4", "shares": "u4", "locate": "u2", "buy": "?", "attributed": "?",
                                  "mpid": "S4"})

    def to_pandas(self) -> pandas.DataFrame:
        """Returns a frame with the columns locate, stock, side, price in ten-thousandths of a dollar, shares, reference and mpid. Stocks,
        sides and participants are categories; the participant is missing if the order is not attributed. Needs numpy and pandas."""
        import numpy
        import pandas

        rows = self.to_numpy()
        attributed = rows["attributed"]
        names, places = numpy.unique(rows["mpid"][attributed], return_inverse=True)
        codes = numpy.full(len(rows), -1, numpy.int32)
        codes[attributed] = places
        participants = pandas.Categorical.from_codes(codes, categories=[name.decode() for name in names])
        columns = {name: rows[name] for name in ("locate", "price", "shares", "reference")}
        return self._frame({**columns, "mpid": participants}, rows["buy"])

    def _row(self, part: Part, fields: Tuple[Any, ...]) -> Order:
        reference, price, shares, locate, buy, attributed, mpid = fields
        return Order(locate, self._stocks[locate], SIDES[not buy], price, shares, reference, mpid.decode() if attributed else None)


class Levels(Table[Level]):
    """Price levels, the best price of each side of a locate first.

    array: structures with the fields shares_low, shares_high, orders and price. They contain neither locate nor side.
    """

    _layout = struct.Struct("=QQQI4x")

    def to_numpy(self) -> numpy.ndarray:
        """Returns a structured array: `locate`, `buy`, `price` in ten-thousandths of a dollar, `shares` and `orders`. Raises OverflowError
        if the shares of a level do not fit into 64 bits. Needs numpy."""
        import numpy

        raw = _over(self.array, {"shares_low": "u8", "shares_high": "u8", "orders": "u8", "price": "u4"})
        if raw["shares_high"].any():
            raise OverflowError("a level has 2^64 shares or more")
        counts = numpy.diff(numpy.array([0, *self._ends], "i8"))
        rows = numpy.empty(len(raw), [("locate", "u2"), ("buy", "?"), ("price", "u4"), ("shares", "u8"), ("orders", "u8")])
        rows["locate"] = numpy.repeat(numpy.array(self._locates, "u2"), counts)
        rows["buy"] = numpy.repeat(numpy.array([part.side == "B" for part in self._parts], "?"), counts)
        rows["price"], rows["shares"], rows["orders"] = raw["price"], raw["shares_low"], raw["orders"]
        return rows

    def to_pandas(self) -> pandas.DataFrame:
        """Returns a frame with the columns locate, stock, side, price in ten-thousandths of a dollar, shares and orders. Stocks and sides
        are categories. Needs numpy and pandas."""
        rows = self.to_numpy()
        return self._frame({name: rows[name] for name in ("locate", "price", "shares", "orders")}, rows["buy"])

    def _row(self, part: Part, fields: Tuple[Any, ...]) -> Level:
        low, high, orders, price = fields
        return Level(part.locate, self._stocks[part.locate], part.side, price, high << 64 | low, orders)


def _over(array: Any, fields: Dict[str, str]) -> numpy.ndarray:
    """Returns a read-only structured array over the memory of a ctypes array, with these of its fields."""
    import numpy

    kind = array._type_
    offsets = [getattr(kind, name).offset for name in fields]
    dtype = numpy.dtype({"names": list(fields), "formats": list(fields.values()), "offsets": offsets, "itemsize": c.sizeof(kind)})
    rows = numpy.frombuffer(array, dtype) if len(array) else numpy.empty(0, dtype)
    rows.flags.writeable = False
    return rows
