"""Orders and levels as tables: against the program's output, as sequences, and in numpy, pandas and pyarrow, if installed.

RUNS lists the runs: functions that yield the differences found.
"""
import csv
import ctypes
import importlib.util

import common
import samples
from common import differs
from samples import generated, raised
from sundrekk import Day, Level, Levels, Market, Order
from sundrekk._library import PriceLevel
from sundrekk.tables import Part

LOCATES = "1-50"


def left_out(what, *modules):
    """Returns whether one of these modules is missing, and if so prints what is skipped."""
    missing = [module for module in modules if importlib.util.find_spec(module) is None]
    if missing:
        print(f"skipped: {what}: not installed: {', '.join(missing)}")
    return bool(missing)


def ten_thousandths(price):
    """Returns a price that the program prints in the form of the package."""
    dollars, decimals = price.split(".")
    return int(dollars) * 10_000 + int(decimals)


def printed_levels(day):
    """Returns the levels that `book --csv` prints."""
    lines = samples.program("book", LOCATES, "--csv", day=day)[1].decode().splitlines()
    return [Level(int(locate), stock, side, ten_thousandths(price), int(shares), int(orders))
            for locate, stock, side, price, shares, orders in csv.reader(lines[1:])]


def printed_orders(snapshot):
    """Returns the orders that `show --types AF` prints for a snapshot. A line contains the number, type, locate, tracking number,
    timestamp, reference, side, shares, stock, price and participant."""
    rows = []
    for line in samples.program("show", "--types", "AF", day=snapshot)[1].decode().splitlines():
        _, _, locate, _, _, reference, side, shares, stock, price, *mpid = line.split()
        rows.append(Order(int(locate), stock.strip("[]"), side, ten_thousandths(price), int(shares), int(reference),
                          mpid[0].strip("[]") if mpid else None))
    return rows


def levels_are_those_that_the_program_prints():
    snapshot = Day.of(generated()).snapshot()
    yield from differs("levels", list(snapshot.levels), printed_levels(generated()))
    with Market.load(snapshot) as market:
        yield from differs("levels of a market", list(market.levels()), printed_levels(generated()))


def orders_are_those_that_the_program_prints():
    snapshot = Day.of(generated()).snapshot()
    wanted = printed_orders(snapshot.data)
    yield from differs("orders", list(snapshot.orders), wanted)
    yield from differs("the attributed ones", {it.mpid for it in snapshot.orders}, {None, "MPID"})
    with Market.load(snapshot) as market:
        yield from differs("orders of a market", list(market.orders()), wanted)


def a_table_is_a_sequence():
    snapshot = Day.of(generated()).snapshot()
    for table in snapshot.orders, snapshot.levels:
        rows = list(table)
        yield from differs("the length", len(table), len(rows))
        yield from differs("each row", [table[at] for at in range(len(table))], rows)
        yield from differs("each row from the end", [table[-at] for at in range(1, len(table) + 1)], rows[::-1])
        yield from differs("slices", (table[5:40:7], table[-3:], table[len(rows):]), (rows[5:40:7], rows[-3:], []))
        for at in (len(rows), -len(rows) - 1):
            yield from differs(f"row {at}", raised(table.__getitem__, at), "IndexError")
        yield from differs("a row that is there", rows[17] in table, True)
        yield from differs("each locate", [table.at(locate) for locate in range(52)],
                           [[row for row in rows if row.locate == locate] for locate in range(52)])


def a_table_of_nothing_is_empty():
    snapshot = Day.of(b"").snapshot()
    for table in snapshot.orders, snapshot.levels:
        yield from differs("rows", (len(table), list(table), table[:], table.at(1)), (0, [], [], []))
        yield from differs("a row", raised(lambda: table[0]), "IndexError")


def the_array_has_the_rows_as_structures():
    snapshot = Day.of(generated()).snapshot()
    orders = [(it.reference, it.price, it.shares, it.locate, it.buy, bytes(it.mpid)) for it in snapshot.orders.array]
    wanted = [(row.reference, row.price, row.shares, row.locate, row.side == "B", (row.mpid or "\0" * 4).encode())
              for row in snapshot.orders]
    yield from differs("orders", orders, wanted)
    levels = [(it.shares_low, it.shares_high, it.orders, it.price) for it in snapshot.levels.array]
    yield from differs("levels", levels, [(row.shares, 0, row.orders, row.price) for row in snapshot.levels])


def the_greatest_values_fit():
    snapshot = Day.of(common.file("MAX SELL_MAX")).snapshot()
    most = 2**32 - 1
    yield from differs("orders", list(snapshot.orders), [Order(65535, "MAX", "S", most, most, 2**64 - 1, None)])
    yield from differs("levels", list(snapshot.levels), [Level(65535, "MAX", "S", most, most, 1)])


def large_levels():
    """Returns a table with a level of more shares than 64 bits can hold. No market that fits into memory here has such a level."""
    array = (PriceLevel * 1)(PriceLevel(5, 1, 2**32, 7))
    return Levels(array, {1: "AAPL"}, [Part(1, "B", 1), Part(1, "S", 1)])


def shares_of_more_than_64_bits_fit():
    yield from differs("rows", list(large_levels()), [Level(1, "AAPL", "B", 7, 2**64 + 5, 2**32)])


def arrays_of_numpy():
    if left_out("arrays", "numpy"):
        return
    import numpy

    snapshot = Day.of(generated()).snapshot()
    orders, levels = snapshot.orders.to_numpy(), snapshot.levels.to_numpy()
    yield from differs("orders", list(zip(orders["locate"], orders["buy"], orders["price"], orders["shares"], orders["reference"])),
                       [(row.locate, row.side == "B", row.price, row.shares, row.reference) for row in snapshot.orders])
    yield from differs("participants", list(orders["mpid"]), [(row.mpid or "").encode() for row in snapshot.orders])
    yield from differs("one memory", (orders.ctypes.data, orders.flags.writeable), (ctypes.addressof(snapshot.orders.array), False))
    yield from differs("levels", list(zip(levels["locate"], levels["buy"], levels["price"], levels["shares"], levels["orders"])),
                       [(row.locate, row.side == "B", row.price, row.shares, row.orders) for row in snapshot.levels])
    yield from differs("more than 64 bits", raised(large_levels().to_numpy), "OverflowError")
    empty = Day.of(b"").snapshot()
    yield from differs("nothing", (len(empty.orders.to_numpy()), len(empty.levels.to_numpy())), (0, 0))


def frames_of_pandas():
    if left_out("frames", "numpy", "pandas"):
        return
    snapshot = Day.of(generated()).snapshot()
    for table, kind in ((snapshot.orders, Order), (snapshot.levels, Level)):
        frame = table.to_pandas()
        yield from differs("columns", tuple(frame.columns), kind._fields)
        # A missing value does not equal itself.
        rows = [kind(*(None if value != value else value for value in row)) for row in frame.itertuples(index=False)]
        yield from differs("rows", rows, list(table))


def frames_of_nothing():
    if left_out("frames of nothing", "numpy", "pandas"):
        return
    snapshot = Day.of(b"").snapshot()
    for table, kind in ((snapshot.orders, Order), (snapshot.levels, Level)):
        frame = table.to_pandas()
        yield from differs("a frame", (len(frame), tuple(frame.columns)), (0, kind._fields))


def tables_of_arrow():
    if left_out("Arrow tables", "numpy", "pandas", "pyarrow"):
        return
    snapshot = Day.of(generated()).snapshot()
    for table, kind in ((snapshot.orders, Order), (snapshot.levels, Level)):
        rows = [kind(**row) for row in table.to_arrow().to_pylist()]
        yield from differs(kind.__name__, rows, list(table))


RUNS = [levels_are_those_that_the_program_prints, orders_are_those_that_the_program_prints, a_table_is_a_sequence,
        a_table_of_nothing_is_empty, the_array_has_the_rows_as_structures, the_greatest_values_fit, shares_of_more_than_64_bits_fit,
        arrays_of_numpy, frames_of_pandas, frames_of_nothing, tables_of_arrow]
