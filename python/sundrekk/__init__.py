"""Market snapshots for Nasdaq TotalView-ITCH 5.0, proved: the library libitchsnap.so for Python.

    from sundrekk import Day

    with Day("day.itch") as day:
        print(day.check(), "messages")
        morning = day.snapshot(until="10:30")
    for level in morning.levels.at(1):
        print(level.side, level.price / 10_000, level.shares, level.orders)
    morning.levels.to_pandas()

Functions that read day files, snapshots, payloads or packets accept any buffer of bytes, such as `bytes`, a `memoryview` or an `mmap`, and do not
copy it. Prices are integers in ten-thousandths of a dollar. Times of the day are nanoseconds since midnight; times of sessions are milliseconds.
Rejected input raises `Refused`; its `reason` says why.
"""
from . import kinds
from .columns import Columns
from .days import Day
from .executions import Execution
from .following import follow
from .joiners import Joiner, Step
from .markets import Applied, Market
from .messages import fault_of, payloads
from .reasons import Reason, Refused
from .sessions import ClientSession, Event, Received, ServerSession
from .snapshots import Snapshot
from .tables import Level, Levels, Order, Orders
from .times import nanoseconds

__version__ = "0.1.0"
__all__ = ["Applied", "ClientSession", "Columns", "Day", "Event", "Execution", "Joiner", "Level", "Levels", "Market", "Order", "Orders", "Reason",
           "Received", "Refused", "ServerSession", "Snapshot", "Step", "fault_of", "follow", "kinds", "nanoseconds", "payloads"]
