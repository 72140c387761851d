"""Times of the day, and the first message of a day file at or after a time."""
from __future__ import annotations

import datetime
import re
from typing import Optional, Union

from ._buffers import bytes_of, number
from ._handles import found
from ._library import library

Time = Union[int, str, datetime.time]
DISTANCE = re.compile(r"(\d+)(h|m|s|ms)", re.ASCII)
UNITS = {"h": 3600 * 10**9, "m": 60 * 10**9, "s": 10**9, "ms": 10**6}
TIME = re.compile(r"([01]?\d|2[0-3]):([0-5]\d)(?::([0-5]\d)(?:\.(\d{1,9}))?)?", re.ASCII)


def nanoseconds(time: Time) -> int:
    """Returns the nanoseconds since midnight of a time: that number itself, a text such as '10:30', '9:30', '10:30:00' or
    '10:30:00.000000001', or a `datetime.time`."""
    if isinstance(time, datetime.time):
        return ((time.hour * 60 + time.minute) * 60 + time.second) * 10**9 + time.microsecond * 1000
    if not isinstance(time, str):
        return number(time, 64, "a time in nanoseconds")
    spelled = TIME.fullmatch(time)
    if spelled is None:
        raise ValueError(f"a time is as '10:30', '10:30:00' or '10:30:00.000000001', and not {time!r}")
    hours, minutes, seconds, decimals = spelled.groups(default="")
    return (int(hours) * 3600 + int(minutes) * 60 + int(seconds or 0)) * 10**9 + int(decimals.ljust(9, "0"))


def distance(every: Union[str, int, datetime.timedelta]) -> int:
    """Returns the nanoseconds of an interval: that number itself, a text such as '30s', '1m' or '1h', or a `datetime.timedelta`."""
    if isinstance(every, datetime.timedelta):
        every = (every.days * 86400 + every.seconds) * 10**9 + every.microseconds * 1000
    if isinstance(every, str):
        spelled = DISTANCE.fullmatch(every)
        if spelled is None:
            raise ValueError(f"a distance of time is as '30s', '1m' or '1h', and not {every!r}")
        every = int(spelled[1]) * UNITS[spelled[2]]
    if not number(every, 64, "a distance of time in nanoseconds"):
        raise ValueError("a distance of time is above 0")
    return every


def first_at(blocks: memoryview, time: int, at: int = 0) -> Optional[int]:
    """Returns the offset of the first block, from `at` on, whose message has a timestamp of `time` or later, or None."""
    with bytes_of(blocks[at:]) as (address, size):
        before = found(library.first_at(address, size, time))
    return None if before is None else at + before.count
