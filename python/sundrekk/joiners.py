"""A snapshot and a live feed, joined into one market."""
from __future__ import annotations

import enum
from typing import TYPE_CHECKING, Any, Iterable, Optional

from ._buffers import bytes_of, locates_of, number
from ._handles import done
from ._library import library
from .markets import Lookups
from .reasons import Reason, Refused

if TYPE_CHECKING:
    from _typeshed import ReadableBuffer


class Step(enum.IntEnum):
    """What a joiner did with a message.

    KEPT: it was kept, and waits.
    APPLIED: it was applied, and then the waiting messages up to the one before `next_number`.
    OLD: the market already contains it.
    MORE: it was a message of the snapshot, and more follow.
    JOINED: it ended the snapshot, and the waiting messages up to the one before `next_number` were applied.
    """

    KEPT = 64
    APPLIED = 65
    OLD = 66
    MORE = 67
    JOINED = 68


class Joiner(Lookups):
    """Joins a snapshot and the messages of a live feed into one market. Messages may arrive in any order, be lost and be repeated.

    waiting: the maximum number of waiting messages.
    only: the locates to keep. Messages at others are decoded and counted, but change nothing else.

    Until the two are joined, look-ups raise `Refused` with `Reason.WRONG_HANDLE`, and `next_number` and `snapshot` raise it with
    `Reason.NOT_JOINED`.
    """

    def __init__(self, waiting: int, *, only: Optional[Iterable[int]] = None) -> None:
        super().__init__()
        most = number(waiting, 64, "the number of messages that wait")
        if only is None:
            done(library.joiner_new(self._own, most))
        else:
            some = locates_of(only)
            done(library.joiner_new_only(self._own, most, some, len(some)))

    def live_message(self, message_number: int, payload: ReadableBuffer) -> Step:
        """Takes the message with this number of the live feed, counted from 1. Raises `Refused` with the reasons `FULL`, `CONFLICT`,
        `BAD_MESSAGE_NUMBER`, `HALTED`, `OUT_OF_MEMORY` and `TAKEN_NO_MEMORY`."""
        with bytes_of(payload) as (at, size):
            return _step(library.joiner_live(self._own, number(message_number, 64, "a number"), at, size))

    def snapshot_message(self, payload: ReadableBuffer) -> Step:
        """Takes the next message of the snapshot, the last of which is End of Snapshot. Raises `Refused` with the reasons `HALTED`,
        `ALREADY_JOINED`, `BAD_SNAPSHOT`, `OUT_OF_MEMORY` and `TAKEN_NO_MEMORY`."""
        with bytes_of(payload) as (at, size):
            return _step(library.joiner_snapshot(self._own, at, size))

    def restart(self) -> None:
        """Drops an unfinished or broken snapshot, and keeps the waiting messages."""
        done(library.joiner_restart(self._own))

    def resume(self) -> Step:
        """Applies the waiting messages, after a lack of memory prevented that."""
        return _step(library.joiner_resume(self._own))

    @property
    def next_number(self) -> int:
        """The number of the next message of the feed, counted from 1. Raises `Refused` with `Reason.NOT_JOINED` before it is known."""
        return done(library.joiner_next(self._own)).count

    @property
    def waiting(self) -> int:
        """The number of waiting messages."""
        return done(library.joiner_waiting(self._own)).count


def _step(answer: Any) -> Step:
    """Returns what was done with a message, or raises the reason why it was not taken."""
    if answer.code in Step.__members__.values():
        return Step(answer.code)
    reason = Reason(answer.code)
    if reason is Reason.FULL:
        raise Refused(reason, answer.number)
    if reason in (Reason.HALTED, Reason.BAD_SNAPSHOT):
        raise Refused(reason, answer.detail, answer.number, answer.cause)
    raise Refused(reason, answer.detail)
