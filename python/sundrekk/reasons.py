"""Why a call is refused."""
from __future__ import annotations

import enum
from typing import Optional


class Reason(enum.IntEnum):
    """The reasons for which a call is refused, with the codes of itchsnap.h, which explains them.

    EMPTY to BAD_NUMBER: the payload is not a valid message, or the block is not a valid packet.
    UNKNOWN_LOCATE to UNEXPECTED_END: an order rule refuses a message.
    TRUNCATED to SHORT: a file is refused.
    OUT_OF_MEMORY to NO_NUMBER: a call is refused, such as one on a market that is closed (WRONG_HANDLE).
    FULL to BAD_SNAPSHOT: a joiner refuses a message.
    UNKNOWN_TYPE to BROKEN_SESSION: a session breaks the protocol.
    """

    EMPTY = 1
    WRONG_LENGTH = 2
    BAD_TEXT = 3
    BAD_SIDE = 4
    BAD_NUMBER = 5

    UNKNOWN_LOCATE = 16
    STOCK_MISMATCH = 17
    ZERO_SHARES = 18
    DUPLICATE_REFERENCE = 19
    UNKNOWN_REFERENCE = 20
    LOCATE_MISMATCH = 21
    TOO_MANY_SHARES = 22
    UNEXPECTED_END = 23

    TRUNCATED = 32
    TOO_MANY_MESSAGES = 33
    UNREAD = 34
    NO_END = 35
    AFTER_END = 36
    SHORT = 37

    OUT_OF_MEMORY = 48
    NO_ROOM = 49
    WRONG_HANDLE = 50
    IN_USE = 51
    ABSENT = 52
    NOT_JOINED = 53
    NO_NUMBER = 54

    FULL = 72
    CONFLICT = 73
    BAD_MESSAGE_NUMBER = 74
    HALTED = 75
    ALREADY_JOINED = 76
    TAKEN_NO_MEMORY = 77
    BAD_SNAPSHOT = 78

    UNKNOWN_TYPE = 96
    WRONG_SIDE = 97
    SECOND_LOGIN = 98
    EARLY = 99
    CLOSED = 100
    BROKEN_SESSION = 101


# The text of a reason, if it is not its name. `detail` is as in the header.
WORDS = {
    Reason.EMPTY: "empty message",
    Reason.WRONG_LENGTH: "wrong length: want {detail}",
    Reason.BAD_TEXT: "bad text at {detail}",
    Reason.BAD_SIDE: "bad side at {detail}",
    Reason.TOO_MANY_SHARES: "too many shares, {detail} remain",
    Reason.TRUNCATED: "truncated, {detail} bytes held",
    Reason.NO_END: "no end of snapshot",
    Reason.AFTER_END: "message after end of snapshot",
    Reason.WRONG_HANDLE: "closed, or not joined yet",
    Reason.FULL: "full, {detail} messages wait",
    Reason.UNKNOWN_TYPE: "unknown packet type 0x{detail:02x}",
    Reason.WRONG_SIDE: "packet 0x{detail:02x} from the wrong side",
    Reason.EARLY: "packet 0x{detail:02x} before the login",
}


class Refused(ValueError):
    """A file, a message, a packet or a call is refused. Its text is the program's error line, except that a wrong length states
    only the expected length.

    reason: why. A reason of order rules or of a payload is the first that applies.
    detail: as itchsnap.h specifies for the reason, such as the number of shares that remain; otherwise 0.
    number: the number, counted from 1, of the message that is refused, unfinished or missing; None if no numbered message is.
    cause: if a joiner has halted or has a bad snapshot, the reason why that message is refused.
    file: if two day files are compared, the refused one, 1 or 2.
    """

    def __init__(self, reason: int, detail: int = 0, number: Optional[int] = None, cause: Optional[int] = None,
                 file: Optional[int] = None) -> None:
        super().__init__(reason, detail, number, cause, file)
        self.reason = Reason(reason)
        self.detail = detail
        self.number = number
        self.cause = None if cause is None else Reason(cause)
        self.file = file

    def __str__(self) -> str:
        words = _words(self.reason, self.detail)
        if self.cause is not None:
            words += f": {_words(self.cause, self.detail)}"
        if self.reason is Reason.SHORT and self.number is not None:
            words = f"only {self.number - 1} messages"
        elif self.number is not None:
            words = f"message {self.number}: {words}"
        return words if self.file is None else f"{('first', 'second')[self.file - 1]}: {words}"


def _words(reason: Reason, detail: int) -> str:
    return WORDS.get(reason, reason.name.lower().replace("_", " ")).format(detail=detail)
