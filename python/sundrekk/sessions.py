"""The two ends of a SoupBinTCP session, without sockets: pass in packets and times; each call returns what they mean.

Packets are passed and returned without the two bytes of their length. Times are in milliseconds from any fixed point.
"""
from __future__ import annotations

import enum
from typing import TYPE_CHECKING, Any, NamedTuple, Optional

from . import _library
from ._buffers import bytes_of, number
from ._handles import Held, done
from ._library import library
from .reasons import Refused

if TYPE_CHECKING:
    from _typeshed import ReadableBuffer


class Event(enum.IntEnum):
    """What a packet or a time means for a session.

    NOTHING: nothing.
    ACCEPTED: the login is accepted. Messages follow, starting with `number`.
    REJECTED: the login is rejected with `code`. The session is closed.
    DATA: a message with this `number`: the bytes of the packet after its first.
    ENDED: the server has ended the session, which is closed.
    LOGGED_OUT: the client has logged out. The session is closed.
    HEARTBEAT: a heartbeat must be sent. It counts as sent.
    LOST: the other side was silent for 15,000 ms. The session is closed.
    """

    NOTHING = 0
    ACCEPTED = 80
    REJECTED = 81
    DATA = 82
    ENDED = 83
    LOGGED_OUT = 84
    HEARTBEAT = 85
    LOST = 86


class Received(NamedTuple):
    """The meaning of a packet. `number` is that of a message, counted from 1; `code` is 'A', 'S', or another code that a server
    sent."""

    event: Event
    number: Optional[int] = None
    code: Optional[str] = None


class Session(Held):
    """The part that both ends of a session share."""

    _packet: Any

    def receive(self, packet: ReadableBuffer, now_ms: int) -> Received:
        """Returns the meaning of a packet from the other side. Raises `Refused` if it is not a packet, which leaves the session
        unchanged, or if it breaks the protocol, which closes the session."""
        with bytes_of(packet) as (at, size):
            act = self._packet(self._own, at, size, _moment(now_ms))
        if act.code not in Event.__members__.values():
            raise Refused(act.code, act.detail)
        event = Event(act.code)
        numbered = event in (Event.ACCEPTED, Event.DATA)
        return Received(event, act.number if numbered else None, chr(act.detail) if event is Event.REJECTED else None)

    def tick(self, now_ms: int) -> Event:
        """Returns what to do at this time if no packet has arrived: `NOTHING`, `HEARTBEAT` or `LOST`."""
        answer = library.session_tick(self._own, _moment(now_ms))
        if answer.code not in Event.__members__.values():
            raise Refused(answer.code)
        return Event(answer.code)

    def sent(self, now_ms: int) -> None:
        """Records that this end sent something at this time."""
        done(library.session_sent(self._own, _moment(now_ms)))


class ClientSession(Session):
    """A client that requests messages from number `start` on, counted from 1; 0 requests all.

    username: up to 6 printable characters; password, session: up to 10. A blank session requests the current one.
    """

    HEARTBEAT = b"R"
    LOGOUT = b"O"
    _packet = library.client_packet

    def __init__(self, username: str, password: str, *, session: str = "", start: int = 1, now_ms: int) -> None:
        super().__init__()
        login = _login(username, password, session)
        done(library.client_new(self._own, login, number(start, 64, "a number"), _moment(now_ms)))

    def login(self) -> bytes:
        """Returns the packet to send first."""
        return bytes(done(library.client_login(self._own)).bytes)


class ServerSession(Session):
    """A server of `total` messages, for one client with this login.

    username: up to 6 printable characters; password, session: up to 10.
    """

    HEARTBEAT = b"H"
    END = b"Z"
    _packet = library.server_packet

    def __init__(self, username: str, password: str, *, session: str = "", total: int, now_ms: int) -> None:
        super().__init__()
        login = _login(username, password, session)
        done(library.server_new(self._own, login, number(total, 64, "a number of messages"), _moment(now_ms)))

    def acceptance(self, start: int) -> bytes:
        """Returns the packet to send when a login is accepted, with messages from this number on."""
        return bytes(done(library.server_accepted(self._own, number(start, 64, "a number"))).bytes)

    @staticmethod
    def data(payload: ReadableBuffer) -> bytes:
        """Returns the packet that contains a message."""
        return b"S" + payload

    @staticmethod
    def rejection(code: str) -> bytes:
        """Returns the packet to send when a login is rejected with this code."""
        return b"J" + code.encode()


def _moment(now_ms: int) -> int:
    return number(now_ms, 64, "a moment in milliseconds")


def _login(username: str, password: str, session: str) -> _library.Login:
    login = _library.Login()
    for name, text in (("username", username), ("password", password), ("session", session)):
        field = getattr(login, name)
        if len(text.encode()) > len(field):
            raise ValueError(f"a {name} has up to {len(field)} characters")
        field[:] = text.encode().ljust(len(field))
    return login
