"""A live feed."""
from __future__ import annotations

import socket
import time
from typing import Iterator, List, Tuple

from .decoding import decoded
from .kinds import Message
from .sessions import ClientSession, Event

# How many bytes are read at once, and how often to check for something to send.
AT_ONCE, TICK = 1 << 16, 0.2


def follow(host: str, port: int, username: str, password: str, *, session: str = "", start: int = 1, timeout: float = 10.0) -> Iterator[Message]:
    """Yields the messages of a live feed over SoupBinTCP as they arrive, until the server ends its session.

    username, password, session: as in `ClientSession`; a blank session requests the current one.
    start: the number of the first message, counted from 1. To continue after a lost connection, pass the number after that of the last message
    received.
    timeout: how many seconds to wait for a connection.

    Raises PermissionError if the login is rejected, ConnectionError if the connection is lost, TimeoutError if the server is silent for 15 seconds,
    and `Refused` for an invalid message or server packet.
    """
    with socket.create_connection((host, port), timeout) as peer, ClientSession(username, password, session=session, start=start,
                                                                                now_ms=_now()) as client:
        _send(peer, client.login())
        peer.settimeout(TICK)
        held = b""
        while True:
            packets, held = _packets(held + _read(peer, client))
            for packet in packets:
                got = client.receive(packet, _now())
                if got.event is Event.ENDED:
                    return
                if got.event is Event.REJECTED:
                    raise PermissionError(f"the login is rejected with {got.code}")
                if got.event is Event.DATA:
                    assert got.number is not None, "a message has a number"
                    yield decoded(packet, 1, len(packet), got.number)


def _packets(held: bytes) -> Tuple[List[memoryview], bytes]:
    """Returns the complete packets at the front of these bytes, without their lengths, and the bytes after them."""
    view, found, at = memoryview(held), [], 0
    while at + 2 <= len(held) and (end := at + 2 + int.from_bytes(held[at:at + 2], "big")) <= len(held):
        found.append(view[at + 2:end])
        at = end
    return found, held[at:]


def _read(peer: socket.socket, client: ClientSession) -> bytes:
    """Returns the bytes that arrive next, or none after a while. Sends a heartbeat if one is due."""
    event = client.tick(_now())
    if event is Event.LOST:
        raise TimeoutError("the server was silent for 15 seconds")
    if event is Event.HEARTBEAT:
        _send(peer, ClientSession.HEARTBEAT)
    try:
        piece = peer.recv(AT_ONCE)
    except socket.timeout:
        return b""
    if not piece:
        raise ConnectionError("the server closed the connection before it ended the session")
    return piece


def _send(peer: socket.socket, packet: bytes) -> None:
    peer.sendall(len(packet).to_bytes(2, "big") + packet)


def _now() -> int:
    return int(time.monotonic() * 1000)
