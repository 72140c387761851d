"""The status of `live` after a feed was lost or the server was restarted, and unusual peers of the status port.

RUNS lists the runs: functions that take the program and yield the differences found.
"""
import contextlib
import re
import socket
import struct
import subprocess
import threading

from common import differs, split
from living import ENDED, PATIENCE, WORDS, Feed, Running, acceptance, connect, day_of, folder_with, packet, plays, received, recorded, sends
from scraping import entries, figures, waits_for, watched, watched_log


def bytes_of_a_lost_feed_are_forgotten(program):
    """The feed begins with a later message than the next one. The other bytes that it has sent are not taken for those of the next connection."""
    day, _ = day_of(20)
    blocks = split(day)
    with Feed(sends(acceptance(5) + b"".join(map(packet, blocks[4:8]))), plays(day, then=ENDED)) as feed:
        words = "--feed", f"127.0.0.1:{feed.port}", "--port", "0", *WORDS, "--log", "json"
        with Running(program, "live", *words, listens=False) as server:
            status, _, lines = server.ended()
    got = [(event, fields.get("cause")) for _, _, event, fields in entries(lines, "json")]
    yield from differs("said", (status, got[1:]), (0, [("feed_lost", "gap"), ("feed_accepted", None), ("feed_ended", None)]))


def a_page_is_sent_to_its_end(program):
    """Even to a client that sends more after it has read a part of the page, and whose receive buffer is small."""
    with Feed(plays(day_of(20)[0], wait=threading.Event())) as feed, watched(program, feed.port) as server, connect(server.status, room=2304) as client:
        client.sendall(b"GET / HTTP/1.1\r\n\r\n")
        response = received(client, 100)
        for _ in range(10):
            with contextlib.suppress(ConnectionError):
                client.sendall(b"x" * 100)
                response += received(client, 10)
        with contextlib.suppress(ConnectionError):
            response += received(client)
    head, _, body = response.partition(b"\r\n\r\n")
    yield from differs("bytes", len(body), int(re.search(rb"Content-Length: (\d+)", head)[1]))


def what_was_recorded_before_was_not_received(program):
    """After a restart the messages of the record count as part of the market, but not as received since the start."""
    day, _ = day_of(40)
    kept = b"".join(split(day)[:50])
    with folder_with(**recorded(kept)) as folder, Feed(plays(day, wait=threading.Event())) as feed, \
            watched(program, feed.port, "--record", folder / "record") as server:
        waits_for(lambda: figures(server)["next_message"] == 61)
        got = figures(server)
        yield from differs("received", (got["messages_total"], sum(got["messages_by_second"]), got["record_bytes"]), (10, 10, len(day)))


def the_time_of_the_last_message(program):
    """Even if the feed was lost within a packet before: its bytes do not count for the next packet."""
    blocks = [it[:7] + (10**12 + at * 10**9).to_bytes(6, "big") + it[13:] for at, it in enumerate(split(day_of(20)[0]))]
    day = b"".join(blocks)
    for cut in (1, 2, 5, 13):
        with Feed(plays(day, until=20, then=packet(blocks[20])[:cut]), plays(day, until=21, wait=threading.Event())) as feed, \
                watched(program, feed.port) as server:
            waits_for(lambda: figures(server)["next_message"] == 22)
            yield from differs(f"after {cut} bytes", figures(server)["market_time_seconds"], 1020.0)


def a_response_that_never_ends_is_read_no_longer(program):
    """No further than its first mebibyte."""
    head = b"HTTP/1.1 200 OK\r\n\r\n"
    with socket.create_server(("127.0.0.1", 0)) as listener:
        asking = subprocess.Popen([program, "status", str(listener.getsockname()[1])], stdout=subprocess.PIPE, stderr=subprocess.PIPE)
        with listener.accept()[0] as peer, contextlib.suppress(ConnectionError):
            peer.sendall(head)
            # The server has closed the connection after a while, because it reads no further.
            for _ in range(1000):
                peer.sendall(b"x" * 65536)
    output, error = asking.communicate(timeout=PATIENCE)
    yield from differs("ended", (asking.returncode, len(output), error), (1, (1 << 20) - len(head), b""))


def resets(day, at):
    """Returns a script that sends the first messages, and a reset when it is time."""
    def script(peer, login):
        plays(day, until=5)(peer, login)
        at.wait(PATIENCE)
        peer.setsockopt(socket.SOL_SOCKET, socket.SO_LINGER, struct.pack("ii", 1, 0))

    return script


def causes_of_a_lost_feed(program):
    """A log contains each cause once, when it changes. Without --log only the loss is reported, with its cause, and the server's answers."""
    day, _ = day_of(20)
    rejects = sends(b"\0\x02JS")
    causes = ["reset", "rejected S", "in another session", "closed by the server", "refused"]
    plain = ["feed: accepted from 1\n", "feed: lost at 6: reset\n", "feed: rejected S\n", "feed: in session DAY2, not in ITCHSNAP\n", "feed: accepted from 6\n"]
    for form in ("json", "plain"):
        moment = threading.Event()
        with contextlib.ExitStack() as held:
            with Feed(resets(day, moment), rejects, rejects, plays(day, session=b"DAY2"), sends(b"")) as feed:
                server = held.enter_context(watched_log(program, feed.port, form) if form == "json" else watched(program, feed.port))
                waits_for(lambda: figures(server)["next_message"] == 6)
                moment.set()
                waits_for(lambda: figures(server)["feed_cause"] == "closed by the server")
            waits_for(lambda: figures(server)["feed_cause"] == "refused")
            losses = figures(server)["feed_losses_total"]
            waits_for(lambda: figures(server)["feed_losses_total"] > losses)
            with Feed(plays(day, wait=threading.Event()), port=feed.port):
                waits_for(lambda: figures(server)["feed_state"] == "following")
                # (the figures may come before the line)
                waits_for(lambda: any("accepted" in it for it in server.lines[4:]))
                lines = server.lines[2:]
        if form == "plain":
            yield from differs(form, lines, plain)
        else:
            got = [(event, fields.get("cause")) for _, _, event, fields in entries(lines, form)]
            yield from differs(form, got, [("feed_accepted", None), *(("feed_lost", it) for it in causes), ("feed_accepted", None)])


RUNS = [
    causes_of_a_lost_feed,
    bytes_of_a_lost_feed_are_forgotten,
    a_page_is_sent_to_its_end,
    what_was_recorded_before_was_not_received,
    the_time_of_the_last_message,
    a_response_that_never_ends_is_read_no_longer,
]
