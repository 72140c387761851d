"""`fetch` and `serve`, stopped and continued as by a shell's job control: each session has the time that is left.

RUNS lists the runs: functions that take the program and yield the differences found.
"""
import contextlib
import signal
import socket
import subprocess
import time

from common import differs
from fetches import SNAPSHOT, login_from
from fetches import answer as answer_from
from sessions import EXAMPLES, LOGIN, Server, answer, connect, held_by, large_server, login_words, messages, received, snapshot

# How long a process may take until it waits for its peer.
SOON = 0.5
FETCHED = 0, SNAPSHOT, b""


def stop(process, seconds=0.1):
    """Stops a process and continues it after this time."""
    process.send_signal(signal.SIGSTOP)
    time.sleep(seconds)
    process.send_signal(signal.SIGCONT)


def fetched(program, limit, serve):
    """Returns how a fetch with this time limit ended. Calls `serve` with its process and the socket of its connection, after its login."""
    with socket.create_server(("127.0.0.1", 0)) as listener:
        port = listener.getsockname()[1]
        words = [program, "fetch", *login_words(port), "--timeout", str(limit)]
        with subprocess.Popen(words, stdout=subprocess.PIPE, stderr=subprocess.PIPE) as client:
            with listener.accept()[0] as peer, contextlib.suppress(ConnectionError):
                login_from(peer)
                serve(client, peer)
            output, error = client.communicate(timeout=60)
    return client.returncode, output, error.replace(b":%d:" % port, b":PORT:")


def a_fetch_that_was_stopped_goes_on(program):
    """The process is stopped before the first byte of the answer, within a packet, and between two."""
    data = answer_from(1)
    for cut in 0, 20, len(data) // 2:
        def slowly(client, peer):
            peer.sendall(data[:cut])
            time.sleep(SOON)
            stop(client)
            time.sleep(SOON)
            peer.sendall(data[cut:])

        yield from differs(f"stopped after {cut} bytes", fetched(program, 20, slowly), FETCHED)


def what_has_arrived_while_a_fetch_was_stopped_is_read(program):
    """It was stopped for longer than its time limit."""
    def meanwhile(client, peer):
        time.sleep(SOON)
        client.send_signal(signal.SIGSTOP)
        peer.sendall(answer_from(1))
        time.sleep(2)
        client.send_signal(signal.SIGCONT)

    yield from differs("fetched", fetched(program, 1, meanwhile), FETCHED)


def stops_give_a_silent_server_no_more_time(program):
    """The fetch is stopped more often than its time limit would allow."""
    limit, begun = 4, time.monotonic()

    def silent(client, peer):
        while client.poll() is None and time.monotonic() < begun + 5 * limit:
            stop(client)
            time.sleep(limit / 5)

    wanted = 3, b"", b"itchsnap: read failed\n  127.0.0.1:PORT: no answer in time\n"
    yield from differs("fetched", fetched(program, limit, silent), wanted)
    seconds = time.monotonic() - begun
    if not limit - 0.1 < seconds < 2 * limit:
        yield f"given up after {seconds:.1f} seconds"


def a_server_that_was_stopped_goes_on_with_a_login(program):
    """A client has sent half of the login before, and sends the rest afterwards."""
    wanted = snapshot(program, EXAMPLES / "opening.itch")
    with Server(program, EXAMPLES / "opening.itch", 1) as server:
        with connect(server.port) as peer, contextlib.suppress(ConnectionError):
            peer.sendall(LOGIN[:20])
            time.sleep(SOON)
            stop(server.process)
            time.sleep(SOON)
            peer.sendall(LOGIN[20:])
            yield from differs("the answer", received(peer), answer(wanted))
        yield from server.differences(f"accepted from 1, {messages(wanted)} packets")


def a_server_that_was_stopped_goes_on_with_an_answer(program):
    """The server is waiting for a client that does not read, and that then reads everything."""
    with large_server(program, 1) as (server, wanted):
        with connect(server.port) as peer:
            peer.sendall(LOGIN)
            time.sleep(2 * SOON)
            stop(server.process)
            time.sleep(SOON)
            yield from differs("the complete answer", received(peer) == answer(wanted), True)
        yield from server.differences(f"accepted from 1, {messages(wanted)} packets")


def stops_give_a_slow_login_no_more_time(program):
    wanted = snapshot(program, EXAMPLES / "opening.itch")
    with Server(program, EXAMPLES / "opening.itch", 2) as server, connect(server.port) as slow:
        slow.sendall(LOGIN[:20])
        yield from held_by(program, "a slow login", server, wanted, 20, lambda: stop(server.process))


RUNS = [
    a_fetch_that_was_stopped_goes_on,
    what_has_arrived_while_a_fetch_was_stopped_is_read,
    stops_give_a_silent_server_no_more_time,
    a_server_that_was_stopped_goes_on_with_a_login,
    a_server_that_was_stopped_goes_on_with_an_answer,
    stops_give_a_slow_login_no_more_time,
]
