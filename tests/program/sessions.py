"""`serve` and `fetch` in two processes, and `serve` with peers that misbehave.

RUNS lists the runs: functions that take the program and yield the differences found.
"""
import contextlib
import itertools
import os
import random
import socket
import struct
import subprocess
import tempfile
import threading
import time
from concurrent.futures import ThreadPoolExecutor
from pathlib import Path

import failing
import large
from common import readable

EXAMPLES = Path(__file__).resolve().parent.parent.parent / "examples"
LOGIN = b"\0\x2fLuser  secret    " + b" " * 10 + b"1".rjust(20)
# A server reads its complete file before it listens.
STARTING = 60
PORTS = itertools.count(random.randrange(12_000))


def free_port():
    """Returns a port below those that the system assigns, and a different one at each call, so that no other run uses it
    meanwhile."""
    while True:
        port = 20_000 + next(PORTS) % 12_000
        # It does not listen. A process that another thread starts meanwhile may hold it a little longer, which does not affect a
        # server.
        with contextlib.suppress(OSError), socket.socket() as probe:
            probe.setsockopt(socket.SOL_SOCKET, socket.SO_REUSEADDR, 1)
            probe.bind(("127.0.0.1", port))
            return port


def login_words(port, password="secret"):
    return ["--port", str(port), "--user", "user", "--pass", password]


def fetch(program, port, password="secret", **options):
    """Runs `fetch`, and returns its status and both outputs."""
    done = subprocess.run([program, "fetch", *login_words(port, password)], capture_output=True, timeout=120, **options)
    return done.returncode, done.stdout, done.stderr


def connect(port):
    return socket.create_connection(("127.0.0.1", port), timeout=60)


class Server:
    """Runs `serve` with a file for `count` connections, and waits until it listens."""

    def __init__(self, program, file, count, *options, stdout=subprocess.PIPE, **environment):
        self.port = free_port()
        words = [program, "serve", file, *login_words(self.port), "--count", str(count), *options]
        self.process = subprocess.Popen(words, stdout=stdout, stderr=subprocess.PIPE, env={**os.environ, **environment})
        self.line = self.output = b""

    def __enter__(self):
        if readable([self.process.stderr], STARTING):
            self.line = self.process.stderr.readline()
        return self

    def __exit__(self, *_):
        self.process.kill()
        self.process.wait()

    def differences(self, *endings):
        """Yields what is wrong with the end of the server, given how each connection must end."""
        output, error = self.process.communicate(timeout=60)
        output = self.output + output
        listening = f"listening on 127.0.0.1:{self.port}\n".encode()
        wanted = "".join(f"connection {number}: {ending}\n" for number, ending in enumerate(endings, 1)).encode()
        if (self.process.returncode, output, self.line, error) != (0, wanted, listening, b""):
            yield f"the server ended with {self.process.returncode}, {output!r}, {self.line + error!r}, not {wanted!r}"


def snapshot(program, file):
    return subprocess.run([program, "snap", file], capture_output=True, check=True).stdout


def messages(snapshot):
    count = at = 0
    while at < len(snapshot):
        at += 2 + struct.unpack_from(">H", snapshot, at)[0]
        count += 1
    return count


def fetched_differs(got, wanted):
    if got != (0, wanted, b""):
        yield f"fetched with {got[0]}, {len(got[1])} bytes, {got[2]!r}, not the {len(wanted)} bytes of the snapshot"


def what_is_served_is_fetched(program):
    for file in sorted(EXAMPLES.glob("*.itch")):
        if file.name == "refused.itch":
            continue
        wanted = snapshot(program, file)
        with Server(program, file, 2) as server:
            for _ in range(2):
                yield from fetched_differs(fetch(program, server.port), wanted)
            yield from server.differences(*[f"accepted from 1, {messages(wanted)} packets"] * 2)


def a_small_file_is_served_with_progress_as_without(program):
    wanted = snapshot(program, EXAMPLES / "opening.itch")
    with Server(program, EXAMPLES / "opening.itch", 1, "--progress") as server:
        yield from fetched_differs(fetch(program, server.port), wanted)
        yield from server.differences(f"accepted from 1, {messages(wanted)} packets")


def a_recorded_snapshot_is_served_with_its_number(program):
    for file in sorted(EXAMPLES.glob("*.snap")):
        wanted = file.read_bytes()
        with Server(program, file, 1, "--snapshot") as server:
            yield from fetched_differs(fetch(program, server.port), wanted)
            yield from server.differences(f"accepted from 1, {messages(wanted)} packets")


def a_part_of_a_day_is_served(program):
    wanted = subprocess.run([program, "snap", EXAMPLES / "book.itch", "--after", "5"], capture_output=True, check=True).stdout
    for part in (["--after", "5"], ["--until", "6"]):
        with Server(program, EXAMPLES / "book.itch", 1, *part) as server:
            yield from fetched_differs(fetch(program, server.port), wanted)
            yield from server.differences(f"accepted from 1, {messages(wanted)} packets")


@contextlib.contextmanager
def large_server(program, count):
    """Yields a server of a large snapshot, and the snapshot."""
    day, wanted = large.orders(200_000)
    with tempfile.NamedTemporaryFile(suffix=".itch") as file:
        file.write(day)
        file.flush()
        with Server(program, file.name, count) as server:
            yield server, wanted


def a_large_snapshot_is_fetched(program):
    with large_server(program, 1) as (server, wanted):
        yield from fetched_differs(fetch(program, server.port), wanted)
        yield from server.differences(f"accepted from 1, {messages(wanted)} packets")


def answer(snapshot):
    """Returns the answer to a login for all messages: the acceptance, a packet for each block of the snapshot, and the end of the
    session."""
    packets, at = [b"\0\x1fA  ITCHSNAP" + b"1".rjust(20)], 0
    while at < len(snapshot):
        length = struct.unpack_from(">H", snapshot, at)[0]
        packets.append(struct.pack(">H", length + 1) + b"S" + snapshot[at + 2:at + 2 + length])
        at += 2 + length
    return b"".join(packets) + b"\0\x01Z"


def received(peer):
    """Returns everything that a server sends until it closes the connection."""
    pieces = []
    while piece := peer.recv(1 << 16):
        pieces.append(piece)
    return b"".join(pieces)


def a_login_in_pieces_of_one_byte_is_answered(program):
    wanted = snapshot(program, EXAMPLES / "opening.itch")
    with Server(program, EXAMPLES / "opening.itch", 1) as server:
        with connect(server.port) as peer:
            peer.setsockopt(socket.IPPROTO_TCP, socket.TCP_NODELAY, 1)
            for at in range(len(LOGIN)):
                peer.sendall(LOGIN[at:at + 1])
            if received(peer) != answer(wanted):
                yield "another answer"
        yield from server.differences(f"accepted from 1, {messages(wanted)} packets")


def ten_thousand_debug_packets_are_passed_over(program):
    wanted = snapshot(program, EXAMPLES / "opening.itch")
    with Server(program, EXAMPLES / "opening.itch", 1) as server:
        with connect(server.port) as peer:
            peer.sendall(b"\0\x03+up" * 10_000 + LOGIN)
            if received(peer) != answer(wanted):
                yield "another answer"
        yield from server.differences(f"accepted from 1, {messages(wanted)} packets")


def a_client_that_goes_on_sending_has_the_whole_answer(program):
    """Clients must send heartbeats, and these arrive while the client is still reading the server's output."""
    with large_server(program, 1) as (server, wanted), connect(server.port) as peer:
        peer.sendall(LOGIN)
        has_all = threading.Event()

        def beat():
            with contextlib.suppress(OSError):
                while not has_all.wait(0.001):
                    peer.sendall(b"\0\x01R")

        beating = threading.Thread(target=beat)
        beating.start()
        time.sleep(1)
        pieces = []
        with contextlib.suppress(OSError):
            while piece := peer.recv(1 << 16):
                pieces.append(piece)
                time.sleep(0.005)
        has_all.set()
        beating.join()
        peer.close()
        if b"".join(pieces) != answer(wanted):
            yield f"{sum(map(len, pieces))} bytes, not the {len(answer(wanted))} of the answer"
        yield from server.differences(f"accepted from 1, {messages(wanted)} packets")


def served_after(program, leave):
    """Serves a large snapshot to a peer that logs in and leaves in the given way, and then to another one."""
    with large_server(program, 2) as (server, wanted):
        with connect(server.port) as peer:
            peer.sendall(LOGIN)
            leave(peer)
        yield from fetched_differs(fetch(program, server.port), wanted)
        yield from server.differences("fault", f"accepted from 1, {messages(wanted)} packets")


def a_peer_that_does_not_read_ends_nothing_else(program):
    yield from served_after(program, lambda peer: None)


def a_peer_killed_in_mid_answer_ends_nothing_else(program):
    def reset(peer):
        peer.recv(1000)
        # Closing with unread data resets the connection.
        peer.setsockopt(socket.SOL_SOCKET, socket.SO_LINGER, struct.pack("ii", 1, 0))

    yield from served_after(program, reset)


def a_peer_that_breaks_the_protocol_is_not_waited_for(program):
    """The peer sends an invalid packet and keeps its connection open: the next client is served at once."""
    wanted = snapshot(program, EXAMPLES / "opening.itch")
    with Server(program, EXAMPLES / "opening.itch", 2) as server, connect(server.port) as peer:
        begun = time.monotonic()
        peer.sendall(b"\0\0")
        yield from fetched_differs(fetch(program, server.port), wanted)
        if time.monotonic() - begun > 10:
            yield f"the next client had to wait for {time.monotonic() - begun:.1f} seconds"
        yield from server.differences("fault", f"accepted from 1, {messages(wanted)} packets")


def a_wrong_password_is_rejected(program):
    with Server(program, EXAMPLES / "opening.itch", 1) as server:
        got = fetch(program, server.port, password="wrong")
        if got != (1, b"", b"itchsnap: rejected A\n  not authorized: the user name or the password is not the server's\n"):
            yield f"fetched with {got}"
        yield from server.differences("rejected A")


def a_refused_file_is_not_served(program):
    done = subprocess.run(
        [program, "serve", EXAMPLES / "refused.itch", "--port", str(free_port()), "--user", "u", "--pass", "p", "--count", "1"],
        capture_output=True, timeout=60)
    if done.returncode != 1 or done.stdout or not done.stderr.startswith(b"itchsnap: message "):
        yield f"ended with {done}"


def socket_failed_differs(done, port, cause):
    wanted = f"itchsnap: socket failed\n  127.0.0.1:{port}: {cause}\n".encode()
    if (done.returncode, done.stdout, done.stderr) != (3, b"", wanted):
        yield f"ended with {done}"


def a_port_in_use_is_a_failed_socket(program):
    with socket.create_server(("127.0.0.1", 0)) as listener:
        port = listener.getsockname()[1]
        done = subprocess.run(
            [program, "serve", EXAMPLES / "opening.itch", "--port", str(port), "--user", "u", "--pass", "p", "--count", "1"],
            capture_output=True, timeout=60)
    yield from socket_failed_differs(done, port, "Address already in use (os error 98)")


def a_server_that_is_not_there_is_a_failed_socket(program):
    port = free_port()
    done = subprocess.run(
        [program, "fetch", "--port", str(port), "--user", "u", "--pass", "p"], capture_output=True, timeout=60)
    yield from socket_failed_differs(done, port, "Connection refused (os error 111)")


def a_server_that_ends_early_gives_nothing(program):
    """Each beginning of an answer, at the end of a packet and within one."""
    acceptance = b"\0\x1fA  ITCHSNAP" + b"1".rjust(20)
    message = b"\0\x0dSS" + bytes(10) + b"O"
    cut = "no SoupBinTCP packet of a server: truncated, {} bytes held"
    endings = {
        b"": None, acceptance: None, acceptance + b"\0\x01Z": None, acceptance + message: None,
        acceptance[:9]: cut.format(9), acceptance + message[:-1]: cut.format(len(message) - 1), acceptance * 2: "second login",
    }
    for answer, fault in endings.items():
        with socket.create_server(("127.0.0.1", 0)) as listener:
            port = listener.getsockname()[1]
            words = ["fetch", "--port", str(port), "--user", "user", "--pass", "secret"]
            with subprocess.Popen([program, *words], stdout=subprocess.PIPE, stderr=subprocess.PIPE) as client:
                with listener.accept()[0] as peer:
                    login = peer.recv(len(LOGIN), socket.MSG_WAITALL)
                    peer.sendall(answer)
                output, error = client.communicate(timeout=60)
        reason = f"session fault\n  127.0.0.1:{port}: {fault}" if fault else "ended early"
        if (login, client.returncode, output, error) != (LOGIN, 1, b"", f"itchsnap: {reason}\n".encode()):
            yield f"after {answer!r}: {login!r}, {client.returncode}, {output!r}, {error!r}"


def held_by(program, name, server, wanted, longest, slow):
    """Yields what is wrong unless the connection ends in a fault after 15 seconds at least, and `longest` at most. Calls `slow` every
    second."""
    start = time.monotonic()
    with ThreadPoolExecutor(1) as pool:
        line = pool.submit(server.process.stdout.readline)
        while not line.done() and time.monotonic() < start + 40:
            with contextlib.suppress(OSError):
                slow()
            time.sleep(1)
        seconds = time.monotonic() - start
        if not line.done():
            server.process.kill()
        server.output = line.result()
    if not 14 < seconds < longest:
        yield f"{name} held the server for {seconds:.1f} seconds"
    yield from fetched_differs(fetch(program, server.port), wanted)
    yield from server.differences("fault", f"accepted from 1, {messages(wanted)} packets")


def a_slow_login(program):
    """It sends heartbeats all the time, and never a login."""
    wanted = snapshot(program, EXAMPLES / "opening.itch")
    with Server(program, EXAMPLES / "opening.itch", 2) as server, connect(server.port) as slow:
        return list(held_by(program, "a slow login", server, wanted, 20, lambda: slow.sendall(b"\0\x01R")))


def a_slow_reader(program):
    """It reads 4 KiB per second, so each write is done within 15 seconds. The socket buffers and the TCP packets are small, so that
    little data is in transit."""
    with large_server(program, 2) as (server, wanted), socket.socket() as slow:
        slow.setsockopt(socket.SOL_SOCKET, socket.SO_RCVBUF, 4096)
        slow.setsockopt(socket.IPPROTO_TCP, socket.TCP_MAXSEG, 536)
        slow.connect(("127.0.0.1", server.port))
        slow.sendall(LOGIN)
        slow.settimeout(0.1)
        return list(held_by(program, "a slow reader", server, wanted, 25, lambda: slow.recv(4096)))


def slow_peers_hold_the_server_for_their_time(program):
    with ThreadPoolExecutor(2) as pool:
        for found in pool.map(lambda run: run(program), (a_slow_login, a_slow_reader)):
            yield from found


def a_call_that_fails_ends_one_connection(program):
    """Calls at a socket: the login is not read, or the answer, which is flushed at its end, is not written."""
    wanted = snapshot(program, EXAMPLES / "opening.itch")
    with tempfile.TemporaryDirectory() as folder:
        shim = failing.build_shim(folder)
        for failure in ("recv:1", "send:1", "setsockopt:2", "setsockopt:3"):
            with Server(program, EXAMPLES / "opening.itch", 2, LD_PRELOAD=str(shim), FAIL=failure) as server:
                with connect(server.port) as peer:
                    peer.sendall(LOGIN)
                    with contextlib.suppress(ConnectionResetError):
                        if got := received(peer):
                            yield f"{failure}: {got!r} was sent"
                yield from fetched_differs(fetch(program, server.port), wanted)
                yield from server.differences("fault", f"accepted from 1, {messages(wanted)} packets")


def a_call_of_fetch_that_fails_is_told(program):
    reasons = {"setsockopt:1": "socket failed", "send:1": "write failed", "recv:1": "read failed"}
    with tempfile.TemporaryDirectory() as folder:
        shim = failing.build_shim(folder)
        for failure, reason in reasons.items():
            with socket.create_server(("127.0.0.1", 0)) as listener:
                port = listener.getsockname()[1]
                got = fetch(program, port, env={**os.environ, "LD_PRELOAD": str(shim), "FAIL": failure})
            wanted = f"itchsnap: {reason}\n  127.0.0.1:{port}: Input/output error (os error 5)\n".encode()
            if got != (3, b"", wanted):
                yield f"{failure}: fetched with {got}"


def a_port_that_cannot_be_set_up_is_a_failed_socket(program):
    with tempfile.TemporaryDirectory() as folder:
        shim, port = failing.build_shim(folder), free_port()
        done = subprocess.run(
            [program, "serve", EXAMPLES / "opening.itch", *login_words(port), "--count", "1"],
            env={**os.environ, "LD_PRELOAD": str(shim), "FAIL": "setsockopt:1"}, capture_output=True, timeout=60)
    yield from socket_failed_differs(done, port, "Input/output error (os error 5)")


def a_full_output_is_a_failed_write(program):
    line = b"itchsnap: write failed\n  standard output: No space left on device (os error 28)\n"
    wanted = snapshot(program, EXAMPLES / "opening.itch")
    with open("/dev/full", "wb") as full:
        with Server(program, EXAMPLES / "opening.itch", 1) as server:
            done = subprocess.run([program, "fetch", *login_words(server.port)], stdout=full, stderr=subprocess.PIPE, timeout=60)
            if (done.returncode, done.stderr) != (3, line):
                yield f"fetch ended with {done}"
            yield from server.differences(f"accepted from 1, {messages(wanted)} packets")
        with Server(program, EXAMPLES / "opening.itch", 1, stdout=full) as server:
            yield from fetched_differs(fetch(program, server.port), wanted)
            error = server.process.communicate(timeout=60)[1]
            if (server.process.returncode, error) != (3, line):
                yield f"serve ended with {server.process.returncode}, {error!r}"


def only_127_0_0_1_is_listened_on(program):
    with Server(program, EXAMPLES / "opening.itch", 1) as server:
        for address in ("127.0.0.2", socket.gethostbyname(socket.gethostname())):
            if address == "127.0.0.1":
                continue
            with contextlib.suppress(OSError), socket.create_connection((address, server.port), timeout=10):
                yield f"{address} is listened on"
        fetch(program, server.port)


RUNS = [
    what_is_served_is_fetched,
    a_small_file_is_served_with_progress_as_without,
    a_recorded_snapshot_is_served_with_its_number,
    a_part_of_a_day_is_served,
    a_large_snapshot_is_fetched,
    a_login_in_pieces_of_one_byte_is_answered,
    ten_thousand_debug_packets_are_passed_over,
    a_peer_that_does_not_read_ends_nothing_else,
    a_peer_that_breaks_the_protocol_is_not_waited_for,
    a_wrong_password_is_rejected,
    a_refused_file_is_not_served,
    a_port_in_use_is_a_failed_socket,
    a_server_that_is_not_there_is_a_failed_socket,
    a_server_that_ends_early_gives_nothing,
    a_peer_killed_in_mid_answer_ends_nothing_else,
    a_client_that_goes_on_sending_has_the_whole_answer,
    a_call_that_fails_ends_one_connection,
    a_call_of_fetch_that_fails_is_told,
    a_port_that_cannot_be_set_up_is_a_failed_socket,
    a_full_output_is_a_failed_write,
    only_127_0_0_1_is_listened_on,
    slow_peers_hold_the_server_for_their_time,
]
