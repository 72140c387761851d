"""`fetch` from a test server, and `serve` with test clients: each call failing in turn, and the answers.

RUNS lists the runs: functions that take the program and yield the differences found.
"""
import contextlib
import queue
import socket
import struct
import tempfile
import threading
from pathlib import Path

import failing
from common import differs, ended_in, file, first_unmet, split
from sessions import LOGIN, Server, connect, free_port, login_words, received

DAY = file("START AAPL BUY_1 BUY_2_OF_200")
SNAPSHOT = file("START AAPL BUY_1 BUY_2_OF_200 END_5")
ENDED = b"\0\x01Z"
LOGIN_3 = LOGIN[:-1] + b"3"
REST_3 = file("BUY_1 BUY_2_OF_200 END_5")
FROM_3 = "--from", "3"
REST = False, (0, REST_3, b"")
WRONG = LOGIN_3.replace(b"secret", b"wrong ")
FETCHED = False, (0, SNAPSHOT, b"")
CAUSE = "Input/output error (os error 5)"
OUT_OF_MEMORY = 4, b"", b"itchsnap: out of memory\n"


def acceptance(first):
    return b"\0\x1fA  ITCHSNAP" + b"%20d" % first


def packets(data, first=1):
    """Returns the blocks of these bytes, from number `first` on, as packets of sequenced data."""
    return b"".join(struct.pack(">H", len(it) - 1) + b"S" + it[2:] for it in split(data)[first - 1:])


def answer(first):
    """Returns the answer to a login for the messages from this number on."""
    return acceptance(first) + packets(SNAPSHOT, first) + ENDED


def login_from(peer):
    """Returns the part of a login that a client sends."""
    login = b""
    while len(login) < len(LOGIN) and (more := peer.recv(len(LOGIN) - len(login))):
        login += more
    return login


@contextlib.contextmanager
def answering(data):
    """Yields a port where each client that logs in receives these bytes, and a function that returns what the next client sent."""
    said = queue.Queue()

    def serve():
        with contextlib.suppress(OSError):
            while True:
                with listener.accept()[0] as peer, contextlib.suppress(ConnectionError):
                    said.put(login_from(peer))
                    peer.sendall(data)

    def heard():
        with contextlib.suppress(queue.Empty):
            return said.get(timeout=60)

    with socket.create_server(("127.0.0.1", 0)) as listener:
        thread = threading.Thread(target=serve)
        thread.start()
        try:
            yield listener.getsockname()[1], heard
        finally:
            listener.shutdown(socket.SHUT_RDWR)
            thread.join()


@contextlib.contextmanager
def failing_fetch(program):
    """Returns a function that runs `fetch` at a port, with further arguments, in pieces of one byte, with one call failing, such as `recv:3`. It
    returns whether a call failed, and how the program ended."""
    with tempfile.TemporaryDirectory() as name:
        shim, failed = failing.build_shim(name), Path(name) / "a call failed"

        def perform(port, failure, *words):
            failed.unlink(missing_ok=True)
            ending = ended_in(name, program, "fetch", *login_words(port), *words, LD_PRELOAD=str(shim), FAIL=failure, FAILED=str(failed), PIECE="1")
            return failed.exists(), ending

        yield perform


def each_read_of_a_fetch_fails_in_turn(program):
    """The fetch ends before it reads the end of the session."""
    reads = len(answer(1)) - len(ENDED)
    with failing_fetch(program) as perform, answering(answer(1)) as (port, heard):
        error = f"itchsnap: read failed\n  127.0.0.1:{port}: {CAUSE}\n".encode()
        for nth in range(1, reads + 1):
            yield from differs(f"read {nth}", perform(port, f"recv:{nth}"), (True, (3, b"", error)))
            yield from differs(f"login {nth}", heard(), LOGIN)
        yield from differs("all reads", perform(port, f"recv:{reads + 1}"), FETCHED)


def each_write_of_a_login_fails_in_turn(program):
    with failing_fetch(program) as perform, answering(answer(1)) as (port, heard):
        error = f"itchsnap: write failed\n  127.0.0.1:{port}: {CAUSE}\n".encode()
        for at in range(len(LOGIN)):
            yield from differs(f"write {at + 1}", perform(port, f"send:{at + 1}"), (True, (3, b"", error)))
            yield from differs(f"login {at + 1}", heard(), LOGIN[:at])
        yield from differs("all writes", perform(port, f"send:{len(LOGIN) + 1}"), FETCHED)


def each_write_of_a_fetched_snapshot_fails_in_turn(program):
    error = f"itchsnap: write failed\n  standard output: {CAUSE}\n".encode()
    with failing_fetch(program) as perform, answering(answer(1)) as (port, _):
        for at in range(len(SNAPSHOT)):
            yield from differs(f"write {at + 1}", perform(port, f"write:{at + 1}+"), (True, (3, SNAPSHOT[:at], error)))
        yield from differs("all writes", perform(port, f"write:{len(SNAPSHOT) + 1}"), FETCHED)


def each_allocation_of_a_fetch_is_refused(program):
    """The first three allocations are for the buffers, before the login. Those before the connection are for the arguments; the rows of runs.ini
    test them. If memory for the hints of the settled book is refused, it does without them, and the snapshot is written all the same."""
    unnoticed = 0
    with failing_fetch(program) as perform, answering(answer(1)) as (port, heard):
        closed = free_port()
        first = first_unmet(lambda nth: perform(closed, f"memory:{nth}")[0])
        for nth in range(first, first + 64):
            failed, ending = perform(port, f"memory:{nth}")
            login = heard()
            if not failed:
                yield from differs("all allocations", (failed, ending), FETCHED)
                if nth < first + 5:
                    yield f"{nth - first} allocations"
                return
            if not unnoticed and ending == FETCHED[1]:
                unnoticed = 1
            else:
                yield from differs(f"allocation {nth - first}", ending, OUT_OF_MEMORY)
            yield from differs(f"login {nth - first}", login, LOGIN if nth >= first + 3 else b"")
        yield "more than 64 allocations"


def each_call_of_the_fetch_of_a_rest_fails_in_turn(program):
    """The fetch ends before it reads the end of the session, and writes nothing until everything has been received."""
    reads = len(answer(3)) - len(ENDED)
    with failing_fetch(program) as perform, answering(answer(3)) as (port, heard):
        error = f"itchsnap: read failed\n  127.0.0.1:{port}: {CAUSE}\n".encode()
        for nth in range(1, reads + 1):
            yield from differs(f"read {nth}", perform(port, f"recv:{nth}", *FROM_3), (True, (3, b"", error)))
            yield from differs(f"login {nth}", heard(), LOGIN_3)
        yield from differs("all reads", perform(port, f"recv:{reads + 1}", *FROM_3), REST)
        error = f"itchsnap: write failed\n  standard output: {CAUSE}\n".encode()
        for at in range(len(REST_3)):
            yield from differs(f"write {at + 1}", perform(port, f"write:{at + 1}+", *FROM_3), (True, (3, REST_3[:at], error)))
        yield from differs("all writes", perform(port, f"write:{len(REST_3) + 1}", *FROM_3), REST)


def each_allocation_of_the_fetch_of_a_rest_is_refused(program):
    """The first three allocations are for the buffers, before the login."""
    with failing_fetch(program) as perform, answering(answer(3)) as (port, heard):
        closed = free_port()
        first = first_unmet(lambda nth: perform(closed, f"memory:{nth}", *FROM_3)[0])
        for nth in range(first, first + 64):
            failed, ending = perform(port, f"memory:{nth}", *FROM_3)
            login = heard()
            if not failed:
                yield from differs("all allocations", (failed, ending), REST)
                if nth < first + 4:
                    yield f"{nth - first} allocations"
                return
            yield from differs(f"allocation {nth - first}", ending, OUT_OF_MEMORY)
            yield from differs(f"login {nth - first}", login, LOGIN_3 if nth >= first + 3 else b"")
        yield "more than 64 allocations"


@contextlib.contextmanager
def day_file():
    with tempfile.NamedTemporaryFile(suffix=".itch") as day:
        day.write(DAY)
        day.flush()
        yield day.name


def each_allocation_of_a_connection_ends_the_serving(program):
    """The allocations are for the buffers of a connection. Those made earlier are as many as when the port is in use."""
    with tempfile.TemporaryDirectory() as name, day_file() as day:
        shim, failed = failing.build_shim(name), Path(name) / "a call failed"

        def is_before(nth):
            failed.unlink(missing_ok=True)
            ended_in(name, program, "serve", day, *login_words(used.getsockname()[1]), "--count", "1", LD_PRELOAD=str(shim),
                     FAIL=f"memory:{nth}", FAILED=str(failed))
            return failed.exists()

        with socket.create_server(("127.0.0.1", 0)) as used:
            first = first_unmet(is_before)
        for nth in range(first, first + 8):
            failed.unlink(missing_ok=True)
            with Server(program, day, 1, LD_PRELOAD=str(shim), FAIL=f"memory:{nth}", FAILED=str(failed)) as server:
                with connect(server.port) as peer:
                    peer.sendall(LOGIN_3)
                    with contextlib.suppress(ConnectionError):
                        received(peer)
                output, error = server.process.communicate(timeout=60)
            is_refused = nth < first + 3
            status, lines, fault = OUT_OF_MEMORY if is_refused else (0, b"connection 1: accepted from 3, 3 packets\n", b"")
            wanted = is_refused, status, lines, f"listening on 127.0.0.1:{server.port}\n".encode() + fault
            yield from differs(f"allocation {nth - first}", (failed.exists(), server.process.returncode, output, server.line + error), wanted)


def what_is_no_snapshot_is_not_written(program):
    refused = file("START AAPL MSFT_AT_1")
    answers = {
        b"\0\x02JA": ("rejected A\n  not authorized: the user name or the password is not the server's", None),
        b"\0\x02JS": ("rejected S\n  the server does not have this session, or this message", None),
        b"\0\x02JX": ("rejected X", None),
        acceptance(1) + ENDED: ("ended early", None),
        b"": ("ended early", None),
        ENDED: ("ended early", None),
        answer(3): ("session fault", "accepted from 3, not from 1"),
        acceptance(1) + packets(refused): ("session fault", "message 3: stock mismatch"),
        b"\0\x02SS": ("session fault", "packet S before the login was accepted"),
        b"\0\x1fA": ("session fault", "no SoupBinTCP packet of a server: truncated, 3 bytes held"),
        b"\0\0": ("session fault", "no SoupBinTCP packet of a server: empty packet"),
        b"\0\x01?": ("session fault", "no SoupBinTCP packet of a server: unknown packet type 0x3f"),
        b"\0\x01R": ("session fault", "no SoupBinTCP packet of a server: packet R from the wrong side"),
        b"\0\x02AX": ("session fault", "no SoupBinTCP packet of a server: wrong length for packet A: want 31, got 2"),
        b"\0\x1fA" + b"ITCH\tSNAP " + b"1".rjust(20): ("session fault", "no SoupBinTCP packet of a server: bad text at 5"),
        b"\0\x1fA" + b"  ITCHSNAP" + b"x".rjust(20): ("session fault", "no SoupBinTCP packet of a server: bad number at 11"),
    }
    for data, (reason, fault) in answers.items():
        with failing_fetch(program) as perform, answering(data) as (port, _):
            lines = f"itchsnap: {reason}\n" + (f"  127.0.0.1:{port}: {fault}\n" if fault else "")
            yield from differs(f"answered {data!r}", perform(port, ""), (False, (1, b"", lines.encode())))


def a_rest_is_written_as_it_comes(program):
    """No order rule is applied to the rest, and the number in its End of Snapshot may be any."""
    refused = file("MSFT_AT_1 BUY_1 BUY_1 END_4")
    for data, rest in ((answer(3), REST_3), (acceptance(3) + packets(refused) + b"\0\0", refused)):
        with failing_fetch(program) as perform, answering(data) as (port, heard):
            yield from differs(f"answered {data!r}", perform(port, "", *FROM_3), (False, (0, rest, b"")))
            yield from differs("login", heard(), LOGIN_3)


def what_is_no_rest_is_not_written(program):
    answers = {
        b"\0\x02JS": ("rejected S\n  the server does not have this session, or this message", None),
        answer(1): ("session fault", "accepted from 1, not from 3"),
        answer(4): ("session fault", "accepted from 4, not from 3"),
        acceptance(3) + ENDED: ("ended early", None),
        acceptance(3) + packets(file("BUY_1 BUY_2_OF_200")) + ENDED: ("ended early", None),
        acceptance(3) + packets(file("BUY_1")) + b"\0\x03SGG": ("session fault", "message 4: wrong length for G: want 21, got 2"),
        acceptance(3) + b"\0\x01S": ("session fault", "message 3: empty message"),
        b"\0\0": ("session fault", "no SoupBinTCP packet of a server: empty packet"),
    }
    for data, (reason, fault) in answers.items():
        with failing_fetch(program) as perform, answering(data) as (port, _):
            lines = f"itchsnap: {reason}\n" + (f"  127.0.0.1:{port}: {fault}\n" if fault else "")
            yield from differs(f"answered {data!r}", perform(port, "", *FROM_3), (False, (1, b"", lines.encode())))


def served(program, clients):
    """Serves clients that all connect before the first one is answered. Returns what each sent and received, and its log line."""
    with day_file() as day, Server(program, day, len(clients)) as server, contextlib.ExitStack() as peers:
        connected = []
        for says, _, _ in clients:
            peer = peers.enter_context(connect(server.port))
            peer.sendall(says)
            peer.shutdown(socket.SHUT_WR)
            connected.append(peer)
        for peer, (says, wanted, _) in zip(connected, clients):
            yield from differs(f"the answer to {says!r}", received(peer), wanted)
        yield from server.differences(*(line for _, _, line in clients))


def connections_are_served_in_turn(program):
    yield from served(program, [(LOGIN_3, answer(3), "accepted from 3, 3 packets"), (WRONG, b"\0\x02JA", "rejected A"), (b"\0\x01O", b"", "left")])


def a_client_that_says_more_has_its_answer(program):
    yield from served(program, [(b"\0\x01R" + LOGIN_3 + b"\0\x01R\0\x01R\0\0", answer(3), "accepted from 3, 3 packets")])


def a_fault_of_a_client_ends_one_connection_alone(program):
    yield from served(program, [(b"\0\0", b"", "fault"), (LOGIN_3, answer(3), "accepted from 3, 3 packets")])


RUNS = [
    each_read_of_a_fetch_fails_in_turn,
    each_write_of_a_login_fails_in_turn,
    each_write_of_a_fetched_snapshot_fails_in_turn,
    each_allocation_of_a_fetch_is_refused,
    each_call_of_the_fetch_of_a_rest_fails_in_turn,
    each_allocation_of_the_fetch_of_a_rest_is_refused,
    each_allocation_of_a_connection_ends_the_serving,
    what_is_no_snapshot_is_not_written,
    a_rest_is_written_as_it_comes,
    what_is_no_rest_is_not_written,
    connections_are_served_in_turn,
    a_client_that_says_more_has_its_answer,
    a_fault_of_a_client_ends_one_connection_alone,
]
