"""`serve` and `fetch` at addresses of all kinds, with passwords from a file or the environment, sessions, time limits, and peers of other protocols.

RUNS lists the runs: functions that take the program and yield the differences found.
"""
import contextlib
import os
import re
import socket
import subprocess
import tempfile
import time
from pathlib import Path

from common import differs, ended_in, readable, split
from fetches import answering
from sessions import EXAMPLES, STARTING, fetched_differs, messages, snapshot

DAY = str(EXAMPLES / "opening.itch")
PASS = "--pass", "secret"


@contextlib.contextmanager
def serving(program, *words, **environment):
    """Yields a server of one connection on a free port, and the address and the port on which it reports that it listens."""
    process = subprocess.Popen([program, "serve", DAY, "--port", "0", "--user", "user", "--count", "1", *words],
                               stdout=subprocess.PIPE, stderr=subprocess.PIPE, env={**os.environ, **environment})
    try:
        line = b""
        if readable([process.stderr], STARTING):
            line = process.stderr.readline()
        said = re.fullmatch(r"listening on (.+):(\d+)\n", line.decode())
        yield process, said and said[1], said and said[2]
    finally:
        process.kill()
        process.communicate()


def fetch(program, port, *words, **environment):
    """Runs `fetch`, and returns its status and both outputs."""
    with tempfile.TemporaryDirectory() as folder:
        return ended_in(folder, program, "fetch", "--port", str(port), "--user", "user", *words, **environment)


def is_served(program, fetches, *words, **environment):
    """Yields what is wrong when `fetch` runs with the given arguments and environment at a server with these."""
    wanted = snapshot(program, DAY)
    with serving(program, *words, **environment) as (process, _, port):
        if not port:
            yield f"{words}: nothing listens"
            return
        yield from fetched_differs(fetch(program, port, *fetches[0], **fetches[1]), wanted)
        output, error = process.communicate(timeout=60)
    line = f"connection 1: accepted from 1, {messages(wanted)} packets\n".encode()
    yield from differs(f"{words}", (process.returncode, output, error), (0, line, b""))


def has_ipv6():
    with contextlib.suppress(OSError), socket.socket(socket.AF_INET6) as probe:
        probe.bind(("::1", 0))
        return True


def a_server_listens_where_it_is_told(program):
    """The last host name has the address on which the server listens, and may have others before it, which `fetch` also tries."""
    places = [("127.0.0.2", "127.0.0.2"), ("0.0.0.0", "127.0.0.1"), ("127.0.0.1", "localhost")]
    if has_ipv6():
        places += [("::1", "::1"), ("::", "::1"), ("0:0:0:0:0:0:0:1", "::1")]
    for bound, host in places:
        with serving(program, "--bind", bound, *PASS) as (_, address, _):
            yield from differs(bound, address, "[::1]" if bound.startswith("0:") else f"[{bound}]" if ":" in bound else bound)
        yield from is_served(program, (("--host", host, *PASS), {}), "--bind", bound, *PASS)


def another_machine_s_address_is_a_failed_socket(program):
    with tempfile.TemporaryDirectory() as folder:
        got = ended_in(folder, program, "serve", DAY, "--port", "0", "--user", "user", *PASS, "--count", "1", "--bind", "192.0.2.1")
    yield from differs("bound", got, (3, b"", b"itchsnap: socket failed\n  192.0.2.1:0: Cannot assign requested address (os error 99)\n"))


def an_unknown_host_is_a_failed_socket(program):
    """The system's resolver is told not to wait for name servers that do not answer."""
    for host in ("no-such-host.invalid", "", "127.0.0.1 ", "h" * 300):
        status, output, error = fetch(program, 1, "--host", host, *PASS, RES_OPTIONS="timeout:1 attempts:1", LOCALDOMAIN="")
        lines = f"itchsnap: socket failed\n  {host}:1: failed to lookup address information".encode()
        if (status, output) != (3, b"") or not error.startswith(lines):
            yield f"{host!r}: {status}, {output!r}, {error!r}"


def a_refused_connection_names_its_host(program):
    places = [("127.0.0.1", b"127.0.0.1")] + ([("::1", b"[::1]")] if has_ipv6() else [])
    for host, name in places:
        with socket.socket(socket.AF_INET6 if ":" in host else socket.AF_INET) as held:
            # The port is bound, but nothing listens.
            held.bind((host, 0))
            port = held.getsockname()[1]
            got = fetch(program, port, "--host", host, *PASS)
        error = b"itchsnap: socket failed\n  %s:%d: Connection refused (os error 111)\n" % (name, port)
        yield from differs(host, got, (3, b"", error))


def a_password_is_a_line_of_a_file_or_of_the_environment(program):
    with tempfile.TemporaryDirectory() as folder:
        lines, word = Path(folder) / "lines", Path(folder) / "word"
        lines.write_text("secret\nanother\n")
        word.write_text("secret")
        at_hand, wrong = {"ITCHSNAP_PASS": "secret"}, {"ITCHSNAP_PASS": "wrong"}
        yield from is_served(program, ((), at_hand), "--pass-file", str(lines))
        yield from is_served(program, (("--pass-file", str(word)), wrong), **at_hand)
        yield from is_served(program, (PASS, wrong), *PASS, **wrong)


def a_file_that_has_no_password_is_told(program):
    with tempfile.TemporaryDirectory() as folder:
        rows = {
            "none": (None, (3, b"", b"itchsnap: cannot open\n  none: No such file or directory (os error 2)\n")),
            ".": (None, (3, b"", b"itchsnap: cannot open\n  .: Is a directory (os error 21)\n")),
            "bytes": (b"\xff\n", (3, b"", b"itchsnap: cannot open\n  bytes: stream did not contain valid UTF-8\n")),
            "empty": (b"", (2, b"", b"itchsnap: bad password\n  a password has 1 to 10 printable characters\n")),
            "line": (b"\nsecret\n", (2, b"", b"itchsnap: bad password\n  a password has 1 to 10 printable characters\n")),
            "long": (b"12345678901\n", (2, b"", b"itchsnap: bad password\n  a password has 1 to 10 printable characters\n")),
            "/dev/zero": (None, (2, b"", b"itchsnap: bad password\n  a password has 1 to 10 printable characters\n")),
        }
        for name, (data, wanted) in rows.items():
            if data is not None:
                (Path(folder) / name).write_bytes(data)
            words = "--port", "1", "--user", "user", "--pass-file", name
            yield from differs(f"fetch, {name}", ended_in(folder, program, "fetch", *words), wanted)
            yield from differs(f"serve, {name}", ended_in(folder, program, "serve", DAY, "--count", "1", *words), wanted)


def a_variable_that_is_not_utf_8_is_no_password(program):
    with tempfile.TemporaryDirectory() as folder:
        done = subprocess.run([program, "fetch", "--port", "1", "--user", "user"], cwd=folder, env={**os.environb, b"ITCHSNAP_PASS": b"\xff"},
                              capture_output=True, timeout=60)
    if (done.returncode, done.stdout) != (2, b"") or not done.stderr.startswith(b"error: a password is missing"):
        yield f"{done}"


def a_session_is_asked_for(program):
    yield from is_served(program, (("--session", "ITCHSNAP", *PASS), {}), *PASS)
    with serving(program, *PASS) as (process, _, port):
        yield from differs("another session", fetch(program, port, "--session", "GLIMPSE", *PASS), (1, b"", b"itchsnap: rejected S\n  the server does not have this session, or this message\n"))
        output, error = process.communicate(timeout=60)
    yield from differs("its line", (process.returncode, output, error), (0, b"connection 1: rejected S\n", b""))


def a_rest_follows_what_is_before_it(program):
    """The snapshot is cut before a message, and the rest is fetched from that message on. After End of Snapshot nothing is fetched."""
    whole = split(snapshot(program, DAY))
    last = len(whole)
    rests = {n: (0, b"".join(whole[n - 1:]), b"") for n in (1, 2, last - 1, last)}
    rests[last + 1] = 1, b"", b"itchsnap: ended early\n"
    rests[last + 2] = 1, b"", b"itchsnap: rejected S\n  the server does not have this session, or this message\n"
    for first, wanted in rests.items():
        with serving(program, *PASS) as (process, _, port):
            yield from differs(f"from {first}", fetch(program, port, "--from", str(first), "--session", "ITCHSNAP", "--timeout", "60", *PASS), wanted)
            output, error = process.communicate(timeout=60)
        line = f"accepted from {first}, {last + 1 - first} packets" if first < last + 2 else "rejected S"
        yield from differs(f"the line from {first}", (process.returncode, output, error), (0, f"connection 1: {line}\n".encode(), b""))


def within(seconds, begun):
    """Yields what is wrong unless the wait was at least this many seconds, and not many more."""
    if not seconds - 0.1 < (waited := time.monotonic() - begun) < seconds + 20:
        yield f"waited for {waited:.1f} seconds"


def a_silent_server_is_left_in_time(program):
    with socket.create_server(("127.0.0.1", 0)) as listener:
        port, begun = listener.getsockname()[1], time.monotonic()
        got = fetch(program, port, "--timeout", "1", *PASS)
        yield from within(1, begun)
    yield from differs("read", got, (3, b"", f"itchsnap: read failed\n  127.0.0.1:{port}: no answer in time\n".encode()))


def a_server_that_accepts_nobody_is_left_in_time(program):
    """Its queue is full, so the system answers no further connection."""
    with socket.socket() as listener, contextlib.ExitStack() as waiting:
        listener.bind(("127.0.0.1", 0))
        listener.listen(0)
        port = listener.getsockname()[1]
        for _ in range(4):
            peer = waiting.enter_context(socket.socket())
            peer.setblocking(False)
            peer.connect_ex(("127.0.0.1", port))
        time.sleep(0.2)
        begun = time.monotonic()
        got = fetch(program, port, "--timeout", "1", *PASS)
        yield from within(1, begun)
    yield from differs("connection", got, (3, b"", f"itchsnap: socket failed\n  127.0.0.1:{port}: connection timed out\n".encode()))


def a_server_in_time_is_fetched_from(program):
    yield from is_served(program, (("--timeout", "60", *PASS), {}), *PASS)


def a_peer_of_another_protocol_is_told(program):
    """Its first two bytes are interpreted as a length."""
    for data in (b"HTTP/1.1 400 Bad Request\r\n\r\n", b"SSH-2.0-OpenSSH_9.6\r\n", b"220 ftp\r\n", b"\x16\x03\x01\x02\x00"):
        with answering(data) as (port, _):
            got = fetch(program, port, *PASS)
        line = f"  127.0.0.1:{port}: no SoupBinTCP packet of a server: truncated, {len(data)} bytes held\n"
        yield from differs(f"{data!r}", got, (1, b"", b"itchsnap: session fault\n" + line.encode()))


RUNS = [
    a_server_listens_where_it_is_told,
    another_machine_s_address_is_a_failed_socket,
    an_unknown_host_is_a_failed_socket,
    a_refused_connection_names_its_host,
    a_password_is_a_line_of_a_file_or_of_the_environment,
    a_file_that_has_no_password_is_told,
    a_variable_that_is_not_utf_8_is_no_password,
    a_session_is_asked_for,
    a_rest_follows_what_is_before_it,
    a_silent_server_is_left_in_time,
    a_server_that_accepts_nobody_is_left_in_time,
    a_server_in_time_is_fetched_from,
    a_peer_of_another_protocol_is_told,
]
