"""Helpers for the runs of `live`, `follow` and `feed`: a server of a feed, a command that runs in the background, and clients."""
import contextlib
import os
import re
import socket
import struct
import subprocess
import tempfile
import threading
import time
from pathlib import Path

import large
from common import ended_in, split

LOGIN = b"\0\x2fLuser  secret    " + b" " * 10 + b"1".rjust(20)
WORDS = "--user", "user", "--pass", "secret"
REJECTED = ["itchsnap: rejected A\n", "  not authorized: the user name or the password is not the server's\n"]
ENDED, BEAT, CLIENT_BEAT = b"\0\x01Z", b"\0\x01H", b"\0\x01R"
# How long a process may take to start, and to do what a run waits for.
PATIENCE = 60
SILENCE = 15


SESSION = b"  ITCHSNAP"


def acceptance(first, session=SESSION):
    return b"\0\x1fA" + session.rjust(10) + b"%20d" % first


def packet(block):
    """Returns the packet of a message."""
    return struct.pack(">H", len(block) - 1) + b"S" + block[2:]


def answer(snapshot, session=SESSION):
    """Returns the answer to a login for all messages."""
    return acceptance(1, session) + b"".join(map(packet, split(snapshot))) + ENDED


def number_in(login):
    return max(1, int(login[-20:]))


def session_in(login):
    return login[-30:-20]


def block_in(peer):
    """Returns a complete block that a peer sends, or the bytes before its end."""
    block = received(peer, 2)
    return block + received(peer, int.from_bytes(block, "big")) if len(block) == 2 else block


def received(peer, count=None):
    """Returns this many bytes from a peer, or all bytes that it sends before its end."""
    pieces, left = [], float("inf") if count is None else count
    while left > 0 and (piece := peer.recv(int(min(left, 1 << 16)))):
        pieces.append(piece)
        left -= len(piece)
    return b"".join(pieces)


class Feed:
    """A server of a feed. For each connection it calls one of these scripts with the socket and the login, and the last script for all further
    connections. `logins` contains the requests, and `closing` is set when it must end."""

    def __init__(self, *scripts, address="127.0.0.1", port=0):
        self.scripts, self.logins, self.closing = scripts, [], threading.Event()
        self.listener = socket.create_server((address, port))
        self.port = self.listener.getsockname()[1]
        self.threads = [threading.Thread(target=self.accept)]
        self.threads[0].start()

    def accept(self):
        with contextlib.suppress(OSError):
            while True:
                peer, _ = self.listener.accept()
                self.threads.append(threading.Thread(target=self.play, args=(peer,)))
                self.threads[-1].start()

    def play(self, peer):
        peer.settimeout(PATIENCE)
        with peer, contextlib.suppress(OSError):
            if not (login := block_in(peer)):
                return
            self.logins.append(login)
            self.scripts[min(len(self.logins), len(self.scripts)) - 1](peer, login)

    def __enter__(self):
        return self

    def __exit__(self, *_):
        self.closing.set()
        self.listener.shutdown(socket.SHUT_RDWR)
        self.listener.close()

    def asked(self):
        return [number_in(login) for login in self.logins]


def plays(day, until=None, then=b"", held=b"", wait=None, session=SESSION):
    """Returns a script that sends the requested part of these messages, up to number `until`, and then these bytes. After `wait` it sends `held` and
    closes."""
    blocks = split(day)

    def script(peer, login):
        first = number_in(login)
        peer.sendall(acceptance(first, session) + b"".join(map(packet, blocks[first - 1:until])) + then)
        if wait:
            while not wait.wait(0.5):
                peer.sendall(BEAT)
        peer.sendall(held)

    return script


def sends(data):
    """Returns a script that sends these bytes and ends the connection."""
    return lambda peer, login: peer.sendall(data)


class Running:
    """A command that reports on standard error when it is ready, and then what happens. Keeps its arguments and its lines."""

    def __init__(self, program, *words, listens=True, **environment):
        self.process = subprocess.Popen([program, *map(str, words)], stdout=subprocess.PIPE, stderr=subprocess.PIPE, stdin=subprocess.DEVNULL,
                                        env={**os.environ, **environment})
        self.lines, self.arrived, self.is_silent, self.output = [], threading.Condition(), False, []
        self.readers = [threading.Thread(target=self.read_lines), threading.Thread(target=self.read_output)]
        for reader in self.readers:
            reader.start()
        self.listens, self.port = listens, None

    def read_lines(self):
        for line in self.process.stderr:
            with self.arrived:
                self.lines.append(line.decode())
                self.arrived.notify_all()
        with self.arrived:
            self.is_silent = True
            self.arrived.notify_all()

    def read_output(self):
        while piece := self.process.stdout.read1(1 << 16):
            self.output.append(piece)

    def said(self, pattern, seconds=PATIENCE):
        """Returns the first line with this beginning, when it is written, or None if the process ends without it."""
        def found():
            return next((line for line in self.lines if re.match(pattern, line)), None)
        with self.arrived:
            self.arrived.wait_for(lambda: found() or self.is_silent, seconds)
            return found()

    def count(self):
        """Returns how many lines have been written so far."""
        return b"".join(self.output).count(b"\n")

    def has_lines(self, count):
        """Waits for this many lines."""
        begun = time.monotonic()
        while self.count() < count and time.monotonic() < begun + PATIENCE:
            time.sleep(0.02)

    def __enter__(self):
        if self.listens:
            line = self.said("listening on ")
            self.port = int(line.rsplit(":", 1)[1]) if line else 0
        return self

    def __exit__(self, *_):
        self.process.kill()
        self.process.wait()
        for reader in self.readers:
            reader.join()
        self.process.stdout.close()
        self.process.stderr.close()

    def processor_seconds(self):
        """Returns how much processor time the process has used so far."""
        return int(Path(f"/proc/{self.process.pid}/schedstat").read_text().split()[0]) / 1e9

    def ended(self, seconds=PATIENCE):
        """Returns the status, the output, and the lines of standard error except the one about the port."""
        self.process.wait(seconds)
        for reader in self.readers:
            reader.join()
        return self.process.returncode, b"".join(self.output), [it for it in self.lines if not it.startswith("listening on ")]


def live(program, feed, *words, **environment):
    return Running(program, "live", "--feed", f"127.0.0.1:{feed}", "--port", "0", *WORDS, *words, **environment)


def follow(program, feed, glimpse, *words):
    return Running(program, "follow", "--feed", f"127.0.0.1:{feed}", "--glimpse", f"127.0.0.1:{glimpse}", *WORDS, *words, listens=False)


def feeding(program, file, *words):
    """Runs `feed` in the session that the feeds of this module also name."""
    return Running(program, "feed", file, "--port", "0", "--session", "ITCHSNAP", *WORDS, *words)


def fetch(program, port, *words):
    """Runs `fetch`, and returns its status and both outputs."""
    with tempfile.TemporaryDirectory() as folder:
        return ended_in(folder, program, "fetch", "--port", str(port), *WORDS, *words)


def connect(port, room=None):
    """Connects with a receive buffer of this size."""
    peer = socket.socket()
    if room:
        peer.setsockopt(socket.SOL_SOCKET, socket.SO_RCVBUF, room)
    peer.settimeout(PATIENCE)
    peer.connect(("127.0.0.1", port))
    return peer


def told(port, data):
    """Returns everything that a client receives that sends this, until its connection is closed."""
    with connect(port) as peer:
        peer.sendall(data)
        with contextlib.suppress(ConnectionError):
            return received(peer)
    return b"reset"


def memory_of(process):
    """Returns the peak memory of a process, in kilobytes: its address space, and the memory that it has written to."""
    status = Path(f"/proc/{process.pid}/status").read_text()
    return {kind: int(kilobytes) for kind, kilobytes in re.findall(r"^(VmPeak|VmHWM):\s+(\d+) kB$", status, re.M)}


def without_first_beats(data):
    """Returns what a client received without the heartbeats after its acceptance, which it receives while it waits for its snapshot."""
    first = last = len(acceptance(1))
    while data.startswith(BEAT, last):
        last += len(BEAT)
    return data[:first] + data[last:]


def day_of(count, symbols=20):
    return large.orders(count, symbols=symbols)


def recorded(record, session="ITCHSNAP"):
    """Returns a record and the session file next to it, as arguments of `folder_with`."""
    return {"record": record, "record.session": f"{session}\n".encode()}


def snapshot_after(program, day, count):
    with tempfile.TemporaryDirectory() as folder:
        Path(folder, "day.itch").write_bytes(day)
        return ended_in(folder, program, "snap", "day.itch", "--after", str(count))[1]


def number_of(snapshot):
    """Returns the number in the End of Snapshot that is the last block of these bytes."""
    return int(snapshot[-20:])


@contextlib.contextmanager
def folder_with(**files):
    with tempfile.TemporaryDirectory() as name:
        for file, data in files.items():
            Path(name, file).write_bytes(data)
        yield Path(name)


@contextlib.contextmanager
def large_server(program, *words):
    """Yields a server of a market of 8 MB, more than the system buffers for a client, its answer, and an event that ends its feed."""
    day, wanted = large.orders(200_000)
    end = threading.Event()
    with folder_with() as folder, Feed(plays(day, wait=end, held=ENDED)) as feed, live(program, feed.port, "--record", folder / "record", *words) as server:
        begun = time.monotonic()
        while time.monotonic() < begun + 2 * PATIENCE and (folder / "record").stat().st_size < len(day):
            time.sleep(0.2)
        yield server, answer(wanted), end
