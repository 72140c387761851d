"""`live` with clients that read slowly: they keep their snapshots while there is memory, and then the slowest makes room.

RUNS lists the runs: functions that take the program and yield the differences found.
"""
import contextlib
import re
import threading
import time

from common import differs, split
from hostile import ACCEPTED, PAUSE, SLACK, busy_server, market, told_within
from living import BEAT, LOGIN, PATIENCE, SILENCE, block_in, connect, received
from standby import waits_for

# For how many seconds a client waits for memory before another one must make room, and after how many a client that reads 100 KB per second counts as
# slow.
ROOM, SLOW = 0.5, 6


class Reader:
    """A client that reads this many bytes per second for as long as it is connected."""

    def __init__(self, port, rate, room=None):
        self.peer, self.rate, self.count, self.is_open, self.leaves = connect(port, room), rate, 0, True, threading.Event()
        self.peer.sendall(LOGIN)
        self.count += len(self.peer.recv(ACCEPTED))
        self.thread = threading.Thread(target=self.read)
        self.thread.start()

    def read(self):
        begun, turns = time.monotonic(), 0
        with contextlib.suppress(OSError):
            while not self.leaves.is_set():
                turns += 1
                if not (piece := self.peer.recv(self.rate // 10)):
                    break
                self.count += len(piece)
                time.sleep(max(0, begun + turns / 10 - time.monotonic()))
        self.is_open = self.leaves.is_set()

    def has_begun(self):
        """Waits until its snapshot has begun."""
        while self.is_open and self.count < ACCEPTED + 1000:
            time.sleep(0.01)
        return self

    def __enter__(self):
        return self

    def __exit__(self, *_):
        self.leaves.set()
        self.thread.join()
        self.peer.close()


def endings(server, what):
    """Returns how many connections ended in this way."""
    return sum(line.endswith(what) for line in b"".join(server.output).decode().splitlines())


def lines_of(server):
    """Returns the number of each connection that has ended, and how it ended, in the order in which they ended."""
    lines = b"".join(server.output).decode().splitlines()
    return [(int(number), ending) for number, ending in (it.removeprefix("connection ").split(": ", 1) for it in lines)]


class Coming:
    """A client that logs in and receives its snapshot after some seconds."""

    def __init__(self, port):
        self.peer, self.begun = connect(port), time.monotonic()
        self.peer.sendall(LOGIN)
        self.accepted = received(self.peer, ACCEPTED)

    def told(self):
        """Returns after how many seconds its snapshot began, and everything that it received."""
        block = block_in(self.peer)
        while block == BEAT:
            block = block_in(self.peer)
        seconds = time.monotonic() - self.begun
        with contextlib.suppress(ConnectionError):
            return seconds, self.accepted + block + received(self.peer)
        return seconds, b""


def twelve_slow_readers_have_room(program):
    """Each has a snapshot of its own. The next client has one at once, and none is cut off for it."""
    with busy_server(program) as (server, _), contextlib.ExitStack() as held:
        for _ in range(12):
            held.enter_context(Reader(server.port, 100_000, 4096)).has_begun()
        told = told_within(server.port, 10)
        if told.pause > PAUSE or not market().is_told(told.data):
            yield f"the next client had {len(told.data)} bytes after {told.seconds:.1f} seconds, and received nothing for {told.pause:.1f}"
        yield from differs("cut off", endings(server, "cut off as the slowest"), 0)


def a_snapshot_waits_for_memory(program):
    """Two snapshots do not fit. The second client receives heartbeats until the first one has its snapshot, and each receives a complete one."""
    with busy_server(program, "--snapshot-memory", "1M") as (server, _), Reader(server.port, 1_500_000, 1 << 18) as first:
        first.has_begun()
        told = told_within(server.port)
        first.thread.join()
        yield from differs("the second client receives the market", market().is_told(told.data), True)
        yield from differs("it waits", BEAT in split(told.data), True)
        if abs(first.count - len(told.data)) > 1000:
            yield f"the first has {first.count} bytes, and the second {len(told.data)}"


def the_reader_that_was_slow_for_longest_makes_room(program):
    """There is memory for two. The first client is cut off when another has waited for half a second. An earlier one, which has left, does not
    count."""
    with busy_server(program, "--snapshot-memory", "20M") as (server, _), contextlib.ExitStack() as held:
        for _ in range(2):
            held.enter_context(Reader(server.port, 100_000, 4096)).has_begun()
        # By now each client has read less than a megabyte per second, including the bytes that the system buffers for it.
        time.sleep(SLOW)
        with Coming(server.port).peer as early:
            # It waits for less than half a second.
            early.settimeout(ROOM / 2)
            with contextlib.suppress(TimeoutError):
                received(early, 1)
            early.settimeout(PATIENCE)
            early.sendall(b"\0\x01O")
            received(early)
        time.sleep(ROOM)
        coming = Coming(server.port)
        waits_for(lambda: endings(server, "cut off as the slowest"))
        seconds, (_, told) = time.monotonic() - coming.begun, coming.told()
        if seconds < ROOM - 0.02:
            yield f"the slowest is cut off after {seconds:.3f} seconds"
        yield from differs("the next client receives the market", market().is_told(told), True)
        coming.peer.close()
        waits_for(lambda: lines_of(server)[-1][1].startswith("accepted at "))
        (slowest, _), (next_one, _) = lines_of(server)[-2:]
        yield from differs("the slowest, the other, the early one, and the next one came one after another", next_one - slowest, 3)
        yield from differs("cut off as the slowest", endings(server, "cut off as the slowest"), 1)


def eight_slow_readers_hinder_no_other(program):
    """There is memory for the snapshot of each. The ninth client is accepted at once, receives a heartbeat every second, and has its snapshot within
    four times the time that this takes alone."""
    with busy_server(program, "--snapshot-memory", "64M") as (server, _), contextlib.ExitStack() as readers:
        bound = 4 * told_within(server.port).seconds + SLACK
        for _ in range(8):
            readers.enter_context(Reader(server.port, 100_000, 4096))
        told = told_within(server.port, 10)
        if told.seconds > bound or told.pause > PAUSE or not market().is_told(told.data):
            yield f"the ninth client had {len(told.data)} bytes after {told.seconds:.1f} seconds, and received nothing for {told.pause:.1f}"


def a_slow_reader_is_not_cut_off(program):
    """A client that reads 64 KiB in 15 seconds is fast enough to be kept, whatever the size of its receive buffer."""
    rows = [(60_000, None), (60_000, 4096), (30_000, 4096), (10_000, 4096), (5_000, 4096), (30_000, None)]
    with busy_server(program) as (server, _), contextlib.ExitStack() as held:
        readers = [held.enter_context(Reader(server.port, *row)) for row in rows]
        time.sleep(SILENCE + 5)
        yield from differs("cut off", endings(server, "cut off"), 0)
        for row, reader in zip(rows, readers):
            yield from differs(f"the reader of {row} is open", reader.is_open, True)


RUNS = [
    twelve_slow_readers_have_room,
    a_snapshot_waits_for_memory,
    the_reader_that_was_slow_for_longest_makes_room,
    eight_slow_readers_hinder_no_other,
    a_slow_reader_is_not_cut_off,
]
