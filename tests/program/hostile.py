"""`live` with hostile clients, with side outputs that fail, and at feeds that refuse it once or send at full speed.

RUNS lists the runs: functions that take the program and yield the differences found.
"""
import contextlib
import fcntl
import functools
import itertools
import os
import resource
import selectors
import shlex
import shutil
import struct
import subprocess
import sys
import threading
import time
from pathlib import Path
from typing import NamedTuple

import large
from common import differs, readable, split
from living import (BEAT, CLIENT_BEAT, ENDED, LOGIN, PATIENCE, REJECTED, SILENCE, Feed, acceptance, answer, connect, day_of, fetch, folder_with, live,
                    number_in, number_of, packet, plays, received, sends)

ACCEPTED = len(acceptance(1))
ORDERS, SYMBOLS, RATE = 200_000, 1000, 20_000
# How much longer a client may have to wait on a busy machine.
SLACK = 1
# How many descriptors a thousand connections need, here and in the server.
DESCRIPTORS = 4096
# A client hears something every second. This is the longest permitted silence on a busy machine.
PAUSE = 1.9

# Clients that log in, read an acceptance, leave and return until the process is killed. Arguments: the port, how many at a time, and the login.
HAMMER = """
import socket, sys, threading
port, count, login = int(sys.argv[1]), int(sys.argv[2]), bytes.fromhex(sys.argv[3])
def hammer():
    while True:
        try:
            with socket.create_connection(("127.0.0.1", port), 60) as peer:
                peer.sendall(login)
                left = 33
                while left and (piece := peer.recv(left)):
                    left -= len(piece)
        except OSError:
            pass
for _ in range(count):
    threading.Thread(target=hammer).start()
"""


class Market:
    """A day of orders that stay live and of one more symbol, as the packets of a feed; and what a client receives of it, except for its end."""

    def __init__(self):
        day, snapshot = large.orders(ORDERS, symbols=SYMBOLS)
        blocks = [*split(day), large.entry(SYMBOLS + 1)]
        self.count, self.packets = len(blocks), b"".join(map(packet, blocks))
        self.told = answer(snapshot[:-len(large.closing(1))] + blocks[-1])[:-len(ENDED)]
        # An order in that symbol that is added and deleted.
        reference = struct.pack(">Q", ORDERS + 1)
        fields = reference + struct.pack(">cI8sI", b"B", 100, large.stock(SYMBOLS + 1), 10_000)
        self.added = packet(large.block(b"A", SYMBOLS + 1, fields))
        self.pair = self.added + packet(large.block(b"D", SYMBOLS + 1, reference))

    def is_told(self, told):
        """Returns whether a client receives the market after some number of messages, and nothing else except heartbeats."""
        end = packet(large.closing(1))
        number = told[-len(ENDED) - 20:-len(ENDED)]
        tail = end[:-20] + number + ENDED
        wanted = [self.told + more + tail for more in (b"", self.added)]
        return told in wanted or without_beats(told) in wanted


@functools.lru_cache(maxsize=1)
def market():
    return Market()


class Steady:
    """A script: sends the day of the market at once, and then RATE messages per second until an event is set."""

    def __init__(self):
        self.end = threading.Event()

    def __call__(self, peer, login):
        day, turn = market(), 0.02
        peer.sendall(acceptance(number_in(login)) + day.packets)
        piece = day.pair * (int(RATE * turn) // 2)
        begun, turns = time.monotonic(), 0
        while not self.end.is_set():
            peer.sendall(piece)
            turns += 1
            time.sleep(max(0, begun + turns * turn - time.monotonic()))
        peer.sendall(ENDED)


def without_beats(told):
    return b"".join(it for it in split(told) if it != BEAT)


class Told(NamedTuple):
    """What a client receives that logs in, how many seconds that took, and the longest silence."""

    data: bytes
    seconds: float
    pause: float


def told_within(port, seconds=PATIENCE):
    """Logs in and returns what the client receives until it has everything, or within this many seconds."""
    pieces, pause = [], 0
    with connect(port) as peer:
        begun = last = time.monotonic()
        peer.sendall(LOGIN)
        with contextlib.suppress(OSError):
            while (left := begun + seconds - time.monotonic()) > 0:
                peer.settimeout(left)
                if not (piece := peer.recv(1 << 18)):
                    break
                pieces.append(piece)
                now = time.monotonic()
                last, pause = now, max(pause, now - last)
    now = time.monotonic()
    return Told(b"".join(pieces), now - begun, max(pause, now - last))


@contextlib.contextmanager
def busy_server(program, *words):
    """Yields a server of the market whose feed continues at RATE."""
    last, steady = market().count, Steady()
    with Feed(steady) as feed, live(program, feed.port, *words) as server:
        while (got := fetch(program, server.port))[0] != 0 or number_of(got[1]) <= last:
            time.sleep(0.1)
        yield server, feed
        steady.end.set()


class Behind:
    """Watches how many bytes of a feed the server has not read. `longest` is the longest time for which that was more than one second's worth."""

    def __init__(self, port):
        self.port, self.longest, self.stopped = f"{port:04X}", 0, threading.Event()
        self.second = RATE * len(market().pair) // 2
        self.thread = threading.Thread(target=self.look)
        self.thread.start()

    def unread(self):
        waiting = 0
        for line in Path("/proc/net/tcp").read_text().splitlines()[1:]:
            local, remote, _, queues = line.split()[1:5]
            unsent, unread = (int(it, 16) for it in queues.split(":"))
            if local.endswith(f":{self.port}"):
                waiting += unsent
            if remote.endswith(f":{self.port}"):
                waiting += unread
        return waiting

    def look(self):
        since = None
        while not self.stopped.wait(0.05):
            now = time.monotonic()
            since = (since or now) if self.unread() > self.second else None
            self.longest = max(self.longest, now - (since or now))

    def __enter__(self):
        return self

    def __exit__(self, *_):
        self.stopped.set()
        self.thread.join()


@contextlib.contextmanager
def hammered(port, count):
    """Meanwhile, clients log in and leave without a pause."""
    with subprocess.Popen([sys.executable, "-c", HAMMER, str(port), str(count), LOGIN.hex()]) as process:
        try:
            time.sleep(0.5)
            yield
        finally:
            process.kill()


def clients_that_come_again_and_again_hinder_no_other(program):
    """One client, and then eight, log in, read an acceptance, leave and return, while the feed sends 20,000 messages per second."""
    with busy_server(program) as (server, feed):
        alone = []
        for _ in range(3):
            told = told_within(server.port)
            yield from differs("told alone", market().is_told(told.data), True)
            alone.append(told.seconds)
        bound = 4 * sorted(alone)[1] + SLACK
        for count in 1, 8:
            with hammered(server.port, count), Behind(feed.port) as behind:
                for _ in range(2):
                    told = told_within(server.port, 4 * bound)
                    if told.seconds > bound or not market().is_told(told.data):
                        yield f"{len(told.data)} bytes in {told.seconds:.2f} seconds beside {count}, and in {sorted(alone)[1]:.2f} alone"
            if behind.longest > max(alone) + SLACK:
                yield f"beside {count} the feed was more than a second behind for {behind.longest:.2f} seconds"


def until_closed(came, beats):
    """Returns how long each of these peers was connected, in seconds since the time at which it connected. Those in `beats` send a heartbeat every
    three seconds."""
    closed, begun, next_beat = {}, time.monotonic(), 3
    peers = list(came)
    with selectors.DefaultSelector() as waiting:
        for peer in peers:
            waiting.register(peer, selectors.EVENT_READ)
        while len(closed) < len(peers) and time.monotonic() < begun + SILENCE + 10:
            for key, _ in waiting.select(0.1):
                with contextlib.suppress(OSError):
                    if key.fileobj.recv(4096):
                        continue
                closed[key.fileobj] = time.monotonic() - came[key.fileobj]
                waiting.unregister(key.fileobj)
            if time.monotonic() > begun + next_beat:
                next_beat += 3
                for peer in beats:
                    with contextlib.suppress(OSError):
                        peer.sendall(CLIENT_BEAT)
    return [closed.get(peer) for peer in peers]


def a_thousand_that_never_log_in_hinder_nobody(program):
    """Half of them say nothing, and half send heartbeats. Each is closed 15 seconds after it connected, or earlier to make room for a later one.
    Meanwhile a client is served."""
    soft, hard = resource.getrlimit(resource.RLIMIT_NOFILE)
    if soft < DESCRIPTORS:
        resource.setrlimit(resource.RLIMIT_NOFILE, (min(hard, DESCRIPTORS), hard))
    day, wanted = day_of(50)
    end = threading.Event()
    with Feed(plays(day, wait=end, held=ENDED)) as feed, live(program, feed.port) as server, contextlib.ExitStack() as held:
        while number_of(fetch(program, server.port)[1]) < number_of(wanted):
            time.sleep(0.05)
        came = {}
        for _ in range(1000):
            at = time.monotonic()
            came[held.enter_context(connect(server.port))] = at
        closing = []
        waiting = threading.Thread(target=lambda: closing.extend(until_closed(came, list(came)[::2])))
        waiting.start()
        told = told_within(server.port, 5)
        yield from differs("another client receives", without_beats(told.data), answer(wanted))
        waiting.join()
        early = [it for it in closing if it is not None and it < SILENCE - 2]
        late = [it for it in closing if it is None or it >= SILENCE + 3]
        if len(early) > 10:
            yield f"{len(early)} made room for one client"
        if late:
            known = sorted(it for it in closing if it is not None)
            yield f"{closing.count(None)} not closed after {SILENCE + 10} seconds, {len(late)} not in time: {known[:1]} to {known[-1:]}"
        end.set()


def started_by(folder, program, before=":", output=""):
    """Starts the program from a shell, after some commands, and with its output redirected."""
    path = folder / "started"
    path.write_text(f'#!/bin/bash\n{before}\nexec {shlex.quote(str(program))} "$@" {output}\n')
    path.chmod(0o755)
    return path


def goes_on_differs(program, server, wanted):
    """Yields what is wrong unless a client soon receives the complete market and the process is still running."""
    begun = time.monotonic()
    with contextlib.suppress(subprocess.TimeoutExpired):
        while (got := fetch(program, server.port, "--timeout", "2"))[0] == 0 and number_of(got[1]) < number_of(wanted):
            if time.monotonic() > begun + 5:
                break
            time.sleep(0.05)
        yield from differs("fetched", got, (0, wanted, b""))
    yield from differs("the process has ended with", server.process.poll(), None)


def in_two(day, half, goes, end):
    """A script: sends this many messages of a day, the others after an event, and ends after another event."""
    blocks = [packet(block) for block in split(day)]

    def script(peer, login):
        first = number_in(login)
        peer.sendall(acceptance(first) + b"".join(blocks[first - 1:half]))
        goes.wait(PATIENCE)
        peer.sendall(b"".join(blocks[max(half, first - 1):]))
        while not end.wait(0.5):
            peer.sendall(BEAT)
        peer.sendall(ENDED)

    return script


def snapshots_that_cannot_be_written_do_not_end_it(program):
    """Their folder is removed; or a file may have at most 8 KiB, as on a full file system, which later snapshots exceed."""
    day, wanted = day_of(400)
    half, every = 210, 20
    for kind in "removed", "full":
        goes, end = threading.Event(), threading.Event()
        with folder_with() as folder, Feed(in_two(day, half, goes, end)) as feed:
            room = folder / "snapshots"
            room.mkdir()
            started = program if kind == "removed" else started_by(folder, program, "trap '' XFSZ; ulimit -f 8")
            with live(started, feed.port, "--snapshots", room, "--every", every) as server:
                last, begun = room / f"{half // every * every}.snap", time.monotonic()
                while not last.exists() and time.monotonic() < begun + 10:
                    time.sleep(0.02)
                if kind == "removed":
                    shutil.rmtree(room)
                goes.set()
                for difference in goes_on_differs(program, server, wanted):
                    yield f"{kind}: {difference}, {server.lines[-2:]}"
                end.set()


def descriptors_are_left_for_the_feed_and_for_files(program):
    """The process may have 48 descriptors, and 100 connections never log in. Still a lost feed is reconnected, each snapshot is written, and a client
    is served."""
    day, wanted = day_of(400)
    half, every = 200, 20
    goes, end = threading.Event(), threading.Event()

    def lost(peer, login):
        peer.sendall(acceptance(1) + b"".join(map(packet, split(day)[:half])))
        goes.wait(PATIENCE)

    with folder_with() as folder, Feed(lost, plays(day, wait=end, held=ENDED)) as feed, contextlib.ExitStack() as held:
        room = folder / "snapshots"
        room.mkdir()
        with live(started_by(folder, program, "ulimit -n 48"), feed.port, "--snapshots", room, "--every", every) as server:
            server.said("feed: accepted")
            for _ in range(100):
                held.enter_context(connect(server.port))
            time.sleep(1.5)
            goes.set()
            for difference in goes_on_differs(program, server, wanted):
                yield f"{difference}, {server.lines[-3:]}"
            names = {f"{count}.snap" for count in range(every, len(split(day)) + 1, every)}
            yield from differs("snapshots", {it.name for it in room.iterdir()}, names)
            end.set()


def an_output_that_nobody_takes_does_not_end_it(program):
    """Standard output is closed, or is a pipe whose reader has gone, or a pipe that nobody reads and that is too small for the lines."""
    day, wanted = day_of(20)
    for kind in "closed", "left", "full":
        end = threading.Event()
        with folder_with() as folder, Feed(plays(day, wait=end, held=ENDED)) as feed:
            pipe = folder / "pipe"
            os.mkfifo(pipe)
            reader = os.open(pipe, os.O_RDWR)
            fcntl.fcntl(reader, fcntl.F_SETPIPE_SZ, 4096)
            output = ">&-" if kind == "closed" else f">{shlex.quote(str(pipe))}"
            with live(started_by(folder, program, output=output), feed.port) as server:
                if kind == "left":
                    os.close(reader)
                with contextlib.suppress(ConnectionError):
                    for _ in range(300):
                        connect(server.port).close()
                for difference in goes_on_differs(program, server, wanted):
                    yield f"{kind}: {difference}"
                if kind != "left":
                    os.close(reader)
                end.set()


def lines_that_nobody_takes_do_not_end_it(program):
    """Standard error is a pipe that is full when the feed is lost."""
    day, wanted = day_of(20)
    goes, end = threading.Event(), threading.Event()

    def lost(peer, login):
        peer.sendall(acceptance(1) + b"".join(map(packet, split(day)[:10])))
        goes.wait(PATIENCE)

    with folder_with() as folder, Feed(lost, plays(day, wait=end, held=ENDED)) as feed:
        pipe = folder / "pipe"
        os.mkfifo(pipe)
        reader = os.open(pipe, os.O_RDWR)
        with live(started_by(folder, program, output=f"2>{shlex.quote(str(pipe))}"), feed.port) as server:
            said = b""
            while b"feed: accepted from 1\n" not in said:
                said += os.read(reader, 4096)
            server.port = int(said.split(b"\n")[0].rsplit(b":", 1)[1])
            os.set_blocking(reader, False)
            with contextlib.suppress(BlockingIOError):
                while True:
                    os.write(reader, bytes(4096))
            goes.set()
            yield from goes_on_differs(program, server, wanted)
            os.close(reader)
            end.set()


def a_feed_at_full_speed_hinders_no_client(program):
    """The feed always has more to send, in messages as short as possible. A client that connects receives the snapshot within a few seconds."""
    end, flows, piece = threading.Event(), threading.Event(), b"\0\x02Sz" * 50_000

    def endless(peer, login):
        peer.sendall(acceptance(number_in(login)))
        for count in itertools.count():
            if end.is_set():
                break
            peer.sendall(piece)
            if count == 100:  # more than the sockets hold, so some messages must have been read
                flows.set()

    with Feed(endless) as feed, live(program, feed.port) as server:
        server.said("feed: accepted")
        if not flows.wait(4 * SLACK):
            yield "the feed is not read"
        for _ in range(3):
            told = told_within(server.port, 4 * SLACK)
            whole = told.data.startswith(acceptance(1)) and told.data.endswith(ENDED) and number_of(told.data[:-len(ENDED)]) > 1
            if not whole or told.seconds > 3 * SLACK:
                yield f"{told.data[:100]!r} in {told.seconds:.2f} seconds"
        end.set()


def a_feed_that_refuses_a_login_once_is_asked_again(program):
    """After a loss the feed may be another server, which is one message behind. Rejected credentials at the first login end it."""
    day, _ = day_of(10)
    with Feed(plays(day, until=5), sends(b"\0\x02JS"), plays(day, then=ENDED)) as feed, live(program, feed.port) as server:
        status, _, lines = server.ended()
    yield from differs("ended", (status, feed.asked(), lines[-1]), (0, [1, 6, 6], f"feed: ended at {len(split(day)) + 1}\n"))
    with Feed(sends(b"\0\x02JA")) as feed, live(program, feed.port) as server:
        status, output, lines = server.ended()
    yield from differs("refused", (status, output, lines[-2:], len(feed.logins)), (1, b"", REJECTED, 1))


def a_feed_that_ends_before_any_message_is_asked_again(program):
    """With --stay it follows the feed when the feed has a day."""
    day, wanted = day_of(10)
    for ending in ENDED, acceptance(1) + ENDED:
        end = threading.Event()
        with Feed(sends(ending), plays(day, wait=end, held=ENDED)) as feed, live(program, feed.port, "--stay") as server:
            for difference in goes_on_differs(program, server, wanted):
                yield f"{ending[-3:]!r}: {difference}"
            yield from differs("asked", feed.asked()[:2], [1, 1])
            end.set()


def a_feed_that_begins_later_is_a_gap(program):
    """The gap is reported once, however often it occurs, and the feed is retried."""
    day, _ = day_of(10)
    later = sends(acceptance(5) + packet(split(day)[4]))
    with Feed(later, later, plays(day, then=ENDED)) as feed, live(program, feed.port) as server:
        status, _, lines = server.ended()
    told = [line for line in lines if "gap: message 1 is next, and the feed begins with 5" in line]
    if (status, feed.asked(), len(told)) != (0, [1, 1, 1], 1):
        yield f"{status}, asked {feed.asked()}, {lines}"


def a_login_is_accepted_before_there_is_a_market(program):
    """The login is accepted at once. Then the client receives a heartbeat every second for as long as it takes; its own silence does not count."""
    day, wanted = day_of(50)
    begin, end = threading.Event(), threading.Event()

    def late(peer, login):
        peer.sendall(acceptance(1))
        while not begin.wait(0.5):
            peer.sendall(BEAT)
        peer.sendall(answer(wanted)[ACCEPTED:])

    with Feed(late) as glimpse, Feed(plays(day, wait=end)) as feed, \
            live(program, feed.port, "--glimpse", f"127.0.0.1:{glimpse.port}") as server, connect(server.port) as peer:
        peer.sendall(LOGIN)
        begun, told, times = time.monotonic(), b"", []
        while (left := begun + SILENCE + 2 - time.monotonic()) > 0 and readable([peer], left):
            if not (piece := peer.recv(4096)):
                break
            told += piece
            times.append(time.monotonic() - begun)
        begin.set()
        if not told.startswith(acceptance(1)) or times[0] > 1:
            yield f"told {told[:40]!r} at first, after {times[:1]} seconds"
        pauses = [after - before for before, after in zip(times, times[1:])]
        if len(pauses) < SILENCE - 2 or max(pauses) > PAUSE:
            yield f"{len(pauses)} heartbeats in {SILENCE + 2} seconds, with pauses of up to {max(pauses, default=0):.1f} seconds"
        with contextlib.suppress(ConnectionError):
            told += received(peer)
        yield from differs("told in the end", without_beats(told), answer(wanted))
        end.set()


RUNS = [
    clients_that_come_again_and_again_hinder_no_other,
    a_thousand_that_never_log_in_hinder_nobody,
    snapshots_that_cannot_be_written_do_not_end_it,
    descriptors_are_left_for_the_feed_and_for_files,
    an_output_that_nobody_takes_does_not_end_it,
    lines_that_nobody_takes_do_not_end_it,
    a_feed_at_full_speed_hinders_no_client,
    a_feed_that_refuses_a_login_once_is_asked_again,
    a_feed_that_ends_before_any_message_is_asked_again,
    a_feed_that_begins_later_is_a_gap,
    a_login_is_accepted_before_there_is_a_market,
]
