"""Runs that would take minutes, by a faster clock (hurry.c): feeds that fail or stay away,
names that are resolved late, and lines that are logged once per minute.

RUNS lists the runs: functions that take the program and yield the differences found. `hurried.py PROGRAM SHIM`, in its own user and network
namespaces, prints the differences of the run in which two feeds fail in turn.
"""
import contextlib
import ctypes
import fcntl
import os
import re
import shutil
import socket
import struct
import subprocess
import sys
import tempfile
import threading
import time

from common import differs, split
from failing import build_shim
from living import (BEAT, CLIENT_BEAT, ENDED, LOGIN, PATIENCE, SESSION, SILENCE, WORDS, Feed, Running, acceptance, answer, connect, day_of, folder_with,
                    number_in, packet, plays, received, recorded, session_in, told, without_first_beats)
from scraping import figures

TIMES = 20
# How often the other feed must be tried at least, how many failures there are, and how many messages are sent before each.
CHANGES, TURNS, EACH = 200, 210, 3
APART = ["unshare", "--user", "--map-root-user", "--net", "--mount"]
NETWORKS = {"a": "10.87.1", "b": "10.87.2"}
PORT = 5000
NEW_NETWORK = 0x40000000
# The longest pause before a failed feed is retried, in seconds, and how often it fails in a minute plus some pauses.
LONGEST_PAUSE, FAILURES = 5, 21


def hurried(shim):
    return {"LD_PRELOAD": str(shim), "HURRY": str(TIMES)}


def two_feeds_in_two_namespaces_fail_in_turn(program):
    """They close the connection, reset it, or their network is down. Each time the other one is tried, with the same session and from the next
    message, and the record equals the day."""
    if not shutil.which("ip") or subprocess.run([*APART, "true"], stderr=subprocess.DEVNULL).returncode != 0:
        print("skipped: feeds in network namespaces: this machine does not allow namespaces")
        return
    with tempfile.TemporaryDirectory() as folder:
        words = [*APART, sys.executable, __file__, program, build_shim(folder, "hurry.c")]
        done = subprocess.run(words, capture_output=True, timeout=4 * PATIENCE)
        yield from (line.decode() for line in done.stdout.splitlines())
        yield from differs("itself", (done.returncode, done.stderr), (0, b""))


def ip(*words):
    subprocess.run(["ip", *words], check=True)


def lay_networks():
    """Makes a namespace for each feed, with a link from here."""
    subprocess.run(["mount", "-t", "tmpfs", "none", "/run"], check=True)
    ip("link", "set", "lo", "up")
    for name, network in NETWORKS.items():
        ip("netns", "add", name)
        ip("link", "add", f"to_{name}", "type", "veth", "peer", "name", "here", "netns", name)
        ip("addr", "add", f"{network}.1/24", "dev", f"to_{name}")
        ip("link", "set", f"to_{name}", "up")
        ip("-n", name, "addr", "add", f"{network}.2/24", "dev", "here")
        ip("-n", name, "link", "set", "here", "up")


@contextlib.contextmanager
def inside(name):
    """Moves this thread into a namespace for a while. A socket that it makes stays there."""
    libc = ctypes.CDLL(None, use_errno=True)
    with open("/proc/self/ns/net") as here, open(f"/run/netns/{name}") as there:
        if libc.setns(there.fileno(), NEW_NETWORK) != 0:
            raise OSError(ctypes.get_errno(), "setns")
        try:
            yield
        finally:
            libc.setns(here.fileno(), NEW_NETWORK)


class Turns:
    """What the two feeds do at each login, and what they were asked: which feed, which session, and from which number."""

    def __init__(self, day):
        self.day, self.packets, self.asked, self.arrived = day, [packet(it) for it in split(day)], [], threading.Condition()

    def script(self, name):
        def turn(peer, login):
            with self.arrived:
                number = len(self.asked)
                self.asked.append((name, session_in(login).strip(), number_in(login)))
                self.arrived.notify_all()
            if number >= TURNS:
                return plays(self.day, then=ENDED)(peer, login)
            first = number_in(login)
            peer.sendall(acceptance(first) + b"".join(self.packets[first - 1:first - 1 + EACH]))
            if number % 20 == 7:
                self.cuts_the_network(name, number)
            elif number % 3 == 1:
                peer.setsockopt(socket.SOL_SOCKET, socket.SO_LINGER, struct.pack("ii", 1, 0))
        return turn

    def cuts_the_network(self, name, number):
        """Lasts until the other feed is tried."""
        ip("-n", name, "link", "set", "here", "down")
        with self.arrived:
            self.arrived.wait_for(lambda: len(self.asked) > number + 1, PATIENCE)
        ip("-n", name, "link", "set", "here", "up")


def differences(program, shim):
    lay_networks()
    day, _ = day_of(TURNS * EACH)
    turns = Turns(day)
    with folder_with() as folder, contextlib.ExitStack() as held:
        words = []
        for name, network in NETWORKS.items():
            with inside(name):
                held.enter_context(Feed(turns.script(name), address=f"{network}.2", port=PORT))
            words += "--feed", f"{network}.2:{PORT}"
        server = held.enter_context(Running(program, "live", *words, "--port", "0", *WORDS, "--record", folder / "record", **hurried(shim)))
        status, _, lines = server.ended(3 * PATIENCE)
        yield from differs("ended", (status, lines[-1]), (0, f"feed: ended at {len(split(day)) + 1}\n"))
        yield from differs("record", (folder / "record").read_bytes() == day, True)
    yield from sequence_differs(turns.asked)


def sequence_differs(asked):
    """Yields what is wrong with a sequence of logins. Each must be at the other feed, for the session of the first acceptance, and from the number
    that the one before reached."""
    names = [name for name, _, _ in asked]
    if (changes := sum(one != other for one, other in zip(names, names[1:]))) < CHANGES:
        yield f"{changes} changes"
    yield from differs("sessions", {session for _, session, _ in asked[1:]}, {SESSION.strip()})
    for (_, _, before), (name, _, number) in zip(asked, asked[1:]):
        if not before <= number <= before + EACH:
            yield f"{name} was asked for {number} after {before}"


def a_minute_of_success_makes_the_pauses_short_again(program):
    """The feed fails so often that the pause is five seconds, stays for a minute, and fails again: it is retried after a tenth of a second."""
    day, _ = day_of(20)
    times = []

    def fails(peer, login):
        times.append(time.monotonic())

    def stays(peer, login):
        times.append(time.monotonic())
        peer.sendall(acceptance(number_in(login)))
        while time.monotonic() < times[-1] + 62 / TIMES:
            peer.sendall(BEAT)
            time.sleep(0.1)
        times.append(time.monotonic())

    with tempfile.TemporaryDirectory() as folder:
        shim = build_shim(folder, "hurry.c")
        for _ in range(3):
            times.clear()
            with Feed(*[fails] * 8, stays, fails, plays(day, then=ENDED)) as feed, \
                    Running(program, "live", "--feed", f"127.0.0.1:{feed.port}", "--port", "0", *WORDS, **hurried(shim)) as server:
                yield from differs("status", server.ended()[0], 0)
            pauses = [(after - before) * TIMES for before, after in zip(times, times[1:])]
            if min(pauses[6:8]) >= 4.9 and pauses[9] < 2.5 and len(pauses) == 10:
                return
    yield f"pauses of {[round(it, 1) for it in pauses]} seconds"


def a_feed_that_stays_away_is_asked_less_often_however_long_it_does(program):
    """A login was accepted once, more than a minute ago: the pause is still five seconds."""
    day, _ = day_of(20)
    times, enough = [], threading.Event()

    def stays_away(peer, login):
        times.append(time.monotonic())
        if len(times) == FAILURES:
            enough.set()

    with tempfile.TemporaryDirectory() as folder, Feed(plays(day), stays_away) as feed, \
            Running(program, "live", "--feed", f"127.0.0.1:{feed.port}", "--port", "0", *WORDS, **hurried(build_shim(folder, "hurry.c"))):
        enough.wait(PATIENCE)
    pauses = [(after - before) * TIMES for before, after in zip(times, times[1:])]
    if len(times) < FAILURES or sum(pauses[-4:]) < 4 * LONGEST_PAUSE / 2:
        yield f"pauses of {[round(it, 1) for it in pauses]} seconds"


def a_name_that_is_found_late_leaves_the_server_its_time(program):
    """The server has fifteen seconds to answer from the time of the connection. Resolving its name took longer than that."""
    day, _ = day_of(20)
    with tempfile.TemporaryDirectory() as folder, Feed(plays(day, then=ENDED)) as feed:
        environment = {**hurried(build_shim(folder, "hurry.c")), "LOOKUP": str(1000 * (SILENCE + 5) // TIMES)}
        with Running(program, "live", "--feed", f"localhost:{feed.port}", "--port", "0", *WORDS, **environment) as server:
            yield from differs("said", server.said("feed: accepted", PATIENCE / 4), "feed: accepted from 1\n")


def each_missed_snapshot_is_counted_in_one_line(program):
    """Once a minute a line reports how many were not written since the line before."""
    day, _ = day_of(400)
    stop = threading.Event()

    def one_by_one(peer, login):
        peer.sendall(acceptance(1))
        for block in split(day):
            if stop.wait(0.02):
                return
            peer.sendall(packet(block))

    with folder_with() as folder, Feed(one_by_one) as feed:
        (folder / "snapshots").mkdir()
        words = "--snapshots", folder / "snapshots", "--every", "1"
        with Running(program, "live", "--feed", f"127.0.0.1:{feed.port}", "--port", "0", *WORDS, *words, **hurried(build_shim(folder, "hurry.c"))) as server:
            (folder / "snapshots").rename(folder / "elsewhere")
            line = rf"snapshots: (\d+) not written, the last one {folder}/snapshots/(\d+).snap: "
            first = re.match(line, server.said("snapshots: "))
            server.said(rf"snapshots: (?!{first[1]} not written)")
            stop.set()
            found = [re.match(line, it) for it in server.lines if it.startswith("snapshots: ")]
    counts, last = [int(it[1]) for it in found], int(found[-1][2])
    yield from differs("lines, and those that were not written", (len(found), sum(counts)), (2, last - int(first[2]) + int(first[1])))


def lines_that_are_lost_stay_counted(program):
    """The status counts them, even after the line that reports how many were lost."""
    day, _ = day_of(20)
    with folder_with() as folder, Feed(plays(day, wait=threading.Event())) as feed:
        reader, writer = os.pipe()
        words = "live", "--feed", f"127.0.0.1:{feed.port}", "--port", "0", *WORDS, "--status", "127.0.0.1:0", "--log", "text"
        environment = {**os.environ, **hurried(build_shim(folder, "hurry.c"))}
        server = subprocess.Popen([program, *words], stdin=subprocess.DEVNULL, stdout=subprocess.DEVNULL, stderr=writer, env=environment)
        os.close(writer)
        patience = threading.Timer(PATIENCE, server.kill)
        patience.start()
        with open(reader, encoding="ascii") as lines:
            try:
                yield from lost_lines_differ(server, lines)
            finally:
                patience.cancel()
                server.kill()
                server.wait()


def lost_lines_differ(server, lines):
    """Nobody reads the log of a server for a while after the first two lines, which report where it listens. The pipe holds one page."""
    server.status, port = (int(re.search(r' on="127.0.0.1:(\d+)"', lines.readline())[1]) for _ in range(2))
    fcntl.fcntl(lines, fcntl.F_SETPIPE_SZ, 4096)
    while not (lost := figures(server)["log_lines_lost_total"]):
        told(port, LOGIN)
    said = next(line for line in lines if " lines_lost " in line)
    count = int(re.search(r"count=(\d+)", said)[1])
    yield from differs("counted in the line, and then in the status", (count >= lost, figures(server)["log_lines_lost_total"] >= count), (True, True))


def a_record_that_was_cut_is_looked_at_by_its_new_length(program):
    """The record is examined every second, while the feed sends more. The server has cut it to its complete messages, and nobody else has cut it."""
    day, _ = day_of(20)
    blocks = split(day)

    def one_by_one(peer, login):
        first = number_in(login)
        peer.sendall(acceptance(first))
        for block in blocks[first - 1:]:
            peer.sendall(packet(block))
            time.sleep(0.3 / TIMES)
        peer.sendall(ENDED)

    with folder_with(**recorded(b"".join(blocks[:10]) + blocks[10][:7])) as folder, Feed(one_by_one) as feed:
        words = "--feed", f"127.0.0.1:{feed.port}", "--port", "0", *WORDS, "--record", folder / "record"
        with Running(program, "live", *words, **hurried(build_shim(folder, "hurry.c"))) as server:
            status, _, lines = server.ended()
        said = [it for it in lines if not it.startswith("feed: ")]
        wanted = 0, ["record: dropped 7 bytes after message 10\n"], True
        yield from differs("ended", (status, said, (folder / "record").read_bytes() == day), wanted)


def a_client_that_waited_has_its_time_after_the_answer_too(program):
    """The client waits for a market for twenty seconds, and after it has received everything its connection stays open for fifteen more."""
    day, snapshot = day_of(20)
    begin, accepted = threading.Event(), len(acceptance(1))

    def late(peer, login):
        peer.sendall(acceptance(1))
        while not begin.wait(1 / TIMES):
            peer.sendall(BEAT)
        peer.sendall(answer(snapshot)[accepted:])

    with folder_with() as folder, Feed(late) as glimpse, Feed(plays(day, wait=begin)) as feed:
        words = "--feed", f"127.0.0.1:{feed.port}", "--glimpse", f"127.0.0.1:{glimpse.port}"
        with Running(program, "live", *words, "--port", "0", *WORDS, **hurried(build_shim(folder, "hurry.c"))) as server, connect(server.port) as client:
            client.sendall(LOGIN)
            received(client, accepted)
            for _ in range(20):
                client.sendall(CLIENT_BEAT)
                time.sleep(1 / TIMES)
            begun = time.monotonic()
            begin.set()
            yield from differs("told", without_first_beats(acceptance(1) + received(client)) == answer(snapshot), True)
            server.has_lines(1)
            if (seconds := (time.monotonic() - begun) * TIMES) < SILENCE / 2:
                yield f"the connection was closed {seconds:.1f} seconds after the client had received everything"


RUNS = [
    two_feeds_in_two_namespaces_fail_in_turn,
    a_minute_of_success_makes_the_pauses_short_again,
    a_feed_that_stays_away_is_asked_less_often_however_long_it_does,
    a_name_that_is_found_late_leaves_the_server_its_time,
    each_missed_snapshot_is_counted_in_one_line,
    lines_that_are_lost_stay_counted,
    a_record_that_was_cut_is_looked_at_by_its_new_length,
    a_client_that_waited_has_its_time_after_the_answer_too,
]

if __name__ == "__main__":
    for difference in differences(*sys.argv[1:]):
        print(difference)
