"""Limits: clients at a time, lengths of messages and packets, and over a million waiting messages in a joiner of the C library.

RUNS lists the runs: functions that take the program and yield the differences found.
"""
import contextlib
import subprocess
import threading
import time
from concurrent.futures import ThreadPoolExecutor

from common import differs, ended_in, readable, split
from living import (CLIENT_BEAT, ENDED, LOGIN, Feed, acceptance, answer, connect, day_of, feeding, fetch, folder_with, follow, live, memory_of,
                    number_of, packet, plays, received, sends, snapshot_after, told)
from standby import waits_for
from starts import TOP

PLACES = 64
# How long to watch that no further client is accepted, and how long to wait for one that must be accepted.
LOOK, SECONDS = 1, 10
# The longest message that fits into a packet.
LONGEST = 65_534
# Stands in for a snapshot that was not fetched: its number is 1.
END_1 = b"1"


def block_of(length):
    """Returns the block of a message of this length, of a type that is not decoded."""
    return length.to_bytes(2, "big") + b"z" * length


class Crowd:
    """Clients that have logged in, of which some have been accepted."""

    def __init__(self, port, count, held):
        self.waiting, self.accepted = [held.enter_context(connect(port)) for _ in range(count)], []
        for client in self.waiting:
            client.sendall(LOGIN)

    def are_accepted(self, count):
        """Returns whether exactly this many are accepted."""
        until = time.monotonic() + SECONDS
        while len(self.accepted) < count and time.monotonic() < until:
            self.hear(0.1)
        self.hear(LOOK)
        return len(self.accepted) == count

    def hear(self, seconds):
        for client in readable(self.waiting, seconds):
            if received(client, len(acceptance(1))) == acceptance(1):
                self.accepted.append(client)
            self.waiting.remove(client)


def places_differ(label, port, places):
    """Yields what is wrong if a server does not have this many places for clients of one address, or does not accept another client when one
    leaves."""
    with contextlib.ExitStack() as held:
        crowd = Crowd(port, places + 2, held)
        for count in places, places + 1:
            if not crowd.are_accepted(count):
                yield f"{label}: {len(crowd.accepted)} accepted, not {count}"
                return
            crowd.accepted[0].close()


def so_many_clients_have_a_place(program):
    """`live` before it has a market, and `feed`: as many as given, or 64."""
    day, _ = day_of(20)
    begin = threading.Event()

    def late(peer, login):
        peer.sendall(acceptance(1))
        begin.wait()

    with folder_with(day=day) as folder, Feed(late) as glimpse, Feed(plays(day)) as feed, contextlib.ExitStack() as held, \
            ThreadPoolExecutor() as side_by_side:
        rows = [("feed", held.enter_context(feeding(program, folder / "day", "--stay")), PLACES)]
        for words, places in ((), PLACES), (("--clients", "1"), 1), (("--clients", "65"), 65), (("--clients-per-address", "3"), 3):
            server = held.enter_context(live(program, feed.port, "--glimpse", f"127.0.0.1:{glimpse.port}", *words))
            rows.append((f"live {words}", server, places))
        looked = [side_by_side.submit(lambda *row: list(places_differ(*row)), label, server.port, places) for label, server, places in rows]
        for look in looked:
            yield from look.result()
        begin.set()


def a_client_of_a_feed_takes_little_memory(program):
    """The buffers to receive and to send, and the part of the file that is read, take less than half a megabyte in total."""
    day, _ = day_of(20)
    with folder_with(day=day) as folder, feeding(program, folder / "day", "--stay") as server, contextlib.ExitStack() as held:
        before = memory_of(server.process)
        crowd = Crowd(server.port, PLACES, held)
        yield from differs(f"{PLACES} are accepted", crowd.are_accepted(PLACES), True)
        for kind, kilobytes in memory_of(server.process).items():
            if kilobytes - before[kind] > 512 * PLACES:
                yield f"{kind} rose by {kilobytes - before[kind]} kB"


def a_place_of_an_address_is_free_again_once_a_client_has_all(program):
    """Clients come one after the other, with one place per address. Clients that leave early or are rejected also free the place."""
    day, wanted = day_of(20)
    end = threading.Event()
    with Feed(plays(day, wait=end, held=ENDED)) as feed, live(program, feed.port, "--clients", "2", "--clients-per-address", "1") as server:
        waits_for(lambda: number_of(fetch(program, server.port, "--timeout", "5")[1] or END_1) == number_of(wanted))
        for said, told_all in ((LOGIN, True), (LOGIN + b"\0\x01O", False), (LOGIN.replace(b"secret", b"wrong "), False)) * 2 + ((LOGIN, True),):
            got = told(server.port, said)
            yield from differs(f"{said!r}", got == answer(wanted), told_all)
        end.set()
        yield from differs("ended", server.ended()[0], 0)


def messages_of_each_length_are_passed_on(program):
    """Messages from 1 byte to the most that fits into a packet are played, recorded and followed. A longer one ends the playing."""
    blocks = [block_of(it) for it in (1, 2, 61, 62, 63, 255, 256, 8191, 8192, 65_533, LONGEST)]
    day = b"".join(blocks)
    packets = b"".join(map(packet, blocks))
    with folder_with(day=day, longer=day + block_of(LONGEST + 1)) as folder:
        early = snapshot_after(program, day, 0)
        with feeding(program, folder / "day", "--count", "3") as feed, Feed(sends(answer(early))) as glimpse, \
                live(program, feed.port, "--record", folder / "record") as server, follow(program, feed.port, glimpse.port) as follower:
            yield from differs("played", told(feed.port, LOGIN) == acceptance(1) + packets + ENDED, True)
            yield from differs("followed", follower.ended()[:2] == (0, day), True)
            yield from differs("live", server.ended()[0], 0)
        yield from differs("recorded", (folder / "record").read_bytes() == day, True)
        yield from differs("recorded again", ended_in(folder, program, "check", "record")[:2], (0, f"ok {len(blocks)} messages\n".encode()))
        with feeding(program, folder / "longer", "--count", "1") as feed:
            got = told(feed.port, LOGIN)
            yield from differs("one byte more", acceptance(1).startswith(got[:len(acceptance(1))]) and packets.startswith(got[len(acceptance(1)):]), True)
            yield from differs("its line", feed.ended()[:2], (0, b"connection 1: fault\n"))


def a_feed_is_played_from_each_number(program):
    """The day has more than 4,096 messages, the most that are skipped or played in one turn."""
    count = 10_000
    blocks = [block_of(1 + number % 3) for number in range(count)]
    with folder_with(day=b"".join(blocks)) as folder, feeding(program, folder / "day") as server:
        for first in (1, 2, 4095, 4096, 4097, 4098, 8192, 8193, 8194, count, count + 1):
            wanted = acceptance(first) + b"".join(map(packet, blocks[first - 1:])) + ENDED
            yield from differs(f"from {first}", told(server.port, LOGIN[:-20] + b"%20d" % first) == wanted, True)


def what_comes_before_a_login_may_be_of_each_length(program):
    """Debug text and unsequenced data of any length that a packet can have are skipped. A packet of another type is a fault, whatever its length."""
    day, wanted = day_of(20)
    end = threading.Event()
    lengths = (0, 1, 44, 60, 61, 62, 63, 64, 125, 65_534)
    passed = [(length + 1).to_bytes(2, "big") + kind + b"x" * length for length in lengths for kind in (b"+", b"U")]
    faulty = [(length + 1).to_bytes(2, "big") + b"?" + b"x" * length for length in lengths]
    with Feed(plays(day, wait=end, held=ENDED)) as feed, live(program, feed.port) as server, folder_with(day=day) as folder, \
            feeding(program, folder / "day") as other:
        waits_for(lambda: number_of(fetch(program, server.port)[1]) == number_of(wanted))
        played = acceptance(1) + b"".join(map(packet, split(day))) + ENDED
        for port, whole in (server.port, answer(wanted)), (other.port, played):
            for data in passed:
                yield from differs(f"{data[:3]!r}", told(port, data + CLIENT_BEAT + LOGIN) == whole, True)
            for data in faulty:
                yield from differs(f"{data[:3]!r}", told(port, data + LOGIN) in (b"", b"reset"), True)
        end.set()


def more_than_a_million_messages_wait_in_a_joiner(_program):
    """Exactly as many as the caller allows (waiting.c)."""
    with folder_with() as folder:
        source, library = TOP / "tests/program/waiting.c", TOP / "release/libitchsnap.so"
        subprocess.run(["gcc", "-O1", "-o", folder / "waiting", source, "-I", TOP / "c", library, f"-Wl,-rpath,{library.parent}"], check=True)
        done = subprocess.run([folder / "waiting"], capture_output=True, timeout=60)
    yield from differs("ended", (done.returncode, done.stderr), (0, b""))


RUNS = [
    so_many_clients_have_a_place,
    a_client_of_a_feed_takes_little_memory,
    a_place_of_an_address_is_free_again_once_a_client_has_all,
    messages_of_each_length_are_passed_on,
    a_feed_is_played_from_each_number,
    what_comes_before_a_login_may_be_of_each_length,
    more_than_a_million_messages_wait_in_a_joiner,
]
