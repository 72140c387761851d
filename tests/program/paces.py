"""Times: the pauses before a lost feed is tried again, and messages played at a rate, by the clock, or from a late number on.

RUNS lists the runs: functions that take the program and yield the differences found.

A busy machine makes each thing late now and then, and nothing early. So nothing may be early, and in one of some attempts little may be late.
"""
import contextlib
import ctypes
import os
import socket
import statistics
import struct
import threading
import time
from concurrent.futures import ThreadPoolExecutor

from common import differs, split
from living import (ENDED, LOGIN, Feed, acceptance, answer, block_in, connect, day_of, feeding, folder_with, follow, live, number_in, packet, plays,
                    received, sends, snapshot_after, told, without_first_beats)
from standby import closed_port, waits_for

# How much a clock in milliseconds may be off at either end.
TICK = 0.003
ATTEMPTS = 3
# The pauses before a server's next turn. The server checks the time ten times per second.
PAUSES = [0.1, 0.2, 0.4, 0.8]
LATE = 0.25
RATE, MESSAGES = 10, 20
# The number of the system call that duplicates a descriptor of another process.
PIDFD_GETFD = 438


def each_in_some_attempt(attempts):
    """Makes several attempts at each of these, in parallel. Yields the differences of the last attempt, and only if all attempts fail."""
    def differences(attempt):
        for _ in range(ATTEMPTS):
            if not (found := list(attempt())):
                return []
        return found

    with ThreadPoolExecutor(len(attempts)) as side_by_side:
        for found in side_by_side.map(differences, attempts):
            yield from found


def pauses_differ(label, times):
    """Yields what is wrong unless these times are separated by the pauses, each twice as long as the one before."""
    pauses = [after - before for before, after in zip(times, times[1:])]
    if len(pauses) != len(PAUSES) or not all(wanted - TICK <= it <= wanted + LATE for it, wanted in zip(pauses, PAUSES)):
        yield f"{label}: pauses of {[round(it, 3) for it in pauses]}"


def noting(times, script):
    """Returns the same script, which also notes the time of each login."""
    def noted(peer, login):
        times.append(time.monotonic())
        script(peer, login)

    return noted


def a_lost_feed_is_asked_again_after_longer_and_longer_pauses(program):
    """Whether the feed closes the connection, resets it, rejects the login, sends one more message each time, ends before any, or breaks the
    protocol."""
    day, _ = day_of(20)
    packets = [packet(it) for it in split(day)]

    def resets(peer, _login):
        peer.setsockopt(socket.SOL_SOCKET, socket.SO_LINGER, struct.pack("ii", 1, 0))

    def goes_on(peer, login):
        peer.sendall(acceptance(number_in(login)) + packets[number_in(login) - 1])

    def attempt(label, script):
        times = []
        with Feed(*[noting(times, script)] * len(PAUSES), noting(times, plays(day, then=ENDED))) as feed, live(program, feed.port) as server:
            server.ended()
        yield from pauses_differ(label, times)

    scripts = {"closed": sends(b""), "reset": resets, "rejected": sends(b"\0\x02JS"), "a message": goes_on, "ended": sends(ENDED),
               "broken": sends(b"\0\0")}
    yield from each_in_some_attempt([lambda row=row: attempt(*row) for row in scripts.items()])


def a_refused_feed_is_asked_again_after_longer_and_longer_pauses(program):
    """Nothing listens until the fourth pause is over. The feed is then tried after the fifth one, and not at once."""
    day, _ = day_of(20)
    opens, due = sum(PAUSES) + 0.3, sum(PAUSES) + 2 * PAUSES[-1]

    def attempt():
        times, port = [], closed_port()
        with live(program, port) as server:
            server.said("feed: lost at 1")
            begun = time.monotonic()
            time.sleep(opens)
            with Feed(noting(times, plays(day, then=ENDED)), port=port):
                server.ended()
        asked = [time - begun for time in times]
        if len(asked) != 1 or not due - LATE < asked[0] < due + len(PAUSES) * LATE:
            yield f"asked after {asked} seconds, not {due}"

    yield from each_in_some_attempt([attempt])


def a_wrong_password_is_told_later_each_time(program):
    """By `live` and by `feed`."""
    day, _ = day_of(20)
    wrong = LOGIN.replace(b"secret", b"wrong ")

    def attempt(label, port):
        times = [time.monotonic()]
        for _ in PAUSES:
            if told(port, wrong) != b"\0\x02JA":
                yield f"{label}: not rejected"
            times.append(time.monotonic())
        yield from pauses_differ(label, times)

    def of_live():
        end = threading.Event()
        with Feed(plays(day, wait=end)) as feed, live(program, feed.port) as server:
            yield from attempt("live", server.port)
            end.set()

    def of_feed():
        with folder_with(day=day) as folder, feeding(program, folder / "day") as server:
            yield from attempt("feed", server.port)

    yield from each_in_some_attempt([of_live, of_feed])


def arrivals(port, first):
    """Returns how long after the login each message reaches a client that requests the messages from a number on."""
    times = []
    with connect(port) as peer:
        begun = time.monotonic()
        peer.sendall(LOGIN[:-20] + b"%20d" % first)
        received(peer, len(acceptance(first)))
        while (block := block_in(peer)) and block != ENDED:
            if block[2:3] == b"S":
                times.append(time.monotonic() - begun)
    return times


def spacing_differs(label, times, first):
    """Yields what is wrong unless the messages from a number on arrive one by one at the rate. None may be early, and most must be less than half a
    gap late."""
    late = [time - place / RATE for place, time in enumerate(times)]
    if len(times) != MESSAGES + 1 - first or min(late) < -TICK or statistics.median(late) > 0.5 / RATE:
        yield f"{label} from {first}: {[round(it, 3) for it in times]}"


def messages_are_played_one_by_one(program):
    """At a rate and by their timestamps, also for a client that begins at a later number, and for one that connects while others are being
    served."""
    blocks = split(day_of(MESSAGES)[0])[:MESSAGES]
    timed = b"".join(it[:7] + struct.pack(">Q", 10**12 + n * 10**9)[2:] + it[13:] for n, it in enumerate(blocks))
    with folder_with(day=timed) as folder, contextlib.ExitStack() as held:
        rates = held.enter_context(feeding(program, folder / "day", "--rate", RATE))
        clock = held.enter_context(feeding(program, folder / "day", "--clock", RATE))

        rows = [(label, server, first) for label, server in (("rate", rates), ("clock", clock)) for first in (1, 2, MESSAGES - 5)]
        yield from each_in_some_attempt([lambda row=row: spacing_differs(row[0], arrivals(row[1].port, row[2]), row[2]) for row in rows])


def a_late_number_of_a_long_day_is_played_at_once(program):
    """The earlier messages are skipped in turns, which follow each other without a pause."""
    count = 500_000
    with folder_with(day=b"\0\1z" * count) as folder, feeding(program, folder / "day") as server:
        begun = time.monotonic()
        got = without_first_beats(told(server.port, LOGIN[:-20] + b"%20d" % count))
        yield from differs("told", got, acceptance(count) + packet(b"\0\1z") + ENDED)
        # A hundred and twenty turns, which would take ten times as long with a pause after each.
        if (seconds := time.monotonic() - begun) > 6:
            yield f"received after {seconds:.1f} seconds"


def one_of_many_who_guess_waits_longer_each_time(program):
    """256 addresses are remembered. If there are more, the one that has been quiet for longest is forgotten, so never one that has just guessed."""
    day, _ = day_of(20)
    wrong, known = LOGIN.replace(b"secret", b"wrong "), 256

    def guess(port, address):
        with socket.create_connection(("127.0.0.1", port), timeout=60, source_address=(address, 0)) as peer:
            begun = time.monotonic()
            peer.sendall(wrong)
            received(peer)
            return time.monotonic() - begun

    end = threading.Event()
    with Feed(plays(day, wait=end)) as feed, live(program, feed.port) as server, ThreadPoolExecutor(32) as clients:
        list(clients.map(lambda number: guess(server.port, f"127.1.0.{number}"), range(1, known)))
        times = [guess(server.port, "127.2.0.1") for _ in range(2)]
        guess(server.port, "127.2.0.2")
        times += [guess(server.port, "127.2.0.1")]
        if any(time < pause - TICK for time, pause in zip(times, PAUSES)):
            yield f"answered after {[round(it, 3) for it in times]} seconds"
        end.set()


def sockets_of(process):
    """Returns the connected sockets of a process, as descriptors of this one."""
    libc, pidfd = ctypes.CDLL(None, use_errno=True), os.pidfd_open(process.pid)
    try:
        for name in os.listdir(f"/proc/{process.pid}/fd"):
            with contextlib.suppress(OSError):
                if os.readlink(f"/proc/{process.pid}/fd/{name}").startswith("socket:"):
                    handle = libc.syscall(PIDFD_GETFD, pidfd, int(name), 0)
                    if handle < 0:
                        raise PermissionError(ctypes.get_errno(), "a socket of another process")
                    with socket.socket(fileno=handle) as found:
                        found.getpeername()
                        yield found
    finally:
        os.close(pidfd)


def no_packet_waits_for_the_next_one(program):
    """The system delays no packet (TCP_NODELAY): of `live` and `follow` to their servers, and of `live` and `feed` to their clients."""
    day, _ = day_of(20)
    early, end = snapshot_after(program, day, 10), threading.Event()
    with folder_with(day=day) as folder, Feed(sends(answer(early))) as glimpse, feeding(program, folder / "day", "--stay") as played, \
            live(program, played.port, "--stay") as server, follow(program, played.port, glimpse.port) as following, connect(server.port) as client:
        following.said("feed: accepted")
        server.said("feed: accepted")
        client.sendall(LOGIN[:9])
        for label, which, count in ("live", server, 2), ("follow", following, 1), ("feed", played, 2):
            waits_for(lambda: len(list(sockets_of(which.process))) == count)
            delays = [it.getsockopt(socket.IPPROTO_TCP, socket.TCP_NODELAY) for it in sockets_of(which.process)]
            yield from differs(label, [bool(it) for it in delays], [True] * count)
        end.set()


RUNS = [
    a_lost_feed_is_asked_again_after_longer_and_longer_pauses,
    a_refused_feed_is_asked_again_after_longer_and_longer_pauses,
    a_wrong_password_is_told_later_each_time,
    one_of_many_who_guess_waits_longer_each_time,
    a_late_number_of_a_long_day_is_played_at_once,
    no_packet_waits_for_the_next_one,
    messages_are_played_one_by_one,
]
