"""Servers that have nothing to do, or can do nothing for a while, use next to no processor time.

RUNS lists the runs: functions that take the program and yield the differences found.
"""
import contextlib
import socket
import threading
import time
from concurrent.futures import ThreadPoolExecutor

from calls import is_told, shim, told_once
from common import differs, split
from living import ENDED, LOGIN, WORDS, Feed, Running, acceptance, answer, connect, day_of, feeding, folder_with, live, packet, plays, received
from standby import closed_port, waits_for

# The share of a processor that a server may use, even if a message is due soon, and for how long it is measured.
SHARE, SHARE_BEFORE_A_MESSAGE = 0.01, 0.05
LOOK = 1
# For how long a record is left alone.
IDLE = 3
# This many clients connect while a call fails: more than the server has slots.
FEW, MANY = 2, 70


def share_differs(label, server, most=SHARE):
    """Yields what is wrong if a process exceeds its share of a processor. It fails only if two measurements in a row are too high, because it may
    have had work to do in the first one."""
    shares = []
    for _ in range(2):
        used, begun = server.processor_seconds(), time.monotonic()
        time.sleep(LOOK)
        shares.append((server.processor_seconds() - used) / (time.monotonic() - begun))
        if shares[-1] < most:
            return []
    return [f"{label}: {min(shares):.1%} of a processor"]


@contextlib.contextmanager
def following(program, folder):
    """Runs `live`, whose feed sends heartbeats and which has a client that has not logged in, and `follow` at both."""
    day, _ = day_of(20)
    end = threading.Event()
    with Feed(plays(day, wait=end)) as feed, live(program, feed.port) as server, connect(server.port):
        servers = "--feed", f"127.0.0.1:{feed.port}", "--glimpse", f"127.0.0.1:{server.port}"
        with Running(program, "follow", *servers, *WORDS, listens=False) as follower:
            follower.said("feed: accepted")
            yield server, follower
        end.set()


@contextlib.contextmanager
def without_a_feed(program, folder):
    """Runs `live` after its feed has ended and is lost, and one that never had a feed."""
    day, _ = day_of(20)
    with Feed(plays(day), lambda peer, login: None) as feed, live(program, feed.port) as lost, \
            live(program, closed_port()) as alone, Feed(plays(day, then=ENDED)) as other, live(program, other.port, "--stay") as over:
        lost.said("feed: lost")
        over.said("feed: ended")
        yield lost, alone, over


@contextlib.contextmanager
def before_a_market(program, folder):
    """Runs `live` with a client that has shut down sending and one that has not, both waiting for the market, and a third that waits for a place."""
    day, _ = day_of(20)
    begin = threading.Event()

    def late(peer, login):
        peer.sendall(acceptance(1))
        begin.wait()

    with Feed(late) as glimpse, Feed(plays(day)) as feed, contextlib.ExitStack() as held, \
            live(program, feed.port, "--glimpse", f"127.0.0.1:{glimpse.port}", "--clients", "2") as server:
        clients = [held.enter_context(connect(server.port)) for _ in range(3)]
        for client in clients:
            client.sendall(LOGIN)
        clients[0].shutdown(socket.SHUT_WR)
        received(clients[1], len(acceptance(1)))
        yield (server,)
        begin.set()


@contextlib.contextmanager
def played(program, folder):
    """Runs `feed` with a client that has received everything, and with one that reads nothing."""
    (folder / "day").write_bytes(day_of(20)[0])
    (folder / "large").write_bytes((b"\xea\x60" + b"z" * 60_000) * 200)
    with feeding(program, folder / "day", "--stay") as all_played, feeding(program, folder / "large") as unread, \
            logged_in(all_played), logged_in(unread, 4096):
        yield all_played, unread


@contextlib.contextmanager
def paced(program, folder):
    """Runs `feed` with a client whose next message is not due."""
    (folder / "day").write_bytes(day_of(20)[0])
    with feeding(program, folder / "day", "--rate", "1") as server, logged_in(server):
        yield (server,)


@contextlib.contextmanager
def logged_in(server, room=None):
    """Yields a client whose login is accepted."""
    with connect(server.port, room) as client:
        client.sendall(LOGIN)
        received(client, len(acceptance(1)))
        yield client


def an_idle_server_takes_next_to_no_processor_time(program):
    """With a feed that says nothing new, without a feed, before there is a market, and with clients that have everything or read nothing."""
    with ThreadPoolExecutor(16) as looks, contextlib.ExitStack() as held:
        looked = []
        for scene in following, without_a_feed, before_a_market, played, paced:
            folder = held.enter_context(folder_with())
            most = SHARE_BEFORE_A_MESSAGE if scene is paced else SHARE
            for place, server in enumerate(held.enter_context(scene(program, folder))):
                looked.append(looks.submit(share_differs, f"{scene.__name__} {place}", server, most))
        for look in looked:
            yield from look.result()


def an_idle_server_leaves_its_record_alone(program):
    """The record is examined once a second, and synced if something was added. Here the next such call would fail and end the server."""
    day, wanted = day_of(20)

    def differences(kind, most):
        end = threading.Event()
        with shim() as library, folder_with() as folder, Feed(plays(day, wait=end)) as feed:
            environment = {"LD_PRELOAD": str(library), "FAIL": f"{kind}:{most + 1}", "FAILED": str(folder / "failed")}
            with live(program, feed.port, "--record", folder / "record", **environment) as server:
                waits_for(lambda: told_once(server.port) == answer(wanted))
                time.sleep(IDLE)
                yield from differs(f"more than {most} calls of {kind}", ((folder / "failed").exists(), server.process.poll()), (False, None))
                end.set()

    # A sync of the session file, and one of the record. The record is examined several times at the start, and then once a second.
    with ThreadPoolExecutor(2) as side_by_side:
        for found in side_by_side.map(lambda row: list(differences(*row)), [("sync", 2), ("statx", 12)]):
            yield from found


def meanwhile(program, kind, start, count):
    """Yields what is wrong while each call of a kind fails for a while. Clients that connect meanwhile receive nothing or everything, the server uses
    little processor time, and afterwards the next client receives everything. `start` starts the server, and returns what a client receives."""
    with shim() as library, folder_with() as folder, start(program, folder, LD_PRELOAD=str(library), FAIL=f"{kind}:while",
                                                           FAILING=str(folder / "fails")) as (server, wanted):
        (folder / "fails").touch()
        with ThreadPoolExecutor(count) as clients:
            answers = [clients.submit(told_once, server.port) for _ in range(count)]
            differences = share_differs(kind, server)
            (folder / "fails").unlink()
            others = {it.result() for it in answers} - {b""}
        differences += [f"{kind}: a client is told {it and it[:100]!r}" for it in others if not (it or b"").startswith(acceptance(1))]
        return differences + [*differs(f"{kind}: told afterwards", is_told(server, wanted), True)]


@contextlib.contextmanager
def one_place(program, folder, **environment):
    day, wanted = day_of(20)
    end = threading.Event()
    with Feed(plays(day, until=10), plays(day, wait=end)) as feed, live(program, feed.port, "--clients", "1", **environment) as server:
        yield server, answer(wanted)
        end.set()


@contextlib.contextmanager
def a_feed(program, folder, **environment):
    day, _ = day_of(20)
    (folder / "day").write_bytes(day)
    with Running(program, "feed", folder / "day", "--port", "0", "--session", "ITCHSNAP", *WORDS, **environment) as server:
        yield server, acceptance(1) + b"".join(map(packet, split(day))) + ENDED


def a_server_waits_while_calls_fail_and_goes_on_afterwards(program):
    """Meanwhile more clients connect than there are places, and no place is lost."""
    rows = [(kind, one_place, FEW) for kind in ("accept4", "epoll_ctl", "open", "connect", "socket")]
    rows += [("accept4", a_feed, FEW), ("epoll_ctl", a_feed, MANY), ("open", a_feed, MANY)]
    with ThreadPoolExecutor(len(rows)) as side_by_side:
        for found in side_by_side.map(lambda row: meanwhile(program, *row), rows):
            yield from found


RUNS = [
    an_idle_server_takes_next_to_no_processor_time,
    an_idle_server_leaves_its_record_alone,
    a_server_waits_while_calls_fail_and_goes_on_afterwards,
]
