"""`live`, `follow`, `fetch` and a status port at a host with two addresses: the first refuses, is silent or is lost.

RUNS lists the runs: functions that take the program and yield the differences found.
"""
import contextlib
import socket
import subprocess
import time

from common import differs, ended_in, split
from living import ENDED, WORDS, Feed, Running, acceptance, answer, day_of, folder_with, number_of, packet, plays, sends, snapshot_after
from network import DAY, PASS, serving
from sessions import snapshot
from standby import ALONE, WITH_HOSTS

FIRST, SECOND = "127.0.0.2", "127.0.0.3"
HOSTS = f"{FIRST} two.test\n{SECOND} two.test\n".encode()


@contextlib.contextmanager
def named(label):
    """Yields a folder whose file `hosts` gives the host its addresses, and the prefix with which a command sees that file. Yields None if this
    machine cannot do that."""
    if subprocess.run([*ALONE, "true"], stderr=subprocess.DEVNULL).returncode != 0:
        print(f"skipped: {label}: this machine does not allow namespaces")
        yield None
        return
    with folder_with(hosts=HOSTS) as folder:
        yield [*WITH_HOSTS, folder / "hosts"]


def command(known, program, word, feed, glimpse=None):
    """Runs `live`, which reports where it listens, or `follow`, at ports of the host."""
    servers = ["--feed", f"two.test:{feed}", *(["--glimpse", f"two.test:{glimpse}"] if glimpse else [])]
    return Running(*known, program, word, *servers, *(["--port", "0"] if word == "live" else []), *WORDS, listens=word == "live")


def the_next_address_is_tried_where_one_refuses(program):
    """For `live` and `follow`, and for both the snapshot server and the feed: nothing listens at the first address."""
    day, _ = day_of(20)
    early = snapshot_after(program, day, 10)
    with named("hosts with two addresses") as known:
        for word in ("live", "follow") if known else ():
            with Feed(sends(answer(early)), address=SECOND) as glimpse, Feed(plays(day, then=ENDED), address=SECOND) as feed, \
                    command(known, program, word, feed.port, glimpse.port) as running:
                status, _, lines = running.ended()
            asked = status, glimpse.asked(), feed.asked(), lines[-1]
            yield from differs(word, asked, (0, [1], [number_of(early)], f"feed: ended at {len(split(day)) + 1}\n"))


def after_the_last_address_comes_the_first_again(program):
    """A feed that is lost at each address in turn is retried at the other one, from the next message on."""
    day, _ = day_of(20)

    def five_more(peer, login):
        first = int(login[-20:]) or 1
        peer.sendall(acceptance(first) + b"".join(map(packet, split(day)[first - 1:first + 4])))

    with named("a feed at two addresses") as known:
        if not known:
            return
        with Feed(five_more, address=FIRST) as one, \
                Feed(five_more, five_more, plays(day, then=ENDED), address=SECOND, port=one.port) as other, \
                command(known, program, "live", one.port) as server:
            status, _, lines = server.ended()
    yield from differs("asked", (status, one.asked(), other.asked()), (0, [1, 11, 21], [6, 16, 26]))
    yield from differs("at the end", lines[-1], f"feed: ended at {len(split(day)) + 1}\n")


def full(address, port, held):
    """A listener whose queue is full, so that the system answers no further connection."""
    listener = held.enter_context(socket.socket())
    listener.bind((address, port))
    listener.listen(0)
    for _ in range(4):
        peer = held.enter_context(socket.socket())
        peer.setblocking(False)
        peer.connect_ex((address, port))
    time.sleep(0.2)


def a_snapshot_is_fetched_from_the_address_that_answers(program):
    """With and without a time limit; the first address refuses or does not answer."""
    rows = [("refuses", ()), ("refuses", ("--timeout", "20")), ("is silent", ("--timeout", "1"))]
    with named("a server at two addresses") as known:
        for first, words in rows if known else ():
            with serving(program, "--bind", SECOND, *PASS) as (_, _, port), contextlib.ExitStack() as held:
                if first == "is silent":
                    full(FIRST, int(port), held)
                got = ended_in("/", *known, program, "fetch", "--host", "two.test", "--port", port, "--user", "user", *PASS, *words)
            yield from differs(f"{first}, {words}", got, (0, snapshot(program, DAY), b""))


def a_host_whose_addresses_refuse_is_named(program):
    """With and without a time limit, the error line contains the system's reason."""
    with named("a host that refuses") as known, socket.socket() as bound:
        bound.bind((FIRST, 0))
        port = bound.getsockname()[1]
        for words in ((), ("--timeout", "20")) if known else ():
            got = ended_in("/", *known, program, "fetch", "--host", "two.test", "--port", str(port), "--user", "user", *PASS, *words)
            error = f"itchsnap: socket failed\n  two.test:{port}: Connection refused (os error 111)\n".encode()
            yield from differs(f"{words}", got, (3, b"", error))


def the_status_port_is_at_the_first_address(program):
    """The first address of the name given to --status."""
    with named("a status port at two addresses") as known:
        if not known:
            return
        with Running(*known, program, "live", "--feed", "127.0.0.1:9", "--port", "0", *WORDS, "--status", "two.test:0") as server:
            said = server.said("status on ")
    yield from differs("status", said.rpartition(":")[0], f"status on {FIRST}")


RUNS = [
    the_next_address_is_tried_where_one_refuses,
    after_the_last_address_comes_the_first_again,
    a_snapshot_is_fetched_from_the_address_that_answers,
    a_host_whose_addresses_refuse_is_named,
    the_status_port_is_at_the_first_address,
]
