"""Clients that stop sending or leave before they are served, log in bit by bit, or wait while descriptors are short.

RUNS lists the runs: functions that take the program and yield the differences found.
"""
import contextlib
import socket
import threading

from common import differs, readable, split
from hostile import started_by, without_beats
from idle import share_differs
from living import CLIENT_BEAT, ENDED, LOGIN, Feed, acceptance, answer, connect, day_of, feeding, folder_with, live, packet, plays, received, told
from standby import waits_for

ACCEPTED = len(acceptance(1))
LEFT = b"\0\x01O"


class Late:
    """A snapshot server that sends its snapshot only after an event."""

    def __init__(self, snapshot):
        self.begin, self.rest = threading.Event(), answer(snapshot)[ACCEPTED:]

    def __call__(self, peer, login):
        peer.sendall(acceptance(1))
        self.begin.wait()
        peer.sendall(self.rest)


@contextlib.contextmanager
def before_a_market(program, *words):
    """Yields a server that has no market yet, what a client receives at the end, and a function that provides the market."""
    day, snapshot = day_of(50)
    late, end = Late(snapshot), threading.Event()
    with Feed(late) as glimpse, Feed(plays(day, wait=end, held=ENDED)) as feed, \
            live(program, feed.port, "--glimpse", f"127.0.0.1:{glimpse.port}", *words) as server:
        try:
            yield server, answer(snapshot), late.begin, end
        finally:
            late.begin.set()
            end.set()


def asks(port, held, more=b""):
    """Returns a client that has logged in."""
    client = held.enter_context(connect(port))
    client.sendall(LOGIN + more)
    return client


def rest_differs(label, clients, wanted):
    """Yields what is wrong unless each of these clients receives this in the end, apart from heartbeats and from what it has read before. Each
    then leaves."""
    for place, (client, before) in enumerate(clients):
        with contextlib.suppress(ConnectionError):
            before += received(client)
        client.close()
        yield from differs(f"{label} {place}", without_beats(before) == wanted, True)


def a_client_that_sends_no_more_waits_for_a_market(program):
    """It shuts down sending with its login, after heartbeats, or after it is accepted, and still receives everything. A client that logs out has
    left."""
    with before_a_market(program) as (server, wanted, begin, end), contextlib.ExitStack() as held:
        clients = [asks(server.port, held, more) for more in (b"", CLIENT_BEAT * 5, b"", b"")]
        for client in clients[:2]:
            client.shutdown(socket.SHUT_WR)
        heard = [(client, received(client, ACCEPTED)) for client in clients]
        clients[2].shutdown(socket.SHUT_WR)
        clients[3].sendall(CLIENT_BEAT)
        clients[3].shutdown(socket.SHUT_WR)
        yield from differs("one that logs out", told(server.port, LOGIN + LEFT) in (acceptance(1), b""), True)
        begin.set()
        yield from rest_differs("client", heard, wanted)
        end.set()
        status, output, _ = server.ended()
    lines = sorted(line.split(": ")[1] for line in output.decode().splitlines())
    packets = len(split(wanted)) - 2
    yield from differs("ended", (status, lines), (0, [f"accepted at {packets}, {packets} packets"] * 4 + ["left"]))


def a_client_that_sends_no_more_waits_for_a_place(program):
    """Another client holds the only place. Both receive everything, one after the other."""
    with before_a_market(program, "--clients", "1") as (server, wanted, begin, _), contextlib.ExitStack() as held:
        first = asks(server.port, held)
        heard = [(first, received(first, ACCEPTED))]
        for more in (b"", CLIENT_BEAT * 3, CLIENT_BEAT * 300):
            client = asks(server.port, held, more)
            client.shutdown(socket.SHUT_WR)
            heard.append((client, b""))
        begin.set()
        yield from rest_differs("client", heard, wanted)


def a_long_packet_before_a_login_may_come_in_pieces(program):
    """By `live` and by `feed`: the packet is skipped, and the login after it is answered."""
    day, snapshot = day_of(50)
    whole = acceptance(1) + b"".join(map(packet, split(day))) + ENDED
    rest, end = b"x" * 3000, threading.Event()
    with folder_with(day=day) as folder, Feed(plays(day, wait=end, held=ENDED)) as feed, live(program, feed.port) as server, \
            feeding(program, folder / "day") as other, contextlib.ExitStack() as held:
        waits_for(lambda: told(server.port, LOGIN) == answer(snapshot))
        for port, wanted in (server.port, answer(snapshot)), (other.port, whole):
            client = held.enter_context(connect(port))
            for piece in (len(rest).to_bytes(2, "big") + b"+", rest[:1000], rest[1000:2000]):
                client.sendall(piece)
                # When a later client is answered, these bytes have been read.
                told(port, LEFT)
            client.sendall(rest[2001:] + LOGIN)
            yield from differs(f"{port}", received(client) == wanted, True)
        end.set()


def clients_wait_before_the_session_is_known(program):
    """They connect before the feed has accepted a login, and nobody connects afterwards. Each receives everything."""
    day, _ = day_of(20)
    begin, end = threading.Event(), threading.Event()

    def late(peer, login):
        begin.wait()
        plays(day, wait=end, held=ENDED)(peer, login)

    with Feed(late) as feed, live(program, feed.port) as server, contextlib.ExitStack() as held:
        clients = [asks(server.port, held) for _ in range(3)]
        begin.set()
        for place, client in enumerate(clients):
            got = without_beats(received(client))
            client.close()
            yield from differs(f"client {place}", (got[:ACCEPTED], got[-len(ENDED):]), (acceptance(1), ENDED))
        end.set()


def places_are_given_in_the_order_of_those_who_come(program):
    """There is one place, which the first client holds and then frees."""
    with before_a_market(program, "--clients", "1") as (server, _, _, _), contextlib.ExitStack() as held:
        first = asks(server.port, held)
        yield from differs("first", received(first, ACCEPTED), acceptance(1))
        others = [asks(server.port, held) for _ in range(4)]
        # When this client is answered, the logins of the others have been read.
        yield from differs("rejected", told(server.port, LOGIN.replace(b"secret", b"wrong ")), b"\0\x02JA")
        for place, other in enumerate(others):
            first.close()
            yield from differs(f"{place}", received(other, ACCEPTED), acceptance(1))
            later = [it for it in others[place + 1:] if readable([it], 0)]
            yield from differs(f"told something after {place}", len(later), 0)
            first = other


def clients_wait_while_descriptors_are_short(program):
    """More clients wait for a market than there are descriptors. In the end all receive it, and meanwhile the server uses no processor time."""
    with folder_with() as folder, before_a_market(started_by(folder, program, "ulimit -n 20")) as (server, wanted, begin, _), \
            contextlib.ExitStack() as held:
        clients = [(asks(server.port, held), b"") for _ in range(40)]
        yield from share_differs("while they wait", server)
        begin.set()
        yield from rest_differs("client", clients, wanted)


def clients_of_a_feed_wait_while_descriptors_are_short(program):
    """There are more clients than descriptors, and each is played a file that is opened for it. In the end all have the complete day."""
    day, _ = day_of(50)
    wanted = acceptance(1) + b"".join(map(packet, split(day))) + ENDED
    with folder_with(day=day) as folder, feeding(started_by(folder, program, "ulimit -n 20"), folder / "day") as server, \
            contextlib.ExitStack() as held:
        clients = [(asks(server.port, held), b"") for _ in range(40)]
        yield from share_differs("while they wait", server)
        yield from rest_differs("client", clients, wanted)
        server.has_lines(len(clients))
        endings = {it.split(": ")[1] for it in b"".join(server.output).decode().splitlines()}
        yield from differs("endings", endings, {f"accepted from 1, {len(split(day))} packets"})


RUNS = [
    a_client_that_sends_no_more_waits_for_a_market,
    a_client_that_sends_no_more_waits_for_a_place,
    a_long_packet_before_a_login_may_come_in_pieces,
    clients_wait_before_the_session_is_known,
    places_are_given_in_the_order_of_those_who_come,
    clients_wait_while_descriptors_are_short,
    clients_of_a_feed_wait_while_descriptors_are_short,
]
