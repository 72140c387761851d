"""Both ends of a session, row by row of the tables of docs/FORMATS.md.

For the library, a packet of the wrong side is not a packet, and leaves a session unchanged.

RUNS lists the runs: functions that yield the differences found.
"""
import samples
from common import differs
from samples import raised, refusal, said
from sundrekk import ClientSession, Event, Received, ServerSession, payloads

NOTHING, CLOSED = Received(Event.NOTHING), ("CLOSED", 0, None)
WORDS = {"session": "ITCHSNAP", "now_ms": 0}
LOGIN = b"Luser  secret    " + b" " * 10 + b"1".rjust(20)
ACCEPTED = b"A  ITCHSNAP" + b"3".rjust(20)
LOGINS = [
    # user, password, session, number; the answer of a server of 4 messages
    ("user", "secret", "", "3", Received(Event.ACCEPTED, 3)), ("USER", "SECRET", "ITCHSNAP", "5", Received(Event.ACCEPTED, 5)),
    ("user", "secret", "  ITCHSNAP", "", Received(Event.ACCEPTED, 1)), ("user", "secret", "", "0", Received(Event.ACCEPTED, 1)),
    (" user", "secret", "", "1", Received(Event.REJECTED, None, "A")), ("user", "secrets", "", "1", Received(Event.REJECTED, None, "A")),
    ("user", "secret", "itchsnap", "1", Received(Event.REJECTED, None, "S")),
    ("user", "secret", "", "6", Received(Event.REJECTED, None, "S")),
]


def server():
    return ServerSession("user", "secret", total=4, **WORDS)


def client(start=3):
    return ClientSession("user", "secret", session="", start=start, now_ms=0)


def told(make, *packets):
    """Returns the answer of a new session to the last of these packets, after the others."""
    with make() as session:
        for packet in packets[:-1]:
            session.receive(packet, 1)
        found = []
        refused = refusal(lambda: found.append(session.receive(packets[-1], 1)))
        return refused or found[0]


def closes(make, *packets):
    """Returns whether a new session is closed after these packets, the last of which may be refused."""
    with make() as session:
        for packet in packets:
            refusal(session.receive, packet, 1)
        return refusal(session.receive, b"+", 1) == CLOSED


def side(make, accepting, rows):
    """Checks the rows of a side: a packet, what it means before and after the login, and whether it closes the session."""
    for packet, before, after in rows:
        for name, first, (wanted, closing) in (("before", [], before), ("accepted", [accepting], after)):
            yield from differs(f"{packet[:1]} {name}", told(make, *first, packet), wanted)
            yield from differs(f"{packet[:1]} {name} closes", closes(make, *first, packet), closing)


def the_servers_side_is_as_its_table():
    out, second = (Received(Event.LOGGED_OUT), True), (("SECOND_LOGIN", 0, None), True)
    rows = [(packet, (NOTHING, False), (NOTHING, False)) for packet in (b"+debug", b"Udata", b"R")]
    rows += [(b"O", out, out), (LOGIN, (Received(Event.ACCEPTED, 1), False), second)]
    rows += [(packet, *[(("WRONG_SIDE", packet[0], None), False)] * 2) for packet in (ACCEPTED, b"JA", b"Smessage", b"H", b"Z")]
    yield from side(server, LOGIN, rows)


def the_clients_side_is_as_its_table():
    second, ended = (("SECOND_LOGIN", 0, None), True), (Received(Event.ENDED), True)
    rows = [(packet, (NOTHING, False), (NOTHING, False)) for packet in (b"+debug", b"Udata", b"H")]
    rows += [(ACCEPTED, (Received(Event.ACCEPTED, 3), False), second), (b"JA", (Received(Event.REJECTED, None, "A"), True), second),
             (b"J!", (Received(Event.REJECTED, None, "!"), True), second), (b"Z", ended, ended),
             (b"Smessage", (("EARLY", ord("S"), None), True), (Received(Event.DATA, 3), False))]
    rows += [(packet, *[(("WRONG_SIDE", packet[0], None), False)] * 2) for packet in (LOGIN, b"R", b"O")]
    yield from side(client, ACCEPTED, rows)


def what_is_no_packet_leaves_a_session_as_it_was():
    rows = [(b"", ("EMPTY", 0, None)), (b"?", ("UNKNOWN_TYPE", ord("?"), None))]
    rows_of_server = rows + [(b"L", ("WRONG_LENGTH", 47, None)), (LOGIN.replace(b"r ", b"r\0"), ("BAD_TEXT", 5, None)),
                             (LOGIN[:-1] + b"x", ("BAD_NUMBER", 27, None)), (b"OO", ("WRONG_LENGTH", 1, None))]
    rows_of_client = rows + [(b"A", ("WRONG_LENGTH", 31, None)), (ACCEPTED[:-1] + b"0", ("BAD_NUMBER", 11, None)),
                             (b"J", ("WRONG_LENGTH", 2, None))]
    for make, accepting, its_rows in ((server, LOGIN, rows_of_server), (client, ACCEPTED, rows_of_client)):
        for packet, wanted in its_rows:
            yield from differs(f"{packet}", told(make, packet), wanted)
            with make() as session:
                refusal(session.receive, packet, 1)
                yield from differs(f"a login after {packet}", session.receive(accepting, 1).event, Event.ACCEPTED)


def logins_are_checked_in_their_order():
    for user, password, session, number, wanted in LOGINS:
        packet = b"L" + user.ljust(6).encode() + password.ljust(10).encode() + session.ljust(10).encode() + number.rjust(20).encode()
        yield from differs(f"{user} {password} {session} {number}", told(server, packet), wanted)
        yield from differs(f"{user} {password} {session} {number} closes", closes(server, packet), wanted.event is Event.REJECTED)


def time_is_as_its_table():
    for make, accepting in ((server, LOGIN), (client, ACCEPTED)):
        with make() as session:
            ticks = [(1000, Event.NOTHING), (14_999, Event.NOTHING)]
            yield from differs("before", [(now, session.tick(now)) for now, _ in ticks], ticks)
            session.receive(accepting, 15_000)
            ticks = [(15_001, Event.HEARTBEAT), (16_001, Event.NOTHING), (16_002, Event.HEARTBEAT), (10, Event.NOTHING),
                     (29_999, Event.HEARTBEAT)]
            yield from differs("accepted", [(now, session.tick(now)) for now, _ in ticks], ticks)
            session.sent(31_000)
            session.receive(b"+", 31_500)
            ticks = [(32_000, Event.NOTHING), (32_001, Event.HEARTBEAT), (46_499, Event.HEARTBEAT), (46_500, Event.LOST),
                     (90_000, Event.NOTHING)]
            yield from differs("silent", [(now, session.tick(now)) for now, _ in ticks], ticks)
            yield from differs("lost", refusal(session.receive, b"+", 90_000), CLOSED)


def both_ends_understand_each_other():
    day = [bytes(it) for it in payloads(samples.example("first_order.itch"))]
    with ServerSession("desk", "secret", session="TODAY", total=len(day), now_ms=0) as here, \
            ClientSession("desk", "secret", session="TODAY", start=2, now_ms=0) as there:
        yield from differs("the login", there.login(), b"Ldesk  secret    TODAY     " + b"2".rjust(20))
        login = here.receive(there.login(), 5)
        acceptance = here.acceptance(login.number)
        yield from differs("the acceptance", acceptance, b"A     TODAY" + b"2".rjust(20))
        yield from differs("accepted", (login, there.receive(acceptance, 6)), (Received(Event.ACCEPTED, 2),) * 2)
        sent = [here.data(payload) for payload in day[login.number - 1:]]
        yield from differs("the messages", [packet[1:] for packet in sent], day[1:])
        received = [there.receive(packet, 7) for packet in sent]
        yield from differs("their numbers", received, [Received(Event.DATA, 2), Received(Event.DATA, 3)])
        yield from differs("heartbeats", (here.receive(there.HEARTBEAT, 8), there.receive(here.HEARTBEAT, 8)), (NOTHING, NOTHING))
        ends = there.receive(here.END, 9), here.receive(there.LOGOUT, 9)
        yield from differs("the end", ends, (Received(Event.ENDED), Received(Event.LOGGED_OUT)))
    yield from differs("a rejection", told(client, server().rejection("S")), Received(Event.REJECTED, None, "S"))


def words_that_do_not_fit_are_refused():
    rows = [(("seventh", "secret", ""), "a username has up to 6 characters"),
            (("user", "elevenchars", ""), "a password has up to 10 characters"),
            (("user", "secret", "elevenchars"), "a session has up to 10 characters")]
    for (username, password, session), wanted in rows:
        yield from differs(wanted, said(ClientSession, username, password, session=session, now_ms=0), wanted)
        yield from differs(wanted, said(ServerSession, username, password, session=session, total=1, now_ms=0), wanted)
    yield from differs("a text", refusal(ClientSession, "us\0r", "secret", now_ms=0), ("BAD_TEXT", 0, None))
    yield from differs("a number", refusal(client, 10**19 + 1), ("NO_NUMBER", 0, None))
    yield from differs("a total", refusal(ServerSession, "user", "secret", total=10**19, now_ms=0), ("TOO_MANY_MESSAGES", 0, None))
    yield from differs("the greatest number", refusal(client, 10**19), None)
    yield from differs("the greatest total", refusal(ServerSession, "user", "secret", total=10**19 - 1, now_ms=0), None)
    with server() as session:
        for number in (0, 10**19 + 1):
            yield from differs(f"an acceptance from {number}", refusal(session.acceptance, number), ("NO_NUMBER", 0, None))
        for moment in (-1, 2**64):
            yield from differs(f"at {moment}", raised(session.tick, moment), "ValueError")


def a_closed_session_refuses_each_call():
    for make in server, client:
        session = make()
        session.close()
        own = session.login if make is client else lambda: session.acceptance(1)
        for call in (own, lambda: session.receive(b"+", 1), lambda: session.tick(1), lambda: session.sent(1)):
            yield from differs(make.__name__, refusal(call), ("WRONG_HANDLE", 0, None))


RUNS = [the_servers_side_is_as_its_table, the_clients_side_is_as_its_table, what_is_no_packet_leaves_a_session_as_it_was,
        logins_are_checked_in_their_order, time_is_as_its_table, both_ends_understand_each_other, words_that_do_not_fit_are_refused,
        a_closed_session_refuses_each_call]
