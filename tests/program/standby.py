"""`live` and `follow` with several servers of a feed, and with names that are looked up again.

RUNS lists the runs: functions that take the program and yield the differences found.
"""
import contextlib
import re
import socket
import subprocess
import tempfile
import threading
import time
from pathlib import Path

from common import differs, ended_in, split
from living import (ENDED, PATIENCE, REJECTED, WORDS, Feed, Running, acceptance, answer, day_of, feeding, fetch, folder_with, number_of, plays, sends,
                    session_in, snapshot_after)

QUICK = {"RES_OPTIONS": "timeout:1 attempts:1", "LOCALDOMAIN": ""}
UNKNOWN = "no-such-host.invalid:9"
# Runs a command in a mount namespace in which /etc/hosts is the file given first.
ALONE = ["unshare", "--user", "--map-root-user", "--mount"]
WITH_HOSTS = [*ALONE, "sh", "-c", 'mount --bind "$0" /etc/hosts && exec "$@"']


def at(port):
    return f"127.0.0.1:{port}"


def live(program, *servers, words=(), **environment):
    feeds = [word for server in servers for word in ("--feed", server)]
    return Running(program, "live", *feeds, "--port", "0", *WORDS, *words, **environment)


def closed_port():
    """Returns a port where nothing listens."""
    with socket.create_server(("127.0.0.1", 0)) as listener:
        return listener.getsockname()[1]


def waits_for(condition, seconds=PATIENCE):
    begun = time.monotonic()
    while not condition() and time.monotonic() < begun + seconds:
        time.sleep(0.02)


def a_feed_that_is_killed_is_gone_on_with_at_the_next(program):
    """By `live`, whose record equals the day, and which reports where it continues; and by `follow` at the same two servers, whose output is the rest
    of the day."""
    day, wanted = day_of(400)
    early = snapshot_after(program, day, 10)
    with folder_with(day=day) as folder, contextlib.ExitStack() as held:
        first = held.enter_context(feeding(program, folder / "day", "--rate", "100"))
        second = held.enter_context(feeding(program, folder / "day"))
        glimpse = held.enter_context(Feed(sends(answer(early))))
        feeds = "--feed", at(first.port), "--feed", at(second.port)
        tail = held.enter_context(Running(program, "follow", *feeds, "--glimpse", at(glimpse.port), *WORDS, listens=False))
        server = held.enter_context(live(program, at(first.port), at(second.port), words=("--record", folder / "record", "--stay")))
        yield from differs("first", server.said("feed: accepted"), f"feed: accepted from 1 ({at(first.port)})\n")
        tail.said("feed: accepted")
        waits_for(lambda: (folder / "record").exists() and (folder / "record").stat().st_size > 1000)
        first.process.kill()
        lost = server.said("feed: lost at ")
        again = server.said(rf"feed: accepted from \d+ \({at(second.port)}\)")
        yield from differs("goes on", again, re.sub(r"lost at (\d+): .*", rf"accepted from \1 ({at(second.port)})", lost))
        server.said("feed: ended")
        yield from differs("fetched", fetch(program, server.port), (0, wanted, b""))
        yield from differs("record", (folder / "record").read_bytes() == day, True)
        status, output, lines = tail.ended()
        rest = b"".join(split(day)[number_of(early) - 1:])
        yield from differs("follow", (status, output == rest, lines[-1]), (0, True, f"feed: ended at {number_of(wanted)}\n"))


def where_nobody_listens_the_next_is_tried(program):
    """At once. The second server is named when it accepts the login."""
    day, _ = day_of(20)
    nobody = closed_port()
    with folder_with() as folder, Feed(plays(day, then=ENDED)) as feed, live(program, at(nobody), at(feed.port), words=("--record", folder / "record")) as server:
        status, output, lines = server.ended()
        wanted = ["feed: lost at 1: refused\n", f"feed: accepted from 1 ({at(feed.port)})\n", f"feed: ended at {len(split(day)) + 1}\n"]
        yield from differs("ended", (status, output, lines, feed.asked()), (0, b"", wanted, [1]))
        yield from differs("record", (folder / "record").read_bytes(), day)


def after_the_last_comes_the_first_again(program):
    """With the same session and from the next message, with a pause only after the last server."""
    day, _ = day_of(20)
    first, last = [], []

    def noting(times, script):
        def noted(peer, login):
            times.append(time.monotonic())
            script(peer, login)
        return noted

    with Feed(noting(first, plays(day, until=3, session=b"DAY1")), noting(first, plays(day, until=9, session=b"DAY1"))) as one, \
            Feed(noting(last, plays(day, until=6, session=b"DAY1")), noting(last, plays(day, then=ENDED, session=b"DAY1"))) as other, \
            live(program, at(one.port), at(other.port)) as server:
        status, _, lines = server.ended()
        yield from differs("status", (status, lines[-1]), (0, f"feed: ended at {len(split(day)) + 1}\n"))
        yield from differs("asked", (one.asked(), other.asked()), ([1, 7], [4, 10]))
        sessions = [session_in(login).strip() for login in one.logins + other.logins]
        yield from differs("sessions", sessions, [b"", b"DAY1", b"DAY1", b"DAY1"])
        if len(first) == len(last) == 2 and first[1] - last[0] < 0.09:
            yield f"no pause before the first again: {first[1] - last[0]:.3f} seconds"


def a_rejection_that_is_tried_again_is_tried_at_the_next(program):
    """The same for an acceptance of another session. Each is reported with its server, and only once however often it occurs."""
    day, _ = day_of(20)
    rejected = sends(b"\0\x02JS")
    with Feed(rejected, rejected, plays(day, then=ENDED, session=b"DAY1")) as one, \
            Feed(plays(day, until=5, session=b"DAY1"), sends(acceptance(6, b"DAY2"))) as other, live(program, at(one.port), at(other.port)) as server:
        status, _, lines = server.ended()
        yield from differs("asked", (status, one.asked(), other.asked()), (0, [1, 6, 6], [1, 6]))
        wanted = [f"feed: rejected S ({at(one.port)})\n", f"feed: accepted from 1 ({at(other.port)})\n", "feed: lost at 6: closed by the server\n",
                  f"feed: rejected S ({at(one.port)})\n", f"feed: in session DAY2, not in DAY1 ({at(other.port)})\n",
                  f"feed: accepted from 6 ({at(one.port)})\n", f"feed: ended at {len(split(day)) + 1}\n"]
        yield from differs("said", lines, wanted)
    with Feed(sends(b"\0\x02JA")) as one, Feed(plays(day, then=ENDED)) as other, live(program, at(one.port), at(other.port)) as server:
        status, _, lines = server.ended()
        yield from differs("wrong words", (status, lines[-2:], other.asked()), (1, REJECTED, []))


def a_refused_message_names_its_server(program):
    """The server that sent it, which is the second."""
    day, _ = day_of(20)
    twice = day + split(day)[-1]
    with Feed(plays(day, until=5)) as one, Feed(plays(twice)) as other, live(program, at(one.port), at(other.port)) as server:
        status, _, lines = server.ended()
        yield from differs("ended", (status, lines[-1]), (1, f"  {at(other.port)}, session ITCHSNAP\n"))


def a_name_that_is_not_found_is_looked_up_again(program):
    """By `live`, which reports it once and continues with the next server."""
    day, wanted = day_of(20)
    with live(program, UNKNOWN, **QUICK) as server:
        yield from differs("said", server.said("feed: "), f"feed: not found ({UNKNOWN})\n")
        time.sleep(1)
        yield from differs("runs", (server.process.poll(), len(server.lines)), (None, 2))
    with Feed(plays(day, then=ENDED)) as feed, live(program, UNKNOWN, at(feed.port), **QUICK) as server:
        status, _, lines = server.ended()
        yield from differs("next", (status, lines[:2]), (0, [f"feed: not found ({UNKNOWN})\n", f"feed: accepted from 1 ({at(feed.port)})\n"]))
    with Feed(plays(day, then=ENDED)) as feed, live(program, at(feed.port), words=("--glimpse", UNKNOWN), **QUICK) as server:
        yield from differs("snapshot", server.said("glimpse: "), f"glimpse: not found ({UNKNOWN})\n")
    if subprocess.run([*ALONE, "true"], stderr=subprocess.DEVNULL).returncode != 0:
        print("skipped: a name that is found later: this machine does not allow namespaces")
        return
    end = threading.Event()
    with folder_with(hosts=b"") as folder, Feed(plays(day, wait=end, held=ENDED)) as feed:
        name = f"feed.test:{feed.port}"
        words = "live", "--feed", name, "--port", "0", *WORDS
        with Running(*WITH_HOSTS, folder / "hosts", program, *words, **QUICK) as server:
            yield from differs("not yet", server.said("feed: "), f"feed: not found ({name})\n")
            (folder / "hosts").write_bytes(b"127.0.0.1 feed.test\n")
            yield from differs("found", server.said("feed: accepted"), "feed: accepted from 1\n")
            waits_for(lambda: number_of(fetch(program, server.port)[1]) >= number_of(wanted))
            yield from differs("fetched", fetch(program, server.port), (0, wanted, b""))
        end.set()


def a_name_whose_address_changes_is_looked_up_again(program):
    """When its server is lost, the feed continues at the new address."""
    day, _ = day_of(20)
    if subprocess.run([*ALONE, "true"], stderr=subprocess.DEVNULL).returncode != 0:
        print("skipped: a name whose address changes: this machine does not allow namespaces")
        return
    moved = threading.Event()

    def first_five(peer, login):
        plays(day, until=5)(peer, login)
        moved.wait(PATIENCE)

    with folder_with(hosts=b"127.0.0.2 feed.test\n") as folder, Feed(first_five, address="127.0.0.2") as one, \
            Feed(plays(day, then=ENDED), address="127.0.0.3", port=one.port) as other, \
            Running(*WITH_HOSTS, folder / "hosts", program, "live", "--feed", f"feed.test:{one.port}", "--port", "0", *WORDS, **QUICK) as server:
        server.said("feed: accepted from 1\n")
        (folder / "hosts").write_bytes(b"127.0.0.3 feed.test\n")
        moved.set()
        status, _, _ = server.ended()
        yield from differs("asked", (status, one.asked(), other.asked()), (0, [1], [6]))


def words_of_a_second_feed_are_read(program):
    """The second feed is HOST:PORT like the first, and there may be at most eight."""
    base = ["live", "--feed", "h:1", "--port", "0", *WORDS]
    with tempfile.TemporaryDirectory() as folder:
        for more in (["--feed", "h"], ["--feed", "h:0"], ["--feed", "h:1"] * 8):
            status, output, error = ended_in(folder, program, *base, *more)
            if (status, output) != (2, b"") or not error.startswith(b"error: "):
                yield f"{more}: {status}, {output!r}, {error!r}"


RUNS = [
    a_feed_that_is_killed_is_gone_on_with_at_the_next,
    where_nobody_listens_the_next_is_tried,
    after_the_last_comes_the_first_again,
    a_rejection_that_is_tried_again_is_tried_at_the_next,
    a_refused_message_names_its_server,
    a_name_that_is_not_found_is_looked_up_again,
    a_name_whose_address_changes_is_looked_up_again,
    words_of_a_second_feed_are_read,
]
