"""`feed` and `follow`, a chain of `feed`, `live` and `follow`, and the reasons why each ends.

RUNS lists the runs: functions that take the program and yield the differences found.
"""
import contextlib
import re
import socket
import struct
import subprocess
import tempfile
import threading
import time

from common import differs, ended_in, split
from living import (BEAT, ENDED, LOGIN, PATIENCE, WORDS, Feed, Running, acceptance, answer, connect, day_of, feeding, fetch, folder_with, follow,
                    live, number_of, packet, plays, received, sends, snapshot_after, told)
from network import has_ipv6
from standby import waits_for


def a_feed_is_played_from_the_number_asked(program):
    """Each client is served independently: from the first message, from a later one, and from the one after the last."""
    day, _ = day_of(300)
    blocks = split(day)
    last = len(blocks)
    rows = [(0, 1), (1, 1), (2, 2), (last - 1, last - 1), (last, last), (last + 1, last + 1)]
    with folder_with(day=day) as folder, feeding(program, folder / "day", "--count", str(len(rows) + 3)) as server:
        for asked, first in rows:
            login = LOGIN[:-20] + b"%20d" % asked
            yield from differs(f"from {asked}", told(server.port, login), acceptance(first) + b"".join(map(packet, blocks[first - 1:])) + ENDED)
        for login, code in ((LOGIN[:-20] + b"%20d" % (last + 2), b"S"), (LOGIN.replace(b"secret", b"wrong "), b"A"), (b"\0\x01Q", b"")):
            yield from differs(f"{login[-40:]!r}", told(server.port, login), b"\0\x02J" + code if code else b"")
        status, output, lines = server.ended()
    endings = [line.split(": ", 1)[1] for line in sorted(output.decode().splitlines())]
    wanted = [f"accepted from {first}, {last + 1 - first} packets" for _, first in rows] + ["rejected S", "rejected A", "fault"]
    yield from differs("ended", (status, endings, lines), (0, wanted, []))


def a_feed_says_how_a_client_went(program):
    """A client that is silent, one that logs in and reads nothing, one that logs in twice, one that logs out, and one that logs out before it has
    logged in."""
    day = (b"\xea\x60" + b"z" * 60_000) * 200
    played = f"accepted from 1, {len(split(day))} packets"
    with folder_with(day=day) as folder, feeding(program, folder / "day", "--stay", "--count", "5") as server:
        with connect(server.port) as silent, connect(server.port, 4096) as never:
            never.sendall(LOGIN)
            for data in (LOGIN + LOGIN, LOGIN + b"\0\x01O", b"\0\x01O"):
                told(server.port, data)
            yield from differs("silent", received(silent), b"")
            status, output, _ = server.ended()
    endings = [line.split(": ", 1)[1] for line in output.decode().splitlines()]
    yield from differs("endings", (status, endings[0], endings[2:]), (0, "fault", ["left", "cut off", "cut off"]))
    if not endings[1].startswith("accepted from 1, "):
        yield f"{endings[1]}, not as {played}"


def a_feed_stays_with_heartbeats(program):
    """Heartbeats follow the last message, and are all that a client receives that requests the message after it, until it leaves."""
    day, _ = day_of(20)
    blocks = split(day)
    with folder_with(day=day) as folder, feeding(program, folder / "day", "--stay", "--count", "1") as server:
        with connect(server.port) as peer:
            peer.sendall(LOGIN)
            whole = acceptance(1) + b"".join(map(packet, blocks))
            yield from differs("messages", received(peer, len(whole)), whole)
            begun = time.monotonic()
            yield from differs("heartbeats", received(peer, 9), BEAT * 3)
            if not 2.5 < time.monotonic() - begun < 8:
                yield f"three heartbeats in {time.monotonic() - begun:.1f} seconds"
        yield from differs("ended", server.ended()[:2], (0, f"connection 1: accepted from 1, {len(blocks)} packets\n".encode()))


def a_feed_is_played_at_a_rate(program):
    """200 messages take 2 seconds at 100 per second, and also at five times the clock, since their timestamps span 10 seconds."""
    day, _ = day_of(180)
    timed = b"".join(it[:7] + struct.pack(">Q", n * 50_000_000)[2:] + it[13:] for n, it in enumerate(split(day)))
    for words, least, data in ((("--rate", "100"), 1.99, day), (("--clock", "5"), 1.99, timed), ((), 0, day)):
        with folder_with(day=data) as folder, feeding(program, folder / "day", "--count", "1", *words) as server:
            begun = time.monotonic()
            got = told(server.port, LOGIN)
            spent = time.monotonic() - begun
            yield from differs(f"{words}", got, acceptance(1) + b"".join(map(packet, split(data))) + ENDED)
            if not least - 0.1 <= spent < least + 10:
                yield f"{words}: {spent:.2f} seconds"


def a_feed_of_no_day_file_is_refused(program):
    day, _ = day_of(5)
    with folder_with(cut=day[:-3]) as folder:
        words = "--port", "0", *WORDS
        got = ended_in(folder, program, "feed", "cut", *words)
        yield from differs("cut", (got[0], got[1], got[2].split(b":")[0]), (1, b"", b"itchsnap"))
        got = ended_in(folder, program, "feed", "none", *words)
        yield from differs("none", got, (3, b"", b"itchsnap: cannot open\n  none: No such file or directory (os error 2)\n"))


def all_three_in_a_row(program):
    """A feed that plays, a live server behind it, and another one behind that. A snapshot fetched on the way equals that of `snap --after`, the
    followed messages are the end of the file, and both records equal the file."""
    day, wanted = day_of(3000, symbols=100)
    last = number_of(wanted)
    with folder_with(day=day) as folder, contextlib.ExitStack() as held:
        feed = held.enter_context(feeding(program, folder / "day", "--rate", "150"))
        first = held.enter_context(live(program, feed.port, "--record", folder / "record", "--stay"))
        first.said("feed: accepted")
        tail = held.enter_context(follow(program, feed.port, first.port))
        lines = held.enter_context(follow(program, feed.port, first.port, "--json"))
        whole = held.enter_context(follow(program, feed.port, first.port, "--whole"))
        second = held.enter_context(live(program, feed.port, "--glimpse", f"127.0.0.1:{first.port}", "--stay"))
        for process in (tail, lines, whole, second):
            process.said("feed: accepted")
        seen = set()
        for port in (first.port, second.port) * 4:
            status, got, error = fetch(program, port)
            if status != 0:
                yield f"a fetch ended with {status}, {error!r}"
                break
            seen.add(number_of(got))
            yield from differs(f"fetched at {number_of(got)}", got == snapshot_after(program, day, number_of(got) - 1), True)
        if len(seen) < 2:
            yield f"only {sorted(seen)} were fetched"
        for process in (first, second):
            process.said("feed: ended")
        yield from differs("record", (folder / "record").read_bytes() == day, True)
        yield from differs("at the end", fetch(program, second.port), (0, wanted, b""))
        for name, process in (("blocks", tail), ("lines", lines), ("whole", whole)):
            status, output, said = process.ended()
            joined = int(re.search(r"joined at (\d+)", "".join(said))[1])
            rest = b"".join(split(day)[joined - 1:])
            if name == "lines":
                shown = ended_in(folder, program, "show", "--json", "day")[1].splitlines(keepends=True)
                rest = b"".join(shown[joined - 1:])
            if name == "whole":
                rest = b"".join(split(snapshot_after(program, day, joined - 1))[:-1]) + rest
            yield from differs(name, (status, output == rest, 1 < joined < last), (0, True, True))
            yield from differs(f"lines of {name}", said[-1], f"feed: ended at {last}\n")


def a_follower_writes_at_once(program):
    """Each message is written before the feed sends the next one: as blocks, as JSON, and after the complete snapshot."""
    day, _ = day_of(30)
    blocks, begins = split(day), 10
    early = snapshot_after(program, day, begins)
    lines = ended_lines(program, day)
    whole = b"".join(split(early)[:-1])
    for words, shown, first in (((), blocks, b""), (("--json",), lines, b""), (("--whole",), blocks, whole)):
        goes, hold = threading.Semaphore(0), threading.Event()

        def slowly(peer, login):
            peer.sendall(acceptance(begins + 1))
            for block in blocks[begins:begins + 4]:
                goes.acquire(timeout=PATIENCE)
                peer.sendall(packet(block))
            hold.wait(PATIENCE)

        with Feed(sends(answer(early))) as glimpse, Feed(slowly) as feed, follow(program, feed.port, glimpse.port, *words) as following:
            following.said("feed: accepted")
            for count in range(1, 5):
                goes.release()
                wanted = first + b"".join(shown[begins:begins + count])
                waits_for(lambda: b"".join(following.output) == wanted, 10)
                yield from differs(f"{words}, {count}", b"".join(following.output), wanted)
            hold.set()


def ended_lines(program, day):
    """Returns the JSON lines of a day's messages."""
    with folder_with(day=day) as folder:
        return ended_in(folder, program, "show", "--json", "day")[1].splitlines(keepends=True)


def a_follower_s_closed_pipe_ends_it_quietly(program):
    day, wanted = day_of(500)
    early = snapshot_after(program, day, 100)
    hold = threading.Event()
    with Feed(sends(answer(early))) as glimpse, Feed(plays(day, wait=hold)) as feed:
        words = [program, "follow", "--feed", f"127.0.0.1:{feed.port}", "--glimpse", f"127.0.0.1:{glimpse.port}", *WORDS, "--json"]
        with subprocess.Popen(words, stdout=subprocess.PIPE, stderr=subprocess.PIPE) as process:
            process.stdout.readline()
            process.stdout.close()
            process.wait(PATIENCE)
            error = process.stderr.read()
        hold.set()
        yield from differs("ended", (process.returncode, b"itchsnap" in error), (141, False))


def an_address_in_use_is_a_failed_socket(program):
    with socket.create_server(("127.0.0.1", 0)) as listener, folder_with(day=day_of(3)[0]) as folder:
        port = listener.getsockname()[1]
        error = f"itchsnap: socket failed\n  127.0.0.1:{port}: Address already in use (os error 98)\n".encode()
        words = "--port", str(port), *WORDS
        yield from differs("live", ended_in(folder, program, "live", "--feed", "127.0.0.1:9", *words), (3, b"", error))
        yield from differs("feed", ended_in(folder, program, "feed", "day", *words), (3, b"", error))


def an_unknown_host_cannot_be_opened(program):
    """Neither the feed of `follow` nor its snapshot server."""
    quick = {"RES_OPTIONS": "timeout:1 attempts:1", "LOCALDOMAIN": ""}
    with tempfile.TemporaryDirectory() as folder:
        for servers in (("no-such-host.invalid:9", "127.0.0.1:9"), ("127.0.0.1:9", "no-such-host.invalid:9")):
            words = "follow", "--feed", servers[0], "--glimpse", servers[1]
            status, output, error = ended_in(folder, program, *words, *WORDS, **quick)
            if (status, output) != (3, b"") or not error.startswith(b"itchsnap: cannot open\n  no-such-host.invalid:9: failed to lookup address information"):
                yield f"{words}: {status}, {output!r}, {error!r}"


def a_feed_of_an_ipv6_address_is_followed(program):
    if not has_ipv6():
        print("skipped: a feed at an IPv6 address: this machine has no IPv6")
        return
    day, _ = day_of(20)
    with folder_with(day=day) as folder, feeding(program, folder / "day", "--bind", "::1") as feed:
        words = "--feed", f"[::1]:{feed.port}", "--port", "0", *WORDS, "--record", folder / "record"
        with Running(program, "live", *words) as server:
            yield from differs("ended", server.ended()[0], 0)
        yield from differs("record", (folder / "record").read_bytes() == day, True)


def words_that_do_not_go_together_are_refused(program):
    live_words = ["live", "--feed", "h:1", "--port", "0", *WORDS]
    follow_words = ["follow", "--feed", "h:1", "--glimpse", "h:2", *WORDS]
    feed_words = ["feed", "day", "--port", "0", *WORDS]
    rows = [[*live_words, "--record", "r", "--glimpse", "h:2"], [*live_words, "--snapshots", "d"], [*live_words, "--every", "5"],
            [*live_words, "--record", "r", "--records", "d"], [*live_words, "--records", "d", "--glimpse", "h:2"], [*live_words, "--sync", "no"],
            [*live_words, "--keep", "3"], [*live_words, "--snapshots", "d", "--every", "5", "--keep", "0"], [*live_words, "--ready", "later"],
            [*live_words, "--clients", "0"], [*live_words, "--clients", "1001"], ["live", *WORDS, "--port", "0"],
            *([*live_words, "--snapshot-memory", size] for size in ("0", "0K", "", "M", "+1", "1.5M", "256MB", "256m", "0x10", "17179869184G")),
            [*live_words, *["--feed", "h:2"] * 8],
            [*follow_words, "--whole", "--json"], follow_words[:3] + list(WORDS), [*feed_words, "--rate", "5", "--clock", "2"], [*feed_words, "--rate", "0"],
            ["feed", "-", "--port", "0", *WORDS], ["feed", "--port", "0", *WORDS], ["live", "--feed", "h:1", "--user", "user", "--port", "0"]]
    rows += [["live", "--feed", place, "--port", "0", *WORDS] for place in ("", ":1", "h:0", "h:65536", "h:x", "::1:5", "[::1]", "[::1:5", "h:+5", "h:")]
    with tempfile.TemporaryDirectory() as folder:
        for words in rows:
            status, output, error = ended_in(folder, program, *words)
            if (status, output) != (2, b"") or not error.startswith(b"error: "):
                yield f"{words}: {status}, {output!r}, {error!r}"


RUNS = [
    a_feed_is_played_from_the_number_asked,
    a_feed_says_how_a_client_went,
    a_feed_stays_with_heartbeats,
    a_feed_is_played_at_a_rate,
    a_feed_of_no_day_file_is_refused,
    all_three_in_a_row,
    a_follower_writes_at_once,
    a_follower_s_closed_pipe_ends_it_quietly,
    an_address_in_use_is_a_failed_socket,
    an_unknown_host_cannot_be_opened,
    a_feed_of_an_ipv6_address_is_followed,
    words_that_do_not_go_together_are_refused,
]
