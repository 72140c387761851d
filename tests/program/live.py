"""`live`: a feed that is lost and reconnected, clients of all kinds, records and snapshots.

RUNS lists the runs: functions that take the program and yield the differences found.
"""
import contextlib
import re
import resource
import signal
import socket
import struct
import subprocess
import threading
import time
from pathlib import Path

from common import differs, ended_in, readable, split
from living import (BEAT, CLIENT_BEAT, ENDED, LOGIN, PATIENCE, REJECTED, SILENCE, WORDS, Feed, Running, acceptance, answer, block_in, connect, day_of,
                    feeding, fetch, folder_with, large_server, live, number_of, packet, plays, received, recorded, sends, session_in, snapshot_after,
                    told, without_first_beats)


def what_is_followed_is_served(program):
    """Two clients are served the complete market, and the feed ends. The program ends when they have left, and reports how each ended."""
    day, wanted = day_of(300)
    end = threading.Event()
    with Feed(plays(day, wait=end, held=ENDED)) as feed, live(program, feed.port) as server:
        last = number_of(wanted)
        for _ in range(2):
            while (got := fetch(program, server.port))[0] == 0 and number_of(got[1]) < last:
                time.sleep(0.05)
            yield from differs("fetched", got, (0, wanted, b""))
        end.set()
        status, output, lines = server.ended()
    ends = [it for it in output.decode().splitlines() if it.endswith(f"accepted at {last}, {len(split(wanted))} packets")]
    if status != 0 or len(ends) < 2 or lines != ["feed: accepted from 1\n", f"feed: ended at {last}\n"]:
        yield f"ended with {status}, {output!r}, {lines}"


def a_login_waits_for_a_market(program):
    """A server that begins with a snapshot accepts a login at once, but answers it only when the snapshot is complete. Meanwhile it sends
    heartbeats."""
    day, wanted = day_of(50)
    begin, end = threading.Event(), threading.Event()

    def late(peer, login):
        begin.wait(PATIENCE)
        peer.sendall(answer(wanted))

    with Feed(late) as glimpse, Feed(plays(day, wait=end)) as feed, \
            live(program, feed.port, "--glimpse", f"127.0.0.1:{glimpse.port}", "--session", "ITCHSNAP") as server, connect(server.port) as peer:
        peer.sendall(LOGIN)
        begun = time.monotonic()
        yield from differs("told", received(peer, len(acceptance(1) + BEAT * 2)), acceptance(1) + BEAT * 2)
        if not 1.9 < time.monotonic() - begun < 5:
            yield f"two heartbeats after {time.monotonic() - begun:.1f} seconds"
        begin.set()
        whole = received(peer)
        while whole.startswith(BEAT):
            whole = whole[len(BEAT):]
        yield from differs("told", whole, answer(wanted)[len(acceptance(1)):])
        end.set()


def a_feed_that_is_cut_is_asked_for_the_next_message(program):
    """The feed is cut within its acceptance, within a message, between two, and within the length of one. The session that it names first is
    requested from then on, and the record contains each message once."""
    day, wanted = day_of(100)
    blocks = split(day)
    name = b"  ITCHSNAP"
    with folder_with() as folder:
        record = folder / "record.itch"
        scripts = [sends(acceptance(1)[:9]), plays(day, until=30, then=packet(blocks[30])[:7]), plays(day, until=60),
                   plays(day, until=90, then=packet(blocks[90])[:1]), plays(day, then=ENDED)]
        with Feed(*scripts) as feed, live(program, feed.port, "--record", record) as server:
            status, output, lines = server.ended()
            yield from differs("asked", feed.asked(), [1, 1, 31, 61, 91])
            sessions = [session_in(login).strip() for login in feed.logins]
            yield from differs("sessions", sessions, [b"", b""] + [name.strip()] * 3)
        yield from differs("the record", record.read_bytes(), day)
    last = len(blocks) + 1
    wanted = ["feed: lost at 1: closed by the server\n", "feed: accepted from 1\n", "feed: lost at 31: closed by the server\n", "feed: accepted from 31\n",
              "feed: lost at 61: closed by the server\n", "feed: accepted from 61\n", "feed: lost at 91: closed by the server\n", "feed: accepted from 91\n",
              f"feed: ended at {last}\n"]
    yield from differs("ended", (status, output, lines), (0, b"", wanted))


def a_record_is_gone_on_with(program):
    """After a restart with an unfinished block at the end of the record, cut anywhere; and after the process was killed."""
    day, _ = day_of(60)
    blocks = split(day)
    for whole, cut in ((0, 0), (0, 1), (20, 0), (20, 1), (20, 5), (len(blocks), 0), (len(blocks) - 1, len(blocks[-1]) - 1)):
        kept = b"".join(blocks[:whole]) + (blocks[whole][:cut] if whole < len(blocks) else b"")
        with folder_with(**recorded(kept)) as folder:
            with Feed(plays(day, then=ENDED)) as feed, live(program, feed.port, "--record", folder / "record") as server:
                status, _, lines = server.ended()
                yield from differs(f"asked after {whole} and {cut}", feed.asked(), [whole + 1])
            yield from differs(f"ended after {whole} and {cut}", status, 0)
            yield from differs(f"record after {whole} and {cut}", (folder / "record").read_bytes(), day)


def a_killed_server_s_record_is_gone_on_with(program):
    day, _ = day_of(2000)
    blocks = split(day)
    with folder_with() as folder:
        record, asked = folder / "record", []
        for until in (700, 1500):
            hold = threading.Event()
            with Feed(plays(day, until=until, wait=hold)) as feed, live(program, feed.port, "--record", record) as server:
                length, begun = len(b"".join(blocks[:until])), time.monotonic()
                while (not record.exists() or record.stat().st_size < length) and time.monotonic() < begun + PATIENCE:
                    time.sleep(0.02)
                server.process.send_signal(signal.SIGKILL)
                asked += feed.asked()
                hold.set()
        with Feed(plays(day, then=ENDED)) as feed, live(program, feed.port, "--record", record) as server:
            yield from differs("ended", server.ended()[0], 0)
            asked += feed.asked()
        yield from differs("asked", asked, [1, 701, 1501])
        yield from differs("the record", record.read_bytes() == day, True)


def a_record_that_is_no_day_file_is_refused(program):
    """The record is unchanged, and no server is contacted."""
    day, _ = day_of(5)
    blocks = split(day)
    for kept, number in ((b"\0\x05hello", 1), (blocks[-1], 1), (blocks[0] + b"\0\x05hello", 2)):
        with folder_with(**recorded(kept)) as folder, Feed(plays(day, then=ENDED)) as feed:
            words = "--feed", f"127.0.0.1:{feed.port}", "--port", "0", *WORDS, "--record", "record"
            status, output, error = ended_in(folder, program, "live", *words)
            lines = error.decode().splitlines()[1:]
            if (status, output, lines[1:]) != (1, b"", ["  record"]) or not lines[0].startswith(f"itchsnap: record: message {number}: "):
                yield f"{kept!r}: {status}, {output!r}, {error!r}"
            yield from differs("record", (folder / "record").read_bytes(), kept)
            yield from differs("asked", feed.logins, [])


def a_snapshot_is_where_it_begins(program):
    """The snapshot server is lost once in the middle, and asked for the entire snapshot again. Then everything is as from the first message on."""
    day, wanted = day_of(200)
    early, end = snapshot_after(program, day, 120), threading.Event()
    whole = answer(early)
    with Feed(sends(whole[:len(whole) // 2]), sends(whole)) as glimpse, Feed(plays(day, wait=end, held=ENDED)) as feed, \
            live(program, feed.port, "--glimpse", f"127.0.0.1:{glimpse.port}", "--stay") as server:
        server.said("feed: accepted from ")
        while (got := fetch(program, server.port))[0] == 0 and number_of(got[1]) < number_of(wanted):
            time.sleep(0.05)
        yield from differs("fetched", got, (0, wanted, b""))
        yield from differs("asked", (glimpse.asked(), feed.asked()), ([1, 1], [121]))
        end.set()
        server.said("feed: ended")
        # With --stay it keeps serving.
        yield from differs("fetched at the end", fetch(program, server.port), (0, wanted, b""))
        lines = ["glimpse: accepted\n", "glimpse: lost: closed by the server\n", "glimpse: accepted\n", "feed: joined at 121\n", "feed: accepted from 121\n",
                 f"feed: ended at {number_of(wanted)}\n"]
        yield from differs("lines", [it for it in server.lines if not it.startswith("listening")], lines)


def a_first_login_that_is_not_authorised_ends_it(program):
    """At a feed, and at a snapshot server. Any other rejection is retried: it may come from a standby that is behind, or from a feed that is coming
    back."""
    day, wanted = day_of(10)
    for glimpse in (False, True):
        with Feed(sends(b"\0\x02JA")) as feed:
            words = ["--glimpse", f"127.0.0.1:{feed.port}"] if glimpse else []
            with live(program, feed.port, *words) as server:
                status, output, lines = server.ended()
        yield from differs("ended", (status, output, lines), (1, b"", REJECTED))
    for scripts, asked in (([sends(b"\0\x02JS")], [1, 1]), ([plays(day, until=5), sends(b"\0\x02JA"), sends(b"\0\x02JS")], [1, 6, 6, 6])):
        with Feed(*scripts, plays(day, then=ENDED)) as feed, live(program, feed.port) as server:
            status, output, lines = server.ended()
            yield from differs("asked", (status, output, feed.asked()), (0, b"", asked))
        said = [it for it in lines if it.startswith("feed: rejected")]
        yield from differs("said", (said[-1:], lines[-1:]), (["feed: rejected S\n"], [f"feed: ended at {len(split(day)) + 1}\n"]))


def a_message_that_is_refused_ends_it(program):
    """The error is that of a replay, and the record contains the messages before."""
    refused = (Path(__file__).resolve().parents[2] / "examples/refused.itch").read_bytes()
    with folder_with() as folder, Feed(plays(refused)) as feed, live(program, feed.port, "--record", folder / "record") as server:
        status, output, lines = server.ended()
        yield from differs("ended", (status, output, lines), (1, b"", ["feed: accepted from 1\n", "itchsnap: message 2: stock mismatch\n", f"  127.0.0.1:{feed.port}, session ITCHSNAP\n"]))
        yield from differs("the record", (folder / "record").read_bytes(), split(refused)[0])


def a_feed_that_breaks_the_protocol_is_asked_again(program):
    """A packet of unknown type, data before the acceptance, a second acceptance, and a number later than the one requested."""
    day, _ = day_of(10)
    blocks = split(day)
    first = packet(blocks[0])
    for broken in (acceptance(1) + b"\0\x01?", first, acceptance(1) + acceptance(1), acceptance(1) + b"\0\0", acceptance(5) + packet(blocks[4])):
        with Feed(sends(broken), plays(day, then=ENDED)) as feed, live(program, feed.port) as server:
            status, _, lines = server.ended()
            yield from differs(f"{broken[:40]!r}", (status, feed.asked(), lines[-1]), (0, [1, 1], f"feed: ended at {len(blocks) + 1}\n"))


def heartbeats_go_both_ways(program):
    """The feed receives a heartbeat every second. A feed that says nothing for 15 seconds is lost."""
    day, _ = day_of(10)
    beats = []

    def silent(peer, login):
        peer.sendall(acceptance(1) + b"".join(map(packet, split(day))))
        begun = time.monotonic()
        while block := block_in(peer):
            beats.append(block)
        beats.append(time.monotonic() - begun)

    with Feed(silent, plays(day, then=ENDED)) as feed, live(program, feed.port) as server:
        status, _, lines = server.ended()
    seconds = beats.pop() if beats else 0
    if status != 0 or set(beats) != {CLIENT_BEAT} or not 11 <= len(beats) <= 16 or not SILENCE - 1 < seconds < SILENCE + 5:
        yield f"ended with {status} after {seconds:.1f} seconds and {beats}"
    yield from differs("lines", lines[1:3], [f"feed: lost at {len(split(day)) + 1}: silent\n", f"feed: accepted from {len(split(day)) + 1}\n"])


def each_client_is_told_what_it_asks(program):
    """A wrong password, a later number, an invalid packet, a second login, a logout, a client that closes, and one that logs in bit by bit."""
    day, wanted = day_of(50)
    whole, end = answer(wanted), threading.Event()
    rows = [(LOGIN, whole), (LOGIN.replace(b"secret", b"wrong "), b"\0\x02JA"), (LOGIN[:-1] + b"2", b"\0\x02JS"), (b"\0\x01Q", b""),
            (LOGIN[:-1] + b"0", whole), (b"\0\x01O", b""), (b"\0\x03+up" * 1000 + LOGIN, whole)]
    with Feed(plays(day, wait=end, held=ENDED)) as feed, live(program, feed.port) as server:
        server.said("feed: accepted")
        fetched = 1
        while number_of(fetch(program, server.port)[1]) < number_of(wanted):
            fetched += 1
            time.sleep(0.05)
        # (the line about the last client may come after its snapshot)
        server.has_lines(fetched)
        before = server.count()
        for data, said in rows:
            yield from differs(f"{data[-60:]!r}", told(server.port, data), said)
        with connect(server.port) as peer:
            peer.setsockopt(socket.IPPROTO_TCP, socket.TCP_NODELAY, 1)
            for at in range(len(LOGIN)):
                peer.sendall(LOGIN[at:at + 1])
            yield from differs("bit by bit", received(peer), whole)
        connect(server.port).close()
        server.has_lines(before + 9)
        end.set()
        status, output, _ = server.ended()
    accepted = f"accepted at {number_of(wanted)}, {len(split(wanted))} packets"
    endings = [line.split(": ", 1)[1] for line in output.decode().splitlines()[before:]]
    wanted = [accepted, "rejected A", "rejected S", "fault", accepted, "left", accepted, accepted, "left"]
    yield from differs("endings", (status, sorted(endings)), (0, sorted(wanted)))
    if "secret" in "".join(server.lines) + output.decode():
        yield "a log line contains a password"


def a_client_that_takes_nothing_hinders_no_other(program):
    """One never reads, one says nothing at all, one is slow but reads enough, one logs out in the middle of a snapshot, and one logs in again there.
    The first two are cut off after 15 seconds, and meanwhile each fast client has its answer at once."""
    with large_server(program) as (server, whole, end), contextlib.ExitStack() as held:
        never, silent, slow = (held.enter_context(connect(server.port, room)) for room in (4096, None, 1 << 16))
        never.sendall(LOGIN)
        slow.sendall(LOGIN)
        begun, taken = time.monotonic(), []

        def take_slowly():
            while piece := slow.recv(1 << 14):
                taken.append(piece)
                time.sleep(0.02)

        taking = threading.Thread(target=take_slowly)
        taking.start()
        for said in (b"\0\x01O", LOGIN):
            with connect(server.port, 4096) as peer:
                peer.sendall(LOGIN + said)
                got = b""
                with contextlib.suppress(ConnectionError):
                    got = received(peer)
                if not whole.startswith(got) or len(got) == len(whole):
                    yield f"{said!r} after the login: {len(got)} bytes"
        longest = 0
        while time.monotonic() < begun + SILENCE - 4:
            fast = time.monotonic()
            yield from differs("fast", without_first_beats(told(server.port, LOGIN)) == whole, True)
            longest = max(longest, time.monotonic() - fast)
        if longest > 10:
            yield f"a fast client had to wait for {longest:.1f} seconds"
        yield from differs("silent", received(silent), b"")
        spent = time.monotonic() - begun
        if not SILENCE - 1 < spent < SILENCE + 30:
            yield f"a silent client was cut off after {spent:.1f} seconds"
        taking.join(120)
        yield from differs("slow", without_first_beats(b"".join(taken)) == whole, True)
        end.set()
        status, output, _ = server.ended(120)
    endings = sorted(line.split(": ", 1)[1] for line in output.decode().splitlines() if "accepted" not in line)
    yield from differs("endings", (status, endings), (0, ["cut off", "cut off", "fault", "left"]))


def a_client_reads_to_the_end_before_it_is_closed(program):
    """The client has its complete answer although it keeps sending heartbeats, and the connection stays open until the client closes it."""
    day, wanted = day_of(2000)
    end = threading.Event()
    with Feed(plays(day, wait=end, held=ENDED)) as feed, live(program, feed.port) as server:
        while number_of(fetch(program, server.port)[1]) < number_of(wanted):
            time.sleep(0.05)
        with connect(server.port, 4096) as peer:
            peer.sendall(LOGIN)
            time.sleep(0.5)
            for _ in range(20):
                peer.sendall(CLIENT_BEAT)
                time.sleep(0.01)
            yield from differs("told", received(peer) == answer(wanted), True)
        end.set()
        yield from differs("status", server.ended()[0], 0)


def a_client_that_never_closes_is_closed(program):
    """It is closed 15 seconds after it has received everything. Then the server ends."""
    day, wanted = day_of(50)
    end = threading.Event()
    with Feed(plays(day, wait=end, held=ENDED)) as feed, live(program, feed.port) as server:
        while number_of(fetch(program, server.port)[1]) < number_of(wanted):
            time.sleep(0.05)
        with connect(server.port) as peer:
            peer.sendall(LOGIN)
            yield from differs("told", received(peer), answer(wanted))
            begun = time.monotonic()
            end.set()
            status, output, _ = server.ended()
            seconds = time.monotonic() - begun
        yield from differs("ended", (status, output.splitlines()[-1].endswith(b" packets")), (0, True))
        if not SILENCE - 1 < seconds < SILENCE + 10:
            yield f"it was closed after {seconds:.1f} seconds"


def a_client_that_sends_no_more_is_told_all(program):
    """The client shuts down sending after its login. It still receives its snapshot, or all messages of a feed."""
    day, wanted = day_of(200)
    blocks, end = split(day), threading.Event()
    whole = acceptance(1) + b"".join(map(packet, blocks)) + ENDED

    def told_after_login(port):
        with connect(port) as peer:
            peer.sendall(LOGIN)
            peer.shutdown(socket.SHUT_WR)
            return received(peer)

    with Feed(plays(day, wait=end, held=ENDED)) as feed, live(program, feed.port) as server:
        while number_of(fetch(program, server.port)[1]) < number_of(wanted):
            time.sleep(0.05)
        yield from differs("snapshot", told_after_login(server.port), answer(wanted))
        end.set()
        status, output, _ = server.ended()
    last = output.decode().splitlines()[-1].split(": ")[1]
    yield from differs("live", (status, last), (0, f"accepted at {number_of(wanted)}, {len(split(wanted))} packets"))
    with folder_with(day=day) as folder, feeding(program, folder / "day", "--count", "1", "--rate", "200") as server:
        yield from differs("messages", told_after_login(server.port), whole)
        yield from differs("feed", server.ended(), (0, f"connection 1: accepted from 1, {len(blocks)} packets\n".encode(), []))


def a_client_that_leaves_before_it_is_rejected_was_rejected(program):
    """A rejection is delayed longer each time, and the client does not wait for it; by `live` and by `feed`."""
    day, _ = day_of(5)
    end, wrong = threading.Event(), LOGIN.replace(b"secret", b"wrong ")
    with Feed(plays(day, wait=end, held=ENDED)) as feed, live(program, feed.port) as server, folder_with(day=day) as folder, \
            feeding(program, folder / "day") as other:
        server.said("feed: accepted")
        for which in server, other:
            for _ in range(3):
                with connect(which.port) as peer:
                    peer.sendall(wrong)
            which.has_lines(3)
            lines = sorted(b"".join(which.output).splitlines())
            yield from differs("lines", lines, [b"connection %d: rejected A" % number for number in (1, 2, 3)])
        end.set()


def a_client_that_resets_its_connection_is_a_fault(program):
    """That is, if it has not logged in yet. A client that is being played to is reported as having left."""
    day, _ = day_of(5)
    linger = struct.pack("ii", 1, 0)

    def reset(port, data=b"", until=0):
        with connect(port) as peer:
            peer.sendall(data)
            received(peer, until)
            peer.setsockopt(socket.SOL_SOCKET, socket.SO_LINGER, linger)

    end = threading.Event()
    with Feed(plays(day, wait=end, held=ENDED)) as feed, live(program, feed.port) as server:
        server.said("feed: accepted")
        reset(server.port)
        server.has_lines(1)
        end.set()
        yield from differs("live", server.ended()[:2], (0, b"connection 1: fault\n"))
    with folder_with(day=day) as folder, feeding(program, folder / "day", "--count", "2", "--stay") as server:
        reset(server.port)
        server.has_lines(1)
        reset(server.port, LOGIN, len(acceptance(1)))
        lines = f"connection 1: fault\nconnection 2: accepted from 1, {len(split(day))} packets\n"
        yield from differs("feed", server.ended()[:2], (0, lines.encode()))


def lines_of_a_stopped_server(program):
    """Returns the status and the lines of a server that was stopped for longer than the silence that loses a feed."""
    end = threading.Event()
    with Feed(plays(day_of(10)[0], wait=end, held=ENDED)) as feed, live(program, feed.port) as server:
        server.said("feed: accepted")
        time.sleep(1)
        server.process.send_signal(signal.SIGSTOP)
        time.sleep(SILENCE + 1)
        server.process.send_signal(signal.SIGCONT)
        time.sleep(1)
        end.set()
        status, _, lines = server.ended()
    return status, lines


def a_server_that_was_stopped_keeps_its_feed(program):
    """Data that the feed sent meanwhile is read first, unless the server was stopped between its last look at the sockets and that at the clock: it
    then connects again. That is rare, so a second try decides."""
    wanted = (0, ["feed: accepted from 1\n", f"feed: ended at {len(split(day_of(10)[0])) + 1}\n"])
    got = lines_of_a_stopped_server(program)
    if got != wanted:
        got = lines_of_a_stopped_server(program)
    yield from differs("ended", got, wanted)


def one_place_is_given_to_one_client_at_a_time(program):
    """With one place, a client that has not logged in holds none, and the second client that has logged in waits until the first one has
    everything."""
    with large_server(program, "--clients", "1") as (server, whole, end):
        with connect(server.port), connect(server.port, 4096) as first, connect(server.port) as second:
            first.sendall(LOGIN)
            yield from differs("first, its beginning", received(first, len(acceptance(1))), acceptance(1))
            second.sendall(LOGIN)
            if readable([second], 1):
                yield "the second client received something"
            yield from differs("first", without_first_beats(acceptance(1) + received(first)) == whole, True)
            yield from differs("second", without_first_beats(received(second)) == whole, True)
        end.set()
        yield from differs("status", server.ended(120)[0], 0)


def a_login_of_its_own_goes_to_the_feed(program):
    day, _ = day_of(5)
    with folder_with(password=b"feedpass\nmore\n", clients=b"secret\n") as folder, Feed(plays(day, then=ENDED)) as feed, \
            Running(program, "live", "--feed", f"127.0.0.1:{feed.port}", "--port", "0", "--user", "user", "--pass-file", folder / "clients",
                    "--feed-user", "other", "--feed-pass-file", folder / "password") as server:
        yield from differs("status", server.ended()[0], 0)
        yield from differs("login", feed.logins, [b"\0\x2fLother feedpass  " + b" " * 10 + b"1".rjust(20)])


def snapshots_are_written_on_the_way(program):
    day, _ = day_of(95)
    count = len(split(day))
    with folder_with() as folder, Feed(plays(day, until=57), plays(day, then=ENDED)) as feed, \
            live(program, feed.port, "--snapshots", folder, "--every", "25") as server:
        yield from differs("status", server.ended()[0], 0)
        yield from differs("files", sorted(it.name for it in folder.iterdir()), sorted(f"{it}.snap" for it in range(25, count + 1, 25)))
        for file in folder.iterdir():
            yield from differs(file.name, file.read_bytes(), snapshot_after(program, day, int(file.stem)))


def a_folder_that_is_not_there_ends_it(program):
    day, _ = day_of(5)
    with folder_with() as folder, Feed(plays(day)) as feed:
        words = "--feed", f"127.0.0.1:{feed.port}", "--port", "0", *WORDS
        got = ended_in(folder, program, "live", *words, "--snapshots", "none", "--every", "2")
        yield from differs("snapshots", (got[0], got[2].splitlines()[-2:]), (3, [b"itchsnap: cannot open", b"  none: No such file or directory (os error 2)"]))
        got = ended_in(folder, program, "live", *words, "--record", "none/record")
        yield from differs("record", got, (3, b"", b"itchsnap: cannot open\n  none/record: No such file or directory (os error 2)\n"))


def a_record_that_cannot_be_written_ends_it(program):
    """A file may have this many bytes and no more. The part that was written is kept."""
    day, _ = day_of(50)
    room = 500

    def limit():
        signal.signal(signal.SIGXFSZ, signal.SIG_IGN)
        resource.setrlimit(resource.RLIMIT_FSIZE, (room, room))

    with folder_with() as folder, Feed(plays(day)) as feed:
        words = "--feed", f"127.0.0.1:{feed.port}", "--port", "0", *WORDS, "--record", "record"
        done = subprocess.run([program, "live", *words], cwd=folder, preexec_fn=limit, capture_output=True, stdin=subprocess.DEVNULL, timeout=PATIENCE)
        if (done.returncode, done.stdout) != (3, b"") or not re.search(rb"itchsnap: message \d+: write failed\n  record: File too large .*\n$", done.stderr):
            yield f"{done}"
        yield from differs("the record", (folder / "record").read_bytes(), day[:room])


RUNS = [
    what_is_followed_is_served,
    a_login_waits_for_a_market,
    a_feed_that_is_cut_is_asked_for_the_next_message,
    a_record_is_gone_on_with,
    a_killed_server_s_record_is_gone_on_with,
    a_record_that_is_no_day_file_is_refused,
    a_snapshot_is_where_it_begins,
    a_first_login_that_is_not_authorised_ends_it,
    a_message_that_is_refused_ends_it,
    a_feed_that_breaks_the_protocol_is_asked_again,
    heartbeats_go_both_ways,
    each_client_is_told_what_it_asks,
    a_client_that_takes_nothing_hinders_no_other,
    a_client_reads_to_the_end_before_it_is_closed,
    a_client_that_never_closes_is_closed,
    a_client_that_sends_no_more_is_told_all,
    a_client_that_leaves_before_it_is_rejected_was_rejected,
    a_client_that_resets_its_connection_is_a_fault,
    a_server_that_was_stopped_keeps_its_feed,
    one_place_is_given_to_one_client_at_a_time,
    a_login_of_its_own_goes_to_the_feed,
    snapshots_are_written_on_the_way,
    a_folder_that_is_not_there_ends_it,
    a_record_that_cannot_be_written_ends_it,
]
