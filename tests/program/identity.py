"""Sessions and records: records of another day, in use, changed or cut, and how much of a record is on disk.

RUNS lists the runs: functions that take the program and yield the differences found.
"""
import subprocess
import tempfile
import threading
import time
from pathlib import Path

import failing
from common import differs, ended_in, split
from living import (ENDED, LOGIN, PATIENCE, SILENCE, WORDS, Feed, Running, acceptance, answer, day_of, fetch, folder_with, follow, live, number_of, plays,
                    recorded, sends, session_in, snapshot_after, told)

YESTERDAY = recorded(split(day_of(5)[0])[0], "DAY1")


def live_in(folder, program, port, *words, **environment):
    """Returns how a server with this folder ended."""
    status, output, error = ended_in(folder, program, "live", "--feed", f"127.0.0.1:{port}", "--port", "0", *WORDS, *words, **environment)
    return status, output, b"".join(it for it in error.splitlines(True) if not it.startswith(b"listening on "))


def a_record_of_another_day_is_refused(program):
    """The feed accepts the login under the name of another session. The error names both sessions, and the record is unchanged."""
    day, _ = day_of(50)
    kept = b"".join(split(day)[:20])
    with folder_with(**recorded(kept, "DAY1")) as folder, Feed(plays(day, then=ENDED, session=b"DAY2")) as feed:
        got = live_in(folder, program, feed.port, "--record", "record")
        line = b"itchsnap: record: of session DAY1, but the feed is in DAY2\n  record\n"
        yield from differs("ended", got, (1, b"", line))
        yield from differs("asked", [(it[-20:].strip(), session_in(it).strip()) for it in feed.logins], [(b"21", b"DAY1")])
        yield from differs("the record", (folder / "record").read_bytes(), kept)
        yield from differs("its session", (folder / "record.session").read_bytes(), b"DAY1\n")


def a_feed_that_rejects_the_session_of_a_record_is_asked_for_its_own(program):
    """It is asked once, by a login for the current session. Then the error names both sessions, and the record is unchanged."""
    day, _ = day_of(50)
    kept = b"".join(split(day)[:20])
    rejected = sends(b"\0\x02JS")

    def second_day(peer, login):
        (plays(day, session=b"DAY2") if session_in(login).strip() in (b"", b"DAY2") else rejected)(peer, login)

    line = b"itchsnap: record: of session DAY1, but the feed is in DAY2\n  record\n"
    with folder_with(day=day, **recorded(kept, "DAY1")) as folder:
        with Feed(second_day) as feed:
            got = live_in(folder, program, feed.port, "--record", "record")
            yield from differs("ended", got, (1, b"", b"feed: rejected S\n" + line))
            yield from differs("asked", [session_in(it).strip() for it in feed.logins], [b"DAY1", b""])
        with Running(program, "feed", folder / "day", "--port", "0", "--session", "DAY2", *WORDS) as feed:
            got = live_in(folder, program, feed.port, "--record", "record")
            yield from differs("of this program", got, (1, b"", b"feed: rejected S\n" + line))
        yield from differs("the record", (folder / "record").read_bytes(), kept)
        # If the feed is in the same session, or does not say, it is asked again for the session of the record.
        with Feed(rejected, sends(acceptance(1, b"DAY1")), rejected, plays(day, until=30, session=b"DAY1"), rejected, plays(day, then=ENDED, session=b"DAY1")) as feed:
            got = live_in(folder, program, feed.port, "--record", "record")
            yield from differs("the same", got[:2], (0, b""))
            yield from differs("asked for it", [session_in(it).strip() for it in feed.logins], [b"DAY1", b""] + [b"DAY1"] * 4)
        yield from differs("the whole record", (folder / "record").read_bytes(), day)
        (folder / "record").write_bytes(kept)
        with Feed(rejected, rejected, plays(day, then=ENDED, session=b"DAY1")) as feed:
            got = live_in(folder, program, feed.port, "--record", "record")
            yield from differs("no answer", (got[:2], [session_in(it).strip() for it in feed.logins]), ((0, b""), [b"DAY1", b"", b"DAY1"]))
        (folder / "record").write_bytes(kept)
        begun = time.monotonic()
        with Feed(rejected, lambda peer, login: peer.recv(1), plays(day, then=ENDED, session=b"DAY1")) as feed:
            got = live_in(folder, program, feed.port, "--record", "record")
            yield from differs("silent", (got[:2], [session_in(it).strip() for it in feed.logins]), ((0, b""), [b"DAY1", b"", b"DAY1"]))
        # The server waits two seconds for the answer, not the 15 seconds of silence that it usually allows.
        if time.monotonic() - begun > SILENCE - 3:
            yield f"silent: asked again after {time.monotonic() - begun:.1f} seconds"


def a_record_keeps_its_session(program):
    """The session is written before the first message, requested after a restart, and clients are accepted in it."""
    day, wanted = day_of(60)
    with folder_with() as folder:
        for until, asked in ((30, b""), (None, b"DAY1")):
            end = threading.Event()
            script = plays(day, until=until, wait=end, held=ENDED, session=b"DAY1")
            with Feed(script) as feed, live(program, feed.port, "--record", folder / "record") as server:
                server.said("feed: accepted")
                begun = time.monotonic()
                while not (folder / "record.session").exists() and time.monotonic() < begun + PATIENCE:
                    time.sleep(0.02)
                yield from differs("session file", (folder / "record.session").read_text().splitlines()[0], "DAY1")
                yield from differs("asked", session_in(feed.logins[0]).strip(), asked)
                while until is None and number_of(fetch(program, server.port)[1]) < number_of(wanted):
                    time.sleep(0.05)
                if until is None:
                    yield from differs("told", told(server.port, LOGIN), answer(wanted, b"DAY1"))
                    other = LOGIN[:-30] + b"DAY2".ljust(10) + LOGIN[-20:]
                    yield from differs("another session", told(server.port, other), b"\0\x02JS")
                end.set()
                yield from differs("status", server.ended()[0], 0)
        yield from differs("the record", (folder / "record").read_bytes(), day)


def a_record_without_a_session_file_is_refused(program):
    """Unless the session is given as an option. A name that is not the record's is also refused, and so is a session file without a name."""
    day, _ = day_of(20)
    kept = b"".join(split(day)[:5])
    with folder_with(record=kept) as folder, Feed(plays(day, then=ENDED, session=b"DAY1")) as feed:
        got = live_in(folder, program, feed.port, "--record", "record")
        cause = b"  record: there is no record.session: name its session with --session, or begin a new record\n"
        yield from differs("no session", got, (1, b"", b"itchsnap: record: its session is not known\n" + cause))
        got = live_in(folder, program, feed.port, "--record", "record", "--session", "DAY2")
        yield from differs("another", (got[0], got[2]), (1, b"itchsnap: record: of session DAY2, but the feed is in DAY1\n  record\n"))
        yield from differs("session file", (folder / "record.session").exists(), False)
        got = live_in(folder, program, feed.port, "--record", "record", "--session", "DAY1")
        yield from differs("named", got[:2], (0, b""))
        yield from differs("the record", (folder / "record").read_bytes(), day)
        got = live_in(folder, program, feed.port, "--record", "record", "--session", "DAY2")
        yield from differs("not of it", got, (1, b"", b"itchsnap: record: of session DAY1, not of DAY2\n  record\n"))
        (folder / "record.session").write_bytes(b"a name that is too long\n")
        got = live_in(folder, program, feed.port, "--record", "record")
        yield from differs("no name", got, (1, b"", b"itchsnap: record: its session file names no session\n  record.session\n"))
        yield from differs("asked", [session_in(it).strip() for it in feed.logins], [b"DAY2", b"DAY1"])


def a_session_file_that_cannot_be_read_is_named(program):
    """Even if the session is given as an option: the file may name another one."""
    day, _ = day_of(20)
    kept = b"".join(split(day)[:5])
    with folder_with(record=kept) as folder, Feed(plays(day, then=ENDED)) as feed:
        (folder / "record.session").mkdir()
        for words in ((), ("--session", "ITCHSNAP")):
            got = live_in(folder, program, feed.port, "--record", "record", *words)
            line = b"itchsnap: cannot open\n  record.session: Is a directory (os error 21)\n"
            yield from differs(f"{words}", (got, feed.asked(), (folder / "record").read_bytes()), ((3, b"", line), [], kept))


def an_empty_record_is_of_no_day(program):
    day, _ = day_of(20)
    with folder_with(**recorded(b"", "DAY1")) as folder, Feed(plays(day, then=ENDED, session=b"DAY2")) as feed:
        yield from differs("ended", live_in(folder, program, feed.port, "--record", "record")[:2], (0, b""))
        yield from differs("the record", (folder / "record").read_bytes(), day)
        yield from differs("its session", (folder / "record.session").read_text().splitlines()[0], "DAY2")


def a_snapshot_of_another_session_is_not_joined(program):
    """By `live` and by `follow`. The option named in the second line of the error accepts it."""
    day, _ = day_of(40)
    early = snapshot_after(program, day, 10)
    with Feed(sends(answer(early, b"DAY1"))) as glimpse, Feed(plays(day, then=ENDED, session=b"DAY2")) as feed, folder_with() as folder:
        servers = "--feed", f"127.0.0.1:{feed.port}", "--glimpse", f"127.0.0.1:{glimpse.port}"
        lines = [b"itchsnap: glimpse: of session DAY1, but the feed is in DAY2", b"  --glimpse-session DAY1 accepts a snapshot of that session"]
        for words in (("live", "--port", "0", *servers, *WORDS), ("follow", *servers, *WORDS)):
            got = ended_in(folder, program, *words)
            yield from differs(words[0], (got[0], got[1], got[2].splitlines()[-2:]), (1, b"", lines))
            got = ended_in(folder, program, *words, "--glimpse-session", "DAY1")
            yield from differs(f"{words[0]}, accepted", got[0], 0)
        got = ended_in(folder, program, "follow", *servers, *WORDS, "--session", "DAY2")
        lines = [b"itchsnap: glimpse: in session DAY1, not in DAY2", b"  --glimpse-session DAY1 accepts a snapshot of that session"]
        yield from differs("named", (got[0], got[1], got[2].splitlines()[-2:]), (1, b"", lines))


def a_feed_names_its_day(program):
    """By the name of its file, or the name given. A server behind two consecutive days serves the first one, and reports that the other has another
    session."""
    first, wanted = day_of(40)
    second, _ = day_of(60)
    names = {"monday.itch": b"monday", "nasdaq-totalview-20240102.itch": b"w-20240102", ".itch": b"ITCHSNAP", "tuesday.2.itch": b"tuesday", "day": b"day",
             "tag-für-tag.itch": b"ITCHSNAP"}
    with folder_with(**{**dict.fromkeys(names, second), "monday.itch": first}) as folder:
        for name, session in names.items():
            with Running(program, "feed", folder / name, "--port", "0", *WORDS) as feed:
                yield from differs(name, told(feed.port, LOGIN)[:len(acceptance(1))], acceptance(1, session))
        with Running(program, "feed", folder / "monday.itch", "--port", "0", "--stay", *WORDS) as feed:
            port = feed.port
            server = live(program, port, "--record", folder / "record")
            with server:
                while number_of(fetch(program, server.port)[1]) < number_of(wanted):
                    time.sleep(0.05)
                feed.process.kill()
                server.said("feed: lost")
                with Running(program, "feed", folder / "nasdaq-totalview-20240102.itch", "--port", str(port), "--stay", *WORDS):
                    yield from differs("said", server.said("feed: rejected"), "feed: rejected S\n")
                    yield from differs("served", told(server.port, LOGIN), answer(wanted, b"monday"))
        yield from differs("the record", (folder / "record").read_bytes(), first)


def one_process_has_a_record(program):
    """A second process is refused, and a process that ends releases the record. The same holds for a folder of snapshots."""
    day, _ = day_of(30)
    end = threading.Event()
    with folder_with() as folder, Feed(plays(day, wait=end, held=ENDED)) as feed:
        Path(folder, "snapshots").mkdir()
        words = "--record", folder / "record", "--snapshots", folder / "snapshots", "--every", "10"
        with live(program, feed.port, *words) as server:
            server.said("feed: accepted")
            got = live_in(folder, program, feed.port, "--record", "record")
            yield from differs("record", got, (3, b"", b"itchsnap: cannot open\n  record: another process uses it\n"))
            got = live_in(folder, program, feed.port, "--snapshots", "snapshots", "--every", "5")
            yield from differs("snapshots", got, (3, b"", b"itchsnap: cannot open\n  snapshots: another process uses it\n"))
            end.set()
            yield from differs("status", server.ended()[0], 0)
        yield from differs("again", live_in(folder, program, feed.port, "--record", "record")[0], 0)
        yield from differs("the record", (folder / "record").read_bytes(), day)


def a_record_that_is_changed_ends_it(program):
    """The record is removed, replaced, cut short or appended to while it is being written. The server ends within two seconds, and names its path."""
    day, _ = day_of(30)

    def remove(record):
        record.unlink()

    def replace(record):
        record.rename(record.with_suffix(".old"))
        record.write_bytes(day)

    def cut(record):
        record.write_bytes(b"")

    def append(record):
        with open(record, "ab") as file:
            file.write(b"\0\x01?")

    rows = ((remove, "removed while it was written"), (replace, "replaced while it was written"), (cut, "cut short while it was written"),
            (append, "appended to by another process"))
    for change, words in rows:
        end = threading.Event()
        with folder_with() as folder, Feed(plays(day, wait=end)) as feed, live(program, feed.port, "--record", folder / "record") as server:
            record = folder / "record"
            begun = time.monotonic()
            while (not record.exists() or record.stat().st_size < len(day)) and time.monotonic() < begun + PATIENCE:
                time.sleep(0.02)
            begun = time.monotonic()
            change(record)
            status, output, lines = server.ended()
            spent = time.monotonic() - begun
            yield from differs(words, (status, output, lines[-2:]), (3, b"", [f"itchsnap: record: {words}\n", f"  {record}\n"]))
            if spent > 5:
                yield f"{words}: after {spent:.1f} seconds"
            end.set()


def what_is_checked_is_gone_on_with(program):
    """Everything after the last complete message of a record is dropped, and the number of bytes is reported: zeros, a block of length 0, half a
    block."""
    day, _ = day_of(30)
    blocks = split(day)
    kept = b"".join(blocks[:20])
    for rest in (b"\0" * 5000, b"\0\0" + blocks[20], blocks[20][:7], b"\xff"):
        with folder_with(**recorded(kept + rest)) as folder, Feed(plays(day, then=ENDED)) as feed:
            if not rest.strip(b"\0") or rest.startswith(b"\0\0"):
                yield from differs("check", ended_in(folder, program, "check", "record")[:2], (0, b"ok 20 messages\n"))
            status, output, error = live_in(folder, program, feed.port, "--record", "record")
            line = f"record: dropped {len(rest)} bytes after message 20"
            yield from differs(f"{rest[:10]}", (status, output, line in error.decode().splitlines()), (0, b"", True))
            yield from differs("asked", feed.asked(), [21])
            yield from differs("the record", (folder / "record").read_bytes(), day)


def what_is_not_cut_off_a_record_is_not_said_to_be_dropped(program):
    """If the cut fails, the server ends and reports nothing else. The record is unchanged."""
    day, _ = day_of(30)
    blocks = split(day)
    kept = b"".join(blocks[:20]) + blocks[20][:7]
    with tempfile.TemporaryDirectory() as apart, folder_with(**recorded(kept)) as folder, Feed(plays(day, then=ENDED)) as feed:
        failed = Path(apart) / "a call failed"
        environment = {"LD_PRELOAD": str(failing.build_shim(apart, "calls.c")), "FAIL": "ftruncate:1", "FAILED": str(failed)}
        got = live_in(folder, program, feed.port, "--record", "record", **environment)
        line = b"itchsnap: cannot open\n  record: Input/output error (os error 5)\n"
        yield from differs("ended", (*got, failed.exists()), (3, b"", line, True))
        yield from differs("the record", ((folder / "record").read_bytes(), feed.asked()), (kept, []))


def a_record_is_on_disk(program):
    """Every second, or with each message, unless the option turns that off. A failed sync counts as a failed write."""
    day, _ = day_of(30)
    with tempfile.TemporaryDirectory() as apart:
        shim = failing.build_shim(apart)
        # The first sync is that of the session file.
        for when, fails in (((), True), (("--sync", "second"), True), (("--sync", "message"), True), (("--sync", "no"), False)):
            failed = Path(apart) / "a call failed"
            failed.unlink(missing_ok=True)
            with folder_with() as folder, Feed(plays(day, then=ENDED)) as feed:
                got = live_in(folder, program, feed.port, "--record", "record", *when, LD_PRELOAD=str(shim), FAIL="sync:2", FAILED=str(failed))
                line = b"write failed\n  record: Input/output error (os error 5)\n"
                yield from differs(f"{when}", (got[0], got[2].endswith(line), failed.exists()), (3, True, True) if fails else (0, False, False))
    words = "live", "--feed", "127.0.0.1:1", "--port", "0", *WORDS
    for more in (("--sync", "second"), ("--record-optional",), ("--record", "r", "--sync", "often"), ("--glimpse-session", "A")):
        done = subprocess.run([program, *words, *more], capture_output=True, timeout=PATIENCE)
        yield from differs(f"{more}", (done.returncode, done.stdout, done.stderr.startswith(b"error: ")), (2, b"", True))


def a_record_may_be_optional(program):
    """If an optional record cannot be written, the server continues without it."""
    day, wanted = day_of(300)
    end = threading.Event()
    with folder_with() as folder, Feed(plays(day, until=200, wait=end), plays(day, then=ENDED)) as feed, \
            live(program, feed.port, "--record", folder / "record", "--record-optional", "--stay") as server:
        server.said("feed: accepted")
        (folder / "record").unlink()
        yield from differs("said", server.said("record: "), "record: given up: removed while it was written\n")
        end.set()
        server.said("feed: ended")
        yield from differs("served", fetch(program, server.port), (0, wanted, b""))


def an_optional_record_needs_no_session_file(program):
    """If the session file of an optional record cannot be written, the server reports that and continues without the record. A record that is not
    optional ends it."""
    day, wanted = day_of(30)
    with folder_with() as folder, Feed(plays(day, then=ENDED)) as feed:
        (folder / "record.session.part").mkdir()
        with live(program, feed.port, "--record", folder / "record", "--record-optional", "--stay") as server:
            yield from differs("said", server.said("record: "), "record: given up: Is a directory (os error 21)\n")
            server.said("feed: ended")
            yield from differs("served", fetch(program, server.port), (0, wanted, b""))
        got = live_in(folder, program, feed.port, "--record", "record")
        line = b"feed: accepted from 1\nitchsnap: cannot open\n  record.session: Is a directory (os error 21)\n"
        yield from differs("not optional", got, (3, b"", line))
        yield from differs("the record", (folder / "record").read_bytes(), b"")


def a_server_names_its_session(program):
    """`serve` names the session given. `follow` checks that both servers are in the same one."""
    day, _ = day_of(20)
    with folder_with(day=day) as folder:
        served = Running(program, "serve", folder / "day", "--after", "10", "--port", "0", "--count", "2", "--session", "DAY7", *WORDS)
        with served as glimpse, Feed(plays(day, then=ENDED, session=b"DAY7")) as feed:
            yield from differs("accepted", told(glimpse.port, LOGIN)[:len(acceptance(1))], acceptance(1, b"DAY7"))
            with follow(program, feed.port, glimpse.port) as following:
                yield from differs("followed", following.ended()[:2], (0, b"".join(split(day)[10:])))


RUNS = [
    a_record_of_another_day_is_refused,
    a_feed_that_rejects_the_session_of_a_record_is_asked_for_its_own,
    a_record_keeps_its_session,
    a_record_without_a_session_file_is_refused,
    a_session_file_that_cannot_be_read_is_named,
    an_empty_record_is_of_no_day,
    a_snapshot_of_another_session_is_not_joined,
    a_feed_names_its_day,
    one_process_has_a_record,
    a_record_that_is_changed_ends_it,
    what_is_checked_is_gone_on_with,
    what_is_not_cut_off_a_record_is_not_said_to_be_dropped,
    a_record_is_on_disk,
    a_record_may_be_optional,
    an_optional_record_needs_no_session_file,
    a_server_names_its_session,
]
