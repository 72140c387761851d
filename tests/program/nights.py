"""`live` over several days: a record, snapshots and figures for each session of its feed, and when it asks the feed for its session.

RUNS lists the runs: functions that take the program and yield the differences found.
"""
import re
import resource
import signal
import subprocess
import threading
import time
from pathlib import Path

from calls import REASON, shim
from common import differs, split
from failing import build_shim
from hurried import TIMES, hurried
from living import (BEAT, ENDED, LOGIN, PATIENCE, WORDS, Feed, acceptance, answer, day_of, folder_with, live, number_in, packet, received, session_in,
                    snapshot_after, told, without_first_beats)
from scraping import figures, waits_for

REJECTED = b"\0\x02JS"
COUNT, EVERY, MOST = 3_000, 1_000, 10_000
DAYS = [day_of(COUNT, symbols=symbols)[0] for symbols in (20, 7, 11)]
SESSIONS = [b"DAY1", b"DAY2", b"DAY3"]


class Season:
    """A server of a feed with one session after another. It rejects a login for any session except the current one."""

    def __init__(self, sessions=SESSIONS):
        self.sessions, self.present, self.until, self.has_ended = sessions, 0, MOST, False
        self.changed = threading.Condition()
        self.peers = []

    def script(self, peer, login):
        asked = session_in(login).strip()
        with self.changed:
            number, session = self.present, self.sessions[self.present]
            if asked not in (b"", session):
                peer.sendall(REJECTED)
                return
            blocks = split(DAYS[number])
            peer.sendall(acceptance(number_in(login), session) + b"".join(map(packet, blocks[number_in(login) - 1:self.until])))
            sent = max(self.until, number_in(login) - 1)
            while self.present == number and not self.has_ended:
                self.changed.wait(0.5)
                if self.until > sent and self.present == number:
                    peer.sendall(b"".join(map(packet, blocks[sent:self.until])))
                    sent = self.until
                peer.sendall(BEAT)
            if self.present == number:
                peer.sendall(ENDED)

    def change(self, **to):
        with self.changed:
            for name, value in to.items():
                setattr(self, name, value)
            self.changed.notify_all()

    def end(self):
        """Ends the session, so that the night begins."""
        self.change(has_ended=True)

    def next_day(self, until=MOST):
        self.change(present=self.present + 1, has_ended=False, until=until)


def session_path(folder, session):
    return folder / "records" / f"{session.decode()}.itch"


def whole(program, day):
    return snapshot_after(program, day, len(split(day)))


def grows_to(path, size):
    begun = time.monotonic()
    while time.monotonic() < begun + PATIENCE and not (path.exists() and path.stat().st_size >= size):
        time.sleep(0.02)


def serving(program, folder, feed, *words):
    for name in ("records", "snapshots"):
        (folder / name).mkdir(exist_ok=True)
    return live(program, feed.port, "--records", folder / "records", "--snapshots", folder / "snapshots", "--every", EVERY, "--stay", *words)


def day_differs(program, folder, number):
    """Yields what is wrong with the files of a day that was recorded completely, and with its snapshots."""
    session, day = SESSIONS[number], DAYS[number]
    yield from differs((session, "record"), session_path(folder, session).read_bytes(), day)
    yield from differs((session, "session"), Path(f"{session_path(folder, session)}.session").read_text().splitlines()[0], session.decode())
    written = sorted(it.name for it in (folder / "snapshots" / session.decode()).iterdir())
    yield from differs((session, "snapshots"), written, ["1000.snap", "2000.snap", "3000.snap", "index.jsonl"])
    for count in range(EVERY, COUNT + 1, EVERY):
        found = (folder / "snapshots" / session.decode() / f"{count}.snap").read_bytes()
        yield from differs((session, count), found, snapshot_after(program, day, count))


def three_days_follow_each_other(program):
    """Each day has its own record and snapshots, and clients log in to the current session. At night they get the market of the evening."""
    season = Season()
    with folder_with() as folder, Feed(season.script) as feed, serving(program, folder, feed) as server:
        for number, session in enumerate(SESSIONS):
            server.said(f"session: {session.decode()}, recorded in {session_path(folder, session)}\n")
            grows_to(session_path(folder, session), len(DAYS[number]))
            wanted = answer(whole(program, DAYS[number]), session)
            yield from differs((session, "day"), without_first_beats(told(server.port, LOGIN)), wanted)
            season.end()
            server.said(f"feed: ended at {len(split(DAYS[number])) + 1}\n")
            yield from differs((session, "night"), without_first_beats(told(server.port, LOGIN)), wanted)
            if number + 1 < len(SESSIONS):
                season.next_day()
                line = f"session: {SESSIONS[number + 1].decode()}, "
                yield from differs((session, "next day"), server.said(line) is not None, True)
                grows_to(session_path(folder, SESSIONS[number + 1]), len(DAYS[number + 1]))
                yield from differs((session, "afterwards"), told(server.port, LOGIN[:-30] + session.ljust(10) + LOGIN[-20:]), REJECTED)
        for number in range(len(SESSIONS)):
            yield from day_differs(program, folder, number)


def a_restart_goes_on_with_the_record_of_the_session(program):
    """Even if another day was recorded before."""
    season = Season()
    with folder_with() as folder, Feed(season.script) as feed:
        with serving(program, folder, feed):
            grows_to(session_path(folder, SESSIONS[0]), len(DAYS[0]))
            season.end()
            season.next_day(until=1_500)
            grows_to(session_path(folder, SESSIONS[1]), sum(map(len, split(DAYS[1])[:1_500])))
        feed.logins.clear()
        with serving(program, folder, feed) as server:
            server.said("feed: accepted from 1501")
            newest = f"record: replayed from {folder}/snapshots/DAY2/1000.snap on\n"
            yield from differs("said", [it for it in server.lines if it.startswith("record: ")], [newest])
            season.change(until=MOST)
            grows_to(session_path(folder, SESSIONS[1]), len(DAYS[1]))
            yield from differs("asked", [(session_in(it).strip(), number_in(it)) for it in feed.logins], [(b"", 1), (b"DAY2", 1_501)])
            time.sleep(0.2)
        yield from day_differs(program, folder, 1)


def a_session_that_never_ended_gives_way_to_the_next(program):
    """If the feed rejects the session of the record, it is asked for its own as often as necessary. The record of the old day is unchanged."""
    season = Season()
    season.until = 2_000
    with folder_with() as folder, Feed(season.script) as feed, serving(program, folder, feed) as server:
        size = sum(map(len, split(DAYS[0])[:2_000]))
        grows_to(session_path(folder, SESSIONS[0]), size)
        season.next_day()
        server.said("session: DAY2, ")
        grows_to(session_path(folder, SESSIONS[1]), len(DAYS[1]))
        yield from differs("the old record", session_path(folder, SESSIONS[0]).stat().st_size, size)
        time.sleep(0.2)
        yield from day_differs(program, folder, 1)


def names_of_files_are_those_of_sessions(program):
    """Characters other than letters and digits are encoded."""
    season = Season([b"../a b%", b"-x_Y.9", b"Z"])
    with folder_with() as folder, Feed(season.script) as feed, serving(program, folder, feed) as server:
        for number, name in enumerate(("%2E%2E%2Fa%20b%25", "-x_Y%2E9", "Z")):
            path = folder / "records" / f"{name}.itch"
            grows_to(path, len(DAYS[number]))
            yield from differs(name, path.read_bytes() if path.exists() else None, DAYS[number])
            if number < 2:
                season.end()
                server.said(f"feed: ended at {len(split(DAYS[number])) + 1}\n")
                season.next_day()


def a_record_of_a_session_is_for_one_process(program):
    """The second process is refused, and names the file."""
    season = Season()
    with folder_with() as folder, Feed(season.script) as feed, serving(program, folder, feed):
        grows_to(session_path(folder, SESSIONS[0]), len(DAYS[0]))
        with live(program, feed.port, "--records", folder / "records", "--stay") as second:
            status, _, lines = second.ended()
            wanted = ["itchsnap: cannot open\n", f"  {session_path(folder, SESSIONS[0])}: another process uses it\n"]
            yield from differs("the second", (status, lines[-2:]), (3, wanted))


def a_record_of_a_session_that_cannot_be_written_is_named(program):
    """A file may have this many bytes and no more."""
    def limit():
        signal.signal(signal.SIGXFSZ, signal.SIG_IGN)
        resource.setrlimit(resource.RLIMIT_FSIZE, (500, 500))

    season = Season()
    with folder_with() as folder, Feed(season.script) as feed:
        (folder / "records").mkdir()
        words = "--feed", f"127.0.0.1:{feed.port}", "--port", "0", *WORDS, "--records", "records", "--stay"
        done = subprocess.run([program, "live", *words], cwd=folder, preexec_fn=limit, capture_output=True, stdin=subprocess.DEVNULL, timeout=PATIENCE)
        if done.returncode != 3 or not re.search(rb"itchsnap: message \d+: write failed\n  records/DAY1.itch: File too large .*\n$", done.stderr):
            yield f"{done}"


def the_figures_of_a_day_are_not_those_of_the_day_before(program):
    """Before the new day has a message, no figure has a time."""
    season = Season()
    with folder_with() as folder, Feed(season.script) as feed, serving(program, folder, feed, "--status", "127.0.0.1:0") as server:
        server.status = int(server.said("status on ").rsplit(":", 1)[1])
        waits_for(lambda: figures(server)["next_message"] == len(split(DAYS[0])) + 1)
        yield from differs("the first day", figures(server)["market_time_seconds"], 0.0)
        season.end()
        season.next_day(until=0)
        waits_for(lambda: (it := figures(server))["feed_session"] == "DAY2" and it["feed_state"] == "following")
        found = figures(server)
        names = "next_message", "messages_total", "market_time_seconds", "silence_seconds", "record_bytes", "snapshot_file_message"
        yield from differs("the second day", [found[it] for it in names], [1, 0, None, None, 0, None])


def a_feed_that_is_back_is_asked_for_its_session_no_more(program):
    """The feed rejected the session of the day once. Uses a faster clock, as in hurried.py; otherwise it would be asked every five seconds."""
    back, day, asked = threading.Event(), split(DAYS[0]), []

    def script(peer, login):
        asked.append(session_in(login).strip())
        number = asked.count(SESSIONS[0])
        if asked[-1] == SESSIONS[0] and number == 2:
            peer.sendall(REJECTED)
            return
        first = number_in(login)
        peer.sendall(acceptance(first, SESSIONS[0]) + b"".join(map(packet, day[first - 1:10])))
        if asked[-1] == SESSIONS[0] and number == 1:
            return
        if number > 2:
            back.set()
        while not feed.closing.wait(1 / TIMES):
            peer.sendall(BEAT)

    with folder_with() as folder, Feed(script) as feed:
        (folder / "records").mkdir()
        words = "--records", folder / "records", "--stay"
        with live(program, feed.port, *words, **hurried(build_shim(folder, "hurry.c"))) as server:
            back.wait(PATIENCE)
            server.said(f"feed: accepted from {len(day[:10]) + 1}\n")
            before = asked.count(b"")
            time.sleep(20 / TIMES)
            # A request that was made before may arrive afterwards.
            if asked.count(b"") > before + 1:
                yield f"asked {asked}"


def a_record_is_on_disk_before_the_next_day_begins(program):
    """If the record of the old day cannot be synced, the server ends and names it."""
    day, complete, go = DAYS[0], threading.Event(), threading.Event()

    def script(peer, login):
        asked = session_in(login).strip()
        session = SESSIONS[1] if complete.is_set() else SESSIONS[0]
        if asked not in (b"", session):
            peer.sendall(REJECTED)
            return
        peer.sendall(acceptance(1, session))
        if asked and not complete.is_set():
            go.wait(PATIENCE)
            complete.set()
            peer.sendall(b"".join(map(packet, split(day)[:100])) + ENDED)
        received(peer)

    with shim() as library, folder_with() as folder, Feed(script) as feed:
        (folder / "records").mkdir()
        environment = {"LD_PRELOAD": str(library), "FAIL": "sync:while", "FAILING": str(folder / "fails")}
        with live(program, feed.port, "--records", folder / "records", "--stay", **environment) as server:
            waits_for(Path(f"{session_path(folder, SESSIONS[0])}.session").exists)
            (folder / "fails").touch()
            go.set()
            status, _, lines = server.ended()
        yield from differs("ended", (status, lines[-1]), (3, f"  {session_path(folder, SESSIONS[0])}: {REASON}\n"))


RUNS = [
    three_days_follow_each_other,
    a_restart_goes_on_with_the_record_of_the_session,
    a_session_that_never_ended_gives_way_to_the_next,
    names_of_files_are_those_of_sessions,
    a_record_of_a_session_is_for_one_process,
    a_record_of_a_session_that_cannot_be_written_is_named,
    the_figures_of_a_day_are_not_those_of_the_day_before,
    a_feed_that_is_back_is_asked_for_its_session_no_more,
    a_record_is_on_disk_before_the_next_day_begins,
]
