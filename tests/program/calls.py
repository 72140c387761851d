"""`live`, `follow` and `feed` while each system call other than a read, a write or an allocation fails in turn (calls.c).

RUNS lists the runs: functions that take the program and yield the differences found.
"""
import contextlib
import functools
import re
import tempfile
import threading
import time
from concurrent.futures import ThreadPoolExecutor

import failing
from common import differs, split
from living import (ENDED, LOGIN, WORDS, Feed, Running, acceptance, answer, connect, day_of, folder_with, live, packet, plays, received, sends,
                    snapshot_after)
from standby import waits_for

OPENED = "accept4 bind connect epoll_create1 epoll_ctl getsockname listen setsockopt socket".split()
KEPT = "flock ftruncate open rename statx sync".split()
# A file of which only the descriptor is kept may be opened later.
MAY_GO_UNNOTICED = [*OPENED, "open"]
KEPT_BEFORE, LOST_AT, EVERY, CLIENTS = 10, 30, 40, 2
REASON = "Input/output error (os error 5)"
# How long a client may wait for its answer before it retries, and how long a server has for everything.
SECONDS = 10
# This many runs are made at the same time.
BESIDE = 8


@contextlib.contextmanager
def shim():
    with tempfile.TemporaryDirectory() as apart:
        yield failing.build_shim(apart, "calls.c")


def failing_in_turn(attempt, kinds):
    """Makes each call of each kind fail in turn, and yields the differences. `attempt` runs the program with one failing call; it returns the
    differences and whether a call has failed."""
    with ThreadPoolExecutor(BESIDE) as side_by_side:
        for kind in kinds:
            first, has_failed = 1, True
            while has_failed:
                numbers = range(first, first + BESIDE)
                for nth, (differences, has_failed) in zip(numbers, side_by_side.map(functools.partial(attempt, kind), numbers)):
                    yield from (f"{kind} {nth}: {it}" for it in differences)
                    if nth == 1 and not has_failed:
                        yield f"no call of {kind} was made"
                first += BESIDE


def told_once(port):
    """Returns what a client receives, or None if it receives nothing for too long."""
    try:
        with connect(port) as peer:
            peer.settimeout(SECONDS)
            peer.sendall(LOGIN)
            return received(peer)
    except TimeoutError:
        return None
    except OSError:
        return b""


def is_told(server, wanted):
    """Returns whether a client receives this. If its connection is closed before, it retries at once."""
    until = time.monotonic() + SECONDS
    while (got := told_once(server.port)) not in (wanted, None) and server.process.poll() is None and time.monotonic() < until:
        time.sleep(0.02)
    return got == wanted


def refused_to_start(server):
    """Yields what is wrong with the end of a process that cannot start. It must be status 3, with what failed, on which object, and the system's
    reason."""
    status, output, lines = server.ended()
    ending = "".join(it for it in lines if not it.startswith("record: dropped "))
    if (status, output) != (3, b"") or not re.fullmatch(rf"itchsnap: (cannot open|socket failed)\n  \S+: {re.escape(REASON)}\n", ending):
        yield f"ended with {status}, {output!r}, {lines}"


def unwritten(status, lines, record, kind):
    """Yields what is wrong with the end of a server. Only one reason is accepted: it could not cut, sync or examine its record, or write the session
    name next to it."""
    name = re.escape(str(record))
    wanted = rf"cannot open\n  {name}\.session"
    if kind == "ftruncate":
        wanted = rf"cannot open\n  {name}"
    if kind in ("sync", "statx"):
        wanted = rf"({wanted}|message \d+: write failed\n  {name})"
    wanted = rf"itchsnap: {wanted}: {re.escape(REASON)}\n"
    if status != 3 or not re.fullmatch(wanted, "".join(lines[-2:])):
        yield f"ended with {status}, {lines}"


def numbered(output):
    """Returns whether the output has exactly one line for each connection."""
    numbers = [int(it) for it in re.findall(rb"^connection (\d+): .*$", output, re.M)]
    return sorted(numbers) == list(range(1, output.count(b"\n") + 1))


class Kept:
    """A server with one place that continues a record, loses its feed once and writes snapshots; and the results that it must produce."""

    def __init__(self, program, library):
        self.program, self.library = program, library
        self.day, snapshot = day_of(60)
        self.wanted = answer(snapshot)
        self.blocks = split(self.day)
        counts = range(EVERY, len(self.blocks) + 1, EVERY)
        self.snapshots = {f"{count}.snap": snapshot_after(program, self.day, count) for count in counts}

    def attempt(self, kind, nth):
        end = threading.Event()
        before = b"".join(self.blocks[:KEPT_BEFORE]) + self.blocks[KEPT_BEFORE][:5]
        with folder_with(record=before) as folder, Feed(plays(self.day, until=LOST_AT), plays(self.day, wait=end, held=ENDED)) as feed:
            (folder / "snapshots").mkdir()
            failed = folder / "failed"
            words = "--record", folder / "record", "--snapshots", folder / "snapshots", "--every", EVERY, "--clients", "1", "--session", "ITCHSNAP"
            with live(self.program, feed.port, *words, LD_PRELOAD=str(self.library), FAIL=f"{kind}:{nth}", FAILED=str(failed)) as server:
                differences = list(self.differences(kind, server, folder, end) if server.port else refused_to_start(server))
                end.set()
            if failed.exists() and kind not in MAY_GO_UNNOTICED and not any(REASON in it for it in server.lines):
                differences.append("nothing is said of it")
            if kind == "connect" and nth == 1:
                differences += differs("said", any(it.startswith(f"feed: lost at {KEPT_BEFORE + 1}: ") for it in server.lines), True)
            return differences, failed.exists()

    def differences(self, kind, server, folder, end):
        right = sum(is_told(server, self.wanted) for _ in range(CLIENTS))
        end.set()
        status, output, lines = server.ended()
        if status != 0:
            yield from unwritten(status, lines, folder / "record", kind)
            return
        yield from differs("clients with their answer", right, CLIENTS)
        yield from differs("record", (folder / "record").read_bytes() == self.day, True)
        written = {it.name: it.read_bytes() for it in (folder / "snapshots").iterdir() if it.suffix == ".snap"}
        said = [it for it in lines if not re.match(r"feed: |record: dropped 5 bytes", it)]
        if written != self.snapshots and not (len(said) == 1 and is_missed(written, self.snapshots, said[0], folder)):
            yield f"snapshots {sorted(written)}, {said}"
        elif written == self.snapshots and said:
            yield f"said {said}"
        yield from differs("a line for each connection", numbered(output), True)


def is_missed(written, wanted, line, folder):
    """Returns whether exactly one snapshot is missing, and is the one reported as not written."""
    missing = wanted.keys() - written.keys()
    said = f"snapshots: 1 not written, the last one {folder}/snapshots/{''.join(missing)}: {REASON}\n"
    return len(missing) == 1 and line == said and all(wanted.get(name) == data for name, data in written.items())


def a_server_goes_on_where_a_call_at_a_socket_fails(program):
    """Each client that comes later is served, although there is only one place."""
    with shim() as library:
        yield from failing_in_turn(Kept(program, library).attempt, OPENED)


def a_server_goes_on_where_a_call_at_a_file_fails(program):
    """Either the record and the snapshots are complete, apart from a snapshot reported as not written; or the server ends and names the record."""
    with shim() as library:
        yield from failing_in_turn(Kept(program, library).attempt, KEPT)


def a_record_that_cannot_be_looked_at_is_lost(program):
    """The server examines its record every second. If it fails, the server ends; with --record-optional it reports that and continues."""
    day, snapshot = day_of(20)
    for words in [], ["--record-optional"]:
        end = threading.Event()
        with shim() as library, folder_with() as folder, Feed(plays(day, wait=end, held=ENDED)) as feed:
            words = ["--record", folder / "record", *words]
            environment = {"LD_PRELOAD": str(library), "FAIL": "statx:while", "FAILING": str(folder / "fails")}
            with live(program, feed.port, *words, **environment) as server:
                waits_for(lambda: told_once(server.port) == answer(snapshot))
                (folder / "fails").touch()
                if "--record-optional" in words:
                    yield from differs("said", server.said("record: "), f"record: given up: {REASON}\n")
                    yield from differs("told", told_once(server.port), answer(snapshot))
                    end.set()
                    yield from differs("status", server.ended()[0], 0)
                else:
                    status, _, lines = server.ended()
                    yield from differs("ended", (status, lines[-1]), (3, f"  {folder}/record: {REASON}\n"))
            yield from differs("the record", (folder / "record").read_bytes() == day, True)
            end.set()


def what_gets_its_name_is_on_disk(program):
    """If nothing can be synced, no snapshot and no session file is renamed into place. For the snapshot that is reported; for the session file it
    ends the server."""
    day, wanted = day_of(60)
    with shim() as library, folder_with() as folder:
        (folder / "fails").touch()
        (folder / "snapshots").mkdir()
        environment = {"LD_PRELOAD": str(library), "FAIL": "sync:while", "FAILING": str(folder / "fails")}
        end = threading.Event()
        with Feed(plays(day, wait=end, held=ENDED)) as feed, \
                live(program, feed.port, "--snapshots", folder / "snapshots", "--every", EVERY, **environment) as server:
            yield from differs("told", is_told(server, answer(wanted)), True)
            said = f"snapshots: 1 not written, the last one {folder}/snapshots/{EVERY}.snap: {REASON}\n"
            yield from differs("said", server.said("snapshots: "), said)
            yield from differs("snapshots", [it.name for it in (folder / "snapshots").glob("*.snap")], [])
            end.set()
        with Feed(plays(day, then=ENDED)) as feed, live(program, feed.port, "--record", folder / "record", "--sync", "no", **environment) as server:
            status, _, lines = server.ended()
            line = f"  {folder}/record.session: {REASON}\n"
            yield from differs("a session file", (status, lines[-2:]), (3, ["itchsnap: cannot open\n", line]))
            yield from differs("its name", (folder / "record.session").exists(), False)


def an_index_that_gets_its_name_is_on_disk(program):
    """If the index cannot be synced without the line of an old snapshot, both the line and the snapshot stay, and this is reported. No temporary file
    is left."""
    day, _ = day_of(60)
    # One sync of the session file, one of each snapshot, and then that of the index.
    with shim() as library, folder_with() as folder, Feed(plays(day, then=ENDED)) as feed:
        (folder / "snapshots").mkdir()
        words = "--record", folder / "record", "--sync", "no", "--snapshots", folder / "snapshots", "--every", EVERY, "--keep", "1"
        with live(program, feed.port, *words, LD_PRELOAD=str(library), FAIL="sync:4", FAILED=str(folder / "failed")) as server:
            status, _, lines = server.ended()
        said = [it for it in lines if not it.startswith("feed: ")]
        yield from differs("said", (status, said), (0, [f"snapshots: cannot remove an old one in {folder}/snapshots: {REASON}\n"]))
        listed = [line.split(",")[0] for line in (folder / "snapshots/index.jsonl").read_text().splitlines()]
        left = sorted(it.name for it in (folder / "snapshots").iterdir())
        yield from differs("kept", (left, len(listed)), (["40.snap", "80.snap", "index.jsonl"], 2))


def a_connection_that_cannot_be_made_has_its_own_cause(program):
    """A failed call is not reported as a refusal by the server."""
    with shim() as library, folder_with() as folder, Feed(plays(day_of(20)[0], then=ENDED)) as feed:
        words = "--feed", f"127.0.0.1:{feed.port}", "--port", "0", *WORDS, "--log", "text"
        environment = {"LD_PRELOAD": str(library), "FAIL": "connect:1", "FAILED": str(folder / "failed")}
        with Running(program, "live", *words, listens=False, **environment) as server:
            status, _, lines = server.ended()
        causes = re.findall(r' feed_lost next=1 cause="(.*?)"', "".join(lines))
        yield from differs("causes", (status, causes), (0, ["socket failed"]))


def a_feed_goes_on_where_a_call_fails(program):
    day, _ = day_of(30)
    wanted = acceptance(1) + b"".join(map(packet, split(day))) + ENDED

    def attempt(kind, nth):
        with folder_with(day=day) as folder:
            failed = folder / "failed"
            environment = {"LD_PRELOAD": str(library), "FAIL": f"{kind}:{nth}", "FAILED": str(failed)}
            with Running(program, "feed", folder / "day", "--port", "0", "--session", "ITCHSNAP", *WORDS, **environment) as server:
                if not server.port:
                    return list(refused_to_start(server)), failed.exists()
                differences = list(differs("clients with their messages", [is_told(server, wanted) for _ in range(CLIENTS)], [True] * CLIENTS))
                differences += differs("the process has ended with", server.process.poll(), None)
            return differences, failed.exists()

    with shim() as library:
        yield from failing_in_turn(attempt, "accept4 bind epoll_create1 epoll_ctl getsockname listen open setsockopt socket statx".split())


def a_follower_goes_on_where_a_call_fails(program):
    """The output contains each message once."""
    day, _ = day_of(30)
    early, wanted = snapshot_after(program, day, 10), b"".join(split(day)[10:])

    def attempt(kind, nth):
        with folder_with() as folder, Feed(sends(answer(early))) as glimpse, Feed(plays(day, until=20), plays(day, then=ENDED)) as feed:
            failed = folder / "failed"
            servers = "--feed", f"127.0.0.1:{feed.port}", "--glimpse", f"127.0.0.1:{glimpse.port}"
            environment = {"LD_PRELOAD": str(library), "FAIL": f"{kind}:{nth}", "FAILED": str(failed)}
            with Running(program, "follow", *servers, *WORDS, listens=False, **environment) as follower:
                status, output, lines = follower.ended()
                if follower.process.returncode == 3:
                    return list(refused_to_start(follower)), failed.exists()
            differences = list(differs("ended", (status, output == wanted), (0, True)))
            return differences + [it for it in lines if not re.match("feed: |glimpse: ", it)], failed.exists()

    with shim() as library:
        yield from failing_in_turn(attempt, "connect epoll_create1 epoll_ctl setsockopt socket".split())


RUNS = [
    a_server_goes_on_where_a_call_at_a_socket_fails,
    a_server_goes_on_where_a_call_at_a_file_fails,
    a_record_that_cannot_be_looked_at_is_lost,
    what_gets_its_name_is_on_disk,
    an_index_that_gets_its_name_is_on_disk,
    a_connection_that_cannot_be_made_has_its_own_cause,
    a_feed_goes_on_where_a_call_fails,
    a_follower_goes_on_where_a_call_fails,
]
