"""Restarts of `live` from the newest snapshot that fits the record: which snapshots are kept and listed, and who is served meanwhile.

RUNS lists the runs: functions that take the program and yield the differences found.
"""
import json
import resource
import shutil
import signal
import subprocess
import threading
import time
from pathlib import Path

from calls import shim
from common import differs, ended_in, split
from living import (BEAT, ENDED, LOGIN, PATIENCE, SESSION, WORDS, Feed, acceptance, answer, connect, day_of, fetch, folder_with, live, number_of, packet, plays, received,
                    recorded, snapshot_after, without_first_beats)
from standby import waits_for

COUNT, EVERY = 5_000, 1_000
DAY, WHOLE = day_of(COUNT)
BLOCKS = split(DAY)
ENDING = f"feed: ended at {len(BLOCKS) + 1}\n"


def named(folder, count, name="snapshots"):
    return folder / name / f"{count}.snap"


def files(folder, name="snapshots"):
    return sorted(it.name for it in (folder / name).iterdir())


def counts(folder, name="snapshots"):
    """Returns the numbers of messages of the snapshots in the index, in its order."""
    return [json.loads(line)["messages"] for line in (folder / name / "index.jsonl").read_text().splitlines()]


def counts_so_far(folder):
    """Returns the same, or nothing if there is no index yet."""
    return counts(folder) if (folder / "snapshots/index.jsonl").exists() else []


def wanted_files(*of):
    return sorted(["index.jsonl", *(f"{count}.snap" for count in of)])


def saves(folder, *words, name="snapshots"):
    return "--record", folder / "record", "--snapshots", folder / name, "--every", str(EVERY), *words


def runs(program, folder, *words, until=None, name="snapshots"):
    """Runs a server that records the day up to this message, or to its end. Returns its lines, and the requests to its feed. It is killed if the day
    has not ended."""
    (folder / name).mkdir(exist_ok=True)
    end = threading.Event()
    script = plays(DAY, until=until, wait=end) if until else plays(DAY, then=ENDED)
    with Feed(script) as feed, live(program, feed.port, *saves(folder, *words, name=name)) as server:
        if not until:
            return server.ended()[2], feed.asked()
        size = sum(map(len, BLOCKS[:until]))
        begun = time.monotonic()
        while time.monotonic() < begun + PATIENCE and (folder / "record").stat().st_size < size:
            time.sleep(0.02)
        end.set()
        return list(server.lines[1:]), feed.asked()


def snapshots_differ(program, folder, *of, name="snapshots"):
    yield from differs("files", files(folder, name), wanted_files(*of))
    yield from differs("index", counts(folder, name), list(of))
    for count in of:
        yield from differs(count, named(folder, count, name).read_bytes(), snapshot_after(program, DAY, count))


def a_restart_begins_with_the_newest_snapshot(program):
    """It requests the messages after the record from the feed. The index equals the one that `snap` writes, and `at` can use it."""
    with folder_with() as folder:
        runs(program, folder, until=3_500)
        yield from snapshots_differ(program, folder, 1_000, 2_000, 3_000)
        said, asked = runs(program, folder)
        newest = f"record: replayed from {folder}/snapshots/3000.snap on\n"
        yield from differs("said", said, [newest, "feed: accepted from 3501\n", ENDING])
        yield from differs("asked", asked, [3_501])
        yield from differs("the record", (folder / "record").read_bytes(), DAY)
        every = range(EVERY, COUNT + 1, EVERY)
        yield from snapshots_differ(program, folder, *every)
        (folder / "made").mkdir()
        ended_in(folder, program, "snap", "record", "--every", str(EVERY), "--to", "made")
        # `snap` also writes one at the end.
        made = (folder / "made/index.jsonl").read_text().splitlines()[:-1]
        yield from differs("the index", (folder / "snapshots/index.jsonl").read_text().splitlines(), made)
        for point in (999, 1_000, 2_345, COUNT):
            got = ended_in(folder, program, "at", "snapshots", "record", str(point))
            yield from differs(f"at {point}", got, (0, snapshot_after(program, DAY, point), b""))


def a_restart_with_the_newest_snapshot_serves_the_market(program):
    """No message follows the record, or an unfinished one, which is dropped."""
    for torn in (0, 7):
        with folder_with() as folder:
            runs(program, folder, until=3_500)
            with (folder / "record").open("ab") as record:
                record.write(BLOCKS[3_500][:torn])
            end = threading.Event()
            with Feed(plays(DAY, until=3_500, wait=end)) as feed, live(program, feed.port, *saves(folder)) as server:
                if torn:
                    server.said(f"record: dropped {torn} bytes after message 3500\n")
                server.said("feed: accepted from 3501")
                yield from differs(f"served, {torn} bytes", fetch(program, server.port)[:2], (0, snapshot_after(program, DAY, 3_500)))
                end.set()


def a_snapshot_of_the_complete_record_is_used(program):
    """It covers every message of the record: nothing is replayed, and the feed is asked for the next message."""
    with folder_with() as folder:
        (folder / "snapshots").mkdir()
        end = threading.Event()
        with Feed(plays(DAY, until=3_000), lambda peer, login: end.wait(PATIENCE)) as feed, live(program, feed.port, *saves(folder)) as server:
            server.said("feed: lost at 3001")
            end.set()
        said, asked = runs(program, folder)
        newest = f"record: replayed from {folder}/snapshots/3000.snap on\n"
        yield from differs("said", (said, asked), ([newest, "feed: accepted from 3001\n", ENDING], [3_001]))
        yield from snapshots_differ(program, folder, *range(EVERY, COUNT + 1, EVERY))


def changed(folder, change):
    """Returns the folder's snapshots after such a change, and what is then logged about the snapshot of 3,000 messages."""
    newest, index = named(folder, 3_000), folder / "snapshots/index.jsonl"
    lines = index.read_text().splitlines()
    if change == "cut short":
        newest.write_bytes(newest.read_bytes()[:-10])
        return "truncated"
    if change == "removed":
        newest.unlink()
        return "No such file or directory"
    if change == "another number":
        newest.write_bytes(named(folder, 2_000).read_bytes())
        return "its End of Snapshot has number 2001"
    if change == "another fingerprint":
        line = json.loads(lines[-1])
        line["last"] = "0" * 16
        lines[-1] = json.dumps(line)
        why = "of another day than the record"
    elif change == "no fingerprint":
        line = json.loads(lines[-1])
        del line["first"], line["last"]
        lines[-1] = json.dumps(line)
        why = "without a fingerprint or a timestamp in the index"
    elif change == "some locates":
        lines[-1] = lines[-1][:-1] + ',"only":"1-3"}'
        why = "of some locates only"
    else:
        line = json.loads(lines[-1])
        line["offset"] = 1 << 40
        lines[-1] = json.dumps(line)
        why = "beyond the end of the record"
    index.write_text("".join(it + "\n" for it in lines))
    return why


CHANGES = "cut short", "removed", "another number", "another fingerprint", "no fingerprint", "some locates", "another offset"


def a_snapshot_that_does_not_fit_is_passed_over(program):
    """It is reported, and an older one is used. The snapshot is written again."""
    for change in CHANGES:
        with folder_with() as folder:
            runs(program, folder, until=3_500)
            why = changed(folder, change)
            said, asked = runs(program, folder)
            passed = f"snapshots: {folder}/snapshots/3000.snap is not used: "
            yield from differs(change, [it.startswith(passed) and why in it for it in said[:1]], [True])
            yield from differs(f"{change}, then", said[1:2], [f"record: replayed from {folder}/snapshots/2000.snap on\n"])
            yield from differs(f"{change}, asked", asked, [3_501])
            yield from differs(f"{change}, the record", (folder / "record").read_bytes(), DAY)
            yield from snapshots_differ(program, folder, *range(EVERY, COUNT + 1, EVERY))


def the_snapshots_of_another_record_are_not_used(program):
    """None of them is used, and they are removed from the index: the record is replayed from its beginning."""
    other, _ = day_of(COUNT, symbols=7)
    with folder_with() as folder:
        runs(program, folder, until=3_500)
        for name, data in recorded(b"".join(split(other)[:2_500])).items():
            (folder / name).write_bytes(data)
        with Feed(plays(other, then=ENDED)) as feed, live(program, feed.port, *saves(folder)) as server:
            said = server.ended()[2]
        skipped = [f"snapshots: {folder}/snapshots/{count}.snap is not used: " for count in (3_000, 2_000, 1_000)]
        yield from differs("said", [one.startswith(other) for one, other in zip(said, skipped)], [True] * 3)
        yield from differs("then", said[3:4], ["feed: accepted from 2501\n"])
        yield from differs("index", counts(folder), list(range(EVERY, COUNT + 1, EVERY)))
        for count in range(EVERY, COUNT + 1, EVERY):
            yield from differs(count, named(folder, count).read_bytes(), snapshot_after(program, other, count))


def a_folder_without_a_record_has_no_index(program):
    """The snapshots written there may be of another feed than those in an index."""
    with folder_with() as folder:
        runs(program, folder, until=3_500)
        with Feed(plays(DAY, then=ENDED)) as feed, live(program, feed.port, "--snapshots", folder / "snapshots", "--every", "2500") as server:
            yield from differs("said", server.ended()[2], ["feed: accepted from 1\n", ENDING])
        yield from differs("index", (folder / "snapshots/index.jsonl").read_text(), "")


def missing_snapshots_are_written_during_the_replay(program):
    """In an empty folder all of them are written. Unfinished files of snapshots are removed; any other file is left."""
    with folder_with() as folder:
        runs(program, folder, until=3_500)
        shutil.rmtree(folder / "snapshots")
        (folder / "snapshots").mkdir()
        for name in ("1000.snap.part", "index.jsonl.part", "x.snap.part", "notes.part"):
            (folder / "snapshots" / name).write_bytes(b"\0\x15G")
        said, _ = runs(program, folder)
        yield from differs("said", said, ["feed: accepted from 3501\n", ENDING])
        for name in ("x.snap.part", "notes.part"):
            (folder / "snapshots" / name).unlink()
        yield from snapshots_differ(program, folder, *range(EVERY, COUNT + 1, EVERY))


def the_last_snapshots_are_kept(program):
    """Older ones are removed, together with their lines, including those of an earlier run."""
    with folder_with() as folder:
        runs(program, folder, until=3_500)
        runs(program, folder, "--keep", "2")
        yield from snapshots_differ(program, folder, 4_000, 5_000)
        shutil.rmtree(folder / "snapshots")
        runs(program, folder, "--keep", "3")
        yield from snapshots_differ(program, folder, 3_000, 4_000, 5_000)


def the_oldest_snapshots_of_an_earlier_run_are_removed_first(program):
    """In whatever order the system lists the files of the folder."""
    every, keep = 100, 10
    with folder_with() as folder:
        (folder / "snapshots").mkdir()
        words = "--record", folder / "record", "--snapshots", folder / "snapshots", "--every", every
        for until, more in ((3_500, ()), (4_100, ("--keep", keep))):
            end = threading.Event()
            with Feed(plays(DAY, until=until), lambda peer, login: end.wait(PATIENCE)) as feed, live(program, feed.port, *words, *more) as server:
                server.said("feed: lost at ")
                end.set()
        yield from snapshots_differ(program, folder, *range(4_100 - every * (keep - 1), 4_101, every))


def obstacle(folder, kind):
    """Prevents the removal of old snapshots while it exists: the system refuses to remove a file (calls.c), or the index cannot be written."""
    if kind == "file":
        return folder / "fails", "Input/output error (os error 5)"
    return folder / "snapshots/index.jsonl.part", "Is a directory (os error 21)"


def an_old_snapshot_that_cannot_be_removed_is_tried_again(program):
    """After each later snapshot, until it succeeds. Each failure is reported."""
    for kind in "file", "index":
        fails, works = threading.Event(), threading.Event()

        def script(peer, login):
            peer.sendall(acceptance(1) + b"".join(map(packet, BLOCKS[:20])))
            fails.wait(PATIENCE)
            peer.sendall(b"".join(map(packet, BLOCKS[20:60])))
            works.wait(PATIENCE)
            peer.sendall(b"".join(map(packet, BLOCKS[60:80])) + ENDED)

        with shim() as library, folder_with() as folder, Feed(script) as feed:
            (folder / "snapshots").mkdir()
            path, why = obstacle(folder, kind)
            words = "--record", folder / "record", "--snapshots", folder / "snapshots", "--every", "20", "--keep", "1"
            environment = {"LD_PRELOAD": str(library), "FAIL": "unlink:while", "FAILING": str(folder / "fails")}
            said = f"snapshots: cannot remove an old one in {folder}/snapshots: {why}\n"
            with live(program, feed.port, *words, **environment) as server:
                waits_for(lambda: counts_so_far(folder) == [20])
                path.mkdir()
                fails.set()
                waits_for(lambda: server.lines.count(said) == 2)
                left = [it.name for it in (folder / "snapshots").glob("*.snap")]
                yield from differs(f"{kind}, left meanwhile", sorted(left), ["20.snap", "40.snap", "60.snap"])
                path.rmdir()
                works.set()
                status, _, lines = server.ended()
            yield from differs(f"{kind}, ended", (status, lines.count(said)), (0, 2))
            yield from snapshots_differ(program, folder, 80)


def a_folder_may_be_a_link(program):
    """The link leads to a folder on another disk."""
    with folder_with() as folder:
        (folder / "disk").mkdir()
        (folder / "snapshots").symlink_to("disk")
        with Feed(plays(DAY, then=ENDED)) as feed, live(program, feed.port, *saves(folder)) as server:
            yield from differs("ended", server.ended()[::2], (0, ["feed: accepted from 1\n", ENDING]))
        yield from differs("files", files(folder, "disk"), wanted_files(*range(EVERY, COUNT + 1, EVERY)))


def nothing_is_left_of_a_snapshot_for_which_there_is_no_room(program):
    """The file is removed at once, so that the record gets its space back."""
    def limit():
        signal.signal(signal.SIGXFSZ, signal.SIG_IGN)
        resource.setrlimit(resource.RLIMIT_FSIZE, (len(day) + 10, len(day) + 10))

    day = b"".join(BLOCKS[:20])
    with folder_with() as folder, Feed(plays(day, then=ENDED)) as feed:
        (folder / "snapshots").mkdir()
        words = "--feed", f"127.0.0.1:{feed.port}", "--port", "0", *WORDS, "--record", "record", "--snapshots", "snapshots", "--every", "20"
        done = subprocess.run([program, "live", *words], cwd=folder, preexec_fn=limit, capture_output=True, stdin=subprocess.DEVNULL, timeout=PATIENCE)
        missed = b"snapshots: 1 not written, the last one snapshots/20.snap: File too large (os error 27)\n"
        yield from differs("ended", (done.returncode, missed in done.stderr), (0, True))
        yield from differs("files", files(folder), [])


def held_back(until, rest):
    """A feed that accepts the login when it is told to, and then sends the messages after this one."""
    def script(peer, login):
        rest.wait(PATIENCE)
        peer.sendall(acceptance(until + 1, SESSION) + b"".join(map(packet, BLOCKS[until:])))
        received(peer)

    return script


def clients_wait_until_it_has_caught_up(program):
    """Meanwhile they receive heartbeats. Without the option they are served the market of the record."""
    early = snapshot_after(program, DAY, 2_000)
    for words, wanted in ((("--ready", "caught-up"), WHOLE), (("--ready", "first"), early), ((), early)):
        rest = threading.Event()
        files = recorded(b"".join(BLOCKS[:2_000]))
        with folder_with(**files) as folder, Feed(held_back(2_000, rest)) as feed, live(program, feed.port, "--record", folder / "record", *words) as server:
            with connect(server.port) as peer:
                peer.sendall(LOGIN)
                got = received(peer, len(acceptance(1)) + 2 * len(BEAT) if wanted == WHOLE else None)
                rest.set()
                got += received(peer)
            yield from differs(words, without_first_beats(got), answer(wanted))


def the_index_has_the_latest_time_so_far(program):
    """Even if timestamps go back, and after a restart."""
    times = [5, 9, 3, 7, 9, 1, 12, 2, 30, 4] * 4
    blocks = [it[:7] + (10**12 + at * 10**3 + time).to_bytes(6, "big") + it[13:] for at, (time, it) in enumerate(zip(times, BLOCKS))]
    for at, back in enumerate((3, 11, 27, 36)):
        blocks[back] = blocks[back][:7] + (10**9 + at).to_bytes(6, "big") + blocks[back][13:]
    day = b"".join(blocks)
    with folder_with(day=day) as folder:
        for name in ("snapshots", "made"):
            (folder / name).mkdir()
        for script in (plays(day, until=18), plays(day, then=ENDED)):
            end = threading.Event()
            with Feed(script, lambda peer, login: end.wait(PATIENCE)) as feed, \
                    live(program, feed.port, "--record", folder / "record", "--snapshots", folder / "snapshots", "--every", "4") as server:
                server.said("feed: (lost|ended) at ")
            end.set()
        ended_in(folder, program, "snap", "day", "--every", "4", "--to", "made")
        yield from differs("the index", (folder / "snapshots/index.jsonl").read_text(), (folder / "made/index.jsonl").read_text())


def a_line_that_is_not_written_whole_is_taken_back(program):
    """The next line starts where that one started. The process is told that the disk has room for the first line and a part of the second."""
    day = b"".join(BLOCKS[:3])
    with folder_with(day=day) as folder, Feed(plays(day, then=ENDED)) as feed:
        for name in ("snapshots", "made"):
            (folder / name).mkdir()
        ended_in(folder, program, "snap", "day", "--every", "1", "--to", "made")
        first = (folder / "made/index.jsonl").read_text().splitlines(True)[0]

        def limit():
            signal.signal(signal.SIGXFSZ, signal.SIG_IGN)
            resource.setrlimit(resource.RLIMIT_FSIZE, (len(first) + 20, len(first) + 20))

        words = "--feed", f"127.0.0.1:{feed.port}", "--port", "0", *WORDS, "--record", "record", "--snapshots", "snapshots", "--every", "1"
        done = subprocess.run([program, "live", *words], cwd=folder, preexec_fn=limit, capture_output=True, stdin=subprocess.DEVNULL, timeout=PATIENCE)
        missed = b"snapshots: 1 not written, the last one snapshots/2.snap: File too large (os error 27)\n"
        yield from differs("ended", (done.returncode, missed in done.stderr), (0, True))
        yield from differs("the index", (folder / "snapshots/index.jsonl").read_text(), first)
        yield from differs("its snapshot", named(folder, 2).exists(), False)


RUNS = [
    a_restart_begins_with_the_newest_snapshot,
    a_restart_with_the_newest_snapshot_serves_the_market,
    a_snapshot_of_the_complete_record_is_used,
    a_snapshot_that_does_not_fit_is_passed_over,
    the_snapshots_of_another_record_are_not_used,
    a_folder_without_a_record_has_no_index,
    missing_snapshots_are_written_during_the_replay,
    the_last_snapshots_are_kept,
    the_oldest_snapshots_of_an_earlier_run_are_removed_first,
    an_old_snapshot_that_cannot_be_removed_is_tried_again,
    a_folder_may_be_a_link,
    nothing_is_left_of_a_snapshot_for_which_there_is_no_room,
    clients_wait_until_it_has_caught_up,
    the_index_has_the_latest_time_so_far,
    a_line_that_is_not_written_whole_is_taken_back,
]
