"""`at` with an index that does not fit the point or the feed.

RUNS lists the runs: functions that take the program and yield the differences found.
"""
import contextlib
import gzip
import json
import os
import subprocess
import tempfile
from pathlib import Path

import failing
from common import differs, ended_in, file, split
from costs import cost

DAY = split(file("START_STAMPED AAPL_STAMPED BUY_1_STAMPED BUY_7_OF_300 EXECUTE_7 CANCEL_7"))
OFFSETS = [sum(map(len, DAY[:count])) for count in range(len(DAY) + 1)]


@contextlib.contextmanager
def folder_of(program, *words, day=b"".join(DAY)):
    """Yields a folder with a day, and the snapshots that `snap` writes of it with these arguments."""
    with tempfile.TemporaryDirectory() as name:
        folder = Path(name)
        (folder / "day.itch").write_bytes(day)
        (folder / "d").mkdir()
        assert ended_in(folder, program, "snap", "day.itch", "--to", "d", *words) == (0, b"", b"")
        yield folder


def piped(folder, program, *words, feed):
    done = subprocess.run([program, *words], cwd=folder, input=feed, capture_output=True, timeout=60)
    return done.returncode, done.stdout, done.stderr


def snapped(folder, program, *part):
    status, output, error = ended_in(folder, program, "snap", "day.itch", *part)
    assert (status, error) == (0, b""), error
    return output


def refused(line, detail):
    return 1, b"", f"itchsnap: checkpoint: {line}\n  {detail}\n".encode()


def a_line_without_a_timestamp_is_for_numbers_only(program):
    with folder_of(program, "--after", "3") as folder:
        index = folder / "d/index.jsonl"
        line = json.loads(index.read_text())
        for timestamp in ({}, {"timestamp": 3.0}, {"timestamp": "3"}, {"timestamp": -1}, {"timestamp": 2 ** 64}, {"timestamp": [3]}):
            index.write_text(json.dumps({**{key: line[key] for key in ("messages", "offset", "first", "last")}, **timestamp}) + "\n")
            for time in ("00:00:00.000000002", "00:00:00.000000009"):
                wanted = 0, snapped(folder, program, "--until", time), b""
                yield from differs((timestamp, time), ended_in(folder, program, "at", "d", "day.itch", time), wanted)
            # The line makes `at` skip the earlier messages. Here they are zeros, which would be refused if read.
            index.write_text(json.dumps({"messages": 3, "offset": OFFSETS[3], **timestamp}) + "\n")
            (folder / "rest.itch").write_bytes(bytes(OFFSETS[3]) + b"".join(DAY[3:]))
            wanted = 0, snapped(folder, program, "--after", "5"), b""
            yield from differs((timestamp, 5), ended_in(folder, program, "at", "d", "rest.itch", "5"), wanted)
        index.write_text(json.dumps({"messages": 3, "offset": OFFSETS[3], "timestamp": None}) + "\n")
        wanted = 0, snapped(folder, program, "--after", "3"), b""
        yield from differs("null", ended_in(folder, program, "at", "d", "day.itch", "00:00:00.000000004"), wanted)


def a_feed_that_ends_before_its_checkpoint_is_refused(program):
    day = b"".join(DAY)
    with folder_of(program, "--after", "4") as folder:
        for size in (0, 3, OFFSETS[3], OFFSETS[4] - 1):
            (folder / "cut.itch").write_bytes(day[:size])
            for point in ("5", "00:00:00.000000006"):
                got = ended_in(folder, program, "at", "d", "cut.itch", point)
                yield from differs((size, point), got, refused("beyond the end of the feed", "cut.itch: it ends before the checkpoint in d"))
                got = piped(folder, program, "at", "d", "-", point, feed=day[:size])
                yield from differs((size, point), got, refused("beyond the end of the feed", "standard input: it ends before the checkpoint in d"))
        (folder / "day.itch.gz").write_bytes(gzip.compress(day, mtime=0))
        assert (folder / "day.itch.gz").stat().st_size < OFFSETS[4]
        hint = "day.itch.gz: this is a gzip file: zcat day.itch.gz | itchsnap at .. - .."
        got = ended_in(folder, program, "at", "d", "day.itch.gz", "00:00:00.000000006")
        yield from differs("gzip", got, refused("beyond the end of the feed", hint))
        # An offset beyond the end of any file.
        (folder / "d/index.jsonl").write_text(json.dumps({"messages": 4, "offset": 2 ** 63, "timestamp": 5}) + "\n")
        got = ended_in(folder, program, "at", "d", "day.itch", "5")
        yield from differs("2^63", got, refused("beyond the end of the feed", "day.itch: it ends before the checkpoint in d"))


def a_line_that_is_no_text_is_passed_over(program):
    with folder_of(program, "--after", "2,4") as folder:
        index = folder / "d/index.jsonl"
        for broken in (b"\377\n", b"{\"messages\":5,\"offset\":\377}\n", b"\300\200\n"):
            lines = index.read_bytes().splitlines(keepends=True)
            index.write_bytes(lines[0] + broken + lines[-1])
            for point in ("1", "3", "5"):
                wanted = 0, snapped(folder, program, "--after", point), b""
                yield from differs((broken, point), ended_in(folder, program, "at", "d", "day.itch", point), wanted)


def a_line_with_other_members_is_no_checkpoint(program):
    with folder_of(program, "--after", "4") as folder:
        index = folder / "d/index.jsonl"
        line = json.loads(index.read_text())
        # The snapshot does not exist, and is not needed.
        (folder / "d/4.snap").unlink()
        for member in ({"only": 7}, {"only": None}, {"first": 7}, {"last": None}, {"first": "7"}, {"last": line["last"] + "0"}):
            index.write_text(json.dumps({**line, **member}) + "\n")
            wanted = 0, snapped(folder, program, "--after", "5"), b""
            yield from differs(member, ended_in(folder, program, "at", "d", "day.itch", "5"), wanted)


def partial_snapshots_answer_for_their_locates_only(program):
    day = file("START_STAMPED AAPL_STAMPED BUY_1_STAMPED MSFT BUY_7_OF_300")
    fewer = refused("of some locates only", "d: its snapshots were made with --only, of fewer locates")
    with folder_of(program, "--after", "3", "--only", "1,3-5", day=day) as folder:
        for words in (("--only", "1"), ("--only", "4-5,1"), ("--only", "1,3,4,5")):
            wanted = 0, snapped(folder, program, "--after", "5", *words), b""
            yield from differs(words, ended_in(folder, program, "at", "d", "day.itch", "5", *words), wanted)
        for words in ((), ("--only", "2"), ("--only", "1-3"), ("--only", "0-65535"), ("--stock", "AAPL")):
            yield from differs(words, ended_in(folder, program, "at", "d", "day.itch", "5", *words), fewer)
            # Before the first checkpoint the complete day is read.
            wanted = 0, snapped(folder, program, "--after", "2", *words), b""
            yield from differs(words, ended_in(folder, program, "at", "d", "day.itch", "2", *words), wanted)
        index = folder / "d/index.jsonl"
        line = json.loads(index.read_text())
        for only in ("", "x", "3-1", "1,"):
            index.write_text(json.dumps({**line, "only": only}) + "\n")
            yield from differs(only, ended_in(folder, program, "at", "d", "day.itch", "5", "--only", "1"), fewer)


def the_snapshots_of_another_day_are_refused(program):
    # Enough messages that the first and the last bytes checked do not cover all of them.
    filling = [file("START_STAMPED")] * 6000
    for changed in (1, 5990):
        blocks = DAY + filling
        with folder_of(program, "--every", "6006", day=b"".join(blocks)) as folder:
            blocks[changed] = blocks[changed].replace(b"AAPL", b"AAPM") if changed == 1 else file("START_STAMPED").replace(b"O", b"Q")
            other = b"".join(blocks + [file("START_STAMPED")])
            (folder / "other.itch").write_bytes(other)
            got = ended_in(folder, program, "at", "d", "other.itch", "6007")
            yield from differs(changed, got, refused("of another day", "d: its snapshots are of another day file than other.itch"))
            got = piped(folder, program, "at", "d", "-", "6007", feed=other)
            yield from differs(changed, got, refused("of another day", "d: its snapshots are of another day file than standard input"))
            # An index of an earlier version does not describe the day, and is trusted.
            line = json.loads((folder / "d/index.jsonl").read_text())
            (folder / "d/index.jsonl").write_text(json.dumps({key: line[key] for key in ("messages", "offset", "timestamp")}) + "\n")
            yield from differs(changed, ended_in(folder, program, "at", "d", "other.itch", "6006")[0], 0)


def a_day_that_goes_on_is_the_same_day(program):
    day = b"".join(DAY)
    with folder_of(program, "--every", "2", day=b"".join(DAY[:4])) as folder:
        (folder / "day.itch").write_bytes(day)
        for count in ("1", "3", "4", "6"):
            wanted = 0, snapped(folder, program, "--after", count), b""
            yield from differs(count, ended_in(folder, program, "at", "d", "day.itch", count), wanted)
            yield from differs(count, piped(folder, program, "at", "d", "-", count, feed=day), wanted)


def a_long_line_is_passed_over_and_not_held(program):
    with folder_of(program, "--after", "2,4") as folder:
        index = folder / "d/index.jsonl"
        lines = index.read_bytes().splitlines(keepends=True)
        with open(index, "wb") as out:
            out.write(lines[0])
            out.seek(100_000_000, os.SEEK_CUR)
            out.write(b"\n" + lines[1])
        taken = cost(program, "at", folder / "d", folder / "day.itch", "5")
        if taken.status or taken.kilobytes > 20_000:
            yield f"{taken}"
        wanted = 0, snapped(folder, program, "--after", "5"), b""
        yield from differs("after", ended_in(folder, program, "at", "d", "day.itch", "5"), wanted)
        # A line continues after half a megabyte; the rest is not a line of its own. The snapshot that the rest names does not exist.
        index.write_bytes(lines[0] + b" " * (1 << 19) + lines[1])
        (folder / "d/4.snap").unlink()
        yield from differs("the rest of a line", ended_in(folder, program, "at", "d", "day.itch", "5"), wanted)


def each_read_fails_in_turn(program):
    """A read of the index, the snapshot or the day fails: the file is named, and nothing is written."""
    with folder_of(program, "--after", "2") as folder, tempfile.TemporaryDirectory() as apart:
        shim, failed = failing.build_shim(apart), Path(apart) / "failed"
        words = "at", "d", "day.itch", "5"
        named = []
        for nth in range(1, 100):
            failed.unlink(missing_ok=True)
            status, output, error = ended_in(folder, program, *words, LD_PRELOAD=str(shim), FAIL=f"read:{nth}", FAILED=str(failed))
            if not failed.exists():
                break
            ending = b": Input/output error (os error 5)\n"
            if (status, output) != (3, b"") or not error.endswith(ending):
                yield f"read {nth}: {status}, {output!r}, {error!r}"
            named.append(error.splitlines()[-1][2:-len(ending) + 1].decode())
        yield from differs("named", list(dict.fromkeys(named)), ["d/index.jsonl", "day.itch", "d/2.snap"])


def the_file_that_cannot_be_opened_is_named(program):
    with folder_of(program, "--after", "2") as folder:
        (folder / "d/2.snap").unlink()
        missing = 3, b"", b"itchsnap: cannot open\n  d/2.snap: No such file or directory (os error 2)\n"
        yield from differs("snapshot", ended_in(folder, program, "at", "d", "day.itch", "3"), missing)
        (folder / "d/2.snap").mkdir()
        broken = 3, b"", b"itchsnap: snapshot: read failed\n  d/2.snap: Is a directory (os error 21)\n"
        yield from differs("snapshot", ended_in(folder, program, "at", "d", "day.itch", "3"), broken)
        (folder / "d/index.jsonl").unlink()
        missing = 3, b"", b"itchsnap: cannot open\n  d/index.jsonl: No such file or directory (os error 2)\n"
        yield from differs("index", ended_in(folder, program, "at", "d", "day.itch", "3"), missing)
        (folder / "p.part").mkdir()
        taken = 3, b"", b"itchsnap: cannot open\n  p.part: Is a directory (os error 21)\n"
        yield from differs("output", ended_in(folder, program, "snap", "day.itch", "--output", "p"), taken)


RUNS = (
    a_line_without_a_timestamp_is_for_numbers_only,
    a_feed_that_ends_before_its_checkpoint_is_refused,
    a_line_that_is_no_text_is_passed_over,
    a_line_with_other_members_is_no_checkpoint,
    partial_snapshots_answer_for_their_locates_only,
    the_snapshots_of_another_day_are_refused,
    a_day_that_goes_on_is_the_same_day,
    a_long_line_is_passed_over_and_not_held,
    each_read_fails_in_turn,
    the_file_that_cannot_be_opened_is_named,
)
