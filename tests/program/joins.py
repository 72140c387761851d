"""`join` and `at` from each snapshot to each part of a day: the output is that of `snap`.

RUNS lists the runs: functions that take the program and yield the differences found.
"""
import json
import subprocess
import tempfile
from pathlib import Path

from common import differs, ended_in, file, split

# The messages of a day, with their timestamps.
DAY = split(file("START_STAMPED AAPL_STAMPED BUY_1_STAMPED BUY_7_OF_300 EXECUTE_7 CANCEL_7 AAPL_LATE"))
TIMES = (1, 2, 3, 5, 6, 7, 9)
COUNTS = range(len(DAY) + 1)


def folder_of_a_day(folder):
    """Writes the day, and each end of it: `N.itch` begins with message number N."""
    for first in range(1, len(DAY) + 2):
        (Path(folder) / f"{first}.itch").write_bytes(b"".join(DAY[first - 1:]))


def snapped(folder, program, *part):
    """Returns the snapshot that `snap` writes of a part of the day."""
    status, output, error = ended_in(folder, program, "snap", "1.itch", *part)
    assert (status, error) == (0, b""), error
    return output


def wanted_after(held, first, count, snapshots):
    """Returns how a join from a snapshot of `held` messages must end, after `count` messages of the day."""
    if first > held + 1:
        return 1, b"", f"itchsnap: gap: message {held + 1} is next, and the feed begins with {first}\n".encode()
    if held > count:
        return 1, b"", f"itchsnap: snapshot: {held} messages, more than {count}\n".encode()
    return 0, snapshots[count], b""


def joins_after_each_message_are_snapshots_of_the_day(program):
    with tempfile.TemporaryDirectory() as folder:
        folder_of_a_day(folder)
        snapshots = [snapped(folder, program, "--after", str(count)) for count in COUNTS]
        for held in COUNTS:
            (Path(folder) / "held.snap").write_bytes(snapshots[held])
            for first in range(1, len(DAY) + 2):
                for count in COUNTS:
                    got = ended_in(folder, program, "join", "held.snap", f"{first}.itch", "--from", str(first), "--after", str(count))
                    yield from differs((held, first, count), got, wanted_after(held, first, count, snapshots))


def joins_until_each_time_are_snapshots_of_the_day(program):
    with tempfile.TemporaryDirectory() as folder:
        folder_of_a_day(folder)
        for held in COUNTS:
            (Path(folder) / "held.snap").write_bytes(snapped(folder, program, "--after", str(held)))
            for time in range(11):
                late = next((number for number, it in enumerate(TIMES, 1) if it >= time), len(DAY) + 1)
                wanted = 0, snapped(folder, program, "--until", str(time)), b""
                if late <= held:
                    wanted = 1, b"", f"itchsnap: snapshot: message {late} is too late\n".encode()
                yield from differs((held, time), ended_in(folder, program, "join", "held.snap", "1.itch", "--until", str(time)), wanted)


def write_checkpoints(folder, program, counts):
    """Writes the snapshots after these numbers of messages into a folder of their own, with their index."""
    snapshots = Path(folder) / "snapshots"
    snapshots.mkdir(exist_ok=True)
    lines = []
    for count in counts:
        (snapshots / f"{count}.snap").write_bytes(snapped(folder, program, "--after", str(count)))
        time = TIMES[count - 1] if count else None
        offset = sum(map(len, DAY[:count]))
        lines.append(json.dumps({"messages": count, "offset": offset, "timestamp": time, "file": f"{count}.snap"}) + "\n")
    (snapshots / "index.jsonl").write_text("".join(lines))


def points():
    """Yields each point of the day, as the argument of `at` and as the options of `snap`."""
    for count in COUNTS:
        yield str(count), ("--after", str(count))
    for time in range(11):
        clock = f"00:00:00.{time:09}"
        yield clock, ("--until", clock)


def the_snapshot_at_each_point_is_that_of_the_day(program):
    with tempfile.TemporaryDirectory() as folder:
        folder_of_a_day(folder)
        day = (Path(folder) / "1.itch").read_bytes()
        for counts in ([], [3], [2, 5], [5, 2, 7], [0, len(DAY)]):
            write_checkpoints(folder, program, counts)
            for point, part in points():
                wanted = 0, snapped(folder, program, *part), b""
                yield from differs((counts, point), ended_in(folder, program, "at", "snapshots", "1.itch", point), wanted)
                piped = subprocess.run([program, "at", "snapshots", "-", point], cwd=folder, input=day, capture_output=True, timeout=60)
                yield from differs((counts, point, "standard input"), (piped.returncode, piped.stdout, piped.stderr), wanted)


def at_finds_a_time_where_timestamps_fall(program):
    with tempfile.TemporaryDirectory() as folder:
        (Path(folder) / "1.itch").write_bytes(file("START_STAMPED AAPL_LATE BUY_1_STAMPED BUY_7_OF_300"))
        (Path(folder) / "snapshots").mkdir()
        yield from differs("points", ended_in(folder, program, "snap", "1.itch", "--every", "1", "--to", "snapshots"), (0, b"", b""))
        for time in range(12):
            clock = f"00:00:00.{time:09}"
            wanted = 0, snapped(folder, program, "--until", clock), b""
            yield from differs(clock, ended_in(folder, program, "at", "snapshots", "1.itch", clock), wanted)


def at_reads_the_day_from_its_checkpoint_on(program):
    with tempfile.TemporaryDirectory() as folder:
        folder_of_a_day(folder)
        write_checkpoints(folder, program, [2, 5])
        read = sum(map(len, DAY[:5]))
        (Path(folder) / "rest.itch").write_bytes(bytes(read) + b"".join(DAY[5:]))
        for count in (5, 6, 7):
            wanted = 0, snapped(folder, program, "--after", str(count)), b""
            yield from differs(count, ended_in(folder, program, "at", "snapshots", "rest.itch", str(count)), wanted)
        yield from differs("from 2 on", ended_in(folder, program, "at", "snapshots", "rest.itch", "4"), (1, b"", b"itchsnap: only 2 messages\n  rest.itch: 4 messages are requested\n"))


def at_passes_over_lines_that_are_no_checkpoints(program):
    with tempfile.TemporaryDirectory() as folder:
        folder_of_a_day(folder)
        write_checkpoints(folder, program, [2])
        index = Path(folder) / "snapshots/index.jsonl"
        index.write_text('\n[]\n{"messages":3}\nno JSON\n' + index.read_text() + '{"messages":5,"off')
        wanted = 0, snapped(folder, program, "--after", "6"), b""
        yield from differs("after 6", ended_in(folder, program, "at", "snapshots", "1.itch", "6"), wanted)


def at_is_refused_as_join_is(program):
    with tempfile.TemporaryDirectory() as folder:
        folder_of_a_day(folder)
        def missing(name):
            return 3, b"", f"itchsnap: cannot open\n  snapshots/{name}: No such file or directory (os error 2)\n".encode()

        yield from differs("no folder", ended_in(folder, program, "at", "snapshots", "1.itch", "6"), missing("index.jsonl"))
        write_checkpoints(folder, program, [2])
        yield from differs("beyond the end", ended_in(folder, program, "at", "snapshots", "1.itch", "8"), (1, b"", b"itchsnap: only 7 messages\n  1.itch: 8 messages are requested\n"))
        for point in ("", "+1", "10:61", "x"):
            yield from differs(point, ended_in(folder, program, "at", "snapshots", "1.itch", point)[:2], (2, b""))
        (Path(folder) / "snapshots/2.snap").unlink()
        yield from differs("no snapshot", ended_in(folder, program, "at", "snapshots", "1.itch", "6"), missing("2.snap"))


RUNS = (
    joins_after_each_message_are_snapshots_of_the_day,
    joins_until_each_time_are_snapshots_of_the_day,
    the_snapshot_at_each_point_is_that_of_the_day,
    at_finds_a_time_where_timestamps_fall,
    at_reads_the_day_from_its_checkpoint_on,
    at_passes_over_lines_that_are_no_checkpoints,
    at_is_refused_as_join_is,
)
