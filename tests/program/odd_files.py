"""Unusual files: pipes, packed and unreadable files, a day file that disappears, closed standard streams, and an index with wrong numbers.

RUNS lists the runs: functions that take the program and yield the differences found.
"""
import contextlib
import gzip
import json
import os
import shutil
import subprocess
import threading

from calls import told_once
from common import differs, ended_in, file, split
from living import (ENDED, LOGIN, PATIENCE, WORDS, Feed, Running, acceptance, answer, connect, day_of, feeding, folder_with, packet, plays, received,
                    recorded, told)
from sessions import free_port
from standby import waits_for
from starts import nobody

DAY = file("START_STAMPED AAPL_STAMPED BUY_1_STAMPED BUY_7_OF_300 EXECUTE_7 CANCEL_7 AAPL_LATE")
POINTS = ["0", "2", "3", "6", "7", "00:00:00.000000004", "00:00:00.000000009"]


@contextlib.contextmanager
def checkpoints(program, every="2"):
    """Yields a folder with a day, and the folder `snapshots` with its snapshots."""
    with folder_with(day=DAY) as folder:
        (folder / "snapshots").mkdir()
        ended_in(folder, program, "snap", "day", "--every", every, "--to", "snapshots")
        yield folder


def snapped(folder, program, point):
    return ended_in(folder, program, "snap", "day", "--until" if ":" in point else "--after", point)


@contextlib.contextmanager
def piped(path, data):
    """Yields a pipe with this path, to which a thread writes these bytes."""
    os.mkfifo(path)
    with subprocess.Popen(["sh", "-c", 'cat >"$0"', path], stdin=subprocess.PIPE, process_group=0) as writer:
        with contextlib.suppress(BrokenPipeError):
            writer.stdin.write(data)
            writer.stdin.close()
        try:
            yield
        finally:
            writer.kill()
            path.unlink()


def at_reads_pipes_as_files(program):
    """The day, the index and a snapshot may be pipes. A pipe in place of the folder contains no index."""
    with checkpoints(program) as folder:
        for point in POINTS:
            with piped(folder / "feed", DAY):
                yield from differs(f"day, {point}", ended_in(folder, program, "at", "snapshots", "feed", point), snapped(folder, program, point))
        with piped(folder / "feed", DAY[:-1] + b"N" + DAY):
            got = ended_in(folder, program, "at", "snapshots", "feed", "2")
            yield from differs("more than the day", got, snapped(folder, program, "2"))
        with piped(folder / "feed", bytes(len(DAY))):
            status, output, error = ended_in(folder, program, "at", "snapshots", "feed", "6")
            yield from differs("another day", (status, output, error.splitlines()[:1]), (1, b"", [b"itchsnap: checkpoint: of another day"]))
        for name in "index.jsonl", "6.snap":
            path = folder / "snapshots" / name
            data = path.read_bytes()
            path.unlink()
            with piped(path, data):
                yield from differs(name, ended_in(folder, program, "at", "snapshots", "day", "6"), snapped(folder, program, "6"))
            path.write_bytes(data)
        os.mkfifo(folder / "pipe")
        error = b"itchsnap: cannot open\n  pipe/index.jsonl: Not a directory (os error 20)\n"
        yield from differs("the folder", ended_in(folder, program, "at", "pipe", "day", "6"), (3, b"", error))


def at_believes_no_offset_that_is_not_of_its_day(program):
    """The offset is that of another line, one byte less or more, missing, or beyond the end. It is refused, and nothing is written."""
    with checkpoints(program, "1") as folder:
        index = folder / "snapshots/index.jsonl"
        lines = [json.loads(it) for it in index.read_text().splitlines()]
        offsets = {it["offset"] for it in lines}
        for line in lines:
            wrong = {0, line["offset"] - 1, line["offset"] + 1, len(DAY) + 1, 2**63, 2**64 - 1, *offsets} - {line["offset"]}
            for offset in sorted(wrong):
                index.write_text(json.dumps({**line, "offset": offset}) + "\n")
                status, output, error = ended_in(folder, program, "at", "snapshots", "day", "7")
                if (status, output) != (1, b"") or not error.startswith(b"itchsnap: checkpoint: "):
                    yield f"{line['messages']} at {offset}: {status}, {output!r}, {error!r}"


def at_believes_no_number_that_is_not_of_its_file(program):
    """The number is that of another line, one more or less, missing, or the greatest possible; or the name is not quite that of the number's file,
    which does not exist. Such a line is skipped."""
    with checkpoints(program, "1") as folder:
        index = folder / "snapshots/index.jsonl"
        lines = [json.loads(it) for it in index.read_text().splitlines()]
        wanted = snapped(folder, program, "7")
        counts = {it["messages"] for it in lines}
        for line in lines:
            count = line["messages"]
            for wrong in sorted({0, count - 1, count + 1, 2**64 - 1, *counts} - {count}):
                index.write_text(json.dumps({**line, "messages": wrong}) + "\n")
                yield from differs(f"{count} as {wrong}", ended_in(folder, program, "at", "snapshots", "day", "7"), wanted)
        (folder / "snapshots/2.snap").unlink()
        for name in "", "2", "2.snap ", "02.snap", "+2.snap", "./2.snap", "2.SNAP", "2.snap.part", 2, None, ["2.snap"]:
            index.write_text(json.dumps({**lines[1], "file": name}) + "\n")
            yield from differs(f"file {name!r}", ended_in(folder, program, "at", "snapshots", "day", "7"), wanted)


def a_shell_takes_the_hint_for_a_packed_file(program):
    """Whatever the file is called."""
    day, _ = day_of(20)
    for name in ("day.itch.gz", "a day.gz", "it's 'a' day.gz", "$(day) \\`*`.gz", 'a "day".gz'):
        with folder_with(**{name: gzip.compress(day)}) as folder:
            status, _, error = ended_in(folder, program, "check", name)
            (folder / "itchsnap").symlink_to(program)
            hint = error.decode().split(": this is a gzip file: ")[-1]
            done = subprocess.run(["sh", "-c", f"PATH=.:$PATH; {hint}"], cwd=folder, capture_output=True, timeout=60)
            yield from differs(name, (status, done.returncode, done.stdout, done.stderr), (1, 0, b"ok 40 messages\n", b""))


def a_record_that_may_not_be_read_stays_as_it_is(program):
    """The record may only be appended to, or only be read, or its session file may not be read. The feed is not contacted."""
    day, _ = day_of(20)
    kept = b"".join(split(day)[:5])
    for name, mode in (("record", 0o222), ("record", 0o444), ("record", 0), ("record.session", 0)):
        with folder_with(**recorded(kept)) as folder, Feed(plays(day, then=ENDED)) as feed:
            shutil.copy(program, folder / "itchsnap")
            folder.chmod(0o755)
            (folder / "record").chmod(0o666)
            (folder / name).chmod(mode)
            words = "live", "--feed", f"127.0.0.1:{feed.port}", "--port", "0", *WORDS, "--record", "record"
            status, output, error = ended_in(folder, *nobody(), folder / "itchsnap", *words)
            lines = error.decode().splitlines()
            ending = f"\n  {name}: Permission denied (os error 13)\n"
            if (status, output, lines[:1]) != (3, b"", ["itchsnap: cannot open"]) or not error.endswith(ending.encode()):
                yield f"{name} of mode {mode:o}: {status}, {output!r}, {error!r}"
            yield from differs(f"{name} of mode {mode:o}", ((folder / "record").read_bytes() == kept, feed.asked()), (True, []))


def a_day_file_that_goes_away_is_played_to_those_who_have_it(program):
    """A client that connected before the file was removed receives all of it, and a later one nothing, until the file exists again. If the file is
    shorter by then, clients receive its contents."""
    day, _ = day_of(20)
    blocks = split(day)
    whole = acceptance(1) + b"".join(map(packet, blocks)) + ENDED
    with folder_with(day=day) as folder, feeding(program, folder / "day", "--rate", "40") as server:
        with connect(server.port) as early:
            early.sendall(LOGIN)
            begun = received(early, len(acceptance(1)))
            (folder / "day").rename(folder / "gone")
            yield from differs("while it is gone", told(server.port, LOGIN) in (b"", b"reset"), True)
            yield from differs("who came before", begun + received(early) == whole, True)
        (folder / "day").write_bytes(b"".join(blocks[:9]))
        less = told(server.port, LOGIN)
        yield from differs("one that is shorter", whole.startswith(less) and ENDED not in less, True)
        (folder / "gone").replace(folder / "day")
        yield from differs("once it is there again", told(server.port, LOGIN) == whole, True)
        server.has_lines(4)
        endings = sorted(it.split(": ")[1] for it in b"".join(server.output).decode().splitlines())
        yield from differs("endings", endings, [f"accepted from 1, {len(blocks)} packets"] * 2 + ["fault"] * 2)


def no_file_takes_the_place_of_a_closed_stream(program):
    """If standard output or standard error is closed at the start, its lines go nowhere, and not into the record: the lines about clients, or those
    on the state of the feed. The other stream is a file. If it were a pipe, the program would open something else before the record."""
    day, wanted = day_of(20)
    for closed, begins in ("2>&-", b"connection 1: "), (">&-", b"listening on "):
        end, port = threading.Event(), free_port()
        with folder_with() as folder, Feed(plays(day, wait=end, held=ENDED)) as feed, open(folder / "lines", "wb") as lines:
            words = "--feed", f"127.0.0.1:{feed.port}", "--port", str(port), *WORDS, "--record", "record"
            command = "sh", "-c", f'exec "$0" "$@" {closed}', program, "live", *words
            with subprocess.Popen(command, cwd=folder, stdin=subprocess.DEVNULL, stdout=lines, stderr=lines) as server:
                waits_for(lambda: told_once(port) == answer(wanted))
                end.set()
                status = server.wait(PATIENCE)
            yield from differs(closed, (status, (folder / "record").read_bytes() == day), (0, True))
            yield from differs(f"{closed}: the session", (folder / "record.session").read_text().splitlines()[:1], ["ITCHSNAP"])
            yield from differs(f"{closed}: the other stream", (folder / "lines").read_bytes()[:len(begins)], begins)


def refused_to_play(folder, program, file, **streams):
    """Returns how `feed` of a file ended."""
    words = "--port", "0", *WORDS
    done = subprocess.run([program, "feed", file, *words], cwd=folder, capture_output=True, timeout=10, **streams)
    return done.returncode, done.stdout, done.stderr


def a_file_that_can_be_read_only_once_is_not_played(program):
    """A pipe that nobody writes to, a pipe with a day, standard input that is a pipe, and a device. Each is refused before the program listens."""
    def refusal(name):
        return 3, b"", f"itchsnap: cannot open\n  {name}: seek on unseekable file\n".encode()

    with folder_with() as folder:
        os.mkfifo(folder / "silent")
        got = refused_to_play(folder, program, "silent", stdin=subprocess.DEVNULL)
        yield from differs("a pipe that nobody writes to", got, refusal("silent"))
        with piped(folder / "pipe", DAY):
            got = refused_to_play(folder, program, "pipe", stdin=subprocess.DEVNULL)
            yield from differs("a pipe", got, refusal("pipe"))
        yield from differs("standard input", refused_to_play(folder, program, "/dev/stdin", input=DAY), refusal("/dev/stdin"))
        yield from differs("a device", refused_to_play(folder, program, "/dev/null", stdin=subprocess.DEVNULL), refusal("/dev/null"))


def a_file_is_played_as_standard_input_too(program):
    """Each client receives all of it: it is opened by the system's path for standard input."""
    day, _ = day_of(20)
    whole = acceptance(1) + b"".join(map(packet, split(day))) + ENDED
    words = "--port", "0", "--session", "ITCHSNAP", *WORDS
    with folder_with(day=day) as folder:
        command = "sh", "-c", 'day=$1; shift; exec "$0" "$@" <"$day"', program, folder / "day", "feed", "/dev/stdin", *words
        with Running(*command) as server:
            yield from differs("told", [told(server.port, LOGIN) == whole for _ in range(2)], [True] * 2)


RUNS = [
    at_reads_pipes_as_files,
    at_believes_no_offset_that_is_not_of_its_day,
    at_believes_no_number_that_is_not_of_its_file,
    a_shell_takes_the_hint_for_a_packed_file,
    a_record_that_may_not_be_read_stays_as_it_is,
    no_file_takes_the_place_of_a_closed_stream,
    a_file_that_can_be_read_only_once_is_not_played,
    a_file_is_played_as_standard_input_too,
    a_day_file_that_goes_away_is_played_to_those_who_have_it,
]
