"""Jobs of one day: their results, when a result is made again, and days that are refused or cannot be read.

RUNS lists the runs: functions that take a folder and yield the differences found.
"""
import contextlib
import gzip
import hashlib
import os
import shutil
import signal
import subprocess
import time
import zlib

import failing
import kit
import large
from common import differs, file, split
from kit import JOB, PROGRAM, REFUSAL, REFUSED_DAY, Ended, Watched, attempts, bytes_of, job, manifest, runs_on, wait_until, write_day

A_DAY = 24 * 60 * 60
EVENT_C = file("000c530000000000000000000043")


def snapshots(out, *words):
    return job("snapshots", "--out", out, *words)


def results_are_what_the_program_writes(folder):
    day, snapshot = large.orders(1000, symbols=20)
    for suffix in "", ".gz", ".zst":
        path = write_day(folder / f"day.itch{suffix}", day)
        out = folder / f"out{suffix}"
        points = "after-300", "end", "after-0", "until-00-00-01.5"
        got = snapshots(out, "--points", "300,end,0,00:00:01.5", path)
        yield from differs(f"lines of {path.name}", got, Ended(0, "".join(f"made day/{point}.snap\n" for point in points), ""))
        wanted = dict(zip(points, (kit.program("snap", "--after", "300", folder / "day.itch"), snapshot, large.closing(1), snapshot)))
        yield from differs(f"files of {path.name}", {point: bytes_of(out / f"day/{point}.snap") for point in points}, wanted)
        yield from differs(f"attempts left of {path.name}", attempts(out), [])


def a_manifest_says_what_a_result_is_made_of(folder):
    day = write_day(folder / "20260102.itch.gz", large.orders(50, symbols=5)[0])
    snapshots(folder / "out", "--points", "40", "--part", "1-3", day)
    result = folder / "out/20260102/after-40.1-3.snap"
    found = day.stat()
    version = kit.program("--version").decode().strip()
    of_program = {"version": version, "sha256": hashlib.sha256(PROGRAM.read_bytes()).hexdigest()}
    of_day = {"file": "20260102.itch.gz", "bytes": found.st_size, "modified_ns": found.st_mtime_ns}
    written = kit.program("snap", "--after", "40", "--only", "1-3", write_day(folder / "plain.itch", gzip.decompress(day.read_bytes())))
    wanted = {"made_of": {"day": of_day, "program": of_program, "kind": "snapshot", "point": "40", "part": "1-3"},
              "result": {"bytes": len(written), "sha256": hashlib.sha256(written).hexdigest()}}
    yield from differs("manifest", manifest(result), wanted)
    yield from differs("result", bytes_of(result), written)


def what_is_there_is_not_made_again(folder):
    watched = Watched(folder)
    words = "--program", watched.path, write_day(folder / "day.itch", large.orders(50, symbols=5)[0])
    snapshots(folder / "out", "--points", "10", *words)
    before = {path: path.stat() for path in (folder / "out/day").iterdir()}
    watched.forget()
    got = snapshots(folder / "out", "--points", "10,20,end", *words)
    yield from differs("lines", got, Ended(0, "found day/after-10.snap\nmade day/after-20.snap\nmade day/end.snap\n", ""))
    yield from differs("runs", watched.runs(), [f"snap --after 20 {words[-1]}", f"snap {words[-1]}"])
    for path, stat in before.items():
        if path.stat().st_ino != stat.st_ino:
            yield f"{path.name} was put in place once more"


def points_of_one_kind_are_one_pass(folder):
    watched = Watched(folder)
    data, plain = large.orders(1000, symbols=20)[0], folder / "plain.itch"
    plain.write_bytes(data)
    # The times are out of order, two have the same messages, and one is before the first message.
    points = "end", "700", "00:00:00.000000500", "3", "23:00", "00:00", "00:00:00.000000100", "23:59", "0"
    for suffix, part in ("", None), ("", "3-7"), (".gz", None):
        day, out, run = write_day(folder / f"day.itch{suffix}", data), folder / f"out-{part}{suffix}", f"{part}{suffix}"
        status, _, _ = snapshots(out, "--program", watched.path, "--points", ",".join(points), *(["--part", part] if part else []), day)
        yield from differs(f"status of {run}", status, 0)
        runs = [it.split(" --to ")[0] for it in watched.runs()]
        yield from differs(f"runs of {run}", runs[:2],
                           ["snap --after 0,3,700", "snap --until 00:00,00:00:00.000000100,00:00:00.000000500,23:00,23:59"])
        yield from differs(f"number of runs of {run}", len(runs), 3)
        watched.forget()
        for point in points:
            limit = [] if point == "end" else ["--until" if ":" in point else "--after", point]
            name = "-".join([*limit, *([] if limit else ["end"])]).removeprefix("--").replace(":", "-") + (f".{part}" if part else "")
            yield from differs(f"{point} of {run}", bytes_of(out / f"day/{name}.snap"),
                               kit.program("snap", *limit, *(["--only", part] if part else []), plain))


def times_have_fractions_of_any_length(folder):
    """In one pass over several times. There is a message every millisecond."""
    blocks = split(large.orders(30, symbols=5)[0])
    data = b"".join(it[:7] + (number * 10**6).to_bytes(6, "big") + it[13:] for number, it in enumerate(blocks))
    day, points = write_day(folder / "day.itch", data), ("00:00:00.01", "00:00:00.0205", "00:00:01")
    yield from differs("ended", snapshots(folder / "out", "--points", ",".join(points), day).status, 0)
    for point in points:
        found = bytes_of(folder / f"out/day/until-{point.replace(':', '-')}.snap")
        yield from differs(point, found, kit.program("snap", "--until", point, folder / "day.itch"))


def what_is_not_on_the_disk_is_not_there(folder):
    """If a result or its manifest cannot be synced, the job fails, and the next job makes it."""
    shim = failing.build_shim(folder)
    day, out = write_day(folder / "day.itch", large.orders(50, symbols=5)[0]), folder / "out"
    for nth in 1, 2:
        environment = {**os.environ, "LD_PRELOAD": str(shim), "FAIL": f"sync:{nth}"}
        done = subprocess.run([JOB, "snapshots", "--out", out, day], env=environment, capture_output=True, text=True, timeout=60)
        yield from differs(f"sync {nth}", (done.returncode, done.stdout, done.stderr.count("\n")), (3, "", 1))
        yield from differs(f"sync {nth}", job("report", "--out", out, day).output, "missing day/end.snap\n1 results, 0 refused, 1 missing\n")
    yield from differs("again", snapshots(out, day), Ended(0, "made day/end.snap\n", ""))


# Changes to the text of a manifest.
CHANGES = {
    "without a result": ('"result"', '"other"'),
    "without a size": ('"result": {', '"result": 7, "other": {'),
    "of another size": ('"bytes": ', '"bytes": 1'),
    "of other bytes": (',\n  "sha256": "', ',\n  "sha256": "0'),
    "without a SHA-256": (',\n  "sha256"', ',\n  "sha512"'),
    "of another day": ("day.itch", "other.itch"),
    "of another point": ('"end"', '"7"'),
    "of another part": ('"part": null', '"part": "1-9"'),
}


def harmed(result):
    """Yields ways to damage a result or its manifest, each with a function that does it."""
    beside = result.with_name(f"{result.name}.json")
    whole, told = result.read_bytes(), beside.read_text()
    middle = len(whole) // 2
    yield "a byte changed", lambda: result.write_bytes(whole[:middle] + bytes([whole[middle] ^ 1]) + whole[middle + 1:])
    yield "cut", lambda: result.write_bytes(whole[:-1])
    yield "empty", lambda: result.write_bytes(b"")
    yield "gone", result.unlink
    yield "a manifest gone", beside.unlink
    for label, text in ("cut", told[:-9]), ("empty", ""), ("a list", "[]"), ("a number", "7"), ("no text", "\0"), ("of nothing", "{}"):
        yield f"a manifest, {label}", lambda text=text: beside.write_text(text)
    for label, (old, new) in CHANGES.items():
        yield f"a manifest {label}", lambda old=old, new=new: beside.write_text(told.replace(old, new))


def what_is_harmed_is_made_again(folder):
    data, snapshot = large.orders(300, symbols=20)
    day, out = write_day(folder / "day.itch", data), folder / "out"
    snapshots(out, day)
    result = out / "day/end.snap"
    told = manifest(result)
    for label, harm in harmed(result):
        harm()
        got = snapshots(out, day)
        yield from differs(f"lines after {label}", got, Ended(0, "made day/end.snap\n", ""))
        yield from differs(f"result after {label}", (bytes_of(result), manifest(result)), (snapshot, told))


def another_day_or_program_makes_it_again(folder):
    (data, _), (other, snapshot) = large.orders(50, symbols=5), large.orders(50, symbols=5, seed=2)
    day, out = write_day(folder / "day.itch", data), folder / "out"
    snapshots(out, day)
    found = day.stat()
    os.utime(write_day(day, other), ns=(found.st_atime_ns, found.st_mtime_ns + 1))
    yield from differs("lines of another day of the same size", snapshots(out, day), Ended(0, "made day/end.snap\n", ""))
    yield from differs("its result", bytes_of(out / "day/end.snap"), snapshot)
    changed = folder / "itchsnap"
    changed.write_bytes(PROGRAM.read_bytes() + b"\0")
    changed.chmod(0o755)
    got = snapshots(out, "--program", changed, day)
    yield from differs("lines of another program", got, Ended(0, "made day/end.snap\n", ""))
    day.write_bytes(REFUSED_DAY)
    yield from differs("lines of a day that is now refused", snapshots(out, day), Ended(0, f"refused day/end.snap: {REFUSAL}\n", ""))
    yield from differs("its result", bytes_of(out / "day/end.snap"), None)


def a_refused_day_is_an_answer(folder):
    watched = Watched(folder)
    # The rest is larger than a pipe's buffer, so the decompressor is ended by SIGPIPE.
    rest = large.orders(20000, symbols=5)[0]
    for suffix in "", ".gz", ".zst":
        day, out = write_day(folder / f"day.itch{suffix}", REFUSED_DAY + rest), folder / f"out{suffix}"
        line = f"refused day/end.snap: {REFUSAL}\n"
        yield from differs(f"lines of {day.name}", snapshots(out, "--program", watched.path, "--points", "1,end", day),
                           Ended(0, f"made day/after-1.snap\n{line}", ""))
        yield from differs(f"manifest of {day.name}", manifest(out / "day/end.snap").get("refused"), REFUSAL)
        watched.forget()
        yield from differs(f"lines of {day.name} again", snapshots(out, "--program", watched.path, day), Ended(0, line, ""))
        yield from differs(f"runs for {day.name} again", watched.runs(), [])


def a_point_beyond_the_end_is_refused_alone(folder):
    day = write_day(folder / "day.itch", large.orders(5, symbols=5)[0])
    got = snapshots(folder / "out", "--points", "11,10", day)
    yield from differs("lines", got, Ended(0, "refused day/after-11.snap: only 10 messages\nmade day/after-10.snap\n", ""))


def a_day_without_messages_is_refused(folder):
    day, end = large.orders(5, symbols=5)[0], b"\0\0"
    for name, data in ("day.itch", b""), ("day.itch.gz", b""), ("day.itch.zst", b""), ("day.itch", end), ("day.itch.gz", end + day):
        out = folder / "out"
        path = write_day(folder / name, data)
        for words, results in ((("snapshots", "--points", "0,end,10:30"), ("after-0.snap", "end.snap", "until-10-30.snap")),
                               (("snapshots", "--part", "0-9"), ("end.0-9.snap",)), (("check",), ("check.txt",)),
                               (("check", "--ended"), ("check-ended.txt",)), (("tables",), ("end.csv",))):
            got = job(*words, "--out", out, path)
            lines = "".join(f"refused day/{result}: no messages\n" for result in results)
            yield from differs(f"lines of {name}, {len(data)} bytes, {words}", got, Ended(0, lines, ""))
        yield from differs(f"files of {name}, {len(data)} bytes", [*(out / "day").glob("*.snap"), *attempts(out)], [])
        got = job("report", "--out", out, "--ended", path)
        lines = "refused day/end.snap: no messages\nrefused day/check-ended.txt: no messages\n2 results, 2 refused, 0 missing\n"
        yield from differs(f"the report of {name}, {len(data)} bytes", got, Ended(1, lines, ""))
        write_day(path, day)
        yield from differs(f"lines of {name} with messages", snapshots(out, path), Ended(0, "made day/end.snap\n", ""))
        shutil.rmtree(out)


def cut_between_messages(data, messages):
    """The .gz is cut, but the part that can be decompressed consists of complete messages."""
    packer = zlib.compressobj(wbits=31)
    return packer.compress(messages) + packer.flush(zlib.Z_FULL_FLUSH), packer.compress(data[len(messages):]) + packer.flush()


def a_cut_day_is_a_failure_until_it_is_whole(folder):
    data, snapshot = large.orders(3000, symbols=20)
    begun, rest = cut_between_messages(data, b"".join(large.entry(locate) for locate in range(1, 21)))
    bad_sum = gzip.compress(data)[:-8] + bytes(8)
    whole_zst = subprocess.run(["zstd", "-qc"], input=data, capture_output=True, check=True).stdout
    # The output of the first command looks like a day to the program, so the pipeline must pass the failure on.
    seen = subprocess.run(["bash", "-c", f"gzip -dc | {PROGRAM} check"], input=begun, capture_output=True).stdout
    yield from differs("the program over a cut .gz", seen, b"ok 20 messages\n")
    for name, cut, whole in (("one.gz", begun, begun + rest), ("two.gz", gzip.compress(data)[:-9], gzip.compress(data)),
                             ("three.gz", bad_sum, gzip.compress(data)), ("four.gz", b"no gzip file", gzip.compress(data)),
                             ("five.zst", whole_zst[:-5], whole_zst), ("six.zst", whole_zst[:len(whole_zst) // 2], whole_zst)):
        day, out = folder / name, folder / "out"
        day.write_bytes(cut)
        status, output, error = snapshots(out, "--points", "end", day)
        if (status, output) != (3, "") or f"{name} is not read to its end" not in error or error.count("\n") != 1:
            yield f"{name}, cut: {status}, {output!r}, {error!r}"
        yield from differs(f"files of {name}, cut", list((out / day.stem).iterdir()), [])
        day.write_bytes(whole)
        yield from differs(f"lines of {name}, whole", snapshots(out, day), Ended(0, f"made {day.stem}/end.snap\n", ""))
        yield from differs(f"result of {name}, whole", bytes_of(out / day.stem / "end.snap"), snapshot)


def failures_leave_nothing(folder):
    day, out = write_day(folder / "day.itch", large.orders(50, symbols=5)[0]), folder / "out"
    for ending, said in (("exit 3", "the program ended with 3: read failed"), ("exit 4", "the program ended with 4: read failed"),
                         ("exit 2", "the program ended with 2: read failed"), ("kill -KILL $$", "the program was ended by signal 9"),
                         (f"touch -d @7 {day}; exit 0", "day.itch was changed while it was read")):
        failing = folder / "failing"
        failing.write_text(f'#!/bin/bash\n[[ $1 != --version ]] || exec {PROGRAM} --version\n{PROGRAM} "$@"\n'
                           f'echo "itchsnap: read failed" >&2\n{ending}\n')
        failing.chmod(0o755)
        got = snapshots(out, "--program", failing, day)
        yield from differs(f"lines where it does {ending}", got, Ended(3, "", f"job: day/end.snap: {said}\n"))
        yield from differs(f"files where it does {ending}", list((out / "day").iterdir()), [])
    for label, words in (("a day", (folder / "no day",)), ("a program", ("--program", folder / "no program", day))):
        status, output, error = snapshots(out, *words)
        if (status, output) != (3, "") or "No such file" not in error:
            yield f"without {label}: {status}, {output!r}, {error!r}"
    # There are no decompressors: this PATH contains only Python.
    (folder / "bin").mkdir()
    (folder / "bin/python3").symlink_to(shutil.which("python3"))
    packed = write_day(folder / "packed.itch.zst", b"")
    done = subprocess.run([shutil.which("python3"), JOB, "snapshots", "--out", out, packed], env={"PATH": str(folder / "bin")},
                          capture_output=True, text=True)
    yield from differs("without zstd", (done.returncode, done.stderr), (3, "job: packed/end.snap: zstd: No such file or directory\n"))


def the_other_points_are_made_where_one_fails(folder):
    data, _ = large.orders(20000, symbols=20)
    day = folder / "day.gz"
    day.write_bytes(gzip.compress(data)[:-9])
    status, output, error = snapshots(folder / "out", "--points", "end,10", day)
    if (status, output) != (3, "made day/after-10.snap\n") or not error.startswith("job: day/end.snap: day.gz is not read"):
        yield f"{status}, {output!r}, {error!r}"


@contextlib.contextmanager
def held_job(folder, *before, after=()):
    """Yields a job that is stopped in the middle, with its watched program, the process numbers of both, and the snapshot that it should
    make."""
    watched = Watched(folder)
    data, snapshot = large.orders(300, symbols=20)
    day = write_day(folder / "day.itch.gz", data)
    watched.hold()
    words = [*before, JOB, *after, "snapshots", "--out", folder / "out", "--program", watched.path, day]
    with kit.started(words, stdout=subprocess.DEVNULL, stderr=subprocess.DEVNULL) as process:
        yield watched, process, watched.held(), snapshot


def there(folder):
    """Returns the results in a folder, without those of attempts."""
    return sorted(path.name for path in (folder / "out/day").iterdir() if not path.name.startswith("."))


def a_killed_job_leaves_no_result_and_no_program(folder):
    for number, (sent, left) in enumerate(((signal.SIGKILL, 1), (signal.SIGTERM, 0))):
        room = folder / str(number)
        room.mkdir()
        with held_job(room) as (watched, process, (program, _), snapshot):
            process.send_signal(sent)
            process.wait()
            wait_until(lambda: not runs_on(program), "the program of a killed job has ended")
            yield from differs(f"files after signal {sent}", there(room), [])
            yield from differs(f"attempts after signal {sent}", len(attempts(room / "out")), left)
            watched.release()
            got = snapshots(room / "out", "--program", watched.path, room / "day.itch.gz")
            yield from differs(f"lines after signal {sent}", got, Ended(0, "made day/end.snap\n", ""))
            yield from differs(f"result after signal {sent}", bytes_of(room / "out/day/end.snap"), snapshot)


def a_job_ends_with_its_parent_where_that_is_asked_for(folder):
    for words, ends in ((("--with-parent",), True), ((), False)):
        room = folder / str(ends)
        room.mkdir()
        # The shell has a command after the job, so that it remains the job's parent.
        with held_job(room, "bash", "-c", '"$@"; true', "bash", after=words) as (watched, process, (program, number), _):
            process.kill()
            process.wait()
            if ends:
                wait_until(lambda: not runs_on(number) and not runs_on(program), "the job has ended with its parent")
                yield from differs("files", there(room), [])
            watched.release()
            if not ends:
                wait_until(lambda: not runs_on(number), "the job is done without its parent")
                yield from differs("files without its parent", there(room), ["end.snap", "end.snap.json"])


def attempts_of_killed_jobs_are_removed_after_a_day(folder):
    day, out = write_day(folder / "day.itch", large.orders(50, symbols=5)[0]), folder / "out"
    young, old = out / "day/.attempt-young", out / "day/.attempt-old"
    for left in young, old:
        left.mkdir(parents=True)
        (left / "end.snap").write_bytes(b"torn")
    os.utime(old, (time.time() - A_DAY - 60,) * 2)
    os.utime(young, (time.time() - A_DAY + 600,) * 2)
    snapshots(out, day)
    yield from differs("attempts", attempts(out), [young])


def checks_count_and_ask_for_the_end(folder):
    data = large.orders(5, symbols=5)[0]
    for label, day, words, line in (("plain", data, (), "made day/check.txt"),
                                    ("ended", data + EVENT_C, ("--ended",), "made day/check-ended.txt"),
                                    ("not ended", data, ("--ended",), "refused day/check-ended.txt: no end of messages"),
                                    ("of 10", data, ("--expect", 10), "made day/check-expect-10.txt"),
                                    ("of 11", data, ("--expect", 11), "refused day/check-expect-11.txt: only 10 messages")):
        room = folder / label
        room.mkdir()
        path = write_day(room / "day.itch.zst", day)
        yield from differs(f"lines, {label}", job("check", "--out", room, *words, path), Ended(0, f"{line}\n", ""))
        if line.startswith("made"):
            count = 11 if label == "ended" else 10
            yield from differs(f"count, {label}", bytes_of(room / line.split()[1]), b"ok %d messages\n" % count)


RUNS = [
    results_are_what_the_program_writes,
    a_manifest_says_what_a_result_is_made_of,
    what_is_there_is_not_made_again,
    what_is_harmed_is_made_again,
    another_day_or_program_makes_it_again,
    a_refused_day_is_an_answer,
    a_point_beyond_the_end_is_refused_alone,
    a_day_without_messages_is_refused,
    a_cut_day_is_a_failure_until_it_is_whole,
    failures_leave_nothing,
    points_of_one_kind_are_one_pass,
    times_have_fractions_of_any_length,
    what_is_not_on_the_disk_is_not_there,
    the_other_points_are_made_where_one_fails,
    a_killed_job_leaves_no_result_and_no_program,
    a_job_ends_with_its_parent_where_that_is_asked_for,
    attempts_of_killed_jobs_are_removed_after_a_day,
    checks_count_and_ask_for_the_end,
]
