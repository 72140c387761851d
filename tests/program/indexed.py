"""`index`, and `show` and `cut` with `--index`: the output is that without an index, and an index that does not fit is refused.

RUNS lists the runs. Each is a function that is given the program and yields the differences.
"""
import contextlib
import gzip
import hashlib
import json
import os
import random
import subprocess
import tempfile
import time
from pathlib import Path

import failing
import large
from common import differs, ended_in
from infos import RandomDay
from odd_files import piped
from ranges import Range, blocks_of, time_of

ROW = 65_536
DAYS = 120
WAYS = 8
ENTRY = bytes.fromhex("514e000000644e435a20504e4e314e000000004e")
FORMS = ([], ["--names"], ["--json"], ["--csv", "--types", "A"], ["--orders"], ["--orders", "--csv"], ["--types", "AEDU"], ["--types", "R"])
FILTERS = ([], [], ["--only", "0-7"], ["--stock", "AAPL"], ["--stock", "MSFT,BRK.A"], ["--stock", "NONE"], ["--only", "1,,2"])


def reference_of(payload):
    return int.from_bytes(payload[11:19], "big") if payload[:1] in b"AFECXDU" else None


def digits(data):
    return hashlib.sha256(data).hexdigest()[:16]


def index_of(payloads, counts):
    """The index of these payloads with a row after each of these numbers of them, as FORMATS describes it."""
    day, lines, before = blocks_of(payloads), [], 0
    for count in sorted({*counts} - {0}):
        lines += [{"directory": it.hex()} for it in payloads[before:count] if it[:1] == b"R"]
        passed = day[:sum(len(it) + 2 for it in payloads[:count])]
        times = [time_of(it) for it in payloads[:count]]
        lines.append({"messages": count, "offset": len(passed), "timestamp": max((it for it in times if it is not None), default=None),
                      "first": digits(passed[:65_536]), "last": digits(passed[-256:])})
        before = count
    text = "".join(json.dumps(it, separators=(",", ":")) + "\n" for it in lines).encode()
    return text + json.dumps({"end": digits(text)}, separators=(",", ":")).encode() + b"\n"


def timed_day(count, seed=1):
    """Payloads of a day whose timestamps go up and down, with a directory entry now and then."""
    rng = random.Random(seed)
    payloads = []
    for at in range(count):
        stamp = bytes(2) + max(0, at * 1000 + rng.randrange(-5000, 5000)).to_bytes(6, "big")
        if at % 9973 < 2:
            payloads.append(b"R" + (at % 9973 + 1).to_bytes(2, "big") + stamp + b"S%07d" % (at // 9973) + ENTRY)
        else:
            payloads.append(b"D" + rng.randrange(1, 4).to_bytes(2, "big") + stamp + at.to_bytes(8, "big"))
    return payloads


@contextlib.contextmanager
def folder_of(day, index=None):
    with tempfile.TemporaryDirectory() as name:
        folder = Path(name)
        (folder / "day.itch").write_bytes(day)
        if index is not None:
            (folder / "day.idx").write_bytes(index)
        yield folder


def both(folder, program, label, *words):
    """What differs between a command with the index and without."""
    yield from differs(label, ended_in(folder, program, *words, "--index", "day.idx"), ended_in(folder, program, *words))


def rows_of(rng, payloads):
    """The numbers of messages of some rows."""
    return [rng.randrange(len(payloads) + 1) for _ in range(rng.randrange(1, 9))] if payloads else []


def ways(rng, payloads):
    """Some commands over a day, with ranges and filters."""
    references = [it for it in map(reference_of, payloads) if it is not None] or [1]
    for _ in range(WAYS):
        span = Range(rng, payloads).words if payloads else ["--from", "1"]
        filters = rng.choice(FILTERS)
        if rng.random() < 0.3:
            yield ["cut", "day.itch", *span, *filters, *rng.choice(([], ["--types", "AEU"]))]
            continue
        form = rng.choice(FORMS)
        if rng.random() < 0.3:
            filters = [*filters, "--reference", str(rng.choice(references)), *rng.choice(([], ["--history"]))]
        yield ["show", "day.itch", *span, *form, *filters]


def output_with_an_index_is_that_without(program):
    for seed in range(DAYS):
        payloads, rng = RandomDay(seed).payloads, random.Random(seed)
        with folder_of(blocks_of(payloads), index_of(payloads, rows_of(rng, payloads))) as folder:
            for words in ways(rng, payloads):
                yield from both(folder, program, f"seed {seed}: {words}", *words)


def a_fault_behind_the_covered_part_stays_the_same(program):
    """Behind the last row the day is cut within a block, has a payload that is not a message, or ends with an empty block; or it has grown."""
    for seed in range(DAYS):
        payloads, rng = RandomDay(seed).payloads, random.Random(seed + 1000)
        covered = rng.randrange(len(payloads) + 1)
        index = index_of(payloads[:covered], [*rows_of(rng, payloads[:covered]), covered])
        day = blocks_of(payloads)
        kept = len(blocks_of(payloads[:covered]))
        for label, changed in (
            ("cut", day[:rng.randrange(kept, len(day) + 1)]),
            ("bad", day + b"\0\x05AAAAA" + day),
            ("empty", day[:kept] + b"\0\0" + day[kept:]),
            ("grown", day + day),
        ):
            with folder_of(changed, index) as folder:
                for words in ways(rng, payloads):
                    yield from both(folder, program, f"seed {seed}, {label}: {words}", *words)


def cut_with_an_index_writes_the_same_file(program):
    for seed in range(20):
        payloads, rng = RandomDay(seed).payloads, random.Random(seed)
        with folder_of(blocks_of(payloads), index_of(payloads, rows_of(rng, payloads))) as folder:
            words = ["cut", "day.itch", "--from", str(len(payloads) // 2 + 1)]
            for name, more in (("one.itch", []), ("other.itch", ["--index", "day.idx"])):
                yield from differs(f"seed {seed}: {name}", ended_in(folder, program, *words, *more, "--output", name), (0, b"", b""))
            one, other = ((folder / it).read_bytes() for it in ("one.itch", "other.itch"))
            yield from differs(f"seed {seed}", other, one)
            yield from differs(f"seed {seed}: left", sorted(os.listdir(folder)), ["day.idx", "day.itch", "one.itch", "other.itch"])


def an_index_has_a_row_for_every_65536_messages(program):
    payloads = timed_day(3 * ROW + 10)
    times = [time_of(it) for it in payloads]
    middle = max(times) // 2
    with folder_of(blocks_of(payloads)) as folder:
        for words, count in (([], len(payloads)), (["--after", str(2 * ROW)], 2 * ROW), (["--after", "5"], 5), (["--after", "0"], 0),
                             (["--until", str(middle)], next(at for at, it in enumerate(times) if it >= middle))):
            wanted = index_of(payloads[:count], [*range(ROW, count, ROW), count])
            yield from differs(f"index {words}", ended_in(folder, program, "index", "day.itch", *words), (0, wanted, b""))
            ending = ended_in(folder, program, "index", "day.itch", *words, "--output", "day.idx")
            yield from differs(f"index {words} --output", ending, (0, b"", b""))
            yield from differs(f"file {words}", (folder / "day.idx").read_bytes(), wanted)
            yield from differs(f"left {words}", sorted(os.listdir(folder)), ["day.idx", "day.itch"])
        ended_in(folder, program, "index", "day.itch", "--output", "day.idx")
        for number in (1, ROW, ROW + 1, ROW + 2, 2 * ROW + 1, 3 * ROW, 3 * ROW + 11):
            for more in ([], ["--stock", "S0000007"], ["--stock", "S0000003,S0000019"], ["--stock", "NONE"], ["--only", "1"], ["--orders"]):
                span = ["--from", str(number), "--after", str(min(number + 50, len(payloads)))]
                yield from both(folder, program, f"{number} {more}", "show", "day.itch", *span, *more)
        for at in (0, ROW - 1, ROW, 2 * ROW + 7):
            words = ["--since", str(times[at]), "--until", str(times[at] + 20_000)]
            yield from both(folder, program, str(words), "show", "day.itch", *words)


def a_refused_day_has_no_index(program):
    payloads = RandomDay(3).payloads
    day = blocks_of(payloads)
    for label, changed, words in (("cut", day[:-1], []), ("bad", day + b"\0\x05AAAAA", []), ("short", day, ["--after", str(len(payloads) + 1)])):
        with folder_of(changed) as folder:
            shown = ended_in(folder, program, "show", "day.itch", *words)
            status, output, error = ended_in(folder, program, "index", "day.itch", *words, "--output", "day.idx")
            yield from differs(label, (status, output, error), (1, b"", shown[2]))
            yield from differs(f"{label}: left", os.listdir(folder), ["day.itch"])


def unfit(line, detail):
    return 1, b"", f"itchsnap: index: {line}\n  {detail}\n".encode()


OTHER_DAY = unfit("of another day", "day.idx: it is of another day file than day.itch")
BEYOND = unfit("beyond the end of the file", "day.itch: it ends before the last message of day.idx")
INVALID = unfit("not of a day file", "day.idx: not an index of `itchsnap index`, or changed since")
COMMANDS = (["show", "day.itch"], ["show", "day.itch", "--from", "90000", "--after", "90005"], ["cut", "day.itch", "--from", "70000"],
            ["show", "day.itch", "--orders", "--after", "3"], ["show", "day.itch", "--reference", "5"],
            ["show", "day.itch", "--reference", "5", "--history"])


def an_index_of_another_file_is_refused(program):
    payloads = timed_day(100_000)
    day = blocks_of(payloads)
    index = index_of(payloads, [ROW, 100_000])
    row = len(blocks_of(payloads[:ROW]))
    other = bytearray(day)
    other[30] ^= 1
    near_row, near_end = bytearray(day), bytearray(day)
    near_row[row - 1] ^= 1
    near_end[-1] ^= 1
    with folder_of(day, index) as folder:
        for words in COMMANDS:
            for label, changed, wanted in (("other", other, OTHER_DAY), ("end", near_end, OTHER_DAY), ("short", day[:-1], BEYOND),
                                           ("none", b"", BEYOND)):
                (folder / "day.itch").write_bytes(changed)
                yield from differs(f"{label}: {words}", ended_in(folder, program, *words, "--index", "day.idx"), wanted)
        (folder / "day.gz").write_bytes(gzip.compress(bytes(day), mtime=0))
        hint = "day.gz: this is a gzip file: zcat day.gz > FILE"
        yield from differs("gzip", ended_in(folder, program, "show", "day.gz", "--index", "day.idx"), unfit("beyond the end of the file", hint))
        (folder / "day.gz").unlink()
        (folder / "day.itch").write_bytes(near_row)
        for words in COMMANDS[1:3]:
            yield from differs(f"row: {words}", ended_in(folder, program, *words, "--index", "day.idx"), OTHER_DAY)
        ended_in(folder, program, "cut", "day.itch", "--from", "70000", "--index", "day.idx", "--output", "rest.itch")
        yield from differs("left", sorted(os.listdir(folder)), ["day.idx", "day.itch"])


def an_index_that_was_changed_is_refused(program):
    payloads, rng = timed_day(10_000), random.Random(1)
    index = index_of(payloads, [1, 5000, 10_000])
    lines = index.splitlines(keepends=True)
    folder_line = b'{"messages":2,"offset":55,"timestamp":2,"file":"2.snap","first":"db5947c58390d6b0","last":"db5947c58390d6b0"}\n'
    broken = [b"", b"\n", b"index\n", folder_line, blocks_of(payloads), bytes(1 << 20), index[:-20], b"".join(lines[:-1]), b"".join(lines[1:]),
              index + b"\n", index + index, b"".join([*lines[:-2], lines[-1]])]
    for _ in range(60):
        changed = bytearray(index)
        changed[rng.randrange(len(index) - 1)] ^= 1 << rng.randrange(7)
        broken.append(bytes(changed))
    with folder_of(blocks_of(payloads), index) as folder:
        yield from both(folder, program, "unchanged", "show", "day.itch", "--from", "9990")
        for at, changed in enumerate(broken):
            (folder / "day.idx").write_bytes(changed)
            for words in (["--from", "9990"], ["--orders"]):
                yield from differs(f"{at} {words}", ended_in(folder, program, "show", "day.itch", *words, "--index", "day.idx"), INVALID)


def files_that_cannot_be_used_are_named(program):
    with folder_of(b"", index_of([], [])) as folder:
        (folder / "d").mkdir()
        os.mkfifo(folder / "pipe")
        for words, status, error in (
            (["day.itch", "--index", "none.idx"], 3, "itchsnap: cannot open\n  none.idx: No such file or directory (os error 2)\n"),
            (["day.itch", "--index", "d"], 3, "itchsnap: cannot open\n  d: Is a directory (os error 21)\n"),
            (["none.itch", "--index", "day.idx"], 3, "itchsnap: cannot open\n  none.itch: No such file or directory (os error 2)\n"),
            (["pipe", "--index", "day.idx"], 3, "itchsnap: cannot seek\n  pipe: --index needs a regular file\n"),
            (["/dev/null", "--index", "day.idx"], 3, "itchsnap: cannot seek\n  /dev/null: --index needs a regular file\n"),
            (["day.itch", "--index", "day.idx"], 0, ""),
        ):
            for command in ("show", "cut"):
                yield from differs(f"{command} {words}", ended_in(folder, program, command, *words), (status, b"", error.encode()))
        for words in (["-", "--index", "day.idx"], ["--index", "day.idx"]):
            for command in ("show", "cut"):
                status, output, error = ended_in(folder, program, command, *words)
                wanted = b"error: --index reads its file from any message on: name a file, not standard input"
                yield from differs(f"{command} {words}", (status, output, error.splitlines()[:1]), (2, b"", [wanted]))
        status, output, error = ended_in(folder, program, "show", "day.itch", "--snapshot", "--index", "day.idx")
        wanted = b"error: the argument '--snapshot' cannot be used with '--index <PATH>'"
        yield from differs("--snapshot", (status, output, error.splitlines()[:1]), (2, b"", [wanted]))


def pipes_are_read_as_files(program):
    """The day that is indexed may be a pipe or standard input, and the index of a day a pipe. An empty day has an index without rows."""
    payloads = RandomDay(7).payloads
    day, index = blocks_of(payloads), index_of(payloads, [len(payloads)])
    words = ["show", "day.itch", "--from", str(len(payloads)), "--index", "pipe"]
    with folder_of(day, index) as folder:
        for label, data, wanted in (("day", day, index), ("empty day", b"", index_of([], []))):
            with piped(folder / "pipe", data):
                yield from differs(label, ended_in(folder, program, "index", "pipe"), (0, wanted, b""))
            done = subprocess.run([program, "index"], cwd=folder, input=data, capture_output=True, timeout=60)
            yield from differs(f"{label}, standard input", (done.returncode, done.stdout, done.stderr), (0, wanted, b""))
        with piped(folder / "pipe", index):
            yield from differs("index", ended_in(folder, program, *words), ended_in(folder, program, *words[:-2]))
        with piped(folder / "pipe", index[:-30]):
            wanted = unfit("not of a day file", "pipe: not an index of `itchsnap index`, or changed since")
            yield from differs("a part of it", ended_in(folder, program, *words), wanted)


def the_messages_before_a_row_are_not_read(program):
    """With an index the bytes that no fingerprint covers may be anything: they are not read."""
    payloads = timed_day(3 * ROW)
    day = bytearray(blocks_of(payloads))
    words = ["show", "day.itch", "--from", str(2 * ROW + 5), "--stock", "S0000005"]
    with folder_of(day, index_of(payloads, [ROW, 2 * ROW, 3 * ROW])) as folder:
        wanted = ended_in(folder, program, *words)
        row = len(blocks_of(payloads[:2 * ROW]))
        day[ROW:row - 256] = bytes(row - 256 - ROW)
        (folder / "day.itch").write_bytes(day)
        yield from differs("zeros", ended_in(folder, program, *words, "--index", "day.idx"), wanted)
        if ended_in(folder, program, *words) == wanted:
            yield "the zeros are read as messages"


def each_call_that_fails_is_told(program):
    """Memory, reads and writes fail in turn: the command ends as told, and leaves the index that was there."""
    payloads = RandomDay(5).payloads
    stock = next(it[11:19].decode().strip() for it in payloads if it[:1] == b"R")
    old = index_of(payloads, [len(payloads) // 2])
    with tempfile.TemporaryDirectory() as apart:
        shim = failing.build_shim(apart)
        for words, kinds in ((["index", "day.itch", "--output", "new.idx"], ("memory", "read", "write")),
                             (["index", "day.itch"], ("memory", "read", "write")),
                             (["show", "day.itch", "--from", str(len(payloads)), "--stock", stock, "--index", "day.idx"], ("memory", "read"))):
            with folder_of(blocks_of(payloads), old) as folder:
                (folder / "new.idx").write_bytes(b"old")
                ordinary = ended_in(folder, program, *words)
                made = (folder / "new.idx").read_bytes()
                yield from differs(f"{words}", ordinary[0], 0)
                for kind in kinds:
                    yield from failing_in_turn(folder, program, shim, words, kind, ordinary, made)


def failing_in_turn(folder, program, shim, words, kind, ordinary, made):
    unnoticed = 0
    for nth in range(1, 1000):
        (folder / "new.idx").write_bytes(b"old")
        failed = folder / "failed"
        failed.unlink(missing_ok=True)
        status, output, error = ended_in(folder, program, *words, LD_PRELOAD=str(shim), FAIL=f"{kind}:{nth}", FAILED=str(failed))
        if (status, output, error) == ordinary:
            unnoticed += failed.exists()
            yield from differs(f"{words}, {kind} {nth}: index", (folder / "new.idx").read_bytes(), made)
        else:
            label = f"{words}, {kind} {nth}: {error}"
            yield from differs(label, (status, error[:10]), (4 if kind == "memory" else 3, b"itchsnap: "))
            yield from differs(f"{label}: index", (folder / "new.idx").read_bytes(), b"old")
            if not ordinary[1].startswith(output):
                yield f"{label}: {output}"
        yield from differs(f"{words}, {kind} {nth}: left", sorted({*os.listdir(folder)} - {"failed"}), ["day.idx", "day.itch", "new.idx"])
        if not failed.exists():
            break
    if unnoticed > (1 if kind == "memory" else 0):
        yield f"{words}: {unnoticed} failures of {kind} went unnoticed"


def a_range_near_the_end_of_a_long_day_takes_a_tenth_of_the_time(program):
    """And two milliseconds, in which the program starts."""
    day = large.entry(1) + large.deleted(1) * 1_000_000
    with folder_of(day) as folder:
        yield from differs("index", ended_in(folder, program, "index", "day.itch", "--output", "day.idx"), (0, b"", b""))
        for words in (["--from", "999990"], ["--from", "999990", "--stock", "S0000001"]):
            seconds = []
            for more in ([], ["--index", "day.idx"]):
                times = []
                for _ in range(7):
                    begun = time.perf_counter()
                    status, output, error = ended_in(folder, program, "show", "day.itch", *words, *more)
                    times.append(time.perf_counter() - begun)
                    yield from differs(f"{words} {more}", (status, output.count(b"\n"), error), (0, 12, b""))
                seconds.append(min(times))
            without, with_index = seconds
            if with_index > without / 10 + 0.002:
                yield f"{words}: {with_index:.4f} s with an index, {without:.4f} s without"


RUNS = [output_with_an_index_is_that_without, a_fault_behind_the_covered_part_stays_the_same, cut_with_an_index_writes_the_same_file,
        an_index_has_a_row_for_every_65536_messages, a_refused_day_has_no_index, an_index_of_another_file_is_refused,
        an_index_that_was_changed_is_refused, each_call_that_fails_is_told, files_that_cannot_be_used_are_named,
        pipes_are_read_as_files, the_messages_before_a_row_are_not_read, a_range_near_the_end_of_a_long_day_takes_a_tenth_of_the_time]
