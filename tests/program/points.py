"""`snap --to`: the snapshots of several points of a day file, and their index.

RUNS lists the runs: functions that take the program and yield the differences found.
"""
import contextlib
import fcntl
import hashlib
import itertools
import json
import os
import random
import tempfile
from pathlib import Path

import failing
import large
from common import differs, ended, ended_in, file, first_unmet, split
from costs import work
from infos import RandomDay
from living import folder_with
from ranges import blocks_of

DAY = file("START_STAMPED AAPL_STAMPED BUY_1_STAMPED")
# After each number of its messages: the snapshot, and the line of the index.
SNAPSHOTS = ["END_1", "START END_2", "START AAPL END_3", "START AAPL BUY_1 END_4"]


def line_of(blocks, count, timestamp, **members):
    """Returns the line of the index for the first messages of a day."""
    before = b"".join(blocks[:count])
    first, last = (hashlib.sha256(it).hexdigest()[:16] for it in (before[:65_536], before[-256:]))
    line = {"messages": count, "offset": len(before), "timestamp": timestamp, "file": f"{count}.snap", "first": first, "last": last, **members}
    return json.dumps(line, separators=(",", ":"))


LINES = [line_of(split(DAY), count, timestamp) for count, timestamp in enumerate((None, 1, 2, 3))]
# The arguments for the points, and the number of messages before each.
POINTS = {
    "": [3],
    "--after 0": [0],
    "--after 1,3": [1, 3],
    "--after 0,01,2,3": [0, 1, 2, 3],
    "--until 3": [2],
    "--until 1,3": [0, 2],
    "--until 2,00:00:00.000000003,10:30": [1, 2, 3],
    "--until 5,6,10:30": [3],
    "--every 1": [1, 2, 3],
    "--every 2": [2, 3],
    "--every 3": [3],
    "--every 999999999999": [3],
}
# The number of random days.
DAYS = 60
USAGE_FAULTS = [
    "--after 1,2",
    "--until 1,2",
    "--every 2",
    "--to out --after 2,1",
    "--to out --after 1,1",
    "--to out --after 1,,2",
    "--to out --after 1,",
    "--to out --after 1,+2",
    "--to out --after 1,1000000000000",
    "--to out --until 3,2",
    "--to out --until 2,009:30",
    "--to out --every 0",
    "--to out --every +1",
    "--to out --after 1 --until 3",
    "--to out --after 1 --every 2",
    "--to out --output out.snap",
    "--to",
]


@contextlib.contextmanager
def folder_of(data):
    with tempfile.TemporaryDirectory() as name:
        folder = Path(name)
        (folder / "day.itch").write_bytes(data)
        (folder / "out").mkdir()
        yield folder


def written(folder):
    """Returns the bytes of each file in the folder for snapshots, by name."""
    return {it.name: it.read_bytes() for it in (folder / "out").iterdir()}


def index_of(lines):
    return "".join(line + "\n" for line in lines).encode()


def files_of(counts):
    """Returns the files that must be written after these numbers of messages of the day."""
    return {"index.jsonl": index_of(LINES[count] for count in counts), **{f"{count}.snap": file(SNAPSHOTS[count]) for count in counts}}


def snap(folder, program, words, **environment):
    return ended_in(folder, program, "snap", "day.itch", "--to", "out", *words.split(), **environment)


def each_point_has_its_snapshot(program):
    for words, counts in POINTS.items():
        with folder_of(DAY) as folder:
            yield from differs(words, snap(folder, program, words), (0, b"", b""))
            yield from differs(words, written(folder), files_of(counts))


def each_snapshot_is_what_a_run_of_its_own_writes(program):
    day, _ = large.orders(3000, symbols=40)
    blocks = split(day)
    for words, only in ((), None), (("--only", "3-17,40"), "3-17,40"), (("--stock", "S0000009,S0000040"), "9,40"):
        with folder_of(day) as folder:
            got = snap(folder, program, " ".join(("--every", "700", *words)))
            yield from differs(words, got, (0, b"", b""))
            found = written(folder)
            counts = [700, 1400, 2100, 2800, len(blocks)]
            index = [line_of(blocks, count, 0, **({"only": only} if only else {})) for count in counts]
            yield from differs(words, found.pop("index.jsonl"), index_of(index))
            alone = {f"{count}.snap": ended_in(folder, program, "snap", "day.itch", "--after", str(count), *words)[1] for count in counts}
            yield from differs(words, found, alone)


def each_partial_snapshot_of_a_random_day_is_what_a_run_of_its_own_writes(program):
    """The days have system events, all kinds of trading states, halts and positions, and orders of five locates."""
    for seed in range(DAYS):
        payloads, rng = RandomDay(seed).payloads, random.Random(seed)
        locates = ",".join(map(str, rng.sample((0, 1, 2, 3, 7, 65535), rng.randint(1, 4))))
        stocks = sorted({it[11:19].decode().rstrip(" ") for it in payloads if it[:1] == b"R"})
        stocks = [it for it in stocks if it and "," not in it]
        words = ["--stock", rng.choice(stocks)] if stocks and seed % 3 == 0 else ["--only", locates]
        with folder_of(blocks_of(payloads)) as folder:
            status = snap(folder, program, " ".join(("--every", "7", *words)))[0]
            counts = sorted({*range(7, len(payloads), 7), len(payloads)})
            alone = {count: ended_in(folder, program, "snap", "day.itch", "--after", str(count), *words) for count in counts}
            refused = next((at for at, count in enumerate(counts) if alone[count][0]), len(counts))
            yield from differs(f"{seed} {words}", status, alone[counts[refused]][0] if refused < len(counts) else 0)
            found = written(folder)
            del found["index.jsonl"]
            yield from differs(f"{seed} {words}", found, {f"{count}.snap": alone[count][1] for count in counts[:refused]})


def an_order_of_another_locate_that_breaks_a_rule_is_refused(program):
    """The order is at a locate that the snapshots do not have."""
    day = file("START_STAMPED AAPL_STAMPED BUY_1_STAMPED BUY_1_STAMPED")
    for words in "--after 2,4", "--every 2", "--until 3,10:30":
        for only in "7", "2-65535":
            with folder_of(day) as folder:
                got = snap(folder, program, f"{words} --only {only}")
                yield from differs(words, got, (1, b"", ended_in(folder, program, "check", "day.itch")[2]))
                alone = ended_in(folder, program, "snap", "day.itch", "--after", "2", "--only", only)[1]
                yield from differs(words, {**written(folder), "index.jsonl": b""}, {"index.jsonl": b"", "2.snap": alone})


def a_point_costs_what_its_snapshot_costs(program):
    """Nearly all orders are of another locate than the snapshots. The limit leaves room for the fingerprint of each point, and for the list of
    the stocks' locates: sorting all live orders at each point takes 30 times as much as one snapshot of all locates."""
    orders = [large.block(b"A", 1 + (at % 1000 == 0), at.to_bytes(8, "big") + b"B\0\0\0d" + large.stock(1 + (at % 1000 == 0)) + bytes(4)) for at in range(40_000)]
    with folder_with(day=b"".join((large.entry(1), large.entry(2), *orders))) as folder:
        whole = work(program, "snap", folder / "day")
        for words in ("--only", "2"), ("--stock", "S0000002"):
            points = work(program, "snap", folder / "day", "--to", folder / "out", "--every", "400", *words)
            if points > 16 * whole:
                yield f"{words[0]}: {points} for 101 points, and {whole} for one snapshot of all locates"


def a_message_at_a_time_is_in_the_next_snapshot(program):
    # The second message has a late timestamp, and the third an earlier one again.
    day = file("START_STAMPED AAPL_LATE BUY_1_STAMPED")
    with folder_of(day) as folder:
        yield from differs("status", snap(folder, program, "--until 5,8,20"), (0, b"", b""))
        wanted = {
            "index.jsonl": index_of([LINES[1], line_of(split(day), 3, 9)]),
            "1.snap": file(SNAPSHOTS[1]),
            "3.snap": file(SNAPSHOTS[3]),
        }
        yield from differs("files", written(folder), wanted)


def a_missing_folder_is_created(program):
    with folder_of(DAY) as folder:
        (folder / "out").rmdir()
        yield from differs("status", snap(folder, program, "--every 1"), (0, b"", b""))
        yield from differs("files", written(folder), files_of([1, 2, 3]))


def a_folder_that_another_process_writes_is_refused(program):
    """`live --to` has it locked, and would lose its index."""
    with folder_of(DAY) as folder:
        other = os.open(folder / "out", os.O_RDONLY)
        fcntl.flock(other, fcntl.LOCK_EX)
        wanted = 3, b"", b"itchsnap: cannot open\n  out: another process is writing it\n"
        yield from differs("locked", snap(folder, program, "--every 1"), wanted)
        yield from differs("locked", written(folder), {})
        os.close(other)
        yield from differs("free", snap(folder, program, "--every 1"), (0, b"", b""))


def a_stock_that_the_directory_lacks_at_a_point_is_named(program):
    with folder_of(DAY) as folder:
        wanted = 1, b"", b"itchsnap: unknown stock\n  day.itch: no stock AAPL\n"
        yield from differs("before its entry", snap(folder, program, "--every 1 --stock AAPL"), wanted)
        yield from differs("before its entry", written(folder), {"index.jsonl": b""})
        yield from differs("after it", snap(folder, program, "--after 2,3 --stock AAPL"), (0, b"", b""))
        lines = [line_of(split(DAY), count, count, only="1") for count in (2, 3)]
        yield from differs("after it", written(folder)["index.jsonl"], index_of(lines))


def an_empty_file_has_one_snapshot(program):
    for words in ("", "--every 5", "--until 10:30"):
        with folder_of(b"") as folder:
            yield from differs(words, snap(folder, program, words), (0, b"", b""))
            yield from differs(words, written(folder), files_of([0]))


def what_comes_after_the_last_point_is_not_read(program):
    with folder_of(DAY + file("MSFT_AT_1")) as folder:
        yield from differs("status", snap(folder, program, "--after 1,3"), (0, b"", b""))
        yield from differs("files", written(folder), files_of([1, 3]))


def snapshots_before_a_fault_stay(program):
    rows = [
        (DAY + file("MSFT_AT_1"), "--after 1,4", [1], "message 4: stock mismatch"),
        (DAY + file("MSFT_AT_1"), "--every 2", [2], "message 4: stock mismatch"),
        (DAY + file("MSFT_AT_1"), "--until 2,10:30", [1], "message 4: stock mismatch"),
        (DAY + file("MSFT_AT_1"), "", [], "message 4: stock mismatch"),
        (DAY[:-1], "--after 1,2,3", [1, 2], "message 3: truncated, 37 bytes held"),
        (DAY, "--after 2,9", [2], "only 3 messages"),
    ]
    for data, words, counts, line in rows:
        with folder_of(data) as folder:
            alone = ended_in(folder, program, "snap", "day.itch", *(("--after", words.split(",")[-1]) if words.startswith("--after") else ()))
            yield from differs(words, snap(folder, program, words), (1, b"", alone[2]))
            if not alone[2].startswith(f"itchsnap: {line}".encode()):
                yield f"{words}: {alone}"
            yield from differs(words, written(folder), files_of(counts))


def another_run_writes_a_new_index(program):
    with folder_of(DAY) as folder:
        snap(folder, program, "--after 1,2")
        yield from differs("status", snap(folder, program, "--after 2,3"), (0, b"", b""))
        yield from differs("files", written(folder), {**files_of([2, 3]), "1.snap": file(SNAPSHOTS[1])})


def a_folder_that_is_none_is_named(program):
    with folder_of(DAY) as folder:
        for path, why in (("no/out", "No such file or directory (os error 2)"), ("day.itch", "Not a directory (os error 20)")):
            got = ended_in(folder, program, "snap", "day.itch", "--to", path, "--after", "1,2")
            yield from differs(path, got, (3, b"", f"itchsnap: cannot open\n  {path}: {why}\n".encode()))
        # The day file is opened first: if it does not exist, no index is begun.
        got = ended_in(folder, program, "snap", "no.itch", "--to", "out")
        yield from differs("no day file", got, (3, b"", b"itchsnap: cannot open\n  no.itch: No such file or directory (os error 2)\n"))
        yield from differs("no day file", written(folder), {})


def a_file_of_the_folder_that_cannot_be_opened_is_named(program):
    """The file is not in the index, which lists the snapshots before it."""
    with folder_of(DAY) as folder:
        (folder / "out/2.snap").mkdir()
        wanted = 3, b"", b"itchsnap: cannot open\n  out/2.snap: Is a directory (os error 21)\n"
        yield from differs("a folder", snap(folder, program, "--after 1,2"), wanted)
        yield from differs("its index", (folder / "out/index.jsonl").read_bytes(), index_of([LINES[1]]))
        (folder / "out/1.snap.part").mkdir()
        wanted = 3, b"", b"itchsnap: cannot open\n  out/1.snap.part: Is a directory (os error 21)\n"
        yield from differs("a folder in place of its part", snap(folder, program, "--after 1,2"), wanted)


def the_list_of_an_index_has_a_range_for_each_run(program):
    rows = {"2": "2", "7,1,2": "1-2,7", "0-65535": "0-65535", "65535,3,65534,1,2,5": "1-3,5,65534-65535", "4-6,1-5,9": "1-6,9"}
    for words, only in rows.items():
        with folder_of(DAY) as folder:
            yield from differs(words, snap(folder, program, f"--after 2 --only {words}"), (0, b"", b""))
            yield from differs(words, written(folder)["index.jsonl"], index_of([line_of(split(DAY), 2, 2, only=only)]))
    with folder_of(DAY) as folder:
        every_third = ",".join(f"{first}-{first + 1}" for first in range(0, 65535, 3))
        (folder / "list").write_text(every_third)
        yield from differs("long", snap(folder, program, "--after 2 --only @list"), (0, b"", b""))
        yield from differs("long", written(folder)["index.jsonl"], index_of([line_of(split(DAY), 2, 2, only=every_third)]))


def other_points_are_a_usage_fault(program):
    for words in USAGE_FAULTS:
        status, output, error = ended(program, "snap", *words.split(), day=DAY)
        if (status, output) != (2, b"") or not error.startswith(b"error: "):
            yield f"{words}: status {status}, {output!r}, {error!r}"


def each_allocation_and_write_fails_in_turn(program):
    """Without memory for a market of the locates alone, the snapshots are taken from the complete one."""
    statuses = {"memory": 4, "write": 3}
    with folder_of(DAY) as folder, tempfile.TemporaryDirectory() as apart:
        shim, failed = failing.build_shim(apart), Path(apart) / "a call failed"
        for words, kind in itertools.product(("--after 1,3", "--after 2,3 --only 1", "--after 2,3 --stock AAPL"), statuses):
            def fails(nth):
                failed.unlink(missing_ok=True)
                for name in os.listdir(folder / "out"):
                    (folder / "out" / name).unlink()
                got = snap(folder, program, words, LD_PRELOAD=str(shim), FAIL=f"{kind}:{nth}", FAILED=str(failed))
                return got, failed.exists()

            fails(0)
            wanted = written(folder)
            for nth in range(1, first_unmet(lambda nth: fails(nth)[1])):
                (ends, output, error), _ = fails(nth)
                found = written(folder)
                if ends == 0 and found == wanted:
                    continue
                lines = found.pop("index.jsonl", b"")
                whole = all(data == wanted.get(name) for name, data in found.items())
                if (ends, output) != (statuses[kind], b"") or not whole or not wanted["index.jsonl"].startswith(lines):
                    yield f"{words}, {kind} {nth}: {ends}, {output}, {error}, {found}, {lines}"


RUNS = [
    a_folder_that_another_process_writes_is_refused,
    a_missing_folder_is_created,
    a_stock_that_the_directory_lacks_at_a_point_is_named,
    each_point_has_its_snapshot,
    each_snapshot_is_what_a_run_of_its_own_writes,
    each_partial_snapshot_of_a_random_day_is_what_a_run_of_its_own_writes,
    an_order_of_another_locate_that_breaks_a_rule_is_refused,
    a_point_costs_what_its_snapshot_costs,
    a_message_at_a_time_is_in_the_next_snapshot,
    an_empty_file_has_one_snapshot,
    what_comes_after_the_last_point_is_not_read,
    snapshots_before_a_fault_stay,
    another_run_writes_a_new_index,
    a_folder_that_is_none_is_named,
    a_file_of_the_folder_that_cannot_be_opened_is_named,
    the_list_of_an_index_has_a_range_for_each_run,
    other_points_are_a_usage_fault,
    each_allocation_and_write_fails_in_turn,
]
