"""`Snapshot`: as a value, as a file, and limited to some locates.

RUNS lists the runs: functions that yield the differences found.
"""
import copy
import pickle
import tempfile
from pathlib import Path

import common
import large
import samples
from common import differs
from samples import example, generated, raised, refusal
from sundrekk import Day, Market, Snapshot


def the_snapshot_of_a_day_is_that_of_the_program():
    days = [example(f"{name}.itch") for name in samples.NAMES] + [generated(), samples.timed()]
    for day in days:
        yield from differs("a day", Day.of(day).snapshot().data, samples.program("snap", day=day)[1])
        with Market() as market:
            market.apply_blocks(day)
            yield from differs("a market", market.snapshot().data, samples.program("snap", day=day)[1])


def a_market_may_have_more_than_is_expected():
    """The positions of a thousand participants make the snapshot longer than the buffer that is tried first."""
    position = common.blocks()["POSITION_ABCD"]
    day = common.file("AAPL") + b"".join(position.replace(b"ABCD", b"%04d" % number) for number in range(1000))
    with Market() as market:
        market.apply_blocks(day)
        yield from differs("a market", market.snapshot().data, day + large.closing(1002))
        yield from differs("a part of it", market.snapshot(only=[1]).data, day + large.closing(1002))
    yield from differs("a day", Day.of(day).snapshot().data, day + large.closing(1002))


def a_snapshot_is_cut_down_as_by_the_program():
    snapshot = Day.of(generated()).snapshot()
    for only, words in (([1, 2, 3], "1-3"), ((50, 7), "7,50"), (range(20, 70), "20-69"), ([60000], "60000")):
        wanted = samples.program("snap", "--only", words, day=generated())[1]
        yield from differs(f"{words} of a snapshot", snapshot.only(only).data, wanted)
        yield from differs(f"{words} of a day", Day.of(generated()).snapshot(only=only).data, wanted)
        with Market.load(snapshot) as market:
            yield from differs(f"{words} of a market", market.snapshot(only=iter(only)).data, wanted)


def messages_may_come_in_any_order():
    canonical = Snapshot(common.file("AAPL BUY_2_HIGH BUY_4_HIGH BUY_1 BUY_3_OF_300 END_6"))
    other = Snapshot(common.file("AAPL BUY_1 BUY_2_HIGH BUY_3_OF_300 BUY_4_HIGH END_6"))
    yield from differs("the same market in another order", other, canonical)
    yield from differs("its bytes", other.data, common.file("AAPL BUY_2_HIGH BUY_4_HIGH BUY_1 BUY_3_OF_300 END_6"))


def snapshots_are_values():
    early, late = (Snapshot(common.file(f"AAPL BUY_1 {end}")) for end in ("END_3", "END_4"))
    again = Snapshot(common.file("AAPL BUY_1 END_3"))
    other = Snapshot(common.file("AAPL END_3"))
    yield from differs("equality", [early == it for it in (again, late, other, early.data)], [True, False, False, False])
    yield from differs("the same market", [early.same_market(it) for it in (again, late, other)], [True, True, False])
    yield from differs("the market of nothing", raised(early.same_market, None), "TypeError")
    yield from differs("a set", len({early, again, late, other}), 3)
    yield from differs("numbers", (early.next_number, late.next_number), (3, 4))
    yield from differs("bytes", bytes(early), early.data)
    early.levels
    for copied in (pickle.loads(pickle.dumps(early)), copy.copy(early), copy.deepcopy(early)):
        yield from differs("a copy", (copied, list(copied.orders)), (early, list(early.orders)))


def a_snapshot_has_its_stocks():
    snapshot = Day.of(common.file("FULL_AT_2 START MAX BLANK_AT_1")).snapshot()
    yield from differs("stocks", snapshot.stocks, {1: "", 2: "MSFTMSFT", 65535: "MAX"})


def a_snapshot_is_written_and_read():
    snapshot = Day.of(generated()).snapshot()
    with tempfile.TemporaryDirectory() as name:
        path = Path(name) / "day.snap"
        for target in (path, str(path)):
            snapshot.write(target)
            yield from differs("the file", path.read_bytes(), snapshot.data)
            yield from differs("what is read", Snapshot.read(target), snapshot)
        (Path(name) / "folder").mkdir()
        yield from differs("a folder", raised(snapshot.write, Path(name) / "folder"), "IsADirectoryError")
        yield from differs("what is there", sorted(it.name for it in Path(name).iterdir()), ["day.snap", "folder"])
        yield from differs("a folder that is not there", raised(snapshot.write, Path(name) / "none/day.snap"), "FileNotFoundError")
        path.write_bytes(snapshot.data[:-1])
        yield from differs("a torn file", refusal(Snapshot.read, path), ("TRUNCATED", 22, None))


def what_is_no_snapshot_is_refused():
    for words, wanted in (("", ("NO_END", 0, None)), ("AAPL", ("NO_END", 0, None)), ("AAPL END_2 AAPL", ("AFTER_END", 0, None)),
                          ("AAPL BUY_1 BUY_1 END_4", ("DUPLICATE_REFERENCE", 0, 3)), ("0000", ("NO_END", 0, None))):
        yield from differs(words, refusal(Snapshot, common.file(words)), wanted)
    yield from differs("a text", raised(Snapshot, "AAPL"), "TypeError")


RUNS = [the_snapshot_of_a_day_is_that_of_the_program, a_market_may_have_more_than_is_expected, a_snapshot_is_cut_down_as_by_the_program,
        messages_may_come_in_any_order, snapshots_are_values, a_snapshot_has_its_stocks, a_snapshot_is_written_and_read,
        what_is_no_snapshot_is_refused]
