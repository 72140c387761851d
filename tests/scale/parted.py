"""Days in parts, which together are the complete day, and tables of price levels.

RUNS lists the runs: functions that take a folder and yield the differences found.
"""
import subprocess

import kit
import large
from common import differs, file
from jobs import layout
from jobs.program import Failure, Refusal
from kit import TOP, Ended, bytes_of, generated, job, write_day

HEADER = b"locate,stock,side,price,shares,orders\n"
BOOK = TOP / "examples/book.itch"


def done(*words):
    """Runs the jobs of a plan one after the other. Returns their lines and the report's."""
    lines = subprocess.run(["bash", "-c", job("plan", *words).output], capture_output=True, text=True)
    return lines.stdout + lines.stderr, job("report", *words)


def parts_together_are_the_whole(folder):
    for count, name, data in ((2, "plain.itch", generated(20000, 50, 1, 46, 2)), (3, "packed.itch.gz", generated(20000, 50, 2)),
                              (4, "other.itch.zst", large.orders(500, 50)[0])):
        whole = kit.program("snap", write_day(folder / "whole.itch", data))
        day = write_day(folder / name, data)
        _, report = done("--out", folder, "--parts", count, "--locates", 50, day)
        yield from differs(f"report of {name}", report, Ended(0, f"{count + 2} results, 0 refused, 0 missing\n", ""))
        yield from differs(f"{name} in {count}", bytes_of(folder / kit.name_of(day) / "end.snap"), whole)


def a_part_has_its_locates_alone(folder):
    data, _ = large.orders(500, symbols=20)
    day = write_day(folder / "day.itch.gz", data)
    plain = write_day(folder / "plain.itch", data)
    for point, limits in ("end", ()), ("100", ("--after", "100")):
        name = {"end": "end", "100": "after-100"}[point]
        yield from differs(f"lines at {point}", job("snapshots", "--out", folder, "--points", point, "--part", "3-7,9", day),
                           Ended(0, f"made day/{name}.3-7,9.snap\n", ""))
        wanted = kit.program("snap", *limits, "--only", "3-7,9", plain)
        yield from differs(f"part at {point}", bytes_of(folder / f"day/{name}.3-7,9.snap"), wanted)


def what_no_part_sees_is_refused_by_the_check(folder):
    """A reference is live at two locates, which belong to different parts."""
    twice = large.block(b"A", 2, (1).to_bytes(8, "big") + b"B" + (100).to_bytes(4, "big") + b"MSFT    " + (1500000).to_bytes(4, "big"))
    day = write_day(folder / "day.itch", file("AAPL MSFT BUY_1") + twice)
    refusal = "message 4: duplicate reference"
    lines, report = done("--out", folder / "out", "--parts", 2, "--locates", 2, "--tables", day)
    made = "made day/end.0-1.snap\nmade day/end.2-65535.snap\n"
    refused = "".join(f"refused day/{name}: {refusal}\n" for name in ("check.txt", "end.snap", "end.csv"))
    yield from differs("lines", lines, made + refused)
    yield from differs("report", report, Ended(1, f"{refused}5 results, 3 refused, 0 missing\n", ""))


def parts_that_are_not_there_are_not_laid_together(folder):
    day, out = write_day(folder / "day.itch", large.orders(50, symbols=10)[0]), folder / "out"
    words = "--out", out, "--parts", 2, "--locates", 10, day
    merge = "merge", "--out", out, "--parts", "0-5,6-65535", day
    done(*words)
    whole = bytes_of(out / "day/end.snap")
    for name in "end.0-5.snap", "end.6-65535.snap", "check.txt":
        (out / "day/end.snap").unlink()
        part = bytes_of(out / "day" / name)
        (out / "day" / name).write_bytes(part[:-1] + b"?")
        yield from differs(f"lines without {name}", job(*merge), Ended(3, "", f"job: day/end.snap: day/{name} is missing\n"))
        yield from differs(f"whole without {name}", bytes_of(out / "day/end.snap"), None)
        lines, _ = done(*words)
        yield from differs(f"lines after {name}", sorted(line for line in lines.splitlines() if line.startswith("made")),
                           sorted([f"made day/{name}", "made day/end.snap"]))
        yield from differs(f"whole after {name}", bytes_of(out / "day/end.snap"), whole)


def parts_of_other_moments_are_not_laid_together(folder):
    first, later, event = (write_day(folder / name, file(blocks)) for name, blocks in
                           (("first", "AAPL END_2"), ("later", "MSFT END_3"), ("event", "START AAPL END_2")))
    for label, parts, said in (("a later one", (first, later), "later does not end after the 1 messages of its check"),
                               ("one with an event", (first, event), "event has another system event"),
                               ("one without", (event, first), "first has another system event")):
        try:
            layout.lay_together(parts, 2, folder / "whole")
            yield f"{label} was accepted"
        except Failure as failure:
            yield from differs(label, str(failure), said)


def parts_have_every_locate_once(folder):
    for count, locates in ((1, 1), (2, 2), (2, 3), (3, 8000), (4, 12000), (7, 65535), (5, 65535)):
        parts = [tuple(map(int, part.split("-"))) for part in layout.parts_of(count, locates)]
        every = [locate for first, last in parts for locate in range(first, last + 1)]
        if len(parts) != count or every != list(range(65536)):
            yield f"{count} parts of {locates}: {parts}"
        shares = [min(last, locates) - max(first, 1) + 1 for first, last in parts]
        if max(shares) - min(shares) > 1:
            yield f"{count} parts of {locates} have {shares}"


def locates_are_listed_as_ranges(folder):
    for locates, wanted in (([7], "7"), ([0, 1], "0-1"), ([1, 2, 3, 5, 7, 8], "1-3,5,7-8"), ([1, 3, 65535], "1,3,65535")):
        yield from differs(f"ranges of {locates}", layout.ranges_of(locates), wanted)
    try:
        yield f"no locates are {layout.ranges_of([])}"
    except Refusal as refusal:
        yield from differs("no locates", str(refusal), "no stocks")


def tables_have_the_price_levels(folder):
    ends = b"1,AAPL,B,150.0500,300,2\n1,AAPL,B,150.0000,500,2\n1,AAPL,S,150.0800,300,1\n1,AAPL,S,150.1000,600,2\n"
    early = b"1,AAPL,B,150.0500,200,1\n1,AAPL,B,150.0000,100,1\n1,AAPL,S,150.1000,500,1\n"
    _, report = done("--out", folder, "--points", "end,00:00:00.000000006", "--tables", BOOK)
    yield from differs("report", report, Ended(0, "4 results, 0 refused, 0 missing\n", ""))
    yield from differs("table of the end", bytes_of(folder / "book/end.csv"), HEADER + ends)
    yield from differs("table of a time", bytes_of(folder / "book/until-00-00-00.000000006.csv"), HEADER + early)


def tables_may_be_of_some_stocks(folder):
    day = write_day(folder / "day.itch", file("AAPL MSFT BUY_1") + large.block(b"R", 9, b"NA      " + large.ENTRY))
    level = b"1,AAPL,B,150.0000,100,1\n"
    for stocks, line, table in (("AAPL", "made", HEADER + level), ("MSFT,NA", "made", HEADER), ("MSFT,AAPL", "made", HEADER + level),
                                ("APPL", "refused", None)):
        lines, _ = done("--out", folder / "out", "--tables", "--stock", stocks, day)
        ending = ": unknown stock" if line == "refused" else ""
        yield from differs(f"line of {stocks}", lines.splitlines()[1], f"{line} day/end.csv{ending}")
        yield from differs(f"table of {stocks}", bytes_of(folder / "out/day/end.csv"), table)
    status, _, error = job("tables", "--out", folder / "out", "--points", "1", day)
    yield from differs("table without its snapshot", (status, error), (3, "job: day/after-1.csv: day/after-1.snap is missing\n"))
    lines, _ = done("--out", folder / "out", "--points", "0", "--tables", day)
    yield from differs("lines of an empty market", lines, "made day/after-0.snap\nrefused day/after-0.csv: no stocks\n")


RUNS = [
    parts_together_are_the_whole,
    a_part_has_its_locates_alone,
    what_no_part_sees_is_refused_by_the_check,
    parts_that_are_not_there_are_not_laid_together,
    parts_of_other_moments_are_not_laid_together,
    parts_have_every_locate_once,
    locates_are_listed_as_ranges,
    tables_have_the_price_levels,
    tables_may_be_of_some_stocks,
]
