"""The kinds of jobs: snapshots of a day, a check of it, a merge of its parts into the complete snapshot, and a table of its price
levels."""
import json
import re
import shutil
from dataclasses import dataclass
from pathlib import Path
from typing import NamedTuple

from . import layout
from .program import Failure, Program, Refusal, has_no_messages
from .results import Day, Result, attempt

END = "end"
TIME = re.compile(r"([01]?\d|2[0-3]):[0-5]\d(:[0-5]\d(\.\d{1,9})?)?")


class Site(NamedTuple):
    """Where the results go, and the program that makes them."""

    out: Path
    program: Program

    def words(self):
        return ["--out", str(self.out), "--program", str(self.program.path)]

    def result(self, day, name, **made_of):
        return Result(self.out, day, name, program=self.program.identity, **made_of)

    def snapshot(self, day, point, part=None):
        name = f"{name_of(point)}.{part}.snap" if part else f"{name_of(point)}.snap"
        return self.result(day, name, kind="snapshot", point=point, part=part)


def limit(point):
    """Returns the options for a point of a day: its end, a number of messages, or a time."""
    if point == END:
        return []
    return ["--until" if TIME.fullmatch(point) else "--after", point]


def moment(time):
    """Returns a time in nanoseconds since midnight, as in an index."""
    hours, minutes, seconds = [*time.split(":"), "0"][:3]
    whole, _, fraction = seconds.partition(".")
    return ((int(hours) * 60 + int(minutes)) * 60 + int(whole)) * 10 ** 9 + int(fraction.ljust(9, "0"))


def is_before(snapshot, option, place):
    """Returns whether a snapshot of an index contains no message beyond a point."""
    if option == "--after":
        return snapshot["messages"] <= place
    return snapshot["timestamp"] is None or snapshot["timestamp"] < place


def name_of(point):
    """Returns the name of a point in file names, such as `end`, `after-500000` or `until-10-30`."""
    return "-".join(limit(point)).removeprefix("--").replace(":", "-") or END


def needed(result):
    """Returns the path of an earlier job's result. Passes its refusal on."""
    manifest = result.found()
    if not manifest:
        raise Failure(f"{result} is missing")
    if "refused" in manifest:
        raise Refusal(manifest["refused"])
    return result.path


def told(result, manifest, how):
    """Returns the line that reports a result."""
    return f"refused {result}: {manifest['refused']}" if "refused" in manifest else f"{how} {result}"


@dataclass(frozen=True)
class Job:
    """The common part of all kinds. Each kind defines its name, its options, its results, and `make`, which writes one result to a
    file."""

    site: Site
    day: Day

    def command(self):
        """Returns the arguments with which `scale/job` runs this job."""
        return [self.kind, *self.site.words(), *self.options(), str(self.day.path)]

    def read_day(self, words, made):
        """Runs the program over the day and writes its output to a file. The program accepts a day without messages, but here such a file
        has not been filled yet and is refused."""
        if has_no_messages(self.day.path):
            raise Refusal("no messages")
        self.site.program.write(words, self.day.path, made)

    def answers(self, results, room):
        """Yields each of these results with its file in a folder, or with the refusal or failure that it met."""
        for result in results:
            made = room / result.path.name
            try:
                self.make(result, made, room)
                yield result, made
            except (Refusal, Failure) as fault:
                yield result, fault

    def perform(self):
        """Makes the missing results and yields a line for each result. Raises failures only after trying all of them."""
        missing, failures = [], []
        for result in self.results():
            if manifest := result.found():
                yield told(result, manifest, "found")
            else:
                missing.append(result)
        if not missing:
            return
        with attempt(missing[0].path.parent) as room:
            for result, answer in self.answers(missing, room):
                try:
                    yield told(result, result.settle(answer, room), "made")
                except Failure as failure:
                    failures.append(f"{result}: {failure}")
        if failures:
            raise Failure("; ".join(failures))


@dataclass(frozen=True)
class Snapshots(Job):
    """The snapshots of a day at given points, of all locates or of one part."""

    points: tuple = (END,)
    part: str | None = None
    kind = "snapshots"

    def options(self):
        return ["--points", ",".join(self.points), *(["--part", self.part] if self.part else [])]

    def results(self):
        return [self.site.snapshot(self.day, point, self.part) for point in self.points]

    def answers(self, results, room):
        """Makes all points that are numbers in one pass over the day, and all points that are times in another."""
        made = {}
        for option, place in ("--after", int), ("--until", moment):
            points = {place(result.made_of["point"]): result for result in results if option in limit(result.made_of["point"])}
            if len(points) > 1:
                made |= self.pass_over(option, dict(sorted(points.items())), room)
        for result in results:
            if result in made:
                yield result, made[result]
            else:
                yield from super().answers([result], room)

    def pass_over(self, option, points, room):
        """Returns the file of each result, made in one pass over these points. Returns none if the pass is refused or fails: each point
        may then end differently."""
        folder = room / option.strip("-")
        folder.mkdir()
        wanted = ",".join(result.made_of["point"] for result in points.values())
        only = ["--only", self.part] if self.part else []
        try:
            self.read_day(["snap", option, wanted, "--to", folder, *only], folder / "printed")
        except (Refusal, Failure):
            return {}
        index = [json.loads(line) for line in (folder / "index.jsonl").read_text().splitlines()]
        made = {}
        for place, result in points.items():
            # If no message came between two points, the later one uses the same file.
            written = [it["file"] for it in index if is_before(it, option, place)]
            made[result] = room / result.path.name
            shutil.copyfile(folder / written[-1], made[result])
        return made

    def make(self, result, made, room):
        """Runs the program for one point. A part at the end of the day is joined to the empty snapshot: this skips the messages of other
        parts without checking them, so it needs less memory than `snap`."""
        point = result.made_of["point"]
        if not self.part:
            words = ["snap", *limit(point)]
        elif point == END:
            empty = room / "empty"
            empty.write_bytes(layout.EMPTY)
            words = ["join", "--only", self.part, empty]
        else:
            words = ["snap", *limit(point), "--only", self.part]
        self.read_day(words, made)


@dataclass(frozen=True)
class Check(Job):
    """The number of messages of a day, if all of them follow the order rules and, as far as this is known, none is missing."""

    expect: int | None = None
    ended: bool = False
    kind = "check"

    def options(self):
        return [*([] if self.expect is None else ["--expect", str(self.expect)]), *(["--ended"] if self.ended else [])]

    def results(self):
        name = "-".join(["check", *self.options()]).replace("--", "")
        return [self.site.result(self.day, f"{name}.txt", kind="check", expect=self.expect, ended=self.ended)]

    def make(self, result, made, room):
        self.read_day(["check", *self.options()], made)


@dataclass(frozen=True)
class Merge(Job):
    """The complete snapshot of a day, merged from parts that cover all locates. Needs a check of the day, because no part checks all of
    it."""

    parts: tuple = ()
    kind = "merge"

    def options(self):
        return ["--parts", ",".join(self.parts)]

    def results(self):
        return [self.site.snapshot(self.day, END)]

    def make(self, result, made, room):
        [check] = Check(self.site, self.day).results()
        _, messages, _ = needed(check).read_text().split()
        parts = [needed(self.site.snapshot(self.day, END, part)) for part in self.parts]
        layout.lay_together(parts, int(messages) + 1, made)


@dataclass(frozen=True)
class Table(Job):
    """The price levels of a day at given points, of all stocks or of some, as comma-separated values."""

    points: tuple = (END,)
    stock: str | None = None
    kind = "tables"

    def options(self):
        return ["--points", ",".join(self.points), *(["--stock", self.stock] if self.stock else [])]

    def results(self):
        return [self.site.result(self.day, f"{name_of(point)}.csv", kind="table", point=point, stock=self.stock) for point in self.points]

    def make(self, result, made, room):
        snapshot = needed(self.site.snapshot(self.day, result.made_of["point"]))
        locates = ["--stock", self.stock] if self.stock else [self.locates(snapshot)]
        self.site.program.write(["book", *locates, "--snapshot", "--csv"], snapshot, made)

    def locates(self, snapshot):
        """Returns the locates in a snapshot's directory as a list of ranges."""
        entries = self.site.program.lines(["show", "--types", "R", snapshot])
        return layout.ranges_of([int(entry.split()[2]) for entry in entries])
