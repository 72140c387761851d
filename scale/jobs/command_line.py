"""The command line of `scale/job`."""
import argparse
import dataclasses
import functools
import os
import re
import shlex
import signal
import sys
from pathlib import Path

from .kinds import END, TIME, Check, Merge, Site, Snapshots, Table
from .layout import LAST_LOCATE, are_whole
from .planning import Wanted, plan_of, report, round_of
from .program import Failure, Program, end_with_parent
from .results import Day

TOP = Path(__file__).resolve().parents[2]
COMMAND = str(TOP / "scale/job")
POINT = re.compile(rf"{END}|\d+|{TIME.pattern}")
RANGE = re.compile(r"\d+-\d+")
LOCATES = re.compile(r"\d+(-\d+)?(,\d+(-\d+)?)*")
USAGE, FAILED = 2, 3


def matching(pattern, what):
    def read(text):
        if not pattern.fullmatch(text):
            raise argparse.ArgumentTypeError(f"{text!r} is not a {what}")
        return text
    return read


def points(text):
    """Returns the points in the order given, without repetitions."""
    read = matching(POINT, "point of a day: end, a number of messages, or a time such as 10:30")
    return tuple(dict.fromkeys(two_digits(read(point)) for point in text.split(",")))


def two_digits(point):
    """Returns a point with a two-digit hour, as result files are named: 9:30 becomes 09:30."""
    return f"0{point}" if point[1:2] == ":" else point


locates = matching(LOCATES, "list of locates")


def parts(text):
    """Returns parts that can be merged into the complete snapshot."""
    ranges = tuple(matching(RANGE, "range of locates")(part) for part in text.split(","))
    if not are_whole(ranges):
        raise argparse.ArgumentTypeError("these parts do not contain every locate once, in ascending order")
    return ranges


def absolute(text):
    return Path(text).absolute()


def positive(text):
    number = int(text)
    if number < 1:
        raise ValueError(text)
    return number


def add_site(words):
    default = os.environ.get("ITCHSNAP") or TOP / "release/itchsnap"
    words.add_argument("--out", type=absolute, required=True, metavar="DIR", help="the folder for the results")
    words.add_argument("--program", type=Path, default=default, metavar="FILE",
                       help="the program [env: ITCHSNAP] [default: the released one of this checkout]")


def add_points(words):
    words.add_argument("--points", type=points, default=(END,), metavar="P1,P2,..",
                       help="`end`, numbers of messages, or times such as 10:30 [default: end]")


def add_plan(words):
    """Adds the options that say what to make of many days. The adapters take them too."""
    add_site(words)
    add_points(words)
    words.add_argument("--parts", type=positive, default=1, metavar="K", help="split each day by locates into K parts, and check it")
    words.add_argument("--locates", type=positive, default=12000, metavar="N",
                       help="split the locates up to N evenly [default: 12000]")
    words.add_argument("--ended", action="store_true", help="check that each day ends with End of Messages")
    words.add_argument("--tables", action="store_true", help="write tables of the price levels too")
    words.add_argument("--stock", metavar="LIST", help="the stocks in the tables [default: all]")
    words.add_argument("days", type=absolute, nargs="+", metavar="DAY", help="a day file: plain, .gz or .zst")


def reader():
    # Options cannot be abbreviated, so only --help and -h print usage where an adapter expects the lines of a plan.
    exact = functools.partial(argparse.ArgumentParser, allow_abbrev=False)
    words = exact(description="Runs a job over a day file, lists the jobs for a number of days, or reports on their results.")
    words.add_argument("--with-parent", action="store_true", help="end when the process that started this one ends")
    commands = words.add_subparsers(dest="command", required=True, parser_class=exact)
    of_a_day = {kind: commands.add_parser(kind.kind, help=kind.__doc__) for kind in (Snapshots, Check, Merge, Table)}
    add_points(of_a_day[Snapshots])
    of_a_day[Snapshots].add_argument("--part", type=locates, metavar="LIST", help="only these locates")
    of_a_day[Check].add_argument("--expect", type=int, metavar="N", help="refuse a day that does not have exactly N messages")
    of_a_day[Merge].add_argument("--parts", type=parts, required=True, metavar="A-B,C-D,..", help="the parts, in ascending order")
    of_a_day[Check].add_argument("--ended", action="store_true", help="refuse a day that does not end with End of Messages")
    add_points(of_a_day[Table])
    of_a_day[Table].add_argument("--stock", metavar="LIST", help="the stocks in the table [default: all]")
    for kind, command in of_a_day.items():
        add_site(command)
        command.add_argument("day", type=absolute, metavar="DAY", help="a day file: plain, .gz or .zst")
        command.set_defaults(kind=kind)
    plan = commands.add_parser("plan", help="print a shell command for each job of these days")
    plan.add_argument("--round", type=positive, metavar="N", help="only the jobs of round N, which wait for those of earlier rounds")
    for command in plan, commands.add_parser("report", help="list the refused and missing results of these days"):
        add_plan(command)
    return words


def plan_for(words, fault):
    """Returns the plan for the command line. `fault` exits with a one-line message."""
    wanted = Wanted(**{name: getattr(words, name) for name in Wanted._fields})
    if wanted.parts > 1 and wanted.points != (END,):
        fault("--parts is for the end of a day alone: at another point a part takes as long as the whole")
    if not wanted.parts <= wanted.locates <= LAST_LOCATE:
        fault(f"--locates is from the number of parts to {LAST_LOCATE}")
    if not words.program.is_file():
        fault(f"{words.program} is not a file")
    days = [Day(path) for path in words.days]
    names = {}
    for day in days:
        if not day.path.is_file():
            fault(f"{day.path} is not a file")
        if names.setdefault(day.name, day.path) != day.path:
            fault(f"{names[day.name]} and {day.path} have the same name")
    return plan_of(Site(words.out, Program(words.program)), days, wanted)


def perform(words):
    options = {field.name: getattr(words, field.name) for field in dataclasses.fields(words.kind) if hasattr(words, field.name)}
    options |= {"site": Site(words.out, Program(words.program)), "day": Day(words.day)}
    for line in words.kind(**options).perform():
        # Written in one piece, because other jobs may write to the same pipe.
        sys.stdout.write(f"{line}\n")
        sys.stdout.flush()


def main():
    read = reader()
    words = read.parse_args()
    signal.signal(signal.SIGTERM, lambda *_: sys.exit(128 + signal.SIGTERM))
    if words.with_parent:
        end_with_parent()
    try:
        if words.command not in ("plan", "report"):
            return perform(words)
        plan = plan_for(words, read.error)
        if words.command == "report":
            lines, status = report(plan)
            print("\n".join(lines))
            return status
        for job in plan:
            if words.round in (None, round_of(job, plan)):
                print(shlex.join([COMMAND, *job.command()]))
        return 0
    except (Failure, OSError) as fault:
        print(f"job: {fault}", file=sys.stderr)
        return FAILED
