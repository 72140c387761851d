"""Which jobs a set of days needs, which of them wait for others, and the state of their results."""
from typing import NamedTuple

from .kinds import END, Check, Merge, Snapshots, Table
from .layout import parts_of


class Wanted(NamedTuple):
    """What to make of each day."""

    points: tuple = (END,)
    parts: int = 1
    locates: int = 12000
    ended: bool = False
    tables: bool = False
    stock: str | None = None


def plan_of_day(site, day, wanted):
    """Returns the jobs of a day in order, each with the jobs that it waits for."""
    if wanted.parts == 1:
        whole = Snapshots(site, day, wanted.points)
        plan = {whole: ()}
    else:
        parts = parts_of(wanted.parts, wanted.locates)
        before = (*(Snapshots(site, day, part=part) for part in parts), Check(site, day))
        whole = Merge(site, day, parts)
        plan = {**dict.fromkeys(before, ()), whole: before}
    if wanted.ended:
        plan[Check(site, day, ended=True)] = ()
    if wanted.tables:
        plan[Table(site, day, wanted.points, wanted.stock)] = (whole,)
    return plan


def plan_of(site, days, wanted):
    """Returns the jobs of all days, round by round: first the jobs that wait for none, then those that wait for them, and so on."""
    plan = {}
    for day in days:
        plan |= plan_of_day(site, day, wanted)
    return dict(sorted(plan.items(), key=lambda step: round_of(step[0], plan)))


def round_of(job, plan):
    return 1 + max((round_of(before, plan) for before in plan[job]), default=0)


def report(plan):
    """Returns a line for each refused or missing result, a line that counts all results, and the status: 3 if one is missing, otherwise 1
    if one is refused, otherwise 0. Checks only the size of each file, because its job has just read it."""
    lines, refused, missing, count = [], 0, 0, 0
    for result in (result for job in plan for result in job.results()):
        manifest = result.manifest()
        count += 1
        if not manifest:
            missing += 1
            lines.append(f"missing {result}")
        elif "refused" in manifest:
            refused += 1
            lines.append(f"refused {result}: {manifest['refused']}")
    lines.append(f"{count} results, {refused} refused, {missing} missing")
    return lines, 3 if missing else 1 if refused else 0
