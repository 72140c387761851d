"""Jobs of many days at a time, by `xargs` and by processes of Python's own, which are killed and resumed.

RUNS lists the runs: functions that take a folder and yield the differences found.
"""
import os
import random
import shlex
import signal
import subprocess
import threading
import time
from concurrent.futures import ThreadPoolExecutor

import kit
from common import differs
from kit import Ended, Watched, bytes_of, days_in, job, manifest, name_of, wait_until

XARGS = "xargs", "-d", "\\n", "-P", "3", "-I{}", "sh", "-c", "{}"


def results_differ(out, days):
    """Yields a difference unless the result of each day exists and equals the snapshot computed for it."""
    for day, snapshot in days.items():
        yield from differs(f"result of {day.name}", bytes_of(out / name_of(day) / "end.snap"), snapshot)
    yield from differs("report", job("report", "--out", out, *days), Ended(0, f"{len(days)} results, 0 refused, 0 missing\n", ""))


def whole_results(out):
    """Returns how many results exist, with their manifests."""
    return len(list(out.glob("*/*.json")))


def torn_results(out):
    """Returns results whose size is not that of their manifest. A file must be complete or missing."""
    return [path.name for path in out.glob("*/*.snap") if path.with_name(f"{path.name}.json").exists()
            and manifest(path)["result"]["bytes"] != path.stat().st_size]


def xargs_does_a_plan(folder):
    days = days_in(folder, 9)
    plan = job("plan", "--out", folder / "out", *days).output
    for label, word in ("", "made"), (", again", "found"):
        done = subprocess.run(XARGS, input=plan, capture_output=True, text=True)
        lines = sorted(f"{word} {name_of(day)}/end.snap" for day in days)
        yield from differs(f"xargs{label}", (done.returncode, sorted(done.stdout.splitlines()), done.stderr), (0, lines, ""))
        yield from results_differ(folder / "out", days)


class Workers:
    """An engine of three workers. Each runs a job as a command, and retries a failed one up to this many times."""

    def __init__(self, tries):
        self.tries, self.running, self.tried = tries, set(), 0

    def perform(self, line):
        for _ in range(self.tries):
            self.tried += 1
            with subprocess.Popen(shlex.split(line), stdout=subprocess.PIPE, stderr=subprocess.PIPE, text=True) as process:
                self.running.add(process)
                output, error = process.communicate()
                self.running.discard(process)
            if process.returncode == 0:
                return output
        return error

    def perform_all(self, plan):
        with ThreadPoolExecutor(3) as pool:
            return sorted(pool.map(self.perform, plan.splitlines()))


def workers_that_are_killed_lose_nothing(folder):
    """About half of the jobs are killed at random times, whatever they are doing. Meanwhile no result is incomplete."""
    days, out = days_in(folder, 12, orders=3000), folder / "out"
    begin = time.monotonic()
    job("snapshots", "--out", folder / "tried", [*days][0])
    length = time.monotonic() - begin
    # A job has more tries than there are kills, however slow the machine is.
    workers, chance, torn, killed = Workers(tries=50), random.Random(1), [], []

    def hunt():
        while len(killed) < 40 and not over.wait(chance.uniform(0, length)):
            torn.extend(torn_results(out))
            if running := list(workers.running):
                process = chance.choice(running)
                process.kill()
                killed.append(process.pid)

    over = threading.Event()
    hunter = threading.Thread(target=hunt)
    hunter.start()
    try:
        workers.perform_all(job("plan", "--out", out, *days).output)
    finally:
        over.set()
        hunter.join()
    yield from differs("torn results", torn, [])
    if len(killed) < 4:
        yield f"only {len(killed)} jobs were killed"
    lines = Workers(tries=1).perform_all(job("plan", "--out", out, *days).output)
    yield from differs("lines again", [line for line in lines if not line.startswith("found")], [])
    yield from results_differ(out, days)


def a_driver_that_is_killed_is_gone_on_with(folder):
    """The engine and everything that it started are killed in the middle of a job. When restarted, it does the remaining jobs and nothing
    else."""
    days, out, watched = days_in(folder, 12), folder / "out", Watched(folder)
    plan = job("plan", "--out", out, "--program", watched.path, *days).output
    with kit.started(XARGS, stdin=subprocess.PIPE, stdout=subprocess.DEVNULL, stderr=subprocess.DEVNULL, text=True) as driver:
        driver.stdin.write(plan)
        driver.stdin.close()
        wait_until(lambda: whole_results(out) >= 4, "four results are there")
        watched.hold()
        watched.held()
        os.killpg(driver.pid, signal.SIGKILL)
    missing = len(days) - whole_results(out)
    watched.release()
    watched.forget()
    done = subprocess.run(XARGS, input=plan, capture_output=True, text=True)
    yield from differs("status", (done.returncode, done.stderr), (0, ""))
    yield from differs("runs of the program", len(watched.runs()), missing)
    yield from differs("results made", done.stdout.count("made "), missing)
    if not 0 < missing <= len(days) - 4:
        yield f"{missing} of {len(days)} results were missing"
    for day, snapshot in days.items():
        yield from differs(f"result of {day.name}", bytes_of(out / name_of(day) / "end.snap"), snapshot)


def a_job_that_goes_on_beside_its_retry_does_no_harm(folder):
    """The engine believes that a job is lost, and runs it again while the first one continues."""
    [(day, snapshot)] = days_in(folder, 1).items()
    watched = Watched(folder)
    line = job("plan", "--out", folder / "out", "--program", watched.path, day).output
    watched.hold()
    with ThreadPoolExecutor(2) as pool:
        both = [pool.submit(Workers(tries=1).perform, line) for _ in range(2)]
        watched.held(), watched.held()
        watched.release()
        yield from differs("lines", [it.result() for it in both], ["made day0/end.snap\n"] * 2)
    yield from differs("result", bytes_of(folder / "out/day0/end.snap"), snapshot)
    yield from differs("again", Workers(tries=1).perform(line), "found day0/end.snap\n")


def a_cut_day_stays_missing_until_it_is_whole(folder):
    days, out = days_in(folder, 6), folder / "out"
    cut = [day for day in days if day.suffix != ".itch"]
    wholes = {day: day.read_bytes() for day in cut}
    for day, whole in wholes.items():
        day.write_bytes(whole[:-5])
    plan = job("plan", "--out", out, *days).output
    workers = Workers(tries=3)
    workers.perform_all(plan)
    yield from differs("tries", workers.tried, len(days) + 2 * len(cut))
    missing = "".join(f"missing {name_of(day)}/end.snap\n" for day in cut)
    yield from differs("report", job("report", "--out", out, *days), Ended(3, f"{missing}6 results, 0 refused, {len(cut)} missing\n", ""))
    for day, whole in wholes.items():
        day.write_bytes(whole)
    lines = workers.perform_all(plan)
    yield from differs("made", sum(line.startswith("made") for line in lines), len(cut))
    yield from results_differ(out, days)


RUNS = [
    xargs_does_a_plan,
    workers_that_are_killed_lose_nothing,
    a_driver_that_is_killed_is_gone_on_with,
    a_job_that_goes_on_beside_its_retry_does_no_harm,
    a_cut_day_stays_missing_until_it_is_whole,
]
