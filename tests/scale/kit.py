"""Helpers for the runs of scale/: days, `scale/job`, and a program that can be stopped in the middle of a job."""
import contextlib
import json
import os
import signal
import subprocess
import time
import zlib
from pathlib import Path
from typing import NamedTuple

import large
from common import file

TOP = Path(__file__).resolve().parents[2]
JOB = TOP / "scale/job"
PROGRAM = TOP / "release/itchsnap"
PATIENCE = 60

# The program, except that it notes each run, and each job that asks for its version. While a file `hold` exists, it stops in the middle
# of its output, and writes its process number and that of the job to `held`.
WATCHED = """#!/bin/bash
if [[ $1 == --version ]]; then
    echo $PPID >>{folder}/jobs
    exec {program} --version
fi
echo "$*" >>{folder}/runs
made=$(mktemp -p {folder})
{program} "$@" >"$made"
status=$?
half=$(($(stat -c %s "$made") / 2))
head -c "$half" "$made"
if [[ -e {folder}/hold ]]; then
    echo "$$ $PPID" >"$made.held"
    mv "$made.held" {folder}/held.$$
    while [[ -e {folder}/hold ]]; do sleep 0.02; done
fi
tail -c "+$((half + 1))" "$made"
rm "$made"
exit $status
"""


class Ended(NamedTuple):
    status: int
    output: str
    error: str


def job(*words):
    """Runs `scale/job`, and returns how it ended."""
    done = subprocess.run([JOB, *map(str, words)], capture_output=True, text=True, stdin=subprocess.DEVNULL, timeout=PATIENCE)
    return Ended(done.returncode, done.stdout, done.stderr)


def program(*words):
    """Returns the output of the program."""
    return subprocess.run([PROGRAM, *map(str, words)], capture_output=True, check=True, timeout=PATIENCE).stdout


def write_day(path, day):
    """Writes a day file, compressed according to its suffix."""
    if path.suffix == ".gz":
        day = zlib.compress(day, level=1, wbits=31)
    elif path.suffix == ".zst":
        day = subprocess.run(["zstd", "-qc"], input=day, capture_output=True, check=True).stdout
    path.write_bytes(day)
    return path


def generated(messages, symbols, *more):
    """Returns a day of `bench/generate`."""
    return subprocess.run([TOP / "bench/generate", *map(str, (messages, symbols, *more))], capture_output=True, check=True).stdout


def days_in(folder, count, orders=300):
    """Returns days that are plain, .gz and .zst in turn, each with the bytes of its snapshot, which are computed without the program."""
    (folder / "days").mkdir()
    days = {}
    for number in range(count):
        day, snapshot = large.orders(orders, symbols=20, seed=number)
        suffix = ("", ".gz", ".zst")[number % 3]
        days[write_day(folder / f"days/day{number}.itch{suffix}", day)] = snapshot
    return days


def name_of(day):
    return day.name.split(".")[0]


def bytes_of(path):
    return path.read_bytes() if path.exists() else None


def manifest(path):
    return json.loads(path.with_name(f"{path.name}.json").read_text())


def attempts(out):
    return list(out.glob("*/.attempt-*"))


def wait_until(holds, what):
    for _ in range(PATIENCE * 100):
        if found := holds():
            return found
        time.sleep(0.01)
    raise TimeoutError(f"waited in vain until {what}")


def runs_on(process):
    """Returns whether there is a process with this number that is not a zombie."""
    try:
        return Path(f"/proc/{process}/stat").read_text().rpartition(")")[2].split()[0] != "Z"
    except FileNotFoundError:
        return False


def parent_of(process):
    return int(Path(f"/proc/{process}/stat").read_text().rpartition(")")[2].split()[1])


def kill(process):
    os.kill(process, signal.SIGKILL)


@contextlib.contextmanager
def started(words, **more):
    """Yields a process. In the end kills it and everything that it started."""
    with subprocess.Popen([*map(str, words)], start_new_session=True, **more) as process:
        try:
            yield process
        finally:
            with contextlib.suppress(ProcessLookupError):
                os.killpg(process.pid, signal.SIGKILL)


class Watched:
    """A program in a folder of its own, which behaves like WATCHED."""

    def __init__(self, folder):
        self.folder = folder / "watched"
        self.folder.mkdir()
        self.path = self.folder / "itchsnap"
        self.path.write_text(WATCHED.format(program=PROGRAM, folder=self.folder))
        self.path.chmod(0o755)

    def noted(self, name):
        noted = self.folder / name
        return noted.read_text().splitlines() if noted.exists() else []

    def runs(self):
        """Returns the arguments of each run so far."""
        return self.noted("runs")

    def jobs(self):
        """Returns the process number of each job so far."""
        return self.noted("jobs")

    def forget(self):
        (self.folder / "runs").unlink(missing_ok=True)

    def hold(self):
        (self.folder / "hold").touch()

    def release(self):
        (self.folder / "hold").unlink()

    def held(self):
        """Waits for a stopped program, and returns its process number and that of its job."""
        [found, *_] = wait_until(lambda: list(self.folder.glob("held.*")), "a job is held")
        numbers = tuple(map(int, found.read_text().split()))
        found.unlink()
        return numbers


REFUSED_DAY = file("AAPL MSFT_AT_1")
REFUSAL = "message 2: stock mismatch"
