"""The adapters, over GNU parallel and Dask if installed, and over stand-ins for the parts of them that they use.

RUNS lists the runs of each engine: functions that take a folder and yield the differences found.
"""
import contextlib
import csv
import os
import shutil
import signal
import subprocess
import sys
import tempfile
import time
from importlib.util import find_spec
from pathlib import Path

import kit
from common import differs
from engines import results_differ, whole_results
from kit import PATIENCE, REFUSAL, REFUSED_DAY, TOP, Watched, bytes_of, days_in, name_of, wait_until, write_day

STAND_INS = Path(__file__).resolve().parent / "stand_ins"
REFUSED, MISSING, USAGE = 1, 3, 2


class Engine:
    """An adapter over an engine, with its arguments for three jobs at a time."""

    def __init__(self, name, adapter, here, **environment):
        self.name, self.adapter, self.here, self.environment = name, TOP / "scale" / adapter, here, {**os.environ, **environment}

    def started(self, *words):
        return kit.started([self.adapter, *words], stdout=subprocess.PIPE, stderr=subprocess.PIPE, text=True, env=self.environment)

    def run(self, *words):
        """Runs the adapter, and returns its status, its lines, and its errors."""
        with self.started(*words) as process:
            output, error = process.communicate(timeout=3 * PATIENCE)
        return process.returncode, output.splitlines(), error

    def worker_of(self, job):
        """Returns the process to kill so that a worker is lost with its job. In GNU parallel the job is its own worker."""
        return kit.parent_of(job) if self.adapter.name == "on-dask" else job


def engines():
    """Yields the stand-ins, and each engine that is installed. Prints which are not."""
    path = f"{STAND_INS / 'bin'}:{os.environ['PATH']}"
    # The user's shell on each machine runs nothing, since the commands must not depend on it. GNU parallel warns if there is no HOME.
    user = {"PARALLEL_SSH": str(STAND_INS / "bin/here"), "SHELL": "/bin/false", "HOME": os.environ.get("HOME", tempfile.gettempdir())}
    yield Engine("a stand-in for GNU parallel", "on-parallel", ["--jobs", "3"], PATH=path, **user)
    yield Engine("a stand-in for Dask", "on-dask", ["--workers", "3"], PYTHONPATH=str(STAND_INS))
    version = shutil.which("parallel") and subprocess.run(["parallel", "--version"], capture_output=True, text=True).stdout
    if (version or "").startswith("GNU parallel"):
        yield Engine("GNU parallel", "on-parallel", ["--jobs", "3"], **user)
    else:
        print("skipped: the runs over GNU parallel itself: GNU parallel is not installed")
    if find_spec("distributed"):
        yield Engine("Dask", "on-dask", ["--workers", "3"])
    else:
        print("skipped: the runs over Dask itself: Dask is not installed")


def does_days_in_parts_with_tables(engine, folder):
    days, out = days_in(folder, 3), folder / "out"
    status, lines, error = engine.run(*engine.here, "--out", out, "--parts", "2", "--locates", "20", "--ended", "--tables", *days)
    made = [f"made {name_of(day)}/{name}" for day in days for name in
            ("end.0-10.snap", "end.11-65535.snap", "check.txt", "end.snap", "end.csv")]
    refused = [f"refused {name_of(day)}/check-ended.txt: no end of messages" for day in days]
    count = ["18 results, 3 refused, 0 missing"]
    before = lines.index(count[0]) + 1
    yield from differs("status", status, REFUSED)
    yield from differs("lines", sorted(lines[:before]), sorted(made + 2 * refused + count))
    yield from results_differ(out, days)
    if engine.name == "Dask" and find_spec("pandas"):
        yield from sums_differ(lines[before:], out.glob("*/*.csv"))


def sums_differ(lines, tables):
    """Yields a difference unless the levels, shares and orders of each table are as Python counts them."""
    for table in tables:
        with open(table, newline="") as file:
            rows = list(csv.DictReader(file))
        wanted = [str(table), *map(str, (len(rows), sum(int(row["shares"]) for row in rows), sum(int(row["orders"]) for row in rows)))]
        if wanted not in map(str.split, lines):
            yield f"{wanted} is not in {lines}"


def makes_a_table_after_its_snapshot(engine, folder):
    """There is a worker for each job, but the table waits for its snapshot, however long that takes."""
    [day], out, watched = days_in(folder, 1), folder / "out", Watched(folder)
    watched.hold()
    with engine.started(*engine.here, "--out", out, "--program", watched.path, "--tables", day) as process:
        watched.held()
        time.sleep(1)
        begun = len(watched.jobs())
        watched.release()
        output, error = process.communicate(timeout=3 * PATIENCE)
    yield from differs("jobs that began", begun, 1)
    wanted = ["made day0/end.snap", "made day0/end.csv", "2 results, 0 refused, 0 missing"]
    yield from differs("lines", (process.returncode, output.splitlines()[:3]), (0, wanted))
    if error and "no dataframes here" not in error:
        yield f"error {error!r}"


@contextlib.contextmanager
def elsewhere(engine, folder):
    """Yields the arguments for workers that are not the adapter's own: two machines through a stand-in for ssh, or those of a
    scheduler."""
    if engine.adapter.name == "on-parallel":
        engine.environment["HOSTS_NOTED"] = str(folder / "hosts")
        yield ["--on", "2/node1,1/node2"]
        del engine.environment["HOSTS_NOTED"]
    elif engine.name != "Dask":
        yield ["--scheduler", "3"]
    else:
        address = folder / "scheduler"
        processes = [subprocess.Popen([sys.executable, "-m", "distributed.cli.dask_scheduler", "--port", "0", "--host", "127.0.0.1",
                                       "--no-dashboard", "--scheduler-file", address], stderr=subprocess.DEVNULL)]
        processes += [subprocess.Popen([sys.executable, "-m", "distributed.cli.dask_worker", "--nthreads", "1", "--no-nanny",
                                        "--no-dashboard", "--scheduler-file", address], stderr=subprocess.DEVNULL) for _ in range(3)]
        try:
            text = wait_until(lambda: bytes_of(address), "the scheduler has an address")
            yield ["--scheduler", kit.json.loads(text)["address"]]
        finally:
            for process in processes:
                process.kill()
                process.wait()


def does_days_on_other_machines(engine, folder):
    days, out = days_in(folder, 6), folder / "out"
    with elsewhere(engine, folder) as words:
        status, lines, error = engine.run(*words, "--out", out, *days)
    wanted = [f"made {name_of(day)}/end.snap" for day in days] + ["6 results, 0 refused, 0 missing"]
    yield from differs("end", (status, sorted(lines)), (0, sorted(wanted)))
    if status:
        yield f"error {error!r}"
    yield from results_differ(out, days)
    if engine.adapter.name == "on-parallel":
        hosts = set((bytes_of(folder / "hosts") or b"").decode().split())
        yield from differs("hosts", hosts, {"node1", "node2"})


def loses_nothing_with_a_worker(engine, folder):
    """A worker is killed in the middle of a job. Only that job is done again."""
    days, out, watched = days_in(folder, 6), folder / "out", Watched(folder)
    watched.hold()
    with engine.started(*engine.here, "--out", out, "--program", watched.path, *days) as process:
        program, job = watched.held()
        kit.kill(engine.worker_of(job))
        wait_until(lambda: not kit.runs_on(program), "the program has ended with the worker")
        watched.release()
        output, error = process.communicate(timeout=3 * PATIENCE)
    yield from differs("status", process.returncode, 0)
    yield from differs("count", output.splitlines()[-1:], ["6 results, 0 refused, 0 missing"])
    yield from differs("runs of the program", len(watched.runs()), 7)
    for day, snapshot in days.items():
        yield from differs(f"result of {day.name}", bytes_of(out / name_of(day) / "end.snap"), snapshot)


def goes_on_after_its_end(engine, folder):
    """The adapter and its engine are killed in the middle of a job. The same command then does the remaining jobs."""
    days, out, watched = days_in(folder, 9), folder / "out", Watched(folder)
    words = *engine.here, "--out", out, "--program", watched.path, *days
    with engine.started(*words) as process:
        wait_until(lambda: whole_results(out) >= 2, "two results are there")
        watched.hold()
        watched.held()
        os.killpg(process.pid, signal.SIGKILL)
        process.communicate()
    missing = len(days) - whole_results(out)
    watched.forget()
    watched.release()
    status, lines, error = engine.run(*words)
    yield from differs("end", (status, lines[-1:]), (0, ["9 results, 0 refused, 0 missing"]))
    # The engine may have left a job running, which may be done by now.
    if len(watched.runs()) > missing or not 0 < missing < len(days) - 1:
        yield f"{len(watched.runs())} runs of the program, where {missing} results were missing"
    for day, snapshot in days.items():
        yield from differs(f"result of {day.name}", bytes_of(out / name_of(day) / "end.snap"), snapshot)


def says_what_is_refused_and_what_is_missing(engine, folder):
    days, out = days_in(folder, 2), folder / "out"
    [_, cut] = days
    whole = cut.read_bytes()
    cut.write_bytes(whole[:-5])
    bad = write_day(folder / "bad.itch", REFUSED_DAY)
    words = *engine.here, "--out", out, *days, bad
    refused = f"refused bad/end.snap: {REFUSAL}"
    status, lines, error = engine.run(*words)
    yield from differs("lines", lines[-3:], [f"missing {name_of(cut)}/end.snap", refused, "3 results, 1 refused, 1 missing"])
    yield from differs("status", status, MISSING)
    if f"{cut.name} is not read to its end" not in error:
        yield f"error {error!r}"
    cut.write_bytes(whole)
    status, lines, _ = engine.run(*words)
    wanted = sorted([f"found {name_of(day)}/end.snap" for day in days if day != cut] + [f"made {name_of(cut)}/end.snap", refused])
    yield from differs("lines, whole", (sorted(lines[:3]), lines[3:]), (wanted, [refused, "3 results, 1 refused, 0 missing"]))
    yield from differs("status, whole", status, REFUSED)
    yield from results_differ(out, days)


def refuses_words(engine, folder):
    for words, said in (((*engine.here, "--out", folder, folder / "none"), "is not a file"), (engine.here[:1], engine.here[0])):
        status, lines, error = engine.run(*words)
        if (status, lines) != (USAGE, []) or said not in error:
            yield f"{words}: {status}, {lines}, {error!r}"


def adapters_say_what_is_not_installed(folder):
    """With a PATH that contains no engine."""
    for name in "bash", "dirname", "grep", "python3", "readlink", "env":
        (folder / name).symlink_to(sys.executable if name == "python3" else shutil.which(name))
    for adapter, engine in ("on-parallel", "GNU parallel"), ("on-dask", "Dask"):
        isolated = [folder / "python3", "-S", TOP / "scale" / adapter] if adapter == "on-dask" else [TOP / "scale" / adapter]
        day = kit.write_day(folder / "day.itch", b"")
        done = subprocess.run([*isolated, "--out", folder, day], env={"PATH": str(folder)}, capture_output=True, text=True)
        if (done.returncode, done.stdout) != (USAGE, "") or f"{engine} is not installed" not in done.stderr:
            yield f"{adapter}: {done}"


def each_script_prints_its_usage(folder):
    """With an engine that would run any job, and without one. Nothing is run."""
    out, day, parallel = folder / "out", kit.write_day(folder / "day.itch", b""), next(engines())
    scripts = [path for path in (TOP / "scale").iterdir() if path.is_file() and os.access(path, os.X_OK)]
    yield from differs("scripts", sorted(path.name for path in scripts), ["job", "on-dask", "on-parallel"])
    calls = [[path, option] for path in scripts for option in ("--help", "-h")]
    calls += [[TOP / "scale/job", kind, "--help"] for kind in ("plan", "report", "snapshots", "check", "merge", "tables")]
    calls += [[TOP / "scale" / name, *before, "--out", out, *after] for name in ("on-parallel", "on-dask")
              for before, after in (((), (day, "--help")), ((), ("-h", day)))]
    calls.append([TOP / "scale/on-parallel", "--jobs", "2", "-hh", "--out", out, day])
    for words in calls:
        for environment in os.environ, parallel.environment:
            done = subprocess.run(words, env=environment, capture_output=True, text=True, timeout=PATIENCE)
            if (done.returncode, done.stdout[:7], done.stderr) != (0, "usage: ", "") or "made" in done.stdout:
                yield f"{words}: {done}"
    # After a usage error no line of a plan is printed, so the engine receives none.
    for words in [TOP / "scale/job", "plan"], [TOP / "scale/on-parallel"], [TOP / "scale/on-dask"]:
        done = subprocess.run([*words, "--he", "--out", out, day], env=parallel.environment, capture_output=True, text=True)
        yield from differs(f"{words} --he", (done.returncode, done.stdout), (USAGE, ""))
    yield from differs("results", out.exists(), False)


def run_of(engine, run):
    """Returns a run over one engine."""
    def of_engine(folder):
        return run(engine, folder)
    of_engine.__name__ = f"{engine.name} {run.__name__}"
    return of_engine


EACH = [
    does_days_in_parts_with_tables,
    makes_a_table_after_its_snapshot,
    does_days_on_other_machines,
    loses_nothing_with_a_worker,
    goes_on_after_its_end,
    says_what_is_refused_and_what_is_missing,
    refuses_words,
]
RUNS = [adapters_say_what_is_not_installed, each_script_prints_its_usage, *(run_of(engine, run) for engine in engines() for run in EACH)]
