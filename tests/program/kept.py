"""`live` with a record and snapshots, killed at each call in turn, or with a write that fails: a restart continues with both.

RUNS lists the runs: functions that take the program and yield the differences found.
"""
import signal
import time

from calls import failing_in_turn, shim
from common import differs, split
from living import ENDED, Feed, day_of, feeding, fetch, folder_with, live, number_of, plays, snapshot_after

EVERY = 20


class Keeping:
    """A server that is restarted after it has ended, and checks of what it must have kept by then."""

    def __init__(self, program, library, **environment):
        self.program, self.environment = program, {"LD_PRELOAD": str(library), **environment}
        self.day, _ = day_of(80)
        self.blocks = split(self.day)
        self.snapshots = {count: snapshot_after(program, self.day, count) for count in range(EVERY, len(self.blocks) + 1, EVERY)}

    def run(self, folder, **environment):
        words = "--record", folder / "record", "--snapshots", folder / "snapshots", "--every", EVERY
        with Feed(plays(self.day, then=ENDED)) as feed, live(self.program, feed.port, *words, **environment) as server:
            return server.ended()

    def attempt(self, kind, nth):
        with folder_with() as folder:
            (folder / "snapshots").mkdir()
            failed = folder / "failed"
            self.run(folder, FAIL=f"{kind}:{nth}", FAILED=str(failed), **self.environment)
            differences = list(self.differences(folder))
            status, _, lines = self.run(folder)
            if status != 0:
                differences.append(f"started again: {status}, {lines}")
            else:
                differences += self.differences(folder)
                differences += differs("the record in the end", (folder / "record").read_bytes() == self.day, True)
            return differences, failed.exists()

    def differences(self, folder):
        """The record is a beginning of the day and contains each message of every snapshot, and no snapshot contains anything else."""
        record = (folder / "record").read_bytes() if (folder / "record").exists() else b""
        yield from differs("the record", self.day.startswith(record), True)
        for path in (folder / "snapshots").glob("*.snap"):
            count = int(path.stem)
            yield from differs(path.name, path.read_bytes() == self.snapshots.get(count), True)
            if len(record) < len(b"".join(self.blocks[:count])):
                yield f"{path.name}: the record has {len(record)} bytes"


def the_record_has_what_each_snapshot_has(program):
    """The process is killed at any call, or any write fails. It resumes with both when it is restarted."""
    with shim() as library:
        yield from failing_in_turn(Keeping(program, library, KILLS="1").attempt, "open write sync rename".split())
        yield from failing_in_turn(Keeping(program, library).attempt, ["write"])


def sigterm_loses_nothing_that_a_client_was_sent(program):
    """The record contains each message of the snapshot that was fetched before, and a restart resumes with it to the complete day."""
    day, _ = day_of(2000)
    blocks = split(day)
    with folder_with(day=day) as folder, feeding(program, folder / "day", "--rate", "4000") as feed:
        for nth in range(1, 9):
            with live(program, feed.port, "--record", folder / "record") as server:
                time.sleep(0.02 * nth)
                status, snapshot, _ = fetch(program, server.port)
                server.process.terminate()
                ended, _, lines = server.ended()
                # On a busy machine the day may be over before all eight have been killed.
                if ended == 0 and lines[-1].startswith("feed: ended"):
                    break
                yield from differs(f"{nth}", (status, ended), (0, -signal.SIGTERM))
            record = (folder / "record").read_bytes()
            if not day.startswith(record) or len(record) < len(b"".join(blocks[:number_of(snapshot) - 1])):
                yield f"{nth}: a record of {len(record)} bytes, after a snapshot up to {number_of(snapshot)}"
        with live(program, feed.port, "--record", folder / "record") as server:
            yield from differs("in the end", (server.ended()[0], (folder / "record").read_bytes() == day), (0, True))


RUNS = [the_record_has_what_each_snapshot_has, sigterm_loses_nothing_that_a_client_was_sent]
