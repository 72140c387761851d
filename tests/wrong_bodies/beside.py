"""The libraries that a concurrent run of `rt ci` has proved so far."""
import contextlib
import os
import re
import shutil
import threading
from pathlib import Path

from kit import link_or_copy

# The line that rt ci prints for a crate that it has proved, now or in an earlier run. Its library then exists.
PROVED = re.compile(r"^rt: (\w+) (?:proved|is kept: .*)$", re.MULTILINE)


class Turns:
    """Lets as many tasks run at once as there are lanes, and a quarter as many while `rt ci` runs, whose largest checks take 10 GB."""

    def __init__(self, lanes, proofs):
        self.lanes = lanes
        self.proofs = proofs
        self.running = 0
        self.changing = threading.Condition()

    def is_free(self):
        return self.running < (self.lanes if self.proofs.have_ended else max(1, self.lanes // 4))

    @contextlib.contextmanager
    def turn(self):
        """Waits for a turn, and keeps it until the task has ended."""
        with self.changing:
            # (nothing signals the end of rt ci)
            while not self.changing.wait_for(self.is_free, timeout=1):
                pass
            self.running += 1
        try:
            yield
        finally:
            with self.changing:
                self.running -= 1
                self.changing.notify()


class Proofs:
    """Follows the log of `rt ci`, and copies the libraries that it makes: when it ends, it may replace them with older ones."""

    def __init__(self, log, crates, room):
        self.log = Path(log)
        self.crates = {it.name: it for it in crates}
        self.room = room
        self.seen = set()
        self.proved = set()
        self.lost = set()
        self.have_ended = False
        threading.Thread(target=self.follow, daemon=True).start()

    def follow(self):
        resting, end = threading.Event(), Path(f"{self.log}.ended")
        try:
            while not end.exists():
                self.look()
                resting.wait(1)
            self.look()
        finally:
            self.have_ended = True

    def look(self):
        """Copies the libraries made since the last look."""
        said = self.log.read_text(encoding="utf-8", errors="replace")
        for name in PROVED.findall(said):
            if name not in self.seen:
                self.seen.add(name)
                (self.proved if self.take_library(self.crates[name]) else self.lost).add(name)

    def take_library(self, crate):
        """Makes checks use a copy of the library. Returns whether it is from rt ci, which, unlike other checks, writes no stamp."""
        if not crate.makes_rlib():
            return True
        to = f"{self.room}/libraries/{crate.name}"
        try:
            shutil.copytree(os.path.dirname(crate.rlib), to, copy_function=link_or_copy)
        except (OSError, shutil.Error):
            return False
        if Path(to, "stamp").exists():
            return False
        crate.rlib = f"{to}/{crate.name}.rlib"
        return True

    def leave(self):
        """Makes checks use the libraries in the crates' own folders again."""
        for it in self.crates.values():
            it.rlib = f"{it.folder}/out/rlib/{it.name}.rlib"

    def are_enough_for(self, crate):
        """Returns whether the libraries below a crate are proved."""
        return {it.name for it in crate.below()} <= self.proved
