"""Checks a copy of a crate as rt does, measures the processor time, and reads what rattle reports about a function."""
import os
import re
import shutil
import subprocess
import tempfile
import threading
import time
from pathlib import Path

from kit import rt, rtlib

# The line of a function for one of whose own goals search found no proof. A call of a function that is not proved is not its own failure.
SEARCHED = re.compile(r"no proof: expected .*`search` did not prove")
# The last line of a check of some functions.
COUNTED = re.compile(r"only=\d+ proved=\d+")
# An error in a proof file that names something the edit removed says nothing about the contract.
NAMES_ONLY = re.compile(r"has no field|is not in scope|has no `|was not admitted|which was rejected, was not checked")


class Checker:
    """Replaces rt's own `checked`, and adds up the processor seconds of each crate."""

    def __init__(self, logs):
        self.logs = logs
        shutil.rmtree(logs, ignore_errors=True)
        os.makedirs(logs)
        self.seconds = {}
        self.number = 0
        self.counting = threading.Lock()

    def checked(self, crate, texts, flags, kept):
        """Checks a copy of the crate with these texts in place of its own. Uses the results in `kept`, if it is given."""
        with tempfile.TemporaryDirectory(prefix="edits-") as room:
            for part in rtlib.PARTS:
                if os.path.isdir(f"{crate.folder}/{part}"):
                    shutil.copytree(f"{crate.folder}/{part}", f"{room}/{part}")
            for path, text in texts.items():
                Path(room, path).write_text(text, encoding="utf-8")
            words = [rtlib.RATTLE, "check", *crate.words(flags, keeps=False), *(["--incremental", kept] if kept else []), "--progress"]
            return self.run(crate, [*rtlib.guarded(), *words], room)

    def run(self, crate, words, room):
        """Runs a command to its end, as subprocess.run does, and measures its processor time."""
        how = {"cwd": room, "stdin": subprocess.DEVNULL, "stdout": subprocess.PIPE, "stderr": subprocess.STDOUT, "errors": "replace"}
        begin = time.monotonic()
        started = subprocess.Popen(words, **how)
        with started.stdout:
            timed = [(time.monotonic() - begin, line) for line in started.stdout]
        said = "".join(line for _, line in timed)
        _, status, usage = os.wait4(started.pid, 0)
        started.returncode = os.waitstatus_to_exitcode(status)
        with self.counting:
            self.number += 1
            spent = usage.ru_utime + usage.ru_stime
            self.seconds[crate.name] = self.seconds.get(crate.name, 0) + spent
            lines = "".join(f"{seconds:7.1f} {line}" for seconds, line in timed)
            Path(self.logs, f"{crate.name}.{self.number}.log").write_text(f"{lines}\nprocessor seconds: {spent:.1f}\n")
        return subprocess.CompletedProcess(words, started.returncode, said)


def only(functions):
    """Returns the arguments with which a check reads only these functions and those that they call."""
    return [word for it in sorted(functions) for word in ("--only", it)]


def reached_the_prover(ran, texts):
    """Returns whether the prover could read every text, and rejected some of the functions that it was asked to check."""
    lines = ran.stdout.rstrip("\n").split("\n")
    if any(rt.unread(it, texts) for it in lines) or rtlib.STALE.search(ran.stdout):
        return False
    return ran.returncode == 1 and bool(COUNTED.match(lines[-1]))


def own_failure(said, crate, function):
    """Returns rattle's line about the function if one of its own goals failed, and otherwise an empty string."""
    lines = said.split("\n")
    verdict = next((it for it in lines if it.startswith(f"fn {crate.name}::{function}: ")), "").partition(": ")[2]
    if SEARCHED.match(verdict):
        return verdict
    if not verdict.startswith(("not proved", "no proof")):
        return ""
    # a goal that its own proof file no longer proves
    own = re.compile(rf"(\./)?proofs/{re.escape(function.replace('::', '/'))}/\w+\.antt:\d+:\d+: error: ")
    return next((it for it in lines if own.match(it) and not NAMES_ONLY.search(it)), "")
