"""Helpers for the modules of runs: commands, the packages of this checkout, and reasons to skip a run."""
import functools
import os
import shutil
import subprocess
import tempfile
from pathlib import Path

TOP = Path(__file__).resolve().parents[2]
RELEASE = TOP / "release"
EXAMPLES = TOP / "examples"
# The version of the packages.
VERSION = dict(line.split(" ", 1) for line in (RELEASE / "RECORD").read_text().splitlines())["version"]
KEPT = Path(os.environ.get("XDG_CACHE_HOME") or Path.home() / ".cache") / "sundrekk"


class Skipped(Exception):
    """The reason for skipping a run."""


def need(*tools):
    """Skips the run if a tool is missing."""
    if missing := [it for it in tools if not shutil.which(it)]:
        raise Skipped(f"not installed: {', '.join(missing)}")


def ran(*words, folder=None, timeout=600, **environment):
    """Runs a command, and returns its status, and both outputs together."""
    done = subprocess.run([str(it) for it in words], cwd=folder, env={**os.environ, **environment}, stdin=subprocess.DEVNULL,
                          stdout=subprocess.PIPE, stderr=subprocess.STDOUT, text=True, errors="backslashreplace", timeout=timeout)
    return done.returncode, done.stdout


def fails(label, *words, **more):
    """Yields the output of a command if it fails."""
    status, said = ran(*words, **more)
    if status:
        yield f"{label}: status {status}\n{said}".rstrip()


def differs(label, got, wanted):
    if got != wanted:
        yield f"{label}: {repr(got)[:400]}, not {repr(wanted)[:400]}"


def snapshot_differs(label, out):
    """Yields a difference unless a file is the snapshot of opening.itch."""
    yield from differs(label, out.read_bytes() if out.exists() else None, (EXAMPLES / "opening.snap").read_bytes())


@functools.cache
def packed():
    """Returns the folder with the packages that `tools/pack` makes of the release. They are made once per process."""
    status, said = ran(TOP / "tools/pack", "--tools")
    if status:
        raise Skipped(said.strip())
    room = tempfile.TemporaryDirectory()
    folder = Path(room.name) / "dist"
    packed.room = room
    status, said = ran(TOP / "tools/pack", folder)
    if status:
        raise RuntimeError(f"tools/pack: {said}")
    return folder
