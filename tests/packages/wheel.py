"""The wheel of the Python package in a plain virtual environment.

RUNS lists the runs: functions that yield the differences found.
"""
import shutil
import sys
import tempfile
from pathlib import Path

from kit import EXAMPLES, Skipped, fails, packed, ran, snapshot_differs

SNAP = "import sys, sundrekk; sundrekk.Day(sys.argv[1]).snapshot().write(sys.argv[2])"


def environment(folder):
    """Yields the Python of a new plain virtual environment."""
    for python in ("/usr/bin/python3", sys.executable):
        if shutil.which(python) and ran(python, "-m", "venv", folder)[0] == 0:
            return folder / "bin/python"
        shutil.rmtree(folder, ignore_errors=True)
    raise Skipped("no Python that can make virtual environments is installed: on Debian, install python3-venv")


def the_wheel_installs_without_an_index_and_without_a_build():
    wheel, = packed().glob("*.whl")
    with tempfile.TemporaryDirectory() as name:
        folder = Path(name)
        python = environment(folder / "venv")
        yield from fails("pip", python, "-m", "pip", "install", "--no-index", "--no-cache-dir", "--disable-pip-version-check", wheel)
        yield from fails("the snapshot", python, "-c", SNAP, EXAMPLES / "opening.itch", folder / "out.snap", folder=folder)
        yield from snapshot_differs("the snapshot", folder / "out.snap")


RUNS = [the_wheel_installs_without_an_index_and_without_a_build]
