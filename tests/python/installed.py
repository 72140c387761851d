"""The package as pip installs it, away from the checkout.

RUNS lists the runs: functions that yield the differences found.
"""
import re
import shutil
import subprocess
import sys
import tempfile
from pathlib import Path

import samples
import sundrekk
from common import differs

PACKAGE = samples.TOP / "python"
# The packages that pip needs when it must not download any.
NEEDED = ("pip", "setuptools", "wheel")
SNAP = """
import sys
import sundrekk

print(sundrekk.__file__, flush=True)
sys.stdout.buffer.write(sundrekk.Day(sys.argv[1]).snapshot().data)
"""


def installer():
    """Returns a Python that has the packages that pip needs: this one, or the system's."""
    has_all = f"import importlib.util; assert all(map(importlib.util.find_spec, {NEEDED}))"
    for python in (sys.executable, "/usr/bin/python3"):
        if Path(python).exists() and subprocess.run([python, "-c", has_all], capture_output=True).returncode == 0:
            return python
    return None


def installed(python, folder):
    """Installs the package into a folder, from a copy that is then removed. Returns pip's output if it fails."""
    with tempfile.TemporaryDirectory() as name:
        copy = Path(name)
        shutil.copytree(PACKAGE, copy / "python", ignore=shutil.ignore_patterns("build", "*.egg-info", "__pycache__"))
        done = subprocess.run([python, "-m", "pip", "install", "--no-index", "--no-build-isolation", "--no-deps", "--no-cache-dir",
                               "--disable-pip-version-check", "--target", folder, copy / "python"], stdout=subprocess.PIPE,
                              stderr=subprocess.STDOUT, text=True, timeout=120)
    return "" if done.returncode == 0 else done.stdout


def pip_installs_a_package_that_stands_alone():
    python = installer()
    if python is None:
        print(f"skipped: the installation by pip: no Python is installed with {', '.join(NEEDED)}")
        return
    with tempfile.TemporaryDirectory() as name:
        folder = Path(name)
        if failed := installed(python, folder):
            yield failed
            return
        sources = {it.name for it in (PACKAGE / "sundrekk").iterdir() if it.suffix in (".py", ".typed", ".so") or it.name == "py.typed"}
        yield from differs("the files", {it.name for it in (folder / "sundrekk").iterdir() if it.name != "__pycache__"}, sources)
        library = folder / "sundrekk/libitchsnap.so"
        if library.read_bytes() != (samples.TOP / "release/libitchsnap.so").read_bytes():
            yield "the library differs from that in release/"
        yield from metadata(folder)
        done = subprocess.run([sys.executable, "-B", "-c", SNAP, samples.EXAMPLES / "first_order.itch"], cwd=folder,
                              env={"PYTHONPATH": name}, capture_output=True, timeout=60)
        wanted = f"{folder}/sundrekk/__init__.py\n".encode() + samples.example("first_order.snap")
        yield from differs("a snapshot", (done.stdout, done.stderr), (wanted, b""))


def metadata(folder):
    """The metadata that pip has stored: the version, and the machines that the package is for."""
    noted, = folder.glob("sundrekk-*.dist-info")
    yield from differs("the version", re.findall("^Version: (.*)", (noted / "METADATA").read_text(), re.M), [sundrekk.__version__])
    yield from differs("the machines", re.findall("^Tag: (.*)", (noted / "WHEEL").read_text(), re.M), ["py3-none-manylinux_2_17_x86_64"])


def the_version_is_that_of_the_program():
    printed = subprocess.run([samples.PROGRAM, "--version"], capture_output=True, text=True, check=True).stdout
    yield from differs("the version", printed.split()[1], sundrekk.__version__)


def the_library_is_that_of_the_release():
    if (PACKAGE / "sundrekk/libitchsnap.so").read_bytes() != (samples.TOP / "release/libitchsnap.so").read_bytes():
        yield "the library in the package differs from that in release/"


RUNS = [pip_installs_a_package_that_stands_alone, the_version_is_that_of_the_program, the_library_is_that_of_the_release]
