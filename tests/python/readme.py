"""The examples of python/README.md, and that each public name is explained.

RUNS lists the runs: functions that yield the differences found.
"""
import doctest
import inspect
import os
import subprocess
import sys

import samples
import sundrekk

README = samples.TOP / "python/README.md"


def the_readme_shows_what_happens():
    if not doctest.DocTestParser().get_examples(README.read_text()):
        yield "no example"
    done = subprocess.run([sys.executable, "-B", "-m", "doctest", README], cwd=samples.TOP, text=True, stdout=subprocess.PIPE,
                          stderr=subprocess.STDOUT, env={**os.environ, "PYTHONPATH": str(samples.TOP / "python")}, timeout=60)
    if done.returncode or done.stdout:
        yield done.stdout


def each_public_name_is_explained():
    for name in sundrekk.__all__:
        item = getattr(sundrekk, name)
        if not inspect.getdoc(item):
            yield name
        members = inspect.getmembers(item) if inspect.isclass(item) else []
        for member, value in members:
            own = inspect.isfunction(value) or inspect.ismethod(value) or isinstance(value, property)
            if own and not member.startswith("_") and not inspect.getdoc(value):
                yield f"{name}.{member}"


RUNS = [the_readme_shows_what_happens, each_public_name_is_explained]
