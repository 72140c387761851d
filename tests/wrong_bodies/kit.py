"""The toolchain's own `rt`, as modules. The arguments of a check and the test of an edit come from rt, and are not duplicated
here."""
import importlib.machinery
import importlib.util
import os
import shutil
import subprocess
import sys

# The memory of a check over the result of another one, as a part of that of a check from nothing.
MEMORY_OVER = 0.6


def load(name, path):
    """Loads a Python file whose name need not end in .py."""
    loader = importlib.machinery.SourceFileLoader(name, path)
    module = importlib.util.module_from_spec(importlib.util.spec_from_loader(name, loader))
    sys.modules[name] = module
    loader.exec_module(module)
    return module


def load_rt():
    """Loads rt from the folder of the page that `rt doc` names."""
    try:
        page = subprocess.run(["rt", "doc"], capture_output=True, text=True, check=True).stdout.strip()
    except (OSError, subprocess.CalledProcessError) as error:
        sys.exit(f"tests/wrong_bodies: the toolchain's rt cannot be run: {error}")
    return load("rt", f"{os.path.dirname(page)}/bin/rt")


sys.dont_write_bytecode = True
rt = load_rt()
rtlib = rt.rtlib


def toolchain_line():
    """Returns the line that `rt version` prints."""
    with open(f"{rt.KIT}/KIT-ID", encoding="utf-8") as it:
        return it.read().strip()


def logic_line():
    """Returns the part of that line that names the logic in which proofs are checked. Versions of the toolchain can share it."""
    return toolchain_line().partition(" ")[2]


def link_or_copy(source, to):
    """Links a file, or copies it to another file system."""
    try:
        os.link(source, to)
    except OSError:
        shutil.copy2(source, to)


def must_fail(crate, edit, words):
    """Tries an edit from nothing, as `rt must-fail` does. Returns whether the prover refused it, and the reason."""
    verdict, text = rt.must_fail(crate, edit, words)
    # (a newer rt has several verdicts)
    return verdict == getattr(rt, "REFUSED", True), text
