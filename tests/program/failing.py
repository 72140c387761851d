"""Builds the libraries that make a call of the program fail (fail.c, and calls.c for more kinds of calls)."""
import subprocess
from pathlib import Path


def build_shim(folder, source="fail.c"):
    """Builds the library to preload into the program, in this folder, and returns its path."""
    shim = (Path(folder) / source).with_suffix(".so")
    subprocess.run(["gcc", "-shared", "-fPIC", "-O1", "-o", shim, Path(__file__).resolve().parent / source, "-ldl"], check=True)
    return shim
