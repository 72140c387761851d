"""`edits.record`: a hash of everything on which the refusal of each edit depended when the prover last refused it."""
import ast
import hashlib
import os
import re
import threading
from pathlib import Path

from kit import logic_line, toolchain_line

HERE = Path(__file__).resolve().parent
TOP = HERE.parent.parent
FILE = HERE / "edits.record"
# The files that decide whether an edit was refused.
JUDGE = HERE / "checking.py"
WRITING = threading.Lock()


def without_docstrings(text):
    """Returns the lines of a Python file that do not belong to docstrings."""
    tree = ast.parse(text)
    parts = [it for it in ast.walk(tree) if isinstance(it, (ast.Module, ast.ClassDef, ast.FunctionDef)) and ast.get_docstring(it) is not None]
    left_out = {number for it in parts for number in range(it.body[0].lineno, it.body[0].end_lineno + 1)}
    return [line for number, line in enumerate(text.split(b"\n"), 1) if number not in left_out]


def text_that_counts(path):
    """Returns the part of a file that a check reads: without blank lines, comment lines (`//`, `///`, `//!`, `--`) and docstrings."""
    text = path.read_bytes()
    lines = without_docstrings(text) if path.suffix == ".py" else text.split(b"\n")
    mark = {".rt": b"//", ".antt": b"--", ".py": b"#"}.get(path.suffix)
    if not mark:
        return b"\n".join(lines)
    return b"\n".join(it for it in lines if it.strip() and not it.lstrip().startswith(mark))


def files_below(folder):
    """Returns the files below a folder, in a fixed order."""
    return sorted(it for it in folder.rglob("*") if it.is_file())


def traits(folder):
    """Returns the sources below a folder that declare a trait, whose contracts its impls must meet."""
    return [it for it in files_below(folder) if re.search(rb"^(pub )?trait ", it.read_bytes(), re.MULTILINE)]


def files_behind(crate, edit):
    """Returns the files on which an edit's refusal mainly depends: the edit, the files that it changes, the proofs of its functions, and the crate's
    traits and definitions."""
    folder = Path(crate.folder)
    found = [JUDGE, edit.path, *(folder / it for it in edit.files)]
    for function in edit.functions:
        found += files_below(folder / "proofs" / function.replace("::", "/"))
    return [*found, *traits(folder / "src"), *files_below(folder / "specs")]


def hash_of(crate, edit):
    """Hashes the toolchain's logic, and the files on which an edit's refusal mainly depends."""
    found = hashlib.sha256(logic_line().encode())
    for it in files_behind(crate, edit):
        found.update(f"{it.relative_to(TOP)} {hashlib.sha256(text_that_counts(it)).hexdigest()}\n".encode())
    return found.hexdigest()[:32]


def name_of(crate, edit):
    return f"{crate.name}/{edit.name}"


def is_there(name):
    return (TOP / "crates" / name.replace("/", "/wrong/")).with_suffix(".edit").exists()


def lines():
    """Returns the hash with which each edit was last refused, by `CRATE/NAME`."""
    if not FILE.is_file():
        return {}
    return dict(it.split() for it in FILE.read_text(encoding="utf-8").splitlines()[1:])


def write(hashes):
    """Records these edits with their hashes, and removes those that have no hash or no file. The lines of other edits stay."""
    with WRITING:
        rows = [f"{it} {text}" for it, text in sorted({**lines(), **hashes}.items()) if text and is_there(it)]
        beside = FILE.with_name(f"{FILE.name}.{os.getpid()}")
        beside.write_text("\n".join([toolchain_line(), *rows, ""]), encoding="utf-8")
        os.replace(beside, FILE)
