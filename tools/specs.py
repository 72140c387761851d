"""Helpers for the scripts of this directory: finding the definition that a name in a source refers to, and the start of a
definition."""
import functools
import re
from pathlib import Path

TOP = Path(__file__).resolve().parent.parent
REPOSITORY = {it.name for it in (TOP / "crates").iterdir()}
DEFINED = re.compile(r" *(?:(?:abbrev|unfoldable)(?: pub)?|pub(?: record| data)?|record|data) ([^\s:({]+)")
IMPORTED = re.compile(r"use Rattle\.(\w+)\.specs\.([\w.]+?)(?:\.\{([^}]*)\}| as (\w+))?;?$")


@functools.cache
def imports(file):
    """Returns what each imported name in a file refers to, as a triple: the crate; the definitions file, or None for a type; and the
    name, or None for an alias of a file."""
    names = {}
    for line in file.read_text().split("\n"):
        line = line.strip().removeprefix("pub ").removeprefix("ghost ")
        if not (it := IMPORTED.match(line)) or it[1] not in REPOSITORY:
            continue
        crate, path, listed, alias = it.groups()
        parts = path.split(".")
        a_type = next((part for part in parts if part[:1].isupper()), None) if parts[0] == "declared" else None
        if alias:
            names[alias] = (crate, None, a_type) if a_type else (crate, path, None)
        for name in re.findall(r"([^\s,]+)(?: as (\w+))?", listed or ""):
            names[name[1] or name[0]] = (crate, None, a_type) if a_type else (crate, path, name[0])
    return names


def meant(file, word):
    """Returns what a word in a file refers to, if it is a name of this repository."""
    names = imports(file)
    first, _, rest = word.partition(".")
    if first in names:
        crate, module, name = names[first]
        return crate, module, name or rest.partition(".")[0]
    return None


def named(text):
    """Returns the words of a clause or a definition that may be names."""
    return set(re.findall(r"[^\s(){}\[\],;&|]+", text))
