"""The result of a job: a complete file, renamed into place, and next to it a manifest of what it was made from.

A result exists if its manifest names the same day, point, part and program, and its file has the SHA-256 in the manifest. The file is
put in place first, so a job that is interrupted between the two leaves a result that does not count yet. A refused day has a manifest
with the reason and no file. So anyone may run a job any number of times, even at the same time.
"""
import contextlib
import hashlib
import json
import os
import shutil
import tempfile
import time
from dataclasses import dataclass
from pathlib import Path

from .program import UNPACKERS, Failure, Refusal

ATTEMPT = ".attempt-"
A_DAY = 24 * 60 * 60


@dataclass(frozen=True)
class Day:
    """A day file. Its name is the file name without `.itch` and the suffix of the compression."""

    path: Path

    @property
    def name(self):
        packed = self.path.suffix in UNPACKERS
        return (self.path.stem if packed else self.path.name).removesuffix(".itch")

    def identity(self):
        """Returns what identifies the contents: size and time, because the file is too large to be read again. A replaced file
        differs in one of them."""
        found = self.path.stat()
        return {"file": self.path.name, "bytes": found.st_size, "modified_ns": found.st_mtime_ns}


def digest_of(path):
    with open(path, "rb") as file:
        return hashlib.file_digest(file, "sha256").hexdigest()


def place(made, path):
    """Renames a file after flushing it to disk."""
    with open(made, "rb") as file:
        os.fsync(file)
    os.replace(made, path)


@contextlib.contextmanager
def attempt(folder):
    """Yields a folder for the output of one try. If a try is killed, its folder remains until a later try removes it after a day."""
    folder.mkdir(parents=True, exist_ok=True)
    for left in folder.glob(f"{ATTEMPT}*"):
        with contextlib.suppress(FileNotFoundError):
            if time.time() - left.stat().st_mtime > A_DAY:
                shutil.rmtree(left, ignore_errors=True)
    room = Path(tempfile.mkdtemp(prefix=ATTEMPT, dir=folder))
    try:
        yield room
    finally:
        shutil.rmtree(room, ignore_errors=True)


class Result:
    """A result, which may or may not exist."""

    def __init__(self, out, day, name, **made_of):
        self.day, self.path = day, out / day.name / name
        self.made_of = {"day": day.identity(), **made_of}

    def __str__(self):
        return f"{self.day.name}/{self.path.name}"

    @property
    def manifest_path(self):
        return self.path.with_name(f"{self.path.name}.json")

    def manifest(self):
        """Returns the manifest, if it describes this result and the file has the size in it. Otherwise returns nothing."""
        try:
            manifest = json.loads(self.manifest_path.read_bytes())
            of_this = manifest["made_of"] == self.made_of
            whole = "refused" in manifest or self.path.stat().st_size == manifest["result"]["bytes"]
        except (OSError, ValueError, KeyError, TypeError):
            return None
        return manifest if of_this and whole else None

    def found(self):
        """Returns the manifest, if the result exists."""
        manifest = self.manifest()
        if manifest and "refused" not in manifest and digest_of(self.path) != manifest["result"].get("sha256"):
            return None
        return manifest

    def settle(self, answer, room):
        """Puts a file in place as this result, or records that the day is refused. Returns the manifest. Raises a failure."""
        if isinstance(answer, Failure):
            raise answer
        if self.day.identity() != self.made_of["day"]:
            raise Failure(f"{self.day.path.name} was changed while it was read")
        manifest = {"made_of": self.made_of}
        if isinstance(answer, Refusal):
            self.path.unlink(missing_ok=True)
            manifest["refused"] = str(answer)
        else:
            manifest["result"] = {"bytes": answer.stat().st_size, "sha256": digest_of(answer)}
            place(answer, self.path)
        made = room / self.manifest_path.name
        made.write_text(json.dumps(manifest, indent=1) + "\n")
        place(made, self.manifest_path)
        return manifest
