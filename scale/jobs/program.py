"""Runs the program over a day file, which is plain or comes from a decompressor through a pipe, and interprets the statuses of
both."""
import ctypes
import functools
import hashlib
import signal
import subprocess
from pathlib import Path

UNPACKERS = {".gz": ("gzip", "-dc"), ".zst": ("zstd", "-dcq")}
DONE, REFUSED = 0, 1
PR_SET_PDEATHSIG = 1

# Loaded here, so that there is little left to do between the fork and the start of the program.
libc = ctypes.CDLL(None)


class Refusal(Exception):
    """A final answer: the program refuses the file, and would do so in each try, on each machine."""


class Failure(Exception):
    """No answer: a device, memory, a decompressor or a signal failed. Another try may succeed."""


def end_with_parent():
    """Makes the kernel end this process when its parent ends for any reason."""
    libc.prctl(PR_SET_PDEATHSIG, signal.SIGKILL)


def start(words, **streams):
    try:
        return subprocess.Popen(words, stderr=subprocess.PIPE, preexec_fn=end_with_parent, **streams)
    except OSError as fault:
        raise Failure(f"{words[0]}: {fault.strerror}") from None


def first_line(said):
    return (said.decode(errors="replace").strip().splitlines() or [""])[0]


def judge(process, said):
    """Raises the meaning of the program's status. The text of a refusal is the program's line without its name."""
    line = first_line(said).removeprefix("itchsnap: ")
    if process.returncode == REFUSED:
        raise Refusal(line)
    if process.returncode < 0:
        raise Failure(f"the program was ended by signal {-process.returncode}")
    if process.returncode != DONE:
        raise Failure(f"the program ended with {process.returncode}: {line}")


def finish_unpacking(process, source):
    """Waits for a decompressor. Fails if it failed, unless SIGPIPE ended it because the program stopped reading early."""
    _, said = process.communicate()
    if process.returncode not in (0, -signal.SIGPIPE):
        raise Failure(f"{source.name} is not read to its end: {first_line(said) or process.args[0]} ({process.returncode})")


def first_bytes(source, count):
    """Returns the first bytes of a file, unpacked. Fails if a decompressor fails before it has produced that many."""
    if source.suffix not in UNPACKERS:
        with open(source, "rb") as file:
            return file.read(count)
    unpacking = start([*UNPACKERS[source.suffix], source], stdout=subprocess.PIPE)
    begin = unpacking.stdout.read(count)
    unpacking.stdout.close()
    if len(begin) < count:
        finish_unpacking(unpacking, source)
    else:
        unpacking.communicate()
    return begin


def has_no_messages(source):
    """Returns whether a day file is empty or begins with a block of length 0, which ends it."""
    return first_bytes(source, 2) in (b"", b"\0\0")


class Program:
    """The program `itchsnap` at a path."""

    def __init__(self, path):
        self.path = Path(path).absolute()

    @functools.cached_property
    def identity(self):
        """Returns its version line and the SHA-256 of its file."""
        try:
            digest = hashlib.sha256(self.path.read_bytes()).hexdigest()
            version = subprocess.run([self.path, "--version"], capture_output=True, text=True, check=True).stdout.strip()
        except (OSError, subprocess.SubprocessError) as fault:
            raise Failure(f"no program to run: {fault}") from None
        return {"version": version, "sha256": digest}

    def write(self, words, source, output):
        """Runs the program over a file, which becomes its last argument, and writes its output to another file.

        Raises `Failure` if the decompressor failed, whatever the program made of its input, and otherwise `Refusal` or `Failure` by
        the status of the program.
        """
        unpacker = UNPACKERS.get(source.suffix)
        unpacking = unpacker and start([*unpacker, source], stdout=subprocess.PIPE)
        with open(output, "wb") as file:
            feed = unpacking.stdout if unpacking else subprocess.DEVNULL
            running = start([self.path, *words, "-" if unpacking else source], stdin=feed, stdout=file)
            if unpacking:
                unpacking.stdout.close()
            _, said = running.communicate()
        if unpacking:
            finish_unpacking(unpacking, source)
        judge(running, said)

    def lines(self, words):
        """Returns the lines that the program prints."""
        running = start([self.path, *words], stdin=subprocess.DEVNULL, stdout=subprocess.PIPE)
        printed, said = running.communicate()
        judge(running, said)
        return printed.decode().splitlines()
