"""Helpers for the modules of runs: files made of named blocks, and the program in a folder of its own."""
import configparser
import functools
import os
import select
import subprocess
import tempfile
from pathlib import Path

HERE = Path(__file__).resolve().parent


def read_table(name):
    table = configparser.ConfigParser(delimiters=("=",), comment_prefixes=("#",), interpolation=None)
    table.optionxform = str
    with open(HERE / name) as file:
        table.read_file(file)
    return table


@functools.lru_cache(maxsize=1)
def blocks():
    """Returns the blocks of blocks.ini, by name."""
    return {name: bytes.fromhex(digits) for name, digits in read_table("blocks.ini")["blocks"].items()}


def file(words):
    """Returns the bytes of these blocks, each given by its name or in hexadecimal digits."""
    return b"".join(blocks()[word] if word in blocks() else bytes.fromhex(word) for word in words.split())


def readable(sources, seconds):
    """Waits until some of these files and sockets are readable and returns those, or none after this many seconds. (select.select does not
    accept descriptors above 1023.)"""
    poll = select.poll()
    numbers = {it.fileno(): it for it in sources}
    for number in numbers:
        poll.register(number, select.POLLIN)
    return [numbers[number] for number, _ in poll.poll(seconds * 1000)]


def split(data):
    """Splits bytes into blocks, of which the last may be cut."""
    found, at = [], 0
    while at < len(data):
        end = at + 2 + int.from_bytes(data[at:at + 2], "big")
        found.append(data[at:end])
        at = end
    return found


def ended(program, *words, **files):
    """Runs the program in a folder with these files, `day` being `day.itch`, and returns its status and both outputs."""
    with tempfile.TemporaryDirectory() as folder:
        for name, data in files.items():
            (Path(folder) / f"{name}.itch").write_bytes(data)
        return ended_in(folder, program, *words)


def ended_in(folder, program, *words, **environment):
    """The same in this folder, with these environment variables."""
    done = subprocess.run([program, *words], cwd=folder, env={**os.environ, **environment}, capture_output=True, stdin=subprocess.DEVNULL,
                          timeout=60)
    return done.returncode, done.stdout, done.stderr


def differs(label, got, wanted):
    if got != wanted:
        yield f"{label}: {repr(got)[:400]}, not {repr(wanted)[:400]}"


def first_unmet(fails):
    """Returns the number of the first call that is not made. `fails` runs the program with the given call failing, and returns whether
    there was such a call."""
    low, high = 1, 1000
    while low < high:
        middle = (low + high) // 2
        if fails(middle):
            low = middle + 1
        else:
            high = middle
    return low
