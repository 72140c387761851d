"""Helpers for the modules of runs: the program, days to try, and the reasons for which calls are refused."""
import functools
import os
import random
import struct
import subprocess
import sys
import tempfile
from pathlib import Path

import large
from sundrekk import Refused

TOP = Path(__file__).resolve().parents[2]
PROGRAM = TOP / "release/itchsnap"
EXAMPLES = TOP / "examples"
NAMES = ("opening", "first_order", "replaced")
MINUTE = 60 * 10**9


def example(name):
    return (EXAMPLES / name).read_bytes()


def program(*words, day=b""):
    """Runs the program with a day on standard input, and returns its status and both outputs."""
    done = subprocess.run([PROGRAM, *words], input=day, capture_output=True, timeout=60)
    return done.returncode, done.stdout, done.stderr.decode()


@functools.lru_cache(maxsize=1)
def generated():
    """Returns a day of 20,000 messages over 50 symbols, with orders in all states."""
    return subprocess.run([TOP / "bench/generate", "20000", "50"], stdout=subprocess.PIPE, check=True, timeout=60).stdout


def stamped(block, time):
    """Returns a block whose message has this timestamp."""
    return block[:7] + struct.pack(">Q", time)[2:] + block[13:]


@functools.lru_cache(maxsize=1)
def timed():
    """Returns a day of three stocks from 9:30 to 10:00, whose timestamps are mostly in order. Some are up to two minutes early, so that
    messages before a time may follow the first one at that time. There are also messages that are not decoded."""
    rng = random.Random(5)
    day, live, time = [large.entry(locate) for locate in (1, 2, 3)], [], 570 * MINUTE
    for reference in range(1, 6001):
        time += rng.randrange(600_000_000)
        if live and rng.random() < 0.4:
            gone, locate = live.pop(rng.randrange(len(live)))
            block = large.block(b"D", locate, struct.pack(">Q", gone))
        else:
            locate, side = rng.randint(1, 3), rng.choice("BS")
            price = 1_000_000 * locate + (rng.randint(1, 40) if side == "S" else -rng.randint(1, 40)) * 100
            fields = struct.pack(">Q1sI8sI", reference, side.encode(), rng.randint(1, 9) * 100, large.stock(locate), price)
            block = large.block(b"A", locate, fields)
            live.append((reference, locate))
        day.append(stamped(block, time - rng.choice((0, 0, 0, rng.randrange(2 * MINUTE)))))
        if rng.random() < 0.01:
            day.append(b"\0\x14z" + bytes([255] * 19))
    return b"".join(day)


def refusal(call, *words, **named):
    """Returns the reason, the detail and the number with which a call is refused, or None."""
    try:
        call(*words, **named)
    except Refused as refused:
        return refused.reason.name, refused.detail, refused.number
    return None


def raised(call, *words, **named):
    """Returns the name of the exception that a call raises, or None."""
    try:
        call(*words, **named)
    except Exception as error:
        return type(error).__name__
    return None


def said(call, *words, **named):
    """Returns the text of the exception that a call raises, or None."""
    try:
        call(*words, **named)
    except Exception as error:
        return str(error)
    return None


def ran_python(script, *words, **environment):
    """Returns the output of a script in a new Python, away from this checkout unless its path is in the environment."""
    with tempfile.TemporaryDirectory() as folder:
        clean = {name: value for name, value in os.environ.items() if not name.startswith("PYTHON")}
        done = subprocess.run([sys.executable, "-B", "-c", script, *map(str, words)], cwd=folder, env={**clean, **environment},
                              stdout=subprocess.PIPE, stderr=subprocess.STDOUT, text=True, timeout=60)
    return done.stdout
