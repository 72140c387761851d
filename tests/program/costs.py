"""Costs: the memory of order references far apart, and the instructions of `compare --first`.

RUNS lists the runs: functions that take the program and yield the differences found.
"""
import re
import shutil
import struct
import subprocess
import sys
from typing import NamedTuple

import large
from common import differs
from living import folder_with

ORDERS = 300_000
# A small process starts the program and reports its memory, because the memory of the starting process counts too.
MEASURE = """
import resource, subprocess, sys
status = subprocess.run(sys.argv[1:], stdout=subprocess.DEVNULL).returncode
used = resource.getrusage(resource.RUSAGE_CHILDREN)
print(status, used.ru_utime, used.ru_maxrss)
"""


class Cost(NamedTuple):
    status: int
    seconds: float
    kilobytes: int


def cost(*words):
    """Returns the user time and the memory of a command."""
    done = subprocess.run([sys.executable, "-c", MEASURE, *words], capture_output=True, check=True, timeout=60)
    status, seconds, kilobytes = done.stdout.split()
    return Cost(int(status), float(seconds), int(kilobytes))


def orders_apart(step):
    """Returns a day of orders that stay live, whose references are this far apart."""
    start, end = large.block(b"A", 1, bytes(8))[:13], b"B" + struct.pack(">I8sI", 100, large.stock(1), 10_000)
    # The length is that of the complete block.
    start = struct.pack(">H", len(start) + 8 + len(end) - 2) + start[2:]
    return large.entry(1) + b"".join(start + struct.pack(">Q", step * place) + end for place in range(1, ORDERS + 1))


def references_far_apart_take_little_memory(program):
    """Each order needs a page of the reference table to itself, or that page and seven next to it."""
    dense, *sparse = (orders_apart(step) for step in (1, 128, 1024))
    with folder_with(dense=dense, pages=sparse[0], eighths=sparse[1]) as folder:
        least = cost(program, "snap", folder / "dense")
        yield from differs("dense", least.status, 0)
        for name in "pages", "eighths":
            taken = cost(program, "snap", folder / name)
            if taken.status or taken.kilobytes > 3 * least.kilobytes:
                yield f"{name}: {taken}, and {least.kilobytes} kilobytes for dense ones"


def work(program, *words):
    """Returns the amount of work of a command: instructions, which do not depend on the load of the machine, or user time if valgrind is not
    installed."""
    if not shutil.which("valgrind"):
        return min(cost(program, *words).seconds for _ in range(3))
    done = subprocess.run(["valgrind", "--tool=callgrind", "--callgrind-out-file=/dev/null", program, *words], stdout=subprocess.DEVNULL,
                          stderr=subprocess.PIPE, check=True, timeout=300)
    return int(re.search(rb"Collected : (\d+)", done.stderr)[1])


def the_first_difference_takes_little_longer_than_two_checks(program):
    """The messages are as short as possible, and of a type that is not decoded."""
    with folder_with(day=b"\0\1z" * 500_000) as folder:
        one = work(program, "check", folder / "day")
        both = work(program, "compare", "--first", folder / "day", folder / "day")
        if both > 2.5 * 2 * one:
            yield f"{both}, and {one} for a check"


RUNS = [
    references_far_apart_take_little_memory,
    the_first_difference_takes_little_longer_than_two_checks,
]
