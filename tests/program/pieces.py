"""Each command over files with pieces of one byte: each read, write and allocation failing in turn, and each beginning of each file.

The expected output is computed from the blocks of the files. RUNS lists the runs: functions that take the program and yield the differences found.
"""
import bisect
import contextlib
import itertools
import re
import tempfile
from pathlib import Path
from typing import NamedTuple

import failing
from common import differs, ended_in, file, first_unmet, split

CAUSE = "Input/output error (os error 5)"
OUT_OF_MEMORY = re.compile(rb"itchsnap: ((first|second|snapshot): )?(message \d+: )?out of memory\n")
MESSAGES = "START AAPL ATTRIBUTED_1 BUY_2_OF_200 REPLACE_1_BY_3"
LINES = b"""\
1 S 0 0 0 4f
2 R 1 0 0 [AAPL] 51 4e 100 4e 43 5a20 50 4e 4e 31 4e 0 4e
3 F 1 0 0 1 B 100 [AAPL] 150.0000 [ABCD]
4 A 1 0 0 2 B 200 [AAPL] 150.0000
5 U 1 0 0 1 3 100 150.0000
"""
AFTER = file("START AAPL BUY_2_OF_200 ATTRIBUTED_3 END_6")


class Ended(NamedTuple):
    """How the program ended, and whether a call failed as requested."""

    failed: bool
    status: int
    output: bytes
    error: bytes


class Input:
    """A file that a command reads, and the prefix by which a fault names it."""

    def __init__(self, name, blocks, prefix=""):
        self.name, self.data, self.prefix = name, file(blocks), prefix
        self.is_snapshot = name.endswith(".snap")

    def starts(self):
        """Returns the offsets of its blocks, and of its end."""
        return list(itertools.accumulate(map(len, split(self.data)), initial=0))

    def whole(self, held):
        """Returns how many complete blocks this many bytes contain."""
        return bisect.bisect_right(self.starts(), held) - 1

    def line(self, held, fault):
        """Returns the line of a fault after this many bytes."""
        place = "" if self.is_snapshot else f"message {self.whole(held) + 1}: "
        return f"itchsnap: {self.prefix}{place}{fault}\n"


DAY = Input("day.itch", MESSAGES)
SNAPSHOT = Input("market.snap", "START AAPL BUY_2_OF_200 ATTRIBUTED_3 END_6")


class Command:
    """A command over files, in the order in which it reads them. `memory` is the minimum number of allocations after they are opened: for the buffer
    and the blocks of each file, and for the market and the check."""

    def __init__(self, words, inputs, output, memory, status=0):
        self.words, self.inputs, self.output, self.memory, self.status = words.split(), inputs, output, memory, status

    def reads_on(self, it):
        """Returns whether it reads a file to its end. `join` reads nothing after End of Snapshot in the snapshot."""
        return not (self.words[0] == "join" and it.is_snapshot)

    def shown(self, held):
        """Returns the output if the file fails after this many bytes: for `show`, a line for each complete message."""
        lines = self.output.splitlines(keepends=True) if self.words[0] == "show" else []
        return b"".join(lines[:self.inputs[0].whole(held)])

    @contextlib.contextmanager
    def folder(self):
        """Yields a folder with its files."""
        with tempfile.TemporaryDirectory() as name:
            for it in self.inputs:
                (Path(name) / it.name).write_bytes(it.data)
            yield Path(name)

    def unfailed(self):
        return Ended(False, self.status, self.output, b"")


COMMANDS = [
    Command("check day.itch", [DAY], b"ok 5 messages\n", 4),
    Command("snap day.itch", [DAY], AFTER, 4),
    Command("compare day.itch other.itch", [Input("day.itch", MESSAGES, "first: "), Input("other.itch", "START AAPL BUY_1", "second: ")],
            b"different at 3\n", 8, status=1),
    Command("canon market.snap", [SNAPSHOT], AFTER, 4),
    Command("canon --check market.snap", [SNAPSHOT], b"canonical\n", 5),
    Command("canon --check end.snap", [Input("end.snap", "END_1")], b"canonical\n", 3),
    Command("join start.snap day.itch", [Input("start.snap", "START AAPL ATTRIBUTED_1 END_4", "snapshot: "), DAY], AFTER, 6),
    Command("show day.itch", [DAY], LINES, 2),
    Command("book 1 day.itch", [DAY], b"1 AAPL\nB 150.0000 300 2\n", 4),
    Command("book --stock AAPL day.itch", [DAY], b"1 AAPL\nB 150.0000 300 2\n", 4),
    Command("snap --stock AAPL day.itch", [DAY], AFTER, 4),
    Command("join start.snap day.itch --stock AAPL", [Input("start.snap", "START AAPL ATTRIBUTED_1 END_4", "snapshot: "), DAY], AFTER, 6),
]


@contextlib.contextmanager
def failing_calls(program, command):
    """Yields a function that runs the command in pieces, with one call failing, such as `read:3`."""
    with command.folder() as folder:
        shim, failed = failing.build_shim(folder), folder / "a call failed"

        def perform(failure, piece, words=command.words):
            failed.unlink(missing_ok=True)
            ending = ended_in(folder, program, *words, LD_PRELOAD=str(shim), FAIL=failure, FAILED=str(failed), PIECE=str(piece))
            return Ended(failed.exists(), *ending)

        yield perform


def reads(command, piece):
    """Yields each read of a command: its file, and how many bytes of the file were read before. The last read of a file finds its end."""
    for it in command.inputs:
        for held in range(0, len(it.data), piece):
            yield it, held
        if command.reads_on(it):
            yield it, len(it.data)


def read_failures(program, piece):
    for command in COMMANDS:
        nth = 0
        with failing_calls(program, command) as perform:
            for nth, (it, held) in enumerate(reads(command, piece), 1):
                error = it.line(held, "read failed") + f"  {it.name}: {CAUSE}\n"
                yield from differs(f"{command.words}, read {nth}", perform(f"read:{nth}", piece),
                                   Ended(True, 3, command.shown(held), error.encode()))
            yield from differs(f"{command.words}, {nth} reads", perform(f"read:{nth + 1}", piece), command.unfailed())


def each_read_of_one_byte_fails_in_turn(program):
    yield from read_failures(program, 1)


def each_read_of_50_bytes_fails_in_turn(program):
    yield from read_failures(program, 50)


def each_write_of_one_byte_fails_in_turn(program):
    """A write fails alone, or together with all later writes of the output. The output is what was written before."""
    error = f"itchsnap: write failed\n  standard output: {CAUSE}\n".encode()
    for command in COMMANDS:
        with failing_calls(program, command) as perform:
            for nth in range(1, len(command.output) + 1):
                wanted = Ended(True, 3, command.output[:nth - 1], error)
                yield from differs(f"{command.words}, writes from {nth} on", perform(f"write:{nth}+", 1), wanted)
                alone = perform(f"write:{nth}", 1)
                if not command.output.startswith(alone.output) or alone != wanted._replace(output=alone.output):
                    yield f"{command.words}, write {nth}: {alone}"
            yield from differs(f"{command.words}, all writes", perform(f"write:{len(command.output) + 1}", 1), command.unfailed())


def each_allocation_is_refused_in_pieces(program):
    """The allocations before the files are opened are for the arguments; the rows of runs.ini test them."""
    for command in COMMANDS:
        with failing_calls(program, command) as perform:
            missing = [word.replace(".", ".missing.") for word in command.words]
            first = first_unmet(lambda nth: perform(f"memory:{nth}", 1, missing).failed)
            for piece in (1, 2, 7, 64, 4096):
                yield from refusals(command, perform, piece, first)


def refusals(command, perform, piece, first):
    """A settled book that is refused memory for its hints does without them, and the command ends as it does otherwise: twice at most, since `compare`
    has two books."""
    unnoticed = 0
    for count in range(64):
        ending = perform(f"memory:{first + count}", piece)
        if not ending.failed:
            yield from differs(f"{command.words}, pieces of {piece}", ending, command.unfailed())
            if count < command.memory:
                yield f"{command.words}, pieces of {piece}: {count} allocations"
            return
        if unnoticed < 2 and ending[1:] == command.unfailed()[1:]:
            unnoticed += 1
        elif (ending.status, ending.output) != (4, b"") or not OUT_OF_MEMORY.fullmatch(ending.error):
            yield f"{command.words}, pieces of {piece}, allocation {count}: {ending}"
    yield f"{command.words}, pieces of {piece}: more than 64 allocations"


def beginning(command, it, held):
    """Returns how a command ends if a file has only this many of its bytes, or None if that depends on the remaining messages."""
    starts = it.starts()
    if held not in starts:
        truncated = held - starts[it.whole(held)]
        return 1, command.shown(held), it.line(held, f"truncated, {truncated} bytes held").encode()
    if it.is_snapshot:
        hint = f"  {it.name}: if this is a day file, use itchsnap snap to make its snapshot\n"
        return 1, b"", (it.line(held, "no end of snapshot") + hint).encode()
    return {"check": (0, b"ok %d messages\n" % it.whole(held), b""), "show": (0, command.shown(held), b"")}.get(command.words[0])


def each_beginning_of_each_file(program):
    for command in COMMANDS:
        for it in command.inputs:
            with command.folder() as folder:
                for held in range(len(it.data)):
                    (folder / it.name).write_bytes(it.data[:held])
                    if wanted := beginning(command, it, held):
                        yield from differs(f"{command.words}, {held} bytes of {it.name}", ended_in(folder, program, *command.words), wanted)


def reads_and_writes_are_of_any_size(program):
    """The file has a byte after its end block."""
    data = Input("day.itch", "MSFT START AAPL UNRESTRICTED TRADING 0000 ff")
    command = Command("snap day.itch", [data], file("START AAPL TRADING UNRESTRICTED MSFT END_6"), 4)
    with failing_calls(program, command) as perform:
        for piece in range(1, len(data.data) + 2):
            yield from differs(f"pieces of {piece}", perform("", piece), command.unfailed())


RUNS = [
    each_read_of_one_byte_fails_in_turn,
    each_read_of_50_bytes_fails_in_turn,
    each_write_of_one_byte_fails_in_turn,
    each_allocation_is_refused_in_pieces,
    each_beginning_of_each_file,
    reads_and_writes_are_of_any_size,
]
