"""Lists of locates on the command line or in files of any size, lists of stocks, and faults found before a file is opened.

RUNS lists the runs: functions that take the program and yield the differences found.
"""
import os
import tempfile
import time
from pathlib import Path

from common import differs, ended, ended_in, file
from large import entry, stock

DAY = file("START AAPL BUY_1")
BAD_LIST = 2, b"", b"itchsnap: bad locate list\n"
ITEM = b"  %s: not a locate from 0 to 65535, nor an ascending range such as 1-40\n"
LIST_FILE = b"  %s: a list has locates from 0 to 65535 and ascending ranges such as 1-40, one per line or between commas\n"


def bad_list(cause):
    """Returns how a command with a bad list must end, with this second line."""
    return *BAD_LIST[:2], BAD_LIST[2] + cause
# The arguments of commands that take a list, without the list.
COMMANDS = (
    ("snap", "no.itch", "--only", "LIST", "--output", "no/out"),
    ("snap", "day.itch", "--only", "LIST", "--output", "no/out"),
    ("snap", "day.itch", "--only", "LIST", "--output", "fifo"),
    ("snap", "day.itch", "--only", "LIST", "--to", "no"),
    ("join", "no.snap", "day.itch", "--only", "LIST", "--output", "no/out"),
    ("join", "no.snap", "day.itch", "--only", "LIST", "--output", "fifo"),
    ("at", "no", "day.itch", "1", "--only", "LIST", "--output", "no/out"),
    ("at", "no", "day.itch", "1", "--only", "LIST", "--output", "fifo"),
    ("book", "LIST", "no.itch"),
    ("show", "no.itch", "--only", "LIST"),
)


def a_bad_list_is_found_before_a_file_is_opened(program):
    with tempfile.TemporaryDirectory() as folder:
        (Path(folder) / "day.itch").write_bytes(DAY)
        (Path(folder) / "bad").write_bytes(b"1\n2,\n")
        os.mkfifo(Path(folder) / "fifo")
        for command in COMMANDS:
            for words in ("x", "2-1", "@bad"):
                got = ended_in(folder, program, *(words if word == "LIST" else word for word in command))
                cause = LIST_FILE % b"bad" if words == "@bad" else ITEM % words.encode()
                yield from differs((command, words), got, bad_list(cause))
            missing = 3, b"", b"itchsnap: cannot open\n  gone: No such file or directory (os error 2)\n"
            got = ended_in(folder, program, *("@gone" if word == "LIST" else word for word in command))
            yield from differs((command, "@gone"), got, missing)


def a_bad_login_is_found_before_a_file_is_opened(program):
    for user, password, line in (("seven77", "p", "bad user\n  a user name has 1 to 6 printable characters"),
                                 ("u", "eleven_long", "bad password\n  a password has 1 to 10 printable characters")):
        words = "fetch", "--port", "1", "--user", user, "--pass", password, "--output", "no/out"
        yield from differs(line, ended(program, *words), (2, b"", f"itchsnap: {line}\n".encode()))


def a_list_in_a_file_has_any_size(program):
    with tempfile.TemporaryDirectory() as folder:
        (Path(folder) / "day.itch").write_bytes(DAY)
        wanted = ended_in(folder, program, "snap", "day.itch", "--only", "1")
        rows = {
            "lines": b"7\n" * 1_000_000 + b"1\n",
            "one line": b"7," * 1_000_000 + b"1",
            "spaces": b" \t\r\n" * 200_000 + b"  7,1  \r\n" + b" " * 60_000 + b"1",
            "zeros": b"0" * 65_000 + b"1",
        }
        for name, data in rows.items():
            (Path(folder) / "list").write_bytes(data)
            yield from differs(name, ended_in(folder, program, "snap", "day.itch", "--only", "@list"), wanted)
        for name, data in {"a comma": b"1,\n2", "no locate": b"\n \n", "nothing": b"", "a space": b"1, 2", "not a locate": b"65536", "zeros": b"0" * 70_000 + b"1"}.items():
            (Path(folder) / "list").write_bytes(data)
            yield from differs(name, ended_in(folder, program, "snap", "day.itch", "--only", "@list"), bad_list(LIST_FILE % b"list"))


def a_list_that_is_no_text_is_no_list(program):
    with tempfile.TemporaryDirectory() as folder:
        (Path(folder) / "day.itch").write_bytes(DAY)
        for data in (b"\377", b"1\n2\377\n", b"1,\300\200,2"):
            (Path(folder) / "list").write_bytes(data)
            yield from differs(data, ended_in(folder, program, "snap", "day.itch", "--only", "@list"), bad_list(LIST_FILE % b"list"))


def directory(count):
    """Returns the Stock Directory messages of this many locates, each with a stock of its own."""
    return b"".join(map(entry, range(count)))


def thousands_of_names_take_no_longer_than_a_directory(program):
    with tempfile.TemporaryDirectory() as folder:
        (Path(folder) / "day.itch").write_bytes(directory(65_536))
        locates = range(0, 65_536, 8)
        names = ",".join(stock(locate).decode().rstrip() for locate in locates)
        only = ",".join(map(str, locates))
        snapshot = ended_in(folder, program, "snap", "day.itch", "--only", only)[1]
        (Path(folder) / "day.snap").write_bytes(file("END_1"))
        (Path(folder) / "d").mkdir()
        (Path(folder) / "d/index.jsonl").write_bytes(b"")
        rows = {
            ("snap", "day.itch"): snapshot,
            ("join", "day.snap", "day.itch"): snapshot,
            ("at", "d", "day.itch", "65536"): snapshot,
            ("book", "day.itch", "--csv"): ended_in(folder, program, "book", only, "day.itch", "--csv")[1],
            ("show", "day.itch"): ended_in(folder, program, "show", "day.itch", "--only", only)[1],
        }
        for words, wanted in rows.items():
            begun = time.monotonic()
            got = ended_in(folder, program, *words, "--stock", names)
            seconds = time.monotonic() - begun
            yield from differs(words, (got[0], got[1] == wanted, got[2]), (0, True, b""))
            if seconds > 1:
                yield f"{words}: {seconds} s"
            got = ended_in(folder, program, *words, "--stock", f"{names},NONE")
            second = b"" if words[0] == "join" else b"  day.itch: no stock NONE\n"
            yield from differs((words, "NONE"), (got[0], got[2]), (1, b"itchsnap: unknown stock\n" + second))


RUNS = (
    a_bad_list_is_found_before_a_file_is_opened,
    a_bad_login_is_found_before_a_file_is_opened,
    a_list_in_a_file_has_any_size,
    a_list_that_is_no_text_is_no_list,
    thousands_of_names_take_no_longer_than_a_directory,
)
