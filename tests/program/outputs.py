"""Snapshots written to a file, a device or a pipe: the file appears only when it is complete.

RUNS lists the runs: functions that take the program and yield the differences found.
"""
import contextlib
import fcntl
import os
import stat
import subprocess
import tempfile
from pathlib import Path

import failing
from common import differs, ended_in, file, first_unmet
from network import DAY, serving
from sessions import snapshot

FILES = {
    "day.itch": file("START AAPL BUY_1"),
    "refused.itch": file("AAPL MSFT_AT_1"),
    "empty.snap": file("END_1"),
}
SNAPSHOT = file("START AAPL BUY_1 END_4")
COMMANDS = ("snap day.itch", "snap --stock AAPL day.itch", "canon day.snap", "join empty.snap day.itch")
OLD = b"an older snapshot"
PASS = "--pass", "secret"
LOGIN = "--user", "user", *PASS
LINE = {
    "memory": (4, ("itchsnap: out of memory\n", "itchsnap: message 1: out of memory\n", "itchsnap: message 2: out of memory\n",
                   "itchsnap: message 3: out of memory\n", "itchsnap: snapshot: message 1: out of memory\n")),
    "write": (3, ("itchsnap: write failed\n  out.snap: Input/output error (os error 5)\n",)),
}


@contextlib.contextmanager
def folder_of_files():
    with tempfile.TemporaryDirectory() as name:
        folder = Path(name)
        for it, data in {**FILES, "day.snap": SNAPSHOT}.items():
            (folder / it).write_bytes(data)
        yield folder


def names(folder):
    return sorted(set(os.listdir(folder)) - set(FILES) - {"day.snap"})


def a_snapshot_is_written_to_a_file(program):
    for command in COMMANDS:
        with folder_of_files() as folder:
            for _ in ("a new file", "one that is there"):
                yield from differs(command, ended_in(folder, program, *command.split(), "--output", "out.snap"), (0, b"", b""))
                yield from differs(command, (folder / "out.snap").read_bytes(), SNAPSHOT)
                yield from differs(command, names(folder), ["out.snap"])
            yield from differs(f"{command} to -", ended_in(folder, program, *command.split(), "--output", "-"), (0, SNAPSHOT, b""))


def nothing_is_left_of_a_refused_command(program):
    for command in ("snap refused.itch", "join empty.snap refused.itch"):
        with folder_of_files() as folder:
            wanted = (1, b"", b"itchsnap: message 2: stock mismatch\n")
            yield from differs(command, ended_in(folder, program, *command.split(), "--output", "out.snap"), wanted)
            yield from differs(command, names(folder), [])
            (folder / "out.snap").write_bytes(OLD)
            yield from differs(command, ended_in(folder, program, *command.split(), "--output", "out.snap"), wanted)
            yield from differs(command, ((folder / "out.snap").read_bytes(), names(folder)), (OLD, ["out.snap"]))


def an_output_that_cannot_be_opened_is_named(program):
    with folder_of_files() as folder:
        (folder / "sub").mkdir()
        for path, why in (("no/such.snap", "No such file or directory (os error 2)"), ("sub", "Is a directory (os error 21)"),
                          ("", "No such file or directory (os error 2)")):
            # The input does not exist either. The error is about the output, which is opened first.
            got = ended_in(folder, program, "snap", "no.itch", "--output", path)
            if path:
                yield from differs(path, got, (3, b"", f"itchsnap: cannot open\n  {path}: {why}\n".encode()))
            elif got[0] != 3 or got[1] or not got[2].startswith(b"itchsnap: cannot open\n"):
                yield f"the empty path: {got}"
        yield from differs("what is left", names(folder), ["sub"])


def each_allocation_and_write_fails_in_turn(program):
    for command in COMMANDS:
        with folder_of_files() as folder, tempfile.TemporaryDirectory() as apart:
            shim, failed = failing.build_shim(apart), Path(apart) / "a call failed"
            for kind, (status, lines) in LINE.items():
                def fails(nth):
                    failed.unlink(missing_ok=True)
                    (folder / "out.snap").unlink(missing_ok=True)
                    got = ended_in(folder, program, *command.split(), "--output", "out.snap", LD_PRELOAD=str(shim), FAIL=f"{kind}:{nth}",
                                   FAILED=str(failed))
                    return got, failed.exists()

                for nth in range(1, first_unmet(lambda nth: fails(nth)[1])):
                    got, _ = fails(nth)
                    left = names(folder)
                    if got[:2] == (0, b"") and left == ["out.snap"] and (folder / "out.snap").read_bytes() == SNAPSHOT:
                        continue
                    if (got[0], got[1], left) != (status, b"", []) or got[2].decode() not in lines:
                        yield f"{command}, {kind} {nth}: {got}, {left}"


def nothing_is_left_of_a_file_that_gets_no_name(program):
    """The complete file cannot be renamed, for each command that writes one."""
    with folder_of_files() as folder, tempfile.TemporaryDirectory() as apart:
        environment = {"LD_PRELOAD": str(failing.build_shim(apart, "calls.c")), "FAIL": "rename:1", "FAILED": str(Path(apart) / "failed")}
        (folder / "out").mkdir()
        for command in (*(f"{it} --output out.snap" for it in COMMANDS), "snap day.itch --to out"):
            got = ended_in(folder, program, *command.split(), **environment)
            path = "out/3.snap" if "--to" in command else "out.snap"
            yield from differs(command, got, (3, b"", f"itchsnap: cannot open\n  {path}: Input/output error (os error 5)\n".encode()))
            yield from differs(command, (names(folder), os.listdir(folder / "out")), (["out"], ["index.jsonl"] if "--to" in command else []))


def a_device_is_written_as_it_is(program):
    with folder_of_files() as folder:
        yield from differs("/dev/null", ended_in(folder, program, "snap", "day.itch", "--output", "/dev/null"), (0, b"", b""))
        if not stat.S_ISCHR(os.stat("/dev/null").st_mode):
            yield "/dev/null is no longer a device"
        yield from differs("/dev/full", ended_in(folder, program, "snap", "day.itch", "--output", "/dev/full"),
                           (3, b"", b"itchsnap: write failed\n  /dev/full: No space left on device (os error 28)\n"))
        os.mkfifo(folder / "pipe")
        with subprocess.Popen(["cat", folder / "pipe"], stdout=subprocess.PIPE) as reader:
            yield from differs("a pipe", ended_in(folder, program, "snap", "day.itch", "--output", "pipe"), (0, b"", b""))
            yield from differs("a pipe", reader.communicate(timeout=60)[0], SNAPSHOT)
        yield from differs("what is left", names(folder), ["pipe"])


def an_output_is_not_an_input(program):
    """A recording must not be lost because its name is given twice."""
    commands = ("snap day.itch", "cut day.itch", "canon day.snap", "index day.itch", "join day.snap day.itch", "cut day.itch --from 2 --index day.idx")
    with folder_of_files() as folder:
        ended_in(folder, program, "index", "day.itch", "--output", "day.idx")
        os.link(folder / "day.itch", folder / "link.itch")
        os.symlink("day.itch", folder / "symbolic.itch")
        os.link(folder / "day.itch", folder / "new.itch.part")
        before = {it: (folder / it).read_bytes() for it in os.listdir(folder)}
        for command in commands:
            name = next(it for it in command.split() if "." in it)
            for path in (name, f"./{name}", *(("link.itch", "symbolic.itch") if name == "day.itch" else ())):
                wanted = (3, b"", f"itchsnap: cannot open\n  {path}: the output would replace this input file\n".encode())
                yield from differs(f"{command} to {path}", ended_in(folder, program, *command.split(), "--output", path), wanted)
        wanted = 3, b"", b"itchsnap: cannot open\n  new.itch.part: the output would replace this input file\n"
        yield from differs("its temporary file", ended_in(folder, program, "cut", "day.itch", "--output", "new.itch"), wanted)
        for words in (["snap", "--output", "day.itch"], ["cut", "-", "--output", "day.itch"]):
            with (folder / "day.itch").open("rb") as source:
                ran = subprocess.run([program, *words], cwd=folder, stdin=source, capture_output=True)
            yield from differs(words, (ran.returncode, ran.stderr), (3, b"itchsnap: cannot open\n  day.itch: the output would replace this input file\n"))
        with (folder / "day.itch").open("ab") as sink:
            ran = subprocess.run([program, "show", "day.itch"], cwd=folder, stdout=sink, stderr=subprocess.PIPE)
        wanted = (3, b"itchsnap: cannot open\n  /dev/stdout: the output would replace this input file\n")
        yield from differs("show day.itch >> day.itch", (ran.returncode, ran.stderr), wanted)
        yield from differs("the files", {it: (folder / it).read_bytes() for it in os.listdir(folder)}, before)


def two_runs_do_not_write_one_file(program):
    """Otherwise the file could have the bytes of both."""
    with folder_of_files() as folder:
        with (folder / "out.snap.part").open("wb") as other:
            other.write(OLD)
            other.flush()
            fcntl.flock(other, fcntl.LOCK_EX)
            wanted = 3, b"", b"itchsnap: cannot open\n  out.snap.part: another process is writing it\n"
            yield from differs("locked", ended_in(folder, program, "snap", "day.itch", "--output", "out.snap"), wanted)
            yield from differs("locked", ((folder / "out.snap.part").read_bytes(), names(folder)), (OLD, ["out.snap.part"]))
        # The file of a process that was killed is not locked any more.
        yield from differs("left", ended_in(folder, program, "snap", "day.itch", "--output", "out.snap"), (0, b"", b""))
        yield from differs("left", ((folder / "out.snap").read_bytes(), names(folder)), (SNAPSHOT, ["out.snap"]))


def what_is_fetched_is_written_to_a_file(program):
    with folder_of_files() as folder:
        for words in ((), ("--from", "1")):
            with serving(program, *PASS) as (_, _, port):
                got = ended_in(folder, program, "fetch", "--port", port, *LOGIN, *words, "--output", "out.snap")
            yield from differs(f"fetch {words}", got, (0, b"", b""))
            yield from differs(f"fetch {words}", ((folder / "out.snap").read_bytes(), names(folder)), (snapshot(program, DAY), ["out.snap"]))
            (folder / "out.snap").unlink()
        # There is no server.
        status, output, error = ended_in(folder, program, "fetch", "--port", "1", *LOGIN, "--output", "out.snap")
        if (status, output, names(folder)) != (3, b"", []) or not error.startswith(b"itchsnap: socket failed\n"):
            yield f"no server: {status}, {output}, {error}, {names(folder)}"


RUNS = [
    a_snapshot_is_written_to_a_file,
    nothing_is_left_of_a_refused_command,
    an_output_that_cannot_be_opened_is_named,
    each_allocation_and_write_fails_in_turn,
    nothing_is_left_of_a_file_that_gets_no_name,
    a_device_is_written_as_it_is,
    an_output_is_not_an_input,
    two_runs_do_not_write_one_file,
    what_is_fetched_is_written_to_a_file,
]
