"""The program at a shell: its version, terminals, closed pipes, progress, `examples/parts`, and the manual page.

RUNS lists the runs: functions that take the program and yield the differences found.
"""
import os
import pty
import re
import select
import shutil
import signal
import struct
import subprocess
import tempfile
import time
from pathlib import Path

import large
from common import differs, readable

TOP = Path(__file__).resolve().parent.parent.parent
OPENING = TOP / "examples/opening.itch"
SNAPSHOT = TOP / "examples/opening.snap"
CLOSED_PIPE = 141


def version(program):
    return subprocess.run([program, "--version"], capture_output=True, text=True, check=True).stdout


def the_version_is_that_of_the_changes_and_the_toolchain(program):
    printed = version(program)
    newest = re.search(r"^## ([\d.]+)", (TOP / "CHANGELOG.md").read_text(), re.M)[1]
    parts = re.fullmatch(r"itchsnap (\S+) \(proved with (.+), (not a released build|release [0-9a-f]{12})\)\n", printed)
    if not parts or parts[1] != newest:
        yield f"printed {printed!r}, where the newest changes are those of {newest}"
    elif f"`rt version`: {parts[2]})" not in (TOP / "README.md").read_text():
        yield f"README does not name the toolchain {parts[2]}"
    elif shutil.which("rt"):
        line = subprocess.run(["rt", "version"], capture_output=True, text=True, check=True).stdout.strip()
        if parts[2] != line:
            yield f"the program says {parts[2]}, and rt version {line}"
    else:
        print("skipped: the toolchain in the version: rt is not installed")


def ended(words, ignored):
    """Returns the status and the error of a command whose output nobody reads, with SIGPIPE at its default or ignored."""
    read, write = os.pipe()
    os.close(read)
    # A process that another thread is starting may still hold the end that is closed here.
    closed = select.poll()
    closed.register(write, 0)
    closed.poll(60_000)
    with os.fdopen(write, "wb") as output:
        done = subprocess.run(words, stdout=output, stderr=subprocess.PIPE, stdin=subprocess.DEVNULL, timeout=60,
                              preexec_fn=(lambda: signal.signal(signal.SIGPIPE, signal.SIG_IGN)) if ignored else None)
    # As a shell reports a signal.
    return done.returncode if done.returncode >= 0 else 128 - done.returncode, done.stderr


def a_closed_pipe_ends_quietly(program):
    for words in (["snap", OPENING], ["show", OPENING], ["check", OPENING], ["canon", SNAPSHOT], ["completions", "zsh"], ["--help"], ["--version"]):
        for ignored in (False, True):
            got = ended([program, *words], ignored)
            if got != (CLOSED_PIPE, b""):
                yield f"{words[0]}, SIGPIPE {'ignored' if ignored else 'as it is'}: ended with {got}"


def a_pipe_that_is_closed_early_ends_quietly(program):
    day, _ = large.locates(65_536)
    with tempfile.NamedTemporaryFile(suffix=".itch") as file:
        file.write(day)
        file.flush()
        done = subprocess.run(["bash", "-c", 'trap "" PIPE; "$0" show "$1" | head -n 1; echo "${PIPESTATUS[0]}"', program, file.name],
                              capture_output=True, timeout=60)
    lines = done.stdout.split(b"\n")
    if not lines[0].startswith(b"1 R ") or lines[1:] != [b"141", b""] or done.stderr:
        yield f"ended with {done}"


def on_terminal(words):
    """Returns the status, the output to a terminal, and the error."""
    controller, terminal = pty.openpty()
    try:
        done = subprocess.run(words, stdout=terminal, stderr=subprocess.PIPE, stdin=subprocess.DEVNULL, timeout=60)
        os.set_blocking(controller, False)
        try:
            shown = os.read(controller, 1 << 16)
        except BlockingIOError:
            shown = b""
    finally:
        os.close(terminal)
        os.close(controller)
    return done.returncode, shown, done.stderr


def a_snapshot_is_kept_from_a_terminal(program):
    login = ["127.0.0.1:1", "--user", "u", "--pass", "p"]
    for words in (["snap", OPENING], ["canon", SNAPSHOT], ["join", SNAPSHOT, OPENING], ["fetch", *login]):
        status, shown, error = on_terminal([program, *words])
        if (status, shown) != (2, b"") or not error.startswith(b"error: a snapshot is not written to a terminal"):
            yield f"{words[0]}: status {status}, {shown!r}, {error!r}"
    with tempfile.TemporaryDirectory() as folder:
        got = on_terminal([program, "snap", OPENING, "--output", f"{folder}/out.snap"])
        if got != (0, b"", b"") or os.listdir(folder) != ["out.snap"]:
            yield f"to a file: {got}, {os.listdir(folder)}"


def lines_are_shown_on_a_terminal(program):
    for words, line in ((["check", OPENING], b"ok 5 messages\r\n"), (["canon", "--check", SNAPSHOT], b"canonical\r\n")):
        got = on_terminal([program, *words])
        if got != (0, line, b""):
            yield f"{words[0]}: {got}"
    for words in (["show", OPENING], ["snap", "--help"]):
        got = on_terminal([program, *words])
        elsewhere = subprocess.run([program, *words], capture_output=True, timeout=60).stdout
        if not elsewhere or got != (0, elsewhere.replace(b"\n", b"\r\n"), b""):
            yield f"{words}: {got}"


def both_files_may_not_be_standard_input(program):
    for command in ("compare", "join"):
        done = subprocess.run([program, command, "-", "-"], capture_output=True, stdin=subprocess.DEVNULL, timeout=60)
        first = done.stderr.split(b"\n")[0]
        if (done.returncode, done.stdout, first) != (2, b"", b"error: only one of the two files may be standard input"):
            yield f"{command}: {done}"


TRADE = large.block(b"P", 1, struct.pack(">QcI8sIQ", 0, b"B", 1, large.stock(1), 1, 0))
# The percentage and the time left are shown if the size of each file is known.
SHOWN = rb"\r(\d+) bytes, (\d+) messages, +\d+ MB/s"
LEFT = rb", +(\d+) %, \d+ s left"


def progress_is_shown_every_64_mib(program):
    count = 3_000_000
    day = large.entry(1) + TRADE * count
    checked = b"ok %d messages\n" % (1 + count)
    once, twice, unsized = rb"%s%s\n" % (SHOWN, LEFT), rb"(%s%s){2}\n" % (SHOWN, LEFT), rb"(%s){2}\n" % SHOWN
    with tempfile.NamedTemporaryFile(suffix=".itch") as file:
        file.write(day)
        file.flush()
        for words, data, output, shown in (
                (["check", file.name], b"", checked, twice),
                (["check", "-"], day, checked, unsized),
                (["snap", "--after", "1600000", file.name], b"", large.entry(1) + large.closing(1_600_001), once),
                (["book", "1", file.name], b"", b"1 %s\n" % large.stock(1).strip(), twice),
                (["compare", file.name, file.name], b"", b"same\n", twice * 2),
                (["compare", file.name, "-"], day, b"same\n", unsized * 2)):
            plain, done = (subprocess.run([program, *words, *flag], input=data, capture_output=True, timeout=120)
                           for flag in ([], ["--progress"]))
            for name, ran, error in (("without", plain, b""), ("with", done, shown)):
                if (ran.returncode, ran.stdout) != (0, output) or not re.fullmatch(error, ran.stderr):
                    yield f"{words[0]} {name}: status {ran.returncode}, {ran.stdout[:80]!r}, {ran.stderr!r}"
            yield from what_is_wrongly_shown(done.stderr, len(day))
        # (if files are read in parallel, the line shows the sum, and each file may be within a message)
        both = subprocess.run([program, "compare", "--first", "--progress", file.name, file.name], capture_output=True, timeout=120)
        if (both.returncode, both.stdout) != (0, b"same\n") or not re.fullmatch(rb"(%s%s){4}\n" % (SHOWN, LEFT), both.stderr):
            yield f"side by side: status {both.returncode}, {both.stdout[:80]!r}, {both.stderr!r}"
        with open("/dev/full", "wb") as full:
            unseen = subprocess.run([program, "check", "--progress", file.name], stdout=subprocess.PIPE, stderr=full, timeout=120)
        if (unseen.returncode, unseen.stdout) != (0, checked):
            yield f"to a full device: status {unseen.returncode}, {unseen.stdout!r}"


def progress_of_at_is_of_the_rest_of_its_day(program):
    """From a checkpoint on, the percentage covers the checkpoint's file and the rest of the day. The time left is computed from the remaining bytes:
    the index is a pipe that is written two seconds late, so the day is nearly over when the second line appears."""
    count, before, late = 3_000_000, 1_500_000, 2
    entry, closing = large.entry(1), large.closing(before + 2)
    with tempfile.TemporaryDirectory() as name:
        folder = Path(name)
        (folder / "day").write_bytes(entry + TRADE * count)
        (folder / f"{before + 1}.snap").write_bytes(entry + closing)
        offset = len(entry) + before * len(TRADE)
        (folder / "index.jsonl").write_text(f'{{"messages":{before + 1},"offset":{offset},"timestamp":0}}\n')
        words = [program, "at", folder, folder / "day", str(count + 1), "--progress"]
        done = subprocess.run(words, capture_output=True, timeout=120)
        yield from differs("from a checkpoint", (done.returncode, done.stdout), (0, entry + large.closing(count + 2)))
        rest = len(entry + closing) + (count - before) * len(TRADE)
        shares = [(int(so_far) * 100 // rest, int(share)) for so_far, _, share in re.findall(rb"%s%s" % (SHOWN, LEFT), done.stderr)]
        yield from differs("shares", [share for _, share in shares], [wanted for wanted, _ in shares] or ["a share"])
        (folder / "index.jsonl").unlink()
        os.mkfifo(folder / "index.jsonl")
        with subprocess.Popen(words, stdout=subprocess.PIPE, stderr=subprocess.PIPE) as running:
            time.sleep(late)
            (folder / "index.jsonl").write_bytes(b"")
            _, shown = running.communicate(timeout=120)
        lefts = [int(it) for it in re.findall(rb", (\d+) s left", shown)]
        if len(lefts) != 2 or lefts[0] < late or lefts[1] >= late:
            yield f"{lefts} seconds are left"


def what_is_wrongly_shown(error, length):
    """Yields the progress lines that are wrong for a file of this length, consisting of an entry and then trades, and that file again."""
    entry = len(large.entry(1))
    lines = re.findall(rb"%s(?:%s)?" % (SHOWN, LEFT), error)
    for place, (so_far, messages, share) in enumerate(lines, 1):
        if not place * 2**26 <= int(so_far) < place * 2**26 + 2**16:
            yield f"line {place} is at byte {so_far}"
        wanted = sum(1 + (size - entry) // len(TRADE) for size in (min(int(so_far), length), int(so_far) - length) if size > 0)
        if int(messages) != wanted:
            yield f"{messages} messages at byte {so_far}, not {wanted}"
        total = length * (2 if len(lines) > 2 else 1)
        if share and int(share) != int(so_far) * 100 // total:
            yield f"{share} per cent at byte {so_far} of {total}"


def shown_next(stream):
    """Returns the next line of progress, or the bytes that came within a minute."""
    shown = b""
    while not shown.endswith(b"MB/s") and readable([stream], 60):
        byte = os.read(stream.fileno(), 1)
        if not byte:
            break
        shown += byte
    return shown


def the_rate_is_that_of_the_bytes_and_the_time(program):
    """The second line appears at least a second after the first, and no later than it is read."""
    part = (b"\xff\xff" + b"z" * 65_535) * 1024
    begin = time.monotonic()
    with subprocess.Popen([program, "check", "--progress"], stdin=subprocess.PIPE, stdout=subprocess.PIPE, stderr=subprocess.PIPE) as running:
        for wait in (0, 1):
            time.sleep(wait)
            running.stdin.write(part)
            running.stdin.flush()
            shown = shown_next(running.stderr)
        passed = time.monotonic() - begin
        running.stdin.close()
        rest = running.stderr.read(), running.stdout.read()
    line = re.fullmatch(rb"\r(?P<size>\d+) bytes, \d+ messages, (?P<rate>[ \d]{5,}) MB/s", shown)
    size, rate = (int(line["size"]), int(line["rate"])) if line else (0, 0)
    if not 0 < int(size / passed / 1e6) <= rate <= size / 1e6 or rest != (b"\n", b"ok 2048 messages\n"):
        yield f"{shown!r} after {passed:.3f} s, and then {rest}"


def no_progress_is_shown_of_a_small_file(program):
    written = SNAPSHOT.read_bytes()
    for words, output in ((["check", OPENING], b"ok 5 messages\n"), (["snap", OPENING], written), (["canon", SNAPSHOT], written),
                          (["compare", OPENING, OPENING], b"same\n"), (["compare", "--first", OPENING, OPENING], b"same\n"),
                          (["join", SNAPSHOT, OPENING], written)):
        done = subprocess.run([program, *words, "--progress"], capture_output=True, timeout=60)
        if (done.returncode, done.stdout, done.stderr) != (0, output, b""):
            yield f"{words[0]}: {done}"


# The program, except that it runs out of memory for each part with locate 2.
FAILS_AT_2 = """#!/bin/sh
[ "$3 $4" != "examples/opening.itch --only" ] || [ "$5" != 2 ] || { echo "itchsnap: out of memory" >&2; exit 4; }
exec "$(dirname "$0")/program" "$@"
"""


def parts_are_the_whole_or_end_as_the_program_does(program):
    usage = (2, "", "usage: examples/parts FILE [LOCATES [PROCESSES]]\n")
    whole = "together the complete snapshot of 4 messages\n"
    with tempfile.TemporaryDirectory() as name:
        folder = Path(name)
        (folder / "examples").symlink_to(TOP / "examples")
        (folder / "program").symlink_to(program)
        (folder / "empty").touch()

        def ended(*words):
            done = subprocess.run(["examples/parts", *words], cwd=folder, capture_output=True, text=True, timeout=60)
            return done.returncode, done.stdout, done.stderr

        (folder / "itchsnap").symlink_to(program)
        for words, wanted in (
                ([], usage), (["-"], usage), (["a", "1", "2", "3"], usage), (["a", "0"], usage), (["a", "1", "x"], usage),
                (["nosuch"], (3, "", "itchsnap: cannot open\n  nosuch: No such file or directory (os error 2)\n")),
                (["examples/refused.itch"], (1, "", "itchsnap: message 2: stock mismatch\n")),
                (["empty"], (0, "0 parts, together the complete snapshot of 0 messages\n", "")),
                (["examples/opening.itch"], (0, f"1 parts, {whole}", "")),
                *((["examples/opening.itch", "1", it], (0, f"2 parts, {whole}", "")) for it in "1239")):
            if (got := ended(*words)) != wanted:
                yield f"parts {' '.join(words)}: {got}"
        (folder / "itchsnap").unlink()
        (folder / "itchsnap").write_text(FAILS_AT_2)
        (folder / "itchsnap").chmod(0o755)
        for processes in "129":
            if (got := ended("examples/opening.itch", "1", processes)) != (4, "", "itchsnap: out of memory\n"):
                yield f"{processes} at a time, where the second part fails: {got}"


def the_page_has_each_command_and_option(program):
    page = (TOP / "docs/itchsnap.1").read_text().replace("\\-", "-")

    def help_of(*words):
        return subprocess.run([program, *words, "--help"], capture_output=True, text=True, check=True).stdout

    names = re.findall(r"^  ([a-z]+)  ", help_of(), re.M)
    helps = [help_of(), *(help_of(name) for name in names if name != "help")]
    for name in names:
        if f"\n.TP\n.B {name}\n" not in page:
            yield f"the page lacks the command {name}"
    for option in {it for text in helps for it in re.findall(r"--[a-z][a-z-]*[a-z]", text)}:
        if not re.search(rf"\n\.TP\n\.[BRI]+ .*{option}\b", page):
            yield f"the page lacks the option {option}"
    explained = re.findall(r"^\.TP\n\.[BRI]+ .*?--([a-z-]+)", page.split("\n.SH OPTIONS\n")[1].split("\n.SH ENVIRONMENT\n")[0], re.M)
    shown = {it for text in helps for it in re.findall(r"^ +(?:-[hV], )?--([a-z-]+)", text, re.M)}
    yield from differs("options that only the page has", sorted({*explained} - shown), [])
    for name, text in zip(names, helps[1:]):
        synopsis = "\n".join(re.findall(rf"^\.B itchsnap {name}\n((?:(?!\.br|\.SH).*\n)*)", page, re.M))
        options = {it for it in re.findall(r"^ +(?:-h, )?--([a-z-]+)", text, re.M)} - {"help"}
        yield from differs(f"synopsis of {name}", {*re.findall(r"--([a-z-]+)", synopsis)}, options)
    if f'"itchsnap {version(program).split()[1]}"' not in page:
        yield "the page is that of another version"


RUNS = [
    the_version_is_that_of_the_changes_and_the_toolchain,
    a_closed_pipe_ends_quietly,
    a_pipe_that_is_closed_early_ends_quietly,
    a_snapshot_is_kept_from_a_terminal,
    lines_are_shown_on_a_terminal,
    both_files_may_not_be_standard_input,
    progress_is_shown_every_64_mib,
    progress_of_at_is_of_the_rest_of_its_day,
    the_rate_is_that_of_the_bytes_and_the_time,
    no_progress_is_shown_of_a_small_file,
    parts_are_the_whole_or_end_as_the_program_does,
    the_page_has_each_command_and_option,
]
