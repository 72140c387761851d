"""`./itchsnap` and `./install` in a fresh copy of the checkout: which program they choose and report.

RUNS lists the runs: functions that take the program and yield the differences found.
"""
import contextlib
import os
import shutil
import subprocess
import sys
import tempfile
import time
from concurrent.futures import ThreadPoolExecutor
from pathlib import Path

TOP = Path(__file__).resolve().parent.parent.parent
# A PATH without a toolchain.
PLAIN = "/usr/bin:/bin"


def crates_of_the_program():
    """Returns the program's crate and those that it is built from, in the order of crates.txt."""
    rows = [line.partition(":") for line in (TOP / "crates.txt").read_text().splitlines() if not line.startswith("#")]
    uses = {name.split()[0]: below.split() for name, _, below in rows}
    wanted = ["itch_tool"]
    for name in wanted:
        wanted += [it for it in uses[name] if it in uses and it not in wanted]
    return [name for name in uses if name in wanted]


NAMES = crates_of_the_program()
CHANGED = "crates/itch_frame/src/lib.rt"
# Where ./install puts the program and its other files, in its order.
PLACES = ["bin/itchsnap", "share/man/man1/itchsnap.1", "share/bash-completion/completions/itchsnap", "share/zsh/site-functions/_itchsnap",
          "share/fish/vendor_completions.d/itchsnap.fish"]
OTHER = "itchsnap: the sources are not those of the released program"
# Builds nothing: the program that it makes prints its arguments. It takes a little time, and notes its own arguments.
FAKE_RT = """#!/bin/sh
[ "$1" != "$FAILS" ] || { echo "rt: not proved"; exit 1; }
echo "$1" >>"$CALLS"
[ "$1" != run ] || { mkdir -p out; printf '#!/bin/sh\\necho "$@"\\n' >out/itch_tool; chmod +x out/itch_tool; sleep 0.2; }
"""

# Runs a command, and writes the processor time that it used to the file given first.
TIMED = """
import resource, subprocess, sys
status = subprocess.run(sys.argv[2:]).returncode
used = resource.getrusage(resource.RUSAGE_CHILDREN)
with open(sys.argv[1], "w") as taken:
    taken.write(f"{used.ru_utime + used.ru_stime:.2f}")
sys.exit(status)
"""


class Checkout:
    """A fresh copy of the files that git tracks in this checkout, in a folder with a space in its name, and an `rt` that proves nothing."""

    def __init__(self, folder):
        self.folder = Path(folder)
        self.top = self.folder / "a checkout"
        files = subprocess.run(["git", "ls-files", "-z", "--cached", "--others", "--exclude-standard"], cwd=TOP, capture_output=True,
                               check=True).stdout.decode()
        for name in filter(None, files.split("\0")):
            if (TOP / name).exists():
                (self.top / name).parent.mkdir(parents=True, exist_ok=True)
                shutil.copy2(TOP / name, self.top / name)
        (self.folder / "rt").write_text(FAKE_RT)
        (self.folder / "rt").chmod(0o755)

    def change(self):
        """Changes one byte of a source."""
        with open(self.top / CHANGED, "a") as file:
            file.write("\n")

    def start(self, *words, script="itchsnap", rt=False, before=(), **more):
        """Returns how a script ends: its status and both outputs. Runs it with the `rt` of this folder, or without any."""
        path = f"{self.folder}:{PLAIN}" if rt else PLAIN
        environment = {"HOME": "/", "LANG": "C.UTF-8", "PATH": path, "CALLS": str(self.folder / "calls"), **more}
        done = subprocess.run([*before, self.top / script, *words], capture_output=True, text=True, env=environment, cwd="/",
                              stdin=subprocess.DEVNULL, timeout=60)
        return done.returncode, done.stdout, done.stderr


@contextlib.contextmanager
def checkout():
    with tempfile.TemporaryDirectory() as folder:
        os.chmod(folder, 0o755)
        yield Checkout(folder)


def differs(label, got, wanted):
    if got != wanted:
        yield f"{label}: {got}, not {wanted}"


def nobody():
    """Returns the prefix of a command that must not run as root."""
    return ["setpriv", "--reuid=65534", "--regid=65534", "--clear-groups"] if os.geteuid() == 0 else []


def a_fresh_copy_takes_less_than_a_second_without_the_toolchain(_program):
    """Processor time is measured, which does not depend on the load of the machine."""
    with checkout() as copy:
        opening, taken = copy.top / "examples/opening.itch", copy.folder / "taken"
        got = copy.start("check", opening, before=[sys.executable, "-c", TIMED, taken])
        yield from differs("the first start", got, (0, "ok 5 messages\n", ""))
        if float(taken.read_text()) > 1:
            yield f"the first start took {taken.read_text()} s"
        link = copy.folder / "linked"
        link.symlink_to(copy.top / "itchsnap")
        again = copy.folder / "again"
        again.symlink_to("linked")
        yield from differs("through two links", copy.start("check", opening, script="../again"), (0, "ok 5 messages\n", ""))
        if (copy.top / "crates/itch_tool/out").exists():
            yield "something was built"


def the_program_takes_the_place_of_its_script(_program):
    """So a signal to the process ends the program."""
    with checkout() as copy, subprocess.Popen([copy.top / "itchsnap", "check"], stdin=subprocess.PIPE, stdout=subprocess.PIPE) as started:
        begun, process = time.monotonic(), Path(f"/proc/{started.pid}/exe")
        while process.readlink() != copy.top / "release/itchsnap" and time.monotonic() < begun + 10:
            time.sleep(0.01)
        yield from differs("the process is", process.readlink(), copy.top / "release/itchsnap")
        output, _ = started.communicate((TOP / "examples/opening.itch").read_bytes(), timeout=60)
        yield from differs("ended", (started.returncode, output), (0, b"ok 5 messages\n"))


def a_checkout_may_be_read_only(_program):
    with checkout() as copy:
        subprocess.run(["chmod", "-R", "a+rX,a-w", copy.top], check=True)
        wanted = (0, "ok 5 messages\n", "")
        try:
            yield from differs("read-only", copy.start("check", copy.top / "examples/opening.itch", before=nobody()), wanted)
        finally:
            subprocess.run(["chmod", "-R", "u+w", copy.top], check=True)


def the_released_version_has_the_records_hash(_program):
    with checkout() as copy:
        record = dict(line.split(" ", 1) for line in (copy.top / "release/RECORD").read_text().splitlines())
        wanted = f"itchsnap {record['version']} (proved with {record['toolchain']}, release {record['sources'][:12]})\n"
        yield from differs("--version", copy.start("--version"), (0, wanted, ""))


def a_changed_source_needs_the_toolchain(_program):
    needed = f"{OTHER}. Proving and building it needs the Rattle toolchain: there is no command rt on the path\n"
    with checkout() as copy:
        copy.change()
        yield from differs("no toolchain", copy.start("check"), (1, "", needed))
        yield from differs("install", copy.start(copy.folder / "prefix", script="install"), (1, "", needed))
    with checkout() as copy:
        crates = (copy.top / "crates.txt").read_text()
        (copy.top / "crates.txt").write_text(crates.replace("itch_frame:", "itch_frame: hex", 1))
        yield from differs("a dependency", copy.start("check"), (1, "", needed))


def a_change_that_the_program_is_not_built_from_needs_nothing(_program):
    with checkout() as copy:
        for changed, more in ("crates.txt", "# the last tests\nlast_tests: itch_frame\n"), ("crates/format_tests/src/lib.rt", "\n"):
            with open(copy.top / changed, "a") as file:
                file.write(more)
            yield from differs(changed, copy.start("check", copy.top / "examples/opening.itch"), (0, "ok 5 messages\n", ""))


def a_changed_source_is_proved_and_built(_program):
    says = f"{OTHER}. Proving and building it "
    crates = "".join(f"itchsnap: proving {name} ({number} of {len(NAMES)}), 0 min so far ..\n" for number, name in enumerate(NAMES, 1))
    first = f"{says}takes an hour or two on four cores\n"
    with checkout() as copy:
        copy.change()
        failed = first + crates.split("\n")[0] + "\nrt: not proved\n"
        yield from differs("a failed build", copy.start("one", "two", rt=True, FAILS="lib"), (1, "", failed))
        (copy.top / "crates/itch_tool/out").mkdir()
        yield from differs("the first start", copy.start("one", "two", rt=True), (0, "one two\n", first + crates))
        yield from differs("the second start", copy.start("one", "two"), (0, "one two\n", ""))
        (copy.top / "crates/itch_tool/out/seconds").write_text("754\n")
        os.utime(copy.top / "crates/itch_tool/out/itch_tool", (0, 0))
        wanted = f"{says}took 12 min 34 s the last time\n{crates}"
        yield from differs("a start after a change", copy.start("one", "two", rt=True), (0, "one two\n", wanted))


def a_changed_definition_is_proved_and_built(_program):
    """Or the list of crates is changed: nothing else has changed since the program was built."""
    needed = f"{OTHER}. Proving and building it needs the Rattle toolchain: there is no command rt on the path\n"
    with checkout() as copy:
        copy.change()
        for changed in "crates/itch_frame/specs/Blocks.antt", "crates.txt":
            copy.start("one", rt=True)
            yield from differs("as it was built", copy.start("one"), (0, "one\n", ""))
            with open(copy.top / changed, "a") as file:
                file.write("\n")
            yield from differs(changed, copy.start("one"), (1, "", needed))


def a_release_that_is_not_proved_is_not_made(_program):
    """The old release stays, and nothing is left next to it."""
    with checkout() as copy:
        if subprocess.run([copy.top / "tools/pack", "--tools"], capture_output=True).returncode:
            print("skipped: a release that is not proved: the tools for its packages are not installed")
            return
        before = contents_below(copy.top / "release")
        copy.change()
        for fails in "lib", "run":
            status, output, faults = copy.start(script="make-release", rt=True, FAILS=fails, PATH=f"{copy.folder}:{PLAIN}:{os.environ['PATH']}")
            yield from differs(f"where {fails} fails", (status, output, faults.splitlines()[-1]), (1, "", "rt: not proved"))
            yield from differs("the release", contents_below(copy.top / "release") == before, True)
            yield from differs("left next to it", [it.name for it in copy.top.glob("release?*")], [])


def contents_below(folder):
    return {it.relative_to(folder): it.read_bytes() for it in folder.rglob("*") if it.is_file()}


def of_two_starts_one_builds(_program):
    with checkout() as copy, ThreadPoolExecutor(2) as pool:
        copy.change()
        got = [it.result() for it in [pool.submit(copy.start, "one", rt=True) for _ in range(2)]]
        yield from differs("statuses and outputs", [it[:2] for it in got], [(0, "one\n")] * 2)
        yield from differs("calls of rt", (copy.folder / "calls").read_text().split(), ["lib"] * (len(NAMES) - 1) + ["run"])


def the_gate_refuses_a_changed_source(_program):
    with checkout() as copy:
        copy.change()
        status, output, _ = copy.start(script="test", rt=True)
        if status == 0 or "release/RECORD describes other sources of the program" not in output or (copy.folder / "calls").exists():
            yield f"the gate ended with {status}: {output}"


def the_program_is_installed_with_its_page(_program):
    with checkout() as copy:
        prefix = copy.folder / "new/prefix"
        bins = prefix / "bin"
        put = "".join(f"installed {prefix}/{it}\n" for it in PLACES)
        off = f'{bins} is not on the PATH: add it with  export PATH="{bins}:$PATH"\n'
        yield from differs("install", copy.start(prefix, script="install"), (0, put + off, ""))
        again = copy.start(prefix, script="install", PATH=f"{PLAIN}:{bins}")
        yield from differs("install again", again, (0, f"{put}{bins} is on the PATH\n", ""))
        yield from differs("placed", files_below(prefix), sorted(PLACES))
        if (bins / "itchsnap").read_bytes() != (TOP / "release/itchsnap").read_bytes():
            yield "another program was installed"
        checked = subprocess.run([bins / "itchsnap", "check", TOP / "examples/opening.itch"], capture_output=True, timeout=60)
        yield from differs("the installed program", (checked.returncode, checked.stdout), (0, b"ok 5 messages\n"))


def all_may_use_what_is_installed(_program):
    """Whatever the umask of the installing user."""
    with checkout() as copy:
        prefix = copy.folder / "prefix"
        prefix.mkdir()
        status, _, faults = copy.start(prefix, script="install", before=["sh", "-c", 'umask 077; exec "$@"', "sh"])
        yield from differs("install", (status, faults), (0, ""))
        modes = {it: oct((prefix / it).stat().st_mode & 0o777) for it in PLACES}
        yield from differs("modes", modes, {it: "0o755" if it.startswith("bin") else "0o644" for it in PLACES})


def a_program_that_runs_may_be_installed_over(_program):
    """It keeps running unchanged."""
    with checkout() as copy:
        prefix = copy.folder / "prefix"
        copy.start(prefix, script="install")
        with subprocess.Popen([prefix / "bin/itchsnap", "check"], stdin=subprocess.PIPE, stdout=subprocess.PIPE) as running:
            yield from differs("install", copy.start(prefix, script="install")[0::2], (0, ""))
            output, _ = running.communicate((TOP / "examples/opening.itch").read_bytes(), timeout=60)
        yield from differs("the running program", (running.returncode, output), (0, b"ok 5 messages\n"))
        checked = subprocess.run([prefix / "bin/itchsnap", "check", TOP / "examples/opening.itch"], capture_output=True, timeout=60)
        yield from differs("the new one", (checked.returncode, checked.stdout), (0, b"ok 5 messages\n"))


def what_is_installed_is_removed_and_no_more(_program):
    with checkout() as copy:
        prefix = copy.folder / "prefix"
        copy.start(prefix, script="install")
        (prefix / "share/man/man1/other.1").touch()
        gone = "".join(f"removed {prefix}/{it}\n" for it in PLACES)
        yield from differs("uninstall", copy.start("--uninstall", prefix, script="install"), (0, gone, ""))
        yield from differs("left", sorted(str(it.relative_to(prefix)) for it in prefix.rglob("*")),
                           ["share", "share/man", "share/man/man1", "share/man/man1/other.1"])
        nothing = f"nothing of itchsnap is installed below {prefix}\n"
        yield from differs("again", copy.start("--uninstall", prefix, script="install"), (0, nothing, ""))


def without_a_prefix_the_home_folder_is_taken(_program):
    with checkout() as copy:
        home = copy.folder / "home"
        home.mkdir()
        home.chmod(0o777)
        status, _, faults = copy.start(script="install", before=nobody(), HOME=str(home))
        yield from differs("install", (status, faults), (0, ""))
        yield from differs("placed", files_below(home / ".local"), sorted(PLACES))


def files_below(folder):
    return sorted(str(it.relative_to(folder)) for it in folder.rglob("*") if it.is_file())


def what_cannot_be_installed_is_one_line(_program):
    usage = "usage: ./install [--library] [--uninstall] [PREFIX]\n"
    with checkout() as copy:
        file = copy.folder / "a file"
        file.touch()
        for words, wanted in (
            ([file], (1, "", f"install: cannot write {file}/bin/itchsnap\n")),
            (["--libary"], (2, "", f"install: unknown option --libary\n{usage}")),
            ([""], (2, "", f"install: PREFIX is empty\n{usage}")),
            (["a", "b"], (2, "", f"install: more than one PREFIX\n{usage}")),
        ):
            yield from differs(f"install {words}", copy.start(*words, script="install"), wanted)
        status, helped, faults = copy.start("--help", script="install")
        if (status, faults) != (0, "") or not helped.startswith(usage):
            yield f"--help ended with {status}, {helped!r} and {faults!r}"


RUNS = [
    a_fresh_copy_takes_less_than_a_second_without_the_toolchain,
    the_program_takes_the_place_of_its_script,
    a_checkout_may_be_read_only,
    the_released_version_has_the_records_hash,
    a_changed_source_needs_the_toolchain,
    a_change_that_the_program_is_not_built_from_needs_nothing,
    a_changed_source_is_proved_and_built,
    a_changed_definition_is_proved_and_built,
    a_release_that_is_not_proved_is_not_made,
    of_two_starts_one_builds,
    the_gate_refuses_a_changed_source,
    the_program_is_installed_with_its_page,
    all_may_use_what_is_installed,
    a_program_that_runs_may_be_installed_over,
    what_is_installed_is_removed_and_no_more,
    without_a_prefix_the_home_folder_is_taken,
    what_cannot_be_installed_is_one_line,
]
