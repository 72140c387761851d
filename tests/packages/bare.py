"""A bare Debian 12, with or without a compiler and Python: the packages are installed, used and removed.

Each run unpacks a system of its own. The archives of these systems are made by debootstrap and kept outside the checkout, in
$XDG_CACHE_HOME/sundrekk or ~/.cache/sundrekk. RUNS lists the runs: functions that yield the differences found.
"""
import contextlib
import os
import shutil
import tempfile
from pathlib import Path

from kit import EXAMPLES, KEPT, TOP, VERSION, Skipped, differs, need, packed, ran, snapshot_differs

SUITE = "bookworm"
BUILDING = "gcc libc6-dev make cmake pkg-config python3-venv".split()
# Files in which dpkg and ldconfig record their own work.
NOTES = ("var/lib/dpkg", "var/log", "var/cache/ldconfig", "etc/ld.so.cache", "proc", "tmp", "srv/day")
# Set by run: whether to make a system that has not been kept, which takes minutes.
may_be_made = True


class System:
    """A Debian system in a folder."""

    def __init__(self, root):
        self.root = root

    def ran(self, *words):
        """Runs a command in this system, and returns its status and its output."""
        enter = 'mount -t proc proc "$0/proc" 2>/dev/null; exec chroot "$0" "$@"'
        plain = ["env", "-i", "PATH=/usr/sbin:/usr/bin:/sbin:/bin", "LANG=C.UTF-8", "HOME=/root", "DEBIAN_FRONTEND=noninteractive"]
        return ran("unshare", "--mount", "sh", "-c", enter, self.root, *plain, *words, timeout=1800)

    def script(self, label, text):
        """Yields the output of a script if it fails. (A `grep -q` in it would end before its input does, and make that fail.)"""
        status, said = self.ran("bash", "-euo", "pipefail", "-c", text)
        if status:
            yield f"{label}: status {status}\n{said}".rstrip()

    def take(self, *files):
        """Copies files into the folder /srv/day of the system."""
        (self.root / "srv/day").mkdir(exist_ok=True)
        for it in files:
            shutil.copy(it, self.root / "srv/day")

    def files(self):
        """Returns everything in the system, except the files in which its tools record their work."""
        found = set()
        for folder, folders, names in os.walk(self.root):
            within = Path(folder).relative_to(self.root)
            folders[:] = [it for it in folders if not str(within / it).startswith(NOTES)]
            found |= {str(within / it) for it in folders + names if not str(within / it).startswith(NOTES)}
        return found


def said_well(label, ended):
    """Returns the output of a command. If it failed, nothing can be run, so the run is skipped."""
    status, said = ended
    if status:
        raise Skipped(f"{label} failed: {said.strip().splitlines()[-1:]}")
    return said


def made(kind, root):
    """Makes a system in a folder: a bare one, or one with the tools to build programs, based on it."""
    if kind == "bare":
        said_well("debootstrap", ran("debootstrap", "--variant=minbase", SUITE, root, timeout=3600))
    else:
        unpacked("bare", root)
        system = System(root)
        said_well("apt-get update", system.ran("apt-get", "update"))
        said_well("apt-get install", system.ran("apt-get", "install", "--yes", "--no-install-recommends", *BUILDING))
        said_well("apt-get clean", system.ran("apt-get", "clean"))


def kept(kind):
    """Returns the archive of a system. Makes it if it does not exist."""
    archive = KEPT / f"{SUITE}-{kind}.tar"
    if not archive.exists():
        if not may_be_made:
            raise Skipped(f"{archive} does not exist: tests/packages/run without --quick makes it")
        need("debootstrap")
        KEPT.mkdir(parents=True, exist_ok=True)
        with tempfile.TemporaryDirectory(dir=KEPT) as name:
            root = Path(name) / "root"
            print(f"making a Debian in {archive}, which takes minutes", flush=True)
            made(kind, root)
            said_well("tar", ran("tar", "--numeric-owner", "-C", root, "-cf", f"{archive}.part", "."))
        os.replace(f"{archive}.part", archive)
    return archive


def unpacked(kind, root):
    root.mkdir()
    said_well("tar", ran("tar", "--numeric-owner", "-C", root, "-xpf", kept(kind)))


@contextlib.contextmanager
def debian(kind):
    """Yields a new system, with a day file, the C caller and all packages in /srv/day."""
    if os.geteuid() != 0:
        raise Skipped("only root can enter another system")
    need("unshare", "chroot", "tar")
    with tempfile.TemporaryDirectory() as name:
        root = Path(name) / "root"
        unpacked(kind, root)
        system = System(root)
        system.take(EXAMPLES / "opening.itch", TOP / "c/demo.c", *packed().iterdir())
        yield system


def the_program_installs_runs_and_goes_without_a_trace():
    with debian("bare") as system:
        before = system.files()
        yield from system.script("install", "dpkg --install /srv/day/itchsnap_*.deb")
        yield from system.script("run", "cd /srv/day; itchsnap snap opening.itch >out.snap; test \"$(which itchsnap)\" = /usr/bin/itchsnap")
        yield from snapshot_differs("the snapshot", system.root / "srv/day/out.snap")
        yield from differs("version", system.ran("itchsnap", "--version")[1].split()[:2], ["itchsnap", VERSION])
        yield from system.script("manual page", "zcat /usr/share/man/man1/itchsnap.1.gz | grep -c '^.TH ITCHSNAP 1'")
        yield from system.script("completions", """
            source /usr/share/bash-completion/completions/itchsnap
            COMP_WORDS=(itchsnap sn) COMP_CWORD=1
            $(complete -p itchsnap | grep -o '_itchsnap')
            test "${COMPREPLY[*]}" = snap
            test -s /usr/share/zsh/vendor-completions/_itchsnap
            test -s /usr/share/fish/vendor_completions.d/itchsnap.fish""")
        yield from system.script("purge", "dpkg --purge itchsnap")
        after = system.files()
        yield from differs("left", sorted(after - before), [])
        yield from differs("gone", sorted(before - after), [])


def a_program_in_c_builds_with_pkg_config():
    with debian("building") as system:
        yield from system.script("install", "dpkg --install /srv/day/libitchsnap*.deb")
        yield from system.script("build", "cd /srv/day; gcc -std=c99 demo.c $(pkg-config --cflags --libs itchsnap) -o demo")
        yield from system.script("run", "cd /srv/day; ./demo opening.itch out.snap; ldd demo | grep -c libitchsnap.so.0")
        yield from snapshot_differs("the snapshot", system.root / "srv/day/out.snap")
        yield from system.script("purge", "dpkg --purge libitchsnap-dev libitchsnap0; ! ls /usr/lib/*/*itchsnap* /usr/include/*itchsnap*")


def a_program_in_c_builds_with_cmake():
    with debian("building") as system:
        (system.root / "srv/day/CMakeLists.txt").write_text(f"""cmake_minimum_required(VERSION 3.13)
project(caller C)
find_package(itchsnap {VERSION} REQUIRED)
add_executable(demo demo.c)
target_link_libraries(demo itchsnap::itchsnap)
add_executable(alone demo.c)
target_link_libraries(alone itchsnap::static)
""")
        yield from system.script("install", "dpkg --install /srv/day/libitchsnap*.deb")
        yield from system.script("build", "cd /srv/day; cmake -B build .; cmake --build build")
        for target in "demo", "alone":
            yield from system.script("run", f"cd /srv/day; build/{target} opening.itch {target}.snap")
            yield from snapshot_differs(f"the snapshot of {target}", system.root / f"srv/day/{target}.snap")


def the_wheel_makes_a_snapshot():
    with debian("building") as system:
        yield from system.script("install", "cd /srv/day; python3 -m venv venv; venv/bin/pip install --no-index sundrekk-*.whl")
        snap = "from sundrekk import Day; Day('opening.itch').snapshot().write('out.snap')"
        yield from system.script("run", f'cd /srv/day; venv/bin/python -c "{snap}"')
        yield from snapshot_differs("the snapshot", system.root / "srv/day/out.snap")


RUNS = [
    the_program_installs_runs_and_goes_without_a_trace,
    a_program_in_c_builds_with_pkg_config,
    a_program_in_c_builds_with_cmake,
    the_wheel_makes_a_snapshot,
]
