"""The packages: they match the release, and lintian finds no errors in them.

RUNS lists the runs: functions that yield the differences found.
"""
import os
import re
import shutil
import tarfile
import tempfile
import zipfile
from pathlib import Path

from kit import RELEASE, TOP, VERSION, Skipped, differs, fails, need, packed, ran

DIST = RELEASE / "dist"
ARCHIVE = f"itchsnap-{VERSION}-x86_64-linux"
NAMES = [f"{ARCHIVE}.tar.gz", f"itchsnap_{VERSION}_amd64.deb", f"libitchsnap-dev_{VERSION}_amd64.deb", f"libitchsnap0_{VERSION}_amd64.deb",
         f"sundrekk-{VERSION}-py3-none-manylinux_2_17_x86_64.whl"]
# The files for a service, and the files of which they are copies.
SERVICE = {"lib/systemd/system/itchsnap-live@.service": "deploy/itchsnap-live@.service", "lib/sysusers.d/itchsnap.conf": "deploy/itchsnap.sysusers",
           "share/doc/itchsnap/OPERATING.md": "docs/OPERATING.md",
           **{f"share/doc/itchsnap/examples/{it}": f"deploy/{it}" for it in ("itchsnap-live.env", "itchsnap.rules.yml", "prometheus.yml")}}


def the_packages_are_those_of_the_release():
    folder = packed()
    if (DIST / "SHA256SUMS").read_text() == (folder / "SHA256SUMS").read_text():
        return
    if (DIST / "TOOLS").read_text() != (folder / "TOOLS").read_text():
        raise Skipped("the checksums differ, but the packages were made by other tools (release/dist/TOOLS)")
    yield "release/dist is out of date: run ./make-release or, if only packed files have changed, tools/pack release/dist"


def the_checksums_are_of_each_package():
    folder = packed()
    yield from differs("packages", [*re.findall(r"^[0-9a-f]{64}  (.*)$", (folder / "SHA256SUMS").read_text(), re.M)], NAMES)
    yield from fails("sha256sum", "sha256sum", "--check", "--strict", "SHA256SUMS", folder=folder)
    yield from fails("sha256sum of what is committed", "sha256sum", "--check", "--strict", "--ignore-missing", "SHA256SUMS", folder=DIST)


def another_folder_is_left_alone():
    with tempfile.TemporaryDirectory() as folder:
        kept = Path(folder) / "kept"
        kept.touch()
        yield from differs("pack", ran(TOP / "tools/pack", folder), (1, f"pack: {folder} exists, and is not a folder of packages\n"))
        yield from differs("kept", kept.exists(), True)


def packages_stay_where_packing_fails():
    """One of its tools fails. The earlier packages are still there, and nothing else."""
    with tempfile.TemporaryDirectory() as name:
        folder, tools = Path(name) / "dist", Path(name) / "tools"
        folder.mkdir()
        tools.mkdir()
        (folder / "SHA256SUMS").write_text("those of an earlier release\n")
        real = shutil.which("dpkg-deb")
        (tools / "dpkg-deb").write_text(f'#!/bin/sh\n[ "$1" != --root-owner-group ] || exit 1\nexec {real} "$@"\n')
        (tools / "dpkg-deb").chmod(0o755)
        need("dpkg-deb")
        status, _ = ran(TOP / "tools/pack", folder, PATH=f"{tools}:{os.environ['PATH']}")
        yield from differs("status", status != 0, True)
        yield from differs("kept", [(it.name, it.read_text()) for it in folder.iterdir()], [("SHA256SUMS", "those of an earlier release\n")])
        yield from differs("left next to it", sorted(it.name for it in Path(name).iterdir()), ["dist", "tools"])


def packages_are_the_same_whoever_packs_them():
    """Whatever that user's umask and language."""
    with tempfile.TemporaryDirectory() as name:
        folder = Path(name) / "dist"
        words = "sh", "-c", 'umask 077; exec "$@"', "sh", TOP / "tools/pack", folder
        yield from fails("pack", *words, LC_ALL="C.UTF-8", TZ="Asia/Tokyo")
        yield from differs("the checksums", (folder / "SHA256SUMS").read_text(), (packed() / "SHA256SUMS").read_text())


def lintian_finds_no_error():
    need("lintian")
    yield from fails("lintian", "lintian", "--fail-on", "error", *sorted(packed().glob("*.deb")))


def the_archive_has_the_program_and_what_belongs_to_it():
    with tarfile.open(packed() / f"{ARCHIVE}.tar.gz") as archive:
        files = {it.name.removeprefix(f"{ARCHIVE}/"): archive.extractfile(it).read() for it in archive if it.isfile()}
    yield from differs("files", sorted(files), sorted(["LICENSE", "bin/itchsnap", "share/bash-completion/completions/itchsnap",
                                                       "share/fish/vendor_completions.d/itchsnap.fish", "share/man/man1/itchsnap.1",
                                                       "share/zsh/site-functions/_itchsnap", *SERVICE]))
    yield from differs("others", [it for it, file in SERVICE.items() if files.get(it) != (TOP / file).read_bytes()], [])
    if files["bin/itchsnap"] != (RELEASE / "itchsnap").read_bytes():
        yield "the program differs from release/itchsnap"


def the_package_has_a_unit_and_starts_nothing():
    """It has no script that dpkg runs, and no unit except that of `deploy/`, which must be enabled by name."""
    need("dpkg-deb")
    package = packed() / NAMES[1]
    _, held = ran("sh", "-c", 'dpkg-deb --ctrl-tarfile "$0" | tar -t', package)
    yield from differs("control files", sorted(held.split()), ["./", "./control", "./md5sums"])
    _, listed = ran("sh", "-c", 'dpkg-deb --fsys-tarfile "$0" | tar -t', package)
    names = {it.removeprefix("./usr/") for it in listed.split()}
    yield from differs("missing", sorted(SERVICE.keys() - names), [])
    yield from differs("units", [it for it in names if "systemd" in it and not it.endswith("/")], ["lib/systemd/system/itchsnap-live@.service"])


def needed(file):
    """Returns the symbols of glibc that a file needs, by version."""
    _, said = ran("objdump", "--dynamic-syms", file)
    found = {}
    for version, name in re.findall(r"\*UND\*.*\(GLIBC_([\d.]+)\)\s+(\w+)$", said, re.M):
        found.setdefault(tuple(map(int, version.split("."))), set()).add(name)
    return found


def the_packages_ask_for_the_glibc_of_their_symbols():
    need("objdump", "dpkg-deb")
    for name, file in ((NAMES[1], RELEASE / "itchsnap"), (NAMES[3], RELEASE / "libitchsnap.so")):
        newest = ".".join(map(str, max(needed(file))))
        yield from differs(name, ran("dpkg-deb", "--field", packed() / name, "Depends")[1], f"libc6 (>= {newest})\n")
    late = {(2, 30): {"getdents64"}, (2, 33): {"__x86_get_cpuid_feature_leaf"}, (2, 34): {"__libc_start_main"}}
    yield from differs("after 2.28", {it: names for it, names in needed(RELEASE / "itchsnap").items() if it > (2, 28)}, late)


def every_package_has_the_licence():
    licence = (TOP / "LICENSE").read_bytes()
    with tarfile.open(packed() / f"{ARCHIVE}.tar.gz") as archive:
        yield from differs("the archive", archive.extractfile(f"{ARCHIVE}/LICENSE").read(), licence)
    with zipfile.ZipFile(packed() / NAMES[-1]) as wheel:
        yield from differs("the wheel", wheel.read(f"sundrekk-{VERSION}.dist-info/LICENSE"), licence)
    need("dpkg-deb")
    for name in NAMES[1:4]:
        package = name.partition("_")[0]
        _, said = ran("sh", "-c", 'dpkg-deb --fsys-tarfile "$0" | tar -xO "./usr/share/doc/$1/copyright"', packed() / name, package)
        yield from differs(package, said.encode(), licence)


RUNS = [
    the_packages_are_those_of_the_release,
    the_checksums_are_of_each_package,
    another_folder_is_left_alone,
    packages_stay_where_packing_fails,
    packages_are_the_same_whoever_packs_them,
    lintian_finds_no_error,
    the_archive_has_the_program_and_what_belongs_to_it,
    the_package_has_a_unit_and_starts_nothing,
    the_packages_ask_for_the_glibc_of_their_symbols,
    every_package_has_the_licence,
]
