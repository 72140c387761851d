"""`./install --library`, and programs built with the installed files.

RUNS lists the runs: functions that yield the differences found.
"""
import contextlib
import tempfile
from pathlib import Path

from kit import EXAMPLES, TOP, VERSION, differs, fails, need, ran, snapshot_differs

LIBRARY = """include/itchsnap.h lib/cmake/itchsnap/itchsnap-config-version.cmake lib/cmake/itchsnap/itchsnap-config.cmake lib/libitchsnap.a
lib/libitchsnap.so lib/libitchsnap.so.0 lib/pkgconfig/itchsnap.pc""".split()
CMAKE = """cmake_minimum_required(VERSION 3.13)
project(caller C)
find_package(itchsnap WANTED REQUIRED)
add_executable(shared demo.c)
target_link_libraries(shared itchsnap::itchsnap)
add_executable(static demo.c)
target_link_libraries(static itchsnap::static)
"""


@contextlib.contextmanager
def installed():
    """Yields a folder in which the C library is installed under `a prefix`, and the output of ./install."""
    with tempfile.TemporaryDirectory() as name:
        prefix = Path(name) / "prefix"
        yield Path(name), prefix, ran(TOP / "install", "--library", prefix)


def files_below(prefix):
    return sorted(str(it.relative_to(prefix)) for it in prefix.rglob("*") if not it.is_dir())


def the_library_is_installed_and_removed():
    with installed() as (_, prefix, (status, said)):
        yield from differs("status", status, 0)
        placed = files_below(prefix)
        yield from differs("the library", [it for it in placed if it.startswith(("include", "lib"))], LIBRARY)
        yield from differs("said", sorted(said.splitlines()[:-1]), sorted(f"installed {prefix}/{it}" for it in placed))
        yield from fails("uninstall", TOP / "install", "--uninstall", prefix)
        yield from differs("left", files_below(prefix), [])


def a_prefix_may_be_relative():
    """It is relative to the current folder. The file for pkg-config contains the absolute path."""
    with tempfile.TemporaryDirectory() as name:
        folder = Path(name)
        for prefix, place in ("prefix", "prefix"), ("./a/../b/", "b"):
            status, said = ran(TOP / "install", "--library", prefix, folder=folder)
            yield from differs(f"{prefix}: status and lines", (status, said.splitlines()[0]), (0, f"installed {folder}/{place}/bin/itchsnap"))
            yield from differs(f"{prefix}: prefix", (folder / place / "lib/pkgconfig/itchsnap.pc").read_text().splitlines()[0], f"prefix={folder}/{place}")
            yield from fails("uninstall", TOP / "install", "--uninstall", prefix, folder=folder)


def pkg_config_names_what_a_program_needs():
    need("pkg-config", "gcc")
    with installed() as (folder, prefix, _):
        found = {"PKG_CONFIG_PATH": str(prefix / "lib/pkgconfig")}
        yield from differs("--modversion", ran("pkg-config", "--modversion", "itchsnap", **found), (0, f"{VERSION}\n"))
        _, flags = ran("pkg-config", "--cflags", "--libs", "itchsnap", **found)
        yield from differs("--cflags --libs", flags.split(), [f"-I{prefix}/include", f"-L{prefix}/lib", "-litchsnap"])
        yield from fails("the build", "gcc", "-std=c99", TOP / "c/demo.c", *flags.split(), "-o", folder / "demo")
        yield from fails("the run", folder / "demo", EXAMPLES / "opening.itch", folder / "out.snap", LD_LIBRARY_PATH=str(prefix / "lib"))
        yield from snapshot_differs("the snapshot", folder / "out.snap")


def configured(folder, prefix, wanted):
    """Returns CMake's output for a program that requires a version."""
    (folder / "demo.c").write_bytes((TOP / "c/demo.c").read_bytes())
    (folder / "CMakeLists.txt").write_text(CMAKE.replace("WANTED", wanted))
    return ran("cmake", "-S", folder, "-B", folder / f"build {wanted}", f"-DCMAKE_PREFIX_PATH={prefix}")


def cmake_finds_the_library():
    need("cmake", "make", "gcc")
    with installed() as (folder, prefix, _):
        minor = VERSION.rpartition(".")[0]
        status, said = configured(folder, prefix, minor)
        if status:
            yield f"find_package: {said}"
            return
        yield from fails("the build", "cmake", "--build", folder / f"build {minor}")
        for target in "shared", "static":
            out = folder / f"{target}.snap"
            yield from fails(f"the run, {target}", folder / f"build {minor}" / target, EXAMPLES / "opening.itch", out)
            yield from snapshot_differs(f"the snapshot, {target}", out)


def cmake_refuses_another_version():
    need("cmake", "make", "gcc")
    with installed() as (folder, prefix, _):
        for wanted, holds in ((VERSION, True), (f"{VERSION}.1", False), ("9.0", False), ("0.0", False)):
            yield from differs(f"version {wanted} is found", configured(folder, prefix, wanted)[0] == 0, holds)


RUNS = [
    the_library_is_installed_and_removed,
    a_prefix_may_be_relative,
    pkg_config_names_what_a_program_needs,
    cmake_finds_the_library,
    cmake_refuses_another_version,
]
