"""The header and both C libraries: compilers give no warnings, and only the header's names are exported.

RUNS lists the runs: functions that yield the differences found.
"""
import re
import shutil
import tempfile
from pathlib import Path

from kit import RELEASE, TOP, Skipped, differs, fails, need, ran

HEADER = TOP / "c/itchsnap.h"
WARNINGS = ["-Wall", "-Wextra", "-pedantic", "-Werror", "-fsyntax-only"]
STANDARDS = {"c": ["c99", "c11", "c17", "c2x"], "c++": ["c++11", "c++14", "c++17", "c++20"]}
COMPILERS = {"c": ["gcc", "clang"], "c++": ["g++", "clang++"]}
CALLER = """#include "itchsnap.h"
#include "itchsnap.h"

static itchsnap_handle kept = ITCHSNAP_NONE;

int main(void) {
    itchsnap_handle handle = ITCHSNAP_NONE;
    itchsnap_handle both[2] = {ITCHSNAP_NONE, ITCHSNAP_NONE};
    itchsnap_free(&handle);
    itchsnap_free(&both[1]);
    return kept.live || itchsnap_version() != ITCHSNAP_VERSION;
}
"""
# Names that another library built with the same toolchain has.
CLASHING = """#include "itchsnap.h"
void rattle_alloc(void) {}
void rattle_dealloc(void) {}
void rattle_realloc(void) {}
""" + CALLER


def no_compiler_warns_of_the_header():
    found = [(language, it) for language, them in COMPILERS.items() for it in them if shutil.which(it)]
    for it in sorted({it for them in COMPILERS.values() for it in them} - {it for _, it in found}):
        print(f"skipped: the header with {it}: {it} is not installed")
    if not found:
        raise Skipped("no compiler is installed")
    with tempfile.TemporaryDirectory() as name:
        for language, compiler in found:
            source = Path(name) / "caller.c"
            source.write_text(CALLER)
            for standard in STANDARDS[language]:
                yield from fails(f"{compiler} -std={standard}", compiler, "-x", language, f"-std={standard}", *WARNINGS, "-I", TOP / "c", source)


def declared():
    """Returns the functions of the header."""
    return sorted(set(re.findall(r"\b(itchsnap_\w+)\(", re.sub(r"/\*.*?\*/", "", HEADER.read_text(), flags=re.S))))


def shown(*words):
    """Returns the names that `nm` finds, without their versions."""
    need("nm")
    _, said = ran("nm", "--defined-only", *words)
    return sorted(name.split("@")[0] for _, kind, name in re.findall(r"^(\w+) (\w) (\S+)$", said, re.M) if kind != "A")


def both_libraries_show_the_names_of_the_header_alone():
    yield from differs("libitchsnap.so", shown("--dynamic", RELEASE / "libitchsnap.so"), declared())
    yield from differs("libitchsnap.a", shown("--extern-only", RELEASE / "libitchsnap.a"), declared())


def the_shared_library_has_its_name_and_version():
    need("readelf")
    _, said = ran("readelf", "--dynamic", "--version-info", "--wide", RELEASE / "libitchsnap.so")
    yield from differs("SONAME", re.findall(r"\(SONAME\).*\[(.*)\]", said), ["libitchsnap.so.0"])
    yield from differs("versions", set(re.findall(r"ITCHSNAP_\w+", said)), {"ITCHSNAP_0"})


def the_static_library_goes_with_another_of_its_toolchain():
    need("gcc")
    with tempfile.TemporaryDirectory() as name:
        source, program = Path(name) / "caller.c", Path(name) / "caller"
        source.write_text(CLASHING)
        yield from fails("the build", "gcc", "-I", TOP / "c", source, RELEASE / "libitchsnap.a", "-o", program)
        yield from fails("the run", program)


RUNS = [
    no_compiler_warns_of_the_header,
    both_libraries_show_the_names_of_the_header_alone,
    the_shared_library_has_its_name_and_version,
    the_static_library_goes_with_another_of_its_toolchain,
]
