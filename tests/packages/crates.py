"""The crates for cargo.

RUNS lists the runs: functions that yield the differences found.
"""
import contextlib
import re
import shutil
import tempfile
from pathlib import Path

from kit import EXAMPLES, RELEASE, TOP, VERSION, Skipped, differs, fails, need, ran

RUST = TOP / "rust"
HEADER = (TOP / "c/itchsnap.h").read_text()
DECLARED = (RUST / "itchsnap-sys/src/lib.rs").read_text()
MAIN = """use itchsnap::{Day, Part};

fn main() -> Result<(), Box<dyn std::error::Error>> {
    let words: Vec<String> = std::env::args().collect();
    std::fs::write(&words[2], Day::read(&words[1])?.snapshot(&Part::all())?)?;
    Ok(())
}
"""
BOOK = "1 AAPL\nB 150.0500 300 2\nB 150.0000 500 2\nS 150.0800 300 1\nS 150.1000 600 2\n"


@contextlib.contextmanager
def target():
    """Yields a folder for cargo's output."""
    need("cargo")
    with tempfile.TemporaryDirectory() as folder:
        yield folder


def cargo(made, *words, **more):
    """Runs cargo with its output in a folder, and returns its status and its output."""
    return ran("cargo", *words, **{"folder": RUST, "CARGO_TARGET_DIR": str(made), **more})


def the_crates_pass_their_tests_without_a_warning():
    with target() as folder:
        status, said = cargo(folder, "test", "--offline", "--locked", RUSTFLAGS="-D warnings")
        if status:
            yield f"cargo test: {said}"
        passed = sum(map(int, re.findall(r"^test result: ok\. (\d+) passed", said, re.M)))
        yield from differs("more than twenty tests pass", passed > 20, True)
        yield from differs("the example", cargo(folder, "run", "--quiet", "--offline", "--example", "levels", "--", EXAMPLES / "book.itch"),
                           (0, BOOK))
        status, said = cargo(folder, "doc", "--offline", "--no-deps", RUSTDOCFLAGS="-D warnings")
        if status:
            yield f"cargo doc: {said}"


def clippy_has_no_warning_of_the_crates():
    with target() as folder:
        if cargo(folder, "clippy", "--version")[0]:
            raise Skipped("clippy is not installed")
        status, said = cargo(folder, "clippy", "--offline", "--all-targets", "--", "-D", "warnings")
        if status:
            yield said


def each_function_and_code_of_the_header_is_in_the_sys_crate():
    for label, pattern, declared in (
        ("functions", r"^(?:itchsnap_\w+|void|uint32_t) (itchsnap_\w+)\(", r"^    pub fn (itchsnap_\w+)\("),
        ("codes", r"^    (ITCHSNAP_\w+ = \d+)\b", r"^pub const (ITCHSNAP_\w+)(?:: u32)( = \d+);"),
    ):
        ours = {"".join(it) for it in re.findall(declared, DECLARED, re.M)} - {"ITCHSNAP_VERSION = 1"}
        yield from differs(label, ours, set(re.findall(pattern, HEADER, re.M)))


def layouts_in_c():
    """Returns a C program that prints the layout of each struct in the header."""
    lines = []
    for body, name in re.findall(r"^typedef struct \{\n(.*?)^\} (\w+);", re.sub(r"/\*.*?\*/", "", HEADER, flags=re.S), re.M | re.S):
        lines.append(f'printf("{name} %zu %zu\\n", sizeof({name}), _Alignof({name}));')
        lines += [f'printf("{name}.{it} %zu\\n", offsetof({name}, {it}));' for it in re.findall(r"(\w+)(?:\[\d+\])?;", body)]
    return '#include "itchsnap.h"\n#include <stdio.h>\nint main(void) {\n' + "\n".join(lines) + "\nreturn 0; }\n"


def each_struct_of_the_crate_lies_as_in_c():
    need("gcc")
    with target() as folder:
        source, program = Path(folder) / "layouts.c", Path(folder) / "layouts"
        source.write_text(layouts_in_c())
        yield from fails("the C program", "gcc", "-std=c11", "-I", TOP / "c", source, "-o", program)
        status, said = ran(program)
        yield from differs("layouts", cargo(folder, "run", "--quiet", "--offline", "--example", "layout"), (status, said))
        yield from differs("there are some", said.count("\n") > 50, True)


def the_crates_have_the_version_of_the_release():
    found = re.findall(r'^version = "([\d.]+)"$', (RUST / "Cargo.toml").read_text(), re.M)
    yield from differs("Cargo.toml", found, [VERSION])
    wanted = re.findall(r'itchsnap-sys = .*version = "([\d.]+)"', (RUST / "itchsnap/Cargo.toml").read_text())
    yield from differs("itchsnap/Cargo.toml", wanted, [VERSION])


@contextlib.contextmanager
def project():
    """Yields a program elsewhere that uses the crates in a copy of rust/, with no release next to it."""
    with target() as made:
        folder = Path(made)
        shutil.copytree(RUST, folder / "copy/rust", ignore=shutil.ignore_patterns("target"))
        (folder / "mine/src").mkdir(parents=True)
        (folder / "mine/Cargo.toml").write_text('[package]\nname = "mine"\nversion = "1.0.0"\nedition = "2024"\n\n'
                                                '[dependencies]\nitchsnap = { path = "../copy/rust/itchsnap" }\n')
        (folder / "mine/src/main.rs").write_text(MAIN)
        yield folder


def snapped(folder, **environment):
    """Builds and runs the program. Returns the snapshot that it writes, or cargo's output if cargo fails."""
    status, said = cargo(folder / "target", "run", "--quiet", "--offline", "--", EXAMPLES / "opening.itch", "out.snap",
                         folder=folder / "mine", **environment)
    return said if status else (folder / "mine/out.snap").read_bytes()


def a_crate_elsewhere_finds_the_library():
    wanted = (EXAMPLES / "opening.snap").read_bytes()
    nowhere = {"PKG_CONFIG_PATH": "", "PKG_CONFIG_LIBDIR": "/nowhere"}
    with project() as folder:
        said = snapped(folder, **nowhere)
        if "no libitchsnap: name its folder in ITCHSNAP_LIB_DIR" not in str(said):
            yield f"without the library: {said!r}"
        said = snapped(folder, **nowhere, ITCHSNAP_LIB_DIR="/nowhere")
        if "ITCHSNAP_LIB_DIR is /nowhere, where there is no libitchsnap" not in str(said):
            yield f"in a folder without the library: {said!r}"
        yield from differs("by its folder", snapped(folder, **nowhere, ITCHSNAP_LIB_DIR=str(RELEASE)), wanted)
        need("pkg-config")
        prefix = folder / "prefix"
        yield from fails("install", TOP / "install", "--library", prefix)
        installed = {"PKG_CONFIG_PATH": str(prefix / "lib/pkgconfig"), "LD_LIBRARY_PATH": str(prefix / "lib")}
        yield from differs("by pkg-config", snapped(folder, **installed), wanted)


RUNS = [
    the_crates_pass_their_tests_without_a_warning,
    clippy_has_no_warning_of_the_crates,
    each_function_and_code_of_the_header_is_in_the_sys_crate,
    each_struct_of_the_crate_lies_as_in_c,
    the_crates_have_the_version_of_the_release,
    a_crate_elsewhere_finds_the_library,
]
