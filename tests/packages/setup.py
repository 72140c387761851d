"""`./test` on a machine that lacks its tools.

RUNS lists the runs: functions that yield the differences found.
"""
import os
import tempfile
from contextlib import contextmanager
from pathlib import Path

import bare
from kit import TOP, differs, ran

# The commands that `./test` itself uses, and that a bare Debian has.
BASE = "bash dirname mktemp paste rm sed id wc cat".split()
ENDS = "./test setup installs what the tests need\n"
# The package tools of a machine on which nothing is installed, and whose repositories lack these packages.
TOOLS = {"dpkg-query": "exit 1", "sudo": 'exec "$@"', "apt-get": 'echo "apt-get $*"\ncase "$*" in %s) exit 100 ;; esac'}


def a_missing_tool_is_named_in_one_line():
    with tempfile.TemporaryDirectory() as folder:
        for it in BASE:
            (Path(folder) / it).symlink_to(Path("/usr/bin") / it)
        for words in ((), ("quick",)):
            got = ran(TOP / "test", *words, PATH=folder)
            yield from differs(f"test {words}", got, (1, f"test: missing: python3, gcc, git, zstd. {ENDS}"))


def a_bare_debian_is_told_what_to_do():
    with bare.debian("bare") as system:
        system.take(TOP / "test")
        yield from differs("quick", system.ran("/srv/day/test", "quick"), (1, f"test: missing: python3, gcc, git, zstd. {ENDS}"))


def set_up(lacking):
    """Runs `./test setup` where apt-get lacks these packages. Returns its status and its last lines."""
    with tempfile.TemporaryDirectory() as folder:
        for it in [*BASE, "env", "grep"]:
            (Path(folder) / it).symlink_to(Path("/usr/bin") / it)
        for name, script in TOOLS.items():
            file = Path(folder) / name
            file.write_text(f"#!/bin/bash\n{script.replace('%s', lacking)}\n")
            file.chmod(0o755)
        status, said = ran(TOP / "test", "setup", PATH=folder)
        return status, said.splitlines()[-4:]


def a_large_package_that_cannot_be_had_is_no_failure():
    installs = "apt-get -qq install --yes --no-install-recommends"
    left_out = "test: {} cannot be installed: the tests that need it are skipped"
    wanted = [f"{installs} prometheus", left_out.format("prometheus"), f"{installs} chromium", left_out.format("chromium")]
    yield from differs("both", set_up("*prometheus*|*chromium*"), (0, wanted))
    status, lines = set_up("*prometheus*")
    yield from differs("one", (status, lines[1:]), (0, wanted[:3]))
    yield from differs("gcc", set_up("*gcc*")[0], 100)


@contextmanager
def stubs(said, *parts):
    """Yields a folder with `./test` and these parts of it, each of which prints the text that `said` returns for it."""
    with tempfile.TemporaryDirectory() as name:
        top = Path(name)
        for part, script in [("test", (TOP / "test").read_text()), *((f"tests/{it}", f"#!/bin/sh\n{said(it)}\n") for it in parts)]:
            file = top / part
            file.parent.mkdir(parents=True, exist_ok=True)
            file.write_text(script)
            file.chmod(0o755)
        yield top


QUICK = "program/released program/run scale/run program/documents python/run packages/run".split()
GATE = [*QUICK, "wrong_bodies/fit", "wrong_bodies/run"]
PASSED = "echo '2 passed, 0 failed'"


def what_is_left_out_is_counted():
    """Two parts report what they skip, and ./test counts these lines."""
    left_out = lambda part: f"echo 'skipped: a run: no dog here'\n{PASSED}" if part.startswith(("scale", "python")) else PASSED
    with stubs(left_out, *QUICK) as top:
        status, said = ran(top / "test", "quick")
        wanted = ["2 skipped", "  tests/python/run: a run: no dog here", "  tests/scale/run: a run: no dog here", "13 passed, 0 failed"]
        yield from differs("the last lines", (status, said.splitlines()[-4:]), (0, wanted))


def a_source_outside_crates_fails_both():
    """Otherwise `rt ci` would refuse the repository and prove nothing."""
    with stubs(lambda _: PASSED, *GATE) as top:
        for name in ("crates/one/src/lib.rt", "examples/one.rt"):
            (top / name).parent.mkdir(parents=True)
            (top / name).touch()
        for words, passed in (("quick",), 12), ((), 0):
            status, said = ran(top / "test", *words)
            lines = said.splitlines()
            refused = "./examples/one.rt: rt ci allows such a file only in crates/"
            yield from differs(f"test {words}", (status, lines.count(refused), lines[-1]), (1, 1, f"{passed} passed, 1 failed"))


def gate_over(rt, said=lambda _: PASSED):
    """Runs the gate of stubs over a stand-in for `rt`. Returns its status and its output."""
    with stubs(said, *GATE) as top, tempfile.TemporaryDirectory() as folder:
        command = Path(folder) / "rt"
        command.write_text(f"#!/bin/sh\n{rt}\n")
        command.chmod(0o755)
        return ran(top / "test", PATH=f"{folder}:{os.environ['PATH']}")


NOT_BUILT = "test: the program was not built, so the released one is compared with nothing"
# Stand-ins for `rt ci`: one that builds the program when the last part has run beside it, and one that proves a crate but builds nothing.
BUILDS = """echo 'rt: itch_frame {}'
for _ in $(seq 300); do [ -e ended ] || sleep 0.1; done
[ -e ended ] || exit 1
mkdir -p crates/itch_tool/out
cp test crates/itch_tool/out/itch_tool
echo '1 passed, 0 failed'"""
IS_KEPT = "is kept: an earlier run on this machine proved the same files over the same libraries"
PROVES_ONE = "echo 'rt: itch_frame proved'\necho '1 passed, 1 failed'\nexit 1"


def a_program_that_was_not_built_is_not_compared():
    status, said = gate_over("echo '0 passed, 1 failed'\nexit 1")
    wanted = (1, [NOT_BUILT, "0 skipped", "7 passed, 1 failed"], False)
    yield from differs("nothing is proved", (status, said.splitlines()[-3:], "program/run" in said), wanted)
    status, said = gate_over(PROVES_ONE)
    yield from differs("a crate is proved", (status, said.splitlines()[-3:]), (1, [NOT_BUILT, "0 skipped", "18 passed, 1 failed"]))


def the_released_program_runs_beside_the_proofs():
    """What the runs leave out, and their failures, are counted once."""
    says = {"scale/run": f"echo 'skipped: a run: no dog here'\n{PASSED}", "packages/run": f"touch ended\n{PASSED}",
            "python/run": "echo '1 passed, 1 failed'\nexit 1"}
    status, said = gate_over(BUILDS.format("proved"), lambda part: says.get(part, PASSED))
    wanted = ["1 skipped", "  tests/scale/run: a run: no dog here", "19 passed, 1 failed"]
    yield from differs("the gate", (status, said.splitlines()[-3:]), (1, wanted))
    says["python/run"] = PASSED
    status, said = gate_over(BUILDS.format(IS_KEPT), lambda part: says.get(part, PASSED))
    yield from differs("without a failure", (status, said.splitlines()[-1]), (0, "20 passed, 0 failed"))


RUNS = [a_missing_tool_is_named_in_one_line, a_bare_debian_is_told_what_to_do, a_large_package_that_cannot_be_had_is_no_failure,
        what_is_left_out_is_counted, a_source_outside_crates_fails_both, a_program_that_was_not_built_is_not_compared,
        the_released_program_runs_beside_the_proofs]
