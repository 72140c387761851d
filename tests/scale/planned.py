"""Plans of jobs, reports on them, and usage errors.

RUNS lists the runs: functions that take a folder and yield the differences found.
"""
import os
import shlex
import subprocess

from common import differs
from kit import JOB, PROGRAM, REFUSAL, REFUSED_DAY, Ended, generated, job, write_day

USAGE = 2


def a_plan_has_a_line_for_each_job(folder):
    room = folder / "a folder's name"
    room.mkdir()
    one, two = (write_day(room / name, b"") for name in ("one.itch", "two.itch.gz"))
    site = ["--out", str(room / "out"), "--program", str(PROGRAM)]
    parts = [[str(JOB), "snapshots", *site, "--points", "end", "--part", part] for part in ("0-6000", "6001-65535")]
    check, ended = ([str(JOB), "check", *site, *words] for words in ([], ["--ended"]))
    merge = [str(JOB), "merge", *site, "--parts", "0-6000,6001-65535"]
    table = [str(JOB), "tables", *site, "--points", "end", "--stock", "AAPL,MSFT"]
    rounds = [[[*words, str(day)] for day in (one, two) for words in of_a_day] for of_a_day in ([*parts, check, ended], [merge], [table])]
    words = "plan", "--out", room / "out", "--parts", 2, "--ended", "--tables", "--stock", "AAPL,MSFT", one, two
    yield from differs("plan", [*map(shlex.split, job(*words).output.splitlines())], sum(rounds, []))
    for number, wanted in enumerate([*rounds, []], 1):
        got = job(*words[:1], "--round", number, *words[1:]).output
        yield from differs(f"round {number}", [*map(shlex.split, got.splitlines())], wanted)
    plain = job("plan", "--out", room / "out", "--points", "9:30,7,end,7,09:30", one).output
    yield from differs("plan of points", shlex.split(plain), [str(JOB), "snapshots", *site, "--points", "09:30,7,end", str(one)])


def the_report_names_what_is_refused_and_what_is_missing(folder):
    good, bad, cut = (write_day(folder / name, data) for name, data in
                      (("good.itch", generated(2000, 20)), ("bad.itch.gz", REFUSED_DAY), ("cut.itch.gz", generated(2000, 20))))
    cut.write_bytes(cut.read_bytes()[:-9])
    out = folder / "out"
    refused, missing = f"refused bad/end.snap: {REFUSAL}\n", "missing cut/end.snap\n"
    words = "--out", out
    yield from differs("before", job("report", *words, good, bad),
                       Ended(3, "missing good/end.snap\nmissing bad/end.snap\n2 results, 0 refused, 2 missing\n", ""))
    for day in good, bad, cut:
        job("snapshots", *words, day)
    for days, wanted in (((good,), Ended(0, "1 results, 0 refused, 0 missing\n", "")),
                         ((good, bad), Ended(1, f"{refused}2 results, 1 refused, 0 missing\n", "")),
                         ((good, bad, cut), Ended(3, f"{refused}{missing}3 results, 1 refused, 1 missing\n", ""))):
        yield from differs(f"after, of {len(days)} days", job("report", *words, *days), wanted)
    (out / "good/end.snap").write_bytes(b"")
    yield from differs("of an empty result", job("report", *words, good),
                       Ended(3, "missing good/end.snap\n1 results, 0 refused, 1 missing\n", ""))


def words_that_ask_for_nothing_are_refused(folder):
    day = write_day(folder / "day.itch", b"")
    (folder / "other").mkdir()
    same = write_day(folder / "other/day.itch.gz", b"")
    out = "--out", folder / "out"
    for words, said in ((("plan", *out, day, same), "have the same name"), (("plan", *out, folder / "none"), "is not a file"),
                        (("plan", *out, folder), "is not a file"), (("plan", *out), "DAY"), (("plan", day), "--out"),
                        (("plan", *out, "--parts", 0, day), "--parts"),
                        (("plan", *out, "--parts", 3, "--locates", 2, day), "from the number of parts"),
                        (("plan", *out, "--locates", 65536, "--parts", 2, day), "from the number of parts"),
                        (("plan", *out, "--parts", 2, "--points", "7", day), "takes as long as the whole"),
                        (("snapshots", *out, "--points", "noon", day), "'noon' is not a point"),
                        (("snapshots", *out, "--points", "7,", day), "'' is not a point"),
                        (("snapshots", *out, "--points", "24:00", day), "'24:00' is not a point"),
                        (("snapshots", *out, "--part", "../1", day), "'../1' is not a list of locates"),
                        (("plan", *out, "--program", folder / "none", day), "is not a file"),
                        *((("merge", *out, "--parts", parts, day), "every locate once") for parts in
                          ("0-5", "0-5,7-65535", "1-65535", "0-5,5-65535", "6-65535,0-5", "0-5,6-3,4-65535", "0-65534", "0-65536")),
                        (("merge", *out, "--parts", "0-5,6", day), "'6' is not a range"), (("merge", *out, day), "--parts"), ((), "command")):
        status, output, error = job(*words)
        if (status, output) != (USAGE, "") or said not in error:
            yield f"{words}: {status}, {output!r}, {error!r}"
    if (folder / "out").exists():
        yield "something was written"


def the_program_may_be_named_by_a_variable(folder):
    day = write_day(folder / "day.itch", b"")
    program = write_day(folder / "a program", b"")
    done = subprocess.run([JOB, "plan", "--out", folder, day], env={**os.environ, "ITCHSNAP": str(program)}, capture_output=True, text=True)
    words = shlex.split(done.stdout)
    yield from differs("program", words[words.index("--program") + 1], str(program))


RUNS = [
    a_plan_has_a_line_for_each_job,
    the_report_names_what_is_refused_and_what_is_missing,
    words_that_ask_for_nothing_are_refused,
    the_program_may_be_named_by_a_variable,
]
