"""Help with its examples, completions, and usage errors.

RUNS lists the runs: functions that take the program and yield the differences found.
"""
import gzip
import re
import shutil
import subprocess
import tempfile
from pathlib import Path

from common import differs, ended, file

TOP = Path(__file__).resolve().parent.parent.parent
LOGIN = "--user user --pass secret"
HELP = "snap --help", "fetch --help", "--version"
# The files for the examples in the help.
FILES = {
    "day.itch": "START AAPL BUY_1",
    "other.itch": "AAPL START BUY_1",
    "day.snap": "START AAPL BUY_1 END_4",
    "other.snap": "AAPL START BUY_1 END_4",
    "early.snap": "START AAPL END_3",
    # An index without snapshots.
    "snapshots/index.jsonl": "",
}
FAULTS = [
    "snap --only",
    "snap --only 1 --only 2",
    "snap --after 1000000000000",
    "snap --after +5",
    "snap --after -5",
    "snap --after",
    "snap --after 1 --after 2",
    "snap --until 009:30",
    "check --until 24:00",
    "check --until 10:30:00:00",
    "check --until 10:30:",
    "check --until :30",
    "show --until 10:30:00.",
    "compare a b --until",
    "snap one two",
    "canon --check --check",
    "canon --check=1",
    "canon a.snap b.snap",
    "compare - -",
    "compare a.itch",
    "compare",
    "compare a.itch b.itch c.itch",
    "compare --first - -",
    "compare --first a.itch",
    "compare --first --first a.itch b.itch",
    "compare --first a.snap b.snap --snapshot",
    "snap --first a.itch",
    "join - -",
    "join a.snap",
    "join a.snap b.itch c.itch",
    "show --index day.idx",
    "show - --index day.idx",
    "show day.itch --index",
    "show day.itch --index day.idx --index day.idx",
    "show day.itch --index day.idx --snapshot",
    "show day.itch --index day.idx --history",
    "cut --index day.idx",
    "cut - --index day.idx",
    "snap day.itch --index day.idx",
    "book 1 day.itch --index day.idx",
    "index a.itch b.itch",
    "index day.itch --from 2",
    "index day.itch --json",
    "index day.itch --after",
    "show --progress=1",
    "show --names --json",
    "show --names=1",
    "show --types",
    "show --types A --types E",
    "show --reference",
    "show --reference -1",
    "show --reference 0x1",
    "show --reference 1 --reference 2",
    "show day.itch --history",
    "show day.itch --reference 1 --history --history",
    "show day.itch --reference 1 --history=1",
    "show --reference 1 --history",
    "show - --reference 1 --history",
    "show day.snap --reference 1 --history --snapshot",
    "show day.itch --reference 1 --history --csv",
    "show day.itch --reference 1 --history --names --json",
    "cut day.itch --history",
    "check --types A",
    "snap --reference 1",
    "book 1 --names",
    "book 1 --progress --progress",
    "fetch --progress",
    "check --only 1",
    "check --stock AAPL",
    "snap --stock",
    "snap --stock=",
    "snap --stock ,",
    "snap --stock ,AAPL",
    "snap --stock AAPL,",
    "snap --stock AAPL,,MSFT",
    "snap --stock AAPL --stock MSFT",
    "snap --stock AAPL --only 1",
    "join a.snap b.itch --stock AAPL,",
    "join a.snap b.itch --only 1 --stock AAPL",
    "join a.snap b.itch --from",
    "join a.snap b.itch --from 0",
    "join a.snap b.itch --from 1000000000000",
    "join a.snap b.itch --from one",
    "join a.snap b.itch --after -1",
    "join a.snap b.itch --until 25:00",
    "at dir b.itch",
    "at dir b.itch ten",
    "at dir b.itch 10:60",
    "at dir b.itch 7 8",
    "at dir b.itch 7 --after 7",
    "at dir b.itch 7 --only 1 --stock AAPL",
    "book --stock",
    "book --stock=",
    "book --stock AAPL,",
    "book --stock AAPL 1 day.itch",
    "book --only 1",
    "book -1",
    "book",
    "book 1 --depth",
    "book 1 --depth +1",
    "book 1 --depth -1",
    "book 1 --depth 1000000000000",
    "snap --depth 1",
    "unknown 1",
    f"fetch --port 0 {LOGIN}",
    f"fetch --port 65536 {LOGIN}",
    f"fetch --port +1 {LOGIN}",
    f"fetch --port 1 --port 1 {LOGIN}",
    f"fetch {LOGIN}",
    "fetch --port 1 --pass secret",
    "fetch --port 1 --user user",
    f"fetch day.itch --port 1 {LOGIN}",
    f"serve --port 1 {LOGIN} --count 1",
    f"serve day.itch --port 1 {LOGIN}",
    f"serve - --port 1 {LOGIN} --count 0",
    f"serve - --port 1 {LOGIN} --count 1000001",
    f"serve - --port 1 {LOGIN} --count +1",
    f"serve - --port 65536 {LOGIN} --count 1",
    f"serve - --port 1 {LOGIN} --count 1 --bind localhost",
    f"serve - --port 1 {LOGIN} --count 1 --bind 127.0.0.256",
    f"serve - --port 1 {LOGIN} --count 1 --bind 127.0.0.1:5",
    f"serve - --port 1 {LOGIN} --count 1 --bind [::1]",
    f"serve - --port 1 {LOGIN} --count 1 --host 127.0.0.1",
    f"fetch --port 1 {LOGIN} --bind 127.0.0.1",
    f"fetch --port 1 {LOGIN} --pass-file word",
    "fetch --port 1 --user user --pass-file",
    f"fetch --port 1 {LOGIN} --timeout 0",
    f"fetch --port 1 {LOGIN} --timeout 86401",
    f"fetch --port 1 {LOGIN} --timeout +1",
    f"fetch --port 1 {LOGIN} --session 12345678901",
    f"fetch --port 1 {LOGIN} --session=",
    f"fetch --port 1 {LOGIN} --session \t",
    f"fetch --port 1 {LOGIN} --from 0",
    f"fetch --port 1 {LOGIN} --from +1",
    f"fetch --port 1 {LOGIN} --from=",
    f"fetch --port 1 {LOGIN} --from 10000000000000000000",
    f"fetch --port 1 {LOGIN} --from 1 --from 2",
    f"serve - --port 1 {LOGIN} --count 1 --from 1",
    "completions",
    "completions csh",
    "completions bash zsh",
]
NO_LISTS = [
    "", ",", "1,", ",1", "1,,2", "+1", "-1", " 1", "1 ", "1, 2", "1;2", "x", "0x1", "65536", "1,65536", "9" * 23, "1.0",
    "-", "1-", "2-1", "1-2-3", "1--2", "1-,2", "1 -2", "1-+2", "0-65536", "1-2,", "65536-65536", "1-x",
]


def help_ends_with_status_0(program):
    for line in HELP:
        status, output, error = ended(program, *line.split())
        if (status, error) != (0, b"") or not output:
            yield f"{line}: status {status}, {output!r}, {error!r}"


def commands(program):
    """Returns the names of the commands, each of which has a line in the help."""
    listed = ended(program, "--help")[1].decode().split("Options:\n")[0]
    return [name for name in re.findall(r"^  ([a-z]+)  ", listed, re.M) if name != "help"]


def help_of(program, *words):
    """Runs the help, which must exit with 0, and returns its parts: each heading with its lines."""
    status, output, error = ended(program, *words)
    assert (status, error) == (0, b""), (words, status, error)
    return {title: lines.splitlines() for title, lines in re.findall(r"^([A-Z][^:\n]*):\n((?:  .*\n|\n(?=  ))*)", output.decode(), re.M)}


# The commands under each heading of the help.
TOPICS = {
    "Look into a file": ["check", "info", "show", "book", "compare", "cut", "index"],
    "Make and use snapshots": ["snap", "join", "at", "canon"],
    "Serve and follow over SoupBinTCP": ["serve", "fetch", "live", "follow", "feed", "status"],
    "Other commands": ["completions", "help"],
}


def help_lists_commands_by_topic(program):
    for words in (["--help"], ["-h"], ["help"]):
        parts = help_of(program, *words)
        for topic, names in TOPICS.items():
            yield from differs(f"{words}: {topic}", [line.split()[0] for line in parts.get(topic, [])], names)
    page = (TOP / "docs/OUTPUT.md").read_text().split("## Exit codes")[1].split("##")[0]
    codes = re.findall(r"^\| (\d+) \| (.*) \|$", page, re.M)
    long = help_of(program, "--help")
    shown = [line.split(maxsplit=1) for line in long["Exit codes"]]
    yield from differs("codes", [it for it, _ in shown], [it for it, _ in codes])
    yield from differs("their meaning", [wanted for (_, meaning), (_, wanted) in zip(shown, codes) if not wanted.startswith(meaning)], [])
    yield from differs("examples", len(long["Examples"]), 2)
    text = ended(program, "--help")[1]
    yield from differs("the manual's name", text.endswith(b"\n\nManual: man itchsnap\n"), True)
    yield from differs("the short help has no codes", "Exit codes" in help_of(program, "-h"), False)


def examples_of_the_help_run(program):
    for example in help_of(program, "--help")["Examples"]:
        with tempfile.TemporaryDirectory() as name:
            folder = Path(name)
            (folder / "day.itch").write_bytes(file(FILES["day.itch"]))
            (folder / "day.itch.gz").write_bytes(gzip.compress(file(FILES["day.itch"])))
            done = subprocess.run(["bash", "-c", f'set -o pipefail; itchsnap() {{ "$0" "$@"; }}; {example}', program], cwd=folder,
                                  capture_output=True, timeout=60)
        yield from differs(example, (done.returncode, bool(done.stdout), done.stderr), (0, True, b""))


def help_lists_options_by_group(program):
    """Each option is under a heading. `--help` adds to the text of `-h`, and begins with the same line."""
    for command in commands(program):
        short, long = (ended(program, command, it)[1].decode() for it in ("-h", "--help"))
        yield from differs(f"{command}: an option without a heading", "\nOptions:\n" in short, False)
        yield from differs(f"{command}: the same options", *(re.findall(r"^ +(?:-h, )?--([a-z-]+)", it, re.M) for it in (short, long)))
        yield from differs(f"{command}: first line", long.splitlines()[0], short.splitlines()[0])
        yield from differs(f"{command}: more", len(long.split("\n\nUsage:")[0]) > len(short.split("\n\nUsage:")[0]), True)
        yield from differs(f"{command}: help", ended(program, "help", command)[1].decode(), long)
    for command, groups in {"live": ["Feed", "Server", "Clients", "Recording", "Help"], "show": ["Arguments", "Input", "Selection", "Output", "Help"]}.items():
        yield from differs(f"{command}: groups", [it for it in help_of(program, command, "-h")], groups)


def ranges_of_the_help_are_true(program):
    found = 0
    for command in commands(program):
        for option, least, most in re.findall(r"--([a-z-]+) <.*\[(\d+)\.\.(\d+)\]", ended(program, command, "-h")[1].decode()):
            found += 1
            for number in [int(most) + 1] + [int(least) - 1] * (int(least) > 0):
                status, output, error = ended(program, command, f"--{option}={number}")
                wanted = f"{number} is not in {least}..={most}".encode()
                yield from differs(f"{command} --{option} {number}", (status, output, wanted in error), (2, b"", True))
            for number in (least, most):
                yield from differs(f"{command} --{option} {number}", b"is not in" in ended(program, command, f"--{option}={number}", "--help=1")[2], False)
    yield from differs("ranges", found > 5, True)


def usage_of(program, command):
    """Returns the lines of the usage in the help of a command."""
    lines = ended(program, command, "-h")[1].decode().split("\n\nUsage: ")[1].split("\n\n")[0]
    return [it.strip() for it in lines.splitlines()]


def usage_names_what_is_required(program):
    """Each usage line without one of its required arguments is an error that names this argument, or one of another usage line."""
    yield from differs("book", usage_of(program, "book"), ["itchsnap book [OPTIONS] <LOCATE> [FILE]", "itchsnap book [OPTIONS] --stock <LIST> [FILE]"])
    yield from differs("fetch", usage_of(program, "fetch"), ["itchsnap fetch [OPTIONS] --user <USER> <HOST:PORT>"])
    for command in commands(program):
        for line in usage_of(program, command):
            yield from differs(f"{command}: the command", line.startswith(f"itchsnap {command}"), True)
            needed = re.findall(r"--[a-z-]+ <[A-Z:]+>|(?<= )<[A-Z:]+>", re.sub(r"\[[^]]*\]", "", line))
            values = {"--feed <HOST:PORT>": "--feed=h:1", "--glimpse <HOST:PORT>": "--glimpse=h:2", "<HOST:PORT>": "h:1", "<LOCATE>": "1", "<SHELL>": "bash"}
            words = [values.get(it) or (f"{it.split()[0]}=1" if it.startswith("-") else "1") for it in needed]
            for left_out in range(len(words)):
                status, output, error = ended(program, command, *words[:left_out], *words[left_out + 1:])
                yield from differs(f"{line} without {needed[left_out]}", (status, output, error.startswith(b"error: ")), (2, b"", True))


def options_of(program, command):
    """Yields the options in the help of a command, each with whether it takes a value."""
    return re.findall(r"^ +(?:-h, )?--([a-z-]+)(?: (<\S+>))?", ended(program, command, "-h")[1].decode(), re.M)


def each_option_is_given_once_and_with_its_value(program):
    """Except --feed. The usage is that of the command."""
    for command in commands(program):
        for option, value in options_of(program, command):
            if option == "help":
                continue
            twice = [f"--{option}={it}" if value else f"--{option}" for it in ("1", "1")]
            rows = [[f"--{option}"] if value else [f"--{option}=1"], *([] if option == "feed" else [twice])]
            for words in rows:
                status, output, error = ended(program, command, *words)
                yield from differs(f"{command} {words}", (status, output, error.startswith(b"error: ")), (2, b"", True))
                yield from differs(f"{command} {words}: usage", re.findall(rb"^Usage: itchsnap (\S+)", error, re.M) in ([], [command.encode()]), True)


# Arguments that cannot be combined, and those that require others: the command line, and the first line of the error.
RULES = {
    "show --json --csv --orders": "the argument '--json' cannot be used with '--csv'",
    "show --names --json": "the argument '--names' cannot be used with '--json'",
    "show --names --csv --types A": "the argument '--names' cannot be used with '--csv'",
    "show --snapshot --after 1": "the argument '--snapshot' cannot be used with '--after <N>'",
    "show --snapshot --until 9:30": "the argument '--snapshot' cannot be used with '--until <TIME>'",
    "show --snapshot --from 1": "the argument '--snapshot' cannot be used with '--from <N>'",
    "show --snapshot --since 9:30": "the argument '--snapshot' cannot be used with '--since <TIME>'",
    "show --snapshot --index i": "the argument '--snapshot' cannot be used with '--index <PATH>'",
    "show --orders --snapshot": "the argument '--orders' cannot be used with '--snapshot'",
    "book 1 --json --csv": "the argument '--json' cannot be used with '--csv'",
    "book 1 --snapshot --after 1": "the argument '--snapshot' cannot be used with '--after <N>'",
    "book 1 day.itch --stock AAPL": "the argument '[LOCATE]' cannot be used with '--stock <LIST>'",
    "book": "one of '<LOCATE>' and '--stock <LIST>' is required",
    "compare a b --first --snapshot": "the argument '--first' cannot be used with '--snapshot'",
    "compare a b --snapshot --until 9": "the argument '--snapshot' cannot be used with '--until <TIME>'",
    "snap --only 1 --stock AAPL": "the argument '--only <LIST>' cannot be used with '--stock <LIST>'",
    "snap --to d --output o": "the argument '--to <DIR>' cannot be used with '--output <PATH>'",
    "snap --to d --every 5 --after 5": "the argument '--every <N>' cannot be used with '--after <N>'",
    "snap --every 5": "the following required arguments were not provided:",
    "snap --after 1,2": "several points require '--to <DIR>', a folder for their snapshots",
    "snap --to d --after 1 --until 9": "only one of '--after <N>', '--until <TIME>' and '--every <N>' can be used with '--to <DIR>'",
    "canon --check --output o": "the argument '--check' cannot be used with '--output <PATH>'",
    "join a b --only 1 --stock A": "the argument '--only <LIST>' cannot be used with '--stock <LIST>'",
    "serve f --port 1 --count 1 --user u --pass p --pass-file f": "the argument '--pass <PASSWORD>' cannot be used with '--pass-file <FILE>'",
    "fetch h:1 --port 1 --user u --pass p": "the argument '[HOST:PORT]' cannot be used with '--port <PORT>'",
    "fetch h --user u --pass p": "a server is HOST:PORT, with an IPv6 address in brackets and a port from 1 to 65535",
    "fetch --user u --pass p": "the following required arguments were not provided:",
    "live --feed h:1 --port 0 --user u --pass p --to d": "the following required arguments were not provided:",
    "live --feed h:1 --port 0 --user u --pass p --keep 5": "the following required arguments were not provided:",
    "live --feed h:1 --port 0 --user u --pass p --glimpse-session S": "the following required arguments were not provided:",
    "live --feed h:1 --port 0 --user u --pass p --record r --glimpse h:2": "the argument '--record <FILE>' cannot be used with '--glimpse <HOST:PORT>'",
    "live --feed h:1 --port 0 --user u --pass p --record r --records d": "the argument '--record <FILE>' cannot be used with '--records <DIR>'",
    "live --feed h:1 --port 0 --user u --pass p --sync no": "'--sync <WHEN>' and '--record-optional' require '--record <FILE>' or '--records <DIR>'",
    "live --feed h:1 --port 0 --user u --pass p --sync now": "invalid value 'now' for '--sync <WHEN>'",
    "live --feed h:1 --port 0 --user u --users f": "the argument '--user <USER>' cannot be used with '--users <FILE>'",
    "follow --feed h:1 --glimpse h:2 --user u --pass p --whole --json": "the argument '--whole' cannot be used with '--json'",
    "feed f --port 0 --user u --pass p --rate 1 --clock 1": "the argument '--rate <N>' cannot be used with '--clock <FACTOR>'",
    "completions csh": "invalid value 'csh' for '<SHELL>'",
}


def arguments_that_break_a_rule_are_named(program):
    """In clap's wording, with the usage of the command if there is one."""
    for line, wanted in RULES.items():
        status, output, error = ended(program, *line.split())
        yield from differs(line, (status, output, error.decode().splitlines()[:1]), (2, b"", [f"error: {wanted}"]))
        usage = re.findall(r"^Usage: itchsnap (\S+)", error.decode(), re.M)
        yield from differs(f"{line}: usage", usage, [] if "invalid value" in wanted else line.split()[:1])


def old_names_are_accepted_and_hidden(program):
    shown = {command: [it for it, _ in options_of(program, command)] for command in ("join", "fetch", "live")}
    for command, new, old in (("join", "first-number", "from"), ("live", "to", "snapshots"), ("fetch", "from", "host"), ("fetch", "from", "port")):
        yield from differs(f"{command} --{old}", (new in shown[command], old in shown[command]), (True, False))
        yield from differs(f"{command} --{old}: completed", f"--{old} " in " ".join(completed(program, "itchsnap", command, "--")[1]) + " ", False)
    with tempfile.TemporaryDirectory() as name:
        folder = Path(name)
        (folder / "early.snap").write_bytes(file("START AAPL END_3"))
        (folder / "rest.itch").write_bytes(file("BUY_1"))
        joined = [subprocess.run([program, "join", "early.snap", "rest.itch", option, "3"], cwd=folder, capture_output=True, timeout=60)
                  for option in ("--first-number", "--from")]
        for done in joined:
            yield from differs("joined", (done.returncode, done.stdout, done.stderr), (0, file("START AAPL BUY_1 END_4"), b""))
    # A fault after parsing shows that the arguments are accepted.
    live_words = "live --feed h:1 --port 0 --user seven77 --pass p --every 5".split()
    for option in ("--to", "--snapshots"):
        yield from differs(option, ended(program, *live_words, option, "d")[2].splitlines()[0], b"itchsnap: bad user")
    for words in (["127.0.0.1:1"], ["[::1]:1"], ["--host", "127.0.0.1", "--port", "1"], ["--port", "1"]):
        yield from differs(words, ended(program, "fetch", *words, "--user", "seven77", "--pass", "p")[2].splitlines()[0], b"itchsnap: bad user")


def example_of(program, command):
    found = re.findall(r"^Example: (.*)$", ended(program, command, "--help")[1].decode(), re.M)
    return found[0] if len(found) == 1 and found[0].startswith(f"itchsnap {command} ") else None


def each_command_has_an_example(program):
    """It does what it says, in a folder with such files. In the example of a session there is no peer."""
    for command in commands(program):
        example = example_of(program, command)
        if not example:
            yield f"{command} has no example"
            continue
        if command in ("serve", "fetch", "live", "follow", "feed", "status"):
            continue
        with tempfile.TemporaryDirectory() as folder:
            for name, blocks in FILES.items():
                path = Path(folder) / name
                path.parent.mkdir(exist_ok=True)
                path.write_bytes(file(blocks))
            done = subprocess.run(["bash", "-c", f'set -o pipefail; itchsnap() {{ "$0" "$@"; }}; {example}', program], cwd=folder,
                                  capture_output=True, timeout=60)
        if done.returncode or done.stderr:
            yield f"{example}: {done}"


def completed(program, *typed):
    """Returns what bash offers to complete the last of these words."""
    script = 'source <("$0" completions bash); COMP_WORDS=("$@"); COMP_CWORD=$(($# - 1)); _itchsnap; printf "%s " "${COMPREPLY[@]}"'
    done = subprocess.run(["bash", "-c", script, program, *typed], capture_output=True, text=True, timeout=60)
    return done.returncode, done.stdout.split(), done.stderr


def bash_completes_what_is_typed(program):
    rows = {
        ("itchsnap", "c"): ["check", "compare", "cut", "canon", "completions"],
        ("itchsnap", ""): [*commands(program), "help", "--help", "--version"],
        ("itchsnap", "snap", "--"): ["--after", "--until", "--only", "--stock", "--to", "--every", "--output", "--progress", "--help"],
        ("itchsnap", "fetch", "h:1", "--p"): ["--pass", "--pass-file"],
        ("itchsnap", "completions", ""): ["bash", "zsh", "fish", "--help"],
        # The shell itself completes the names of files.
        ("itchsnap", "snap", "d"): [],
    }
    for typed, wanted in rows.items():
        yield from differs(" ".join(typed), completed(program, *typed), (0, wanted, ""))


def completions_have_every_option(program):
    """As each shell reads them, if it is installed."""
    for shell in ("bash", "zsh", "fish"):
        status, script, error = ended(program, "completions", shell)
        if (status, error) != (0, b""):
            yield f"{shell}: {status}, {error!r}"
        for command in commands(program):
            for option in re.findall(r"^ +--([a-z-]+)", ended(program, command, "--help")[1].decode(), re.M):
                if option.encode() not in script:
                    yield f"{shell} does not complete --{option} of {command}"
        if found := shutil.which(shell):
            done = subprocess.run([found, "-n"], input=script, capture_output=True, timeout=60)
            if done.returncode or done.stderr:
                yield f"{shell}: {done}"
        else:
            print(f"skipped: how {shell} reads its completions: {shell} is not installed")


def quotes_of_completions_are_closed(program):
    """In each line, since help may contain an apostrophe."""
    for shell in ("zsh", "fish"):
        for line in ended(program, "completions", shell)[1].splitlines():
            if re.sub(rb"\\.", b"", line).count(b"'") % 2:
                yield f"{shell}: {line!r}"


def zsh_completions_escape_what_ends_a_help_text(program):
    for line in ended(program, "completions", "zsh")[1].splitlines():
        for text in re.findall(rb"'--[a-z-]+\[(.*)\](?::[a-z]+:(?:[_a-z]*|\([a-z -]*\)))?'", line):
            if re.search(rb"(?<!\\)[][:]", text):
                yield f"zsh: {line!r}"


def paths_are_completed_where_they_are_written(program):
    """Both where a file or a folder is written and where one is read. No path is completed where a number is expected."""
    zsh, fish = (ended(program, "completions", shell)[1].decode() for shell in ("zsh", "fish"))
    for option in ("output", "index", "to", "record", "records", "users", "pass-file", "feed-pass-file"):
        yield from differs(f"{option} of zsh", set(re.findall(rf"'--{option}\[.*\](.*)'", zsh)), {":file:_files"})
        yield from differs(f"{option} of fish", set(re.findall(rf" -l {option}( -\w)? -d ", fish)), {" -r"})
    for option in ("port", "after", "clients"):
        yield from differs(f"{option} of zsh", set(re.findall(rf"'--{option}\[.*\](.*)'", zsh)), {":value:"})
        yield from differs(f"{option} of fish", set(re.findall(rf" -l {option}( -\w)? -d ", fish)), {" -x"})
    # If the value is one of a fixed set, these values are completed.
    yield from differs("sync of zsh", re.findall(r"'--sync\[.*\](.*)'", zsh), [":value:(no second message )"])
    yield from differs("sync of fish", re.findall(r" -l sync (.*) -d ", fish), ["-x -a 'no second message '"])


def other_words_are_a_usage_fault(program):
    """The first line of a usage fault differs from that of requested help."""
    for line in FAULTS:
        status, output, error = ended(program, *line.split())
        if (status, output) != (2, b"") or not error.startswith(b"error: "):
            yield f"{line}: status {status}, {output!r}, {error!r}"
        command = line.split()[0].encode()
        if b"\nUsage: " in error and command != b"unknown" and b"\nUsage: itchsnap " + command + b" " not in error:
            yield f"{line}: the usage of another command: {error!r}"


def no_words_print_the_short_help(program):
    """As an error."""
    yield from differs("without words", ended(program), (2, b"", ended(program, "-h")[1]))


def other_texts_are_no_lists_of_locates(program):
    """The second line quotes the first item that is neither a locate nor a range, if it can be quoted."""
    for text in NO_LISTS:
        bad = next(it for it in text.split(",") if not is_item(it))
        cause = f"{bad}: not a locate from 0 to 65535, nor an ascending range such as 1-40"
        if not re.fullmatch(r"[!-~]{1,20}", bad):
            cause = "a list has locates from 0 to 65535 and ascending ranges such as 1-40, between commas"
        wanted = 2, b"", f"itchsnap: bad locate list\n  {cause}\n".encode()
        yield from differs(repr(text), ended(program, "snap", f"--only={text}"), wanted)
        yield from differs(f"{text!r} of a book", ended(program, "book", "--", text), wanted)


def is_item(text):
    """Returns whether a text is a locate or a range."""
    found = re.fullmatch(r"([0-9]+)(?:-([0-9]+))?", text)
    return bool(found) and int(found[1]) <= int(found[2] or found[1]) <= 65_535


RUNS = [
    help_ends_with_status_0,
    help_lists_commands_by_topic,
    examples_of_the_help_run,
    help_lists_options_by_group,
    ranges_of_the_help_are_true,
    usage_names_what_is_required,
    each_option_is_given_once_and_with_its_value,
    arguments_that_break_a_rule_are_named,
    old_names_are_accepted_and_hidden,
    each_command_has_an_example,
    bash_completes_what_is_typed,
    completions_have_every_option,
    quotes_of_completions_are_closed,
    zsh_completions_escape_what_ends_a_help_text,
    paths_are_completed_where_they_are_written,
    other_words_are_a_usage_fault,
    no_words_print_the_short_help,
    other_texts_are_no_lists_of_locates,
]
