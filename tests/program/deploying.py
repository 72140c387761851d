"""The files of `deploy/` under systemd's and Prometheus's own checks, the commands of the unit, and each figure, log line and exit code in docs/OPERATING.md.

RUNS lists the runs: functions that take the program and yield the differences found.
"""
import contextlib
import itertools
import os
import re
import shlex
import shutil
import signal
import socket
import subprocess
import threading
from pathlib import Path

from common import differs, ended_in, split
from living import ENDED, PATIENCE, Feed, Running, day_of, fetch, folder_with, plays, sends, snapshot_after
from scraping import asked_of, page, prometheus, samples_of, waits_for, watched

TOP = Path(__file__).resolve().parents[2]
DEPLOY = TOP / "deploy"
UNIT = DEPLOY / "itchsnap-live@.service"
VARIABLES = DEPLOY / "itchsnap-live.env"
USERS = DEPLOY / "itchsnap.sysusers"
RULES, CASES, CONFIGURATION = (DEPLOY / it for it in ("itchsnap.rules.yml", "itchsnap.rules.test.yml", "prometheus.yml"))
IMAGE = DEPLOY / "Dockerfile"
OPERATING, OUTPUT = TOP / "docs/OPERATING.md", TOP / "docs/OUTPUT.md"
SOURCES = TOP / "crates"
# The greatest exposure that systemd may report for the unit, in tenths.
EXPOSURE = 20
# A snapshot is written after every EVERY messages.
EVERY = 50
# Each service has its own address on this machine, with the ports of the environment file.
NETWORKS = itertools.count(64)


def tool(name, what):
    """Returns a tool. If it is not installed, prints what is skipped, and returns None."""
    if not (found := shutil.which(name)):
        print(f"skipped: {what}: {name} is not installed")
    return found


def says(*words, **more):
    """Returns the status of a command, and both outputs together."""
    done = subprocess.run([str(it) for it in words], stdin=subprocess.DEVNULL, stdout=subprocess.PIPE, stderr=subprocess.STDOUT, text=True,
                          timeout=PATIENCE, **more)
    return done.returncode, done.stdout


def setting(name):
    """Returns the values of a setting of the unit, in order. A line that ends with a backslash continues on the next one."""
    return re.findall(rf"^{name}=(.*)$", re.sub(r"\\\n *", "", UNIT.read_text()), re.M)


def what_systemd_says_of_the_unit(program):
    """With the program installed, systemd reports no problem and a low exposure."""
    if not (analyze := tool("systemd-analyze", "what systemd says of the unit")):
        return
    with folder_with() as folder:
        unit = folder / UNIT.name
        unit.write_text(re.sub(r"^(Exec\w+=-?)itchsnap ", rf"\g<1>{program} ", UNIT.read_text(), flags=re.M))
        yield from differs("verify", says(analyze, "verify", unit), (0, ""))
        status, said = says(analyze, "security", "--offline=true", "--no-pager", f"--threshold={EXPOSURE}", unit)
        yield from differs("security", (status, said if status else ""), (0, ""))


def the_user_of_the_unit_is_made(program):
    if not (sysusers := tool("systemd-sysusers", "the user of the unit")):
        return
    with folder_with() as folder:
        (folder / "etc").mkdir()
        yield from differs("sysusers", says(sysusers, f"--root={folder}", USERS)[0], 0)
        names = [line.split(":")[0] for line in (folder / "etc/passwd").read_text().splitlines()]
        yield from differs("users", [it for it in names if it in setting("User")], setting("User"))
        groups = [line.split(":")[0] for line in (folder / "etc/group").read_text().splitlines()]
        yield from differs("groups", [it for it in groups if it in setting("Group")], setting("Group"))


class Service:
    """Runs the commands of the unit for a feed at this port, with a test folder in place of the system's."""

    def __init__(self, program, folder, feed):
        self.folder = folder
        (folder / "bin").mkdir()
        (folder / "bin/itchsnap").symlink_to(program)
        for made in "state", "state/itchsnap", "state/itchsnap/a":
            (folder / made).mkdir(mode=0o700)
        (folder / "etc").mkdir()
        (folder / "etc/a.feed").write_text("secret\n")
        (folder / "etc/a.users").write_text("user:secret\n")
        self.variables = dict(line.split("=", 1) for line in shlex.split(VARIABLES.read_text(), comments=True))
        self.address, self.port = f"127.{next(NETWORKS)}.{os.getpid() // 256 % 256}.{os.getpid() % 256}", self.variables["PORT"]
        own = {"FEEDS": f"--feed 127.0.0.1:9 --feed 127.0.0.1:{feed}", "FEED_USER": "user", "BIND": self.address, "EVERY": str(EVERY),
               "STATUS": self.variables["STATUS"].replace("127.0.0.1", self.address)}
        self.unknown = own.keys() - self.variables.keys()
        self.variables |= own

    def command(self, name):
        """Returns the arguments of a command of the unit, as systemd expands them."""
        (line,) = setting(name)
        for specifier, meaning in (("%S", f"{self.folder}/state"), ("/etc/itchsnap", f"{self.folder}/etc"), ("%i", "a"), ("%%", "%")):
            line = line.replace(specifier, meaning)
        for word in shlex.split(line.lstrip("-")):
            if whole := re.fullmatch(r"\$(\w+)", word):
                yield from self.variables[whole[1]].split()
            else:
                yield re.sub(r"\$\{(\w+)\}", lambda it: self.variables[it[1]], word)

    def environment(self):
        return {**self.variables, **dict(it.split("=", 1) for it in setting("Environment")), "PATH": f"{self.folder}/bin:/usr/bin:/bin"}

    def start(self):
        """Starts the server as the unit does."""
        masked = "sh", "-c", 'umask "$0"; exec "$@"', *setting("UMask")
        return Running(*masked, *self.command("ExecStart"), listens=False, **self.environment())

    def waited(self):
        """Runs what the unit runs before it is active. Returns the status and the output."""
        return says(*self.command("ExecStartPost"), env=self.environment())

    def fetch(self):
        """Fetches as a client. Returns the status and both outputs."""
        return fetch(self.folder / "bin/itchsnap", self.port, "--host", self.address)

    def files(self):
        """Returns the files that the server keeps, by name, and the modes of all files and folders."""
        below = [*(self.folder / "state").rglob("*")]
        return {it.name: it for it in below if it.is_file()}, {(it.is_dir(), it.stat().st_mode & 0o777) for it in below}


def the_unit_serves_a_feed(program):
    """The first feed server is down. The unit becomes active when clients are served. When stopped it has recorded the day, and when started again it
    continues."""
    day, wanted = day_of(200)
    count = len(split(day))
    with folder_with() as folder, Feed(plays(day, wait=threading.Event())) as feed:
        service = Service(program, folder, feed.port)
        yield from differs("variables that the file does not have", service.unknown, set())
        for attempt in "first", "again":
            with service.start() as server:
                status, said = service.waited()
                yield from differs(f"{attempt}: active", (status, said.splitlines()[:2]), (0, ["ready yes", "feed_state following"]))
                waits_for(lambda: f"next_message {count + 1}\n" in service.waited()[1])
                yield from differs(f"{attempt}: client", service.fetch(), (0, wanted, b""))
                server.process.send_signal(signal.SIGTERM)
                yield from differs(f"{attempt}: stopped", server.ended()[0], -signal.SIGTERM)
            files, modes = service.files()
            yield from differs(f"{attempt}: the record", files["ITCHSNAP.itch"].read_bytes() == day, True)
            yield from differs(f"{attempt}: modes", modes, {(True, 0o700), (False, 0o600)})
        for messages in range(EVERY, count + 1, EVERY):
            yield from differs(f"snapshot {messages}", files[f"{messages}.snap"].read_bytes() == snapshot_after(program, day, messages), True)
        # Each start first asks which session the feed is in, with a login from message 1.
        yield from differs("asked for", feed.asked(), [1, 1, 1, count + 1])


def statuses_after_which_the_unit_is_started_again(program):
    """No restart after a wrong login, a refused message or an unknown option; a restart after a port was in use."""
    prevented = {int(it) for it in setting("RestartPreventExitStatus")[0].split()}
    day, _ = day_of(20)
    refused = day + split(day)[-1]
    cases = [("a wrong login", sends(b"\0\x02JA"), "", 1), ("a refused message", plays(refused, wait=threading.Event()), "", 1),
             ("an option", sends(b""), "--no-such-option", 2), ("a port in use", sends(b""), "", 3)]
    for name, script, option, wanted in cases:
        with folder_with() as folder, Feed(script) as feed, contextlib.ExitStack() as held:
            service = Service(program, folder, feed.port)
            service.variables["OPTIONS"] += f" {option}"
            if wanted == 3:
                held.enter_context(socket.create_server((service.address, int(service.port))))
            with service.start() as server:
                status = server.ended()[0]
                yield from differs(name, (status, status in prevented), (wanted, wanted in (1, 2)))
    yield from differs("restart", (setting("Restart"), prevented), (["on-failure"], {1, 2}))


def system_calls(analyze, names):
    """Returns the system calls in these sets, and these calls."""
    said = says(analyze, "syscall-filter", *[it for it in names if it.startswith("@")])[1]
    named = {*names, *re.findall(r"^    (@?\w[\w-]*)$", said, re.M)}
    nested = {it for it in named if it.startswith("@")} - {*names}
    return {it for it in named if not it.startswith("@")} | (system_calls(analyze, nested) if nested else set())


def the_unit_allows_each_system_call(program):
    """The calls of a server with a record, snapshots, a status port and a client, of the shell that starts it, and of `status`."""
    analyze, strace = (tool(it, "the system calls that the unit allows") for it in ("systemd-analyze", "strace"))
    if not analyze or not strace:
        return
    if says(strace, "-o", "/dev/null", "true")[0]:
        print("skipped: the system calls that the unit allows: strace cannot trace processes on this machine")
        return
    allowed = set()
    for filter in setting("SystemCallFilter"):
        named = system_calls(analyze, filter.lstrip("~").split())
        allowed = allowed - named if filter.startswith("~") else allowed | named
    day, _ = day_of(200)
    with folder_with() as folder, Feed(plays(day, then=ENDED)) as feed:
        service = Service(program, folder, feed.port)
        traced = Running(strace, "-D", "-f", "-qq", "-o", folder / "calls", *service.command("ExecStart"), listens=False, **service.environment())
        with traced as server:
            waits_for(lambda: any("feed_ended" in line for line in server.lines))
            yield from differs("client", service.fetch()[0], 0)
            asked = says(strace, "-f", "-qq", "-o", folder / "more", *service.command("ExecStartPost"), env=service.environment())
            yield from differs("status", asked[0], 0)
            waits_for(lambda: "record_unsynced_bytes 0\n" in service.waited()[1])
            server.process.terminate()
            server.process.wait(PATIENCE)
        lines = (folder / "calls").read_text() + (folder / "more").read_text()
        called = set(re.findall(r"^\d+ +(\w+)\(", lines, re.M))
        yield from differs("calls that are not allowed", sorted(called - allowed), [])
        yield from differs("calls", {"accept4", "connect", "fdatasync", "rename"} - called, set())


def what_prometheus_says_of_the_rules(program):
    if not (promtool := tool("promtool", "what Prometheus says of the rules")):
        return
    for words in ("check", "rules", RULES), ("check", "config", CONFIGURATION), ("test", "rules", CASES):
        status, said = says(promtool, *words, cwd=DEPLOY)
        yield from differs(" ".join(map(str, words)), (status, said if status else ""), (0, ""))


def a_lost_feed_raises_an_alert(program):
    """Prometheus loads the rules and scrapes a server. It computes the lag, and reports the loss of the feed and its cause. Intervals are 1 second
    instead of 15."""
    if not (found := tool("prometheus", "the alert of a lost feed")):
        return
    day, _ = day_of(20)
    closing = threading.Event()

    def closes(peer, login):
        plays(day)(peer, login)
        closing.wait(PATIENCE)

    with folder_with() as folder, Feed(closes, sends(b"\0\x02JS")) as feed, watched(program, feed.port) as server:
        (folder / RULES.name).write_bytes(RULES.read_bytes())
        config = CONFIGURATION.read_text().replace("15s", "1s").replace("127.0.0.1:5180", f"127.0.0.1:{server.status}")
        (folder / "config").write_text(f"global: {{evaluation_interval: 1s}}\n{config}")
        with prometheus(found, folder) as port:
            lag = waits_for(lambda: asked_of(port, "itchsnap:lag_seconds"))
            yield from differs("lag", bool(lag) and -60 <= float(lag[0]["value"][1]) < 3540, True)
            # The day's times are not those of the clock, so the lag alert may be pending.
            yield from differs("before", asked_of(port, 'ALERTS{alertname="ItchsnapFeedLost"}'), [])
            closing.set()
            alert = waits_for(lambda: asked_of(port, 'ALERTS{alertname="ItchsnapFeedLost", alertstate="pending"}'))
            yield from differs("alert", bool(alert) and alert[0]["metric"]["severity"], "critical")
            yield from differs("cause", bool(waits_for(lambda: asked_of(port, 'itchsnap_feed_cause{cause="rejected S"}'))), True)


def alerts():
    return re.findall(r"^      - alert: (\w+)$", RULES.read_text(), re.M)


def each_figure_that_is_named_is_served(program):
    """The figures named in the rules, in their test cases and on the page, and the states of a feed, are served. OUTPUT specifies all figures that
    are served, and no others."""
    day, _ = day_of(20)
    with Feed(plays(day, wait=threading.Event())) as feed, watched(program, feed.port) as server:
        text = page(server, "/metrics")[2].decode()
    served = set(re.findall(r"^# HELP (\w+) ", text, re.M))
    states = {it for it in samples_of(text) if it.startswith("itchsnap_feed_state")}
    for file in RULES, CASES, OPERATING:
        named = re.findall(r"\bitchsnap_\w+", file.read_text())
        yield from differs(f"{file.name}: figures", sorted({*named} - served), [])
    specified = {f"itchsnap_{it}" for row in rows("Status", OUTPUT) for it in quoted(row[0])}
    yield from differs("figures in OUTPUT", specified ^ served, {"itchsnap_build_info"})
    yield from differs("figures in the rules", len({*re.findall(r"\bitchsnap_\w+", RULES.read_text())}) > 8, True)
    asked = {f'itchsnap_feed_state{{state="{it}"}}' for it in re.findall(r'state="(\w+)"', RULES.read_text())}
    yield from differs("states", asked - states, set())
    foreign = {*re.findall(r"\b(?!itchsnap)\w+(?=\{)", re.sub(r"^ *(?:#|labels|summary).*", "", RULES.read_text(), flags=re.M))}
    yield from differs("figures of others", foreign, {"up", "node_filesystem_avail_bytes"})


def rows(title, file=OPERATING):
    """Returns the rows of the first table below a title on a page, each as a list of cells."""
    below = file.read_text().split(f"# {title}\n", 1)[1]
    table = re.search(r"(?:^\|.*\n)+", below, re.M)[0]
    return [[cell.strip() for cell in line.strip("|").split("|")] for line in table.splitlines()[2:]]


def quoted(text):
    """Returns the words in backticks."""
    return re.findall(r"`([^`]+)`", text)


def texts_of(file, function):
    """Returns the texts in all functions of a source file whose first line begins like this."""
    bodies = re.findall(rf"^( *){re.escape(function)}(.*?)^\1}}", (SOURCES / file).read_text(), re.M | re.S)
    return {text for _, body in bodies for text in re.findall(r'"([^"]*)"', body)}


def events():
    """Returns the events that a log may contain."""
    files = [it.relative_to(SOURCES) for it in SOURCES.glob("*/src/**/*.rt") if re.search(r"^impl(?:<.*>)? LogEvent for", it.read_text(), re.M)]
    return {event for file in files for event in texts_of(file, "fn name(&self)")}


def the_page_has_each_line_of_the_log(program):
    """The page lists exactly the events, the causes of a lost feed, and the ways in which a client may leave. OUTPUT also lists the events."""
    listed = {it for row in rows("Log lines") for it in quoted(row[0])}
    yield from differs("events", listed, events())
    causes = {it for row in rows("A lost feed") for it in quoted(row[0])}
    yield from differs("causes", causes, texts_of("itch_status/src/cause.rt", "pub fn words(self)"))
    reasons = {it for row in rows("Clients") for it in quoted(row[0])}
    yield from differs("reasons", reasons, texts_of("itch_sessions/src/who.rt", "fn reason_of(") - {"played"})
    yield from differs("events in OUTPUT", {it for it in events() if f"`{it}`" not in OUTPUT.read_text()}, set())


def the_page_has_each_alert(program):
    yield from differs("alerts", [it for row in rows("Alerts") for it in quoted(row[0])], alerts())


def the_page_has_each_exit_code(program):
    """The page lists the exit codes that OUTPUT specifies, and `no` for exactly those after which the unit is not restarted. Each error that it names
    is in OUTPUT."""
    specified = re.findall(r"^\| (\d+) \|", OUTPUT.read_text().split("## Exit codes", 1)[1].split("## ", 1)[0], re.M)
    listed = {row[0]: row[1] for row in rows("Exit codes")}
    yield from differs("codes", sorted({*specified} - {"141"} - listed.keys()), [])
    never = [code for code, again in listed.items() if again == "no" and code not in ("0", "SIGTERM")]
    yield from differs("not again", never, setting("RestartPreventExitStatus")[0].split())
    named = {it for row in rows("Exit codes") for it in quoted(row[2]) if not it.startswith("-")}
    yield from differs("errors", {it for it in named if it not in OUTPUT.read_text()}, set())


def the_image_has_the_released_program(program):
    """The file that is copied exists, and the options in the comment of the image are options of `live`."""
    text = IMAGE.read_text()
    copied = re.findall(r"^COPY (?:--\S+ )*(\S+) ", text, re.M)
    yield from differs("copied", [it for it in copied if not (TOP / "release" / it).exists()], [])
    run = re.sub(r"\\\n#|\n#", " ", text.split("docker run", 1)[1].split("FROM", 1)[0])
    options = re.findall(r"--[a-z-]+", run.split(" itchsnap ", 1)[1])
    known = re.findall(r"--[a-z-]+", ended_in("/", program, "live", "--help")[1].decode())
    yield from differs("options", [it for it in options if it not in known], [])


RUNS = [
    what_systemd_says_of_the_unit,
    the_user_of_the_unit_is_made,
    the_unit_serves_a_feed,
    statuses_after_which_the_unit_is_started_again,
    the_unit_allows_each_system_call,
    what_prometheus_says_of_the_rules,
    a_lost_feed_raises_an_alert,
    each_figure_that_is_named_is_served,
    the_page_has_each_line_of_the_log,
    the_page_has_each_alert,
    the_page_has_each_exit_code,
    the_image_has_the_released_program,
]
