"""The status port of `live`, and `status`.

RUNS lists the runs: functions that take the program and yield the differences found.
"""
import contextlib
import http.client
import itertools
import json
import math
import re
import shutil
import socket
import subprocess
import threading
import time
import urllib.parse

from common import differs, ended_in, split
from living import (BEAT, LOGIN, PATIENCE, WORDS, Feed, Running, acceptance, connect, day_of, fetch, feeding, folder_with, number_of, packet, plays,
                    received, sends)
from paces import each_in_some_attempt

PAGES = {"/": "text/html; charset=utf-8", "/metrics": "text/plain; version=0.0.4; charset=utf-8", "/healthz": "text/plain; charset=utf-8",
         "/readyz": "text/plain; charset=utf-8", "/status": "application/json", "/status.txt": "text/plain; charset=utf-8"}
GET = b"GET /healthz HTTP/1.1\r\nHost: a\r\n\r\n"
# How long a connection may be open, and the maximum number of connections.
LIMIT, MOST = 5, 16
# How many messages a feed of 100,000 per second sends at once, how often, and within what time each must be in the record.
BURST, PAUSE, MOST_LATE = 1000, 0.01, 0.05


@contextlib.contextmanager
def watched(program, feed, *words):
    """Runs a live server at this feed, whose status port is `status`."""
    with Running(program, "live", "--feed", f"127.0.0.1:{feed}", "--port", "0", *WORDS, "--status", "127.0.0.1:0", *words) as server:
        server.status = int(server.said("status on ").rsplit(":", 1)[1])
        yield server


def page(server, path, method="GET"):
    """Returns the response to a request: its status, its fields and its body."""
    asking = http.client.HTTPConnection("127.0.0.1", server.status, timeout=PATIENCE)
    with contextlib.closing(asking):
        asking.request(method, path)
        response = asking.getresponse()
        return response.status, dict(response.getheaders()), response.read()


def figures(server):
    return json.loads(page(server, "/status")[2])


def waits_for(condition, seconds=PATIENCE):
    begun = time.monotonic()
    while not (found := condition()) and time.monotonic() < begun + seconds:
        time.sleep(0.02)
    return found


def answer_to(port, *pieces):
    """Returns the complete answer to these pieces, which are sent one after the other."""
    with connect(port) as peer:
        with contextlib.suppress(ConnectionError):
            for piece in pieces:
                peer.sendall(piece)
        with contextlib.suppress(ConnectionError):
            return received(peer)
    return b"reset"


def status_of(response):
    return response.split(b"\r\n", 1)[0].decode()


def samples_of(text):
    """Returns the samples of the metrics by name. Each must be preceded by its description and its type."""
    described, typed, samples = set(), {}, {}
    for line in text.splitlines():
        if line.startswith("# HELP "):
            described.add(line.split(" ", 3)[2])
        elif line.startswith("# TYPE "):
            _, _, name, kind = line.split(" ")
            typed[name] = kind
        else:
            name, labels, value = re.fullmatch(r'(\w+)(\{\w+="(?:[^"\\]|\\.)*"\})? (\S+)', line).groups()
            samples[name + (labels or "")] = float(value)
            assert name in described and typed[name] == ("counter" if name.endswith("_total") else "gauge"), line
    return samples


def each_page_of_the_status(program):
    """While a feed is followed and after a client was served, the pages agree, and HEAD has no body."""
    day, _ = day_of(400)
    count = len(split(day))
    with folder_with() as folder, Feed(plays(day, wait=threading.Event())) as feed, watched(program, feed.port, "--record", folder / "record") as server:
        waits_for(lambda: figures(server)["next_message"] == count + 1)
        status, snapshot, _ = fetch(program, server.port)
        yield from differs("client", (status, number_of(snapshot)), (0, count + 1))
        waits_for(lambda: figures(server)["clients_served"] == 0)
        for path, kind in PAGES.items():
            code, fields, body = page(server, path)
            yield from differs(path, (code, fields["Content-Type"], fields["Content-Length"], fields["Connection"]), (200, kind, str(len(body)), "close"))
            head, its_fields, nothing = page(server, path, "HEAD")
            yield from differs(f"HEAD {path}", (head, its_fields["Content-Type"], nothing), (200, kind, b""))
        yield from differs("healthz", page(server, "/healthz?from=here")[2], b"ok\n")
        yield from differs("readyz", page(server, "/readyz")[2], b"ready\n")
        yield from figures_differ(server, folder, day, count)
        yield from forms_differ(program, server)


def figures_differ(server, folder, day, count):
    """Compares the figures with the day and the record."""
    waits_for(lambda: figures(server)["record_unsynced_bytes"] == 0)
    got = figures(server)
    wanted = {"ready": True, "feed_state": "following", "feed_cause": None, "feed_session": "ITCHSNAP", "feed_server": 1, "feed_losses_total": 0,
              "next_message": count + 1, "messages_total": count, "market_time_seconds": 0.0, "connections_total": 1, "connections_opening": 0,
              "clients_waiting": 0, "clients_served": 0, "client_slots": 64, "snapshots_encoded_total": 1, "record_bytes": len(day),
              "record_unsynced_bytes": 0, "snapshot_file_message": None, "snapshot_files_missed_total": 0, "log_lines_lost_total": 0}
    yield from differs("figures", {key: got[key] for key in wanted}, wanted)
    yield from differs("record", (folder / "record").stat().st_size, len(day))
    yield from differs("by second", (len(got["messages_by_second"]), sum(got["messages_by_second"])), (61, count))
    if not got["sent_bytes_total"] > 0 or not 0 <= got["silence_seconds"] <= got["uptime_seconds"]:
        yield f"sent, silence or uptime: {got}"


def forms_differ(program, server):
    """Compares the formats of the status with each other."""
    got, samples = figures(server), samples_of(page(server, "/metrics")[2].decode())
    for key, value in got.items():
        if isinstance(value, int) and key not in ("uptime_seconds", "silence_seconds"):
            yield from differs(key, samples.get(f"itchsnap_{key}"), float(value))
    states = {it: samples[f'itchsnap_feed_state{{state="{it}"}}'] for it in ("connecting", "following", "lost", "ended")}
    yield from differs("states", states, {"connecting": 0, "following": 1, "lost": 0, "ended": 0})
    yield from differs("session", samples['itchsnap_feed_session{session="ITCHSNAP"}'], 1.0)
    html = page(server, "/")[2].decode()
    lines = page(server, "/status.txt")[2].decode().splitlines()
    yield from differs("lines", [line.split(" ")[0] for line in lines], [*(key for key in got if key not in ("version", "messages_by_second")), "version"])
    yield from differs("rows and bars", (html.count("<tr>"), html.count("<rect "), "<script" in html, "http:" in html), (len(lines) - 1, 60, False, False))
    yield from differs("version", lines[-1], "version " + got["version"])
    done = ended_in("/", program, "status", str(server.status), "--json")
    yield from differs("status", (done[0], json.loads(done[1])["next_message"], done[2]), (0, got["next_message"], b""))


def metrics_that_prometheus_takes(program):
    if not (tool := shutil.which("promtool")):
        print("skipped: the metrics checked by Prometheus: promtool is not installed")
        return
    day, _ = day_of(20)
    with Feed(plays(day, wait=threading.Event())) as feed, watched(program, feed.port) as server:
        server.said("feed: accepted")
        done = subprocess.run([tool, "check", "metrics"], input=page(server, "/metrics")[2], capture_output=True, timeout=PATIENCE)
        yield from differs("promtool", (done.returncode, done.stdout, done.stderr), (0, b"", b""))


def what_prometheus_scrapes(program):
    """Prometheus discovers the server, and a query returns how long ago the last message was received."""
    if not (tool := shutil.which("prometheus")):
        print("skipped: the metrics scraped by Prometheus: prometheus is not installed")
        return
    day, _ = day_of(20)
    with folder_with() as folder, Feed(plays(day, wait=threading.Event())) as feed, watched(program, feed.port) as server:
        target = f'{{"targets": ["127.0.0.1:{server.status}"]}}'
        (folder / "config").write_text(f'{{"scrape_configs": [{{"job_name": "live", "scrape_interval": "1s", "static_configs": [{target}]}}]}}')
        with prometheus(tool, folder) as port:
            found = waits_for(lambda: asked_of(port, "itchsnap_next_message == 41"))
            yield from differs("next message", bool(found), True)
            lag = asked_of(port, "itchsnap_silence_seconds")
            yield from differs("lag", bool(lag) and 0 <= float(lag[0]["value"][1]) < PATIENCE, True)


@contextlib.contextmanager
def prometheus(tool, folder):
    """Yields the port of a Prometheus whose configuration is the file `config` in this folder."""
    with socket.create_server(("127.0.0.1", 0)) as free:
        port = free.getsockname()[1]
    words = f"--config.file={folder}/config", f"--storage.tsdb.path={folder}/data", f"--web.listen-address=127.0.0.1:{port}"
    scraper = subprocess.Popen([tool, *words], stdout=subprocess.DEVNULL, stderr=subprocess.DEVNULL)
    try:
        yield port
    finally:
        scraper.terminate()
        scraper.wait()


def asked_of(port, query):
    """Returns the answer of Prometheus to a query, or None if it does not answer yet."""
    with contextlib.suppress(OSError, ValueError, http.client.HTTPException):
        asking = http.client.HTTPConnection("127.0.0.1", port, timeout=PATIENCE)
        with contextlib.closing(asking):
            asking.request("GET", "/api/v1/query?" + urllib.parse.urlencode({"query": query}))
            return json.loads(asking.getresponse().read()).get("data", {}).get("result")


def what_a_browser_shows(program):
    """The document of the page after rendering: the browser has refused no part of it."""
    if not (tool := shutil.which("chromium")):
        print("skipped: the status page in a browser: chromium is not installed")
        return
    day, _ = day_of(20)
    with folder_with() as folder, Feed(plays(day, wait=threading.Event())) as feed, watched(program, feed.port) as server:
        waits_for(lambda: figures(server)["next_message"] == 41)
        words = "--headless", "--no-sandbox", "--disable-gpu", f"--user-data-dir={folder}/data", "--dump-dom", f"http://127.0.0.1:{server.status}/"
        done = subprocess.run([tool, *words], capture_output=True, text=True, timeout=PATIENCE)
        yield from differs("rows and bars", (done.returncode, done.stdout.count("<tr>"), done.stdout.count("<rect ")), (0, 25, 60))
        yield from differs("next", "<th>Next message</th><td>41</td>" in done.stdout, True)
        yield from differs("refused", "Refused" in done.stderr, False)


def requests_that_are_refused(program):
    """Each has its own code. Nothing after a request is answered."""
    day, _ = day_of(20)
    long = b"GET / HTTP/1.1\r\nX: " + b"a" * 9000 + b"\r\n\r\n"
    many = b"GET / HTTP/1.1\r\n" + b"X: a\r\n" * 65 + b"\r\n"
    just = b"GET /healthz HTTP/1.1\r\nX: " + b"a" * (8192 - 30) + b"\r\n\r\n"
    cases = {"unknown": (b"GET /x HTTP/1.1\r\n\r\n", "404 Not Found"), "path": (b"GET /metrics/ HTTP/1.1\r\n\r\n", "404 Not Found"),
             "absolute": (b"GET http://a:9100/metrics HTTP/1.1\r\nHost: a:9100\r\n\r\n", "200 OK"), "host": (b"GET HTTP://a HTTP/1.1\r\n\r\n", "200 OK"),
             "its path": (b"GET http://a/x HTTP/1.1\r\n\r\n", "404 Not Found"), "scheme": (b"GET ftp://a/ HTTP/1.1\r\n\r\n", "404 Not Found"),
             "post": (b"POST /metrics HTTP/1.1\r\nContent-Length: 3\r\n\r\nabc", "405 Method Not Allowed"),
             "delete": (b"DELETE / HTTP/1.1\r\n\r\n", "405 Method Not Allowed"), "get": (b"get / HTTP/1.1\r\n\r\n", "405 Method Not Allowed"),
             "garbage": (b"\x16\x03\x01\x02\x00\x01\x00\x01\xfc\x03\x03", "400 Bad Request"), "version": (b"GET / HTTP/2.0\r\n\r\n", "400 Bad Request"),
             "field": (b"GET / HTTP/1.1\r\nX y\r\n\r\n", "400 Bad Request"), "long": (long, "431 Request Header Fields Too Large"),
             "no newline": (b"GET /" + b"a" * 20000, "431 Request Header Fields Too Large"), "many": (many, "431 Request Header Fields Too Large"),
             "just within": (just, "200 OK"), "old": (b"GET /healthz HTTP/1.0\r\n\r\n", "200 OK"), "login": (LOGIN, "400 Bad Request")}
    with Feed(plays(day, wait=threading.Event())) as feed, watched(program, feed.port) as server:
        server.said("feed: accepted")
        for name, (request, wanted) in cases.items():
            yield from differs(name, status_of(answer_to(server.status, request)), f"HTTP/1.1 {wanted}")
        allowed = answer_to(server.status, b"PUT / HTTP/1.1\r\n\r\n")
        missing = answer_to(server.status, b"HEAD /x HTTP/1.1\r\n\r\n")
        yield from differs("HEAD of no page", (status_of(missing), missing.partition(b"\r\n\r\n")[2]), ("HTTP/1.1 404 Not Found", b""))
        yield from differs("allowed", b"\r\nAllow: GET, HEAD\r\n" in allowed, True)
        yield from differs("byte by byte", status_of(answer_to(server.status, *(bytes([it]) for it in GET))), "HTTP/1.1 200 OK")
        yield from differs("pipelined", answer_to(server.status, GET * 50).count(b"HTTP/1.1"), 1)
        yield from differs("after all that", page(server, "/readyz")[0], 200)


def connections_that_say_nothing(program):
    """A hundred connect. Sixteen are open at a time, each for five seconds, and then told that their time is over. The feed and a client do not
    notice."""
    day, wanted = day_of(400)
    with Feed(plays(day, wait=threading.Event())) as feed, watched(program, feed.port) as server, contextlib.ExitStack() as held:
        server.said("feed: accepted")
        begun = time.monotonic()
        peers = [held.enter_context(connect(server.status)) for _ in range(100)]
        for peer in peers[:8]:
            peer.sendall(b"GET / HTTP/1.1\r\nX: ")
        yield from differs("client", fetch(program, server.port), (0, wanted, b""))
        if (seconds := time.monotonic() - begun) > LIMIT:
            yield f"a client waited for {seconds:.1f} seconds"
        with contextlib.suppress(ConnectionError):
            yield from differs("told", status_of(received(peers[0])), "HTTP/1.1 408 Request Timeout")
        if not LIMIT - 1 < (seconds := time.monotonic() - begun) < 4 * LIMIT:
            yield f"a silent connection was told that its time was over after {seconds:.1f} seconds"
        held.close()
        yield from differs("after that", waits_for(lambda: page(server, "/healthz")[2]), b"ok\n")


def a_scraper_that_reads_nothing(program):
    """It is cut off after five seconds, and so is one that floods the port. Meanwhile a feed of 100,000 messages per second is followed, and a client
    is served."""
    day, wanted = day_of(30000)
    with folder_with(day=day) as folder, feeding(program, folder / "day", "--rate", "20000", "--stay") as feed, watched(program, feed.port) as server, \
            contextlib.ExitStack() as held:
        for _ in range(MOST // 2):
            peer = held.enter_context(connect(server.status, room=2304))
            peer.sendall(b"GET / HTTP/1.1\r\n\r\n")
        flood = held.enter_context(connect(server.status))
        flooding = threading.Thread(target=floods, args=(flood,))
        flooding.start()
        waits_for(lambda: figures(server)["next_message"] == len(split(day)) + 1)
        flooding.join()
        got = figures(server)
        yield from differs("whole", (got["messages_total"], got["feed_losses_total"]), (len(split(day)), 0))
        yield from differs("client", fetch(program, server.port), (0, wanted, b""))


def messages_are_not_delayed_by_scrapers(program):
    """Each of 100,000 messages per second is in the record within 50 ms, while `wrk` requests as many pages as it can, and `curl` one. The record is
    not synced, since that takes as long as the disk does. A busy machine delays the test itself, so one success in several attempts suffices."""
    if lacking := [it for it in ("wrk", "curl") if not shutil.which(it)]:
        print(f"skipped: messages are not delayed by scrapers: not installed: {', '.join(lacking)}")
        return
    blocks = split(day_of(300_000)[0])

    def attempt():
        sent, begins = [], threading.Event()
        with folder_with() as folder, Feed(in_bursts(blocks, begins, sent)) as feed, \
                watched(program, feed.port, "--record", folder / "record", "--sync", "no") as server:
            url = f"http://127.0.0.1:{server.status}"
            load = subprocess.Popen(["wrk", "-t", "1", "-c", "8", "-d", "5s", f"{url}/metrics"], stdout=subprocess.PIPE, text=True)
            begins.set()
            grown = growth_of(folder / "record", sum(map(len, blocks)))
            yield from differs("curl", subprocess.run(["curl", "-sS", f"{url}/healthz"], capture_output=True, timeout=PATIENCE).stdout, b"ok\n")
            answered = re.search(r"(\d+) requests in", load.communicate()[0])
            yield from differs("pages", int(answered[1]) > 1000, True)
            yield from differs("whole", figures(server)["next_message"], len(blocks) + 1)
        yield from differs("late", [round(it, 3) for it in delays(sent, grown) if it > MOST_LATE], [])

    yield from each_in_some_attempt([attempt])


def in_bursts(blocks, begins, sent):
    """Returns a script that sends these messages at 100,000 per second, after an event. It notes when it sends each burst, and the size of the record
    after it."""
    bursts = [blocks[at:at + BURST] for at in range(0, len(blocks), BURST)]
    packets, sizes = [b"".join(map(packet, it)) for it in bursts], itertools.accumulate(sum(map(len, it)) for it in bursts)

    def script(peer, _login):
        peer.sendall(acceptance(1))
        begins.wait(PATIENCE)
        begun = time.monotonic()
        for turn, (data, size) in enumerate(zip(packets, sizes)):
            time.sleep(max(0, begun + turn * PAUSE - time.monotonic()))
            sent.append((time.monotonic(), size))
            peer.sendall(data)
        while True:
            time.sleep(0.5)
            peer.sendall(BEAT)

    return script


def growth_of(file, size):
    """Returns when a file grew, and to what size, until it has this size."""
    grown, begun = [(0, 0)], time.monotonic()
    while grown[-1][1] < size and time.monotonic() < begun + PATIENCE:
        if (found := file.stat().st_size) > grown[-1][1]:
            grown.append((time.monotonic(), found))
        time.sleep(0.001)
    return grown


def delays(sent, grown):
    """Returns how long after each burst was sent the record contained it."""
    return [next((seen for seen, found in grown if found >= size), math.inf) - moment for moment, size in sent]


def floods(peer):
    """Sends a request that never ends, until it is cut off."""
    with contextlib.suppress(OSError):
        while True:
            peer.sendall(b"a" * 65536)


def the_state_of_a_feed(program):
    """Connecting with its cause, following, lost with its cause, and following again. `status` waits for it."""
    day, _ = day_of(20)
    gate, closing = threading.Event(), threading.Event()

    def closes(peer, login):
        plays(day, until=5)(peer, login)
        closing.wait(PATIENCE)

    def waits(peer, login):
        if not gate.wait(0.1):
            return sends(b"\0\x02JS")(peer, login)
        plays(day, wait=threading.Event())(peer, login)

    with Feed(sends(b"\0\x02JS"), sends(b""), closes, waits) as feed, watched(program, feed.port) as server:
        first = waits_for(lambda: (it := figures(server))["feed_cause"] and it)
        yield from differs("first", (first["feed_state"], first["ready"], first["next_message"]), ("connecting", False, 1))
        waits_for(lambda: figures(server)["next_message"] == 6)
        yield from differs("followed", figures(server)["feed_state"], "following")
        closing.set()
        lost = waits_for(lambda: (it := figures(server))["feed_cause"] == "rejected S" and it)
        yield from differs("lost", (lost["feed_state"], lost["ready"], lost["next_message"], page(server, "/readyz")[0]), ("lost", False, 6, 503))
        yield from differs("status", ended_in("/", program, "status", str(server.status))[0], 1)
        waiting = subprocess.Popen([program, "status", f"127.0.0.1:{server.status}", "--wait", "60"], stdout=subprocess.PIPE)
        gate.set()
        yield from differs("waits", (waiting.communicate(timeout=PATIENCE)[0].splitlines()[:2], waiting.returncode), ([b"ready yes", b"feed_state following"], 0))
        if figures(server)["feed_losses_total"] < 4:
            yield f"losses: {figures(server)}"


def a_status_port_that_cannot_be_had(program):
    """It ends `live` at the start, and so does an address that is not local. `status` of a port where nothing listens exits with 3."""
    with socket.create_server(("127.0.0.1", 0)) as taken:
        port = taken.getsockname()[1]
        words = "live", "--feed", "127.0.0.1:9", "--port", "0", *WORDS, "--status"
        done = ended_in("/", program, *words, f"127.0.0.1:{port}")
        wanted = f"itchsnap: socket failed\n  127.0.0.1:{port}: Address already in use (os error 98)\n".encode()
        yield from differs("taken", done, (3, b"", wanted))
        yield from differs("usage", ended_in("/", program, *words, "host:x")[0], 2)
    done = ended_in("/", program, "status", f"127.0.0.1:{port}")
    yield from differs("nobody", done, (3, b"", f"itchsnap: socket failed\n  127.0.0.1:{port}: Connection refused (os error 111)\n".encode()))
    with Feed(sends(b"hello")) as other:
        yield from differs("no HTTP", ended_in("/", program, "status", f"127.0.0.1:{other.port}")[0], 3)


def entries(lines, form):
    """Returns the entries of a log: the time, the level, the event and the fields of each line."""
    if form == "json":
        return [(it.pop("time"), it.pop("level"), it.pop("event"), it) for it in map(json.loads, lines)]
    found = []
    for line in lines:
        moment, level, event, rest = (*line.rstrip("\n").split(" ", 3), "")[:4]
        pairs = re.findall(r'(\w+)=(?:"((?:[^"\\]|\\.)*)"|(\S+))', rest)
        found.append((moment, level, event, {key: text if text or not number else json.loads(number) for key, text, number in pairs}))
    return found


def lines_of_a_log(program):
    """Each line has its time and its level: those about a lost feed, and those about clients that are served or rejected. Standard output is
    empty."""
    day, wanted = day_of(20)
    closing = threading.Event()

    def closes(peer, login):
        plays(day, wait=closing)(peer, login)

    for form in ("text", "json"):
        closing.clear()
        with Feed(closes, sends(b"\0\x02JS")) as feed, watched_log(program, feed.port, form) as server:
            waits_for(lambda: any("feed_accepted" in line for line in server.lines))
            yield from differs("client", fetch(program, server.port), (0, wanted, b""))
            waits_for(lambda: any("client_ended" in line for line in server.lines))
            with connect(server.port) as peer:
                peer.sendall(LOGIN.replace(b"secret", b'no"no\\'))
                received(peer)
            waits_for(lambda: sum("client_ended" in line for line in server.lines) == 2)
            closing.set()
            waits_for(lambda: any("rejected S" in line for line in server.lines))
            got, output = entries(server.lines, form), b"".join(server.output)
        yield from log_differs(form, got, output, len(split(day)) + 1)


@contextlib.contextmanager
def watched_log(program, feed, form):
    words = "live", "--feed", f"127.0.0.1:{feed}", "--port", "0", *WORDS, "--status", "0", "--log", form
    with Running(program, *words, listens=False) as server:
        line = waits_for(lambda: next((it for it in server.lines if "listening" in it), None))
        server.port = int(re.search(r":(\d+)\"", line.split("127.0.0.1", 1)[1])[1])
        server.status = int(re.search(r":(\d+)\"", server.lines[0])[1])
        yield server


def log_differs(form, got, output, next_number):
    names = [(level, event) for _, level, event, _ in got]
    wanted = [("info", "status"), ("info", "listening"), ("info", "feed_accepted"), ("info", "client_connected"), ("info", "client_logged_in"),
              ("info", "client_first_byte"), ("info", "client_ended"), ("info", "client_connected"), ("warn", "client_ended"), ("warn", "feed_lost"),
              ("warn", "feed_lost")]
    yield from differs(f"{form}: events", (names, output), (wanted, b""))
    if any(not re.fullmatch(r"\d{4}-\d\d-\d\dT\d\d:\d\d:\d\d\.\d{3}Z", it[0]) for it in got) or sorted(it[0] for it in got) != [it[0] for it in got]:
        yield f"{form}: times: {[it[0] for it in got]}"
    by_event = [fields for _, _, _, fields in got]
    yield from differs(f"{form}: accepted", by_event[2]["next"], 1)
    served, rejected, closed, refused = by_event[6], by_event[8], by_event[9], by_event[10]
    yield from differs(f"{form}: served", [served[it] for it in ("number", "address", "user", "reason", "next")],
                       [1, "127.0.0.1", "user", "answered", next_number])
    yield from differs(f"{form}: rejected", [rejected[it] for it in ("number", "user", "reason", "code", "bytes")], [2, "user", "rejected", "A", 4])
    yield from differs(f"{form}: lost", [closed["next"], closed["cause"], refused["cause"], refused["code"]],
                       [next_number, "closed by the server", "rejected S", "S"])
    if not (served["bytes"] > 0 and served["seconds"] >= 0):
        yield f"{form}: served: {served}"


RUNS = [
    each_page_of_the_status,
    metrics_that_prometheus_takes,
    what_prometheus_scrapes,
    what_a_browser_shows,
    requests_that_are_refused,
    connections_that_say_nothing,
    a_scraper_that_reads_nothing,
    messages_are_not_delayed_by_scrapers,
    the_state_of_a_feed,
    a_status_port_that_cannot_be_had,
    lines_of_a_log,
]
