"""`live` with many clients at once, with a feed that is cut at every byte, and with Wireshark's dissector.

RUNS lists the runs: functions that take the program and yield the differences found.
"""
import collections
import contextlib
import shutil
import socket
import struct
import subprocess
import tempfile
import threading
import time
from concurrent.futures import ThreadPoolExecutor
from pathlib import Path

import large
from common import differs, split
from hostile import told_within
from living import (ENDED, LOGIN, PATIENCE, Feed, acceptance, answer, connect, day_of, feeding, fetch, folder_with, large_server, live, memory_of, number_of, packet,
                    plays, received, sends, told, without_first_beats)
from standby import waits_for

PLACES = 64
PORT = 5100


def told_at_a_byte_a_second(port, seconds):
    """Returns what a client receives that reads a byte per second, for this long at most."""
    got = b""
    with connect(port, 4096) as peer, contextlib.suppress(OSError):
        peer.sendall(LOGIN)
        for _ in range(seconds):
            if not (byte := peer.recv(1)):
                break
            got += byte
            time.sleep(1)
    return got


def sixty_four_clients_at_once(program):
    """One client never reads, one reads a byte per second, one sends nonsense, and one logs in and leaves. Meanwhile sixty receive their 8 MB."""
    fast = PLACES - 4
    with large_server(program) as (server, whole, end), contextlib.ExitStack() as held, ThreadPoolExecutor(PLACES) as clients:
        before = memory_of(server.process)
        never = held.enter_context(connect(server.port, 4096))
        never.sendall(LOGIN)
        slow = clients.submit(told_at_a_byte_a_second, server.port, 60)
        nonsense = clients.submit(told, server.port, b"\0\x05?abcd")
        with connect(server.port) as peer:
            peer.sendall(LOGIN)
        answers = [clients.submit(told_within, server.port, 2 * PATIENCE) for _ in range(fast)]
        right = sum(without_first_beats(it.result().data) == whole for it in answers)
        yield from differs("clients with their answer", right, fast)
        yield from differs("the answer to nonsense", nonsense.result(), b"")
        if not whole.startswith(without_first_beats(slow.result())):
            yield "a client that reads a byte per second received something else"
        with contextlib.suppress(OSError):
            got = received(never)
            if len(got) == len(whole):
                yield "a client that never reads received everything"
        # One snapshot for all, at 43 bytes per message, and the buffers of each client.
        room = 43 * len(split(whole)) + PLACES * 65_537 + (4 << 20)
        for kind, kilobytes in memory_of(server.process).items():
            if 1024 * (kilobytes - before[kind]) > room:
                yield f"{kind} rose by {1024 * (kilobytes - before[kind])} bytes, for a snapshot of {len(whole)}"
        end.set()
        status, output, _ = server.ended(120)
    ends = collections.Counter(line.split(": ", 1)[1].split(" at ")[0] for line in output.decode().splitlines())
    # A client that leaves with unread data resets its connection, which is a socket fault.
    gone = ends.pop("left", 0) + ends.pop("fault", 0)
    yield from differs("endings", (status, gone, ends), (0, 2, collections.Counter({"accepted": fast, "cut off": 2})))


def a_snapshot_of_a_million_messages_is_served(program):
    """The server has recorded the messages, and serves two clients."""
    day, wanted = large.queue(1_000_000)
    with folder_with(day=day) as folder, feeding(program, folder / "day", "--stay") as feed, \
            live(program, feed.port, "--record", folder / "record", "--stay") as server:
        waits_for(lambda: (folder / "record").exists() and (folder / "record").stat().st_size == len(day))
        for _ in range(2):
            yield from differs("fetched", fetch(program, server.port) == (0, wanted, b""), True)


def is_asked_again(program, day, scripts):
    """Plays these scripts, one per connection, and then the complete feed. The record must contain each message once."""
    with tempfile.TemporaryDirectory() as folder:
        record = Path(folder, "record.itch")
        with Feed(*scripts, plays(day, then=ENDED)) as feed, live(program, feed.port, "--record", record) as server:
            status, _, lines = server.ended(3 * len(scripts) + 60)
        yield from differs("status", status, 0)
        yield from differs("connections", len(feed.logins), len(scripts) + 1)
        yield from differs("record", record.read_bytes() == day, True)
        yield from differs("last line", lines[-1:], [f"feed: ended at {len(split(day)) + 1}\n"])


def are_asked_again(program, day, scripts):
    """Does this with parallel servers that share the scripts, because a feed that is lost again and again is retried later each time."""
    with ThreadPoolExecutor(len(scripts)) as servers:
        for found in servers.map(lambda some: [*is_asked_again(program, day, some)], [scripts[at::8] for at in range(8)]):
            yield from found


def a_feed_is_cut_at_every_byte_of_an_acceptance(program):
    day, _ = day_of(50)
    whole = acceptance(1)
    yield from are_asked_again(program, day, [sends(whole[:count]) for count in range(len(whole) + 1)])


def a_feed_is_cut_at_every_byte_of_a_packet(program):
    """The packet is that of an added order: the messages before it are played once, and it is requested again at each connection."""
    day, _ = day_of(50)
    blocks = split(day)
    place = next(place for place, block in enumerate(blocks) if block[2:3] == b"A")
    whole = packet(blocks[place])
    yield from are_asked_again(program, day, [plays(day, until=place, then=whole[:count]) for count in range(len(whole))])


def captured(pieces):
    """Returns a capture of a connection in these pieces, each with whether the server sent it: Ethernet, IPv4 and TCP without checksums."""
    capture = struct.pack("<IHHiIII", 0xA1B2C3D4, 2, 4, 0, 0, 1 << 18, 1)
    sent = {True: 1, False: 1}
    for is_server, data in pieces:
        for at in range(0, len(data), 1400):
            part = data[at:at + 1400]
            ports = (PORT, 40000) if is_server else (40000, PORT)
            tcp = struct.pack(">HHIIBBHHH", *ports, sent[is_server], sent[not is_server], 5 << 4, 0x18, 65535, 0, 0)
            ip = struct.pack(">BBHHHBBH4s4s", 0x45, 0, 40 + len(part), 0, 0, 64, 6, 0, socket.inet_aton("127.0.0.1"), socket.inet_aton("127.0.0.1"))
            frame = bytes(12) + b"\x08\0" + ip + tcp + part
            capture += struct.pack("<IIII", 0, 0, len(frame), len(frame)) + frame
            sent[is_server] += len(part)
    return capture


def wireshark_reads_the_packets(program):
    """Wireshark's SoupBinTCP dissector finds the packets of a client's session: its login, and everything that it receives."""
    if not (tshark := shutil.which("tshark")):
        print("skipped: a session in Wireshark's dissector: tshark is not installed")
        return
    day, wanted = day_of(50)
    end = threading.Event()
    with Feed(plays(day, wait=end)) as feed, live(program, feed.port) as server:
        while number_of(fetch(program, server.port)[1]) < number_of(wanted):
            time.sleep(0.05)
        said = told(server.port, LOGIN)
        end.set()
    # The login's answer is in a segment of its own. After it, Wireshark's dissector begins another stream, and does not reassemble packets with
    # earlier data.
    accepted = len(acceptance(1))
    session = [(False, LOGIN), (True, said[:accepted]), (True, said[accepted:])]
    with tempfile.TemporaryDirectory() as folder:
        file = Path(folder, "session.pcap")
        file.write_bytes(captured(session))
        found = subprocess.run([tshark, "-r", file, "-d", f"tcp.port=={PORT},soupbintcp", "-T", "fields", "-E", "occurrence=a", "-E", "aggregator=,",
                                "-e", "soupbintcp.packet_type"], capture_output=True, text=True, timeout=60).stdout
    types = [it.strip("'") for it in found.replace("\n", ",").split(",") if it]
    yield from differs("types of packets", types, ["L", "A", *["S"] * len(split(wanted)), "Z"])
    yield from differs("told", said, answer(wanted))


RUNS = [
    sixty_four_clients_at_once,
    a_snapshot_of_a_million_messages_is_served,
    a_feed_is_cut_at_every_byte_of_an_acceptance,
    a_feed_is_cut_at_every_byte_of_a_packet,
    wireshark_reads_the_packets,
]
