"""Files of passwords and of users, which `live`, `follow` and `feed` read again when they change: their lengths, and their paths in the log.

RUNS lists the runs: functions that take the program and yield the differences found.
"""
import json
import re
import threading
import time

from common import differs, ended_in
from living import ENDED, LOGIN, PATIENCE, WORDS, Feed, Running, acceptance, answer, connect, day_of, folder_with, plays, received, told
from standby import waits_for

ACCEPTED, REJECTED = b"A", b"J"
USER = "--user", "user"


def login_of(user, password):
    return b"\0\x2fL" + user.encode().ljust(6) + password.encode().ljust(10) + LOGIN[-30:]


def answered(port, user, password):
    """Returns the type of the packet that answers a login."""
    with connect(port) as peer:
        peer.sendall(login_of(user, password))
        return received(peer, 3)[2:]


def becomes(port, wanted, user, password):
    """Waits until a login gets this answer. Each rejection is delayed longer."""
    begun = time.monotonic()
    while (got := answered(port, user, password)) != wanted and time.monotonic() < begun + PATIENCE:
        time.sleep(0.05)
    yield from differs(f"{user}:{password}", got, wanted)


def live(program, feed, *words):
    return Running(program, "live", "--feed", f"127.0.0.1:{feed}", "--port", "0", *words)


def about(server, name):
    """Returns the lines about a file."""
    return [line for line in server.lines if str(name) in line and not line.startswith("feed: ")]


def a_password_is_rotated_while_it_is_served(program):
    """The old password is rejected from then on, the new one is accepted, and clients accepted before are still served. This also works if the file
    is replaced."""
    day, wanted = day_of(20)
    end = threading.Event()
    with folder_with(word=b"secret\n", next=b"third\r\n") as folder, Feed(plays(day, wait=end, held=ENDED)) as feed, \
            live(program, feed.port, *USER, "--pass-file", folder / "word") as server:
        yield from becomes(server.port, ACCEPTED, "user", "secret")
        yield from becomes(server.port, REJECTED, "user", "another")
        with connect(server.port) as early:
            early.sendall(LOGIN)
            yield from differs("early", received(early, len(acceptance(1))), acceptance(1))
            (folder / "word").write_bytes(b"another\n")
            yield from becomes(server.port, ACCEPTED, "user", "another")
            yield from becomes(server.port, REJECTED, "user", "secret")
            yield from differs("early, then", received(early)[-len(answer(wanted)) + len(acceptance(1)):], answer(wanted)[len(acceptance(1)):])
        (folder / "next").rename(folder / "word")
        yield from becomes(server.port, ACCEPTED, "USER", "THIRD")
        yield from differs("lines", about(server, "word"), [f"users: reloaded {folder / 'word'}\n"] * 2)
        end.set()
        yield from differs("status", server.ended()[0], 0)


def a_feed_whose_password_is_rotated_is_asked_with_the_new_one(program):
    """By `live`, from its own file or that of its clients, and by `follow`: the next connection uses the new one."""
    day, _ = day_of(20)

    def rotating(folder):
        def script(peer, login):
            plays(day, until=5)(peer, login)
            (folder / "word").write_bytes(b"another\r\n")
        return script

    def passwords(feed):
        return [login[9:19].strip() for login in feed.logins]

    with folder_with(word=b"secret\n", clients=b"secret\n") as folder:
        for words in ((*USER, "--pass-file", folder / "word"), (*USER, "--pass-file", folder / "clients", "--feed-pass-file", folder / "word")):
            (folder / "word").write_bytes(b"secret\n")
            with Feed(rotating(folder), plays(day, then=ENDED)) as feed, live(program, feed.port, *words) as server:
                status, _, lines = server.ended()
                yield from differs("live", (status, feed.asked(), passwords(feed)), (0, [1, 6], [b"secret", b"another"]))
                yield from differs("live, its line", f"feed: reloaded {folder / 'word'}\n" in lines, True)
        (folder / "word").write_bytes(b"secret\n")
        with Feed(rotating(folder), plays(day, then=ENDED)) as feed, Feed(plays(b"\0\x15G" + b"1".rjust(20), then=ENDED)) as glimpse, \
                Running(program, "follow", "--feed", f"127.0.0.1:{feed.port}", "--glimpse", f"127.0.0.1:{glimpse.port}", *USER,
                        "--pass-file", folder / "word", listens=False) as tail:
            status, output, _ = tail.ended()
            yield from differs("follow", (status, output == day, passwords(feed)), (0, True, [b"secret", b"another"]))


def a_file_of_users_lets_each_of_them_in(program):
    """By `live` and by `feed`: each user with its own password, in upper and lower case, and with either password if it has two."""
    day, _ = day_of(20)
    end = threading.Event()
    users = b"desk:secret\r\n\r\nrisk:pass:word\r\ndesk:second\nabcdef:0123456789"
    accepted = [("desk", "secret"), ("desk", "second"), ("DESK", "Secret"), ("risk", "pass:word"), ("abcdef", "0123456789")]
    rejected = [("desk", "pass:word"), ("risk", "secret"), ("desk", ""), ("", ""), ("risk", "pass"), ("abcdef", "012345678"), ("user", "secret")]

    def tried(port):
        for wanted, logins in ((ACCEPTED, accepted), (REJECTED, rejected)):
            for login in logins:
                yield from differs(login, answered(port, *login), wanted)

    with folder_with(users=users, own=b"own") as folder, Feed(plays(day, wait=end, held=ENDED)) as feed, \
            live(program, feed.port, "--users", folder / "users", "--feed-user", "me", "--feed-pass-file", folder / "own") as server:
        yield from tried(server.port)
        yield from differs("to the feed", feed.logins[0][3:19], b"me    own       ")
        (folder / "users").write_bytes(b"new:user\n")
        yield from becomes(server.port, ACCEPTED, "new", "user")
        yield from becomes(server.port, REJECTED, "desk", "secret")
        end.set()
    with folder_with(users=users, day=day) as folder, Running(program, "feed", folder / "day", "--port", "0", "--users", folder / "users") as server:
        yield from tried(server.port)
        (folder / "users").write_bytes(b"new:user\n")
        yield from becomes(server.port, ACCEPTED, "new", "user")
        yield from becomes(server.port, REJECTED, "desk", "secret")


def a_file_that_is_wrong_changes_nothing(program):
    """The fault is reported once, and so is its end. Meanwhile the users of the last good file may log in."""
    day, _ = day_of(20)
    end = threading.Event()
    reason = {b"user:secret\ndesk\n": "line 2: no colon", b"\nseven77:w\n": "line 2: bad user", b"user:secret\nuser:\n": "line 2: bad password",
              b"\n\r\n": "no user", b"u:p\n" * 16_385: "more than 65536 bytes", b"user:\xff\n": "stream did not contain valid UTF-8"}
    with folder_with(users=b"user:secret\n", own=b"own\n") as folder, Feed(plays(day, wait=end, held=ENDED)) as feed, \
            live(program, feed.port, "--users", folder / "users", "--feed-user", "me", "--feed-pass-file", folder / "own") as server:
        path, wanted = folder / "users", []
        for data, why in reason.items():
            path.write_bytes(data)
            line = f"users: cannot reload {path}: {why}\n"
            wanted.append(line)
            if not server.said("users: .*" + why.replace("(", ".").replace(")", ".")):
                yield f"missing line: {line}"
            yield from differs(why, answered(server.port, "user", "secret"), ACCEPTED)
        path.unlink()
        wanted.append(f"users: cannot reload {path}: No such file or directory (os error 2)\n")
        server.said("users: .*No such file")
        time.sleep(2.5)
        yield from differs("gone", answered(server.port, "user", "secret"), ACCEPTED)
        path.write_bytes(b"user:another\n")
        yield from becomes(server.port, ACCEPTED, "user", "another")
        yield from differs("lines", about(server, path), [*wanted, f"users: reloaded {path}\n"])
        end.set()


def wrong_files_of_users_are_told(program):
    """With the number of the line, before anything else happens."""
    rows = {"users": (b"a:b\r\nc\r\n", "line 2: no colon"), "long": (b"a:b\nseven77:p\n", "line 2: bad user"), "none": (b"\n", "no user"),
            "word": (b"a:12345678901\n", "line 1: bad password"), "blank": (b":p\n", "line 1: bad user"), "return": (b"a:b\r\r\n", "line 1: bad password")}
    with folder_with(pass_file=b"w") as folder:
        for name, (data, why) in rows.items():
            (folder / name).write_bytes(data)
            for words in (("feed", "no.itch", "--port", "0", "--users", name),
                          ("live", "--feed", "h:1", "--port", "0", "--users", name, "--feed-user", "u", "--feed-pass-file", "pass_file")):
                got = ended_in(folder, program, *words)
                yield from differs(f"{words[0]}, {name}", got, (2, b"", f"itchsnap: bad users\n  {name}: {why}\n".encode()))
        got = ended_in(folder, program, "feed", "no.itch", "--port", "0", "--users", "nowhere")
        yield from differs("nowhere", got, (3, b"", b"itchsnap: cannot open\n  nowhere: No such file or directory (os error 2)\n"))


def a_file_of_users_may_have_65536_bytes(program):
    """And not one more."""
    users = b"user:secret\n".ljust(65_536, b"\n")
    with folder_with(users=users, longer=users + b"\n", day=day_of(20)[0]) as folder:
        with Running(program, "feed", folder / "day", "--port", "0", "--users", folder / "users") as server:
            yield from differs("65,536 bytes", server.port and answered(server.port, "user", "secret"), ACCEPTED)
        got = ended_in(folder, program, "feed", "day", "--port", "0", "--users", "longer")
        yield from differs("65,537 bytes", got, (2, b"", b"itchsnap: bad users\n  longer: more than 65536 bytes\n"))


def a_path_of_any_characters_is_in_the_log(program):
    """Characters with a special meaning in the log are escaped: each line is still one object, with the path."""
    day, _ = day_of(20)
    name = 'a "word"\\of\tus\n'
    for form in ("json", "text"):
        with folder_with(**{name: b"secret\n"}) as folder, Feed(plays(day, wait=threading.Event())) as feed, \
                Running(program, "live", "--feed", f"127.0.0.1:{feed.port}", "--port", "0", *USER, "--pass-file", folder / name, "--log", form,
                        listens=False) as server:
            waits_for(lambda: any("feed_accepted" in line for line in server.lines))
            (folder / name).write_bytes(b"another\n")
            waits_for(lambda: any("logins_reloaded" in line for line in server.lines))
            line = next(it for it in server.lines if "logins_reloaded" in it)
        path = json.loads(line)["file"] if form == "json" else json.loads(re.search(r'file=("(?:[^"\\]|\\.)*")', line)[1])
        yield from differs(form, path, str(folder / name))


def words_of_users_are_read(program):
    """A single user or a file of users, and then a login for the feed."""
    with folder_with() as folder:
        base = ["live", "--feed", "h:1", "--port", "0"]
        own = ["--feed-user", "u", "--feed-pass-file", "w"]
        rows = [base, [*base, *own], [*base, "--users", "f"], [*base, "--users", "f", "--feed-user", "u"], [*base, "--users", "f", "--feed-pass-file", "w"],
                [*base, *own, "--users", "f", "--user", "u"], [*base, *own, "--users", "f", "--pass", "w"], [*base, *own, "--users", "f", "--pass-file", "w"],
                ["feed", "day.itch", "--port", "0"], ["feed", "day.itch", "--port", "0", "--users", "f", *WORDS], ["serve", "-", "--port", "0", "--count", "1", "--users", "f"]]
        for words in rows:
            status, output, error = ended_in(folder, program, *words)
            if (status, output) != (2, b"") or not error.startswith(b"error: "):
                yield f"{words}: {status}, {output!r}, {error!r}"


def a_password_file_may_end_in_a_carriage_return(program):
    """In `fetch`, `serve` and `feed`."""
    day, wanted = day_of(20)
    with folder_with(word=b"secret\r\n", day=day) as folder:
        words = *USER, "--pass-file", str(folder / "word")
        with Running(program, "serve", folder / "day", "--count", "2", "--port", "0", *words) as server:
            yield from differs("serve", told(server.port, LOGIN)[2:3], ACCEPTED)
            yield from differs("fetch", ended_in(folder, program, "fetch", "--port", str(server.port), *words), (0, wanted, b""))
        with Running(program, "feed", folder / "day", "--port", "0", *words) as server:
            yield from differs("feed", answered(server.port, "user", "secret"), ACCEPTED)


RUNS = [
    a_password_is_rotated_while_it_is_served,
    a_feed_whose_password_is_rotated_is_asked_with_the_new_one,
    a_file_of_users_lets_each_of_them_in,
    a_file_that_is_wrong_changes_nothing,
    wrong_files_of_users_are_told,
    a_file_of_users_may_have_65536_bytes,
    a_path_of_any_characters_is_in_the_log,
    words_of_users_are_read,
    a_password_file_may_end_in_a_carriage_return,
]
