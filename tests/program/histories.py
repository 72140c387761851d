"""`show --history` on random days, against an independent reader: the chain of an order, by the replaces of the day.

RUNS lists the runs: functions that take the program and yield the differences found.
"""
import csv
import gzip
import io
import json
import os
import subprocess
import tempfile
from pathlib import Path

from common import differs, ended, ended_in
from messages import fields_of
from odd_files import piped
from orders import STOCKS, Reader, Writer, payload

SEEDS = range(12)
NAMING = "order_reference_number", "original_order_reference_number", "new_order_reference_number"


class UniqueWriter(Writer):
    """A random day whose order reference numbers are unique, as in the standard."""

    def fresh(self):
        self.next += self.rng.choice([1, 1, 1, 7, 2 ** 40])
        return self.next


class Chains:
    """The messages about each order of a day, including those about the orders that it replaced and that replaced it."""

    def __init__(self, payloads):
        self.first, self.lives, self.times = {}, {}, []
        for number, data in enumerate(payloads, 1):
            self.pass_message(number, data)

    def pass_message(self, number, data):
        kind, values, at = chr(data[0]), {}, 1
        for name, _, width in fields_of(kind):
            values[name] = int.from_bytes(data[at:at + width], "big")
            at += width
        self.times.append(values["time"])
        if kind == "U":
            old, new = values["original_order_reference_number"], values["new_order_reference_number"]
            self.first[new] = self.first.setdefault(old, old)
            self.lives.setdefault(self.first[new], []).append((number, kind))
        elif kind in "AFECXD":
            reference = values["order_reference_number"]
            self.lives.setdefault(self.first.setdefault(reference, reference), []).append((number, kind))

    def life(self, reference):
        """Returns the numbers and the types of an order's messages."""
        return self.lives[self.first[reference]]

    def born(self, payloads, reference):
        """Returns the number of the first message that names an order."""
        for number, data in enumerate(payloads, 1):
            at, named = 1, []
            for name, _, width in fields_of(chr(data[0])):
                if name in NAMING and chr(data[0]) != "P":
                    named.append(int.from_bytes(data[at:at + width], "big"))
                at += width
            if reference in named:
                return number
        return None


def history(program, data, reference, *words):
    return ended(program, "show", "day.itch", "--reference", str(reference), "--history", *words, day=data)


def some_references(made, chains):
    """Returns the reference numbers of the longest chains, and of some others."""
    longest = sorted({*chains.first.values()}, key=lambda it: (-len(chains.lives[it]), it))[:3]
    return [it for it in chains.first if chains.first[it] in longest] + made.rng.sample(sorted(chains.first), 6)


def every_history_of_random_days_is_that_of_another_reader(program):
    """As text, with names, as JSON, and as comma-separated values of one type: the same lines that `show` prints for these messages."""
    for seed in SEEDS:
        made = UniqueWriter(seed)
        chains, data = Chains(made.payloads), made.day()
        for form in (), ("--names",), ("--json",):
            _, whole, _ = ended(program, "show", "day.itch", *form, day=data)
            lines = whole.splitlines(keepends=True)
            for reference in some_references(made, chains):
                wanted = b"".join(lines[number - 1] for number, _ in chains.life(reference))
                yield from differs(f"seed {seed}, order {reference}, {form}", history(program, data, reference, *form), (0, wanted, b""))
        for reference in some_references(made, chains):
            status, output, error = history(program, data, reference, "--csv", "--types", "U")
            numbers = [int(row["number"]) for row in csv.DictReader(io.StringIO(output.decode()), strict=True)]
            wanted = [number for number, kind in chains.life(reference) if kind == "U"]
            yield from differs(f"seed {seed}, order {reference} --csv", (status, numbers, error), (0, wanted, b""))


def each_number_of_an_order_gives_the_same_history(program):
    for seed in SEEDS:
        made = UniqueWriter(seed)
        chains, data = Chains(made.payloads), made.day()
        first = max(chains.lives, key=lambda it: len(chains.lives[it]))
        wanted = history(program, data, first)
        yield from differs(f"seed {seed}, forward", ended(program, "show", "day.itch", "--reference", str(first), day=data), wanted)
        for reference in (it for it in chains.first if chains.first[it] == first):
            yield from differs(f"seed {seed}, order {reference}", history(program, data, reference), wanted)


def a_history_has_the_orders_behind_its_messages(program):
    for seed in SEEDS:
        made = UniqueWriter(seed)
        chains, rows = Chains(made.payloads), {row.number: row for row in Reader(made.payloads).rows}
        for reference in some_references(made, chains):
            life = [rows[number] for number, kind in chains.life(reference) if kind in "ECXDU"]
            label = f"seed {seed}, order {reference}"
            wanted = "".join(f"{row.line()}\n" for row in life).encode()
            yield from differs(label, history(program, made.day(), reference, "--orders", "--names"), (0, wanted, b""))
            status, output, error = history(program, made.day(), reference, "--orders", "--json")
            objects = [list(json.loads(line).items()) for line in output.decode().splitlines()]
            yield from differs(f"{label} --json", (status, objects, error), (0, [row.object() for row in life], b""))
            status, output, error = history(program, made.day(), reference, "--orders", "--csv")
            records = list(csv.DictReader(io.StringIO(output.decode()), strict=True))
            yield from differs(f"{label} --csv", (status, records, error), (0, [row.record() for row in life], b""))


def a_range_cuts_a_history_and_its_other_filters_choose_from_it(program):
    """The order must be added before the end of the range. Its messages before the beginning are left out."""
    for seed in SEEDS:
        made = UniqueWriter(seed)
        chains, count, rng = Chains(made.payloads), len(made.payloads), made.rng
        for reference in some_references(made, chains):
            after, begin = rng.randint(0, count), rng.randint(1, count)
            since, until = (chains.times[rng.randrange(count)] for _ in range(2))
            born, life = chains.born(made.payloads, reference), chains.life(reference)
            early = next((number for number, time in enumerate(chains.times) if time >= until), count)
            begun = next((number for number, time in enumerate(chains.times, 1) if time >= since), count + 1)
            for words, end, chosen in (
                (("--after", str(after)), after, lambda number, kind: True),
                (("--from", str(begin)), count, lambda number, kind: number >= begin),
                (("--since", str(since)), count, lambda number, kind: number >= begun),
                (("--until", str(until)), early, lambda number, kind: True),
                (("--from", str(begin), "--until", str(until)), early, lambda number, kind: number >= begin),
                (("--types", "AFU"), count, lambda number, kind: kind in "AFU"),
                (("--types", "ECXD", "--from", str(begin), "--after", str(after)), after, lambda number, kind: kind in "ECXD" and number >= begin),
            ):
                status, output, error = history(program, made.day(), reference, *words)
                got = status, [int(line.split()[0]) for line in output.splitlines()], error
                numbers = [number for number, kind in life if number <= end and chosen(number, kind)]
                wanted = (0, numbers, b"") if born <= end else (1, [], b"itchsnap: no order %d\n" % reference)
                yield from differs(f"seed {seed}, order {reference}, {words}", got, wanted)


def a_stock_and_a_list_of_locates_choose_from_a_history(program):
    made = UniqueWriter(1)
    chains = Chains(made.payloads)
    for reference in some_references(made, chains):
        status, whole, _ = history(program, made.day(), reference)
        at = whole.split()[2].decode()
        stock = STOCKS[int(at) - 1].rstrip().decode()
        if "," not in stock:
            yield from differs(f"{reference} --stock", history(program, made.day(), reference, "--stock", stock), (0, whole, b""))
        other = str(int(at) % len(STOCKS) + 1)
        yield from differs(f"{reference} --only", history(program, made.day(), reference, "--only", at), (0, whole, b""))
        yield from differs(f"{reference} --only other", history(program, made.day(), reference, "--only", other), (0, b"", b""))
        wanted = 1, whole, b"itchsnap: unknown stock\n  day.itch: no stock NONE\n"
        if "," not in stock:
            yield from differs(f"{reference} --stock NONE", history(program, made.day(), reference, "--stock", f"{stock},NONE"), wanted)


def an_order_that_never_comes_is_a_fault(program):
    made = UniqueWriter(2)
    for words in (), ("--json",), ("--orders",), ("--orders", "--csv"), ("--csv", "--types", "A"), ("--from", "7"):
        yield from differs(words, history(program, made.day(), 2 ** 63, *words), (1, b"", b"itchsnap: no order 9223372036854775808\n"))
    plain = ended(program, "show", "day.itch", "--reference", str(2 ** 63), day=made.day())
    yield from differs("without --history", plain, (0, b"", b""))
    short = history(program, made.day(), 2 ** 63, "--after", str(len(made.payloads) + 1))
    count = len(made.payloads)
    wanted = b"itchsnap: only %d messages\n  day.itch: %d messages are requested\n" % (count, count + 1)
    yield from differs("fewer messages", short, (1, b"", wanted))


def a_long_chain_is_followed_back_from_its_last_number(program):
    count, day = 20_000, UniqueWriter(3, 0)
    day.write("A", 1, order_reference_number=1, buy_sell_indicator=b"B", shares=5, stock=STOCKS[0], price=7)
    day.payloads += [payload("U", stock_locate=1, time=10 ** 13 + at, original_order_reference_number=at, new_order_reference_number=at + 1,
                             shares=5, price=at) for at in range(1, count)]
    _, whole, _ = ended(program, "show", "day.itch", "--types", "AU", day=day.day())
    yield from differs("last", history(program, day.day(), count), (0, whole, b""))
    yield from differs("middle", history(program, day.day(), count // 2), (0, whole, b""))
    yield from differs("next", history(program, day.day(), count + 1), (1, b"", b"itchsnap: no order %d\n" % (count + 1)))


def a_day_that_begins_late_has_the_rest_of_a_history(program):
    """The first messages of an order may precede the beginning of a file, as after `cut --from`."""
    for seed in SEEDS:
        made = UniqueWriter(seed)
        whole = Chains(made.payloads)
        begin = made.rng.randrange(len(STOCKS) + 50, len(made.payloads) - 50)
        made.payloads = made.payloads[begin:]
        for reference in some_references(made, chains := Chains(made.payloads)):
            wanted = [number - begin for number, _ in whole.life(reference) if number > begin]
            yield from differs(f"seed {seed}, order {reference}", [number for number, _ in chains.life(reference)], wanted)
            status, output, error = history(program, made.day(), reference)
            got = status, [int(line.split()[0]) for line in output.splitlines()], error
            yield from differs(f"seed {seed}, order {reference}, program", got, (0, wanted, b""))


def a_broken_message_before_the_order_is_a_fault_before_any_line(program):
    """A broken message after the order is a fault after the lines before it, as without --history."""
    for seed in SEEDS:
        made = UniqueWriter(seed)
        chains = Chains(made.payloads)
        reference = made.rng.choice(sorted(chains.first))
        born = chains.born(made.payloads, reference)
        for place in made.rng.randrange(0, born), made.rng.randrange(born, len(made.payloads) + 1):
            payloads = [*made.payloads[:place], b"E123", *made.payloads[place:]]
            data = b"".join(len(it).to_bytes(2, "big") + it for it in payloads)
            status, output, error = history(program, data, reference)
            wanted = [number for number, _ in chains.life(reference) if number <= place] if place >= born else []
            _, _, told = ended(program, "show", "day.itch", day=data)
            got = status, [int(line.split()[0]) for line in output.splitlines()], error
            yield from differs(f"seed {seed}, message {place + 1}", got, (1, wanted, told))
        cut = made.day()[:-1]
        if born < len(made.payloads):
            status, output, error = history(program, cut, reference)
            _, _, told = ended(program, "show", "day.itch", day=cut)
            yield from differs(f"seed {seed}, cut", (status, error), (1, told))


def a_file_that_cannot_be_read_twice_is_refused_by_name(program):
    """A pipe is refused before it is opened, even by its number under /dev/fd."""
    made = UniqueWriter(4)
    words = "--reference", "2", "--history"
    with tempfile.TemporaryDirectory() as name:
        folder = Path(name)
        refused = 3, b"", b"itchsnap: cannot read twice\n  %s: --history needs a regular file\n"
        os.mkfifo(folder / "silent")
        (folder / "folder").mkdir()
        for path in "silent", "folder", "/dev/null":
            got = ended_in(folder, program, "show", path, *words)
            yield from differs(path, got, (*refused[:2], refused[2] % path.encode()))
        with piped(folder / "pipe", made.day()):
            yield from differs("pipe", ended_in(folder, program, "show", "pipe", *words), (*refused[:2], refused[2] % b"pipe"))
        script = '"$0" show <(cat day.itch) --reference 2 --history'
        (folder / "day.itch").write_bytes(made.day())
        done = subprocess.run(["bash", "-c", script, program], cwd=folder, capture_output=True, stdin=subprocess.DEVNULL, timeout=60)
        yield from differs("substitution", (done.returncode, done.stdout, done.stderr.splitlines()[:1]), (3, b"", [b"itchsnap: cannot read twice"]))
        (folder / "link").symlink_to("day.itch")
        yield from differs("link", ended_in(folder, program, "show", "link", *words), ended_in(folder, program, "show", "day.itch", *words))
        missing = 3, b"", b"itchsnap: cannot open\n  missing: No such file or directory (os error 2)\n"
        yield from differs("missing", ended_in(folder, program, "show", "missing", *words), missing)
        (folder / "day.itch.gz").write_bytes(gzip.compress(made.day()))
        status, output, error = ended_in(folder, program, "show", "day.itch.gz", *words)
        yield from differs("packed", (status, output, error.splitlines()[1:]), (1, b"", [b"  day.itch.gz: this is a gzip file: zcat day.itch.gz > FILE"]))


def a_bad_list_is_refused_before_the_file_is_opened(program):
    with tempfile.TemporaryDirectory() as folder:
        got = ended_in(folder, program, "show", "missing", "--reference", "2", "--history", "--only", "1-")
        why = b"  1-: not a locate from 0 to 65535, nor an ascending range such as 1-40\n"
        yield from differs("list", got, (2, b"", b"itchsnap: bad locate list\n" + why))


RUNS = [
    every_history_of_random_days_is_that_of_another_reader,
    each_number_of_an_order_gives_the_same_history,
    a_history_has_the_orders_behind_its_messages,
    a_range_cuts_a_history_and_its_other_filters_choose_from_it,
    a_stock_and_a_list_of_locates_choose_from_a_history,
    an_order_that_never_comes_is_a_fault,
    a_long_chain_is_followed_back_from_its_last_number,
    a_day_that_begins_late_has_the_rest_of_a_history,
    a_broken_message_before_the_order_is_a_fault_before_any_line,
    a_file_that_cannot_be_read_twice_is_refused_by_name,
    a_bad_list_is_refused_before_the_file_is_opened,
]
