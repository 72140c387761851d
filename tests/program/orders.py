"""`show --orders` on random days, against an independent reader.

RUNS lists the runs: functions that take the program and yield the differences found.
"""
import csv
import io
import json
import random
from dataclasses import dataclass

from common import differs, ended
from messages import clock, fields_of, members, price, word

STOCKS = [b"AAPL    ", b'A"\\,D   ', b"x y z   ", b",\"\"     ", b"A'\\~!   "]
ATTRIBUTIONS = [b"ABCD", b"A,  ", b'"\\" ', b"    ", b"q   "]
ENTRY = bytes.fromhex("514e000000644e435a20504e4e314e000000004e")
COLUMNS = ["number", "type", "stock_locate", "tracking_number", "time", "ns", "order_reference_number", "buy_sell_indicator", "stock",
           "order_price", "shares_before", "shares_after", "attribution", "executed_shares", "match_number", "printable", "execution_price",
           "cancelled_shares", "new_order_reference_number", "shares", "price"]
SEEDS = range(12)
MINUTE = 60 * 10 ** 9


@dataclass
class Order:
    locate: int
    side: str
    shares: int
    stock: str
    price: int
    attribution: str | None


def payload(kind, **values):
    """Returns the payload of a message of this type, with 0 for each field that is not given."""
    made = kind.encode()
    for name, sort, width in fields_of(kind):
        value = values.get(name, 0)
        made += value if isinstance(value, bytes) else value.to_bytes(width, "big")
    return made


class Writer:
    """A random day that follows the order rules."""

    def __init__(self, seed, count=400):
        self.rng, self.payloads, self.live, self.next, self.time = random.Random(seed), [], {}, 1, 9 * 60 * MINUTE
        for locate, stock in enumerate(STOCKS, 1):
            self.payloads.append(b"R" + locate.to_bytes(2, "big") + bytes(8) + stock + ENTRY)
        for _ in range(count):
            self.step()

    def write(self, kind, locate, **values):
        self.time += self.rng.randrange(MINUTE)
        self.payloads.append(payload(kind, stock_locate=locate, tracking_number=self.rng.randrange(65536), time=self.time, **values))

    def fresh(self):
        """Returns a reference, which may be that of an order that has ended."""
        self.next += self.rng.choice([1, 1, 1, 7, 2 ** 40])
        return self.next if self.rng.random() < 0.9 else self.rng.choice([it for it in range(1, 50) if it not in self.live])

    def step(self):
        rng, kind = self.rng, self.rng.choice("AAAFFEECXDUUPS")
        if kind in "AF" or kind not in "PS" and not self.live:
            locate, reference, shares = rng.randint(1, len(STOCKS)), self.fresh(), rng.choice([1, 100, rng.randint(1, 10 ** 6), 2 ** 32 - 1])
            self.live[reference] = locate, shares
            self.write("F" if kind == "F" else "A", locate, order_reference_number=reference, buy_sell_indicator=rng.choice([b"B", b"S"]),
                       shares=shares, stock=STOCKS[locate - 1], price=rng.choice([0, 1, rng.randrange(2 ** 32)]), attribution=rng.choice(ATTRIBUTIONS))
        elif kind == "S":
            self.write("S", 0, event_code=rng.randbytes(1))
        elif kind == "P":
            self.write("P", 1, order_reference_number=rng.randrange(9), buy_sell_indicator=b"B", shares=5, stock=STOCKS[0], price=7)
        else:
            self.change(kind, *rng.choice(list(self.live.items())))

    def change(self, kind, reference, order):
        rng, (locate, left) = self.rng, order
        taken = left if kind in "DU" or rng.random() < 0.3 else rng.randint(0, left)
        self.live.pop(reference)
        if left > taken:
            self.live[reference] = locate, left - taken
        if kind == "U":
            new, shares = self.fresh(), rng.randint(1, 10 ** 4)
            self.live[new] = locate, shares
            self.write("U", locate, original_order_reference_number=reference, new_order_reference_number=new, shares=shares, price=rng.randrange(2 ** 32))
        else:
            self.write(kind, locate, order_reference_number=reference, executed_shares=taken, cancelled_shares=taken,
                       match_number=rng.randrange(2 ** 64), printable=rng.randbytes(1), execution_price=rng.randrange(2 ** 32))

    def day(self):
        return b"".join(len(it).to_bytes(2, "big") + it for it in self.payloads)


class Reader:
    """The orders behind the messages of a day: a row for each execution, cancel, delete and replace."""

    def __init__(self, payloads):
        self.live, self.stocks = {}, {}
        self.rows = [row for number, it in enumerate(payloads, 1) if (row := self.row(number, it))]

    def row(self, number, data):
        kind, fields, at = chr(data[0]), [], 1
        for name, sort, width in fields_of(kind):
            fields.append((name, sort, data[at:at + width]))
            at += width
        values = {name: int.from_bytes(it, "big") if sort in "ntp" else it.decode("latin-1").rstrip(" ") if sort == "x" else it
                  for name, sort, it in fields}
        if kind == "R":
            self.stocks[values["stock_locate"]] = values["stock"]
        if kind in "AF":
            self.live[values["order_reference_number"]] = Order(values["stock_locate"], values["buy_sell_indicator"].decode(), values["shares"],
                                                                self.stocks[values["stock_locate"]], values["price"], values.get("attribution"))
        if kind not in "ECXDU":
            return None
        reference = values["original_order_reference_number" if kind == "U" else "order_reference_number"]
        before = self.live.pop(reference)
        after = before.shares - values.get("executed_shares", values.get("cancelled_shares", before.shares))
        if after:
            self.live[reference] = Order(before.locate, before.side, after, before.stock, before.price, before.attribution)
        if kind == "U":
            self.live[values["new_order_reference_number"]] = Order(before.locate, before.side, values["shares"], before.stock, values["price"],
                                                                    before.attribution)
        return Row(number, kind, fields, values, reference, before, after)


@dataclass
class Row:
    number: int
    kind: str
    fields: list
    values: dict
    reference: int
    before: Order
    after: int

    def line(self):
        """Returns the line with names."""
        order, words = self.before, [str(self.number), self.kind, *(word(sort, it) for _, sort, it in self.fields)]
        told = [order.side, f"[{order.stock}]", price(order.price), str(order.shares), str(self.after)]
        return " ".join([*words, "|", *told, *([] if order.attribution is None else [f"[{order.attribution}]"])])

    def object(self):
        """Returns the members of the object, in order."""
        order = self.before
        return [("number", self.number), ("type", self.kind), *(it for field in self.fields for it in members(*field)),
                ("buy_sell_indicator", order.side), ("stock", order.stock), ("order_price", price(order.price)),
                ("shares_before", order.shares), ("shares_after", self.after), ("attribution", order.attribution)]

    def record(self):
        """Returns the values of the columns, as texts."""
        order, values = self.before, self.values
        known = {"number": self.number, "type": self.kind, "stock_locate": values["stock_locate"], "tracking_number": values["tracking_number"],
                 "time": clock(values["time"]), "ns": values["time"], "order_reference_number": self.reference, "buy_sell_indicator": order.side,
                 "stock": order.stock, "order_price": price(order.price), "shares_before": order.shares, "shares_after": self.after,
                 "attribution": order.attribution or ""}
        for name in ("executed_shares", "match_number", "cancelled_shares", "new_order_reference_number", "shares"):
            known[name] = values.get(name, "")
        for name in ("execution_price", "price"):
            known[name] = price(values[name]) if name in values else ""
        code = values.get("printable")
        known["printable"] = "" if code is None else code.decode() if 32 <= code[0] < 127 else f"\\x{code[0]:02x}"
        return {name: str(known[name]) for name in COLUMNS}


def agreement(label, program, data, rows, status, error, *words):
    """Yields the differences between the program's three outputs and these rows."""
    for form, read, wanted in (
        ("--names", lambda text: text.splitlines(), [row.line() for row in rows]),
        ("--json", lambda text: [list(json.loads(line).items()) for line in text.splitlines()], [row.object() for row in rows]),
        ("--csv", lambda text: list(csv.DictReader(io.StringIO(text), strict=True)), [row.record() for row in rows]),
    ):
        found, output, told = ended(program, "show", "--orders", "day.itch", form, *words, day=data)
        yield from differs(f"{label} {form}: status and error", (found, told), (status, error))
        got = read(output.decode())
        yield from differs(f"{label} {form}: rows", len(got), len(wanted))
        for one, other in zip(got, wanted):
            yield from differs(f"{label} {form}", one, other)


def every_order_of_random_days_is_that_of_another_reader(program):
    for seed in SEEDS:
        made = Writer(seed)
        yield from agreement(f"seed {seed}", program, made.day(), Reader(made.payloads).rows, 0, b"")


def the_filters_choose_messages_as_without_orders(program):
    """The messages are those that `show` selects with the same filters, restricted to types that refer to an order."""
    for seed in SEEDS:
        made = Writer(seed)
        rows = Reader(made.payloads).rows
        followed = str(made.rng.choice(rows).reference)
        for words in (("--stock", "AAPL"), ("--only", "2,4-5"), ("--types", "EC"), ("--types", "AUS", "--only", "1-3"), ("--reference", followed),
                      ("--until", "11:30"), ("--after", "150"), ("--after", "300", "--until", "12:00", "--stock", "AAPL", "--types", "XDU")):
            _, output, _ = ended(program, "show", "day.itch", *words, day=made.day())
            numbers = {int(line.split()[0]) for line in output.splitlines()}
            yield from agreement(f"seed {seed} {words}", program, made.day(), [row for row in rows if row.number in numbers], 0, b"", *words)


def a_day_is_refused_where_check_refuses_it_after_the_lines_before(program):
    for seed in SEEDS:
        made = Writer(seed)
        place = made.rng.randrange(len(STOCKS), len(made.payloads))
        breaks = made.rng.choice([payload("D", stock_locate=1, order_reference_number=2 ** 60), payload("X", stock_locate=1, order_reference_number=0),
                                  b"E123", payload("R", stock_locate=1, stock=b"OTHER   "), payload("G", sequence_number=b"%20d" % 7)])
        made.payloads[place:place] = [breaks]
        rows = Reader(made.payloads[:place]).rows
        status, _, error = ended(program, "check", "day.itch", day=made.day())
        yield from differs(f"seed {seed}: check", (status, b"message %d:" % (place + 1) in error), (1, True))
        yield from agreement(f"seed {seed}", program, made.day(), rows, 1, error)


def a_stock_that_never_comes_is_a_fault_after_all_lines(program):
    made = Writer(1)
    yield from agreement("AAPL,NONE", program, made.day(), [row for row in Reader(made.payloads).rows if row.before.stock == "AAPL"], 1,
                         b"itchsnap: unknown stock\n  day.itch: no stock NONE\n", "--stock", "AAPL,NONE")


RUNS = [
    every_order_of_random_days_is_that_of_another_reader,
    the_filters_choose_messages_as_without_orders,
    a_day_is_refused_where_check_refuses_it_after_the_lines_before,
    a_stock_that_never_comes_is_a_fault_after_all_lines,
]
