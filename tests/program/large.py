"""Large day files, and their correct snapshots, made without the program."""
import random
import struct

ENTRY = bytes.fromhex("514e000000644e435a20504e4e314e000000004e")


def block(kind, locate, fields):
    message = kind + struct.pack(">HH", locate, 0) + bytes(6) + fields
    return struct.pack(">H", len(message)) + message


def entry(locate):
    return block(b"R", locate, stock(locate) + ENTRY)


def stock(locate):
    return b"S%07d" % locate


def closing(number):
    return struct.pack(">H", 21) + b"G" + b"%20d" % number


def locates(count, seed=1):
    """Returns directory entries at `count` locates, in any order, and their snapshot."""
    order = list(range(count))
    random.Random(seed).shuffle(order)
    return b"".join(map(entry, order)), b"".join(map(entry, range(count))) + closing(count + 1)


def orders(count, symbols=8000, seed=1):
    """Returns `count` orders, all of which stay live, and their snapshot: by locate, bids from the highest price and then asks from the
    lowest, each price in order of arrival."""
    rng = random.Random(seed)
    entries = [entry(locate) for locate in range(1, symbols + 1)]
    day = list(entries)
    queues = {}
    for reference in range(1, count + 1):
        locate, side = rng.randint(1, symbols), rng.choice("BS")
        shares, price = rng.randint(1, 20) * 100, 1000000 + 100 * rng.randint(-50, 50)
        fields = struct.pack(">Q1sI8sI", reference, side.encode(), shares, stock(locate), price)
        added = block(b"A", locate, fields)
        day.append(added)
        queues.setdefault((locate, side), []).append((-price if side == "B" else price, reference, added))
    snapshot = []
    for locate in range(1, symbols + 1):
        snapshot.append(entries[locate - 1])
        for side in "BS":
            snapshot += [added for _, _, added in sorted(queues.get((locate, side), []))]
    return b"".join(day), b"".join(snapshot) + closing(symbols + count + 1)


def added(reference, price, side=b"B"):
    """Returns an order of 100 shares at locate 1."""
    return block(b"A", 1, struct.pack(">Q1sI8sI", reference, side, 100, stock(1), price))


def deleted(reference):
    return block(b"D", 1, struct.pack(">Q", reference))


def ladder(count):
    """Returns one side with `count` prices, which are added in ascending order. Then all except the last thousand are deleted, the
    worst in the middle first."""
    day = [added(price, price) for price in range(1, count + 1)]
    gone = count - 1000
    middle = gone // 2
    day += [deleted(reference) for reference in [*range(middle, 0, -1), *range(middle + 1, gone + 1)]]
    left = [added(price, price) for price in range(count, gone, -1)]
    return entry(1) + b"".join(day), entry(1) + b"".join(left) + closing(2 + count + gone)


def queue(count):
    """Returns `count` orders at one price, and their snapshot, in which they are in the same order."""
    head, tail = added(0, 500)[:13], added(0, 500)[21:]
    day = entry(1) + b"".join([head + reference.to_bytes(8, "big") + tail for reference in range(1, count + 1)])
    return day, day + closing(2 + count)


def far_references(count):
    """Returns `count` orders whose references are as far apart as 64-bit numbers allow, and their snapshot."""
    step = (2**64 - 1) // count
    day = [added(step * place, 500) for place in range(1, count + 1)]
    return entry(1) + b"".join(day), entry(1) + b"".join(day) + closing(2 + count)


def used_again(count):
    """Returns one reference that is used `count` times: its order is deleted each time except the last."""
    again = [added(7, price) + deleted(7) for price in range(1, count)]
    last = added(7, count)
    return entry(1) + b"".join(again) + last, entry(1) + last + closing(2 + 2 * count - 1)
