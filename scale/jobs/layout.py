"""Splits the locates into parts, and merges the snapshots of the parts into the complete one: see docs/FORMATS.md, "Snapshots"."""
from .program import Failure, Refusal

LAST_LOCATE = 65535
EVENT_START = b"\0\x0cS"
EVENT_LENGTH = 2 + 12
END_START = b"\0\x15G"
END_LENGTH = 2 + 21


def end_block(number):
    return END_START + str(number).encode().rjust(20)


EMPTY = end_block(1)


def parts_of(count, locates):
    """Returns all locates in this many ranges. Those up to `locates` are split evenly; the last range also contains all above."""
    ends = [locates * part // count for part in range(1, count)] + [LAST_LOCATE]
    begins = [0] + [end + 1 for end in ends[:-1]]
    return tuple(f"{begin}-{end}" for begin, end in zip(begins, ends))


def are_whole(parts):
    """Returns whether these ranges contain every locate once, in ascending order."""
    bounds = [tuple(map(int, part.split("-"))) for part in parts]
    begins = [0] + [last + 1 for _, last in bounds]
    return begins == [first for first, _ in bounds] + [LAST_LOCATE + 1] and all(first <= last for first, last in bounds)


def ranges_of(locates):
    """Returns ascending locates as a list of ranges, such as `1-40,77`."""
    if not locates:
        raise Refusal("no stocks")
    ranges = []
    for locate in locates:
        if ranges and locate == ranges[-1][1] + 1:
            ranges[-1][1] = locate
        else:
            ranges.append([locate, locate])
    return ",".join(str(first) if first == last else f"{first}-{last}" for first, last in ranges)


def event_of(snapshot):
    """Returns the block of the system event that a snapshot begins with, or no bytes."""
    block = snapshot.read(EVENT_LENGTH)
    return block if block.startswith(EVENT_START) else b""


def copy_body(part, event, number, whole):
    """Copies a part without its event and its end, which must be the same as in the complete snapshot."""
    with open(part, "rb") as snapshot:
        if event_of(snapshot) != event:
            raise Failure(f"{part.name} has another system event")
        size = snapshot.seek(-END_LENGTH, 2)
        if snapshot.read() != end_block(number):
            raise Failure(f"{part.name} does not end after the {number - 1} messages of its check")
        snapshot.seek(len(event))
        whole.write(snapshot.read(size - len(event)))


def lay_together(parts, number, made):
    """Writes the complete snapshot from parts in ascending order: the event, the messages of each part, and one End of
    Snapshot."""
    with open(parts[0], "rb") as snapshot:
        event = event_of(snapshot)
    with open(made, "wb") as whole:
        whole.write(event)
        for part in parts:
            copy_body(part, event, number, whole)
        whole.write(end_block(number))
