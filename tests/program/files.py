"""Refused files, and the laws of snapshots over worked files.

RUNS lists the runs: functions that take the program and yield the differences found.
"""
import tempfile

import failing
from common import differs, ended, ended_in, file, split

# Files that are refused at their last block, and the fault.
REFUSED = {
    "AAPL END_2": "message 2: unexpected end",
    "AAPL MSFT_AT_1": "message 2: stock mismatch",
    "TRADING_AT_3": "message 1: unknown locate",
    "00": "message 1: truncated, 1 bytes held",
    "SHORT_AAPL": "message 1: wrong length for R: want 39, got 38",
    "AAPL HALT_AT_2": "message 2: unknown locate",
    "AAPL SHORT_HALT": "message 2: wrong length for h: want 21, got 20",
    "START UNPRINTABLE": "message 2: bad text at 13",
    "AAPL BUY_1 BUY_1": "message 3: duplicate reference",
    "AAPL BUY_1 EXECUTE_100 DELETE_1": "message 4: unknown reference",
    "AAPL BUY_1 EXECUTE_101": "message 3: too many shares, 100 remain",
    "AAPL BUY_1 CANCEL_40 PRICED_61": "message 4: too many shares, 60 remain",
    "START 000c53": "message 2: truncated, 3 bytes held",
    "000147": "message 1: wrong length for G: want 21, got 1",
    "AAPL 0015470000000000000000000000000000000000000000": "message 2: bad number",
    "AAPL BUY_1 BUY_2 0002": "message 4: truncated, 2 bytes held",
    "AAPL MSFT BUY_1 EXECUTE_AT_2": "message 4: locate mismatch",
    "AAPL MSFT BUY_1 REPLACE_1_BY_1": "message 4: duplicate reference",
    "AAPL MSFT BUY_1 REPLACE_BY_NONE": "message 4: zero shares",
    "AAPL MSFT BUY_1 REPLACE_AT_2": "message 4: locate mismatch",
    "AAPL MSFT BUY_1 BUY_1_OF_0": "message 4: zero shares",
    "AAPL MSFT BUY_1 BUY_9_AT_3": "message 4: unknown locate",
    "AAPL MSFT BUY_1 DELETE_9": "message 4: unknown reference",
    "AAPL MSFT BUY_1 END_4": "message 4: unexpected end",
}
# Pairs of files, and whether both end in the same market.
PAIRS = [
    # Two prices, reached in different orders.
    ("AAPL BUY_1 BUY_2_HIGH BUY_3_OF_300 BUY_4_HIGH", "AAPL BUY_2_HIGH BUY_4_HIGH BUY_1 BUY_3_OF_300", True),
    # Executions instead of a smaller order; other timestamps and reserved bytes.
    ("AAPL TRADING_RESERVED_0 BUY_7_OF_300 EXECUTE_7 CANCEL_7", "AAPL_LATE TRADING_RESERVED_58 BUY_7_OF_150", True),
    # The order of the directory.
    ("AAPL MSFT START", "START MSFT AAPL", True),
    # Time priority at one price.
    ("AAPL BUY_1 BUY_2", "AAPL BUY_2 BUY_1", False),
    ("AAPL TRADING", "AAPL", False),
    ("AAPL UNRESTRICTED", "AAPL", False),
    ("AAPL", "AAPL_LOT_200", False),
    ("AAPL START", "AAPL", False),
]
DAY = "MSFT START AAPL TRADING_RESERVED_58 ATTRIBUTED_1 BUY_2_OF_200 REPLACE_1_BY_3".split()
END = 23


def each_refused_file_has_its_line(program):
    with tempfile.TemporaryDirectory() as folder:
        shim = failing.build_shim(folder)
        for blocks, reason in REFUSED.items():
            hint = "  day.itch: this looks like a snapshot, not a day file\n" if reason.endswith("unexpected end") else ""
            wanted = 1, b"", f"itchsnap: {reason}\n{hint}".encode()
            yield from differs(f"check of {blocks}", ended(program, "check", "day.itch", day=file(blocks)), wanted)
            with open(f"{folder}/day.itch", "wb") as day:
                day.write(file(blocks))
            in_pieces = ended_in(folder, program, "snap", "day.itch", LD_PRELOAD=str(shim), PIECE="5")
            yield from differs(f"snap of {blocks}", in_pieces, wanted)


def canonical(program, data):
    """Returns the canonical bytes of the market in which a file ends: its snapshot without its end."""
    status, output, error = ended(program, "snap", "day.itch", day=data)
    if (status, error) != (0, b""):
        raise OSError(f"snap ended with {status}, {error!r}")
    return output[:-END]


def equal_bytes_are_equal_markets(program):
    for one, other, same in PAIRS:
        if (canonical(program, file(one)) == canonical(program, file(other))) != same:
            yield f"{one} and {other} end in {'different' if same else 'the same'} bytes"


def a_snapshot_stands_for_what_came_before(program):
    whole = canonical(program, file(" ".join(DAY)))
    for count in range(len(DAY) + 1):
        before, rest = (file(" ".join(it)) for it in (DAY[:count], DAY[count:]))
        snapshot = canonical(program, before)
        yield from differs(f"the snapshot after {count}, replayed", canonical(program, snapshot), snapshot)
        yield from differs(f"the snapshot after {count}, and the rest", canonical(program, snapshot + rest), whole)
        if len(split(snapshot)) > count:
            yield f"{len(split(snapshot))} messages of {count}"


RUNS = [
    each_refused_file_has_its_line,
    equal_bytes_are_equal_markets,
    a_snapshot_stands_for_what_came_before,
]
