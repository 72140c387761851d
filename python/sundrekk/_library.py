"""The functions of libitchsnap.so, declared as in itchsnap.h and named without `itchsnap_`."""
from __future__ import annotations

import ctypes as c
from pathlib import Path
from types import SimpleNamespace

INTERFACE = 1
OK, TRUNCATED, NO_ROOM, WRONG_HANDLE, ABSENT = 0, 32, 49, 50, 52
# The values that mean all messages and any time to `snap`.
ALL = 2**64 - 1


class Handle(c.Structure):
    _fields_ = [("at", c.c_void_p), ("live", c.c_bool)]


class Answer(c.Structure):
    _fields_ = [("detail", c.c_uint64), ("code", c.c_uint32)]


class Row(c.Structure):
    _fields_ = [("number", c.c_uint64), ("offset", c.c_uint64), ("timestamp", c.c_uint64), ("payload", c.c_uint8 * 48)]


class Decoded(c.Structure):
    _fields_ = [("count", c.c_uint64), ("rows", c.c_size_t), ("len", c.c_size_t), ("detail", c.c_uint64), ("code", c.c_uint32)]


class Loaded(c.Structure):
    _fields_ = [("next", c.c_uint64), ("place", c.c_uint64), ("detail", c.c_uint64), ("code", c.c_uint32)]


class Order(c.Structure):
    _fields_ = [("reference", c.c_uint64), ("price", c.c_uint32), ("shares", c.c_uint32), ("locate", c.c_uint16), ("buy", c.c_bool),
                ("attributed", c.c_bool), ("mpid", c.c_uint8 * 4), ("code", c.c_uint32)]


class Total(c.Structure):
    _fields_ = [("shares_low", c.c_uint64), ("shares_high", c.c_uint64), ("orders", c.c_uint64), ("code", c.c_uint32)]


class Price(c.Structure):
    _fields_ = [("price", c.c_uint32), ("code", c.c_uint32)]


class Count(c.Structure):
    _fields_ = [("count", c.c_uint64), ("code", c.c_uint32)]


class Written(c.Structure):
    _fields_ = [("len", c.c_size_t), ("code", c.c_uint32)]


class PriceLevel(c.Structure):
    _fields_ = [("shares_low", c.c_uint64), ("shares_high", c.c_uint64), ("orders", c.c_uint64), ("price", c.c_uint32)]


class Stock(c.Structure):
    _fields_ = [("stock", c.c_uint8 * 8), ("code", c.c_uint32)]


class Applied(c.Structure):
    _fields_ = [("count", c.c_uint64), ("detail", c.c_uint64), ("code", c.c_uint32)]


class Outcome(c.Structure):
    _fields_ = [("count", c.c_uint64), ("len", c.c_size_t), ("detail", c.c_uint64), ("code", c.c_uint32)]


class Comparison(c.Structure):
    _fields_ = [("place", c.c_uint64), ("count", c.c_uint64), ("detail", c.c_uint64), ("code", c.c_uint32), ("file", c.c_uint32)]


class Joined(c.Structure):
    _fields_ = [("number", c.c_uint64), ("detail", c.c_uint64), ("code", c.c_uint32), ("cause", c.c_uint32)]


class Login(c.Structure):
    _fields_ = [("username", c.c_uint8 * 6), ("password", c.c_uint8 * 10), ("session", c.c_uint8 * 10)]


class Act(c.Structure):
    _fields_ = [("number", c.c_uint64), ("detail", c.c_uint64), ("code", c.c_uint32)]


class LoginPacket(c.Structure):
    _fields_ = [("bytes", c.c_uint8 * 47), ("code", c.c_uint32)]


class AcceptancePacket(c.Structure):
    _fields_ = [("bytes", c.c_uint8 * 31), ("code", c.c_uint32)]


# Pointers are passed as addresses, so that a list can be written into the middle of an array.
HANDLE, MEMORY, LOCATES = c.POINTER(Handle), [c.c_void_p, c.c_size_t], [c.POINTER(c.c_uint16), c.c_size_t]

# The result and the arguments of each function.
FUNCTIONS = {
    "version": (c.c_uint32, []),
    "decode_fault": (Answer, MEMORY),
    "decode_blocks": (Decoded, [*MEMORY, c.c_uint64, c.c_char_p, c.c_size_t, *LOCATES, *MEMORY]),
    "free": (None, [HANDLE]),
    "market_new": (Answer, [HANDLE]),
    "market_load": (Loaded, [HANDLE, *MEMORY]),
    "market_apply": (Answer, [HANDLE, *MEMORY]),
    "market_apply_blocks": (Applied, [HANDLE, *MEMORY]),
    "best": (Order, [HANDLE, c.c_uint16, c.c_bool]),
    "order_by": (Order, [HANDLE, c.c_uint64]),
    "level": (Total, [HANDLE, c.c_uint16, c.c_bool, c.c_uint32]),
    "next_price": (Price, [HANDLE, c.c_uint16, c.c_bool, c.c_bool, c.c_uint32]),
    "order_count": (Count, [HANDLE]),
    "locates": (Written, [HANDLE, *LOCATES]),
    "orders": (Written, [HANDLE, c.c_uint16, *MEMORY]),
    "levels": (Written, [HANDLE, c.c_uint16, c.c_bool, *MEMORY]),
    "stock": (Stock, [HANDLE, c.c_uint16]),
    "snapshot": (Written, [HANDLE, c.c_uint64, *MEMORY]),
    "snapshot_only": (Written, [HANDLE, c.c_uint64, *LOCATES, *MEMORY]),
    "check": (Outcome, MEMORY),
    "first_at": (Count, [*MEMORY, c.c_uint64]),
    "snap": (Outcome, [*MEMORY, c.c_uint64, c.c_uint64, *MEMORY]),
    "snap_only": (Outcome, [*MEMORY, c.c_uint64, c.c_uint64, *LOCATES, *MEMORY]),
    "compare": (Comparison, [*MEMORY, *MEMORY]),
    "joiner_new": (Answer, [HANDLE, c.c_size_t]),
    "joiner_new_only": (Answer, [HANDLE, c.c_size_t, *LOCATES]),
    "joiner_live": (Joined, [HANDLE, c.c_uint64, *MEMORY]),
    "joiner_snapshot": (Joined, [HANDLE, *MEMORY]),
    "joiner_restart": (Answer, [HANDLE]),
    "joiner_resume": (Joined, [HANDLE]),
    "joiner_next": (Count, [HANDLE]),
    "joiner_waiting": (Count, [HANDLE]),
    "client_new": (Answer, [HANDLE, c.POINTER(Login), c.c_uint64, c.c_uint64]),
    "client_login": (LoginPacket, [HANDLE]),
    "client_packet": (Act, [HANDLE, *MEMORY, c.c_uint64]),
    "server_new": (Answer, [HANDLE, c.POINTER(Login), c.c_uint64, c.c_uint64]),
    "server_accepted": (AcceptancePacket, [HANDLE, c.c_uint64]),
    "server_packet": (Act, [HANDLE, *MEMORY, c.c_uint64]),
    "session_tick": (Answer, [HANDLE, c.c_uint64]),
    "session_sent": (Answer, [HANDLE, c.c_uint64]),
}


def _loaded(path: Path) -> SimpleNamespace:
    """Each function of `FUNCTIONS`. A call releases the interpreter's lock until it returns."""
    shared, found = c.CDLL(str(path)), SimpleNamespace()
    for name, (result, arguments) in FUNCTIONS.items():
        function = getattr(shared, f"itchsnap_{name}")
        function.restype, function.argtypes = result, arguments
        setattr(found, name, function)
    return found


library = _loaded(Path(__file__).with_name("libitchsnap.so"))
if library.version() != INTERFACE:
    raise ImportError(f"libitchsnap.so has interface {library.version()}, and sundrekk is for {INTERFACE}")
