"""Messages of every type, with fields of every kind, and the output that `show` must print for them. The table is that of TotalView-ITCH 5.0.

A field consists of its name, and the letter of its class with its width in bytes: n for a number, t for a timestamp, p for a price, x for a text, s
for a side, c for a code, d for a number in digits.
"""
HEADER = "stock_locate:n2 tracking_number:n2 time:t6"
ORDER = f"{HEADER} order_reference_number:n8 buy_sell_indicator:s1 shares:n4 stock:x8 price:p4"
EXECUTION = f"{HEADER} order_reference_number:n8 executed_shares:n4 match_number:n8"
FIELDS = {
    "S": f"{HEADER} event_code:c1",
    "R": f"{HEADER} stock:x8 market_category:c1 financial_status_indicator:c1 round_lot_size:n4 round_lots_only:c1 issue_classification:c1"
         " issue_sub_type:c2 authenticity:c1 short_sale_threshold_indicator:c1 ipo_flag:c1 luld_reference_price_tier:c1 etp_flag:c1"
         " etp_leverage_factor:n4 inverse_indicator:c1",
    "H": f"{HEADER} stock:x8 trading_state:c1 reserved:c1 reason:c4",
    "Y": f"{HEADER} stock:x8 reg_sho_action:c1",
    "h": f"{HEADER} stock:x8 market_code:c1 operational_halt_action:c1",
    "L": f"{HEADER} mpid:x4 stock:x8 primary_market_maker:c1 market_maker_mode:c1 market_participant_state:c1",
    "A": ORDER,
    "F": f"{ORDER} attribution:x4",
    "E": EXECUTION,
    "C": f"{EXECUTION} printable:c1 execution_price:p4",
    "X": f"{HEADER} order_reference_number:n8 cancelled_shares:n4",
    "D": f"{HEADER} order_reference_number:n8",
    "U": f"{HEADER} original_order_reference_number:n8 new_order_reference_number:n8 shares:n4 price:p4",
    "P": f"{ORDER} match_number:n8",
    "Q": f"{HEADER} shares:n8 stock:x8 cross_price:p4 match_number:n8 cross_type:c1",
    "B": f"{HEADER} match_number:n8",
    "G": "sequence_number:d20",
}


def fields_of(kind):
    return [(name, sort[0], int(sort[1:])) for name, sort in (it.split(":") for it in FIELDS[kind].split())]


def spelled(sort, width, turn, texts):
    """Returns the bytes of a field in a turn from 0 to 255. Over the turns a code takes every byte value, and a number goes from 0 to its maximum."""
    if sort == "x":
        return texts[turn % len(texts)][:width]
    if sort == "s":
        return b"BS"[turn % 2:turn % 2 + 1]
    if sort == "d":
        return str(10 ** (turn % 20)).encode().rjust(width)
    if sort == "c":
        return bytes((turn + at) % 256 for at in range(width))
    return bytes((turn * 37 + at * 11) % 256 if 0 < turn < 255 else turn for at in range(width))


def messages(texts):
    """Yields each message: its type, its payload, and the bytes of its fields with their names and classes."""
    for kind in FIELDS:
        for turn in range(256):
            found = [(name, sort, spelled(sort, width, turn, texts)) for name, sort, width in fields_of(kind)]
            yield kind, kind.encode() + b"".join(data for _, _, data in found), found
    for first in range(256):
        if (kind := chr(first)) not in FIELDS:
            yield kind, bytes([first]) * (first + 1), None


def file_of(texts):
    return b"".join(len(payload).to_bytes(2, "big") + payload for _, payload, _ in messages(texts))


def price(value):
    return f"{value // 10000}.{value % 10000:04}"


def clock(value):
    seconds, rest = divmod(value, 10 ** 9)
    return f"{seconds // 3600:02}:{seconds // 60 % 60:02}:{seconds % 60:02}.{rest:09}"


def members(name, sort, data):
    """Returns the members of a JSON object for a field."""
    number = int.from_bytes(data, "big")
    if sort == "t":
        return [(name, clock(number)), ("ns", number)]
    return [(name, {"n": number, "p": price(number), "d": sort == "d" and int(data)}.get(sort, data.decode("latin-1").rstrip(" " if sort == "x" else "")))]


def jsons_of(texts):
    """Yields the members of each object, in order."""
    return [[("number", number), ("type", kind), *([("length", len(payload))] if fields is None else
                                                   [it for field in fields for it in members(*field)])]
            for number, (kind, payload, fields) in enumerate(messages(texts), 1)]


def characters(data):
    """Returns bytes in single quotes."""
    return "'" + "".join("\\" + chr(it) if it in b"'\\" else chr(it) if 32 <= it < 127 else f"\\x{it:02x}" for it in data) + "'"


def word(sort, data):
    """Returns the text of a field in a line."""
    number = int.from_bytes(data, "big")
    return {"n": str(number), "t": sort == "t" and clock(number), "p": price(number), "s": chr(data[0]), "d": sort == "d" and str(int(data)),
            "x": f"[{data.decode('latin-1').rstrip(' ')}]", "c": characters(data)}[sort]


def lines_of(texts):
    """Yields the lines with names."""
    return [" ".join([str(number), *(["other", characters(payload[:1]), str(len(payload))] if fields is None else
                                     [kind, *(word(sort, data) for _, sort, data in fields)])])
            for number, (kind, payload, fields) in enumerate(messages(texts), 1)]
