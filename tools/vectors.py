"""Packets for the reader of tap packets (DoM 1.3, 1.3.a, 1.3.b), and what must be printed for them.

    python3 tools/vectors.py stdin   all packets, each behind a 2-byte little-endian length
    python3 tools/vectors.py stdout [EDITION]
                                     the text that a right reader of that edition prints for them
    python3 tools/vectors.py check FILE [EDITION]
                                     compare FILE with that text, show the first difference
    python3 tools/vectors.py messages FILE
                                     compare the tables of docs/MESSAGES.md with the script's
    python3 tools/vectors.py counts [EDITION]
                                     how many packets are good or refused (to standard error)

The edition is 1.3, 1.3.a or 1.3.b, and 1.3.b where none is named; 1.3.a and 1.3.b are one edition
here. The packets are the same for all.

The script rests on document 01, on Nos. 2, 5, 6 and 10 of document 02 and on section 4 of documents
003 (1.3.b) and 000 (1.3) alone. It shares nothing with the library, so that a slip in one shows
against the other. Every run gives the same bytes.

The text, packet by packet:

    refused 1        the packet has no bytes or too many, and nothing else is printed; or
    refused R at O: record K, WORDS
                     R is 2, 3, 4 or 5 of document 01's refusal table, O the offset in the packet
                     of the first byte at fault, K the record from 1; nothing else is printed
    records K        else: the packet's number of records, then a line for each record:
    N T F F F ..     sequence number, type byte, and the fields in the order of their offsets

The words are, of 2, `unfinished header` where fewer than 10 bytes are left, else `body past the
end`; of 5 `sequence number`; of 3 `empty body`, `unknown type`, or the message and `wrong length`;
of 4 the message and the field. Messages and judged fields have the names of docs/MESSAGES.md.

All is decimal, with one space between, and each line ends with one line feed. A field of more
than one letter is printed byte by byte; the Attributable ID of an Add is one number. Reserved
bytes are not printed, nor are the nanoseconds and the test byte of a Symbol Update. Its byte 20 is
printed in 1.3, where it is the security type, and not from 1.3.a on, where it is reserved.

The script has four parts. The tables are copied from the documents: those of 003, section 4, and
document 01's table of five messages. The reader cuts fields out by offsets. The composer puts
bodies together field behind field. The list of packets states by hand what most packets must
give, a fault's offset as the sum of what was put in front of it. Each part is of 1.3.b, and says
once what 1.3 has in its place. Each run compares the four with each other, edition by edition, and
fails with a message if they disagree.
"""

import itertools
import sys

# Document 02, No. 10: "Our older recordings are version 1.3", and "from 1.3.a it is reserved".
OLDER, LATER = EDITIONS = "1.3", "1.3.b"
NAMES = {"1.3": OLDER, "1.3.a": LATER, "1.3.b": LATER}
# Each source document's version and revision date, by its own title.
DOCUMENTS = {"000": ("1.3", "07/15/2020"), "001": ("1.3", "07/15/2020"),
             "002": ("1.3.a", "11/05/2020"), "003": ("1.3.b", "09/25/2023"),
             "004": ("1.3.b", "09/25/2023")}

# ---------------------------------------------------------------------------------------------
# The tables of the documents
# ---------------------------------------------------------------------------------------------

# 003, section 4: type, then section, document 01's name of the message, and each field behind the
# MACH data as 003 prints it: name, length, data type. The first one is the type byte.
TYPE = ("Message Type", 1, "BinaryU")
STAMP = ("Timestamp", 4, "NanoTime")
SYMBOL = ("Symbol ID", 4, "BinaryU")
ORDER = ("Order ID", 8, "BinaryU")
TRADE_ID = ("Trade ID", 8, "BinaryU")
CORRECTION = ("Correction Number", 1, "BinaryU")
PRICE = ("Price", 8, "BinaryPrc6U")
SIZE = ("Size", 4, "BinaryU")
FLAGS = ("Flags", 1, "Flags")
PRINTED = {
    49: ("4.1", "System Time", [TYPE, ("Time Stamp", 4, "SecTime")]),
    1: ("4.2", "Symbol Update", [
        TYPE, STAMP, SYMBOL, ("Ticker Symbol", 11, "Alphanumeric"), ("Reserved", 1, "BinaryU"),
        ("Test Security Indicator", 1, "Alphanumeric"), ("Reserved", 1, "BinaryU"),
        ("Lot Size", 2, "BinaryU"), ("Opening Time", 8, "Alphanumeric"),
        ("Closing Time", 8, "Alphanumeric"), ("Primary Market Code", 1, "Alphanumeric")]),
    83: ("4.3", "System State", [
        TYPE, STAMP, ("DoM Version", 8, "Alphanumeric"), ("Session ID", 1, "BinaryU"),
        ("System Status", 1, "Alphanumeric")]),
    4: ("4.4", "Security Trading Status", [
        TYPE, STAMP, SYMBOL, ("Trading Status", 1, "BinaryU"), ("Market State", 1, "BinaryU"),
        ("Short Sale Restriction", 1, "Alphanumeric")]),
    5: ("4.5", "Symbol Clear", [TYPE, STAMP, SYMBOL]),
    20: ("4.6", "Add Order", [
        TYPE, STAMP, SYMBOL, ORDER, ("Order Side", 1, "Alphanumeric"), PRICE, SIZE,
        ("Attributable ID", 4, "Alphanumeric")]),
    21: ("4.7", "Modify Order", [TYPE, STAMP, SYMBOL, ORDER, PRICE, SIZE, FLAGS]),
    23: ("4.8", "Delete Order", [TYPE, STAMP, SYMBOL, ORDER]),
    24: ("4.9", "Order Execution", [
        TYPE, STAMP, SYMBOL, ORDER, TRADE_ID, PRICE, SIZE, FLAGS]),
    10: ("4.10", "Trade", [TYPE, STAMP, SYMBOL, TRADE_ID, CORRECTION, PRICE, SIZE, FLAGS]),
    11: ("4.11", "Trade Cancel", [TYPE, STAMP, SYMBOL, TRADE_ID, CORRECTION, PRICE, SIZE]),
}

# 000, section 4, prints the same of version 1.3, but for one field: by type and place in the table,
# what it has where 003 has a reserved byte.
PRINTED_IN_1_3 = {(1, 4): ("Security Type", 1, "Alphanumeric")}

# Document 01's table of message bodies, word by word: type, length, fields.
SCOPE = {
    49: (5, "seconds 1-4"),
    1: (42, "nanoseconds 1-4, symbol 5-8, ticker 9-19, reserved 20, test 21, reserved 22,"
            " lot 23-24, opening 25-32, closing 33-40, market 41"),
    20: (34, "nanoseconds 1-4, symbol 5-8, order 9-16, side 17, price 18-25, size 26-29,"
             " attributable ID 30-33"),
    21: (30, "nanoseconds 1-4, symbol 5-8, order 9-16, price 17-24, size 25-28, flags 29"),
    23: (17, "nanoseconds 1-4, symbol 5-8, order 9-16"),
}
# What document 02, No. 10, has in its place: "version 1.3, where byte 20 of a Symbol Update is
# Security Type".
SCOPE_IN_1_3 = {1: ("reserved 20", "Security Type 20")}

# Document 01's field ranges, by the name of the field in 003, and the messages that have them:
# "The price and size ranges hold in all eleven messages", the others where document 01 has them.
# Document 02, No. 2: "the field range for flags is struck out". No. 6: "The largest good value is
# 999,999,999, in every message that carries the field", which 003 prints as Timestamp, a NanoTime.
# No. 10: "Security Type, `E` or `F`", and "Under 1.3 any other byte is refused with 4"; no table of
# 1.3.b has a field of that name.
RANGES = {
    "Timestamp": ("0 to 999,999,999", [1, 83, 4, 5, 20, 21, 23, 24, 10, 11]),
    "Order Side": ("`B` or `S`", [20]),
    "Price": ("1 to 10^15", [20, 21, 24, 10, 11]),
    "Size": ("1 or more", [20, 21, 24, 10, 11]),
    "Security Type": ("`E` or `F`", [1]),
    "Test Security Indicator": ("`Y` or `N`", [1]),
    "Primary Market Code": ("one of A B C H I J K L M N P Q U V W X Y Z", [1]),
}

# "Order: 6, 1, then records from the front, each by 2, 5, 3, 4." No packet causes 6. Document 02,
# No. 5: the offset is "for 2 the record's start, for 5 the number's start, for 3 the body's start
# or, for an empty body, the place where it would start, for 4 the first byte of the earliest bad
# field by offset". A number is the first part of its record, and the body stands behind its header.
REFUSALS_IN_ORDER = {
    1: "none",
    2: "the record's start",
    5: "the record's start, where the number starts",
    3: "the record's start plus 10, where the body starts, or would start if it is empty",
    4: "the record's start plus 10 and the first offset of the earliest bad field",
}


def printed(kind, edition):
    """The fields of a message as the edition's document prints them: name, length, data type."""
    fields = PRINTED[kind][2]
    if edition == LATER:
        return fields
    return [PRINTED_IN_1_3.get((kind, place), field) for place, field in enumerate(fields)]


def places(kind, edition=LATER):
    """The same with their places: name, first and last offset, data type."""
    at = 0
    for name, width, data_type in printed(kind, edition):
        yield name, at, at + width - 1, data_type
        at += width


def length_of(kind, edition=LATER):
    """The sum of the lengths that are printed, the type byte included."""
    return sum(width for _, width, _ in printed(kind, edition))


def span(first, last):
    """Offsets as document 01 writes them."""
    return str(first) if first == last else "%d-%d" % (first, last)

# ---------------------------------------------------------------------------------------------
# The reader
# ---------------------------------------------------------------------------------------------

LARGEST_PACKET = 1500
HEADER = 10  # sequence number in 8 bytes, body length in 2
LARGEST_NUMBER = 10**12
LARGEST_PRICE = 10**15
LARGEST_NANOSECOND = 999_999_999
MARKETS = b"ABCHIJKLMNPQUVWXYZ"
# Judged fields with another name in the text.
IN_WORDS = {"security": "security type", "test": "test indicator"}

NUMBER = "one number"
BYTES = "byte by byte"
HIDDEN = "not printed"

# type: (message, length, fields as (name, first offset, last offset, how it is printed))
MESSAGES = {
    49: ("System Time", 5, [
        ("seconds", 1, 4, NUMBER)]),
    1: ("Symbol Update", 42, [
        ("nanoseconds", 1, 4, HIDDEN),
        ("symbol", 5, 8, NUMBER),
        ("ticker", 9, 19, BYTES),
        ("reserved20", 20, 20, HIDDEN),
        ("test", 21, 21, HIDDEN),
        ("reserved22", 22, 22, HIDDEN),
        ("lot", 23, 24, NUMBER),
        ("opening", 25, 32, BYTES),
        ("closing", 33, 40, BYTES),
        ("market", 41, 41, NUMBER)]),
    83: ("System State", 15, [
        ("nanoseconds", 1, 4, NUMBER),
        ("version", 5, 12, BYTES),
        ("session", 13, 13, NUMBER),
        ("status", 14, 14, NUMBER)]),
    4: ("Security Trading Status", 12, [
        ("nanoseconds", 1, 4, NUMBER),
        ("symbol", 5, 8, NUMBER),
        ("trading", 9, 9, NUMBER),
        ("state", 10, 10, NUMBER),
        ("short", 11, 11, NUMBER)]),
    5: ("Symbol Clear", 9, [
        ("nanoseconds", 1, 4, NUMBER),
        ("symbol", 5, 8, NUMBER)]),
    20: ("Add Order", 34, [
        ("nanoseconds", 1, 4, NUMBER),
        ("symbol", 5, 8, NUMBER),
        ("order", 9, 16, NUMBER),
        ("side", 17, 17, NUMBER),
        ("price", 18, 25, NUMBER),
        ("size", 26, 29, NUMBER),
        ("attributable", 30, 33, NUMBER)]),
    21: ("Modify Order", 30, [
        ("nanoseconds", 1, 4, NUMBER),
        ("symbol", 5, 8, NUMBER),
        ("order", 9, 16, NUMBER),
        ("price", 17, 24, NUMBER),
        ("size", 25, 28, NUMBER),
        ("flags", 29, 29, NUMBER)]),
    23: ("Delete Order", 17, [
        ("nanoseconds", 1, 4, NUMBER),
        ("symbol", 5, 8, NUMBER),
        ("order", 9, 16, NUMBER)]),
    24: ("Order Execution", 38, [
        ("nanoseconds", 1, 4, NUMBER),
        ("symbol", 5, 8, NUMBER),
        ("order", 9, 16, NUMBER),
        ("trade", 17, 24, NUMBER),
        ("price", 25, 32, NUMBER),
        ("size", 33, 36, NUMBER),
        ("flags", 37, 37, NUMBER)]),
    10: ("Trade", 31, [
        ("nanoseconds", 1, 4, NUMBER),
        ("symbol", 5, 8, NUMBER),
        ("trade", 9, 16, NUMBER),
        ("correction", 17, 17, NUMBER),
        ("price", 18, 25, NUMBER),
        ("size", 26, 29, NUMBER),
        ("flags", 30, 30, NUMBER)]),
    11: ("Trade Cancel", 30, [
        ("nanoseconds", 1, 4, NUMBER),
        ("symbol", 5, 8, NUMBER),
        ("trade", 9, 16, NUMBER),
        ("correction", 17, 17, NUMBER),
        ("price", 18, 25, NUMBER),
        ("size", 26, 29, NUMBER)]),
}
# Version 1.3 has this where the others have a reserved byte: by type and offset.
MESSAGES_IN_1_3 = {(1, 20): ("security", 20, 20, NUMBER)}


def read_fields(kind, edition):
    """The fields of a message, each as (name, first offset, last offset, how it is printed)."""
    fields = MESSAGES[kind][2]
    if edition == LATER:
        return fields
    return [MESSAGES_IN_1_3.get((kind, field[1]), field) for field in fields]


class Refused(Exception):
    """Document 01's number and, but for 1, the offset of the first byte at fault in what was read,
    and what it is in words."""

    def __init__(self, number, offset=None, words=None):
        super().__init__(number)
        self.number = number
        self.offset = offset
        self.words = words


def little(part):
    """The unsigned little-endian number in these bytes."""
    return int.from_bytes(part, "little")


def in_range(field, value):
    """Document 01's field ranges, without that of the flags and with those of the nanoseconds and
    the security type. What has none is always in range."""
    if field == "nanoseconds":
        return value <= LARGEST_NANOSECOND
    if field == "price":
        return 1 <= value <= LARGEST_PRICE
    if field == "size":
        return value >= 1
    if field == "side":
        return value in b"BS"
    if field == "security":
        return value in b"EF"
    if field == "test":
        return value in b"YN"
    if field == "market":
        return value in MARKETS
    return True


def read_body(body, edition):
    """The type and the fields (a dictionary) of a good body; else Refused 3 or 4, in the body."""
    if len(body) == 0:
        raise Refused(3, 0, "empty body")
    kind = body[0]
    if kind not in MESSAGES:
        raise Refused(3, 0, "unknown type")
    name, length, _ = MESSAGES[kind]
    if len(body) != length:
        raise Refused(3, 0, name + ", wrong length")
    values, faults = {}, []
    for field, first, last, form in read_fields(kind, edition):
        part = body[first:last + 1]
        values[field] = part if form == BYTES else little(part)
        if not in_range(field, values[field]):
            faults.append((first, "%s, %s" % (name, IN_WORDS.get(field, field))))
    if faults:
        raise Refused(4, *min(faults))
    return kind, values


def read_record(rest, edition):
    """The record in front of these bytes, as (sequence number, type, fields), and how many bytes it
    has; else Refused, in the record."""
    if len(rest) < HEADER:
        raise Refused(2, 0, "unfinished header")
    number = little(rest[:8])
    length = little(rest[8:HEADER])
    if length > len(rest) - HEADER:
        raise Refused(2, 0, "body past the end")
    if number == 0 or number > LARGEST_NUMBER:
        raise Refused(5, 0, "sequence number")
    try:
        kind, values = read_body(rest[HEADER:HEADER + length], edition)
    except Refused as fault:
        raise Refused(fault.number, HEADER + fault.offset, fault.words) from None
    return (number, kind, values), HEADER + length


def read_packet(packet, edition):
    """The records of a good packet, each as (sequence number, type, fields); else Refused."""
    if len(packet) == 0 or len(packet) > LARGEST_PACKET:
        raise Refused(1)
    records = []
    at = 0
    while at < len(packet):
        try:
            one, length = read_record(packet[at:], edition)
        except Refused as fault:
            words = "record %d, %s" % (len(records) + 1, fault.words)
            raise Refused(fault.number, at + fault.offset, words) from None
        records.append(one)
        at += length
    return records


def expected_lines(packet, edition=LATER):
    """The lines to be printed for one packet, without their line feeds."""
    try:
        records = read_packet(packet, edition)
    except Refused as fault:
        if fault.offset is None:
            return ["refused %d" % fault.number]
        return ["refused %d at %d: %s" % (fault.number, fault.offset, fault.words)]
    lines = ["records %d" % len(records)]
    for number, kind, values in records:
        words = [str(number), str(kind)]
        for field, _, _, form in read_fields(kind, edition):
            if form == NUMBER:
                words.append(str(values[field]))
            elif form == BYTES:
                words.extend(str(byte) for byte in values[field])
        lines.append(" ".join(words))
    return lines


# ---------------------------------------------------------------------------------------------
# The composer
# ---------------------------------------------------------------------------------------------

TIME, UPDATE, STATE, STATUS, CLEAR = 49, 1, 83, 4, 5
ADD, MODIFY, DELETE, EXECUTION, TRADE, CANCEL = 20, 21, 23, 24, 10, 11

# Each type's fields in the order of its table in 003, as (name, length, an ordinary value).
LAYOUT = {
    TIME: [("seconds", 4, 34200)],
    UPDATE: [("nanoseconds", 4, 1001), ("symbol", 4, 7), ("ticker", 11, b"ABC        "),
             ("reserved20", 1, 0), ("test", 1, ord("N")), ("reserved22", 1, 0), ("lot", 2, 100),
             ("opening", 8, b"09:30:00"), ("closing", 8, b"16:00:00"), ("market", 1, ord("H"))],
    STATE: [("nanoseconds", 4, 1002), ("version", 8, b"DoM1.3  "), ("session", 1, 1),
            ("status", 1, ord("S"))],
    STATUS: [("nanoseconds", 4, 1003), ("symbol", 4, 7), ("trading", 1, 2), ("state", 1, 3),
             ("short", 1, ord("N"))],
    CLEAR: [("nanoseconds", 4, 1004), ("symbol", 4, 7)],
    ADD: [("nanoseconds", 4, 1005), ("symbol", 4, 7), ("order", 8, 500), ("side", 1, ord("B")),
          ("price", 8, 10000000), ("size", 4, 100), ("attributable", 4, little(b"    "))],
    MODIFY: [("nanoseconds", 4, 1006), ("symbol", 4, 7), ("order", 8, 500),
             ("price", 8, 10010000), ("size", 4, 80), ("flags", 1, 1)],
    DELETE: [("nanoseconds", 4, 1007), ("symbol", 4, 7), ("order", 8, 500)],
    EXECUTION: [("nanoseconds", 4, 1008), ("symbol", 4, 7), ("order", 8, 500), ("trade", 8, 900),
                ("price", 8, 10000000), ("size", 4, 40), ("flags", 1, 1)],
    TRADE: [("nanoseconds", 4, 1009), ("symbol", 4, 7), ("trade", 8, 901), ("correction", 1, 0),
            ("price", 8, 10005000), ("size", 4, 60), ("flags", 1, 3)],
    CANCEL: [("nanoseconds", 4, 1010), ("symbol", 4, 7), ("trade", 8, 901), ("correction", 1, 0),
             ("price", 8, 10005000), ("size", 4, 60)],
}
# Version 1.3 has this where the others have a reserved byte: by type and field.
LAYOUT_IN_1_3 = {(UPDATE, "reserved20"): ("security", 1, ord("E"))}
KINDS = list(LAYOUT)
UNPRINTED = {(UPDATE, "nanoseconds"), (UPDATE, "reserved20"), (UPDATE, "test"),
             (UPDATE, "reserved22")}

# Where each judged field starts in its body: document 01's table, and 003's for those added.
STARTS = {
    UPDATE: {"nanoseconds": 1, "test": 21, "market": 41},
    STATE: {"nanoseconds": 1},
    STATUS: {"nanoseconds": 1},
    CLEAR: {"nanoseconds": 1},
    ADD: {"nanoseconds": 1, "side": 17, "price": 18, "size": 26},
    MODIFY: {"nanoseconds": 1, "price": 17, "size": 25},
    DELETE: {"nanoseconds": 1},
    EXECUTION: {"nanoseconds": 1, "price": 25, "size": 33},
    TRADE: {"nanoseconds": 1, "price": 18, "size": 26},
    CANCEL: {"nanoseconds": 1, "price": 18, "size": 26},
}
STARTS_IN_1_3 = {UPDATE: {"nanoseconds": 1, "security": 20, "test": 21, "market": 41}}
JUDGED = {(kind, field) for kind, starts in STARTS.items() for field in starts}
# The judged fields as docs/MESSAGES.md calls them, and a bad value of each that 1.3.b judges.
CALLED = {"nanoseconds": "nanoseconds", "side": "side", "price": "price", "size": "size",
          "security": "security type", "test": "test indicator", "market": "market"}
WRONG = {"nanoseconds": 10**9, "side": ord("X"), "price": 0, "size": 0, "test": ord("X"),
         "market": ord("D")}


def layout(kind, edition):
    """The fields of a message, each as (name, length, an ordinary value)."""
    if edition == LATER:
        return LAYOUT[kind]
    return [LAYOUT_IN_1_3.get((kind, field[0]), field) for field in LAYOUT[kind]]


def starts_in(kind, edition):
    """Where the judged fields of a message start."""
    starts = STARTS.get(kind, {})
    return starts if edition == LATER else STARTS_IN_1_3.get(kind, starts)


def whole(kind, edition, changes):
    """The values of all fields of a message, the ordinary ones where `changes` has none."""
    unknown = set(changes) - {field for field, _, _ in layout(kind, edition)}
    if unknown:
        sys.exit("no such field in a message of type %d: %s" % (kind, unknown))
    return [(field, width, changes.get(field, usual))
            for field, width, usual in layout(kind, edition)]


def compose(kind, edition=LATER, **changes):
    """The body of a message, the fields one behind the other."""
    body = bytes([kind])
    for _, width, value in whole(kind, edition, changes):
        part = value if isinstance(value, bytes) else value.to_bytes(width, "little")
        if len(part) != width:
            sys.exit("a field of type %d has %d bytes, not %d" % (kind, len(part), width))
        body += part
    return body


def stated_line(number, kind, edition=LATER, **changes):
    """The line that must be printed for a good record, from the values it was composed of."""
    words = [number, kind]
    for field, _, value in whole(kind, edition, changes):
        if (kind, field) not in UNPRINTED:
            words.extend(value if isinstance(value, bytes) else [value])
    return " ".join(str(word) for word in words)


def record(number, body, length=None):
    """A record; `length` is what its header claims, the body's own length if not given."""
    claimed = len(body) if length is None else length
    return number.to_bytes(8, "little") + claimed.to_bytes(2, "little") + body


class Dice:
    """Numbers that look random and are the same on every machine (splitmix64)."""

    def __init__(self, seed):
        self.state = seed

    def bits(self):
        mask = 2**64 - 1
        self.state = (self.state + 0x9E3779B97F4A7C15) & mask
        mixed = self.state
        mixed = ((mixed ^ (mixed >> 30)) * 0xBF58476D1CE4E5B9) & mask
        mixed = ((mixed ^ (mixed >> 27)) * 0x94D049BB133111EB) & mask
        return mixed ^ (mixed >> 31)

    def below(self, limit):
        return self.bits() % limit

    def between(self, first, last):
        return first + self.below(last - first + 1)

    def pick(self, choices):
        return choices[self.below(len(choices))]

    def spread(self, first, last):
        """A number from first to last: an end, any, or one of any magnitude."""
        way = self.below(8)
        if way == 0:
            return self.pick([first, last])
        if way < 4:
            return self.between(first, last)
        magnitude = self.between(1, last.bit_length())
        return max(first, min(last, self.below(2**magnitude)))

    def text(self, width):
        """Bytes of a letter field: mostly letters with spaces behind, sometimes anything."""
        if self.below(4) == 0:
            return bytes(self.below(256) for _ in range(width))
        letters = bytes(self.between(65, 90) for _ in range(self.between(1, width)))
        return letters.ljust(width)

    def message(self, kind=None):
        """The type and the fields of a good message, of any kind where none is given."""
        kind = self.pick(KINDS) if kind is None else kind
        changes = {}
        for field, width, usual in LAYOUT[kind]:
            if field == "nanoseconds":
                changes[field] = self.spread(0, LARGEST_NANOSECOND)
            elif field == "price":
                changes[field] = self.spread(1, LARGEST_PRICE)
            elif field == "size":
                changes[field] = self.spread(1, 2**32 - 1)
            elif field == "side":
                changes[field] = self.pick(b"BS")
            elif field == "test":
                changes[field] = self.pick(b"YN")
            elif field == "market":
                changes[field] = self.pick(b"ABCHIJKLMNPQUVWXYZ")
            elif isinstance(usual, bytes):
                changes[field] = self.text(width)
            else:
                changes[field] = self.spread(0, 256**width - 1)
        return kind, changes


# ---------------------------------------------------------------------------------------------
# The packets
# ---------------------------------------------------------------------------------------------


class Vector:
    """A packet, what it is for, and by edition the lines stated for it (None if none are)."""

    def __init__(self, label, packet, stated):
        self.label = label
        self.packet = packet
        self.stated = stated


def refused(number, offset, words):
    """The line of a packet that is refused with 2, 3, 4 or 5, at this offset and in these words."""
    return "refused %d at %d: %s" % (number, offset, words)


def renamed(kind, changes):
    """The values of a message of 1.3.b under the names of version 1.3."""
    return {LAYOUT_IN_1_3.get((kind, field), (field,))[0]: value
            for field, _, value in whole(kind, LATER, changes)}


def untyped(packet, offset):
    """Of a packet that 1.3.b refuses at this offset: the place and start of the first Symbol Update
    whose byte 20 lies in front of that and is no security type, so that 1.3 refuses it there. The
    records before the fault are good, and their lengths lead from one to the next."""
    place, start = 1, 0
    while start + 10 + 20 < offset:
        if packet[start + 10] == UPDATE and packet[start + 10 + 20] not in b"EF":
            return place, start
        place, start = place + 1, start + 10 + little(packet[start + 8:start + 10])
    return None


class Vectors:
    """The list of packets in the order in which they are written."""

    def __init__(self):
        self.list = []

    def good(self, label, *records):
        """A packet that is good in 1.3.b; each record is (number, type) or (number, type, {field:
        value}). In 1.3 it is good but for a Symbol Update without a security type."""
        packet, untyped_lines = b"", []
        lines = {edition: ["records %d" % len(records)] for edition in EDITIONS}
        for place, (number, kind, *rest) in enumerate(records, 1):
            changes = rest[0] if rest else {}
            older = renamed(kind, changes)
            if older.get("security", ord("E")) not in b"EF":
                untyped_lines.append(refused(*bad_field(kind, "security", place, len(packet))))
            packet += record(number, compose(kind, **changes))
            lines[LATER].append(stated_line(number, kind, **changes))
            lines[OLDER].append(stated_line(number, kind, OLDER, **older))
        self.list.append(Vector(label, packet, {
            OLDER: untyped_lines[:1] or lines[OLDER], LATER: lines[LATER]}))
        return packet

    def bad(self, label, number, offset, words, packet):
        """A packet that must be refused with 2, 3, 4 or 5, at this offset and in these words,
        unless 1.3 refuses a Symbol Update without a security type before that."""
        stated = refused(number, offset, words)
        first = untyped(packet, offset)
        older = refused(*bad_field(UPDATE, "security", *first)) if first else stated
        self.list.append(Vector(label, packet, {OLDER: [older], LATER: [stated]}))

    def bad_length(self, label, packet):
        """A packet of no bytes or too many, which is refused as a whole: with 1 alone."""
        self.by_edition(label, packet, ["refused 1"], ["refused 1"])

    def by_edition(self, label, packet, older, later):
        """A packet, and the lines of 1.3 and of 1.3.b for it."""
        self.list.append(Vector(label, packet, {OLDER: older, LATER: later}))

    def judge(self, label, in_order, kind, field, value):
        """Record 1 alone, with a judged field: good if `in_order`, else refused with 4."""
        changes = {field: value}
        if in_order:
            self.good(label, (1, kind, changes))
        else:
            self.bad(label, *bad_field(kind, field), record(1, compose(kind, **changes)))

    def unstated(self, label, packet):
        """A packet of which only the reader says what it gives."""
        self.by_edition(label, packet, None, None)


def bad_field(kind, field, place=1, start=0):
    """Number, offset and words of a bad field in the record that starts at this byte: its header of
    10 bytes and the body's first bytes stand in front of the field. 1.3 judges all fields that
    1.3.b does."""
    return (4, start + 10 + starts_in(kind, OLDER)[field],
            "record %d, %s, %s" % (place, PRINTED[kind][1], CALLED[field]))


def wrong_length(kind, place=1, start=0):
    """The same of a body whose length is not its type's."""
    return 3, start + 10, "record %d, %s, wrong length" % (place, PRINTED[kind][1])


EXAMPLE = [
    (1, TIME, {"seconds": 34200}),
    (2, UPDATE, {"nanoseconds": 0}),
    (3, ADD, {"nanoseconds": 0, "order": 500, "price": 10000000, "size": 100}),
    (4, ADD, {"nanoseconds": 0, "order": 501, "side": ord("S"), "price": 10020000, "size": 200}),
    (5, ADD, {"nanoseconds": 0, "order": 502, "price": 10000000, "size": 50}),
]

# The same five records, written out by hand.
EXAMPLE_BYTES = [bytes.fromhex(text) for text in (
    "01 00 00 00 00 00 00 00  05 00  31  98 85 00 00",
    "02 00 00 00 00 00 00 00  2a 00  01  00 00 00 00  07 00 00 00"
    " 41 42 43 20 20 20 20 20 20 20 20  00  4e  00  64 00"
    " 30 39 3a 33 30 3a 30 30  31 36 3a 30 30 3a 30 30  48",
    "03 00 00 00 00 00 00 00  22 00  14  00 00 00 00  07 00 00 00  f4 01 00 00 00 00 00 00"
    " 42  80 96 98 00 00 00 00 00  64 00 00 00  20 20 20 20",
    "04 00 00 00 00 00 00 00  22 00  14  00 00 00 00  07 00 00 00  f5 01 00 00 00 00 00 00"
    " 53  a0 e4 98 00 00 00 00 00  c8 00 00 00  20 20 20 20",
    "05 00 00 00 00 00 00 00  22 00  14  00 00 00 00  07 00 00 00  f6 01 00 00 00 00 00 00"
    " 42  80 96 98 00 00 00 00 00  32 00 00 00  20 20 20 20",
)]


def add_exercises(vectors):
    """Document 01's example, and its exercises P1 to P12 as far as they are packets to read."""
    together = vectors.good("the example, numbers 1 to 5 in one packet", *EXAMPLE)
    if together != b"".join(EXAMPLE_BYTES):
        sys.exit("the composed example is not the one written out by hand")
    for one in EXAMPLE:
        vectors.good("the example, number %d alone" % one[0], one)
    price = ["records 1", "3 20 0 7 500 66 10000000 100 538976288"]
    vectors.by_edition("P1: price 10.000000 is bytes 80 96 98 00 00 00 00 00", EXAMPLE_BYTES[2],
                       price, price)
    vectors.good("P2: number 64", (64, TIME))
    vectors.good("P2: number 65", (65, TIME))
    vectors.good("P3: numbers 68, 69 and 4", (68, CLEAR), (69, CLEAR), (4, CLEAR))
    vectors.good("P4: numbers 2, 3, 1 in one packet", EXAMPLE[1], EXAMPLE[2], EXAMPLE[0])
    vectors.good("P5: Modify 500 with bit 0 set", (6, MODIFY, {"flags": 1}))
    vectors.good("P6: Modify 500 with bit 0 clear", (6, MODIFY, {"flags": 0}))
    vectors.good("P7: execution of 100, then 500 again",
                 (6, EXECUTION, {"size": 100}), (7, ADD, {"order": 500}))
    vectors.good("P8: execution of 101", (6, EXECUTION, {"size": 101}))
    vectors.good("P9: bid 10.020000, offer 10.000000",
                 (3, ADD, {"price": 10020000}),
                 (4, ADD, {"order": 501, "side": ord("S"), "price": 10000000}))
    vectors.good("P10: the same Add twice", (3, ADD), (4, ADD))
    vectors.bad("P11: a 9-byte packet", 2, 0, "record 1, unfinished header", EXAMPLE_BYTES[0][:9])
    vectors.bad("P12: a good record, then one with price 0",
                4, 15 + 10 + 18, "record 2, Add Order, price",
                EXAMPLE_BYTES[0] + record(2, compose(ADD, price=0)))
    vectors.bad("P12: a good record, then an unknown type", 3, 15 + 10, "record 2, unknown type",
                EXAMPLE_BYTES[0] + record(2, b"\x32\x98\x85\x00\x00"))


def add_lengths_of_packets(vectors):
    """Packets of every length that is special, and bodies that run past the end."""
    time = record(1, compose(TIME))  # 15 bytes
    vectors.bad_length("0 bytes", b"")
    for length in range(1, 10):
        vectors.bad("%d bytes, the front of a good record" % length,
                    2, 0, "record 1, unfinished header", time[:length])
        vectors.bad("a good record and %d stray zero bytes" % length,
                    2, 15, "record 2, unfinished header", time + bytes(length))
        vectors.bad("a good record and %d bytes of the next" % length,
                    2, 15, "record 2, unfinished header", time + time[:length])
    vectors.bad("10 bytes: good number, empty body", 3, 10, "record 1, empty body", record(1, b""))
    for claimed in (1, 5, 65535):
        vectors.bad("10 bytes: body of %d past the end" % claimed,
                    2, 0, "record 1, body past the end", record(1, b"", claimed))

    for kind in KINDS:
        body = compose(kind)
        vectors.bad("type %d: body past the end by 1" % kind,
                    2, 0, "record 1, body past the end", record(1, body)[:-1])
        vectors.bad("type %d behind a good record: the header claims 1 byte more" % kind,
                    2, 15, "record 2, body past the end", time + record(2, body, len(body) + 1))
    vectors.bad("a second record past the end by 65,535", 2, 15, "record 2, body past the end",
                time + record(2, b"", 65535))
    vectors.bad("a body of 5 that claims 256 + 5", 2, 0, "record 1, body past the end",
                record(1, compose(TIME), 256 + 5))
    # In 16 bits, 25 and most of these lengths would add up to a place inside the packet.
    for claimed in (65535, 65536 - 25, 65536 - 25 + 5, 65536 - 10, 32768, 32767):
        vectors.bad("a second record that claims %d bytes" % claimed,
                    2, 15, "record 2, body past the end", time + record(2, compose(TIME), claimed))

    # A record of System Time has 15 bytes, Delete 27, Clear 19, Add 44, Trading Status 22, and
    # one of each kind together 373. No good packet has more than 100 records.
    longest = [
        vectors.good("1,500 bytes: 100 System Times",
                     *[(number, TIME, {"seconds": 34200 + number}) for number in range(1, 101)]),
        vectors.good("1,500 bytes: 56 records of all kinds", *[
            (number, kind)
            for number, kind in enumerate(KINDS * 3 + [TIME] * 21 + [ADD, STATUS], 1)]),
        time * 99 + record(100, compose(TIME), 6),
    ]
    if any(len(packet) != LARGEST_PACKET for packet in longest):
        sys.exit("a packet of 1,500 bytes has another length")
    vectors.bad("1,500 bytes: the last body past the end by 1",
                2, 99 * 15, "record 100, body past the end", longest[2])
    vectors.bad_length("1,501 bytes: 97 System Times, a Delete and a Clear",
                       time * 97 + record(98, compose(DELETE)) + record(99, compose(CLEAR)))
    vectors.bad_length("65,535 bytes: 4,369 System Times", time * 4369)
    vectors.good("a good packet behind one of 65,535 bytes", (1, TIME))


def add_long_packets(vectors):
    """Packets of 1,501 bytes and more that hold every other fault: the length comes first."""
    good, add = record(1, compose(TIME)), compose(ADD)
    fill = record(1, compose(MODIFY))  # 40 bytes
    faults = [
        ("body past the end", record(1, add, 65535)),
        ("number 0", record(0, add)),
        ("number 10^12 + 1", record(10**12 + 1, add)),
        ("empty body", record(1, b"")),
        ("unknown type", record(1, b"\x02" + add[1:])),
        ("wrong length", record(1, add + b"\x00")),
        ("price 0", record(1, compose(ADD, price=0))),
        ("size 0", record(1, compose(EXECUTION, size=0))),
        ("side X", record(1, compose(ADD, side=ord("X")))),
        ("test indicator X", record(1, compose(UPDATE, test=ord("X")))),
        ("size 0 with flags 255", record(1, compose(MODIFY, size=0, flags=255))),
        ("10^9 nanoseconds", record(1, compose(DELETE, nanoseconds=10**9))),
    ]
    for label, fault in faults:
        behind = (good * 100)[:1501 - len(fault)]
        vectors.bad_length("1,501 bytes: %s in front" % label, fault + behind)
        front = good * 99 + fault
        vectors.bad_length("1,502 bytes or more: %s behind good records" % label,
                           front + bytes(max(1502 - len(front), 0)))
    for length in (1501, 1502, 1510, 1511, 2048, 3000):
        vectors.bad_length("%d zero bytes" % length, bytes(length))
        vectors.bad_length("%d bytes 255" % length, b"\xff" * length)
        vectors.bad_length("%d bytes: good records and what is left of one" % length,
                           (fill * 80)[:length])
    vectors.bad_length("1,501 bytes: a good packet of 1,500 and a byte", good * 100 + b"\x01")
    vectors.bad_length("1,510 bytes: a good packet of 1,500 and an empty body",
                       good * 100 + record(101, b""))
    # In 11 bits these lengths would be 0 and 15, and in 15 bits the last would be 15.
    for length in (2048, 2048 + 15, 32768 + 15):
        vectors.bad_length("%d bytes: a good record and zero bytes" % length,
                           good + bytes(length - len(good)))
    vectors.good("a good packet behind too long ones", (1, TIME))


def add_types_and_lengths(vectors):
    """Every type byte, known types with every wrong length up to 64 and with many above, and
    every unknown type in the place of every known one."""
    for kind in range(256):
        if kind in LAYOUT:
            vectors.good("type %d with its own length" % kind, (1, kind))
            continue
        for other in KINDS:
            vectors.bad("type %d in a body of type %d" % (kind, other),
                        3, 10, "record 1, unknown type",
                        record(1, bytes([kind]) + compose(other)[1:]))
        vectors.bad("type %d and no more" % kind, 3, 10, "record 1, unknown type",
                    record(1, bytes([kind])))
    vectors.bad("an empty body before a good record", 3, 10, "record 1, empty body",
                record(1, b"") + record(2, compose(TIME)))
    for kind in KINDS:
        body = compose(kind)
        for length in range(1, 65):  # length 0 has no type byte and stands above
            if length != len(body):
                vectors.bad("type %d with wrong length %d" % (kind, length), *wrong_length(kind),
                            record(1, (body + bytes(64))[:length]))
        # A body's own length comes back in 8 bits wherever 256 bytes are too many. 1,490 is the
        # longest body that a packet of 1,500 bytes holds, and 74 the length of a shelf's slot.
        wrapped = [len(body) + more for more in (256, 512, 1024)]
        for length in [65, 66, 74, 96, 127, 128, 255, 256, *wrapped, 1490]:
            vectors.bad("type %d with wrong length %d" % (kind, length), *wrong_length(kind),
                        record(1, (body + bytes(1490))[:length]))
    for kind in (0, 2, 22, 255):
        for length in (64, 65, 256, 256 + 34, 1490):
            vectors.bad("type %d with length %d" % (kind, length), 3, 10, "record 1, unknown type",
                        record(1, bytes([kind]) + bytes(length - 1)))
    vectors.bad("a body of 65 bytes behind a good record",
                3, 15 + 10, "record 2, Add Order, wrong length",
                record(1, compose(TIME)) + record(2, compose(ADD) + bytes(31)))
    vectors.bad("a body of 65 bytes before a good record",
                3, 10, "record 1, Add Order, wrong length",
                record(1, compose(ADD) + bytes(31)) + record(2, compose(TIME)))


def add_judged_fields(vectors):
    """Each judged field at the ends of its range and beyond, in every message that has it."""
    prices = {0: False, 1: True, 2**32: True, 10**15: True, 10**15 + 1: False, 2**50: False,
              2**56: False, 2**64 - 1: False}
    sizes = {0: False, 1: True, 2**24: True, 2**32 - 1: True}
    for kind in (ADD, MODIFY, EXECUTION, TRADE, CANCEL):
        for price, in_order in prices.items():
            vectors.judge("type %d, price %d" % (kind, price), in_order, kind, "price", price)
        for size, in_order in sizes.items():
            vectors.judge("type %d, size %d" % (kind, size), in_order, kind, "size", size)
    good_letters = {
        "side": "B S".split(),
        "test": "Y N".split(),
        "market": "A B C H I J K L M N P Q U V W X Y Z".split(),
    }
    for kind, field in ((ADD, "side"), (UPDATE, "test"), (UPDATE, "market")):
        for byte in range(256):
            vectors.judge("type %d, %s byte %d" % (kind, field, byte),
                          chr(byte) in good_letters[field], kind, field, byte)


def add_timestamps(vectors):
    """The nanoseconds of every message that has them, around their limit; the seconds of a System
    Time, which are no nanoseconds; and other faults beside them."""
    stamped = [kind for kind in KINDS if kind != TIME]
    # 255 and 255 * 2^24 are each other's bytes turned round, and only the first is good; 60 * 2^24
    # passes the limit by its last byte alone; 2^30 is the first number with that bit.
    good = (0, 255, 999_999_998, 999_999_999)
    late = (10**9, 60 * 2**24, 2**30, 2**31, 255 * 2**24, 2**32 - 1)
    for kind in stamped:
        for value in good + late:
            vectors.judge("type %d, %d nanoseconds" % (kind, value), value in good, kind,
                          "nanoseconds", value)
        body = compose(kind, nanoseconds=10**9)
        vectors.bad("type %d with 10^9 nanoseconds between good records" % kind,
                    *bad_field(kind, "nanoseconds", 2, 15),
                    record(1, compose(TIME)) + record(2, body) + record(3, compose(CLEAR)))
        vectors.bad("3 with 4: type %d, 10^9 nanoseconds and a byte too many" % kind,
                    *wrong_length(kind), record(1, body + b"\x00"))
        vectors.bad("5 with 4: type %d, number 0 and 10^9 nanoseconds" % kind,
                    5, 0, "record 1, sequence number", record(0, body))
        vectors.bad("2 with 4: type %d, 10^9 nanoseconds, body past the end" % kind,
                    2, 0, "record 1, body past the end", record(2, body)[:-1])
    for seconds in (0, 999_999_999, 10**9, 2**31, 2**32 - 1):
        vectors.good("%d seconds in a System Time" % seconds, (1, TIME, {"seconds": seconds}))
    for kind, field in sorted(JUDGED):
        if field == "nanoseconds":
            continue
        for value in (999_999_999, 10**9, 2**32 - 1):
            fields = {"nanoseconds": value, field: WRONG[field]}
            told = "nanoseconds" if value > 999_999_999 else field
            vectors.bad("type %d, %d nanoseconds and a bad %s" % (kind, value, field),
                        *bad_field(kind, told), record(1, compose(kind, **fields)))
    vectors.good("the last nanosecond of a second in every message that has nanoseconds", *[
        (number, kind, {"nanoseconds": 999_999_999}) for number, kind in enumerate(stamped, 1)])
    # Before the tenth record stand 52 + 25 + 22 + 19 + 44 + 40 + 27 + 48 + 41 bytes.
    for place, start in ((1, 0), (10, 318)):
        vectors.bad("record %d of all ten has 10^9 nanoseconds" % place,
                    *bad_field(stamped[place - 1], "nanoseconds", place, start), b"".join(
                        record(number, compose(kind, nanoseconds=10**9 if number == place else 0))
                        for number, kind in enumerate(stamped, 1)))


def not_judged(kind):
    """The fields of a message that have no range, each at its smallest and at its largest value."""
    smallest, largest = {}, {}
    for field, width, usual in LAYOUT[kind]:
        if (kind, field) not in JUDGED:
            letters = isinstance(usual, bytes)
            smallest[field] = bytes(width) if letters else 0
            largest[field] = bytes([255] * width) if letters else 256**width - 1
    return smallest, largest


def add_fields_not_judged(vectors):
    """Every field without a range, at its smallest and its largest value."""
    for kind in KINDS:
        smallest, largest = not_judged(kind)
        vectors.good("type %d, all that is not judged smallest" % kind, (1, kind, smallest))
        vectors.good("type %d, all that is not judged largest" % kind, (1, kind, largest))
    for byte in range(256):
        flags = {"flags": byte}
        vectors.good("flags %d in Modify, Execution and Trade" % byte,
                     (1, MODIFY, flags), (2, EXECUTION, flags), (3, TRADE, flags))
    vectors.good("a Modify with bit 3 between good records",
                 (5, CLEAR), (6, MODIFY, {"flags": 8}), (7, DELETE))
    vectors.good("two copies of a Modify that differ in bit 5 alone",
                 (6, MODIFY, {"flags": 1}), (6, MODIFY, {"flags": 33}))
    vectors.good("bytes 20 of a Symbol Update that are a type in 1.3, and others",
                 *[(1, UPDATE, {"reserved20": byte}) for byte in b"EFG "])
    vectors.good("tickers", *[(1, UPDATE, {"ticker": ticker}) for ticker in (
        b"           ", b"A          ", b"ABCDEFGHIJK", b"\x00BC   \x7f\n   ")])
    vectors.good("attributable IDs", *[(1, ADD, {"attributable": little(name)}) for name in (
        b"RTAL", b"    ", b"ABCD", b"\x01\x02\x03\x04")])
    vectors.good("an opening after the closing, and no times at all",
                 (1, UPDATE, {"opening": b"16:00:00", "closing": b"09:30:00"}),
                 (2, UPDATE, {"opening": b"99:99:99", "closing": b"        "}))


def add_numbers(vectors):
    """Sequence numbers at and beyond both ends."""
    for number in (1, 2, 255, 256, 2**16, 2**31, 2**32 - 1, 2**32, 2**39, 10**12 - 1, 10**12):
        vectors.good("number %d" % number, (number, TIME))
    for number in (0, 10**12 + 1, 2**40, 2**40 + 1, 2**56, 2**63, 2**64 - 1):
        vectors.bad("number %d" % number, 5, 0, "record 1, sequence number",
                    record(number, compose(TIME)))
    vectors.good("numbers fall and repeat", (9, TIME), (3, CLEAR), (3, CLEAR), (10**12, TIME))


def add_several_faults(vectors):
    """More than one fault in a record or in a packet: the stated order decides."""
    add = compose(ADD)
    past, header = "record 1, body past the end", "record 1, unfinished header"
    for number in (0, 10**12 + 1):
        vectors.bad("2 with 5: bad number %d, body past the end" % number, 2, 0, past,
                    record(number, add)[:-1])
        vectors.bad("2 with 5 and 3: bad number %d, unknown type past the end" % number, 2, 0, past,
                    record(number, b"\x02" + add[1:])[:-1])
        for label, body in (
                ("5 with 3: bad number %d, empty body", b""),
                ("5 with 3: bad number %d, unknown type", b"\x02" + add[1:]),
                ("5 with 3: bad number %d, wrong length", add + b"\x00"),
                ("5 with 4: bad number %d, price 0", compose(ADD, price=0)),
                ("5 with 3 and 4: bad number %d, wrong length, price 0",
                 compose(ADD, price=0)[:-1])):
            vectors.bad(label % number, 5, 0, "record 1, sequence number", record(number, body))
    for length in (8, 9):
        vectors.bad("2 with 5: number 0 and %d header bytes" % length, 2, 0, header, bytes(length))
    vectors.bad("2 with 5: the largest number and 9 header bytes", 2, 0, header, b"\xff" * 9)
    vectors.bad("2 with 5: all bytes 255", 2, 0, past, b"\xff" * 40)
    vectors.bad("2 with 3: unknown type, body past the end", 2, 0, past, record(1, b"\x02", 5))
    vectors.bad("2 with 3: a known type, a wrong length, past the end", 2, 0, past,
                record(1, add, 35))
    vectors.bad("2 with 3: a whole Add whose header claims 42 bytes", 2, 0, past,
                record(1, add, 42))
    vectors.bad("2 with 4: side X, body past the end", 2, 0, past,
                record(1, compose(ADD, side=ord("X")))[:-1])
    vectors.bad("2 with 4: price 0, body past the end", 2, 0, past,
                record(1, compose(ADD, price=0))[:-1])
    vectors.bad("2 with 5 and 4: number 0, price 0, body past the end", 2, 0, past,
                record(0, compose(ADD, price=0))[:-1])
    vectors.bad("3 with 4: price 0 and a byte too many", *wrong_length(ADD),
                record(1, compose(ADD, price=0) + b"\x00"))
    vectors.bad("3 with 4: price 0 and a byte too few", *wrong_length(ADD),
                record(1, compose(ADD, price=0)[:-1]))
    vectors.bad("3 with 4: side X and half a body", *wrong_length(ADD),
                record(1, compose(ADD, side=ord("X"))[:20]))
    vectors.bad("3 with 4: an unknown type and price 0", 3, 10, "record 1, unknown type",
                record(1, b"\x16" + compose(ADD, price=0)[1:]))
    vectors.bad("4 with 4: side X, price 0, size 0", 4, 10 + 17, "record 1, Add Order, side",
                record(1, compose(ADD, side=ord("X"), price=0, size=0)))
    vectors.bad("4 with 4: bad test and bad market",
                4, 10 + 21, "record 1, Symbol Update, test indicator",
                record(1, compose(UPDATE, test=0, market=0)))
    vectors.bad("4 with 4: price 0 and size 0 in a Modify with flags 255",
                4, 10 + 17, "record 1, Modify Order, price",
                record(1, compose(MODIFY, price=0, size=0, flags=255)))
    vectors.bad("4: price 0 in an Execution with flags 255",
                4, 10 + 25, "record 1, Order Execution, price",
                record(1, compose(EXECUTION, price=0, flags=255)))

    good = record(1, compose(TIME))  # 15 bytes
    clear = record(2, compose(CLEAR))  # 19 bytes
    # A fault, its refusal, the offset in its record and the words, and the bytes of a record that
    # has it and nothing behind it.
    faults = [
        ("three stray bytes", 2, 0, "unfinished header", b"\x01\x00\x00"),
        ("body past the end", 2, 0, "body past the end", good[:-1]),
        ("number 0", 5, 0, "sequence number", record(0, compose(TIME))),
        ("number 10^12 + 1", 5, 0, "sequence number", record(10**12 + 1, compose(TIME))),
        ("empty body", 3, 10, "empty body", record(2, b"")),
        ("unknown type", 3, 10, "unknown type", record(2, b"\x00" + compose(TIME)[1:])),
        ("wrong length", 3, 10, "System Time, wrong length", record(2, compose(TIME) + b"\x00")),
        ("price 0", 4, 10 + 17, "Modify Order, price", record(2, compose(MODIFY, price=0))),
        ("10^9 nanoseconds", 4, 10 + 1, "Symbol Clear, nanoseconds",
         record(2, compose(CLEAR, nanoseconds=10**9))),
    ]
    for label, refusal, at, words, part in faults:
        first, second, third = ("record %d, %s" % (place, words) for place in (1, 2, 3))
        vectors.bad("good, then " + label, refusal, 15 + at, second, good + part)
        vectors.bad("good, good, then " + label, refusal, 15 + 19 + at, third, good + clear + part)
        if refusal == 2:
            continue  # nothing can stand behind these
        vectors.bad(label + ", then good", refusal, at, first, part + good)
        vectors.bad("good, then " + label + ", then good", refusal, 15 + at, second,
                    good + part + good)
        for other, _, _, _, behind in faults:
            vectors.bad(label + ", then " + other, refusal, at, first, part + behind)
    number_0, empty, unknown, price_0 = (faults[place][4] for place in (2, 4, 5, 7))
    number_over = faults[3][4]
    vectors.bad("a record past the end takes a record of number 0 with it", 2, 0, past,
                record(1, add, 200) + record(0, add))
    vectors.bad("a body of wrong length takes a good record with it", *wrong_length(TIME),
                record(1, compose(TIME) + good))
    vectors.bad("an Add whose header claims the 17 bytes of a Delete", *wrong_length(ADD),
                record(1, add, 17))
    vectors.bad("4, then 3, then 5, then 2", 4, 10 + 17, "record 1, Modify Order, price",
                price_0 + unknown + number_0 + b"1")
    vectors.bad("good, 3, 5, 4, 2", 3, 15 + 10, "record 2, empty body",
                good + empty + number_over + price_0 + b"1")
    vectors.bad("good, 5, 4, 3, good", 5, 15, "record 2, sequence number",
                good + number_0 + price_0 + empty + good)


# A record with a fault beside two good ones of 15 and 19 bytes: which of the three it is and where
# it starts, and what stands before and behind it.
FRONT, REAR = record(7, compose(TIME)), record(9, compose(CLEAR))
PLACES = [
    ("first of three", 1, 0, b"", FRONT + REAR),
    ("in the middle", 2, 15, FRONT, REAR),
    ("last of three", 3, 15 + 19, FRONT + REAR, b""),
]

# One fault of each kind: its refusal, the offset in its record, the words, and the record. Behind
# the first two no other record can stand.
ONE_OF_EACH = [
    ("5 header bytes", 2, 0, "unfinished header", FRONT[:5]),
    ("body past the end", 2, 0, "body past the end", record(8, compose(ADD), 1500)),
    ("number 0", 5, 0, "sequence number", record(0, compose(ADD))),
    ("empty body", 3, 10, "empty body", record(8, b"")),
    ("type 22", 3, 10, "unknown type", record(8, b"\x16" + compose(ADD)[1:])),
    ("a Trade of 30 bytes", 3, 10, "Trade, wrong length", record(8, compose(TRADE)[:-1])),
    ("10^9 nanoseconds", 4, 10 + 1, "System State, nanoseconds",
     record(8, compose(STATE, nanoseconds=10**9))),
    ("size 0", 4, 10 + 33, "Order Execution, size", record(8, compose(EXECUTION, size=0))),
    ("market D", 4, 10 + 41, "Symbol Update, market", record(8, compose(UPDATE, market=68))),
]


def add_bad_fields(vectors):
    """Each judged field of each message, bad by itself and with every choice of the others: of
    several the one that lies first is told. Alone, and as each of three records."""
    for kind, starts in STARTS.items():
        for count in range(1, len(starts) + 1):
            for fields in itertools.combinations(starts, count):
                label = "type %d, bad %s" % (kind, " and ".join(fields))
                part = record(8, compose(kind, **{field: WRONG[field] for field in fields}))
                if count > 1:  # a single one stands above, with other values too
                    vectors.bad(label, *bad_field(kind, fields[0]), part)
                for where, place, start, before, behind in PLACES:
                    vectors.bad("%s, %s" % (label, where),
                                *bad_field(kind, fields[0], place, start), before + part + behind)
        for field in starts:
            changes = {**not_judged(kind)[1], field: WRONG[field]}
            vectors.bad("type %d, bad %s, all that is not judged largest" % (kind, field),
                        *bad_field(kind, field), record(8, compose(kind, **changes)))


def add_bad_records(vectors):
    """Each fault that is no field's, as each of three records. An unfinished header can only be the
    last, and an empty body behind all others starts where the packet ends."""
    faults = ONE_OF_EACH[2:5]
    faults += [("number %d" % number, 5, 0, "sequence number", record(number, compose(TIME)))
               for number in (10**12 + 1, 2**64 - 1)]
    faults += [("type %d" % kind, 3, 10, "unknown type", record(8, bytes([kind]) + bytes(4)))
               for kind in (0, 2, 255)]
    for kind in KINDS:
        for body in (compose(kind)[:-1], compose(kind) + b"\x00"):
            faults.append(("type %d with %d bytes" % (kind, len(body)), 3, 10,
                           PRINTED[kind][1] + ", wrong length", record(8, body)))
    for where, place, start, before, behind in PLACES:
        for label, refusal, at, words, part in faults:
            vectors.bad("%s, %s" % (label, where), refusal, start + at,
                        "record %d, %s" % (place, words), before + part + behind)
        for kind in KINDS:
            body = compose(kind)
            claims = len(body) + len(behind) + 1
            vectors.bad("type %d past the packet's end by 1, %s" % (kind, where),
                        2, start, "record %d, body past the end" % place,
                        before + record(8, body, claims) + behind)
    for length in range(1, 10):
        vectors.bad("%d header bytes behind two records" % length,
                    2, 15 + 19, "record 3, unfinished header", FRONT + REAR + FRONT[:length])


# What good records have so many bytes more than some whole System Times of 15 bytes.
REST = {0: [], 1: [DELETE, CLEAR], 2: [STATUS, STATE], 3: [EXECUTION], 4: [CLEAR],
        5: [STATE, CANCEL], 6: [EXECUTION, EXECUTION], 7: [UPDATE], 8: [CLEAR, CLEAR],
        9: [DELETE, DELETE], 10: [MODIFY], 11: [TRADE], 12: [DELETE], 13: [STATE, EXECUTION],
        14: [ADD]}


def fill(length):
    """Good records of so many bytes together, and how many they are."""
    others = b"".join(record(1, compose(kind)) for kind in REST[length % 15])
    times = (length - len(others)) // 15
    records = others + FRONT * times
    if len(records) != length:
        sys.exit("no good records of %d bytes" % length)
    return records, len(REST[length % 15]) + times


def add_far_offsets(vectors):
    """Offsets that one byte cannot tell, and the last ones that a packet has."""
    for offset in (255, 256, 257, 511, 512, 1023, 1024):
        for label, refusal, at, words, part in ONE_OF_EACH:
            front, count = fill(offset - at)
            vectors.bad("%s, told at %d" % (label, offset), refusal, offset,
                        "record %d, %s" % (count + 1, words), front + part)

    # Packets of 1,500 bytes with a fault in their last record.
    ends = [("%d header bytes" % length, 2, 0, "unfinished header", FRONT[:length])
            for length in range(1, 10)]
    ends += ONE_OF_EACH[1:6]
    ends.append(("body past the end by 1", 2, 0, "body past the end", record(8, compose(ADD), 35)))
    for kind in KINDS:
        ends.append(("type %d, a byte too many" % kind, 3, 10, PRINTED[kind][1] + ", wrong length",
                     record(8, compose(kind) + b"\x00")))
        for field, start in STARTS.get(kind, {}).items():
            ends.append(("type %d, bad %s" % (kind, field), 4, 10 + start,
                         "%s, %s" % (PRINTED[kind][1], CALLED[field]),
                         record(8, compose(kind, **{field: WRONG[field]}))))
    for label, refusal, at, words, part in ends:
        front, count = fill(1500 - len(part))
        vectors.bad("1,500 bytes: %s at the end" % label, refusal, 1500 - len(part) + at,
                    "record %d, %s" % (count + 1, words), front + part)
    for length in range(1, 10):
        vectors.bad("%d header bytes behind 20 records" % length,
                    2, 20 * 15, "record 21, unfinished header", FRONT * 20 + FRONT[:length])
        vectors.bad("%d header bytes behind 99 records" % length,
                    2, 99 * 15, "record 100, unfinished header", FRONT * 99 + FRONT[:length])
    for label, refusal, at, words, part in ONE_OF_EACH[2:]:
        vectors.bad("%s in front, and a record of number 0 far behind" % label, refusal, at,
                    "record 1, %s" % words, part + FRONT * 80 + record(0, compose(TIME)))
        vectors.bad("%s in the second of 90 records, and 9 bytes more" % label, refusal, 15 + at,
                    "record 2, %s" % words, FRONT + part + FRONT * 88 + bytes(9))


def add_faults_of_two_records(vectors):
    """Each judged field of each message in front of every other fault, whose offset may be smaller
    in its own record, and behind each that is no field's: the front record is told."""
    for kind, starts in STARTS.items():
        for field in starts:
            part = record(8, compose(kind, **{field: WRONG[field]}))
            label = "type %d, bad %s" % (kind, field)
            for other, _, _, _, behind in ONE_OF_EACH:
                vectors.bad("%s, then %s" % (label, other), *bad_field(kind, field, 2, 15),
                            FRONT + part + behind)
            for other, refusal, at, words, before in ONE_OF_EACH[2:6]:
                vectors.bad("%s, then %s" % (other, label), refusal, 15 + at,
                            "record 2, %s" % words, FRONT + before + part)


def add_faults_at_once(vectors):
    """Two, three and all four of the refusals 2, 5, 3 and 4 in one record, as each of three: the
    one that is tried first is told."""
    unknown, longer = "unknown type", "Add Order, wrong length"
    for count in (2, 3, 4):
        for several in itertools.combinations((2, 5, 3, 4), count):
            for three in (unknown, longer) if 3 in several else ("",):
                body = compose(ADD, price=0 if 4 in several else 1)
                if three == unknown:
                    body = b"\x16" + body[1:]
                elif three == longer:
                    body += b"\x00"
                part = record(0 if 5 in several else 8, body, 2000 if 2 in several else None)
                label = "%s at once %s" % (" and ".join(map(str, several)), three)
                at, words = {2: (0, "body past the end"), 5: (0, "sequence number"),
                             3: (10, three)}[several[0]]
                for where, place, start, before, behind in PLACES:
                    vectors.bad("%s, %s" % (label, where), several[0], start + at,
                                "record %d, %s" % (place, words), before + part + behind)


def random_records(dice, count):
    """Up to `count` good records that fit in a packet, numbered on or at random."""
    records, room = [], LARGEST_PACKET
    number = dice.spread(1, LARGEST_NUMBER - 100)
    for _ in range(count):
        kind, changes = dice.message()
        room -= len(record(number, compose(kind, **changes)))
        if room < 0:
            break
        records.append((number, kind, changes))
        number = dice.spread(1, LARGEST_NUMBER - 100) if dice.below(4) == 0 else number + 1
    return records


def damage(dice, packet):
    """A damaged copy: a byte changed, bytes cut off, taken out or put in, or bytes behind."""
    starts = [0]
    while starts[-1] < len(packet):
        starts.append(starts[-1] + HEADER + little(packet[starts[-1] + 8:starts[-1] + HEADER]))
    start = dice.pick(starts[:-1])
    at = dice.below(len(packet))
    way = dice.below(10)
    if way < 2:  # any byte to any other
        return packet[:at] + bytes([packet[at] ^ dice.between(1, 255)]) + packet[at + 1:]
    if way < 5:  # a bit of a header or of a type byte
        at = start + dice.below(HEADER + 1)
        return packet[:at] + bytes([packet[at] ^ 1 << dice.below(8)]) + packet[at + 1:]
    if way < 7:  # up to 8 bytes of a body to zero or to 255
        at = start + HEADER + 1 + dice.below(len(packet) - start - HEADER - 1)
        end = min(len(packet), at + dice.between(1, 8))
        return packet[:at] + dice.pick([b"\x00", b"\xff"]) * (end - at) + packet[end:]
    if way == 7:  # the end cut off
        return packet[:-dice.pick([1, 1, 1, 5, 9, 10, 11])]
    if way == 8:  # bytes behind
        return packet + bytes(dice.below(256) for _ in range(dice.between(1, 20)))
    if dice.below(2) == 0:  # a byte taken out
        return packet[:at] + packet[at + 1:]
    return packet[:at] + bytes([dice.below(256)]) + packet[at:]  # a byte put in


def add_random(vectors):
    """Random good packets, and damaged copies of such packets."""
    dice = Dice(20230925)
    sizes = [40, 25, 12, 8, 7, 6, 5, 4] + [1 + turn % 7 // 4 for turn in range(172)]
    for turn, count in enumerate(sizes):
        vectors.good("random good packet %d" % (turn + 1), *random_records(dice, count))
    for turn in range(250):
        packet = b"".join(record(number, compose(kind, **changes))
                          for number, kind, changes in random_records(dice, 1 + turn % 2))
        vectors.unstated("damaged packet %d" % (turn + 1), damage(dice, packet))


# A byte 20 that is no security type: next to the letters, the letters in lower case, no letter.
NO_TYPES = (0, ord(" "), ord("D"), ord("G"), ord("e"), ord("f"), 255)
NO_TYPE = "Symbol Update, security type"


def update(byte, **others):
    """A Symbol Update with this byte at 20, the same whichever edition composes it."""
    body = compose(UPDATE, OLDER, security=byte, **others)
    if body != compose(UPDATE, LATER, reserved20=byte, **others):
        sys.exit("the editions compose another Symbol Update")
    return body


def update_line(number, byte, edition):
    """The line of a good Symbol Update with this byte at 20: only 1.3 prints it."""
    field = {OLDER: "security", LATER: "reserved20"}[edition]
    return stated_line(number, UPDATE, edition, **{field: byte})


def add_byte_20(vectors):
    """Every value of byte 20 in a Symbol Update alone; document 01's example with both types; and
    the letters in the places beside it."""
    for byte in range(256):
        later = ["records 1", update_line(1, byte, LATER)]
        older = ["records 1", update_line(1, byte, OLDER)]
        if chr(byte) not in "EF":
            older = ["refused 4 at 30: record 1, " + NO_TYPE]
        vectors.by_edition("byte 20 is %d" % byte, record(1, update(byte)), older, later)
    for letter, byte in (("E", 69), ("F", 70)):
        symbol = EXAMPLE_BYTES[1][:30] + letter.encode("ascii") + EXAMPLE_BYTES[1][31:]
        front, behind = ("2 1 7 65 66 67 32 32 32 32 32 32 32 32",
                         "100 48 57 58 51 48 58 48 48 49 54 58 48 48 58 48 48 72")
        adds = ["3 20 0 7 500 66 10000000 100 538976288", "4 20 0 7 501 83 10020000 200 538976288",
                "5 20 0 7 502 66 10000000 50 538976288"]
        vectors.by_edition(
            "the example with type %s" % letter,
            b"".join([EXAMPLE_BYTES[0], symbol, *EXAMPLE_BYTES[2:]]),
            ["records 5", "1 49 34200", "%s %d %s" % (front, byte, behind), *adds],
            ["records 5", "1 49 34200", "%s %s" % (front, behind), *adds])
    for letter in b"EF":
        beside = {"ticker": bytes([letter] * 11), "reserved22": letter}
        for byte in NO_TYPES:
            packet = record(1, update(byte, **beside))
            vectors.by_edition(
                "byte 20 is %d between letters %c" % (byte, letter), packet,
                ["refused 4 at 30: record 1, " + NO_TYPE],
                ["records 1", stated_line(1, UPDATE, reserved20=byte, **beside)])
        for other in (0, 255):
            beside = {"ticker": bytes([other] * 11), "reserved22": other}
            vectors.by_edition(
                "type %c between bytes %d" % (letter, other), record(1, update(letter, **beside)),
                ["records 1", stated_line(1, UPDATE, OLDER, security=letter, **beside)],
                ["records 1", stated_line(1, UPDATE, reserved20=letter, **beside)])


def between(place, line):
    """The lines of a good packet of three whose record of this place has this line."""
    lines = ["7 49 34200", "9 5 1004 7"]  # FRONT and REAR
    lines.insert(place - 1, line)
    return ["records 3", *lines]


def add_types_beside_bad_fields(vectors):
    """Types, and bytes that are none, beside every choice of the other judged fields of a Symbol
    Update, alone and as each of three records: of several bad ones the first by its place is told,
    and byte 20 lies behind the Timestamp and in front of test and market."""
    offsets = {"nanoseconds": 1, "test": 21, "market": 41}
    words = {"nanoseconds": "nanoseconds", "test": "test indicator", "market": "market"}
    choices = [fields for count in range(4) for fields in itertools.combinations(offsets, count)]
    for byte, fields in itertools.product((*b"EF", *NO_TYPES), choices):
        part = record(8, update(byte, **{field: WRONG[field] for field in fields}))
        label = "byte 20 is %d, bad %s" % (byte, " and ".join(fields) or "nothing else")
        for where, place, start, before, behind in [("alone", 1, 0, b"", b""), *PLACES]:
            if fields:
                told = "record %d, Symbol Update, %s" % (place, words[fields[0]])
                later = [refused(4, start + 10 + offsets[fields[0]], told)]
            elif where == "alone":
                continue  # it stands above, with every byte
            else:
                later = between(place, update_line(8, byte, LATER))
            if byte not in b"EF" and "nanoseconds" not in fields:
                older = [refused(4, start + 10 + 20, "record %d, %s" % (place, NO_TYPE))]
            else:
                older = later if fields else between(place, update_line(8, byte, OLDER))
            vectors.by_edition("%s, %s" % (label, where), before + part + behind, older, later)


def add_types_beside_other_faults(vectors):
    """Types, and bytes that are none, beside a wrong length, a bad number and a body past the end,
    as each of three records: 2, 5 and 3 come before 4, so both editions tell the same."""
    for byte, one in itertools.product((*b"EF", 0, ord("G")), PLACES):
        where, place, start, before, behind = one
        good = update(byte)

        def alike(label, number, offset, words, part):
            lines = [refused(number, start + offset, "record %d, %s" % (place, words))]
            vectors.by_edition("byte 20 is %d, %s, %s" % (byte, label, where),
                               before + part + behind, lines, lines)
        for length in (1, 20, 21, 22, 41, 43, 64, 74, 256 + 42):
            alike("%d bytes" % length, 3, 10, "Symbol Update, wrong length",
                  record(8, (good + bytes(256))[:length]))
        alike("a type that is none", 3, 10, "unknown type", record(8, b"\x02" + good[1:]))
        for number in (0, 10**12 + 1, 2**64 - 1):
            alike("number %d" % number, 5, 0, "sequence number", record(number, good))
        alike("number 0 and 41 bytes", 5, 0, "sequence number", record(0, good[:-1]))
        for more in (1, 1500):
            alike("%d past the end" % more, 2, 0, "body past the end",
                  record(8, good, len(good) + len(behind) + more))
        alike("number 0, past the end", 2, 0, "body past the end",
              record(0, good, len(good) + len(behind) + 1))
        for length in (1501, 1502):
            packet = before + record(8, good) + behind
            vectors.bad_length("%d bytes with byte 20 %d, %s" % (length, byte, where),
                               packet + bytes(length - len(packet)))


def add_several_types(vectors):
    """Symbol Updates that are good in 1.3.b alone, before and behind other records: 1.3 tells the
    first of them, and 1.3.b what else there is. No record is good in 1.3 alone."""
    bytes_20 = (*b"EF", 0, ord("G"))
    for first, second in itertools.product(bytes_20, bytes_20):
        older = ["records 2", update_line(6, first, OLDER), update_line(8, second, OLDER)]
        if second not in b"EF":
            older = ["refused 4 at %d: record 2, %s" % (52 + 30, NO_TYPE)]
        if first not in b"EF":
            older = ["refused 4 at 30: record 1, " + NO_TYPE]
        vectors.by_edition(
            "bytes 20 of two are %d and %d" % (first, second),
            record(6, update(first)) + record(8, update(second)), older,
            ["records 2", update_line(6, first, LATER), update_line(8, second, LATER)])
    faults = ONE_OF_EACH[:-1]
    faults.append(("market D", 4, 10 + 41, "Symbol Update, market",
                   record(8, update(ord("E"), market=ord("D")))))
    for label, refusal, at, words, part in faults:
        for letter in b"EF":
            lines = [refused(refusal, 15 + 52 + at, "record 3, %s" % words)]
            vectors.by_edition("type %c, then %s" % (letter, label),
                               FRONT + record(6, update(letter)) + part, lines, lines)
        for byte in NO_TYPES:
            vectors.by_edition(
                "byte 20 is %d, then %s" % (byte, label), FRONT + record(6, update(byte)) + part,
                [refused(4, 15 + 30, "record 2, %s" % NO_TYPE)],
                [refused(refusal, 15 + 52 + at, "record 3, %s" % words)])
    for label, refusal, at, words, part in faults[2:]:  # nothing can stand behind the others
        lines = [refused(refusal, 15 + at, "record 2, %s" % words)]
        vectors.by_edition("%s, then byte 20 is 0" % label, FRONT + part + record(9, update(0)),
                           lines, lines)
    # The first bad field of a Symbol Update in front of a later one without a type.
    for field in ("nanoseconds", "test", "market"):
        lines = [refused(*bad_field(UPDATE, field, 2, 15))]
        part = record(6, update(ord("F"), **{field: WRONG[field]}))
        vectors.by_edition("bad %s, then byte 20 is 0" % field,
                           FRONT + part + record(8, update(0)), lines, lines)


def add_far_types(vectors):
    """Bytes that are no security type at offsets that one byte cannot tell, and the last that a
    packet of 1,500 bytes has."""
    for offset in (255, 256, 257, 511, 512, 1023, 1024, 1500 - 42 + 20):
        front, count = fill(offset - 30)
        kinds = REST[(offset - 30) % 15]
        lines = [stated_line(1, kind) for kind in kinds] + ["7 49 34200"] * (count - len(kinds))
        for byte in (*b"EF", 0, ord("G")):
            later, older = (["records %d" % (count + 1), *lines, update_line(8, byte, edition)]
                            for edition in (LATER, OLDER))
            if byte not in b"EF":
                older = [refused(4, offset, "record %d, %s" % (count + 1, NO_TYPE))]
            vectors.by_edition("byte 20 is %d, at %d" % (byte, offset),
                               front + record(8, update(byte)), older, later)
    ends = [(4, 10 + start, "Symbol Update, " + CALLED[field],
             update(ord("E"), **{field: WRONG[field]})) for field, start in STARTS[UPDATE].items()]
    ends += [(3, 10, "Symbol Update, wrong length", update(byte)[:-1]) for byte in (ord("E"), 0)]
    for refusal, at, words, body in ends:
        start = 1500 - 10 - len(body)
        front, count = fill(start)
        lines = [refused(refusal, start + at, "record %d, %s" % (count + 1, words))]
        vectors.by_edition("1,500 bytes: %s, byte 20 is %d" % (words, body[20]),
                           front + record(8, body), lines, lines)


def add_byte_20_of_others(vectors):
    """All eleven messages with letters and other bytes at their own byte 20, where they have one,
    and behind them where the next record has it: only a Symbol Update is judged there."""
    def other(kind, field, at, byte):
        """The message with this byte in the place that is `at` bytes behind the field's first."""
        usual = dict((name, value) for name, _, value in LAYOUT[kind])[field]
        value = usual & ~(255 << 8 * at) | byte << 8 * at
        if compose(kind, **{field: value})[20] != byte:
            sys.exit("byte 20 of type %d is not %d" % (kind, byte))
        return kind, {field: value}
    for byte in (*b"EF", *NO_TYPES):
        parts = [other(ADD, "price", 2, byte), other(MODIFY, "price", 3, byte),
                 other(EXECUTION, "trade", 3, byte), other(TRADE, "price", 2, byte),
                 other(CANCEL, "price", 2, byte)]
        for kind, changes in parts:
            vectors.good("type %d, its byte 20 is %d" % (kind, byte), (1, kind, changes))
        # A Delete has 17 bytes, a Symbol Clear 9, a System Time 5.
        vectors.good("byte %d at 20 from a Delete's type, in the next number" % byte,
                     (1, DELETE), (byte * 2**24 + 1, TIME))
        vectors.good("byte %d at 20 from a Symbol Clear's type, in the next nanoseconds" % byte,
                     (1, CLEAR), (2, CLEAR, {"nanoseconds": byte}))
        vectors.good("byte %d at 20 from a System Time's type, in the next symbol" % byte,
                     (1, TIME), (2, CLEAR, {"symbol": byte}))
        short = [(TIME, {}), (STATE, {}), (STATUS, {}), (CLEAR, {}), (DELETE, {})]
        for letter in (byte, ord("E")):
            later, older = (
                ["records 11", *(stated_line(number, kind, **changes)
                                 for number, (kind, changes) in enumerate(short + parts, 1)),
                 update_line(11, letter, edition)] for edition in (LATER, OLDER))
            # In front of it stand 15 + 25 + 22 + 19 + 27 + 44 + 40 + 48 + 41 + 40 bytes.
            if letter not in b"EF":
                older = [refused(4, 321 + 30, "record 11, %s" % NO_TYPE)]
            vectors.by_edition(
                "all eleven, byte 20 is %d, of the Symbol Update %d" % (byte, letter),
                b"".join(record(number, compose(kind, **changes))
                         for number, (kind, changes) in enumerate(short + parts, 1))
                + record(11, update(letter)), older, later)


def add_random_types(vectors):
    """Random good packets with Symbol Updates of both types and of none, and damaged copies."""
    dice = Dice(20200715)
    packets = []
    for turn in range(150):
        records = random_records(dice, 1 + turn % 3)
        kind, changes = dice.message(UPDATE)
        records.insert(dice.below(len(records) + 1), (dice.between(1, 10**6), kind, changes))
        for _, kind, changes in records:
            if kind == UPDATE:
                changes["reserved20"] = dice.pick(b"EEEFFF\x00G")
        packets.append(vectors.good("random good packet with a type %d" % (turn + 1), *records))
    for turn, packet in enumerate(packets):
        vectors.unstated("damaged packet with a type %d" % (turn + 1), damage(dice, packet))


def compare_tables():
    """The reader, the composer and document 01's table against the tables that are printed."""
    if not set(PRINTED) == set(MESSAGES) == set(LAYOUT):
        sys.exit("the tables have not the same types")
    for edition in EDITIONS:
        for kind in PRINTED:
            compare_message(kind, edition)
        for kind in SCOPE:
            compare_scope(kind, edition)


def compare_message(kind, edition):
    """What the reader and the composer have of a message against its printed table."""
    name = PRINTED[kind][1]
    told = "%s in %s" % (name, edition)
    spans = [(first, last) for _, first, last, _ in places(kind, edition)][1:]
    fields = read_fields(kind, edition)
    if MESSAGES[kind][:2] != (name, length_of(kind, edition)):
        sys.exit("%s: the reader has another name or length" % told)
    if [(first, last) for _, first, last, _ in fields] != spans:
        sys.exit("%s: the reader has other offsets" % told)
    composed = layout(kind, edition)
    if [width for _, width, _ in composed] != [last - first + 1 for first, last in spans]:
        sys.exit("%s: the composer has other lengths" % told)
    if [field for field, _, _ in composed] != [field for field, _, _, _ in fields]:
        sys.exit("%s: the reader and the composer have other fields" % told)
    unprinted = [field for field, _, _, form in fields if form == HIDDEN]
    if unprinted != [field for field, _, _ in composed if (kind, field) in UNPRINTED]:
        sys.exit("%s: the reader does not print what is stated" % told)
    judged = [(fields[place - 1][0], first)
              for place, (field, first, _, _) in enumerate(places(kind, edition))
              if field in RANGES and kind in RANGES[field][1]]
    if judged != list(starts_in(kind, edition).items()):
        sys.exit("%s: other fields are judged, or start elsewhere" % told)


def compare_scope(kind, edition):
    """What the reader has of a message against document 01, and for 1.3 document 02."""
    length, fields = SCOPE[kind]
    if edition == OLDER and kind in SCOPE_IN_1_3:
        fields = fields.replace(*SCOPE_IN_1_3[kind])
    called = {"reserved20": "reserved", "reserved22": "reserved", "security": "Security Type",
              "attributable": "attributable ID"}
    listed = ", ".join("%s %s" % (called.get(field, field), span(first, last))
                       for field, first, last, _ in read_fields(kind, edition))
    if (length, fields) != (MESSAGES[kind][1], listed):
        sys.exit("type %d in %s: the documents have %d bytes, %s" % (kind, edition, length, fields))


def all_vectors():
    """All packets, with the tables, the reader, the composer and the stated lines compared."""
    compare_tables()
    vectors = Vectors()
    add_exercises(vectors)
    add_lengths_of_packets(vectors)
    add_long_packets(vectors)
    add_types_and_lengths(vectors)
    add_judged_fields(vectors)
    add_timestamps(vectors)
    add_fields_not_judged(vectors)
    add_numbers(vectors)
    add_several_faults(vectors)
    add_bad_fields(vectors)
    add_bad_records(vectors)
    add_far_offsets(vectors)
    add_faults_of_two_records(vectors)
    add_faults_at_once(vectors)
    add_random(vectors)
    add_byte_20(vectors)
    add_types_beside_bad_fields(vectors)
    add_types_beside_other_faults(vectors)
    add_several_types(vectors)
    add_far_types(vectors)
    add_byte_20_of_others(vectors)
    add_random_types(vectors)
    for place, vector in enumerate(vectors.list, 1):
        for edition in EDITIONS:
            compare_vector(place, vector, edition)
    return vectors.list


def compare_vector(place, vector, edition):
    """What the reader gives for a packet against what is stated, and composed again."""
    stated, lines = vector.stated[edition], expected_lines(vector.packet, edition)
    if stated is not None and lines != stated:
        sys.exit("packet %d (%s) in %s: the reader gives %s, stated is %s" % (
            place, vector.label, edition, lines, stated))
    if lines[0].startswith("records"):
        again = b"".join(record(number, compose(kind, edition, **values))
                         for number, kind, values in read_packet(vector.packet, edition))
        if again != vector.packet:
            sys.exit("packet %d (%s) in %s: what was read does not compose to the same bytes" % (
                place, vector.label, edition))


# ---------------------------------------------------------------------------------------------
# The outputs
# ---------------------------------------------------------------------------------------------


def recording(vectors):
    """All packets, each behind its 2-byte length."""
    return b"".join(len(v.packet).to_bytes(2, "little") + v.packet for v in vectors)


def expected_text(vectors, edition):
    """All lines, each ended by a line feed."""
    lines = [line for v in vectors for line in expected_lines(v.packet, edition)]
    return "".join(line + "\n" for line in lines).encode("ascii")


def check(vectors, path, edition):
    """Compare a file with the expected text; 0 if they are equal, else 1."""
    with open(path, "rb") as file:
        given = file.readlines()
    wanted = [(place, (line + "\n").encode("ascii"))
              for place, v in enumerate(vectors, 1) for line in expected_lines(v.packet, edition)]
    for index in range(max(len(given), len(wanted))):
        line = given[index] if index < len(given) else None
        place, want = wanted[index] if index < len(wanted) else (None, None)
        if line == want:
            continue
        print("line %d differs" % (index + 1))
        print("expected: %s" % ("no more lines" if want is None else repr(want)))
        print("found:    %s" % ("no more lines" if line is None else repr(line)))
        if place is not None:
            vector = vectors[place - 1]
            shown = vector.packet[:LARGEST_PACKET + 1]
            print("packet %d, %d bytes: %s" % (place, len(vector.packet), vector.label))
            print(shown.hex(" ") + (" .." if len(shown) < len(vector.packet) else ""))
        return 1
    print("equal: %d packets, %d lines" % (len(vectors), len(wanted)))
    return 0


def tables_of(page):
    """The page's tables, each as its section's title and rows of (line number, {heading: cell})."""
    title, headings, rows = "", None, []
    for number, line in enumerate(page.splitlines() + [""], 1):
        if line.startswith("|"):
            cells = [cell.strip() for cell in line.strip().strip("|").split("|")]
            if headings is None:
                headings = cells
            elif not set(line) <= set("|-: "):
                rows.append((number, dict(zip(headings, cells))))
            continue
        if headings is not None:
            yield title, headings, rows
            headings, rows = None, []
        if line.startswith("#"):
            title = line.lstrip("#").strip()


# For docs/MESSAGES.md, second records behind the System Time of document 01's example. The page
# states by hand what they are refused with, and the reader reads them.
SECOND_RECORDS = [
    ("3 bytes, and no more", b"\x02\x00\x00"),
    ("an Add whose header claims 35 bytes", record(2, compose(ADD), 35)),
    ("an Add with number 0", record(0, compose(ADD))),
    ("no body: the packet ends behind the header", record(2, b"")),
    ("an Add with type 22", record(2, b"\x16" + compose(ADD)[1:])),
    ("an Add of 33 bytes", record(2, compose(ADD)[:-1])),
    ("an Add with 1,000,000,000 nanoseconds", record(2, compose(ADD, nanoseconds=10**9))),
    ("an Add with side `X`", record(2, compose(ADD, side=ord("X")))),
    ("an Add with price 0", record(2, compose(ADD, price=0))),
    ("an Add with price 0 and size 0", record(2, compose(ADD, price=0, size=0))),
    ("an Add with size 0", record(2, compose(ADD, size=0))),
    ("a Modify with size 0", record(2, compose(MODIFY, size=0))),
    ("a Symbol Update with market `D`", record(2, update(ord("E"), market=ord("D")))),
]


# And Symbol Updates in that place, by their byte 20, which the editions read otherwise.
SECOND_UPDATES = [
    ("`E`", update(ord("E"))),
    ("`F`", update(ord("F"))),
    ("`G`", update(ord("G"))),
    ("0", update(0)),
    ("`G`, and 1,000,000,000 nanoseconds", update(ord("G"), nanoseconds=10**9)),
    ("`G`, and test indicator `X`", update(ord("G"), test=ord("X"))),
    ("`E`, and test indicator `X`", update(ord("E"), test=ord("X"))),
    ("`G`, and market `D`", update(ord("G"), market=ord("D"))),
    ("`G`, and a byte too many", update(ord("G")) + b"\x00"),
]


def outcome(part, edition):
    """What becomes of a packet of the example's System Time and this record: number and offset."""
    first = expected_lines(EXAMPLE_BYTES[0] + part, edition)[0]
    return "good" if first.startswith("records") else first.split(":")[0].split(" ", 1)[1]


def tables_of_editions():
    """The tables of docs/MESSAGES.md about the editions: the documents, what they print otherwise
    in any message, and what becomes of a Symbol Update."""
    called = {edition: " and ".join(name for name in NAMES if NAMES[name] == edition)
              for edition in EDITIONS}
    yield (["Document", "Version", "Revision date", "Edition here"],
           [[document, version, date, called[NAMES[version]]]
            for document, (version, date) in DOCUMENTS.items()])
    rows = []
    for kind in PRINTED:
        fields = {edition: list(places(kind, edition)) for edition in EDITIONS}
        for place, (older, later) in enumerate(zip(*fields.values())):
            if older != later:
                rows += [[PRINTED[kind][1], called[edition], field, span(first, last),
                          str(last - first + 1), data_type, range_of(kind, field)]
                         for edition in EDITIONS
                         for field, first, last, data_type in [fields[edition][place]]]
    yield ["Message", "Edition", "Field", "Offset", "Length", "Data type", "Range"], rows
    yield (["Byte 20", "In 1.3", "In 1.3.a and 1.3.b"],
           [[label, *(outcome(record(2, body), edition) for edition in EDITIONS)]
            for label, body in SECOND_UPDATES])


def range_of(kind, field):
    """The range of a printed field, as the tables of docs/MESSAGES.md have it."""
    return RANGES[field][0] if kind in RANGES.get(field, ("", []))[1] else "not judged"


def wanted_tables():
    """The tables that docs/MESSAGES.md must have, as title: (headings, rows in their order)."""
    short = {20: "Add", 21: "Modify"}
    price = "1 to 1,000,000,000,000,000"
    messages = {field: ", ".join(short.get(kind, PRINTED[kind][1]) for kind in kinds)
                for field, (_, kinds) in RANGES.items()}
    sums = [kind for kind in PRINTED if kind not in SCOPE]
    refusals = [[str(number), offset] for number, offset in REFUSALS_IN_ORDER.items()]
    # A cell that no page has, if the editions differ.
    second = [[label, " or ".join({outcome(part, edition) for edition in EDITIONS})]
              for label, part in SECOND_RECORDS]
    wanted = {
        "Types and lengths": [
            (["Message", "Section of 003", "Type", "Length in bytes"],
             [[name, section, str(kind), str(length_of(kind))]
              for kind, (section, name, _) in PRINTED.items()]),
            (["Message", "Field lengths", "Sum"],
             [[PRINTED[kind][1], " + ".join(str(width) for _, width, _ in PRINTED[kind][2]),
               str(length_of(kind))] for kind in sums])],
        "How packets and records wrap bodies (\"From the tap\")": [
            (["Part", "Offset in the record", "Length"],
             [["sequence number", span(0, 7), "8"], ["body length", span(8, HEADER - 1), "2"],
              ["body", "%d on" % HEADER, "as the body length says"]])],
        "Refusals, in their order (\"Refused, and what is left\")": [
            (["No.", "Offset"], refusals[:1]), (["No.", "Offset"], refusals[1:])],
        "Where the fault is (document 02, No. 5)": [(["Second record", "Refused"], second)],
        "Which fields are judged (\"Field ranges\")": [
            (["Field", "Good values", "In which messages"], [
                [CALLED[field], *cells] for field, *cells in (
                    ("nanoseconds", RANGES["Timestamp"][0], "all but %s" % ", ".join(
                        PRINTED[kind][1] for kind in PRINTED
                        if kind not in RANGES["Timestamp"][1])),
                    ("side", "`B` (66) or `S` (83)", messages["Order Side"]),
                    ("price", price, messages["Price"]),
                    ("size", "1 to 4,294,967,295 (the most that 4 bytes hold)", "the same five"),
                    ("security", "`E` (69) or `F` (70)",
                     "%s, in 1.3 alone" % messages["Security Type"]),
                    ("test", "`Y` (89) or `N` (78)", messages["Test Security Indicator"]),
                    ("market", RANGES["Primary Market Code"][0],
                     messages["Primary Market Code"]))])],
        "Editions (document 02, No. 10)": list(tables_of_editions()),
    }
    for kind, (section, name, _) in PRINTED.items():
        rows = []
        for field, first, last, data_type in places(kind):
            row = [field, span(first, last), str(last - first + 1), data_type,
                   range_of(kind, field)]
            rows.append(row if first else row[:4] + ["decides the message"])
        title = "%s (%s): type %d, %d bytes" % (name, section, kind, length_of(kind))
        wanted[title] = [(["Field", "Offset", "Length", "Data type", "Range"], rows)]
    return wanted


def page_faults(page):
    """Where the tables of docs/MESSAGES.md say another thing than the documents, a line each."""
    wanted = wanted_tables()
    found = {}
    for title, headings, rows in tables_of(page):
        found.setdefault(title, []).append((headings, rows))
    for title, tables in wanted.items():
        if len(found.get(title, [])) != len(tables):
            yield "%d tables below '%s', not %d" % (
                len(found.get(title, [])), title, len(tables))
            continue
        for (headings, rows), (_, have) in zip(tables, found[title]):
            if len(rows) != len(have):
                yield "%d rows below '%s', not %d" % (len(have), title, len(rows))
            for row, (number, cells) in zip(rows, have):
                for heading, cell in zip(headings, row):
                    if cells.get(heading) != cell:
                        yield "line %d, %s: %s, but the documents give %s" % (
                            number, heading, cells.get(heading, "no such column"), cell)
    # The type's row says its number in words of its own.
    for kind, (section, name, _) in PRINTED.items():
        for headings, rows in found.get("%s (%s): type %d, %d bytes" % (
                name, section, kind, length_of(kind)), []):
            if rows and rows[0][1].get("Meaning") != str(kind):
                yield "line %d: the type's meaning is not %d" % (rows[0][0], kind)


def check_page(path):
    """Hold docs/MESSAGES.md to the documents; 0 if they say the same, else 1."""
    compare_tables()
    with open(path, encoding="utf-8") as file:
        faults = list(page_faults(file.read()))
    for fault in faults:
        print("%s: %s" % (path, fault))
    return 1 if faults else 0


def print_counts(vectors, edition):
    """The number of packets by outcome, and the sizes of both outputs."""
    outcomes = {}
    for vector in vectors:
        first = expected_lines(vector.packet, edition)[0]
        outcome = "good" if first.startswith("records") else first.split(" at ")[0]
        outcomes[outcome] = outcomes.get(outcome, 0) + 1
    for outcome in sorted(outcomes):
        print("%s: %d" % (outcome, outcomes[outcome]), file=sys.stderr)
    print("packets: %d" % len(vectors), file=sys.stderr)
    unstated = sum(v.stated[edition] is None for v in vectors)
    print("not stated by hand: %d" % unstated, file=sys.stderr)
    print("bytes of stdin: %d" % len(recording(vectors)), file=sys.stderr)
    print("bytes of stdout: %d" % len(expected_text(vectors, edition)), file=sys.stderr)


def main(arguments):
    part, rest = (arguments or [""])[0], arguments[1:]
    files = 1 if part in ("check", "messages") else 0
    edition = NAMES.get(rest[files] if len(rest) > files else LATER)
    if part in ("stdin", "messages") and len(rest) > files or len(rest) not in (files, files + 1):
        part = ""
    if part == "stdin":
        sys.stdout.buffer.write(recording(all_vectors()))
    elif part == "messages":
        return check_page(rest[0])
    elif part == "stdout" and edition:
        sys.stdout.buffer.write(expected_text(all_vectors(), edition))
    elif part == "counts" and edition:
        print_counts(all_vectors(), edition)
    elif part == "check" and edition:
        return check(all_vectors(), rest[0], edition)
    else:
        print(__doc__, file=sys.stderr)
        return 2
    return 0


if __name__ == "__main__":
    sys.exit(main(sys.argv[1:]))
