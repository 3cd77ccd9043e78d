"""The morning of every bad field: a recording, and what a right receiver makes of it.

    python3 tools/offsets.py recording   its packets, each behind a 2-byte little-endian length
    python3 tools/offsets.py answers     the lines that `./rimeheath answers` must print for it
    python3 tools/offsets.py sheet       its sheet

Document 02, No. 5: "Refusals 2 to 5 in reading shall also give the offset in the packet of the
first byte at fault". Each message comes behind a good Add. On line A it comes with each of its
judged fields bad in turn, and a System Time, which has none, with each fault that a record can
have: every such packet is refused with its number and offset. Then line B has the same two records
without a fault, and both are taken and applied, since "tables, output and state keep every byte".
What both texts say is stated from the documents' words, in the form that README.md gives; no
message is applied here. Every run gives the same bytes. They are examples/offsets.rec,
examples/offsets.answers and examples/offsets.sheet.
"""

import sys

sys.dont_write_bytecode = True
from flags import PRICE, add, told, write  # noqa: E402
from vectors import (ADD, CANCEL, CLEAR, DELETE, EXAMPLE, EXECUTION, MODIFY,  # noqa: E402
                     STATE, STATUS, TIME, TRADE, UPDATE, compose, record)

FIRST = 3  # behind the second and the symbol
RECORD = 44  # where the second record of a packet starts: an Add stands in front of it
BODY = RECORD + 10  # and where its body starts

# Number by number, two in a turn: the first of an Add, the second of these messages. Beside each,
# the fields that matter here, and what line A has in the place of a field and where that starts.
WHOLE = ("nanoseconds", 1_000_000_000, BODY + 1)
TURNS = [
    (CLEAR, {}, [WHOLE]),
    (UPDATE, {"lot": 200}, [WHOLE, ("test", ord("X"), BODY + 21), ("market", ord("D"), BODY + 41)]),
    (STATE, {}, [WHOLE]),
    (STATUS, {}, [WHOLE]),
    (ADD, {"order": 109, "side": ord("S"), "price": 10020000, "size": 50},
     [WHOLE, ("side", ord("X"), BODY + 17), ("price", 10**15 + 1, BODY + 18),
      ("size", 0, BODY + 26)]),
    (MODIFY, {"order": 1005, "price": PRICE, "size": 80, "flags": 1},
     [WHOLE, ("price", 0, BODY + 17), ("size", 0, BODY + 25)]),
    (DELETE, {"order": 1006}, [WHOLE]),
    (EXECUTION, {"order": 1007, "price": PRICE, "size": 40},
     [WHOLE, ("price", 0, BODY + 25), ("size", 0, BODY + 33)]),
    (TRADE, {}, [WHOLE, ("price", 10**15 + 1, BODY + 18), ("size", 0, BODY + 26)]),
    (CANCEL, {}, [WHOLE, ("price", 0, BODY + 18), ("size", 0, BODY + 26)]),
]

# The last turn, numbers 23 and 24: a System Time, and what line A has in its place.
LAST, TIME_BODY = 23, compose(TIME, seconds=34201)
GOOD_TIME = record(LAST + 1, TIME_BODY)
BAD_TIMES = [
    (GOOD_TIME[:9], "refused 2 at %d" % RECORD),  # an unfinished header
    (GOOD_TIME[:-1], "refused 2 at %d" % RECORD),  # a body past the end
    (record(0, TIME_BODY), "refused 5 at %d" % RECORD),
    (record(LAST + 1, b""), "refused 3 at %d" % BODY),  # that is the packet's length
    (record(LAST + 1, b"\x32" + TIME_BODY[1:]), "refused 3 at %d" % BODY),  # there is no type 50
    (record(LAST + 1, TIME_BODY + b"\x00"), "refused 3 at %d" % BODY),  # a byte too many
]


def packets():
    """Each packet, and the line of its answer."""
    two = (2, 0, 0, 0, 0)  # taken, and none old, too far, repeated or differing
    yield (b"".join(record(number, compose(kind, **changes))
                    for number, kind, changes in EXAMPLE[:2]), told(two, FIRST, 2, 0))
    for turn, (kind, fields, faults) in enumerate(TURNS):
        number = FIRST + 2 * turn
        front = add(number, 1000 + turn)
        for field, value, offset in faults:
            bad = compose(kind, **{**fields, field: value})
            yield front + record(number + 1, bad), "refused 4 at %d" % offset
        yield front + record(number + 1, compose(kind, **fields)), told(two, number + 2, 2, 0)
    front = add(LAST, 1010)
    for bad, line in BAD_TIMES:
        yield front + bad, line
    yield front + GOOD_TIME, told(two, LAST + 2, 2, 0)


# Of the orders 1000 to 1010 the Clear took the first and the Delete 1006, whose row 1007 got. The
# Modify gave 1005 a size and its own number as its rank, the Execution left 60 shares of 1007.
ROWS = [
    "row 0 1001 14 10000000 100 5",
    "row 1 1002 14 10000000 100 7",
    "row 2 1003 14 10000000 100 9",
    "row 3 1004 14 10000000 100 11",
    "row 4 109 15 10020000 50 12",
    "row 5 1005 14 10000000 80 14",
    "row 6 1007 14 10000000 60 17",
    "row 7 1008 14 10000000 100 19",
    "row 8 1009 14 10000000 100 21",
    "row 9 1010 14 10000000 100 23",
]


def answers():
    yield from (line for _, line in packets())
    yield "second 34201"
    yield from ROWS
    yield "entry 0 " + " ".join(str(byte) for byte in compose(UPDATE, lot=200))
    yield from ("symbol 7 1 1 20000", "bid 10000000 840 9", "ask 10020000 50 1")


def sheet():
    yield from ("recording=whole", "bad=29", "next=25", "stop=0", "second=34201", "symbols=1",
                "orders=10", "symbol=7", "ticker=ABC", "lot=200", "spread=20000",
                "bid=10000000 840 9", "ask=10020000 50 1")


if __name__ == "__main__":
    sys.exit(write(sys.argv[1:], __doc__, packets, answers, sheet))
