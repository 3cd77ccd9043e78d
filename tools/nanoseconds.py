"""The morning of the tap fault: a recording, and what a right receiver makes of it.

    python3 tools/nanoseconds.py recording   its packets, each behind a 2-byte little-endian length
    python3 tools/nanoseconds.py answers     the lines that `./rimeheath answers` must print for it
    python3 tools/nanoseconds.py sheet       its sheet

Document 02, No. 6: "A tap fault gave us 1,000,000,000 in a Timestamp. The largest good value is
999,999,999, in every message that carries the field", and "Recordings that held such values now
leave a gap". On line A each of the ten messages that carry the field has 1,000,000,000 in it,
between good records: the packet is refused "with 4 and its offset", the next one waits behind the
gap, and line B, which has 999,999,999 there, fills it. A System Time of 4,294,967,295 seconds,
which are no nanoseconds, ends the morning. What both texts say is stated from the documents' words,
in the form that README.md gives; no message is applied here. Every run gives the same bytes. They
are examples/nanoseconds.rec, examples/nanoseconds.answers and examples/nanoseconds.sheet.
"""

import sys

sys.dont_write_bytecode = True
from flags import ONE_TAKEN, PRICE, add, told, write  # noqa: E402
from vectors import (ADD, CANCEL, CLEAR, DELETE, EXAMPLE, EXECUTION, MODIFY,  # noqa: E402
                     STATE, STATUS, TIME, TRADE, UPDATE, compose, record)

LAST, WHOLE = 999_999_999, 1_000_000_000
FIRST = 3  # behind the second and the symbol
A_TURN = 4  # numbers for each message: an Add, the message, an Add, and the Add that waits
ONE_MORE = 109  # the order of the Add that is such a message itself

# Each message, and the fields that matter here; Modify, Delete and Execution are of the first order
# of their turn.
TURNS = [(CLEAR, {}), (UPDATE, {"lot": 200}), (STATE, {}), (STATUS, {}),
         (ADD, {"order": ONE_MORE, "price": PRICE, "size": 100}),
         (MODIFY, {"price": PRICE, "size": 80, "flags": 1}), (DELETE, {}),
         (EXECUTION, {"price": PRICE, "size": 40}), (TRADE, {}), (CANCEL, {})]
OF_AN_ORDER = (MODIFY, DELETE, EXECUTION)
BEHIND = FIRST + A_TURN * len(TURNS)
TIMESTAMP = 44 + 10 + 1  # where it starts: behind an Add of 44 bytes, a header and a type byte


def first_order(turn):
    """The turn's Adds are of this order and the two behind it."""
    return 1000 + 3 * turn


def message(turn, nanoseconds):
    kind, fields = TURNS[turn]
    order = {"order": first_order(turn)} if kind in OF_AN_ORDER else {}
    return compose(kind, nanoseconds=nanoseconds, **order, **fields)


def line(turn, nanoseconds):
    """The packet of a turn: a good Add, the message, and a good Add."""
    number, order = FIRST + A_TURN * turn, first_order(turn)
    return (add(number, order) + record(number + 1, message(turn, nanoseconds))
            + add(number + 2, order + 1))


def packets():
    """Each packet, and the line of its answer."""
    yield (b"".join(record(number, compose(kind, **changes))
                    for number, kind, changes in EXAMPLE[:2]), told((2, 0, 0, 0, 0), FIRST, 2, 0))
    for turn in range(len(TURNS)):
        number = FIRST + A_TURN * turn
        yield line(turn, WHOLE), "refused 4 at %d" % TIMESTAMP
        yield add(number + 3, first_order(turn) + 2), told(ONE_TAKEN, number, 0, number + 3)
        yield line(turn, LAST), told((3, 0, 0, 0, 0), number + 4, 4, 0)
    yield (record(BEHIND, compose(TIME, seconds=2**32 - 1)), told(ONE_TAKEN, BEHIND + 1, 1, 0))


def rows():
    """The live orders, in their rows: order, size, rank. A Clear and a Delete take the first order
    of their turn, whose row the next Add gets; an Execution leaves 60 of its 100 shares; a Modify
    with bit 0 set gives it 80 and the Modify's own number as its rank."""
    for turn, (kind, _) in enumerate(TURNS):
        number, order = FIRST + A_TURN * turn, first_order(turn)
        if kind == MODIFY:
            yield order, 80, number + 1
        elif kind not in (CLEAR, DELETE):
            yield order, 60 if kind == EXECUTION else 100, number
        if kind == ADD:
            yield ONE_MORE, 100, number + 1
        yield order + 1, 100, number + 2
        yield order + 2, 100, number + 3


LEVEL = "bid=%d %d %d" % (PRICE, sum(size for _, size, _ in rows()), len(list(rows())))


def answers():
    yield from (told_line for _, told_line in packets())
    yield "second 4294967295"
    for row, (order, size, rank) in enumerate(rows()):
        yield "row %d %d %d %d %d %d" % (row, order, 2 * 7, PRICE, size, rank)
    update = [kind for kind, _ in TURNS].index(UPDATE)
    yield "entry 0 " + " ".join(str(byte) for byte in message(update, LAST))
    yield "symbol 7 1 0 none"
    yield LEVEL.replace("=", " ")


def sheet():
    yield from ("recording=whole", "bad=%d" % len(TURNS), "next=%d" % (BEHIND + 1), "stop=0",
                "second=4294967295", "symbols=1", "orders=%d" % len(list(rows())), "symbol=7",
                "ticker=ABC", "lot=200", "spread=none", LEVEL)


if __name__ == "__main__":
    sys.exit(write(sys.argv[1:], __doc__, packets, answers, sheet))
