"""The morning of both editions: a recording, and what right receivers of 1.3 and 1.3.b make of it.

    python3 tools/editions.py recording   its packets, each behind a 2-byte little-endian length
    python3 tools/editions.py answers EDITION
                                          the lines that `./rimeheath answers --edition EDITION`
                                          must print for it
    python3 tools/editions.py sheet EDITION
                                          its sheet in that edition
    python3 tools/editions.py example     document 01's whole example as a recording of 1.3
    python3 tools/editions.py example-sheet
                                          the example's 1.3 sheet

Document 02, No. 10: "version 1.3, where byte 20 of a Symbol Update is Security Type, `E` or `F`;
from 1.3.a it is reserved". Line B is a true recording of 1.3. Line A has the same messages, but in
some Symbol Updates its byte 20 is no letter: "Under 1.3 any other byte is refused with 4", so that
line A leaves a gap and line B fills it, while a reader of 1.3.b takes what line A has and keeps it.
"Only the 1.3 sheet shows it, as `type=` after `ticker=`." What the texts say is stated from the
documents' words, in the form that README.md gives; no message is applied here. Every run gives the
same bytes. They are examples/editions.rec, and for 1.3 and 1.3.b examples/editions.EDITION.answers
and examples/editions.EDITION.sheet; then examples/morning-1.3.rec and examples/morning-1.3.sheet.
"""

import sys

sys.dont_write_bytecode = True
from flags import (ONE_DIFFERING, ONE_OLD, ONE_REPEATED, ONE_TAKEN, text, told)  # noqa: E402
from vectors import (ADD, EXAMPLE, EXECUTION, LATER, NAMES, OLDER, TIME, UPDATE,  # noqa: E402
                     compose, record)

TWO_TAKEN, TWO_OLD, ONE_TOO_FAR = (2, 0, 0, 0, 0), (0, 2, 0, 0, 0), (0, 0, 1, 0, 0)
TYPE = 10 + 20  # where it starts in a record: behind a header, and 20 in the body
AN_ADD = 44  # bytes of its record
A_SYMBOL = 52  # and of a Symbol Update's
FAR = 13 + 64  # too far for the shelf while 13 is missing


def symbol(number, byte_20, symbol, ticker, lot, **others):
    """A Symbol Update of version 1.3, with any byte at 20."""
    return record(number, compose(UPDATE, OLDER, security=ord(byte_20), symbol=symbol,
                                  ticker=ticker.ljust(11).encode("ascii"), lot=lot, **others))


def add(number, order, symbol, side, price, size):
    return record(number, compose(ADD, symbol=symbol, order=order, side=ord(side), price=price,
                                  size=size))


# The messages by number. Those of which line A has another byte 20 take it.
def abc(number, byte_20, lot=100):  # numbers 2, 8 and 14
    return symbol(number, byte_20, 7, "ABC", lot)


def xyz(number, byte_20, lot):  # numbers 3 and 12
    return symbol(number, byte_20, 8, "XYZ", lot)


def new_one(byte_20):
    return symbol(9, byte_20, 9, "NEW ONE", 10)


def last_one(byte_20, **others):
    return symbol(15, byte_20, 10, "LAST", 1, **others)


START = record(1, compose(TIME, seconds=34200)) + abc(2, "E") + xyz(3, "F", 100)
ORDERS = (add(4, 500, 7, "B", 10000000, 100) + add(5, 501, 7, "S", 10020000, 200)
          + add(6, 600, 8, "B", 20000000, 300) + add(7, 601, 8, "S", 20050000, 50))
OTHER_TYPE = abc(8, "F")  # the symbol is an ETF from here on
TENTH = add(10, 700, 9, "B", 5000000, 10)
ELEVENTH = add(11, 701, 9, "S", 5010000, 20)
THIRTEENTH = record(13, compose(EXECUTION, symbol=7, order=500, price=10000000, size=40))
SIXTEENTH = add(16, 800, 10, "B", 30000000, 5)
END = record(17, compose(TIME, seconds=34201))


def packets():
    """Each packet, and the line of its answer in 1.3 and in 1.3.b."""
    def alike(packet, line):
        return packet, line, line

    def untyped(packet, line, front=0):
        """A packet that 1.3 refuses for its byte 20, with so many bytes of records in front."""
        return packet, "refused 4 at %d" % (front + TYPE), line

    yield alike(START, told((3, 0, 0, 0, 0), 4, 3, 0))
    yield alike(START, told((0, 3, 0, 0, 0), 4, 0, 0))  # line B's
    yield alike(ORDERS, told((4, 0, 0, 0, 0), 8, 4, 0))
    yield alike(OTHER_TYPE, told(ONE_TAKEN, 9, 1, 0))
    yield alike(ORDERS + OTHER_TYPE, told((0, 5, 0, 0, 0), 9, 0, 0))  # line B's

    # Line A has no letter in 9, so that in 1.3 the Add behind it waits for line B's.
    yield untyped(new_one("\0"), told(ONE_TAKEN, 10, 1, 0))
    yield TENTH, told(ONE_TAKEN, 9, 0, 10), told(ONE_TAKEN, 11, 1, 0)
    yield new_one("E"), told(ONE_TAKEN, 11, 2, 0), told(ONE_OLD, 11, 0, 0)
    yield alike(TENTH, told(ONE_OLD, 11, 0, 0))

    # In 12 the letter is wrong, and the good Add in front of it counts for nothing in 1.3.
    yield untyped(ELEVENTH + xyz(12, "G", 200), told(TWO_TAKEN, 13, 2, 0), AN_ADD)
    yield ELEVENTH + xyz(12, "E", 200), told(TWO_TAKEN, 13, 2, 0), told(TWO_OLD, 13, 0, 0)

    # 13 is lost on both lines. In 1.3.b line A's copy of 14, with a small letter, is the first on
    # the shelf and stays; in 1.3 line B's is the only one.
    yield untyped(abc(14, "e", 50), told(ONE_TAKEN, 13, 0, 14))
    yield abc(14, "F", 50), told(ONE_TAKEN, 13, 0, 14), told(ONE_DIFFERING, 13, 0, 14)
    yield abc(14, "F", 50), told(ONE_REPEATED, 13, 0, 14), told(ONE_DIFFERING, 13, 0, 14)

    # Byte 20 is judged in copies that are old or too far as well.
    yield untyped(abc(2, " "), told(ONE_OLD, 13, 0, 14))
    yield untyped(abc(FAR, "D"), told(ONE_TOO_FAR, 13, 0, 14))
    yield alike(abc(FAR, "E"), told(ONE_TOO_FAR, 13, 0, 14))
    yield alike(THIRTEENTH, told(ONE_TAKEN, 15, 2, 0))  # the gap fill

    # No letter beside another fault: 1.3 tells the first of them, 1.3.b the other.
    yield alike(last_one("\xff", nanoseconds=10**9), "refused 4 at %d" % (10 + 1))
    yield untyped(last_one("\xff", test=ord("X")), "refused 4 at %d" % (10 + 21))
    yield untyped(last_one("\xff", market=ord("D")), "refused 4 at %d" % (10 + 41))
    yield untyped(last_one("f") + record(0, compose(TIME)), "refused 5 at %d" % A_SYMBOL)
    yield alike(record(15, last_one("\0")[10:] + b"\0"), "refused 3 at 10")  # a byte too many
    yield alike(SIXTEENTH, told(ONE_TAKEN, 15, 0, 16))
    # 15 brings 16 with it, whose copy behind it is old then.
    yield alike(last_one("F") + SIXTEENTH + END, told((2, 1, 0, 0, 0), 18, 3, 0))


# The execution left 60 shares of order 500. Nothing else changed an order.
ROWS = [
    "row 0 500 14 10000000 60 4",
    "row 1 501 15 10020000 200 5",
    "row 2 600 16 20000000 300 6",
    "row 3 601 17 20050000 50 7",
    "row 4 700 18 5000000 10 10",
    "row 5 701 19 5010000 20 11",
    "row 6 800 20 30000000 5 16",
]
# Each symbol: the keys of its entry on the sheet, its type in 1.3, the answers' count of its levels
# and its spread, and its levels.
SYMBOLS = [
    (("symbol=7", "ticker=ABC", "lot=50"), "F", "1 1 20000",
     ("bid=10000000 60 1", "ask=10020000 200 1")),
    (("symbol=8", "ticker=XYZ", "lot=200"), "E", "1 1 50000",
     ("bid=20000000 300 1", "ask=20050000 50 1")),
    (("symbol=9", "ticker=NEW ONE", "lot=10"), "E", "1 1 10000",
     ("bid=5000000 10 1", "ask=5010000 20 1")),
    (("symbol=10", "ticker=LAST", "lot=1"), "F", "1 0 none", ("bid=30000000 5 1",)),
]
# The last Symbol Update of each: line B's in 1.3, and in 1.3.b those that line A brought first.
ENTRIES = {
    OLDER: [abc(14, "F", 50), xyz(12, "E", 200), new_one("E"), last_one("F")],
    LATER: [abc(14, "e", 50), xyz(12, "G", 200), new_one("\0"), last_one("F")],
}


def lines_of_packets(edition):
    return [older if edition == OLDER else later for _, older, later in packets()]


def answers(edition):
    yield from lines_of_packets(edition)
    yield "second 34201"
    yield from ROWS
    for place, entry in enumerate(ENTRIES[edition]):
        yield "entry %d %s" % (place, " ".join(str(byte) for byte in entry[10:]))
    for (number, _, _), _, counts, levels in SYMBOLS:
        yield "%s %s" % (number.replace("=", " "), counts)
        yield from (level.replace("=", " ") for level in levels)


def sheet(edition):
    bad = sum(line.startswith("refused") for line in lines_of_packets(edition))
    yield from ("recording=whole", "bad=%d" % bad, "next=18", "stop=0", "second=34201", "symbols=4",
                "orders=7")
    for (number, ticker, lot), security, counts, levels in SYMBOLS:
        yield from (number, ticker)
        if edition == OLDER:
            yield "type=%s" % security
        yield from (lot, "spread=%s" % counts.split()[2], *levels)


def example():
    """Document 01's example, numbers 1 to 5 in one packet, with a security type."""
    return b"".join(record(number, compose(kind, OLDER, **changes, **(
        {"security": ord("E")} if kind == UPDATE else {}))) for number, kind, changes in EXAMPLE)


EXAMPLE_SHEET = ["recording=whole", "bad=0", "next=6", "stop=0", "second=34200", "symbols=1",
                 "orders=3", "symbol=7", "ticker=ABC", "type=E", "lot=100", "spread=20000",
                 "bid=10000000 150 2", "ask=10020000 200 1"]


def recording(all_packets):
    return b"".join(len(packet).to_bytes(2, "little") + packet for packet in all_packets)


def main(arguments):
    """One of the files to standard output; else how to ask for one, and status 2."""
    by_edition = {"answers": answers, "sheet": sheet}
    if arguments == ["recording"]:
        out = recording(packet for packet, _, _ in packets())
    elif arguments == ["example"]:
        out = recording([example()])
    elif arguments == ["example-sheet"]:
        out = text(EXAMPLE_SHEET)
    elif len(arguments) == 2 and arguments[0] in by_edition and arguments[1] in NAMES:
        out = text(by_edition[arguments[0]](NAMES[arguments[1]]))
    else:
        print(__doc__, file=sys.stderr)
        return 2
    sys.stdout.buffer.write(out)
    return 0


if __name__ == "__main__":
    sys.exit(main(sys.argv[1:]))
