"""The morning of every flag byte: a recording, and what a right receiver makes of it.

    python3 tools/flags.py recording   its packets, each behind a 2-byte little-endian length
    python3 tools/flags.py answers     the lines that `./rimeheath answers` must print for it
    python3 tools/flags.py sheet       its sheet

Document 02, No. 2: bits 1 to 7 of a Modify's flags "are ignored from now on, kept on the shelf as
they came", and "Two copies that differ only in those bits are still differing copies (14)". What
both texts say is stated from the documents' words, in the form that README.md gives; no message is
applied here. Every run gives the same bytes. They are examples/flags.rec, examples/flags.answers
and examples/flags.sheet.
"""

import sys

sys.dont_write_bytecode = True
from vectors import ADD, EXAMPLE, MODIFY, compose, record  # noqa: E402

PRICE, BETTER = 10000000, 10010000
FIRST_ORDER = 1000
FIRST_ADD = 3  # behind the second and the symbol
FIRST_MODIFY = FIRST_ADD + 256
BEHIND = FIRST_MODIFY + 256  # the first number behind a Modify with each flag byte
A_PACKET = 32

# What document 01 calls the answers: taken (10), old (11), too far (12), repeated (13), differing
# (14), as many of each as a packet's records got.
ONE_TAKEN, ONE_OLD = (1, 0, 0, 0, 0), (0, 1, 0, 0, 0)
ONE_REPEATED, ONE_DIFFERING = (0, 0, 0, 1, 0), (0, 0, 0, 0, 1)


def modify(number, order, size, flags, price=PRICE):
    return record(number, compose(MODIFY, nanoseconds=0, order=order, price=price, size=size,
                                  flags=flags))


def add(number, order):
    return record(number, compose(ADD, nanoseconds=0, order=order, price=PRICE, size=100))


def told(counts, next_number, applied, highest):
    """The line of a packet's answer; nothing stops in this morning."""
    return " ".join(str(n) for n in (*counts, next_number, applied, highest, 0))


def in_order(first, records):
    """Packets of 32 records from next on: all are taken and applied."""
    for at in range(0, len(records), A_PACKET):
        part = records[at:at + A_PACKET]
        taken = len(part)
        yield b"".join(part), told((taken, 0, 0, 0, 0), first + at + taken, taken, 0)


def copies():
    """Copies on the shelf that differ in one undefined bit alone, each of the seven in turn: packet
    by packet, of a Modify without flags, then all in one packet, of a Modify with all of them."""
    gap, ahead = BEHIND, BEHIND + 1

    def plain(flags):
        return modify(ahead, FIRST_ORDER, 60, flags, BETTER)
    yield plain(0), told(ONE_TAKEN, gap, 0, ahead)
    for bit in range(1, 8):
        yield plain(1 << bit), told(ONE_DIFFERING, gap, 0, ahead)
    yield plain(0), told(ONE_REPEATED, gap, 0, ahead)
    yield modify(gap, FIRST_ORDER + 1, 60, 8), told(ONE_TAKEN, gap + 2, 2, 0)
    yield plain(0), told(ONE_OLD, gap + 2, 0, 0)
    yield plain(32), told(ONE_OLD, gap + 2, 0, 0)

    last = [modify(BEHIND + 3, FIRST_ORDER + 3, 60, 255 - off)
            for off in (0, 2, 4, 8, 16, 32, 64, 128, 0)]
    yield b"".join(last), told((1, 0, 0, 1, 7), gap + 2, 0, BEHIND + 3)
    yield modify(BEHIND + 2, FIRST_ORDER + 2, 60, 6), told(ONE_TAKEN, BEHIND + 4, 2, 0)


def packets():
    """Each packet, and the line of its answer."""
    symbol = [record(number, compose(kind, **changes)) for number, kind, changes in EXAMPLE[:2]]
    yield from in_order(1, symbol)
    yield from in_order(FIRST_ADD, [add(FIRST_ADD + f, FIRST_ORDER + f) for f in range(256)])
    yield from in_order(FIRST_MODIFY, [
        modify(FIRST_MODIFY + f, FIRST_ORDER + f, 80, f) for f in range(256)])
    yield from copies()


def rank(flags):
    """Of the order whose Modify had these flags. "Flag bit 0 set: rank becomes this sequence
    number. Clear: the rank stays, whatever changed." The last of all had every bit set."""
    if flags == 3:
        return BEHIND + 3
    return FIRST_MODIFY + flags if flags % 2 == 1 else FIRST_ADD + flags


def size(flags):
    """Four orders were modified once more."""
    return 60 if flags < 4 else 80


def price(flags):
    """The first order went to a better price, and kept its rank."""
    return BETTER if flags == 0 else PRICE


LEVELS = ["bid=%d %d %d" % (BETTER, size(0), 1),
          "bid=%d %d %d" % (PRICE, sum(size(f) for f in range(1, 256)), 255)]
ENTRY = compose(EXAMPLE[1][1], **EXAMPLE[1][2])


def answers():
    yield from (line for _, line in packets())
    yield "second 34200"
    for f in range(256):
        yield "row %d %d %d %d %d %d" % (f, FIRST_ORDER + f, 2 * 7, price(f), size(f), rank(f))
    yield "entry 0 " + " ".join(str(byte) for byte in ENTRY)
    yield "symbol 7 2 0 none"
    yield from (level.replace("=", " ") for level in LEVELS)


def sheet():
    yield from ("recording=whole", "bad=0", "next=%d" % (BEHIND + 4), "stop=0", "second=34200",
                "symbols=1", "orders=256", "symbol=7", "ticker=ABC", "lot=100", "spread=none")
    yield from LEVELS


def text(lines):
    return "".join(line + "\n" for line in lines).encode("ascii")


def write(arguments, usage, packets, answers, sheet):
    """One of a morning's three files to standard output; else how to ask for one, and status 2."""
    if arguments == ["recording"]:
        out = b"".join(len(packet).to_bytes(2, "little") + packet for packet, _ in packets())
    elif arguments == ["answers"]:
        out = text(answers())
    elif arguments == ["sheet"]:
        out = text(sheet())
    else:
        print(usage, file=sys.stderr)
        return 2
    sys.stdout.buffer.write(out)
    return 0


if __name__ == "__main__":
    sys.exit(write(sys.argv[1:], __doc__, packets, answers, sheet))
