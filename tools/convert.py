"""Recordings of one edition as recordings of the other: what a right converter makes of two examples.

    python3 tools/convert.py NAME   the file examples/NAME, one of these:

    editions-to-1.3.b.rec     examples/editions.rec, a recording of 1.3, as one of 1.3.b
    editions-to-1.3.b.sheet   its sheet in 1.3.b
    morning-7-F.rec           examples/morning.rec, document 01's example, as a recording of 1.3 in
                              which symbol 7 has the type F, and all others E
    morning-7-F.sheet         its sheet in 1.3

docs/CONVERT.md says what a conversion is. A packet that its own edition takes is rewritten: byte 20
of each Symbol Update becomes the type asked for, or 0. One that both editions refuse stays as it is.
One that 1.3 refuses and 1.3.b takes gets a 0 for the test indicator of the Symbol Update at fault.
Which packet is which is stated by tools/editions.py, in the line of its answer in each edition; no
packet is judged here. The sheet must be that of the edition converted from, but for its lines
`type=`. Every run gives the same bytes, and sees that the example with the type E is the one of
tools/editions.py, examples/morning-1.3.rec.
"""

import sys

sys.dont_write_bytecode = True
from editions import EXAMPLE_SHEET, example, packets, recording, sheet  # noqa: E402
from flags import text  # noqa: E402
from vectors import EXAMPLE_BYTES, OLDER, UPDATE  # noqa: E402

HEADER = 10  # a sequence number in 8 bytes, the body's length in 2
TYPE = 20  # where the Security Type lies in a Symbol Update; the test indicator lies behind it


def rewritten(packet, byte_20):
    """A good packet with this byte 20 in each Symbol Update, record by record."""
    out, at = b"", 0
    while at < len(packet):
        end = at + HEADER + int.from_bytes(packet[at + 8:at + HEADER], "little")
        record = packet[at:end]
        if record[HEADER] == UPDATE:
            place = HEADER + TYPE
            record = record[:place] + byte_20 + record[place + 1:]
        out, at = out + record, end
    return out


def barred(packet, at):
    """A packet that 1.3 refuses for the byte at this place, so that 1.3.b does for the next one."""
    return packet[:at + 1] + b"\0" + packet[at + 2:]


def to_later():
    """The packets of examples/editions.rec as packets of 1.3.b."""
    for packet, older, later in packets():
        if not older.startswith("refused"):
            yield rewritten(packet, b"\0")
        elif later.startswith("refused"):
            yield packet
        else:
            yield barred(packet, int(older.split()[-1]))


MORNING = b"".join(EXAMPLE_BYTES)  # one packet


def files():
    typeless = [line for line in sheet(OLDER) if not line.startswith("type=")]
    typed = ["type=F" if line == "type=E" else line for line in EXAMPLE_SHEET]
    return {
        "editions-to-1.3.b.rec": recording(to_later()),
        "editions-to-1.3.b.sheet": text(typeless),
        "morning-7-F.rec": recording([rewritten(MORNING, b"F")]),
        "morning-7-F.sheet": text(typed),
    }


def main(arguments):
    """One of the files to standard output; else how to ask for one, and status 2."""
    if rewritten(MORNING, b"E") != example():
        sys.exit("the example with the type E is not the example of version 1.3")
    written = files()
    if len(arguments) != 1 or arguments[0] not in written:
        print(__doc__, file=sys.stderr)
        return 2
    sys.stdout.buffer.write(written[arguments[0]])
    return 0


if __name__ == "__main__":
    sys.exit(main(sys.argv[1:]))
