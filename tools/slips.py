#!/usr/bin/env python3
"""slips: a handler with one of the slips that are seen in class, so that a morning can be held to show it.

    tools/slips.py NAME RECORDING [--edition 1.3|1.3.a|1.3.b]             the sheet that a handler with this slip prints
    tools/slips.py NAME RECORDING [--edition 1.3|1.3.a|1.3.b] --answers   what it prints in the place of `./rimeheath answers`

The names are those of document 01's "Slips seen in class", in its order, and one for a handler without a slip:

    rank        an order's rank is not the sequence number of its message, but the how manieth taken record that message was
    execution   an order that was executed to its last share stays, with 0 shares, until a Delete comes
    modify      every Modify sends its order to the back, whatever bit 0 of its flags says
    returning   an Add of an order ID that was there before and has left is passed over, as if it were a repeat
    front       the records of a bad packet that stand in front of the bad one are taken
    none        no slip: what it prints must be what the proved programs print

The handler is written from document 01 and docs/MESSAGES.md alone. It shares nothing with the proved programs or with the second one.
"""
import sys
from collections import Counter

TIME, UPDATE, STATE, STATUS, CLEAR = 49, 1, 83, 4, 5
ADD, MODIFY, DELETE, EXECUTION, TRADE, CANCEL = 20, 21, 23, 24, 10, 11
LENGTHS = {TIME: 5, UPDATE: 42, STATE: 15, STATUS: 12, CLEAR: 9, ADD: 34, MODIFY: 30, DELETE: 17, EXECUTION: 38, TRADE: 31, CANCEL: 30}
PRICE_AT = {ADD: 18, MODIFY: 17, EXECUTION: 25, TRADE: 18, CANCEL: 18}  # the size lies behind the price, 8 bytes on
MARKETS = b"ABCHIJKLMNPQUVWXYZ"
MOST_NUMBER, MOST_PRICE, MOST_PACKET = 10**12, 10**15, 1500
ROWS, ENTRIES, SHELF, LEVELS = 1600, 1000, 64, 10
TAKEN, OLD, TOO_FAR, REPEATED, DIFFERING = 10, 11, 12, 13, 14
SLIPS = ("rank", "execution", "modify", "returning", "front")
EDITIONS = ("1.3", "1.3.a", "1.3.b")


def number(data, at, width):
    return int.from_bytes(data[at:at + width], "little")


# ---- packets


def packets(recording):
    """The packets of a recording, and whether it is whole."""
    found, at = [], 0
    while at + 2 <= len(recording):
        end = at + 2 + number(recording, at, 2)
        if end > len(recording):
            break
        found.append(recording[at + 2:end])
        at = end
    return found, at == len(recording)


def bad_field(body, edition):
    """Where the first field that is out of range lies in a body, or nothing."""
    kind = body[0]
    if kind != TIME and number(body, 1, 4) >= 10**9:
        return 1
    if kind == UPDATE:
        judged = ((20, b"EF" if edition == "1.3" else None), (21, b"YN"), (41, MARKETS))
        return next((at for at, good in judged if good is not None and body[at] not in good), None)
    if kind == ADD and body[17] not in b"BS":
        return 17
    if kind in PRICE_AT:
        at = PRICE_AT[kind]
        if not 1 <= number(body, at, 8) <= MOST_PRICE:
            return at
        if number(body, at + 8, 4) == 0:
            return at + 8
    return None


def judged(packet, edition):
    """The good records of a packet up to its first bad one, and what refuses it: its number and its offset, or nothing."""
    records, at = [], 0
    if not 1 <= len(packet) <= MOST_PACKET:
        return records, (1, None)
    while at < len(packet):
        start, body_at = at, at + 10
        if body_at > len(packet) or body_at + number(packet, at + 8, 2) > len(packet):
            return records, (2, start)
        n, body = number(packet, at, 8), packet[body_at:body_at + number(packet, at + 8, 2)]
        if not 1 <= n <= MOST_NUMBER:
            return records, (5, start)
        if not body or LENGTHS.get(body[0]) != len(body):
            return records, (3, body_at)
        field = bad_field(body, edition)
        if field is not None:
            return records, (4, body_at + field)
        records.append((n, body))
        at = body_at + len(body)
    return records, None


# ---- the book


class Order:
    def __init__(self, name, owner, price, size, rank):
        self.name, self.owner, self.price, self.size, self.rank = name, owner, price, size, rank

    def symbol(self):
        return self.owner // 2


class Handler:
    def __init__(self, slip, edition):
        self.slip, self.edition = slip, edition
        self.rows = [None] * ROWS
        self.entries = []  # the last Symbol Update of each symbol
        self.shelf = {}  # a body and its arrival, by number
        self.second, self.next, self.stop, self.bad, self.arrived = 0, 1, 0, 0, 0
        self.left = set()  # the IDs of orders that were in the book and are no more

    def entry_of(self, symbol):
        return next((i for i, body in enumerate(self.entries) if number(body, 5, 4) == symbol), None)

    def row_of(self, name):
        return next((i for i, order in enumerate(self.rows) if order and order.name == name), None)

    def drop(self, row):
        self.left.add(self.rows[row].name)
        self.rows[row] = None

    def broken(self, body):
        """The rule that a message breaks, the first in the order of document 01, or 0."""
        kind, symbol = body[0], number(body, 5, 4)
        if kind == UPDATE:
            return 26 if self.entry_of(symbol) is None and len(self.entries) == ENTRIES else 0
        if kind not in (CLEAR, ADD, MODIFY, DELETE, EXECUTION):
            return 0
        if self.entry_of(symbol) is None:
            return 20
        if kind == CLEAR:
            return 0
        row = self.row_of(number(body, 9, 8))
        if kind == ADD:
            return 21 if row is not None else 0 if None in self.rows else 25
        if row is None:
            return 22
        order = self.rows[row]
        if order.symbol() != symbol:
            return 23
        return 24 if kind == EXECUTION and number(body, 33, 4) > order.size else 0

    def apply(self, n, body, arrival):
        """A message that breaks no rule, applied."""
        kind, symbol = body[0], number(body, 5, 4)
        rank = arrival if self.slip == "rank" else n
        if kind == TIME:
            self.second = number(body, 1, 4)
        elif kind == UPDATE:
            entry = self.entry_of(symbol)
            if entry is None:
                self.entries.append(body)
            else:
                self.entries[entry] = body
        elif kind == CLEAR:
            for row, order in enumerate(self.rows):
                if order and order.symbol() == symbol:
                    self.drop(row)
        elif kind == ADD:
            name, side = number(body, 9, 8), body[17] == ord("S")
            if self.slip == "returning" and name in self.left:
                return
            self.rows[self.rows.index(None)] = Order(name, symbol * 2 + side, number(body, 18, 8), number(body, 26, 4), rank)
        elif kind in (MODIFY, DELETE, EXECUTION):
            row = self.row_of(number(body, 9, 8))
            order = self.rows[row]
            if kind == DELETE:
                self.drop(row)
            elif kind == MODIFY:
                order.price, order.size = number(body, 17, 8), number(body, 25, 4)
                if body[29] & 1 or self.slip == "modify":
                    order.rank = rank
            else:
                order.size -= number(body, 33, 4)
                if order.size == 0 and self.slip != "execution":
                    self.drop(row)

    # ---- the shelf

    def take(self, n, body):
        """One record: its answer."""
        if n < self.next:
            return OLD
        if n >= self.next + SHELF:
            return TOO_FAR
        if n in self.shelf:
            return REPEATED if self.shelf[n][0] == body else DIFFERING
        self.arrived += 1
        self.shelf[n] = body, self.arrived
        while self.next in self.shelf and not self.broken(self.shelf[self.next][0]):
            self.apply(self.next, *self.shelf.pop(self.next))
            self.next += 1
        return TAKEN

    def packet(self, packet):
        """One packet: the line of its answer."""
        records, refusal = judged(packet, self.edition)
        if refusal:
            self.bad += 1
            if self.slip != "front":
                records = []
        before = self.next
        got = Counter(self.take(n, body) for n, body in records)
        if records:
            self.stop = self.broken(self.shelf[self.next][0]) if self.next in self.shelf else 0
        if refusal:
            return "refused %d" % refusal[0] + (" at %d" % refusal[1] if refusal[0] != 1 else "")
        told = [got[answer] for answer in (TAKEN, OLD, TOO_FAR, REPEATED, DIFFERING)]
        return " ".join(map(str, told + [self.next, self.next - before, max(self.shelf, default=0), self.stop]))

    # ---- what is printed

    def ladder(self, owner):
        """The levels of a symbol and side, the best first: price, shares, orders."""
        levels = {}
        for order in self.rows:
            if order and order.owner == owner:
                shares, orders = levels.get(order.price, (0, 0))
                levels[order.price] = shares + order.size, orders + 1
        return [(price, *levels[price]) for price in sorted(levels, reverse=owner % 2 == 0)]

    def views(self):
        """Each symbol: its entry, bids, offers and spread."""
        for body in self.entries:
            symbol = number(body, 5, 4)
            bids, asks = self.ladder(symbol * 2), self.ladder(symbol * 2 + 1)
            yield body, bids, asks, asks[0][0] - bids[0][0] if bids and asks else "none"

    def sheet(self, whole):
        yield "recording=" + ("whole" if whole else "cut")
        yield f"bad={self.bad}"
        yield f"next={self.next}"
        yield f"stop={self.stop}"
        yield f"second={self.second}"
        yield f"symbols={len(self.entries)}"
        yield f"orders={sum(order is not None for order in self.rows)}"
        for body, bids, asks, spread in self.views():
            yield f"symbol={number(body, 5, 4)}"
            yield "ticker=" + "".join(chr(b) if 32 <= b <= 126 else "." for b in body[9:20].rstrip(b" "))
            if self.edition == "1.3":
                yield f"type={chr(body[20])}"
            yield f"lot={number(body, 23, 2)}"
            yield f"spread={spread}"
            for side, ladder in (("bid", bids), ("ask", asks)):
                yield from ("%s=%d %d %d" % (side, *level) for level in ladder[:LEVELS])

    def tables(self):
        yield f"second {self.second}"
        for row, order in enumerate(self.rows):
            if order:
                yield f"row {row} {order.name} {order.owner} {order.price} {order.size} {order.rank}"
        for entry, body in enumerate(self.entries):
            yield f"entry {entry} " + " ".join(map(str, body))
        for body, bids, asks, spread in self.views():
            yield f"symbol {number(body, 5, 4)} {len(bids)} {len(asks)} {spread}"
            for side, ladder in (("bid", bids), ("ask", asks)):
                yield from ("%s %d %d %d" % (side, *level) for level in ladder)


def printed(slip, recording, edition):
    """The lines of the sheet, and those of the answers."""
    handler = Handler(slip, edition)
    found, whole = packets(recording)
    told = [handler.packet(packet) for packet in found]
    return list(handler.sheet(whole)), told + list(handler.tables())


def main(words):
    """The sheet or the answers to standard output; else how to ask for one, and status 2."""
    words, edition, answers = list(words), "1.3.b", False
    if "--answers" in words:
        words.remove("--answers")
        answers = True
    if "--edition" in words[:-1]:
        at = words.index("--edition")
        edition = words[at + 1]
        del words[at:at + 2]
    if len(words) != 2 or words[0] not in (*SLIPS, "none") or edition not in EDITIONS:
        print(__doc__, file=sys.stderr)
        return 2
    with open(words[1], "rb") as file:
        lines = printed(words[0], file.read(), edition)[answers]
    sys.stdout.write("".join(line + "\n" for line in lines))
    return 0


if __name__ == "__main__":
    sys.exit(main(sys.argv[1:]))
