//! A receiver written for speed: the Rust program that request 9 measures the proved library against, "with the same
//! index". The same lent memory, refusals, answers and tables as the call `rimeheath_receive` has, and the index of
//! docs/INDEX.md number for number; but an index must be lent. It shares no code with the rest of this crate, which
//! is plain on purpose.

const ROWS: usize = 16_000;
const SLOTS: usize = 32_768;
const BLOCKS: usize = 250;
const HINTS: usize = 16_384;
const INDEX: usize = SLOTS + 1 + BLOCKS + HINTS;
const MOST_USED: u64 = 24_576;
const LAST: u64 = 1_000_000_000_000;
const HIGHEST_PRICE: u64 = 1_000_000_000_000_000;
const SHELF: usize = 64 * 74;

type Row = [u64; 5];
type Entry = [u8; 42];
type Slot = [u8; 74];

#[inline(always)]
fn u16_at(bytes: &[u8], at: usize) -> usize {
    usize::from(u16::from_le_bytes([bytes[at], bytes[at + 1]]))
}

#[inline(always)]
fn u32_at(bytes: &[u8], at: usize) -> u32 {
    u32::from_le_bytes(bytes[at..at + 4].try_into().expect("four bytes"))
}

#[inline(always)]
fn u64_at(bytes: &[u8], at: usize) -> u64 {
    u64::from_le_bytes(bytes[at..at + 8].try_into().expect("eight bytes"))
}

// ---------------------------------------------------------------------------------------------
// Judging
// ---------------------------------------------------------------------------------------------

/// 0, or a refusal's number and 256 times its offset, as the boundary has them.
#[inline(always)]
fn at(number: u32, offset: usize) -> u32 {
    number + 256 * offset as u32
}

fn judge(typed: bool, packet: &[u8]) -> u32 {
    if packet.is_empty() || packet.len() > 1_500 {
        return 1;
    }
    let mut start = 0;
    while start < packet.len() {
        let rest = &packet[start..];
        start += match good_length(rest) {
            Some(length) => length,
            None => match judge_record(typed, rest) {
                Ok(length) => length,
                Err(refused) => return refused + at(0, start),
            },
        };
    }
    0
}

/// Where a kind's judged fields stand in its record. Where a kind has none, the number of a good record stands in: it
/// is a good price, with a good size behind it, and its last bytes are good nanoseconds.
#[derive(Clone, Copy)]
struct Shape {
    length: u8,
    nanoseconds: u8,
    price: u8,
    side: u8,
}

const SHAPES: [Shape; 256] = {
    const fn shape(length: u8, nanoseconds: u8, price: u8, side: u8) -> Shape {
        Shape {
            length,
            nanoseconds,
            price,
            side,
        }
    }
    let mut shapes = [shape(0, 0, 0, 0); 256];
    shapes[49] = shape(15, 4, 0, 0);
    shapes[83] = shape(25, 11, 0, 0);
    shapes[4] = shape(22, 11, 0, 0);
    shapes[5] = shape(19, 11, 0, 0);
    shapes[20] = shape(44, 11, 28, 27);
    shapes[21] = shape(40, 11, 27, 0);
    shapes[23] = shape(27, 11, 0, 0);
    shapes[24] = shape(48, 11, 35, 0);
    shapes[10] = shape(41, 11, 28, 0);
    shapes[11] = shape(40, 11, 28, 0);
    shapes
};

/// The length of a record that is good, all its fields tested at once and without a branch on its kind; none where
/// that must be looked into, as with every Symbol Update.
#[inline(always)]
fn good_length(rest: &[u8]) -> Option<usize> {
    let kind = *rest.get(10)?;
    let shape = SHAPES[usize::from(kind)];
    let record = rest.get(..usize::from(shape.length))?;
    let price = usize::from(shape.price);
    let side = *record.get(usize::from(shape.side))?;
    let good = (u16_at(record, 8) + 10 == record.len())
        & (u64_at(record, 0).wrapping_sub(1) < LAST)
        & (u32_at(record, usize::from(shape.nanoseconds)) <= 999_999_999)
        & (u64_at(record, price).wrapping_sub(1) < HIGHEST_PRICE)
        & (u32_at(record, price + 8) != 0)
        & ((shape.side == 0) | (side == b'B') | (side == b'S'));
    good.then_some(record.len())
}

/// The length of any good record, or its refusal.
fn judge_record(typed: bool, rest: &[u8]) -> Result<usize, u32> {
    let Some((head, behind)) = rest.split_first_chunk::<10>() else {
        return Err(2);
    };
    let Some(body) = behind.get(..u16_at(head, 8)) else {
        return Err(2);
    };
    if u64_at(head, 0).wrapping_sub(1) >= LAST {
        return Err(5);
    }
    match judge_body(typed, body) {
        0 => Ok(10 + body.len()),
        refused => Err(refused + at(0, 10)),
    }
}

#[inline(always)]
fn judge_body(typed: bool, body: &[u8]) -> u32 {
    let Some(kind) = body.first() else {
        return 3;
    };
    let length = match kind {
        20 => 34,
        21 => 30,
        23 => 17,
        24 => 38,
        49 => 5,
        1 => 42,
        83 => 15,
        4 => 12,
        5 => 9,
        10 => 31,
        11 => 30,
        _ => return 3,
    };
    if body.len() != length {
        return 3;
    }
    if *kind == 49 {
        return 0;
    }
    if u32_at(body, 1) > 999_999_999 {
        return at(4, 1);
    }
    match kind {
        20 if body[17] != b'B' && body[17] != b'S' => at(4, 17),
        20 | 10 | 11 => price_and_size(body, 18),
        21 => price_and_size(body, 17),
        24 => price_and_size(body, 25),
        1 if typed && body[20] != b'E' && body[20] != b'F' => at(4, 20),
        1 if body[21] != b'Y' && body[21] != b'N' => at(4, 21),
        1 if !is_market(body[41]) => at(4, 41),
        _ => 0,
    }
}

#[inline(always)]
fn price_and_size(body: &[u8], place: usize) -> u32 {
    if u64_at(body, place).wrapping_sub(1) >= HIGHEST_PRICE {
        return at(4, place);
    }
    match u32_at(body, place + 8) {
        0 => at(4, place + 8),
        _ => 0,
    }
}

fn is_market(letter: u8) -> bool {
    matches!(letter, b'A'..=b'C' | b'H'..=b'N' | b'P' | b'Q' | b'U'..=b'Z')
}

// ---------------------------------------------------------------------------------------------
// The book
// ---------------------------------------------------------------------------------------------

struct Book<'a> {
    orders: &'a mut [Row],
    symbols: &'a mut [Entry],
    slots: &'a mut [u64; SLOTS],
    used: &'a mut u64,
    counts: &'a mut [u64; BLOCKS],
    hints: &'a mut [u64; HINTS],
    second: u64,
}

/// What a search for an order came to.
enum Search {
    Row(usize),
    /// The empty slot that ended it; none where there was none.
    Empty(Option<usize>),
}

#[inline(always)]
fn is_live(row: &Row) -> bool {
    row[4] != 0
        && row[1] < 1 << 33
        && row[2].wrapping_sub(1) < HIGHEST_PRICE
        && row[3].wrapping_sub(1) < u64::from(u32::MAX)
}

#[inline(always)]
fn is_free(row: &Row) -> bool {
    row[0] | row[1] | row[2] | row[3] | row[4] == 0
}

#[inline(always)]
fn tag(order: u64) -> u64 {
    order % (1 << 47) + 1
}

#[inline(always)]
fn first_slot(order: u64) -> usize {
    let folded = (order as u32).wrapping_add((order >> 32) as u32);
    (folded.wrapping_mul(2_654_435_769) >> 17) as usize
}

impl Book<'_> {
    #[inline(always)]
    fn search(&self, order: u64) -> Search {
        let tag = tag(order);
        let first = first_slot(order);
        for place in first..first + SLOTS {
            let slot = self.slots[place % SLOTS];
            if slot == 0 {
                return Search::Empty(Some(place % SLOTS));
            }
            if slot >> 16 == tag {
                let row = (slot % 65_536) as usize;
                if let Some(found) = self.orders.get(row) {
                    if found[0] == order && is_live(found) {
                        return Search::Row(row);
                    }
                }
            }
        }
        Search::Empty(None)
    }

    /// Eight counts at a time: most blocks of a full table have no free row.
    #[inline(always)]
    fn free_row(&self) -> Option<usize> {
        let some = |counts: &[u64]| counts.iter().fold(0, |all, count| all | count) != 0;
        let eight = self.counts.chunks(8).position(some)?;
        let nonzero = |count: &u64| *count != 0;
        let block = 8 * eight + self.counts[8 * eight..].iter().position(nonzero)?;
        let from = 64 * block;
        let found = self.orders.get(from..)?.iter().position(is_free)?;
        Some(from + found)
    }

    #[inline(always)]
    fn is_known(&self, symbol: u32) -> bool {
        let hint = self.hints[symbol as usize % HINTS];
        let is_it = |entry: &Entry| entry[0] == 1 && u32_at(entry, 5) == symbol;
        match self.symbols.get(hint as usize) {
            Some(entry) if is_it(entry) => true,
            _ => self.symbols.iter().any(is_it),
        }
    }

    /// A good body applied as message `number`, or with nothing changed the rule that it breaks. Without `CHANGE`
    /// nothing is changed in either case.
    #[inline(always)]
    fn apply<const CHANGE: bool>(&mut self, number: u64, body: &[u8]) -> u8 {
        match body[0] {
            20 => self.add::<CHANGE>(number, body),
            kind @ (21 | 23 | 24) => self.work_order::<CHANGE>(kind, number, body),
            1 => self.update::<CHANGE>(body),
            5 => self.clear::<CHANGE>(body),
            49 if CHANGE => {
                self.second = u64::from(u32_at(body, 1));
                0
            }
            _ => 0,
        }
    }

    #[inline(always)]
    fn add<const CHANGE: bool>(&mut self, number: u64, body: &[u8]) -> u8 {
        let (symbol, order) = (u32_at(body, 5), u64_at(body, 9));
        if !self.is_known(symbol) {
            return 20;
        }
        let Search::Empty(empty) = self.search(order) else {
            return 21;
        };
        let Some(row) = self.free_row() else {
            return 25;
        };
        if CHANGE {
            self.take(row, order, empty);
            self.orders[row] = [
                order,
                u64::from(symbol) * 2 + u64::from(body[17] == b'S'),
                u64_at(body, 18),
                u64::from(u32_at(body, 26)),
                number,
            ];
        }
        0
    }

    /// The index of a row that an order takes, whose search ended at this slot.
    #[inline(always)]
    fn take(&mut self, row: usize, order: u64, empty: Option<usize>) {
        let mut empty = empty;
        if *self.used >= MOST_USED {
            self.build();
            empty = Some(self.empty_slot(order));
        }
        let count = &mut self.counts[row / 64];
        *count = count.saturating_sub(1);
        if let Some(place) = empty {
            self.slots[place] = (tag(order) << 16) + row as u64;
            *self.used += 1;
        }
    }

    #[inline(always)]
    fn free(&mut self, row: usize) {
        let count = &mut self.counts[row / 64];
        *count += u64::from(*count < 64);
    }

    #[cold]
    fn build(&mut self) {
        self.slots.fill(0);
        self.counts.fill(0);
        *self.used = 0;
        for (place, row) in self.orders.iter().enumerate() {
            if is_live(row) {
                let slot = self.empty_slot(row[0]);
                self.slots[slot] = (tag(row[0]) << 16) + place as u64;
                *self.used += 1;
            } else if is_free(row) {
                self.counts[place / 64] += 1;
            }
        }
    }

    /// While the index is built there is always one: it has twice as many slots as there are rows.
    fn empty_slot(&self, order: u64) -> usize {
        let mut slot = first_slot(order);
        while self.slots[slot] != 0 {
            slot = (slot + 1) % SLOTS;
        }
        slot
    }

    /// Modify, Delete and Order Execution.
    #[inline(always)]
    fn work_order<const CHANGE: bool>(&mut self, kind: u8, number: u64, body: &[u8]) -> u8 {
        let (symbol, order) = (u32_at(body, 5), u64_at(body, 9));
        if !self.is_known(symbol) {
            return 20;
        }
        let Search::Row(place) = self.search(order) else {
            return 22;
        };
        let row = &mut self.orders[place];
        if row[1] >> 1 != u64::from(symbol) {
            return 23;
        }
        if kind == 21 {
            if CHANGE {
                row[2] = u64_at(body, 17);
                row[3] = u64::from(u32_at(body, 25));
                if body[29] & 1 == 1 {
                    row[4] = number;
                }
            }
            return 0;
        }
        if kind == 24 {
            let size = u64::from(u32_at(body, 33));
            if size > row[3] {
                return 24;
            }
            if size < row[3] {
                if CHANGE {
                    row[3] -= size;
                }
                return 0;
            }
        }
        if CHANGE {
            *row = [0; 5];
            self.free(place);
        }
        0
    }

    fn update<const CHANGE: bool>(&mut self, body: &[u8]) -> u8 {
        let symbol = u32_at(body, 5);
        let is_it = |entry: &Entry| entry[0] == 1 && u32_at(entry, 5) == symbol;
        let found = self.symbols.iter().position(is_it);
        let free = || self.symbols.iter().position(|entry| entry[0] == 0);
        let Some(place) = found.or_else(free) else {
            return 26;
        };
        if CHANGE {
            self.symbols[place].copy_from_slice(body);
            self.hints[symbol as usize % HINTS] = place as u64;
        }
        0
    }

    fn clear<const CHANGE: bool>(&mut self, body: &[u8]) -> u8 {
        let symbol = u32_at(body, 5);
        if !self.is_known(symbol) {
            return 20;
        }
        if CHANGE {
            for place in 0..self.orders.len() {
                let row = &mut self.orders[place];
                if row[1] >> 1 == u64::from(symbol) && is_live(row) {
                    *row = [0; 5];
                    self.free(place);
                }
            }
        }
        0
    }
}

// ---------------------------------------------------------------------------------------------
// The receiver
// ---------------------------------------------------------------------------------------------

/// One packet, as `rimeheath_receive` takes it, through an index of 49,403 numbers: any other length, none included,
/// is refused with 6 here.
pub fn receive(
    orders: &mut [u64],
    symbols: &mut [u8],
    shelf: &mut [u8],
    index: &mut [u64],
    state: &mut [u64; 4],
    packet: &[u8],
    account: &mut [u64; 9],
) -> u32 {
    let (orders, no_row) = orders.as_chunks_mut::<5>();
    let (symbols, no_entry) = symbols.as_chunks_mut::<42>();
    let fits = no_row.is_empty()
        && no_entry.is_empty()
        && (1..=ROWS).contains(&orders.len())
        && (1..=1_000).contains(&symbols.len())
        && shelf.len() == SHELF
        && index.len() == INDEX
        && (1..=LAST + 1).contains(&state[0]);
    if !fits {
        return 6;
    }
    let typed = state[3] == 1;
    match judge(typed, packet) {
        0 => {}
        refused => return refused,
    }
    let shelf: &mut [Slot; 64] = shelf.as_chunks_mut().0.try_into().expect("64 slots");
    let (slots, rest) = index.split_first_chunk_mut().expect("32,768 slots");
    let (used, rest) = rest.split_first_mut().expect("how many were used");
    let (counts, rest) = rest.split_first_chunk_mut().expect("250 counts");
    let book = Book {
        orders,
        symbols,
        slots,
        used,
        counts,
        hints: rest.try_into().expect("16,384 hints"),
        second: state[1] % (1 << 32),
    };
    let mut receiver = Receiver {
        book,
        shelf,
        typed,
        next: state[0],
        answers: [0; 5],
    };
    receiver.work(packet);
    let stop = receiver.stop();
    let numbers = receiver.shelf.iter().map(|slot| u64_at(slot, 0));
    let highest = numbers.fold(0, u64::max);
    let Receiver { next, answers, .. } = receiver;
    account[..5].copy_from_slice(&answers);
    account[5..].copy_from_slice(&[next, next - state[0], highest, stop]);
    *state = [next, receiver.book.second, stop, u64::from(typed)];
    0
}

struct Receiver<'a> {
    book: Book<'a>,
    shelf: &'a mut [Slot; 64],
    typed: bool,
    next: u64,
    answers: [u64; 5],
}

impl Receiver<'_> {
    /// The records of a packet that was judged.
    #[inline(always)]
    fn work(&mut self, packet: &[u8]) {
        let mut rest = packet;
        while rest.len() >= 10 {
            let (record, behind) = rest.split_at(10 + u16_at(rest, 8));
            let answer = self.work_record(record);
            self.answers[answer] += 1;
            rest = behind;
        }
    }

    /// The answer, less 10. A slot begins as a record does, and zeros are behind it.
    #[inline(always)]
    fn work_record(&mut self, record: &[u8]) -> usize {
        let number = u64_at(record, 0);
        if number < self.next {
            return 1;
        }
        if number >= self.next + 64 {
            return 2;
        }
        let slot = &mut self.shelf[number as usize % 64];
        if u64_at(slot, 0) != 0 {
            let (front, padding) = slot.split_at(record.len());
            let same = front == record && padding.iter().all(|byte| *byte == 0);
            return if same { 3 } else { 4 };
        }
        // Most messages come when it is their turn, and go into the book without the shelf.
        if number == self.next && self.book.apply::<true>(number, &record[10..]) == 0 {
            *slot = [0; 74];
            self.next += 1;
            self.drain();
            return 0;
        }
        let (front, padding) = slot.split_at_mut(record.len());
        front.copy_from_slice(record);
        padding.fill(0);
        if number != self.next {
            self.drain();
        }
        0
    }

    /// What waits on the shelf and is next, while it applies.
    #[inline(always)]
    fn drain(&mut self) {
        loop {
            let place = self.next as usize % 64;
            if u64_at(&self.shelf[place], 0) != self.next {
                return;
            }
            let Some(body) = good_body(self.typed, &self.shelf[place]) else {
                return;
            };
            if self.book.apply::<true>(self.next, body) != 0 {
                return;
            }
            self.shelf[place] = [0; 74];
            self.next += 1;
        }
    }

    #[inline(always)]
    fn stop(&mut self) -> u64 {
        let slot = &self.shelf[self.next as usize % 64];
        let number = u64_at(slot, 0);
        if number == 0 {
            return 0;
        }
        match good_body(self.typed, slot) {
            Some(body) if number == self.next => self.book.apply::<false>(number, body).into(),
            _ => 27,
        }
    }
}

fn good_body(typed: bool, slot: &Slot) -> Option<&[u8]> {
    let body = slot[10..].get(..u16_at(slot, 8))?;
    (judge_body(typed, body) == 0).then_some(body)
}
