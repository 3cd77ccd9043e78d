//! A model of the index (document 02, request 9), written from docs/INDEX.md alone: what stands in its memory, what
//! is found through it and what a message leaves there, whatever index and tables have in them.

use crate::book::{row_is_of_symbol, Found, Search};
use crate::packet::Message;
use crate::tables::*;

/// "Or it has 49,403 numbers".
pub const INDEX_NUMBERS: usize = 49_403;
/// "0 to 32,767: slots: 0, or an order's tag and row".
pub const ORDER_SLOTS: usize = 32_768;
/// "32,768: how many slots were used since the index was last built".
pub const USED: usize = 32_768;
/// "32,769 to 33,018: 250 counts: how many of the rows 64 b to 64 b + 63 are free".
pub const COUNTS: usize = 32_769;
pub const BLOCKS: usize = 250;
pub const BLOCK_ROWS: usize = 64;
/// "33,019 to 49,402: 16,384 hints: the entry of a symbol".
pub const HINTS: usize = 33_019;
pub const HINT_NUMBERS: usize = 16_384;
/// "If 24,576 slots or more were used, the numbers 0 to 33,018 are built anew".
pub const MOST_USED: u64 = 24_576;

/// "It has no numbers [...] Or it has 49,403 numbers [...] Any other length is refused with 6".
pub fn index_fits(index: &[u64]) -> bool {
    index.is_empty() || index.len() == INDEX_NUMBERS
}

/// "the tag is ID % 2^47 + 1"
pub fn tag(order: u64) -> u64 {
    order % (1 << 47) + 1
}

/// "((ID % 2^32 + ID / 2^32) % 2^32) * 2654435769 / 2^17 % 2^15"
pub fn first_slot(order: u64) -> usize {
    let folded = (order % (1 << 32) + order / (1 << 32)) % (1 << 32);
    (folded * 2_654_435_769 / (1 << 17) % (1 << 15)) as usize
}

/// "A slot that stands for row i holds tag * 65536 + i % 65536."
pub fn slot_of(order: u64, row: usize) -> u64 {
    tag(order) * 65_536 + row as u64 % 65_536
}

/// "the hint is the number at 33,019 + ID % 16384"
pub fn hint_of(symbol: u32) -> usize {
    HINTS + symbol as usize % HINT_NUMBERS
}

/// The slots in the order in which an order ID's search looks at them: "The slot after slot p is (p + 1) % 32768."
pub fn slots_from(first: usize) -> impl Iterator<Item = usize> {
    (0..ORDER_SLOTS).map(move |step| (first + step) % ORDER_SLOTS)
}

/// An index of 49,403 numbers, and what is found through it.
pub struct Index<'a>(pub &'a [u64]);

impl Search for Index<'_> {
    /// "Slot after slot from its first one, at most 32,768 of them."
    fn live_row(&self, orders: &[u64], order: u64) -> Option<usize> {
        for place in slots_from(first_slot(order)) {
            let slot = self.0[place];
            // "An empty slot (0) ends the search: no row."
            if slot == 0 {
                return None;
            }
            // "A slot whose upper part (/ 65536) is the ID's tag and whose row (% 65536) is live and has this order
            // ID ends it with that row. Any other is passed".
            let row = (slot % 65_536) as usize;
            if slot / 65_536 == tag(order) && row_has_order(orders, row, order) {
                return Some(row);
            }
        }
        None
    }

    /// "The first block, of the 250, whose count is not 0; then the first free row of the table from row 64 b on,
    /// through later blocks where need be. No such block, or no such row: none."
    fn free_row(&self, orders: &[u64]) -> Option<usize> {
        let block = (0..BLOCKS).find(|block| self.0[COUNTS + block] != 0)?;
        (block * BLOCK_ROWS..rows_in(orders)).find(|place| row_is_free(row(orders, *place)))
    }

    /// "If the entry that its hint names is in the table, in use and of this symbol, then that one. Else the lowest
    /// used entry with the ID, by a search of the whole table."
    fn known_entry(&self, symbols: &[u8], symbol: u32) -> Option<usize> {
        let hint = self.0[hint_of(symbol)];
        if hint < entries_in(symbols) as u64 {
            let entry = entry(symbols, hint as usize);
            if entry_is_used(entry) && symbol_of_entry(entry) == symbol {
                return Some(hint as usize);
            }
        }
        used_entry(symbols, symbol)
    }
}

/// "A row behind the table's end is not live."
pub fn row_has_order(orders: &[u64], place: usize, order: u64) -> bool {
    if place >= rows_in(orders) {
        return false;
    }
    let row = row(orders, place);
    row_is_live(row) && row[ORDER_ID] == order
}

/// What a message that applies leaves in the index. The tables are those before it, and it was planned from what
/// was found.
pub fn leave(index: &mut [u64], message: &Message, found: &Found, orders: &[u64]) {
    match *message {
        Message::AddOrder { order, .. } => {
            if let Some(place) = found.free {
                row_taken(index, orders, place, order);
            }
        }
        Message::DeleteOrder { .. } => {
            if let Some(place) = found.row {
                row_freed(index, place);
            }
        }
        // "an execution to zero"; "an execution that leaves shares: nothing"
        Message::OrderExecution { size, .. } => match found.row {
            Some(place) if row(orders, place)[SIZE] == u64::from(size) => row_freed(index, place),
            _ => {}
        },
        // "for each live row of the symbol, from row 0 on, the count of its block rises by 1, if it is below 64"
        Message::SymbolClear { symbol, .. } => {
            for place in 0..rows_in(orders) {
                if row_is_of_symbol(row(orders, place), symbol) {
                    row_freed(index, place);
                }
            }
        }
        // "A Symbol Update that took entry i: the hint of its symbol becomes i."
        Message::SymbolUpdate(update) => {
            if let Some(place) = found.taken {
                index[hint_of(update.symbol)] = place as u64;
            }
        }
        // "a Modify [..]: nothing"; "Every other message: nothing."
        Message::ModifyOrder { .. }
        | Message::SystemTime { .. }
        | Message::SystemState { .. }
        | Message::TradingStatus { .. }
        | Message::Trade { .. }
        | Message::TradeCancel { .. } => {}
    }
}

/// "A row was put at i, was free before and is not free now (an Add)".
fn row_taken(index: &mut [u64], orders: &[u64], place: usize, order: u64) {
    // "1. If 24,576 slots or more were used, the numbers 0 to 33,018 are built anew, from the rows as they were
    // before the Add."
    if index[USED] >= MOST_USED {
        build(index, orders);
    }
    // "2. The count of block i / 64 falls by 1, if it is above 0."
    let count = &mut index[COUNTS + place / BLOCK_ROWS];
    *count = count.saturating_sub(1);
    store(index, order, place);
}

/// "3. If fewer than 32,768 slots were used, the first empty slot from the order ID's first one on takes tag and
/// row, and the number of used slots rises by 1. Where none of the 32,768 is empty, nothing is stored."
fn store(index: &mut [u64], order: u64, place: usize) {
    if index[USED] >= ORDER_SLOTS as u64 {
        return;
    }
    let empty = slots_from(first_slot(order)).find(|slot| index[*slot] == 0);
    if let Some(slot) = empty {
        index[slot] = slot_of(order, place);
        index[USED] += 1;
    }
}

/// "A row was put at i, was not free before and is free now": "the count of block i / 64 rises by 1, if it is
/// below 64."
fn row_freed(index: &mut [u64], place: usize) {
    let count = &mut index[COUNTS + place / BLOCK_ROWS];
    if *count < BLOCK_ROWS as u64 {
        *count += 1;
    }
}

/// "Built anew means: the numbers 0 to 33,018 become 0; then, from row 0 on, each live row goes into a slot as in
/// step 3, and each free row raises its block's count by 1, if it is below 64. Hints stay."
pub fn build(index: &mut [u64], orders: &[u64]) {
    index[..HINTS].fill(0);
    for place in 0..rows_in(orders) {
        let row = row(orders, place);
        if row_is_live(row) {
            store(index, row[ORDER_ID], place);
        } else if row_is_free(row) {
            row_freed(index, place);
        }
    }
}

/// "A start zeroes all 49,403 numbers and builds the index of the zeroed table". No index is left as it is: it has
/// no numbers.
pub fn make(index: &mut [u64], zeroed: &[u64]) {
    if !index.is_empty() {
        index.fill(0);
        build(index, zeroed);
    }
}
