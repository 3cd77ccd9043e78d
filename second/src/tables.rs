//! The lent tables: orders as 64-bit numbers, five to a row, and symbols as entries of 42 bytes.

use crate::packet::{little, price_in_range};

/// "five to a row: order ID, symbol ID times 2 plus side (buy 0, sell 1), price, size, rank"
pub const ROW_NUMBERS: usize = 5;
pub const ORDER_ID: usize = 0;
pub const SYMBOL_AND_SIDE: usize = 1;
pub const PRICE: usize = 2;
pub const SIZE: usize = 3;
pub const RANK: usize = 4;

/// "Capacity 1 to 1,600 rows." Request 9: "Raise the order table to 16,000 rows in the library".
pub const MOST_ROWS: usize = 16_000;
/// Request 9: "the sheet program keeps 1,600."
pub const SHEET_ROWS: usize = 1_600;
/// "The symbol table holds 1 to 1,000 entries of 42 bytes".
pub const MOST_ENTRIES: usize = 1_000;
pub const ENTRY_BYTES: usize = 42;

/// 6: "a table size outside these limits or not in whole rows"
pub fn order_table_fits(orders: &[u64]) -> bool {
    orders.len() % ROW_NUMBERS == 0 && (1..=MOST_ROWS).contains(&rows_in(orders))
}

/// 6: "a table size outside these limits or not in whole rows"
pub fn symbol_table_fits(symbols: &[u8]) -> bool {
    symbols.len() % ENTRY_BYTES == 0 && (1..=MOST_ENTRIES).contains(&entries_in(symbols))
}

pub fn rows_in(orders: &[u64]) -> usize {
    orders.len() / ROW_NUMBERS
}

pub fn row(orders: &[u64], place: usize) -> &[u64] {
    &orders[place * ROW_NUMBERS..(place + 1) * ROW_NUMBERS]
}

pub fn row_mut(orders: &mut [u64], place: usize) -> &mut [u64] {
    &mut orders[place * ROW_NUMBERS..(place + 1) * ROW_NUMBERS]
}

/// "An all-zero row is free."
pub fn row_is_free(row: &[u64]) -> bool {
    row.iter().all(|number| *number == 0)
}

/// "A row with rank at least 1, symbol below 2^32, price in range and size 1 to 4,294,967,295 is
/// live. Any other is spoiled, neither free nor live."
pub fn row_is_live(row: &[u64]) -> bool {
    row[RANK] >= 1
        && row[SYMBOL_AND_SIDE] / 2 < 4_294_967_296
        && price_in_range(row[PRICE])
        && row[SIZE] >= 1
        && row[SIZE] <= 4_294_967_295
}

/// The lowest live row of an order ID.
pub fn live_row(orders: &[u64], order: u64) -> Option<usize> {
    (0..rows_in(orders)).find(|place| {
        let row = row(orders, *place);
        row_is_live(row) && row[ORDER_ID] == order
    })
}

/// The lowest free row.
pub fn free_row(orders: &[u64]) -> Option<usize> {
    (0..rows_in(orders)).find(|place| row_is_free(row(orders, *place)))
}

pub fn entries_in(symbols: &[u8]) -> usize {
    symbols.len() / ENTRY_BYTES
}

pub fn entry(symbols: &[u8], place: usize) -> &[u8] {
    &symbols[place * ENTRY_BYTES..(place + 1) * ENTRY_BYTES]
}

pub fn entry_mut(symbols: &mut [u8], place: usize) -> &mut [u8] {
    &mut symbols[place * ENTRY_BYTES..(place + 1) * ENTRY_BYTES]
}

/// "type 1 marks an entry in use, type 0 a free one; any other type is spoiled, neither of the
/// two"
pub fn entry_is_used(entry: &[u8]) -> bool {
    entry[0] == 1
}

pub fn entry_is_free(entry: &[u8]) -> bool {
    entry[0] == 0
}

/// The symbol ID of an entry, which is a Symbol Update body: bytes 5 to 8.
pub fn symbol_of_entry(entry: &[u8]) -> u32 {
    little(&entry[5..9]) as u32
}

/// The lowest used entry of a symbol. None: the symbol is unknown.
pub fn used_entry(symbols: &[u8], symbol: u32) -> Option<usize> {
    (0..entries_in(symbols)).find(|place| {
        let entry = entry(symbols, *place);
        entry_is_used(entry) && symbol_of_entry(entry) == symbol
    })
}

/// The lowest free entry.
pub fn free_entry(symbols: &[u8]) -> Option<usize> {
    (0..entries_in(symbols)).find(|place| entry_is_free(entry(symbols, *place)))
}

#[cfg(test)]
mod tests {
    use super::*;

    #[test]
    fn rows_are_free_live_or_spoiled() {
        assert!(row_is_free(&[0; 5]));
        assert!(!row_is_live(&[0; 5]));
        let live = [
            [0, 0, 1, 1, 1],
            [
                u64::MAX,
                (1 << 33) - 1,
                1_000_000_000_000_000,
                4_294_967_295,
                u64::MAX,
            ],
        ];
        for row in live {
            assert!(row_is_live(&row) && !row_is_free(&row));
        }
        let spoiled = [
            [1, 0, 0, 0, 0],
            [0, 0, 1, 1, 0],
            [0, 0, 1, 0, 1],
            [0, 0, 1, 4_294_967_296, 1],
            [0, 0, 0, 1, 1],
            [0, 0, 1_000_000_000_000_001, 1, 1],
            [0, 1 << 33, 1, 1, 1],
            [0, u64::MAX, 1, 1, 1],
        ];
        for row in spoiled {
            assert!(!row_is_live(&row) && !row_is_free(&row));
        }
    }

    #[test]
    fn searches_take_the_lowest() {
        let mut orders = vec![1; 5 * 6];
        orders[5..10].fill(0);
        orders[20..25].fill(0);
        orders[0] = 9;
        orders[4] = 0; // spoiled
        assert_eq!(live_row(&orders, 1), Some(2));
        assert_eq!(live_row(&orders, 9), None);
        assert_eq!(free_row(&orders), Some(1));
        assert_eq!(free_row(&[1; 10]), None);

        let mut symbols = vec![0; 42 * 4];
        for (place, kind) in [2, 1, 0, 1].into_iter().enumerate() {
            symbols[place * 42] = kind;
            symbols[place * 42 + 5] = 7;
        }
        assert_eq!(used_entry(&symbols, 7), Some(1));
        assert_eq!(used_entry(&symbols, 0), None);
        assert_eq!(used_entry(&symbols, 7 + 256), None);
        assert_eq!(free_entry(&symbols), Some(2));
        assert_eq!(free_entry(&[3; 42]), None);
    }
}
