//! Views of the tables: ladder, spread and counts. "Views: 6, then 30."

use crate::book::symbol_and_side;
use crate::packet::Side;
use crate::tables::*;

/// A price level: price, shares, number of orders.
pub type Level = [u64; 3];

fn refuse_view(orders: &[u64], symbols: &[u8], symbol: u32) -> Result<(), u8> {
    if !order_table_fits(orders) || !symbol_table_fits(symbols) {
        return Err(6);
    }
    if used_entry(symbols, symbol).is_none() {
        return Err(30);
    }
    Ok(())
}

/// All levels of a symbol and side, over every live row: "bids from the highest, offers from the
/// lowest".
fn levels(orders: &[u64], symbol: u32, side: Side) -> Vec<Level> {
    let mut levels: Vec<Level> = Vec::new();
    for place in 0..rows_in(orders) {
        let row = row(orders, place);
        if !row_is_live(row) || row[SYMBOL_AND_SIDE] != symbol_and_side(symbol, side) {
            continue;
        }
        match levels.iter_mut().find(|level| level[0] == row[PRICE]) {
            Some(level) => {
                level[1] += row[SIZE];
                level[2] += 1;
            }
            None => levels.push([row[PRICE], row[SIZE], 1]),
        }
    }
    levels.sort_by_key(|level| level[0]);
    if side == Side::Buy {
        levels.reverse();
    }
    levels
}

/// The ladder: "three 64-bit numbers each, written into a lent run while a whole level fits. The
/// rest of the run is untouched. The answer is the number of all levels, written or not."
pub fn ladder(
    orders: &[u64],
    symbols: &[u8],
    symbol: u32,
    side: Side,
    run: &mut [u64],
) -> Result<u64, u8> {
    refuse_view(orders, symbols, symbol)?;
    let levels = levels(orders, symbol, side);
    for (place, level) in levels.iter().enumerate() {
        if (place + 1) * 3 <= run.len() {
            run[place * 3..place * 3 + 3].copy_from_slice(level);
        }
    }
    Ok(levels.len() as u64)
}

/// "The spread is best offer less best bid in millionths, signed, so a crossed book is negative;
/// with a side empty the answer is none."
pub fn spread(orders: &[u64], symbols: &[u8], symbol: u32) -> Result<Option<i64>, u8> {
    refuse_view(orders, symbols, symbol)?;
    let bids = levels(orders, symbol, Side::Buy);
    let offers = levels(orders, symbol, Side::Sell);
    if bids.is_empty() || offers.is_empty() {
        return Ok(None);
    }
    Ok(Some(offers[0][0] as i64 - bids[0][0] as i64))
}

/// The number of live rows.
pub fn live_orders(orders: &[u64]) -> Result<u64, u8> {
    if !order_table_fits(orders) {
        return Err(6);
    }
    let live = (0..rows_in(orders)).filter(|place| row_is_live(row(orders, *place)));
    Ok(live.count() as u64)
}

/// The number of used entries.
pub fn used_entries(symbols: &[u8]) -> Result<u64, u8> {
    if !symbol_table_fits(symbols) {
        return Err(6);
    }
    let used = (0..entries_in(symbols)).filter(|place| entry_is_used(entry(symbols, *place)));
    Ok(used.count() as u64)
}
