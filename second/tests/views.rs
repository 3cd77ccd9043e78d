//! Ladder, spread and counts, in tables left to the receiver and in altered ones.

mod common;
use common::*;
use second::packet::{Side, HIGHEST_PRICE};
use second::views::*;

fn ladder_of(desk: &Desk, symbol: u32, side: Side) -> Vec<u64> {
    let mut run = vec![0; 3 * 1_600];
    let levels = ladder(&desk.orders, &desk.symbols, symbol, side, &mut run).unwrap();
    run.truncate(levels as usize * 3);
    run
}

#[test]
fn bids_from_the_highest_offers_from_the_lowest() {
    let mut desk = Desk::with_symbols(20, 2);
    for (order, price, size) in [(1, 10, 1), (2, 12, 2), (3, 11, 4), (4, 12, 8), (5, 10, 16)] {
        desk.next(buy(7, order, price, size));
        desk.next(sell(7, 100 + order, 100 + price, size));
        desk.next(sell(8, 200 + order, price, size));
    }
    assert_eq!(
        ladder_of(&desk, 7, Side::Buy),
        [12, 10, 2, 11, 4, 1, 10, 17, 2]
    );
    assert_eq!(
        ladder_of(&desk, 7, Side::Sell),
        [110, 17, 2, 111, 4, 1, 112, 10, 2]
    );
    assert_eq!(ladder_of(&desk, 8, Side::Buy), []);
    assert_eq!(spread(&desk.orders, &desk.symbols, 7), Ok(Some(98)));
    assert_eq!(spread(&desk.orders, &desk.symbols, 8), Ok(None));
    assert_eq!(live_orders(&desk.orders), Ok(15));
    assert_eq!(used_entries(&desk.symbols), Ok(2));
}

#[test]
fn whole_levels_only_and_the_answer_counts_all() {
    let mut desk = Desk::with_symbols(5, 2);
    for order in 1..=3 {
        desk.next(buy(7, order, order, order as u32 * 10));
    }
    let whole = [3, 30, 1, 2, 20, 1, 1, 10, 1];
    for length in 0..=12 {
        let mut run = vec![u64::MAX; length];
        let answer = ladder(&desk.orders, &desk.symbols, 7, Side::Buy, &mut run);
        assert_eq!(answer, Ok(3));
        let written = (length / 3).min(3) * 3;
        assert_eq!(run[..written], whole[..written]);
        assert!(run[written..].iter().all(|number| *number == u64::MAX));
    }
}

#[test]
fn the_largest_sums_and_spreads() {
    let mut desk = Desk::new(V1_3b, 1_600, 1);
    desk.next(update(7));
    for order in 0..1_599 {
        desk.next(buy(7, order, HIGHEST_PRICE, u32::MAX));
    }
    desk.next(sell(7, 1_599, 1, 1));
    assert_eq!(
        ladder_of(&desk, 7, Side::Buy),
        [HIGHEST_PRICE, 1_599 * u32::MAX as u64, 1_599]
    );
    let widest = 1 - HIGHEST_PRICE as i64;
    assert_eq!(spread(&desk.orders, &desk.symbols, 7), Ok(Some(widest)));
    assert_eq!(desk.next(buy(7, 5_000, 1, 1)).stop, 25);
    let mut desk = Desk::with_symbols(2, 2);
    desk.next(buy(7, 1, 1, 1));
    desk.next(sell(7, 2, HIGHEST_PRICE, 1));
    assert_eq!(spread(&desk.orders, &desk.symbols, 7), Ok(Some(-widest)));
    // A locked book.
    desk.next(modify(7, 1, HIGHEST_PRICE, 1, 0));
    assert_eq!(spread(&desk.orders, &desk.symbols, 7), Ok(Some(0)));
}

#[test]
fn views_take_every_live_row_of_altered_tables() {
    let mut desk = Desk::with_symbols(8, 3);
    let edge = 1 << 33;
    desk.orders.copy_from_slice(&[
        500,
        14,
        10,
        1,
        1, // live
        500,
        14,
        10,
        2,
        9, // the same ID once more: live
        501,
        15,
        12,
        1,
        u64::MAX, // live
        502,
        14,
        0,
        4,
        1, // price 0
        503,
        14,
        HIGHEST_PRICE + 1,
        4,
        1, // price too high
        504,
        14,
        10,
        1 << 32,
        1, // size too large
        505,
        edge + 14,
        10,
        4,
        1, // symbol too large
        506,
        14,
        10,
        4,
        0, // rank 0
    ]);
    assert_eq!(ladder_of(&desk, 7, Side::Buy), [10, 3, 2]);
    assert_eq!(ladder_of(&desk, 7, Side::Sell), [12, 1, 1]);
    assert_eq!(spread(&desk.orders, &desk.symbols, 7), Ok(Some(2)));
    assert_eq!(live_orders(&desk.orders), Ok(3));
    // No row is free, and a Clear takes every live row and no spoiled one.
    assert_eq!(desk.clone().next(buy(7, 600, 1, 1)).stop, 25);
    assert_eq!(desk.next(clear(7)).stop, 0);
    assert!(desk.orders[..15].iter().all(|number| *number == 0));
    assert_eq!(desk.orders[15], 502);
    assert_eq!(live_orders(&desk.orders), Ok(0));
    assert_eq!(spread(&desk.orders, &desk.symbols, 7), Ok(None));
    // Spoiled rows neither count as live IDs nor are used again.
    assert_eq!(desk.next(buy(7, 502, 1, 1)).stop, 0);
    assert_eq!(desk.row(0)[0], 502);
    assert_eq!(desk.row(3)[0], 502);
}

#[test]
fn used_entries_count_twice_if_a_symbol_stands_twice() {
    let mut desk = Desk::with_symbols(2, 4);
    let entry = desk.symbols[..42].to_vec();
    desk.symbols[126..].copy_from_slice(&entry);
    desk.symbols[42] = 3;
    assert_eq!(used_entries(&desk.symbols), Ok(2));
    // The lowest used entry is the one replaced.
    let new = second::morning::symbol_update(1, 7, b"NEW        ", 1);
    desk.next(new.clone());
    assert_eq!(desk.symbols[..42], new);
    assert_eq!(desk.symbols[126..], entry);
}
