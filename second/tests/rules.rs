//! Every book rule and every kind of message, in tables left to the receiver.

mod common;
use common::*;
use second::book::{apply, broken_rule};
use second::morning::*;
use second::packet::read_body;

/// The next message must stop with this rule and leave the tables and the second as they were.
fn stops(desk: &Desk, rule: u8, body: Vec<u8>) {
    let mut desk = desk.clone();
    let (orders, symbols, second) = (desk.orders.clone(), desk.symbols.clone(), desk.state.second);
    let next = desk.state.next;
    let answer = desk.next(body.clone());
    assert_eq!((answer.stop, desk.state.stop), (rule, rule));
    assert_eq!((answer.taken, answer.applied), (1, 0));
    assert_eq!((answer.next, answer.highest), (next, next));
    assert_eq!((&desk.orders, &desk.symbols), (&orders, &symbols));
    assert_eq!(desk.state.second, second);
    // The same by the book alone.
    let message = read_body(V1_3b, &body).unwrap();
    assert_eq!(broken_rule(&message, &orders, &symbols), Some(rule));
    let (mut o, mut s, mut t) = (orders.clone(), symbols.clone(), second);
    assert_eq!(apply(next, &message, &mut o, &mut s, &mut t), Err(rule));
    assert_eq!((o, s, t), (orders, symbols, second));
}

/// Symbols 7 and 8 known, buy 500 of symbol 7 for 100 live, one row and no entry free.
fn small() -> Desk {
    let mut desk = Desk::with_symbols(2, 2);
    assert_eq!(desk.next(buy(7, 500, 10_000_000, 100)).stop, 0);
    desk
}

/// The same without a free row: sell 501 of symbol 8 lives in the other.
fn full() -> Desk {
    let mut desk = small();
    assert_eq!(desk.next(sell(8, 501, 10_000_000, 100)).stop, 0);
    desk
}

#[test]
fn system_time_sets_the_second() {
    let mut desk = Desk::new(V1_3b, 1, 1);
    desk.next(time(34_200));
    assert_eq!(desk.state.second, 34_200);
    desk.next(time(u32::MAX));
    assert_eq!(desk.state.second, 4_294_967_295);
    desk.next(time(0));
    assert_eq!(desk.state.second, 0);
}

#[test]
fn symbol_update_replaces_or_takes_the_lowest_free_entry() {
    let mut desk = Desk::new(V1_3b, 1, 3);
    let mut first = update(9);
    first[20] = 200;
    first[22] = 201;
    desk.next(first.clone());
    desk.next(update(0));
    desk.next(update(u32::MAX));
    assert_eq!(desk.symbols[..42], first);
    assert_eq!(desk.symbols[42..84], update(0));
    assert_eq!(desk.symbols[84..], update(u32::MAX));
    let again = symbol_update(5, 0, b"NEW        ", 1);
    desk.next(again.clone());
    assert_eq!(desk.symbols[..42], first);
    assert_eq!(desk.symbols[42..84], again);
    assert_eq!(desk.symbols[84..], update(u32::MAX));
    stops(&desk, 26, update(10));
    assert_eq!(desk.next(update(9)).stop, 0);
}

#[test]
fn add_rules_20_21_25() {
    stops(&small(), 20, buy(9, 500, 1, 1));
    stops(&full(), 20, buy(9, 600, 1, 1));
    stops(&small(), 21, buy(7, 500, 1, 1));
    stops(&full(), 21, sell(7, 500, 1, 1));
    stops(&full(), 21, sell(8, 500, 1, 1));
    stops(&full(), 25, buy(7, 600, 1, 1));
    let mut desk = full();
    desk.next(delete(7, 500));
    assert_eq!(desk.next(sell(8, 600, 1, u32::MAX)).stop, 0);
    assert_eq!(desk.row(0), [600, 17, 1, 4_294_967_295, 6]);
    assert_eq!(desk.row(1), [501, 17, 10_000_000, 100, 4]);
}

#[test]
fn add_uses_the_lowest_free_row() {
    let mut desk = Desk::with_symbols(4, 2);
    for order in 1..=4 {
        desk.next(buy(7, order, 1, 1));
    }
    desk.next(delete(7, 3));
    desk.next(delete(7, 2));
    desk.next(buy(8, 9, 5, 6));
    assert_eq!(desk.row(1), [9, 16, 5, 6, 9]);
    assert_eq!(desk.row(2), [0; 5]);
}

#[test]
fn modify_rules_20_22_23() {
    stops(&full(), 20, modify(9, 500, 1, 1, 0));
    stops(&full(), 22, modify(7, 502, 1, 1, 0));
    stops(&full(), 23, modify(8, 500, 1, 1, 0));
    let mut desk = full();
    desk.next(modify(7, 500, 1_000_000_000_000_000, 4_294_967_295, 1));
    assert_eq!(
        desk.row(0),
        [500, 14, 1_000_000_000_000_000, 4_294_967_295, 5]
    );
    desk.next(modify(8, 501, 1, 1, 0));
    assert_eq!(desk.row(1), [501, 17, 1, 1, 4]);
}

#[test]
fn delete_rules_20_22_23() {
    stops(&full(), 20, delete(9, 500));
    stops(&full(), 22, delete(7, 502));
    stops(&full(), 23, delete(8, 500));
    let mut desk = full();
    desk.next(delete(7, 500));
    assert_eq!(desk.row(0), [0; 5]);
    assert_eq!(desk.row(1), [501, 17, 10_000_000, 100, 4]);
    stops(&desk, 22, delete(7, 500));
}

#[test]
fn execution_rules_20_22_23_24() {
    stops(&full(), 20, execute(9, 500, 101));
    stops(&full(), 22, execute(7, 502, 101));
    stops(&full(), 23, execute(8, 500, 101));
    stops(&full(), 24, execute(7, 500, 101));
    stops(&full(), 24, execute(7, 500, u32::MAX));
    let mut desk = full();
    desk.next(execute(7, 500, 99));
    assert_eq!(desk.row(0), [500, 14, 10_000_000, 1, 3]);
    stops(&desk, 24, execute(7, 500, 2));
    desk.next(execute(7, 500, 1));
    assert_eq!(desk.row(0), [0; 5]);
    stops(&desk, 22, execute(7, 500, 1));
}

#[test]
fn symbol_clear_rule_20_and_every_row_of_the_symbol() {
    stops(&full(), 20, clear(9));
    let mut desk = Desk::with_symbols(6, 2);
    for order in 1..=3 {
        desk.next(buy(7, order, 1, 1));
        desk.next(sell(8, 10 + order, 1, 1));
    }
    let symbols = desk.symbols.clone();
    assert_eq!(desk.next(clear(7)).stop, 0);
    for place in [0, 2, 4] {
        assert_eq!(desk.row(place), [0; 5]);
    }
    for place in [1, 3, 5] {
        assert_eq!(desk.row(place)[1], 17);
    }
    assert_eq!(desk.symbols, symbols);
    // of a symbol without orders
    assert_eq!(desk.next(clear(7)).stop, 0);
}

#[test]
fn the_other_four_change_no_table() {
    let mut desk = full();
    desk.next(time(77));
    let before = desk.clone();
    for symbol in [7, 99] {
        desk.next(trading_status(0, symbol, &[3, 3, b'Y']));
        desk.next(trade(0, symbol, 1, 0, 1, 1, 1));
        desk.next(trade_cancel(0, symbol, 2, 0, 1, 1));
        desk.next(system_state(0, b"DoM1.3  ", 2, b'C'));
    }
    assert_eq!(desk.state.next, before.state.next + 8);
    assert_eq!(desk.state.second, 77);
    assert_eq!(
        (&desk.orders, &desk.symbols),
        (&before.orders, &before.symbols)
    );
    assert_eq!(desk.shelf, before.shelf);
}

/// Number 5 stops for want of a row, and the Delete behind it that would free one never comes to its
/// turn, nor does anything else that a receiver can be given.
#[test]
fn no_packet_ends_a_stop_and_a_start_does() {
    let mut desk = full();
    let stopped = buy(7, 600, 1, 1);
    desk.next(stopped.clone());
    let before = desk.clone();
    for (records, counts) in [
        (vec![(6, delete(7, 500))], [1, 0, 0, 0, 0]),
        (vec![(7, clear(7)), (8, clear(8))], [2, 0, 0, 0, 0]),
        (vec![(1, clear(7))], [0, 1, 0, 0, 0]),
        (vec![(5 + 64, delete(7, 500))], [0, 0, 1, 0, 0]),
        (vec![(5, stopped.clone())], [0, 0, 0, 1, 0]),
        (vec![(5, delete(7, 500))], [0, 0, 0, 0, 1]),
    ] {
        let answer = desk.records(&records);
        assert_eq!(answer.counts(), counts);
        assert_eq!((answer.next, answer.applied, answer.stop), (5, 0, 25));
        assert_eq!(desk.state, before.state);
        assert_eq!(
            (&desk.orders, &desk.symbols),
            (&before.orders, &before.symbols)
        );
    }
    desk.refuses(1, &[]);
    desk.start(V1_3b).unwrap();
    assert_eq!(desk, Desk::new(V1_3b, 2, 2));
    // From here the list with the Delete in its place has no stop.
    for body in [update(7), buy(7, 500, 1, 1), delete(7, 500), stopped] {
        assert_eq!(desk.next(body).stop, 0);
    }
    assert_eq!(desk.row(0), [600, 14, 1, 1, 4]);
}

#[test]
fn made_breakers_break_the_rule_they_were_made_for() {
    let mut made = [0; 27];
    for seed in seeds(120) {
        let settings = ListSettings {
            rows: 8,
            entries: 3,
            orders: 12,
            filling: seed % 2 == 0,
            ..ListSettings::default()
        };
        let mut maker = ListMaker::new(seed, settings);
        for _ in 0..60 {
            maker.push_ordinary();
        }
        for rule in 20..=26 {
            if maker.push_breaker(rule) {
                let message = read_body(V1_3b, maker.list.last().unwrap()).unwrap();
                let broken = broken_rule(&message, &maker.orders, &maker.symbols);
                assert_eq!(broken, Some(rule), "seed {seed}");
                made[rule as usize] += 1;
            }
        }
    }
    if all_seeds() {
        assert!(made[20..].iter().all(|count| *count > 5), "{made:?}");
    }
}
