//! Every refusal, their order, and that a refusal changes nothing.

mod common;
use common::*;
use second::index::INDEX_NUMBERS;
use second::morning::*;
use second::packet::*;
use second::receiver::{State, SHELF_BYTES};
use second::stream::{Stream, LEAST_HOLD};
use second::tables::{ENTRY_BYTES, MOST_ENTRIES, MOST_ROWS, ROW_NUMBERS, SHEET_ROWS};
use second::views::{ladder, live_orders, spread, used_entries};

const FRESH: State = State {
    next: 1,
    second: 0,
    stop: 0,
    edition: V1_3b,
};

/// Lengths of [order table, symbol table, shelf, index] that are refused with 6, one at a time.
fn wrong_sizes() -> Vec<[usize; 4]> {
    let good = [ROW_NUMBERS, ENTRY_BYTES, SHELF_BYTES, 0];
    let mut wrong = Vec::new();
    for numbers in [0, 1, 4, 6, 9, 7_999, 8_001, 79_999, 80_001, 80_005] {
        wrong.push([numbers, good[1], good[2], good[3]]);
    }
    for bytes in [
        0,
        1,
        41,
        43,
        83,
        41_999,
        42_001,
        (MOST_ENTRIES + 1) * ENTRY_BYTES,
    ] {
        wrong.push([good[0], bytes, good[2], good[3]]);
    }
    for bytes in [0, 1, 74, 4_735, 4_737, 2 * SHELF_BYTES] {
        wrong.push([good[0], good[1], bytes, good[3]]);
    }
    // Request 9: "Refusal 6 covers the index size."
    for numbers in [1, 2, 32_768, 33_019, 49_402, 49_404, 98_806] {
        wrong.push([good[0], good[1], good[2], numbers]);
    }
    // A good index mends no other size.
    wrong.push([0, good[1], good[2], INDEX_NUMBERS]);
    wrong.push([good[0], 0, good[2], INDEX_NUMBERS]);
    wrong.push([good[0], good[1], 0, INDEX_NUMBERS]);
    wrong
}

#[test]
fn six_sizes_at_a_start_and_in_receiving() {
    assert_eq!(SHELF_BYTES, 4_736);
    assert_eq!(
        (MOST_ROWS, SHEET_ROWS, INDEX_NUMBERS),
        (16_000, 1_600, 49_403)
    );
    for [numbers, entry_bytes, shelf_bytes, index_numbers] in wrong_sizes() {
        let mut desk = Desk {
            state: FRESH,
            orders: vec![3; numbers],
            symbols: vec![3; entry_bytes],
            shelf: vec![3; shelf_bytes],
            index: vec![3; index_numbers],
        };
        let before = desk.clone();
        for edition in EDITIONS {
            assert_eq!(desk.start(edition), Err(6));
        }
        // 6 comes before 1 and before all else.
        for packet in [vec![], vec![0; 1_501], record(1, &time(1)), vec![0; 9]] {
            assert_eq!(desk.give(&packet), Err(Refusal::alone(6)));
        }
        let mut hold = [0; LEAST_HOLD];
        assert_eq!(Stream::default().feed(&mut desk, &mut hold, &[1]), Err(6));
        assert_eq!(desk, before);
    }
}

#[test]
fn limits_of_sizes_are_good() {
    for (rows, entries) in [(1, 1), (MOST_ROWS, MOST_ENTRIES), (1, 1_000), (16_000, 1)] {
        let mut desk = Desk::with_index(V1_3b, rows, entries);
        assert_eq!(desk.next(time(5)).next, 2);
        let mut desk = Desk::new(V1_3b, rows, entries);
        assert!(desk.orders.iter().all(|number| *number == 0));
        assert!(desk.symbols.iter().all(|byte| *byte == 0));
        assert!(desk.shelf.iter().all(|byte| *byte == 0));
        assert_eq!(desk.state, FRESH);
        assert_eq!(desk.next(time(5)).next, 2);
    }
}

#[test]
fn six_next_number() {
    for next in [0, LAST_NUMBER + 2, 1 << 63, u64::MAX] {
        let mut desk = Desk::new(V1_3b, 1, 1);
        desk.state.next = next;
        desk.refuses(6, &record(1, &time(1)));
        desk.refuses(6, &[]);
    }
    for next in [1, LAST_NUMBER, LAST_NUMBER + 1] {
        let mut desk = Desk::new(V1_3b, 1, 1);
        desk.state.next = next;
        assert!(desk.give(&record(1, &time(1))).is_ok());
        desk.refuses(1, &[]);
    }
}

#[test]
fn one_lengths_of_packets() {
    let mut desk = Desk::new(V1_3b, 1, 1);
    desk.refuses(1, &[]);
    let mut packet = Vec::new();
    for number in 1..=100 {
        packet.extend_from_slice(&record(number, &time(number as u32)));
    }
    assert_eq!(packet.len(), 1_500);
    let mut longer = packet.clone();
    longer.push(0);
    desk.refuses(1, &longer);
    assert_eq!(desk.give(&packet).unwrap().next, 101);
    desk.refuses(1, &vec![255; 65_535]);
}

#[test]
fn two_headers_and_bodies_past_the_end() {
    let mut desk = Desk::new(V1_3b, 1, 1);
    let good = record(1, &time(1));
    for length in 1..15 {
        desk.refuses(2, &good[..length]);
    }
    for length in 1..15 {
        let mut packet = good.clone();
        packet.extend_from_slice(&good[..length]);
        desk.refuses(2, &packet);
    }
    for claimed in [6, 7, 261, 65_511, 65_535] {
        desk.refuses(2, &record_claiming(1, claimed, &time(1)));
    }
}

#[test]
fn five_sequence_numbers() {
    let mut desk = Desk::new(V1_3b, 1, 1);
    for number in [0, LAST_NUMBER + 1, 1 << 40, u64::MAX] {
        desk.refuses(5, &record(number, &time(1)));
        // before 3 and 4, behind 2
        desk.refuses(5, &record(number, &[]));
        desk.refuses(5, &record(number, &[0]));
        desk.refuses(5, &record(number, &buy(7, 1, 0, 1)));
        desk.refuses(2, &record_claiming(number, 6, &time(1)));
    }
    assert!(desk.give(&record(LAST_NUMBER, &time(1))).is_ok());
}

#[test]
fn three_types_and_lengths() {
    let mut desk = Desk::new(V1_3b, 1, 1);
    desk.refuses(3, &record(1, &[]));
    for kind in 0..=255 {
        for length in 1..=80 {
            let mut body = vec![0; length];
            body[0] = kind;
            let refused = read_body(V1_3b, &body) == Err(Refusal::at(3, 0));
            let known = TYPES_AND_LENGTHS.contains(&(kind, length));
            assert_eq!(refused, !known, "type {kind}, length {length}");
        }
    }
    // before 4
    let mut body = buy(7, 1, 0, 0);
    body.push(0);
    desk.refuses(3, &record(1, &body));
}

#[test]
fn four_fields() {
    let mut desk = Desk::new(V1_3b, 1, 1);
    let price_bodies: [&dyn Fn(u64, u32) -> Vec<u8>; 5] = [
        &|price, size| buy(7, 1, price, size),
        &|price, size| modify(7, 1, price, size, 0),
        &|price, size| order_execution(0, 7, 1, 1, price, size, 255),
        &|price, size| trade(0, 7, 1, 255, price, size, 255),
        &|price, size| trade_cancel(0, 7, 1, 255, price, size),
    ];
    for body in price_bodies {
        for (price, size) in [(0, 1), (HIGHEST_PRICE + 1, 1), (u64::MAX, 1), (1, 0)] {
            desk.refuses(4, &record(1, &body(price, size)));
        }
        for (price, size) in [(1, 1), (HIGHEST_PRICE, u32::MAX)] {
            assert!(read_body(V1_3b, &body(price, size)).is_ok());
        }
    }
    for byte in 0..=255 {
        let mut body = buy(7, 1, 1, 1);
        body[17] = byte;
        assert_eq!(
            read_body(V1_3b, &body).is_ok(),
            byte == b'B' || byte == b'S'
        );
        let mut body = update(7);
        body[21] = byte;
        assert_eq!(
            read_body(V1_3b, &body).is_ok(),
            byte == b'Y' || byte == b'N'
        );
        let mut body = update(7);
        body[41] = byte;
        let markets = "A B C H I J K L M N P Q U V W X Y Z";
        let good = byte != b' ' && markets.as_bytes().contains(&byte);
        assert_eq!(read_body(V1_3b, &body).is_ok(), good, "market {byte}");
    }
}

#[test]
fn nothing_else_is_judged() {
    // Every byte of every message that lies in no judged field may be anything.
    let bodies = [
        (time(1), vec![]),
        (update(7), vec![21, 41]),
        (system_state(0, b"DoM1.3  ", 1, b'S'), vec![]),
        (trading_status(0, 7, &[2, 3, b'N']), vec![]),
        (clear(7), vec![]),
        (buy(7, 1, 1, 1), (17..30).collect()),
        (modify(7, 1, 1, 1, 0), (17..29).collect()),
        (delete(7, 1), vec![]),
        (execute(7, 1, 1), (25..37).collect()),
        (trade(0, 7, 1, 0, 1, 1, 0), (18..30).collect()),
        (trade_cancel(0, 7, 1, 0, 1, 1), (18..30).collect::<Vec<_>>()),
    ];
    for (body, judged) in bodies {
        assert_eq!(length_of_type(body[0]), Some(body.len()));
        // A Timestamp is judged (request 6), a System Time's seconds are not.
        let timestamp = if body[0] == SYSTEM_TIME { 0..0 } else { 1..5 };
        for at in 1..body.len() {
            for byte in 0..=255 {
                let mut changed = body.clone();
                changed[at] = byte;
                if !judged.contains(&at) && !timestamp.contains(&at) {
                    assert!(
                        read_body(V1_3b, &changed).is_ok(),
                        "type {}, byte {at}",
                        body[0]
                    );
                }
            }
        }
    }
}

#[test]
fn thirty_and_six_in_views() {
    let desk = Desk::example();
    let (orders, symbols) = (&desk.orders, &desk.symbols);
    let mut run = [77; 9];
    assert_eq!(ladder(orders, symbols, 8, Side::Buy, &mut run), Err(30));
    assert_eq!(spread(orders, symbols, 8), Err(30));
    assert_eq!(spread(orders, symbols, 0), Err(30));
    for [numbers, entry_bytes, shelf_bytes, index_numbers] in wrong_sizes() {
        if shelf_bytes != SHELF_BYTES || ![0, INDEX_NUMBERS].contains(&index_numbers) {
            continue; // a view is lent neither the shelf nor the index
        }
        let (orders, symbols) = (vec![0; numbers], vec![0; entry_bytes]);
        // 6 comes before 30.
        assert_eq!(ladder(&orders, &symbols, 7, Side::Sell, &mut run), Err(6));
        assert_eq!(spread(&orders, &symbols, 7), Err(6));
        assert_eq!(live_orders(&orders).is_err(), numbers != ROW_NUMBERS);
        assert_eq!(used_entries(&symbols).is_err(), entry_bytes != ENTRY_BYTES);
    }
    assert_eq!(run, [77; 9]);
}

/// Bad packets of the generator: each is refused with the number and at the offset it was made for, and
/// changes nothing, whatever other faults it has.
#[test]
fn made_bad_packets_are_refused_as_they_were_made() {
    let list = list(
        5,
        ListSettings {
            messages: 80,
            ..ListSettings::default()
        },
    );
    let mut desk = Desk::new(V1_3b, 40, 5);
    desk.records(&numbered(&list, 1, 20));
    let mut lengths = [0; 2];
    for seed in seeds(20_000) {
        let number = 1 + (seed % 5) as u8;
        let (packet, refusal) = told_packet(V1_3b, seed, &list, number);
        assert_eq!(refusal.number, number, "seed {seed}");
        assert_eq!(
            packet,
            bad_packet(V1_3b, seed, &list, number),
            "seed {seed}"
        );
        lengths[usize::from(packet.is_empty())] += 1;
        if seed < 2_000 {
            desk.refuses(number, &packet);
        }
        assert_eq!(read_packet(V1_3b, &packet), Err(refusal), "seed {seed}");
    }
    if all_seeds() {
        assert!(lengths.iter().all(|count| *count > 1_000), "{lengths:?}");
    }
}
