//! The open points of the base and their answers, one by one, the traps first among them.

mod common;
use common::*;
use second::book::broken_rule;
use second::morning::*;
use second::packet::*;
use second::receiver::{filled_slot, slot, slot_number, State};
use second::tables::row_is_live;
use std::collections::BTreeSet;

fn joined(parts: &[Vec<u8>]) -> Vec<u8> {
    parts.concat()
}

// Packets and fields

#[test]
fn faults_are_judged_record_by_record_from_the_front() {
    let mut desk = Desk::new(V1_3b, 1, 1);
    let price_0 = record(1, &buy(7, 1, 0, 1));
    desk.refuses(4, &joined(&[price_0.clone(), vec![1, 2, 3]]));
    desk.refuses(4, &joined(&[price_0.clone(), record(0, &[])]));
    desk.refuses(4, &joined(&[price_0.clone(), record(1, &[])]));
    desk.refuses(3, &joined(&[record(1, &[9]), price_0.clone()]));
    desk.refuses(5, &joined(&[record(0, &time(1)), record(1, &[9])]));
    desk.refuses(2, &joined(&[record(1, &time(1)), vec![1, 2, 3]]));
}

#[test]
fn number_0_past_the_end_is_2_and_number_0_with_an_empty_body_is_5() {
    let mut desk = Desk::new(V1_3b, 1, 1);
    desk.refuses(2, &record_claiming(0, 1, &[]));
    desk.refuses(5, &record_claiming(0, 0, &[]));
}

#[test]
fn a_known_type_with_another_length_is_3_before_a_field_is_looked_at() {
    let mut kinds = BTreeSet::new();
    for seed in 0..300 {
        let (body, refusal) = told_body(V1_3b, seed, 4);
        assert_eq!(read_body(V1_3b, &body), Err(refusal), "seed {seed}");
        let wrong_length = Err(Refusal::at(3, 0));
        let shorter = &body[..body.len() - 1];
        assert_eq!(read_body(V1_3b, shorter), wrong_length, "seed {seed}");
        let longer = [&body[..], &[0]].concat();
        assert_eq!(read_body(V1_3b, &longer), wrong_length, "seed {seed}");
        kinds.insert(body[0]);
    }
    // The ten that have a judged field: all but System Time.
    let judged = [1, 4, 5, 10, 11, 20, 21, 23, 24, 83];
    assert_eq!(kinds.into_iter().collect::<Vec<_>>(), judged);
}

/// Modify Order and Trade Cancel both have 30 bytes, with their prices one byte apart.
#[test]
fn the_type_byte_decides_the_message_and_not_the_length() {
    let mut body = modify(7, 9, 0x100, 0x100, 1);
    let read = Message::ModifyOrder {
        nanoseconds: 0,
        symbol: 7,
        order: 9,
        price: 0x100,
        size: 0x100,
        flags: 1,
    };
    assert_eq!(read_body(V1_3b, &body), Ok(read));
    body[0] = TRADE_CANCEL;
    let read = Message::TradeCancel {
        nanoseconds: 0,
        symbol: 7,
        trade: 9,
        correction: 0,
        price: 1,
        size: 0x100_0001,
    };
    assert_eq!(read_body(V1_3b, &body), Ok(read));
    // And what is good as the one may be bad as the other.
    let mut body = modify(7, 9, 1, 1, 0);
    assert!(read_body(V1_3b, &body).is_ok());
    body[0] = TRADE_CANCEL;
    assert_eq!(read_body(V1_3b, &body), Err(Refusal::at(4, 18)));
    // As a Modify this cancel has size 0 (and flags 2, which are not judged).
    let mut body = trade_cancel(0, 7, 9, 0, 1, 0x200_0000);
    assert!(read_body(V1_3b, &body).is_ok());
    body[0] = MODIFY_ORDER;
    assert_eq!(read_body(V1_3b, &body), Err(Refusal::at(4, 25)));
}

#[test]
fn price_and_size_are_judged_in_execution_trade_and_cancel_and_a_lot_is_no_size() {
    let execution = order_execution(0, 7, 1, 1, 0, 1, 0);
    assert_eq!(read_body(V1_3b, &execution), Err(Refusal::at(4, 25)));
    let sizeless = trade(0, 7, 1, 0, 1, 0, 0);
    assert_eq!(read_body(V1_3b, &sizeless), Err(Refusal::at(4, 26)));
    let cancel = trade_cancel(0, 7, 1, 0, HIGHEST_PRICE + 1, 1);
    assert_eq!(read_body(V1_3b, &cancel), Err(Refusal::at(4, 18)));
    assert!(read_body(V1_3b, &symbol_update(0, 7, b"ABC        ", 0)).is_ok());
}

/// Of a Modify since request 2; all eight bits stay in the message.
#[test]
fn flags_of_execution_trade_and_modify_are_never_judged() {
    for flags in 0..=255 {
        for body in [
            order_execution(0, 7, 1, 1, 1, 1, flags),
            trade(0, 7, 1, 0, 1, 1, flags),
            modify(7, 1, 1, 1, flags),
        ] {
            let message = read_body(V1_3b, &body).expect("any flags are good");
            assert_eq!(message.numbers().last(), Some(&u64::from(flags)));
        }
    }
}

#[test]
fn order_0_of_symbol_0_a_buy_is_a_live_row() {
    let mut desk = Desk::new(V1_3b, 2, 1);
    desk.records(&[(1, update(0)), (2, buy(0, 0, 1, 1))]);
    assert_eq!(desk.row(0), [0, 0, 1, 1, 2]);
    assert!(row_is_live(desk.row(0)));
    assert_eq!(desk.next(sell(0, 0, 1, 1)).stop, 21);
    let mut desk = Desk::new(V1_3b, 2, 1);
    desk.records(&[(1, update(u32::MAX)), (2, sell(u32::MAX, u64::MAX, 1, 1))]);
    assert_eq!(desk.row(0), [u64::MAX, (1 << 33) - 1, 1, 1, 2]);
    assert!(row_is_live(desk.row(0)));
}

#[test]
fn a_bad_body_refuses_its_packet_even_if_old_or_too_far() {
    let mut desk = Desk::example();
    for number in [1, 5, 70, 1_000, LAST_NUMBER] {
        desk.refuses(4, &record(number, &buy(7, 1, 0, 1)));
        desk.refuses(3, &record(number, &[]));
        desk.refuses(
            4,
            &joined(&[record(6, &time(1)), record(number, &buy(7, 1, 0, 1))]),
        );
    }
}

// Shelf, rules, stop

#[test]
fn old_and_too_far_are_judged_against_next_as_it_stands_at_that_record() {
    let records: Vec<_> = (1..=100).map(|n| (n, time(n as u32))).collect();
    let mut desk = Desk::new(V1_3b, 1, 1);
    let answer = desk.records(&records);
    assert_eq!(answer.counts(), [100, 0, 0, 0, 0]);
    assert_eq!((answer.next, answer.applied, answer.stop), (101, 100, 0));
    assert_eq!(desk.state.second, 100);
    // 65 is too far before 1 and in reach behind it.
    let mut desk = Desk::new(V1_3b, 1, 1);
    let answer = desk.records(&[(65, time(1)), (1, time(2)), (65, time(1)), (1, time(2))]);
    assert_eq!(answer.counts(), [2, 1, 1, 0, 0]);
    assert_eq!((answer.next, answer.highest), (2, 65));
}

#[test]
fn two_copies_in_one_packet() {
    let mut desk = Desk::new(V1_3b, 1, 1);
    // The first was applied: old, even if it differs.
    let answer = desk.records(&[(1, time(1)), (1, time(1)), (1, time(2))]);
    assert_eq!(answer.counts(), [1, 2, 0, 0, 0]);
    assert_eq!(desk.state.second, 1);
    // The first lies on the shelf: repeat or differing.
    let answer = desk.records(&[(3, time(3)), (3, time(3)), (3, time(4)), (3, clear(7))]);
    assert_eq!(answer.counts(), [1, 0, 0, 1, 2]);
    assert_eq!(answer.highest, 3);
    // The first stays.
    desk.records(&[(2, time(2))]);
    assert_eq!(desk.state.second, 3);
}

#[test]
fn a_slot_whose_number_is_0_is_empty_whatever_stands_behind() {
    let mut desk = Desk::new(V1_3b, 1, 1);
    desk.slot(1).fill(255);
    desk.slot(1)[0..8].fill(0);
    desk.slot(2)[8..74].fill(7);
    let answer = desk.records(&[(70, time(1))]);
    assert_eq!((answer.stop, answer.highest), (0, 0));
    let answer = desk.records(&[(2, time(2)), (1, time(1))]);
    assert_eq!(answer.counts(), [2, 0, 0, 0, 0]);
    assert_eq!((answer.next, answer.highest), (3, 0));
    assert!(desk.shelf.iter().all(|byte| *byte == 0));
}

#[test]
fn an_unknown_symbol_does_not_stop_the_other_four_nor_a_new_session() {
    let mut desk = Desk::new(V1_3b, 1, 1);
    let answer = desk.records(&[
        (1, trading_status(0, 9, &[0, 0, 0])),
        (2, trade(0, 9, 1, 0, 1, 1, 0)),
        (3, trade_cancel(0, 9, 1, 0, 1, 1)),
        (4, system_state(0, b"DoM9    ", 2, b'S')),
    ]);
    assert_eq!((answer.next, answer.stop), (5, 0));
}

#[test]
fn an_executions_price_is_not_compared_with_the_orders() {
    let mut desk = Desk::example();
    let answer = desk.next(order_execution(0, 7, 500, 1, HIGHEST_PRICE, 40, 0));
    assert_eq!(answer.stop, 0);
    assert_eq!(desk.row(0), [500, 14, 10_000_000, 60, 3]);
}

#[test]
fn rule_23_is_judged_on_the_lowest_live_row_alone_and_20_comes_first() {
    let mut desk = Desk::with_symbols(4, 3);
    // Altered: a spoiled row of 500, then one of symbol 8, then one of symbol 7.
    desk.orders[..15].copy_from_slice(&[
        500, 14, 0, 1, 1, // price 0: spoiled
        500, 16, 10, 20, 1, // symbol 8
        500, 14, 30, 40, 2, // symbol 7
    ]);
    for body in [
        modify(7, 500, 5, 6, 1),
        delete(7, 500),
        execute(7, 500, 1),
        execute(7, 500, 41),
    ] {
        let message = read_body(V1_3b, &body).unwrap();
        assert_eq!(broken_rule(&message, &desk.orders, &desk.symbols), Some(23));
    }
    for body in [
        modify(9, 500, 5, 6, 1),
        delete(9, 501),
        execute(9, 500, 99),
        buy(9, 500, 1, 1),
    ] {
        let message = read_body(V1_3b, &body).unwrap();
        assert_eq!(broken_rule(&message, &desk.orders, &desk.symbols), Some(20));
    }
    // Under symbol 8 the second row, and it alone, is worked on; then the third is the lowest.
    let mut other = desk.clone();
    assert_eq!(other.next(modify(8, 500, 5, 6, 1)).stop, 0);
    assert_eq!(other.row(1), [500, 16, 5, 6, 3]);
    assert_eq!(other.row(2), [500, 14, 30, 40, 2]);
    assert_eq!(desk.next(execute(8, 500, 20)).stop, 0);
    assert_eq!(desk.row(1), [0; 5]);
    assert_eq!(desk.next(delete(7, 500)).stop, 0);
    assert_eq!(desk.row(2), [0; 5]);
    assert_eq!(desk.next(delete(7, 500)).stop, 22);
    assert_eq!(desk.row(0), [500, 14, 0, 1, 1]);
}

#[test]
fn a_spoiled_entry_makes_its_symbol_unknown_and_is_not_free() {
    for kind in [2, 20, 49, 128, 255] {
        let mut desk = Desk::with_symbols(2, 2);
        desk.symbols[0] = kind;
        assert_eq!(desk.clone().next(buy(7, 1, 1, 1)).stop, 20);
        assert_eq!(desk.clone().next(update(7)).stop, 26);
        assert_eq!(desk.clone().next(update(8)).stop, 0);
        assert_eq!(
            second::views::spread(&desk.orders, &desk.symbols, 7),
            Err(30)
        );
        assert_eq!(second::views::used_entries(&desk.symbols), Ok(1));
    }
    // A used entry is used even if its body would be refused today.
    let mut desk = Desk::with_symbols(2, 2);
    desk.symbols[21] = 0;
    desk.symbols[41] = 0;
    assert_eq!(desk.next(buy(7, 1, 1, 1)).stop, 0);
}

#[test]
fn a_free_entry_may_hold_anything_behind_its_type() {
    let mut desk = Desk::new(V1_3b, 1, 2);
    desk.symbols[1..42].fill(9);
    assert_eq!(desk.next(update(7)).stop, 0);
    assert_eq!(desk.symbols[..42], update(7));
    assert_eq!(desk.symbols[42..], [0; 42]);
}

#[test]
fn messages_are_worked_only_after_a_taken_record() {
    let mut desk = Desk::with_symbols(1, 2);
    desk.next(buy(7, 1, 1, 1));
    assert_eq!(desk.next(buy(7, 2, 1, 1)).stop, 25);
    desk.orders.fill(0); // the caller frees the row
    let answer = desk.records(&[(4, buy(7, 2, 1, 1))]);
    assert_eq!(answer.counts(), [0, 0, 0, 1, 0]);
    assert_eq!((answer.applied, answer.stop), (0, 0));
    assert_eq!((answer.next, answer.highest), (4, 4));
    assert_eq!(desk.orders, [0; 5]);
    // nor after old, too far and differing ones
    let answer = desk.records(&[(1, time(1)), (500, time(1)), (4, time(1))]);
    assert_eq!(answer.counts(), [0, 1, 1, 0, 1]);
    assert_eq!((answer.applied, answer.stop), (0, 0));
    // The next taken record applies it, whatever its own number.
    let answer = desk.records(&[(60, time(1))]);
    assert_eq!(answer.counts(), [1, 0, 0, 0, 0]);
    assert_eq!((answer.applied, answer.next, answer.stop), (1, 5, 0));
    assert_eq!(desk.row(0), [2, 14, 1, 1, 4]);
}

#[test]
fn stop_27() {
    // Another number, lower or higher.
    for number in [1, 5 + 64, 5 - 4, 4, 6, LAST_NUMBER, u64::MAX] {
        let mut desk = Desk::new(V1_3b, 1, 1);
        desk.state.next = 5;
        desk.slot(5).copy_from_slice(&filled_slot(number, &time(9)));
        let answer = desk.records(&[(7, time(1))]);
        assert_eq!((answer.taken, answer.applied, answer.stop), (1, 0, 27));
        assert_eq!(answer.highest, number.max(7));
        // An incoming copy of 5 finds the slot occupied.
        let answer = desk.records(&[(5, time(9))]);
        assert_eq!(answer.counts(), [0, 0, 0, 0, 1]);
        assert_eq!(answer.stop, 27);
    }
    // A body that the reader refuses, or a length above 64.
    let mut bodies: Vec<[u8; 74]> = vec![
        filled_slot(5, &[]),
        filled_slot(5, &[0]),
        filled_slot(5, &buy(7, 1, 0, 1)),
        filled_slot(5, &[49, 0, 0, 0, 0, 0]),
    ];
    for length in [4, 6, 64, 65, 255, 256 + 5, 65_535] {
        let mut slot = filled_slot(5, &time(9));
        slot[8..10].copy_from_slice(&u16::to_le_bytes(length));
        bodies.push(slot);
    }
    for slot in bodies {
        let mut desk = Desk::new(V1_3b, 1, 1);
        desk.state.next = 5;
        desk.slot(5).copy_from_slice(&slot);
        let answer = desk.records(&[(6, time(1))]);
        assert_eq!((answer.taken, answer.applied, answer.stop), (1, 0, 27));
        assert_eq!((answer.next, answer.highest), (5, 6));
    }
}

#[test]
fn padding_behind_a_good_body_leaves_it_good_but_a_copy_then_differs() {
    let mut desk = Desk::new(V1_3b, 1, 1);
    desk.records(&[(2, time(2))]);
    desk.slot(2)[73] = 1;
    let answer = desk.records(&[(2, time(2))]);
    assert_eq!(answer.counts(), [0, 0, 0, 0, 1]);
    let answer = desk.records(&[(1, time(1))]);
    assert_eq!((answer.applied, answer.next, answer.stop), (2, 3, 0));
    assert!(desk.shelf.iter().all(|byte| *byte == 0));
}

#[test]
fn the_same_bytes_under_another_length_differ() {
    let mut desk = Desk::new(V1_3b, 1, 1);
    desk.records(&[(2, time(0))]);
    desk.slot(2)[8] = 6;
    let answer = desk.records(&[(2, time(0))]);
    assert_eq!(answer.counts(), [0, 0, 0, 0, 1]);
}

#[test]
fn next_beyond_the_last_number() {
    let mut desk = Desk::new(V1_3b, 1, 1);
    desk.state.next = LAST_NUMBER;
    desk.slot(LAST_NUMBER + 1)
        .copy_from_slice(&filled_slot(LAST_NUMBER + 1, &time(8)));
    let answer = desk.records(&[(LAST_NUMBER, time(7))]);
    assert_eq!((answer.next, answer.applied), (LAST_NUMBER + 2, 2));
    assert_eq!((answer.stop, answer.highest), (0, 0));
    assert_eq!(desk.state.second, 8);
    desk.refuses(6, &record(1, &time(1)));
    // Without the altered slot the last number is good and all that follows is old.
    let mut desk = Desk::new(V1_3b, 1, 1);
    desk.state.next = LAST_NUMBER;
    assert_eq!(
        desk.records(&[(LAST_NUMBER, time(7))]).next,
        LAST_NUMBER + 1
    );
    let answer = desk.records(&[(LAST_NUMBER, time(7)), (1, time(1))]);
    assert_eq!(answer.counts(), [0, 2, 0, 0, 0]);
    assert_eq!(answer.next, LAST_NUMBER + 1);
    // With it, but at 10^12 + 1, no record can be taken, so it is never worked.
    desk.slot(LAST_NUMBER + 1)
        .copy_from_slice(&filled_slot(LAST_NUMBER + 1, &time(8)));
    let answer = desk.records(&[(LAST_NUMBER, time(7))]);
    assert_eq!((answer.next, answer.stop), (LAST_NUMBER + 1, 0));
    assert_eq!(answer.highest, LAST_NUMBER + 1);
}

#[test]
fn highest_is_the_largest_number_in_any_slot_after_the_packet() {
    let mut desk = Desk::new(V1_3b, 1, 1);
    desk.slot(3).copy_from_slice(&filled_slot(u64::MAX, &[]));
    desk.slot(4).copy_from_slice(&filled_slot(2, &[]));
    assert_eq!(desk.records(&[(1, time(1))]).highest, u64::MAX);
    let mut desk = Desk::new(V1_3b, 1, 1);
    assert_eq!(desk.records(&[(9, time(1)), (5, time(1))]).highest, 9);
    assert_eq!(desk.records(&[(1, time(1))]).highest, 9);
}

#[test]
fn the_stop_is_worked_out_anew_and_a_refused_packet_leaves_the_earlier_one() {
    let mut desk = Desk::with_symbols(1, 2);
    desk.next(buy(7, 1, 1, 1));
    desk.next(buy(7, 2, 1, 1));
    assert_eq!(desk.state.stop, 25);
    desk.refuses(2, &[0; 9]);
    assert_eq!(desk.state.stop, 25);
    // A packet of an old and a too far record is accepted, so its stop counts.
    desk.symbols[0] = 0;
    let answer = desk.records(&[(1, update(7)), (900, time(1))]);
    assert_eq!((answer.stop, desk.state.stop), (20, 20));
    desk.symbols[0] = 1;
    desk.orders[0] = 2;
    assert_eq!(desk.records(&[(1, time(1))]).stop, 21);
    desk.orders.fill(0);
    assert_eq!(desk.records(&[(1, time(1))]).stop, 0);
    assert_eq!(desk.state.next, 4);
}

#[test]
fn a_differing_copy_that_arrives_first_stays_and_is_applied() {
    let mut desk = Desk::new(V1_3b, 1, 1);
    let answer = desk.records(&[(2, time(22)), (2, time(2)), (1, time(1))]);
    assert_eq!(answer.counts(), [2, 0, 0, 0, 1]);
    assert_eq!(desk.state.second, 22);
}

#[test]
fn an_update_of_a_symbol_with_live_orders_leaves_them() {
    let mut desk = Desk::example();
    let orders = desk.orders.clone();
    let new = symbol_update(5, 7, b"NEW        ", 1);
    desk.next(new.clone());
    assert_eq!(desk.orders, orders);
    assert_eq!(desk.symbols[..42], new);
    assert_eq!(desk.symbols[42..], [0; 42 * 3]);
}

#[test]
fn bit_0_clear_with_another_price_keeps_the_old_rank() {
    let mut desk = Desk::example();
    desk.next(modify(7, 500, 10_010_000, 100, 0)); // 6
    desk.next(buy(7, 503, 10_010_000, 10)); // 7
    desk.next(modify(7, 502, 10_010_000, 50, 0)); // 8, and yet before 503
    assert_eq!(desk.row(0), [500, 14, 10_010_000, 100, 3]);
    assert_eq!(desk.row(2), [502, 14, 10_010_000, 50, 5]);
    assert_eq!(desk.row(3), [503, 14, 10_010_000, 10, 7]);
}

#[test]
fn number_64_lies_in_slot_0_and_number_1_in_slot_1() {
    let mut desk = Desk::new(V1_3b, 1, 1);
    desk.records(&[(64, time(34_200)), (2, time(2)), (63, clear(7))]);
    let mut wanted = vec![0; 4_736];
    wanted[..15].copy_from_slice(&[64, 0, 0, 0, 0, 0, 0, 0, 5, 0, 49, 0x98, 0x85, 0, 0]);
    wanted[148..163].copy_from_slice(&[2, 0, 0, 0, 0, 0, 0, 0, 5, 0, 49, 2, 0, 0, 0]);
    wanted[63 * 74..63 * 74 + 16]
        .copy_from_slice(&[63, 0, 0, 0, 0, 0, 0, 0, 9, 0, 5, 0, 0, 0, 0, 7]);
    assert_eq!(desk.shelf, wanted);
    assert_eq!(slot_number(slot(&desk.shelf, 64)), 64);
    assert_eq!(slot_number(slot(&desk.shelf, 1)), 0);
    desk.slot(1).copy_from_slice(&filled_slot(1, &time(1)));
    assert_eq!(desk.shelf[74], 1);
}

#[test]
fn a_stopped_message_keeps_its_slot_and_numbers_behind_it_wait() {
    let mut desk = Desk::example();
    let answer = desk.records(&[
        (7, time(7)),
        (6, delete(7, 999)),
        (69, time(69)),
        (70, time(70)),
    ]);
    assert_eq!(answer.counts(), [3, 0, 1, 0, 0]);
    assert_eq!((answer.next, answer.applied), (6, 0));
    assert_eq!((answer.highest, answer.stop), (69, 22));
    assert_eq!(desk.state.second, 34_200);
}

// Refusal 6, state, views, sheet: the shelf's size, views and tickers are in the other tests.

#[test]
fn a_start_resets_the_stop_and_all_else() {
    let mut desk = Desk::example();
    desk.next(delete(7, 999));
    assert_eq!(desk.state.stop, 22);
    assert_eq!(desk.start(V1_3b), Ok(()));
    let State {
        next, second, stop, ..
    } = desk.state;
    assert_eq!((next, second, stop), (1, 0, 0));
    assert!(desk.orders.iter().all(|number| *number == 0));
    assert!(desk.symbols.iter().all(|byte| *byte == 0));
    assert!(desk.shelf.iter().all(|byte| *byte == 0));
}
