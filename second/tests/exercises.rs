//! Document 01's example sheet and its exercises P1 to P12.

mod common;
use common::*;
use second::examples::{example_list, morning_recording, MORNING_SHEET};
use second::morning::record;
use second::packet::{little, read_packet, Refusal};
use second::sheet::{sheet, sheet_of_recording};
use second::views::spread;

#[test]
fn example_sheet_byte_for_byte() {
    let wanted = "recording=whole\nbad=0\nnext=6\nstop=0\nsecond=34200\nsymbols=1\norders=3\n\
                  symbol=7\nticker=ABC\nlot=100\nspread=20000\nbid=10000000 150 2\n\
                  ask=10020000 200 1\n";
    assert_eq!(MORNING_SHEET, wanted);
    let played = sheet_of_recording(V1_3b, &morning_recording()).unwrap();
    assert_eq!(String::from_utf8(played).unwrap(), wanted);
    let desk = Desk::example();
    let shown = sheet(desk.state, &desk.orders, &desk.symbols, 0, true).unwrap();
    assert_eq!(String::from_utf8(shown).unwrap(), wanted);
}

#[test]
fn p1_price_10_is_these_bytes() {
    let bytes = [0x80, 0x96, 0x98, 0, 0, 0, 0, 0];
    assert_eq!(little(&bytes), 10_000_000);
    assert_eq!(buy(7, 500, 10_000_000, 100)[18..26], bytes);
}

#[test]
fn p2_fresh_64_taken_65_too_far() {
    let mut desk = Desk::new(V1_3b, 10, 4);
    assert_eq!(desk.records(&[(64, time(1))]).counts(), [1, 0, 0, 0, 0]);
    assert_eq!(desk.records(&[(65, time(1))]).counts(), [0, 0, 1, 0, 0]);
}

#[test]
fn p3_next_5_68_taken_69_too_far_4_old() {
    let mut desk = Desk::new(V1_3b, 10, 4);
    for second in 1..5 {
        desk.next(time(second));
    }
    assert_eq!(desk.state.next, 5);
    assert_eq!(desk.records(&[(68, time(1))]).counts(), [1, 0, 0, 0, 0]);
    assert_eq!(desk.records(&[(69, time(1))]).counts(), [0, 0, 1, 0, 0]);
    assert_eq!(desk.records(&[(4, time(1))]).counts(), [0, 1, 0, 0, 0]);
}

#[test]
fn p4_numbers_2_3_1_in_one_packet() {
    let list = example_list();
    let records: Vec<_> = [2, 3, 1].map(|n| (n, list[n as usize - 1].clone())).into();
    let mut one_by_one = Desk::new(V1_3b, 10, 4);
    let applied: Vec<u64> = records
        .iter()
        .map(|record| one_by_one.records(&[record.clone()]).applied)
        .collect();
    assert_eq!(applied, [0, 0, 3]);
    let mut together = Desk::new(V1_3b, 10, 4);
    let answer = together.records(&records);
    assert_eq!(answer.counts(), [3, 0, 0, 0, 0]);
    assert_eq!((answer.applied, answer.next, answer.highest), (3, 4, 0));
    assert_eq!(together, one_by_one);
}

#[test]
fn p5_bit_0_set_goes_behind() {
    let mut desk = Desk::example();
    desk.next(modify(7, 500, 10_000_000, 100, 1));
    assert_eq!(desk.row(0), [500, 14, 10_000_000, 100, 6]);
    assert_eq!(desk.row(2), [502, 14, 10_000_000, 50, 5]);
}

#[test]
fn p6_bit_0_clear_stays_ahead() {
    let mut desk = Desk::example();
    desk.next(modify(7, 500, 10_000_000, 400, 0));
    assert_eq!(desk.row(0), [500, 14, 10_000_000, 400, 3]);
    assert_eq!(desk.row(2), [502, 14, 10_000_000, 50, 5]);
}

#[test]
fn p7_executed_whole_it_is_gone_and_may_return() {
    let mut desk = Desk::example();
    let answer = desk.next(execute(7, 500, 100));
    assert_eq!((answer.applied, answer.stop), (1, 0));
    assert_eq!(desk.row(0), [0; 5]);
    let answer = desk.next(sell(7, 500, 10_050_000, 70));
    assert_eq!((answer.applied, answer.stop), (1, 0));
    assert_eq!(desk.row(0), [500, 15, 10_050_000, 70, 7]);
}

#[test]
fn p8_execution_of_101_stops_with_24() {
    let mut desk = Desk::example();
    let before = desk.orders.clone();
    let answer = desk.next(execute(7, 500, 101));
    assert_eq!((answer.taken, answer.applied), (1, 0));
    assert_eq!((answer.next, answer.highest, answer.stop), (6, 6, 24));
    assert_eq!(desk.orders, before);
}

#[test]
fn p9_a_crossed_book_has_a_negative_spread() {
    let mut desk = Desk::with_symbols(10, 4);
    desk.next(buy(7, 1, 10_020_000, 1));
    desk.next(sell(7, 2, 10_000_000, 1));
    assert_eq!(spread(&desk.orders, &desk.symbols, 7), Ok(Some(-20_000)));
}

#[test]
fn p10_capacity_1_second_add_of_the_live_id_is_21() {
    let mut desk = Desk::with_symbols(1, 2);
    desk.next(buy(7, 500, 10_000_000, 100));
    assert_eq!(desk.next(buy(7, 500, 10_000_000, 100)).stop, 21);
}

#[test]
fn p11_a_9_byte_packet_is_2() {
    let packet = &record(1, &time(34_200))[..9];
    assert_eq!(read_packet(V1_3b, packet), Err(Refusal::at(2, 0)));
    Desk::new(V1_3b, 1, 1).refuses(2, packet);
}

#[test]
fn p12_a_good_record_before_a_bad_one_is_not_taken() {
    let mut packet = record(1, &time(34_200));
    packet.extend_from_slice(&record(2, &buy(7, 500, 0, 100)));
    // 15 bytes of the good record, 10 of the bad one's header, and the price at 18 of its body.
    assert_eq!(read_packet(V1_3b, &packet), Err(Refusal::at(4, 43)));
    Desk::new(V1_3b, 1, 1).refuses(4, &packet);
}
