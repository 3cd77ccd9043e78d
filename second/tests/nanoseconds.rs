//! Request 6: nanoseconds of a second. A Timestamp above 999,999,999 is refused with 4 and its offset in the ten
//! messages that have one, in packets and on the shelf. Tried of the second program, and of the proved library where
//! it is linked. Run one seed again with SECOND_SEED=number.

#[macro_use]
mod common;
use common::watched::Receiver;
use common::*;
use second::examples::example_list;
use second::morning::*;
use second::packet::*;
#[cfg(linked)]
use second::proved::{self, Proved};
use second::receiver::{filled_slot, slot, slot_mut};
use second::write::Fields;
use std::collections::BTreeMap;

/// What these tests do with a receiver of either program.
trait Tap: Receiver {
    /// The type and the numbers of a body, or its refusal.
    fn read(body: &[u8]) -> Result<Vec<u64>, Refusal>;
    fn shelf(&mut self) -> &mut [u8];

    /// Document 01's example, numbers 1 to 5 applied.
    fn after_example() -> Self {
        let mut receiver = Self::started(V1_3b, 10, 4);
        let answer = receiver.hear(&packet(&numbered(&example_list(), 1, 5)));
        assert_eq!(
            answer.map(|answer| (answer.next, answer.applied)),
            Ok((6, 5))
        );
        receiver
    }

    /// A packet that must be refused with this number at this offset, and change nothing.
    fn refuses(&mut self, number: u8, offset: usize, packet: &[u8]) {
        let before = self.clone();
        assert_eq!(self.hear(packet), Err(Refusal::at(number, offset)));
        assert_eq!(*self, before);
    }

    /// A good packet, all of whose records must be taken, with this next number and stop.
    fn takes(&mut self, records: &[(u64, Vec<u8>)], next: u64, stop: u8) {
        let applied = next - self.state().next;
        let answer = self.hear(&packet(records)).expect("a good packet");
        assert_eq!(answer.counts(), [records.len() as u64, 0, 0, 0, 0]);
        assert_eq!(
            (answer.next, answer.applied, answer.stop),
            (next, applied, stop)
        );
    }
}

impl Tap for Desk {
    fn read(body: &[u8]) -> Result<Vec<u64>, Refusal> {
        Fields::read(V1_3b, body).map(|fields| fields.numbers.to_vec())
    }

    fn shelf(&mut self) -> &mut [u8] {
        &mut self.shelf
    }
}

#[cfg(linked)]
impl Tap for Proved {
    fn read(body: &[u8]) -> Result<Vec<u64>, Refusal> {
        Ok(proved::body(V1_3b, body)?.numbers.to_vec())
    }

    fn shelf(&mut self) -> &mut [u8] {
        &mut self.shelf
    }
}

of_both! {
    the_largest_good_value_is_999_999_999
    the_limit_is_of_the_number_and_not_of_its_bytes
    a_system_time_has_seconds_and_they_may_be_any
    opening_and_closing_times_are_no_timestamps
    framing_number_type_and_length_come_before_it
    beside_another_bad_field_it_is_4_still
    one_bad_record_refuses_its_packet_which_leaves_a_gap
    an_old_or_too_far_record_is_judged_too
    altered_on_the_shelf_it_stops_by_27
    seconds_altered_on_the_shelf_are_good
    a_list_with_one_is_none_of_demand_3
    deliveries_with_tap_faults_come_to_the_list
}

const GOOD: [u32; 5] = [0, 1, 500_000_000, 999_999_998, 999_999_999];
const BAD: [u32; 7] = [
    1_000_000_000,
    1_000_000_001,
    1 << 30,
    1 << 31,
    3_000_000_000,
    u32::MAX - 1,
    u32::MAX,
];

/// The ten messages that have a Timestamp, with this one. The example can apply each as its next.
fn ten(nanoseconds: u32) -> [Vec<u8>; 10] {
    [
        symbol_update(nanoseconds, 7, b"ABC        ", 100),
        system_state(nanoseconds, b"DoM1.3  ", 1, b'S'),
        trading_status(nanoseconds, 7, &[2, 3, b'N']),
        symbol_clear(nanoseconds, 7),
        add_order(nanoseconds, 7, 503, b'B', 10_000_000, 100),
        modify_order(nanoseconds, 7, 500, 10_010_000, 70, 1),
        delete_order(nanoseconds, 7, 500),
        order_execution(nanoseconds, 7, 500, 9, 10_000_000, 100, 0),
        trade(nanoseconds, 7, 9, 0, 10_000_000, 100, 0),
        trade_cancel(nanoseconds, 7, 9, 0, 10_000_000, 100),
    ]
}

#[test]
fn the_ten_are_all_messages_but_system_time() {
    let mut kinds: Vec<_> = ten(0).iter().map(|body| (body[0], body.len())).collect();
    kinds.insert(0, (SYSTEM_TIME, 5));
    assert_eq!(kinds, TYPES_AND_LENGTHS);
    assert_eq!(LAST_NANOSECOND, 999_999_999);
}

fn the_largest_good_value_is_999_999_999<R: Tap>() {
    for nanoseconds in GOOD {
        for body in ten(nanoseconds) {
            let numbers = R::read(&body).expect("a good body");
            assert_eq!(numbers[0], u64::from(body[0]));
            let place = if body[0] == SYMBOL_UPDATE { 5 } else { 1 };
            assert_eq!(numbers[place], u64::from(nanoseconds));
            R::after_example().takes(&[(6, body)], 7, 0);
        }
    }
    for nanoseconds in BAD {
        for body in ten(nanoseconds) {
            assert_eq!(R::read(&body), Err(Refusal::at(4, 1)), "type {}", body[0]);
            R::after_example().refuses(4, 11, &record(6, &body));
        }
    }
}

/// Every value that differs from the last good one or the first bad one in one bit.
fn the_limit_is_of_the_number_and_not_of_its_bytes<R: Tap>() {
    let mut good = 0;
    for bit in 0..32 {
        for near in [999_999_999, 1_000_000_000] {
            let nanoseconds = near ^ (1 << bit);
            for body in ten(nanoseconds) {
                assert_eq!(R::read(&body).is_ok(), nanoseconds < 1_000_000_000);
                good += u64::from(nanoseconds < 1_000_000_000);
            }
        }
    }
    assert_eq!(good, 340);
}

fn a_system_time_has_seconds_and_they_may_be_any<R: Tap>() {
    for seconds in GOOD.into_iter().chain(BAD) {
        assert_eq!(R::read(&time(seconds)).expect("good")[1], seconds.into());
        let mut receiver = R::after_example();
        receiver.takes(&[(6, time(seconds))], 7, 0);
        assert_eq!(receiver.state().second, seconds.into());
    }
}

/// Any byte in both, and a number beyond the limit in any four bytes of theirs.
fn opening_and_closing_times_are_no_timestamps<R: Tap>() {
    let mut updates = Vec::new();
    for byte in 0..=255 {
        let mut body = update(7);
        body[25..41].fill(byte);
        updates.push(body);
    }
    for at in 25..=37 {
        for nanoseconds in BAD {
            let mut body = update(7);
            body[at..at + 4].copy_from_slice(&nanoseconds.to_le_bytes());
            updates.push(body);
        }
    }
    for body in updates {
        let mut receiver = R::after_example();
        receiver.takes(&[(6, body.clone())], 7, 0);
        assert_eq!(receiver.three().1[..42], body);
    }
}

fn framing_number_type_and_length_come_before_it<R: Tap>() {
    let mut receiver = R::after_example();
    for nanoseconds in BAD {
        for body in ten(nanoseconds) {
            let length = body.len() as u16;
            let longer = [&body[..], &[0]].concat();
            let unknown = [&[0], &body[1..]].concat();
            for other in [&body[..body.len() - 1], &longer, &unknown] {
                assert_eq!(R::read(other), Err(Refusal::at(3, 0)));
                receiver.refuses(3, 10, &record(6, other));
            }
            receiver.refuses(5, 0, &record(0, &body));
            receiver.refuses(2, 0, &record_claiming(6, length + 1, &body));
            receiver.refuses(4, 11, &[record(6, &body), vec![1, 2, 3]].concat());
        }
    }
}

/// Bodies of each type that has another judged field, with all of these bad in turn, and the offset of that.
fn other_faults(nanoseconds: u32) -> Vec<(usize, Vec<u8>)> {
    let mut faults = Vec::new();
    for body in ten(nanoseconds) {
        let mut spoiled = |at: usize, bytes: &[u8]| {
            let mut faulty = body.clone();
            faulty[at..at + bytes.len()].copy_from_slice(bytes);
            faults.push((at, faulty));
        };
        if body[0] == SYMBOL_UPDATE {
            spoiled(21, b"X");
            spoiled(41, b"D");
        }
        if body[0] == ADD_ORDER {
            spoiled(17, b"X");
        }
        if let Some(at) = price_offset(body[0]) {
            spoiled(at, &[0; 8]);
            spoiled(at, &[255; 8]);
            spoiled(at + 8, &[0; 4]);
        }
    }
    faults
}

/// By the Timestamp where it is bad, since it lies before every other field that is judged.
fn beside_another_bad_field_it_is_4_still<R: Tap>() {
    assert_eq!(other_faults(0).len(), 2 + 1 + 5 * 3);
    for nanoseconds in GOOD.into_iter().chain(BAD) {
        for (other, body) in other_faults(nanoseconds) {
            let earliest = if nanoseconds > 999_999_999 { 1 } else { other };
            assert_eq!(R::read(&body), Err(Refusal::at(4, earliest)));
            R::after_example().refuses(4, 10 + earliest, &record(6, &body));
        }
    }
}

/// The bad record at each place among two good ones. What comes behind the refused packet waits, and true
/// copies of its records fill the gap.
fn one_bad_record_refuses_its_packet_which_leaves_a_gap<R: Tap>() {
    for (bad, good) in ten(1_000_000_000).into_iter().zip(ten(999_999_999)) {
        for place in 0..3 {
            let mut records = vec![(6, time(1)), (7, time(2)), (8, time(3))];
            records[place].1 = bad.clone();
            let mut receiver = R::after_example();
            // Behind System Times of 15 bytes each, its own header and its type.
            let offset = 15 * place + 11;
            receiver.refuses(4, offset, &packet(&records));
            receiver.takes(&[(9, time(4)), (10, time(5))], 6, 0);
            assert_eq!(slot(receiver.shelf(), 9), filled_slot(9, &time(4)));
            // The same packet again is refused again.
            receiver.refuses(4, offset, &packet(&records));
            records[place].1 = good.clone();
            receiver.takes(&records, 11, 0);
            assert_eq!(receiver.state().second, 5);

            // It comes to what it does without the fault.
            let mut other = R::after_example();
            other.takes(&records, 9, 0);
            other.takes(&[(9, time(4)), (10, time(5))], 11, 0);
            assert_eq!(receiver, other);
        }
    }
}

fn an_old_or_too_far_record_is_judged_too<R: Tap>() {
    for body in ten(1_000_000_000) {
        let mut receiver = R::after_example();
        for number in [1, 5, 69, 70, 1_000, LAST_NUMBER] {
            receiver.refuses(4, 11, &record(number, &body));
            receiver.refuses(4, 26, &packet(&[(6, time(1)), (number, body.clone())]));
        }
    }
}

/// The example with this body, and a System Time behind it, on the shelf as 7 and 8 behind the missing 6;
/// the caller has put these nanoseconds into the body.
fn altered_on_the_shelf<R: Tap>(body: &[u8], nanoseconds: u32) -> R {
    let mut receiver = R::after_example();
    receiver.takes(&[(7, body.to_vec()), (8, time(2))], 6, 0);
    alter(&mut receiver, nanoseconds);
    receiver
}

/// The caller puts these nanoseconds into the body of 7.
fn alter<R: Tap>(receiver: &mut R, nanoseconds: u32) {
    set_timestamp(&mut slot_mut(receiver.shelf(), 7)[10..], nanoseconds);
}

fn altered_on_the_shelf_it_stops_by_27<R: Tap>() {
    for body in ten(3) {
        for nanoseconds in GOOD {
            let mut receiver: R = altered_on_the_shelf(&body, nanoseconds);
            receiver.takes(&[(6, time(1))], 9, 0);
            assert_eq!(receiver.state().second, 2);
        }
        for nanoseconds in BAD {
            let mut receiver: R = altered_on_the_shelf(&body, nanoseconds);
            receiver.takes(&[(6, time(1))], 7, 27);
            // Applied up to it, and what is no good body stays as it was found.
            let mut other = R::after_example();
            other.takes(&[(6, time(1))], 7, 0);
            assert_eq!(receiver.three(), other.three());
            let mut altered = body.clone();
            set_timestamp(&mut altered, nanoseconds);
            assert_eq!(slot(receiver.shelf(), 7), filled_slot(7, &altered));
            // A true copy of it differs, and does not help.
            let answer = receiver.hear(&record(7, &body)).expect("a good packet");
            assert_eq!(answer.counts(), [0, 0, 0, 0, 1]);
            assert_eq!((answer.next, answer.highest, answer.stop), (7, 8, 27));
            // Put right again, it is applied after the next taken record.
            alter(&mut receiver, 999_999_999);
            receiver.takes(&[(9, time(3))], 10, 0);
            assert_eq!(receiver.state().second, 3);
        }
    }
}

fn seconds_altered_on_the_shelf_are_good<R: Tap>() {
    for seconds in GOOD.into_iter().chain(BAD) {
        let mut receiver = R::after_example();
        receiver.takes(&[(7, time(3))], 6, 0);
        alter(&mut receiver, seconds);
        receiver.takes(&[(6, time(1))], 8, 0);
        assert_eq!(receiver.state().second, seconds.into());
    }
}

/// Its number is not answered, so demand 3 asks nothing behind it: the receiver waits and names no rule.
/// Each program's own reader judges what is well formed.
fn a_list_with_one_is_none_of_demand_3<R: Tap>() {
    let well_formed = |list: &[Vec<u8>]| list.iter().all(|body| R::read(body).is_ok());
    for (bad, good) in ten(1_000_000_000).into_iter().zip(ten(999_999_999)) {
        let mut list = example_list();
        list.extend([good.clone(), time(1), time(2)]);
        assert!(well_formed(&list));
        list[5] = bad;
        assert!(!well_formed(&list));
        let mut receiver = R::after_example();
        for (number, body) in numbered(&list, 1, 8).into_iter().skip(5) {
            match number {
                6 => receiver.refuses(4, 11, &record(number, &body)),
                _ => receiver.takes(&[(number, body)], 6, 0),
            }
        }
        receiver.takes(&[(6, good)], 9, 0);
    }
}

/// Where a packet has its first Timestamp: behind System Times, which have none and take 15 bytes each.
fn first_timestamp(packet: &[u8]) -> usize {
    let mut start = 0;
    while packet[start + 10] == SYSTEM_TIME {
        start += 15;
    }
    start + 11
}

/// Seeded deliveries of a list, one packet in four with a tap fault, and gap fills without one at the end:
/// a faulty packet changes nothing, and the list is applied as far as it can be.
fn deliveries_with_tap_faults_come_to_the_list<R: Tap>() {
    let (mut faults, mut missed) = (0, 0);
    for seed in seeds(100) {
        let mut dice = Dice::new(seed);
        let settings = ListSettings::drawn(&mut dice);
        let list = list(dice.bits(), settings);
        let mut how = true_delivery(dice.bits());
        (how.bad, how.fill) = (0, false);
        let mut receiver = R::started(V1_3b, settings.rows, settings.entries);
        for packet in delivery(V1_3b, dice.bits(), &list, how) {
            let faulty = with_tap_fault(V1_3b, &packet);
            if dice.below(4) == 0 && faulty != packet {
                receiver.refuses(4, first_timestamp(&faulty), &faulty);
                faults += 1;
            } else {
                receiver.hear(&packet).expect("a good packet");
            }
        }
        let next = receiver.state().next;
        for number in 1..=list.len() {
            let answer = receiver.hear(&packet(&numbered(&list, number, 1)));
            assert_eq!(answer.map(|answer| answer.differing), Ok(0), "seed {seed}");
        }
        missed += u64::from(receiver.state().next > next);
        let mut made = Reference::new(V1_3b, &list, settings.rows, settings.entries);
        made.go_to(receiver.state().next - 1);
        let wanted = (made.orders.clone(), made.symbols.clone(), made.second);
        assert_eq!(receiver.three(), wanted, "seed {seed}");
        let stop = made.rule_of_next().unwrap_or(0);
        assert_eq!(receiver.state().stop, stop, "seed {seed}");
        assert!(stop != 0 || made.k == list.len() as u64, "seed {seed}");
    }
    if all_seeds() {
        assert!(faults > 1_000, "{faults}");
        assert!(missed > 10, "{missed}");
    }
}

// What the generators make.

/// What stands in the Timestamp, or as a System Time's seconds.
fn told(body: &[u8]) -> u64 {
    little(&body[1..5])
}

/// Whether a body is good but for its Timestamp.
fn bad_by_its_timestamp_alone(body: &[u8]) -> bool {
    let mut at_0 = body.to_vec();
    set_timestamp(&mut at_0, 0);
    read_body(V1_3b, body) == Err(Refusal::at(4, 1)) && read_body(V1_3b, &at_0).is_ok()
}

/// All messages of seeded lists have good Timestamps, and each of the ten has the last nanosecond.
#[test]
fn seeded_lists_are_well_formed_up_to_the_last_nanosecond() {
    let mut at_the_limit = BTreeMap::new();
    for seed in seeds(1_000) {
        let settings = ListSettings::drawn(&mut Dice::new(seed));
        let list = list(seed, settings);
        assert!(well_formed(V1_3b, &list), "seed {seed}");
        for body in list {
            if body[0] != SYSTEM_TIME {
                assert!(told(&body) <= 999_999_999, "seed {seed}");
                *at_the_limit.entry(body[0]).or_insert(0) += u64::from(told(&body) == 999_999_999);
            }
        }
    }
    if all_seeds() {
        assert_eq!(at_the_limit.len(), 10);
        assert!(
            at_the_limit.values().all(|count| *count > 0),
            "{at_the_limit:?}"
        );
    }
}

/// Opening and closing times of seeded lists are at both ends of what they can be.
#[test]
fn seeded_lists_open_and_close_at_both_ends() {
    let mut ends = [0; 2];
    for seed in seeds(1_000) {
        for body in list(seed, ListSettings::drawn(&mut Dice::new(seed))) {
            if body[0] == SYMBOL_UPDATE {
                ends[0] += u64::from(body[25..41] == [0; 16]);
                ends[1] += u64::from(body[25..41] == [255; 16]);
            }
        }
    }
    if all_seeds() {
        assert!(ends.iter().all(|count| *count > 10), "{ends:?}");
    }
}

/// A list in the making takes no message with a Timestamp beyond the limit.
#[test]
fn a_list_in_the_making_takes_none_beyond_the_limit() {
    let settings = ListSettings::default();
    for (bad, good) in ten(1_000_000_000).into_iter().zip(ten(999_999_999)) {
        let mut maker = ListMaker::new(1, settings);
        for body in example_list() {
            assert!(maker.push(body));
        }
        assert!(!maker.push(bad));
        assert!(maker.push(good));
        assert_eq!(maker.list.len(), 6);
    }
}

/// Bad bodies: each of the ten by its Timestamp alone, with the first bad value, the largest and others, and
/// each that has other judged fields by both.
#[test]
fn bodies_are_made_bad_by_their_timestamps() {
    let (mut alone, mut beside) = (BTreeMap::new(), BTreeMap::new());
    for seed in seeds(20_000) {
        let (body, refusal) = told_body(V1_3b, seed, 4);
        assert_eq!(read_body(V1_3b, &body), Err(refusal), "seed {seed}");
        let values: &mut [u64; 3] = match bad_by_its_timestamp_alone(&body) {
            true => alone.entry(body[0]).or_default(),
            false if told(&body) > 999_999_999 => beside.entry(body[0]).or_default(),
            false => continue,
        };
        match told(&body) {
            1_000_000_000 => values[0] += 1,
            0xFFFF_FFFF => values[1] += 1,
            _ => values[2] += 1,
        }
    }
    if all_seeds() {
        assert_eq!(alone.len(), 10);
        assert!(beside.keys().eq(&[1, 10, 11, 20, 21, 24]));
        for values in alone.values().chain(beside.values()) {
            assert!(
                values.iter().all(|count| *count > 0),
                "{alone:?}, {beside:?}"
            );
        }
    }
}

/// Of a good body at the limit a differing copy is good, and some differ in a byte of the Timestamp alone.
#[test]
fn differing_copies_keep_to_the_limit() {
    let mut bytes = [0; 4];
    for body in ten(999_999_999) {
        for seed in seeds(400) {
            let copy = differing_copy(V1_3b, seed, &body);
            assert_ne!(copy, body, "seed {seed}");
            assert!(read_body(V1_3b, &copy).is_ok(), "seed {seed}");
            let differ = |at: &usize| copy.get(*at) != body.get(*at);
            if let [at @ 1..=4] = (0..body.len()).filter(differ).collect::<Vec<_>>()[..] {
                bytes[at - 1] += 1;
            }
        }
    }
    if all_seeds() {
        assert!(bytes.iter().all(|count| *count > 50), "{bytes:?}");
    }
}

/// A caller's damage to what lies on the shelf: Timestamps beyond the limit, and others that are good.
#[test]
fn damage_to_shelves_alters_timestamps() {
    let mut desk = Desk::example();
    desk.takes(&[(7, buy(7, 503, 10_000_000, 100))], 6, 0);
    let body = desk.slot(7)[10..44].to_vec();
    let (mut good, mut bad) = (0, 0);
    for seed in seeds(2_000) {
        let mut shelf = desk.shelf.clone();
        damage_shelf(V1_3b, seed, &mut shelf, 7);
        let mut altered = slot(&shelf, 7)[10..44].to_vec();
        let nanoseconds = told(&altered);
        set_timestamp(&mut altered, 0);
        if altered == body && nanoseconds != 0 {
            good += u64::from(nanoseconds <= 999_999_999);
            bad += u64::from(nanoseconds > 999_999_999);
        }
    }
    if all_seeds() {
        assert!(good > 50 && bad > 50, "{good}, {bad}");
    }
}

/// The tap fault is in one record of a packet, in its first Timestamp.
#[test]
fn a_tap_fault_is_in_one_record() {
    let [update, ..] = ten(1);
    let good = packet(&[(1, time(1)), (2, update.clone()), (3, update.clone())]);
    let mut faulty = update.clone();
    set_timestamp(&mut faulty, 1_000_000_000);
    let wanted = packet(&[(1, time(1)), (2, faulty), (3, update)]);
    assert_eq!(with_tap_fault(V1_3b, &good), wanted);
    assert_eq!(read_packet(V1_3b, &wanted), Err(Refusal::at(4, 26)));
    let times = packet(&[(1, time(1)), (2, time(2))]);
    assert_eq!(with_tap_fault(V1_3b, &times), times);
}
