//! Request 5: refusals 2 to 5 of a packet, a record and a body tell the offset of the first byte at fault. The
//! bytes are put together here by the offsets of docs/MESSAGES.md, and the offsets told are worked out by hand.
//! Tried of the second program, and of the proved library where it is linked.

#[macro_use]
mod common;
use common::watched::Receiver;
use common::written::{claiming, record, recording};
use common::{Desk, V1_3b};
use second::answers::answers_of_recording;
use second::packet::{read_body, read_packet, read_record, Refusal};
#[cfg(linked)]
use second::proved::{self, lent, Proved};
use second::reading::{judged_fields, lines_of_packet};
use second::seen::Faults;
use second::stream::{Stream, LEAST_HOLD};
use std::collections::BTreeMap;

/// What these tests do with either program.
trait Reader: Receiver {
    fn packet(packet: &[u8]) -> Result<u64, Refusal>;
    fn record(rest: &[u8]) -> Result<(), Refusal>;
    fn body(body: &[u8]) -> Result<(), Refusal>;
    /// Started, and then given this next number.
    fn with_next(next: u64) -> Self;

    /// A stream opened over a receiver that was just started, with memory for an unfinished packet.
    type Fed: Feed;
    fn open() -> Self::Fed;
}

trait Feed {
    /// A piece of a recording: whether it was taken, and not refused with 6.
    fn feed(&mut self, piece: &[u8]) -> bool;
    /// Number and offset of the last packet that was refused.
    fn last(&self) -> (u64, u64);
    fn lend_last(&mut self, number: u8, offset: u64);
    fn lend_next(&mut self, next: u64);
    fn lend_slot(&mut self, number: u64, body: &[u8]);
    /// How many packets were bad and how many records taken or old.
    fn counts(&self) -> (u64, u64);
}

impl Reader for Desk {
    fn packet(packet: &[u8]) -> Result<u64, Refusal> {
        read_packet(V1_3b, packet).map(|records| records.len() as u64)
    }

    fn record(rest: &[u8]) -> Result<(), Refusal> {
        read_record(V1_3b, rest).map(|_| ())
    }

    fn body(body: &[u8]) -> Result<(), Refusal> {
        read_body(V1_3b, body).map(|_| ())
    }

    fn with_next(next: u64) -> Desk {
        let mut desk = Desk::new(V1_3b, 2, 2);
        desk.state.next = next;
        desk
    }

    type Fed = (Desk, Stream, Vec<u8>);

    fn open() -> Self::Fed {
        (
            Desk::new(V1_3b, 2, 2),
            Stream::default(),
            vec![7; LEAST_HOLD],
        )
    }
}

impl Feed for (Desk, Stream, Vec<u8>) {
    fn feed(&mut self, piece: &[u8]) -> bool {
        let (desk, stream, hold) = self;
        stream.feed(desk, hold, piece).is_ok()
    }

    fn last(&self) -> (u64, u64) {
        (self.1.last_number.into(), self.1.last_offset)
    }

    fn lend_last(&mut self, number: u8, offset: u64) {
        (self.1.last_number, self.1.last_offset) = (number, offset);
    }

    fn lend_next(&mut self, next: u64) {
        self.0.state.next = next;
    }

    fn lend_slot(&mut self, number: u64, body: &[u8]) {
        put_slot(&mut self.0.shelf, number, body);
    }

    fn counts(&self) -> (u64, u64) {
        (self.1.bad, self.1.totals[0] + self.1.totals[1])
    }
}

#[cfg(linked)]
impl Reader for Proved {
    fn packet(packet: &[u8]) -> Result<u64, Refusal> {
        proved::packet(V1_3b, packet)
    }

    fn record(rest: &[u8]) -> Result<(), Refusal> {
        proved::record(V1_3b, rest).map(|_| ())
    }

    fn body(body: &[u8]) -> Result<(), Refusal> {
        proved::body(V1_3b, body).map(|_| ())
    }

    fn with_next(next: u64) -> Proved {
        let mut receiver = Proved::started(V1_3b, 2, 2);
        receiver.state[0] = next;
        receiver
    }

    type Fed = (Proved, lent::Stream, Vec<u8>);

    fn open() -> Self::Fed {
        let receiver = Proved::started(V1_3b, 2, 2);
        let mut stream = [9; 14];
        assert_eq!(lent::open(&receiver.state, &mut stream), 0);
        (receiver, stream, vec![7; LEAST_HOLD])
    }
}

#[cfg(linked)]
impl Feed for (Proved, lent::Stream, Vec<u8>) {
    fn feed(&mut self, piece: &[u8]) -> bool {
        let (receiver, stream, hold) = self;
        let Proved {
            orders,
            symbols,
            shelf,
            index,
            ..
        } = receiver;
        lent::feed(orders, symbols, shelf, index, hold, stream, piece) == 0
    }

    fn last(&self) -> (u64, u64) {
        (self.1[12], self.1[13])
    }

    fn lend_last(&mut self, number: u8, offset: u64) {
        (self.1[12], self.1[13]) = (number.into(), offset);
    }

    fn lend_next(&mut self, next: u64) {
        self.1[0] = next;
    }

    fn lend_slot(&mut self, number: u64, body: &[u8]) {
        put_slot(&mut self.0.shelf, number, body);
    }

    fn counts(&self) -> (u64, u64) {
        (self.1[6], self.1[7] + self.1[8])
    }
}

of_both! {
    each_field_as_the_only_fault
    each_field_as_the_second_of_two_faults
    a_field_names_its_first_byte
    p11_nine_bytes
    p12_a_good_record_followed_by_a_bad_one
    two_is_told_at_the_records_start
    five_is_told_at_the_numbers_start
    three_is_told_where_the_body_starts
    an_empty_body_is_told_where_it_would_start
    the_first_record_at_fault_is_told
    each_record_is_judged_by_2_5_3_4
    the_last_offsets_of_the_longest_packet
    one_and_six_have_no_offset
    a_record_by_itself
    a_body_by_itself
    a_stream_tells_the_last_refused_packet
    too_long_a_packet_is_told_as_1_when_its_last_byte_has_come
    a_stream_cut_anywhere
    a_stream_with_any_last
    a_packet_refused_with_6_inside_a_piece
}

// Bytes, by the offsets of docs/MESSAGES.md.

/// The eleven types with their lengths, and in each judged field but the Timestamp, where 0 is good, a good value.
const ELEVEN: [(u8, usize, &[(usize, u8)]); 11] = [
    (49, 5, &[]),
    (1, 42, &[(21, b'N'), (41, b'H')]),
    (83, 15, &[]),
    (4, 12, &[]),
    (5, 9, &[]),
    (20, 34, &[(17, b'B'), (18, 1), (26, 1)]),
    (21, 30, &[(17, 1), (25, 1)]),
    (23, 17, &[]),
    (24, 38, &[(25, 1), (33, 1)]),
    (10, 31, &[(18, 1), (26, 1)]),
    (11, 30, &[(18, 1), (26, 1)]),
];

/// A good body of a type.
fn good(kind: u8) -> Vec<u8> {
    for (known, length, values) in ELEVEN {
        if known == kind {
            let mut body = vec![0; length];
            body[0] = kind;
            for (at, value) in values {
                body[*at] = *value;
            }
            return body;
        }
    }
    panic!("there is no type {kind}");
}

/// A System Time of 5 bytes, whose record has 15.
fn time() -> Vec<u8> {
    good(49)
}

/// The same body with these bytes in it.
fn with(mut body: Vec<u8>, at: usize, bytes: &[u8]) -> Vec<u8> {
    body[at..at + bytes.len()].copy_from_slice(bytes);
    body
}

/// A message put on a shelf by a caller: slots of 74 bytes, number n in slot n mod 64.
fn put_slot(shelf: &mut [u8], number: u64, body: &[u8]) {
    let start = (number % 64) as usize * 74;
    shelf[start..start + 10 + body.len()].copy_from_slice(&record(number, body));
}

/// Values that each judged field is refused for.
fn bad_values(field: &str) -> &'static [&'static [u8]] {
    match field {
        // 1,000,000,000 and the most that 4 bytes hold; the first has a low byte of 0, as good ones do.
        "nanoseconds" => &[&[0, 0xCA, 0x9A, 0x3B], &[255; 4]],
        "side" => &[b"b", b"X", &[0]],
        // 0, 10^15 + 1, and 2^63, whose first seven bytes are 0.
        "price" => &[
            &[0; 8],
            &[0x01, 0x80, 0xC6, 0xA4, 0x7E, 0x8D, 0x03, 0],
            &[0, 0, 0, 0, 0, 0, 0, 128],
        ],
        "size" => &[&[0; 4]],
        "test indicator" => &[b"y", b"B", &[0]],
        "market" => &[b"D", b"h", &[0]],
        _ => panic!("{field} is not judged"),
    }
}

/// The judged fields: type, name, offset in the body; and in packets of System Times of 15 bytes with one such
/// record, as the first, behind one and behind two of them.
const FIELDS: [(u8, &str, usize, [usize; 3]); 23] = [
    (1, "nanoseconds", 1, [11, 26, 41]),
    (1, "test indicator", 21, [31, 46, 61]),
    (1, "market", 41, [51, 66, 81]),
    (83, "nanoseconds", 1, [11, 26, 41]),
    (4, "nanoseconds", 1, [11, 26, 41]),
    (5, "nanoseconds", 1, [11, 26, 41]),
    (20, "nanoseconds", 1, [11, 26, 41]),
    (20, "side", 17, [27, 42, 57]),
    (20, "price", 18, [28, 43, 58]),
    (20, "size", 26, [36, 51, 66]),
    (21, "nanoseconds", 1, [11, 26, 41]),
    (21, "price", 17, [27, 42, 57]),
    (21, "size", 25, [35, 50, 65]),
    (23, "nanoseconds", 1, [11, 26, 41]),
    (24, "nanoseconds", 1, [11, 26, 41]),
    (24, "price", 25, [35, 50, 65]),
    (24, "size", 33, [43, 58, 73]),
    (10, "nanoseconds", 1, [11, 26, 41]),
    (10, "price", 18, [28, 43, 58]),
    (10, "size", 26, [36, 51, 66]),
    (11, "nanoseconds", 1, [11, 26, 41]),
    (11, "price", 18, [28, 43, 58]),
    (11, "size", 26, [36, 51, 66]),
];

/// A packet that must be refused with this number at this offset, by the reader and by a receiver, which
/// keeps every byte.
fn refuses<R: Reader>(packet: &[u8], number: u8, offset: usize) {
    refuses_with::<R>(packet, Refusal::at(number, offset));
}

fn refuses_with<R: Reader>(packet: &[u8], refusal: Refusal) {
    assert_eq!(R::packet(packet), Err(refusal), "{packet:?}");
    let mut receiver = R::started(V1_3b, 2, 2);
    let before = receiver.clone();
    assert_eq!(receiver.hear(packet), Err(refusal), "{packet:?}");
    assert_eq!(receiver, before, "{packet:?}");
}

/// A body that must be refused so, by itself, as a record by itself, and in the first, second and third of three
/// records, the others System Times.
fn body_refuses<R: Reader>(body: &[u8], number: u8, in_body: usize, in_packets: [usize; 3]) {
    let bad = record(2, body);
    let good = record(1, &time());
    assert_eq!(R::body(body), Err(Refusal::at(number, in_body)));
    assert_eq!(R::record(&bad), Err(Refusal::at(number, in_packets[0])));
    refuses::<R>(&bad, number, in_packets[0]);
    for (packet, offset) in [
        ([&bad[..], &good, &good], in_packets[0]),
        ([&good[..], &bad, &good], in_packets[1]),
        ([&good[..], &good, &bad], in_packets[2]),
    ] {
        refuses::<R>(&packet.concat(), number, offset);
    }
}

/// The bodies above are good, so that what is put into them is what they are refused for.
#[test]
fn the_bodies_are_good() {
    let mut packet = Vec::new();
    for (place, (kind, length, _)) in ELEVEN.into_iter().enumerate() {
        let body = good(kind);
        assert_eq!(body.len(), length);
        assert!(read_body(V1_3b, &body).is_ok(), "type {kind}");
        packet.extend(record(place as u64 + 1, &body));
    }
    assert_eq!(
        read_packet(V1_3b, &packet).map(|records| records.len()),
        Ok(11)
    );
    // "all but System Time" have nanoseconds, five price and size, Add a side, Symbol Update two more.
    assert_eq!(FIELDS.len(), 10 + 5 + 5 + 1 + 2);
    let named = FIELDS.map(|(kind, field, at, _)| (kind, at, field));
    assert_eq!(named[..], judged_fields(V1_3b));
}

fn each_field_as_the_only_fault<R: Reader>() {
    for (kind, field, at, in_packets) in FIELDS {
        for value in bad_values(field) {
            let body = with(good(kind), at, value);
            body_refuses::<R>(&body, 4, at, in_packets);
        }
    }
}

/// "the earliest bad field by offset": each two fields of a message, and all of them.
fn each_field_as_the_second_of_two_faults<R: Reader>() {
    let mut pairs = 0;
    for (kind, field, at, in_packets) in FIELDS {
        let mut all = good(kind);
        for (other_kind, other, behind, _) in FIELDS {
            if other_kind != kind || behind < at {
                continue;
            }
            for value in bad_values(other) {
                all = with(all, behind, value);
                for first in bad_values(field) {
                    let two = with(with(good(kind), behind, value), at, first);
                    body_refuses::<R>(&two, 4, at, in_packets);
                }
            }
            pairs += u64::from(behind > at);
        }
        body_refuses::<R>(&all, 4, at, in_packets);
    }
    // Three of Symbol Update, six of Add, three each of Modify, Execution, Trade and Cancel.
    assert_eq!(pairs, 3 + 6 + 4 * 3);
}

/// Whichever of its bytes makes the number too large.
fn a_field_names_its_first_byte<R: Reader>() {
    for place in 4..8 {
        // 255 * 2^40 is below 10^15, 255 * 2^48 above it.
        let mut price = [1, 0, 0, 0, 0, 0, 0, 0];
        price[place] = 255;
        let body = with(good(20), 18, &price);
        match place {
            4 | 5 => assert_eq!(R::body(&body), Ok(())),
            _ => body_refuses::<R>(&body, 4, 18, [28, 43, 58]),
        }
    }
    // 2^30 nanoseconds by their last byte alone.
    let body = with(good(5), 1, &[0, 0, 0, 64]);
    body_refuses::<R>(&body, 4, 1, [11, 26, 41]);
}

/// "P11 a 9-byte packet: 2."
fn p11_nine_bytes<R: Reader>() {
    refuses::<R>(&record(1, &time())[..9], 2, 0);
    refuses::<R>(&[0; 9], 2, 0);
}

/// "P12 a good record followed by a bad one: nothing is taken." An Add with price 0 behind a System Time.
fn p12_a_good_record_followed_by_a_bad_one<R: Reader>() {
    let bad = with(good(20), 18, &[0; 8]);
    refuses::<R>(&[record(1, &time()), record(2, &bad)].concat(), 4, 43);
}

/// "for 2 the record's start", by an unfinished header and by a body past the end.
fn two_is_told_at_the_records_start<R: Reader>() {
    let good_record = record(1, &time());
    let mut ends = Vec::new();
    for length in 1..=14 {
        ends.push(good_record[..length].to_vec());
    }
    for claimed in [6, 7, 256, 65_535] {
        ends.push(claiming(1, claimed, &time()));
        // With a number that is none, and with a body that is none.
        ends.push(claiming(0, claimed, &time()));
        ends.push(claiming(1, claimed, &[]));
        ends.push(claiming(1, claimed, &[0; 5]));
    }
    for end in ends {
        assert_eq!(R::record(&end), Err(Refusal::at(2, 0)));
        refuses::<R>(&end, 2, 0);
        refuses::<R>(&[&good_record[..], &end].concat(), 2, 15);
        refuses::<R>(&[&good_record[..], &good_record, &end].concat(), 2, 30);
        // Behind an Add of 44 bytes.
        let add = record(3, &good(20));
        refuses::<R>(&[&good_record[..], &add, &end].concat(), 2, 59);
    }
}

/// "for 5 the number's start", whatever the body is.
fn five_is_told_at_the_numbers_start<R: Reader>() {
    let good_record = record(1, &time());
    for number in [0, 1_000_000_000_001, 1 << 63, u64::MAX] {
        for body in [
            time(),
            vec![],
            vec![0],
            vec![49],
            with(good(20), 18, &[0; 8]),
        ] {
            let bad = record(number, &body);
            assert_eq!(R::record(&bad), Err(Refusal::at(5, 0)));
            refuses::<R>(&bad, 5, 0);
            refuses::<R>(&[&bad[..], &good_record].concat(), 5, 0);
            refuses::<R>(&[&good_record[..], &bad, &good_record].concat(), 5, 15);
            refuses::<R>(&[&good_record[..], &good_record, &bad].concat(), 5, 30);
        }
    }
}

/// "for 3 the body's start", where the type is unknown and where the length is wrong, whatever the fields are.
fn three_is_told_where_the_body_starts<R: Reader>() {
    for kind in [0, 2, 3, 22, 48, 50, 255] {
        body_refuses::<R>(&[kind], 3, 0, [10, 25, 40]);
        body_refuses::<R>(&with(good(20), 0, &[kind]), 3, 0, [10, 25, 40]);
    }
    for (kind, length, _) in ELEVEN {
        let body = good(kind);
        body_refuses::<R>(&body[..1], 3, 0, [10, 25, 40]);
        body_refuses::<R>(&body[..length - 1], 3, 0, [10, 25, 40]);
        let longer = [&body[..], &[0]].concat();
        body_refuses::<R>(&longer, 3, 0, [10, 25, 40]);
        // All bits of all fields set.
        let mut spoiled = vec![255; length + 1];
        spoiled[0] = kind;
        body_refuses::<R>(&spoiled, 3, 0, [10, 25, 40]);
    }
}

/// "or, for an empty body, the place where it would start": at the packet's end that is the packet's length.
fn an_empty_body_is_told_where_it_would_start<R: Reader>() {
    body_refuses::<R>(&[], 3, 0, [10, 25, 40]);
    let (empty, good_record) = (record(1, &[]), record(1, &time()));
    for (packet, offset) in [
        (empty.clone(), 10),
        ([&good_record[..], &empty].concat(), 25),
        ([&good_record[..], &good_record, &empty].concat(), 40),
    ] {
        assert_eq!(packet.len(), offset);
        refuses::<R>(&packet, 3, offset);
    }
    // Inside a packet another record starts there.
    refuses::<R>(&[&empty[..], &empty].concat(), 3, 10);
    refuses::<R>(&[&good_record[..], &empty, &good_record].concat(), 3, 25);
    // And behind nothing but a part of one, which is looked at no more.
    refuses::<R>(&[&empty[..], &[0; 9]].concat(), 3, 10);
}

/// Several faults in a packet: records are judged from the front, and a later one may be as bad as it likes.
fn the_first_record_at_fault_is_told<R: Reader>() {
    let free = record(1, &with(good(20), 18, &[0; 8]));
    let late = record(1, &with(good(1), 41, b"D"));
    let numberless = record(0, &time());
    let empty = record(1, &[]);
    let unknown = record(1, &[0]);
    let stray = vec![1, 2, 3];
    let good_record = record(1, &time());
    for (records, number, offset) in [
        // A price of 0 before three stray bytes is 4, not 2.
        ([&free, &stray, &vec![]], 4, 28),
        // A Symbol Update's last byte, before a number right behind it that is worse.
        ([&late, &numberless, &empty], 4, 51),
        // 52 bytes of a Symbol Update would be good, but for its market.
        ([&good_record, &late, &numberless], 4, 66),
        ([&numberless, &late, &free], 5, 0),
        ([&good_record, &numberless, &stray], 5, 15),
        ([&empty, &numberless, &stray], 3, 10),
        ([&good_record, &empty, &free], 3, 25),
        ([&unknown, &empty, &numberless], 3, 10),
        ([&good_record, &good_record, &stray], 2, 30),
        ([&good_record, &unknown, &stray], 3, 25),
    ] {
        refuses::<R>(&records.map(Vec::as_slice).concat(), number, offset);
    }
}

/// Several faults in a record: "each by 2, 5, 3, 4".
fn each_record_is_judged_by_2_5_3_4<R: Reader>() {
    let free = with(good(20), 18, &[0; 8]);
    let longer = [&free[..], &[0]].concat();
    for (bad, number, offset) in [
        (claiming(0, 36, &longer), 2, 0),
        (record(0, &longer), 5, 0),
        (record(0, &free), 5, 0),
        (record(0, &[]), 5, 0),
        (claiming(0, 1, &[]), 2, 0),
        (record(1, &longer), 3, 10),
        (record(1, &free), 4, 28),
    ] {
        assert_eq!(R::record(&bad), Err(Refusal::at(number, offset)));
        refuses::<R>(&bad, number, offset);
        let behind = [record(1, &time()), bad].concat();
        refuses::<R>(&behind, number, 15 + offset);
    }
}

/// Packets of 1,500 bytes with the largest offset of each refusal.
fn the_last_offsets_of_the_longest_packet<R: Reader>() {
    // Records of 15, 40, 48, 19 and 25 bytes.
    let [times, modifies, executions, clears, states] =
        [49, 21, 24, 5, 83].map(|kind| move |count| record(1, &good(kind)).repeat(count));
    for (packet, number, offset) in [
        // 94 * 15 + 2 * 40 = 1,490, then 10 of a header.
        ([times(94), modifies(2), record(1, &[])], 3, 1_500),
        // 99 * 15 = 1,485, then 10 of a header and 5 of a body; these claim to be 6, have no type, no number.
        ([times(99), vec![], record(1, &[0; 5])], 3, 1_495),
        ([times(99), vec![], claiming(1, 6, &time())], 2, 1_485),
        ([times(99), vec![], record(0, &time())], 5, 1_485),
        // 97 * 15 + 19 + 25 = 1,499, then one byte.
        (
            [times(97), [clears(1), states(1)].concat(), vec![1]],
            2,
            1_499,
        ),
        // 80 * 15 + 5 * 40 + 48 = 1,448, then 52 of a Symbol Update, the last of which is its market.
        (
            [
                times(80),
                [modifies(5), executions(1)].concat(),
                record(1, &with(good(1), 41, b"D")),
            ],
            4,
            1_499,
        ),
    ] {
        let packet = packet.concat();
        assert_eq!(packet.len(), 1_500);
        refuses::<R>(&packet, number, offset);
    }
}

/// "1, 6 and all other refusals give their number alone."
fn one_and_six_have_no_offset<R: Reader>() {
    let alone = |number| Refusal {
        number,
        offset: None,
    };
    let packets = [
        vec![],
        vec![0; 1_501],
        vec![0; 65_535],
        record(1, &time()).repeat(101),
        // Of records that are bad themselves, which are not looked at.
        record(0, &time()).repeat(101),
        record(1, &[]).repeat(151),
    ];
    for packet in &packets {
        refuses_with::<R>(packet, alone(1));
    }
    // 6 comes before 1 and before all that has an offset.
    let bad = [record(0, &time()), record(1, &[]), free(), vec![0; 9]];
    for packet in packets.iter().chain(&bad) {
        for next in [0, 1_000_000_000_002] {
            let mut receiver = R::with_next(next);
            let before = receiver.clone();
            assert_eq!(receiver.hear(packet), Err(alone(6)));
            assert_eq!(receiver, before);
        }
    }
}

/// What is left of a packet, with anything behind the record; nothing left is 2.
fn a_record_by_itself<R: Reader>() {
    assert_eq!(R::record(&[]), Err(Refusal::at(2, 0)));
    let numberless = record(0, &time());
    let behinds = [vec![], vec![0; 3], numberless.clone()];
    for behind in behinds {
        let told = |bad: Vec<u8>| R::record(&[bad, behind.clone()].concat());
        assert_eq!(told(record(1, &time())), Ok(()));
        assert_eq!(told(numberless.clone()), Err(Refusal::at(5, 0)));
        assert_eq!(told(record(1, &[])), Err(Refusal::at(3, 10)));
        assert_eq!(told(record(1, &[0])), Err(Refusal::at(3, 10)));
        let market = with(good(1), 41, b"D");
        assert_eq!(told(record(1, &market)), Err(Refusal::at(4, 51)));
        let size = with(good(24), 33, &[0; 4]);
        assert_eq!(told(record(1, &size)), Err(Refusal::at(4, 43)));
    }
}

fn a_body_by_itself<R: Reader>() {
    assert_eq!(R::body(&time()), Ok(()));
    for bad in [&[][..], &[0], &[49], &[49; 6], &[255; 65_535]] {
        assert_eq!(R::body(bad), Err(Refusal::at(3, 0)));
    }
    for (kind, field, at, _) in FIELDS {
        for value in bad_values(field) {
            let body = with(good(kind), at, value);
            assert_eq!(R::body(&body), Err(Refusal::at(4, at)));
        }
    }
    // "3: 0; 4: 1 to 41"
    let offsets = FIELDS.map(|(_, _, at, _)| at);
    assert_eq!(offsets.iter().min(), Some(&1));
    assert_eq!(offsets.iter().max(), Some(&41));
}

// Streams.

/// An Add with price 0: 4 at 28.
fn free() -> Vec<u8> {
    record(1, &with(good(20), 18, &[0; 8]))
}

/// A packet that is accepted.
fn accepted() -> Vec<u8> {
    record(1, &time())
}

/// Packets, and number and offset of the last refused one behind each.
fn told() -> Vec<(Vec<u8>, (u64, u64))> {
    vec![
        (accepted(), (0, 0)),
        (free(), (4, 28)),
        // Accepted packets leave it.
        (accepted(), (4, 28)),
        (accepted(), (4, 28)),
        ([accepted(), free()].concat(), (4, 43)),
        (vec![], (1, 0)),
        (accepted(), (1, 0)),
        ([accepted(), vec![9]].concat(), (2, 15)),
        (record(0, &time()), (5, 0)),
        ([accepted(), record(1, &[])].concat(), (3, 25)),
        (accepted(), (3, 25)),
        (vec![1; 1_501], (1, 0)),
        (accepted(), (1, 0)),
        ([accepted(), accepted(), record(0, &[])].concat(), (5, 30)),
    ]
}

fn a_stream_tells_the_last_refused_packet<R: Reader>() {
    let mut fed = R::open();
    assert_eq!(fed.last(), (0, 0));
    assert!(fed.feed(&[]));
    assert_eq!(fed.last(), (0, 0));
    for (packet, last) in told() {
        assert!(fed.feed(&recording(&[packet])));
        assert_eq!(fed.last(), last);
    }
    // Eight refused packets, six accepted ones of one record each.
    assert_eq!(fed.counts(), (8, 6));
    // All in one piece: the last of all.
    let packets: Vec<_> = told().into_iter().map(|(packet, _)| packet).collect();
    let mut fed = R::open();
    assert!(fed.feed(&recording(&packets)));
    assert_eq!(fed.last(), (5, 30));
    assert_eq!(fed.counts(), (8, 6));
    // A piece that is refused with 6 leaves it.
    fed.lend_next(0);
    assert!(!fed.feed(&recording(&[free()])));
    assert_eq!(fed.last(), (5, 30));
}

fn too_long_a_packet_is_told_as_1_when_its_last_byte_has_come<R: Reader>() {
    for length in [1_501, 2_000, 65_535] {
        let long = recording(&[vec![1; length]]);
        let (front, end) = long.split_at(long.len() - 1);
        let mut fed = R::open();
        assert!(fed.feed(front));
        assert_eq!(fed.last(), (0, 0));
        assert!(fed.feed(end));
        assert_eq!(fed.last(), (1, 0));
        // Behind another one, whose offset must go.
        assert!(fed.feed(&recording(&[free()])));
        assert_eq!(fed.last(), (4, 28));
        assert!(fed.feed(front));
        assert_eq!(fed.last(), (4, 28));
        assert!(fed.feed(end));
        assert_eq!(fed.last(), (1, 0));
        assert!(fed.feed(&recording(&[accepted()])));
        assert_eq!(fed.last(), (1, 0));
    }
}

/// A recording cut in two at every place, and byte by byte: behind each piece what its last whole packet tells.
fn a_stream_cut_anywhere<R: Reader>() {
    let (mut bytes, mut ends) = (Vec::new(), BTreeMap::new());
    ends.insert(0, (0, 0));
    for (packet, last) in told() {
        bytes.extend(recording(&[packet]));
        ends.insert(bytes.len(), last);
    }
    let told_by = |length: usize| *ends.range(..=length).next_back().unwrap().1;
    for first in 0..=bytes.len() {
        let mut fed = R::open();
        assert!(fed.feed(&bytes[..first]));
        assert_eq!(fed.last(), told_by(first), "cut at {first}");
        assert!(fed.feed(&[]));
        assert_eq!(fed.last(), told_by(first), "cut at {first}");
        assert!(fed.feed(&bytes[first..]));
        assert_eq!(fed.last(), (5, 30), "cut at {first}");
    }
    let mut fed = R::open();
    for (place, byte) in bytes.iter().enumerate() {
        assert!(fed.feed(&[*byte]));
        assert_eq!(fed.last(), told_by(place + 1), "byte {place}");
    }
    assert_eq!(fed.counts(), (8, 6));
}

/// Whatever a caller lent stays until a packet is refused.
fn a_stream_with_any_last<R: Reader>() {
    for (number, offset) in [(0, 9), (77, 0), (255, u64::MAX), (4, 1 << 40)] {
        let mut fed = R::open();
        fed.lend_last(number, offset);
        assert!(fed.feed(&[]));
        assert!(fed.feed(&recording(&[accepted()])));
        assert_eq!(fed.last(), (number.into(), offset));
        assert!(fed.feed(&recording(&[free()])));
        assert_eq!(fed.last(), (4, 28));
        fed.lend_last(number, offset);
        assert!(fed.feed(&[0, 0]));
        assert_eq!(fed.last(), (1, 0));
    }
}

/// Next at 10^12 + 1, whose message a caller has put on the shelf: the first packet drives next too far, and the
/// second of the same piece is refused with 6, which stands alone.
fn a_packet_refused_with_6_inside_a_piece<R: Reader>() {
    let last = 1_000_000_000_000;
    let mut fed = R::open();
    assert!(fed.feed(&recording(&[free()])));
    assert_eq!(fed.last(), (4, 28));
    fed.lend_next(last);
    fed.lend_slot(last + 1, &time());
    let drives = record(last, &time());
    assert!(fed.feed(&recording(&[drives, accepted()])));
    assert_eq!(fed.last(), (6, 0));
    assert_eq!(fed.counts(), (2, 1));
    // The next piece is refused, and nothing changes.
    assert!(!fed.feed(&recording(&[free()])));
    assert_eq!(fed.last(), (6, 0));
}

// Text.

#[test]
fn the_lines_of_answers() {
    let packets: Vec<_> = told().into_iter().map(|(packet, _)| packet).collect();
    let text =
        String::from_utf8(answers_of_recording(V1_3b, &recording(&packets)).unwrap()).unwrap();
    let wanted = "1 0 0 0 0 2 1 0 0
refused 4 at 28
0 1 0 0 0 2 0 0 0
0 1 0 0 0 2 0 0 0
refused 4 at 43
refused 1
0 1 0 0 0 2 0 0 0
refused 2 at 15
refused 5 at 0
refused 3 at 25
0 1 0 0 0 2 0 0 0
refused 1
0 1 0 0 0 2 0 0 0
refused 5 at 30
second 0
";
    assert_eq!(text, wanted);
}

#[test]
fn the_lines_of_read() {
    let good_record = record(1, &time());
    let behind = |bad: &[u8]| [&good_record[..], bad].concat();
    for (packet, wanted) in [
        (vec![], "refused 1"),
        (vec![1; 1_501], "refused 1"),
        (
            behind(&[0; 9]),
            "refused 2 at 15: record 2, unfinished header",
        ),
        (vec![1], "refused 2 at 0: record 1, unfinished header"),
        (
            behind(&claiming(1, 6, &time())),
            "refused 2 at 15: record 2, body past the end",
        ),
        (
            claiming(1, 1, &[]),
            "refused 2 at 0: record 1, body past the end",
        ),
        (
            record(0, &time()),
            "refused 5 at 0: record 1, sequence number",
        ),
        (
            behind(&behind(&record(0, &[]))),
            "refused 5 at 30: record 3, sequence number",
        ),
        (
            behind(&record(1, &[])),
            "refused 3 at 25: record 2, empty body",
        ),
        (
            behind(&record(1, &[0, 1])),
            "refused 3 at 25: record 2, unknown type",
        ),
        (
            record(1, &good(20)[..33]),
            "refused 3 at 10: record 1, Add Order, wrong length",
        ),
        (free(), "refused 4 at 28: record 1, Add Order, price"),
        (good_record.clone(), "records 1\n1 49 0"),
    ] {
        assert_eq!(lines_of_packet(V1_3b, &packet), format!("{wanted}\n"));
    }
}

/// Each message and each judged field by its name.
#[test]
fn the_names_of_messages_and_fields() {
    let names = [
        (49, "System Time"),
        (1, "Symbol Update"),
        (83, "System State"),
        (4, "Security Trading Status"),
        (5, "Symbol Clear"),
        (20, "Add Order"),
        (21, "Modify Order"),
        (23, "Delete Order"),
        (24, "Order Execution"),
        (10, "Trade"),
        (11, "Trade Cancel"),
    ];
    for (kind, name) in names {
        let wanted = format!("refused 3 at 10: record 1, {name}, wrong length\n");
        assert_eq!(lines_of_packet(V1_3b, &record(1, &[kind])), wanted);
    }
    for (kind, field, at, [_, second, _]) in FIELDS {
        let (_, name) = names.iter().find(|(known, _)| *known == kind).unwrap();
        let bad = with(good(kind), at, bad_values(field)[0]);
        let packet = [record(1, &time()), record(2, &bad)].concat();
        let wanted = format!("refused 4 at {second}: record 2, {name}, {field}\n");
        assert_eq!(lines_of_packet(V1_3b, &packet), wanted);
    }
}

// What `compare` counts.

/// Each of these packets is counted under these names, and under no others.
#[test]
fn faults_are_counted_by_place_and_field() {
    let good_record = record(1, &time());
    let behind = |bad: &[u8]| [&good_record[..], bad].concat();
    let many = good_record.repeat(20);
    let market = with(good(1), 41, b"D");
    let two = with(market.clone(), 21, b"X");
    let cases: [(Vec<u8>, &[&str]); 13] = [
        (free(), &["Add Order, bad price alone"]),
        (
            behind(&free()),
            &["Add Order, bad price alone", "refusal 4 in the last record"],
        ),
        (
            behind(&behind(&[free(), good_record.clone()].concat())),
            &["Add Order, bad price alone", "refusal 4 in the middle"],
        ),
        (
            [&record(1, &market)[..], &good_record].concat(),
            &[
                "Symbol Update, bad market alone",
                "refusal 4 in the first of several",
            ],
        ),
        (
            record(1, &two),
            &["Symbol Update, bad market, not the first"],
        ),
        (
            record(1, &with(two, 1, &[255; 4])),
            &[
                "Symbol Update, bad market, not the first",
                "Symbol Update, bad test indicator, not the first",
            ],
        ),
        (
            [&many[..], &free()].concat(),
            &[
                "Add Order, bad price alone",
                "refusal 4 in the last record",
                "refusal 4 at 256 or more",
            ],
        ),
        (
            behind(&[9]),
            &["an unfinished header", "refusal 2 in the last record"],
        ),
        (claiming(1, 9, &[]), &["a body past the end"]),
        (record(1, &[]), &["an empty body at the packet's end"]),
        (
            record(1, &[]).repeat(2),
            &[
                "an empty body before other records",
                "refusal 3 in the first of several",
            ],
        ),
        (
            behind(&record(1, &[7])),
            &["an unknown type", "refusal 3 in the last record"],
        ),
        (record(1, &[49]), &["a wrong length"]),
    ];
    let mut all = Faults::default();
    for (packet, wanted) in &cases {
        let mut faults = Faults::default();
        faults.note(V1_3b, packet, read_packet(V1_3b, packet).unwrap_err());
        let mut wanted: Vec<_> = wanted.iter().map(|what| what.to_string()).collect();
        wanted.sort();
        assert_eq!(counted(&faults), wanted);
        all.add(&faults);
    }
    // What has no offset, and a number that is alone in its packet at 0.
    for packet in [vec![], record(0, &time())] {
        let mut faults = Faults::default();
        faults.note(V1_3b, &packet, read_packet(V1_3b, &packet).unwrap_err());
        assert_eq!(faults, Faults::default());
    }
    let sums: BTreeMap<_, _> = all.seen().into_iter().collect();
    assert_eq!(sums["Add Order, bad price alone"], 4);
    assert_eq!(sums["refusal 4 in the last record"], 2);
    assert_eq!(sums["Symbol Update, bad market, not the first"], 2);
}

/// What was counted once.
fn counted(faults: &Faults) -> Vec<String> {
    let mut names = Vec::new();
    for (what, count) in faults.seen() {
        assert!(count <= 1);
        if count == 1 {
            names.push(what);
        }
    }
    names.sort();
    names
}
