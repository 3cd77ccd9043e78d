//! Request 10: the 2020 edition. Byte 20 of a Symbol Update is Security Type, `E` or `F`, under 1.3, and reserved
//! from 1.3.a on. The bytes are put together here by the offsets of documents 01 and 000, and the offsets told are
//! worked out by hand. Tried of the second program, and of the proved library where it is linked.

#[macro_use]
mod common;
use common::watched::Receiver;
use common::written::{record, recording};
use common::{all_seeds, example_path, seeds, well_formed, Desk, Edition, V1_3b, EDITIONS, V1_3};
use second::answers::answers_of_recording;
use second::examples::MORNING_SHEET;
use second::morning::*;
use second::packet::{read_body, read_packet, read_record, Message, Refusal};
#[cfg(linked)]
use second::proved::{self, lent, Proved};
use second::reading::{judged_fields, lines_of_packet};
use second::seen::Faults;
use second::sheet::{sheet, sheet_of_recording};
use second::stream::{Stream, LEAST_HOLD};
use second::write::Fields;
use std::collections::BTreeMap;
use std::process::{Command, Output, Stdio};

/// What these tests do with either program.
trait Editions: Receiver {
    fn packet(edition: Edition, packet: &[u8]) -> Result<u64, Refusal>;
    fn record(edition: Edition, rest: &[u8]) -> Result<(), Refusal>;
    /// The type and the numbers of a body.
    fn body(edition: Edition, body: &[u8]) -> Result<Vec<u64>, Refusal>;
    /// The caller changes the edition between two calls.
    fn change_edition(&mut self, edition: Edition);
    fn symbols(&mut self) -> &mut [u8];
    fn shelf(&mut self) -> &mut [u8];
    fn sheet(&self) -> String;
    /// A piece of a recording, with the stream's count of bad packets and the memory kept between calls.
    fn feed(&mut self, fed: &mut Fed, piece: &[u8]);
}

/// What a stream keeps beside its receiver, in either program's form.
struct Fed {
    second: Stream,
    #[cfg(linked)]
    proved: Option<lent::Stream>,
    hold: Vec<u8>,
}

impl Fed {
    fn new() -> Fed {
        Fed {
            second: Stream::default(),
            #[cfg(linked)]
            proved: None,
            hold: vec![7; LEAST_HOLD],
        }
    }

    /// Bad packets, and number and offset of the last of them.
    fn told(&self) -> (u64, u64, u64) {
        #[cfg(linked)]
        if let Some(stream) = self.proved {
            return (stream[6], stream[12], stream[13]);
        }
        let stream = &self.second;
        (stream.bad, stream.last_number.into(), stream.last_offset)
    }
}

impl Editions for Desk {
    fn packet(edition: Edition, packet: &[u8]) -> Result<u64, Refusal> {
        read_packet(edition, packet).map(|records| records.len() as u64)
    }

    fn record(edition: Edition, rest: &[u8]) -> Result<(), Refusal> {
        read_record(edition, rest).map(|_| ())
    }

    fn body(edition: Edition, body: &[u8]) -> Result<Vec<u64>, Refusal> {
        Ok(Fields::read(edition, body)?.numbers.to_vec())
    }

    fn change_edition(&mut self, edition: Edition) {
        self.state.edition = edition;
    }

    fn symbols(&mut self) -> &mut [u8] {
        &mut self.symbols
    }

    fn shelf(&mut self) -> &mut [u8] {
        &mut self.shelf
    }

    fn sheet(&self) -> String {
        let text = sheet(self.state, &self.orders, &self.symbols, 0, true);
        String::from_utf8(text.expect("sizes in the limits")).unwrap()
    }

    fn feed(&mut self, fed: &mut Fed, piece: &[u8]) {
        assert_eq!(fed.second.feed(self, &mut fed.hold, piece), Ok(()));
    }
}

#[cfg(linked)]
impl Editions for Proved {
    fn packet(edition: Edition, packet: &[u8]) -> Result<u64, Refusal> {
        proved::packet(edition, packet)
    }

    fn record(edition: Edition, rest: &[u8]) -> Result<(), Refusal> {
        proved::record(edition, rest).map(|_| ())
    }

    fn body(edition: Edition, body: &[u8]) -> Result<Vec<u64>, Refusal> {
        Ok(proved::body(edition, body)?.numbers.to_vec())
    }

    fn change_edition(&mut self, edition: Edition) {
        self.state[3] = edition.number();
    }

    fn symbols(&mut self) -> &mut [u8] {
        &mut self.symbols
    }

    fn shelf(&mut self) -> &mut [u8] {
        &mut self.shelf
    }

    fn sheet(&self) -> String {
        let text = Proved::sheet(self, 0, false).expect("sizes in the limits");
        String::from_utf8(text).unwrap()
    }

    fn feed(&mut self, fed: &mut Fed, piece: &[u8]) {
        let mut stream = fed.proved.unwrap_or_else(|| {
            let mut stream = [9; 14];
            assert_eq!(lent::open(&self.state, &mut stream), 0);
            stream
        });
        stream[..4].copy_from_slice(&self.state);
        let Proved {
            orders,
            symbols,
            shelf,
            index,
            state,
        } = self;
        let answer = lent::feed(
            orders,
            symbols,
            shelf,
            index,
            &mut fed.hold,
            &mut stream,
            piece,
        );
        assert_eq!(answer, 0);
        state.copy_from_slice(&stream[..4]);
        fed.proved = Some(stream);
    }
}

of_both! {
    each_byte_alone
    each_byte_beside_each_other_bad_field
    each_byte_behind_refusals_2_5_and_3
    each_byte_in_a_receiver
    a_start_chooses_and_packets_keep_it
    the_numbers_of_a_symbol_update
    byte_20_is_part_of_a_copy
    the_example_in_1_3
    the_other_editions_recording
    each_byte_on_the_sheet
    an_entry_is_in_use_whatever_its_byte_20
    a_shelf_that_the_other_edition_let_in
    a_stop_is_told_by_the_edition_that_is_found
    a_stream_goes_by_the_state
}

// Bytes.

/// A good Symbol Update of symbol 7 but for this byte 20: nanoseconds 5, ticker ABC, test N, lot 100, 09:30:00 to
/// 16:00:00, market H.
fn update(byte: u8) -> Vec<u8> {
    let mut body = vec![1, 5, 0, 0, 0, 7, 0, 0, 0];
    body.extend(b"ABC        ");
    body.push(byte);
    body.extend([b'N', 0, 100, 0]);
    body.extend(b"09:30:0016:00:00H");
    assert_eq!(body.len(), 42);
    body
}

/// The same of another symbol.
fn update_of(symbol: u8, byte: u8) -> Vec<u8> {
    let mut body = update(byte);
    body[5] = symbol;
    body
}

/// A System Time, whose record has 15 bytes.
fn time(second: u8) -> Vec<u8> {
    vec![49, second, 0, 0, 0]
}

/// "Security Type, `E` or `F`", 69 and 70, under 1.3; "from 1.3.a it is reserved".
fn good(edition: Edition, byte: u8) -> bool {
    edition == V1_3b || byte == 69 || byte == 70
}

/// Document 01's example in an edition: its Symbol Update with this byte 20.
fn example(byte: u8) -> Vec<u8> {
    let bodies = second::examples::example_list();
    let mut packet = Vec::new();
    for (place, mut body) in bodies.into_iter().enumerate() {
        if body[0] == 1 {
            body[20] = byte;
        }
        packet.extend(record(place as u64 + 1, &body));
    }
    packet
}

// Receivers.

fn refuses<R: Editions>(receiver: &mut R, packet: &[u8], refusal: Refusal) {
    let before = receiver.clone();
    assert_eq!(receiver.hear(packet), Err(refusal), "{packet:?}");
    assert_eq!(*receiver, before, "{packet:?}");
}

/// A packet that must be accepted and come to this next number and stop.
fn comes_to<R: Editions>(receiver: &mut R, packet: &[u8], next: u64, stop: u8) {
    let answer = receiver.hear(packet).expect("a good packet");
    assert_eq!((answer.next, answer.stop), (next, stop), "{packet:?}");
}

/// A body that must be refused with 4 at this offset: by itself, as a record, and in the first, second and third of
/// three records, the others System Times.
fn body_refuses<R: Editions>(edition: Edition, body: &[u8], at: usize) {
    let (bad, good) = (record(2, body), record(1, &time(1)));
    assert_eq!(R::body(edition, body), Err(Refusal::at(4, at)));
    assert_eq!(R::record(edition, &bad), Err(Refusal::at(4, 10 + at)));
    for (packet, offset) in [
        ([&bad[..], &good, &good], 10 + at),
        ([&good[..], &bad, &good], 25 + at),
        ([&good[..], &good, &bad], 40 + at),
    ] {
        let packet = packet.concat();
        assert_eq!(R::packet(edition, &packet), Err(Refusal::at(4, offset)));
        let mut receiver = R::started(edition, 2, 2);
        refuses(&mut receiver, &packet, Refusal::at(4, offset));
    }
}

/// "Under 1.3 any other byte is refused with 4", at 20 in the body, 30 in its record, and in packets behind the
/// records in front. From 1.3.a on none is.
fn each_byte_alone<R: Editions>() {
    let mut refused = 0;
    for byte in 0..=255 {
        for edition in EDITIONS {
            if !good(edition, byte) {
                body_refuses::<R>(edition, &update(byte), 20);
                refused += 1;
                continue;
            }
            assert!(R::body(edition, &update(byte)).is_ok());
            assert_eq!(R::record(edition, &record(1, &update(byte))), Ok(()));
            let packet = [record(1, &time(1)), record(2, &update(byte))].concat();
            assert_eq!(R::packet(edition, &packet), Ok(2));
        }
    }
    assert_eq!(refused, 254);
}

/// "the first byte of the earliest bad field by offset": the Timestamp at 1 comes before it, the test indicator at 21
/// and the market at 41 behind it.
fn each_byte_beside_each_other_bad_field<R: Editions>() {
    for byte in 0..=255 {
        for edition in EDITIONS {
            for others in 1..8 {
                let mut body = update(byte);
                let mut bad = Vec::new();
                if others & 1 != 0 {
                    body[1..5].copy_from_slice(&[0, 0xCA, 0x9A, 0x3B]); // 1,000,000,000
                    bad.push(1);
                }
                if !good(edition, byte) {
                    bad.push(20);
                }
                if others & 2 != 0 {
                    body[21] = b'E';
                    bad.push(21);
                }
                if others & 4 != 0 {
                    body[41] = b'F';
                    bad.push(41);
                }
                body_refuses::<R>(edition, &body, bad[0]);
            }
        }
    }
}

/// Framing, number, type and length are judged before it, and stray bytes behind it are not looked at.
fn each_byte_behind_refusals_2_5_and_3<R: Editions>() {
    for edition in EDITIONS {
        for byte in 0..=255 {
            let body = update(byte);
            let longer = [&body[..], &[0]].concat();
            let unknown = [&[0], &body[1..]].concat();
            for other in [&body[..41], &longer, &unknown] {
                assert_eq!(R::body(edition, other), Err(Refusal::at(3, 0)));
                let told = R::packet(edition, &record(1, other));
                assert_eq!(told, Err(Refusal::at(3, 10)));
            }
            let numberless = R::packet(edition, &record(0, &body));
            assert_eq!(numberless, Err(Refusal::at(5, 0)));
            let short = R::packet(edition, &record(1, &body)[..51]);
            assert_eq!(short, Err(Refusal::at(2, 0)));
            let stray = [record(1, &body), vec![1, 2, 3]].concat();
            let wanted = match good(edition, byte) {
                true => Refusal::at(2, 52),
                false => Refusal::at(4, 30),
            };
            assert_eq!(R::packet(edition, &stray), Err(wanted));
        }
    }
    // Byte 20 of no other message is judged: an Add's price has its third byte there.
    let mut add = vec![20];
    add.extend([0; 16]);
    add.extend(b"B\x80\x96\x98\0\0\0\0\0");
    add.extend([1, 0, 0, 0, 32, 32, 32, 32]);
    assert_eq!(add.len(), 34);
    for byte in 0..=255 {
        add[20] = byte;
        for edition in EDITIONS {
            assert!(R::body(edition, &add).is_ok());
        }
    }
}

/// Applied, all 42 bytes stand in the symbol's entry; a refused packet changes nothing and leaves a gap.
fn each_byte_in_a_receiver<R: Editions>() {
    for byte in 0..=255 {
        for edition in EDITIONS {
            let mut receiver = R::started(edition, 2, 2);
            let packet = [record(1, &time(9)), record(2, &update(byte))].concat();
            if good(edition, byte) {
                comes_to(&mut receiver, &packet, 3, 0);
                assert_eq!(receiver.symbols()[..42], update(byte));
            } else {
                refuses(&mut receiver, &packet, Refusal::at(4, 45));
                comes_to(&mut receiver, &record(3, &time(3)), 1, 0);
                // Old and too far ones are judged too.
                refuses(
                    &mut receiver,
                    &record(900, &update(byte)),
                    Refusal::at(4, 30),
                );
                let mended = [record(1, &time(9)), record(2, &update(b'F'))].concat();
                comes_to(&mut receiver, &mended, 4, 0);
                refuses(&mut receiver, &record(1, &update(byte)), Refusal::at(4, 30));
                assert_eq!(receiver.symbols()[..42], update(b'F'));
            }
            assert_eq!(receiver.state().edition, edition);
        }
    }
}

/// "A recording's edition is chosen at start", and no packet changes it, accepted or refused.
fn a_start_chooses_and_packets_keep_it<R: Editions>() {
    for edition in EDITIONS {
        let mut receiver = R::started(edition, 2, 2);
        let state = receiver.state();
        assert_eq!((state.next, state.second, state.stop), (1, 0, 0));
        assert_eq!(state.edition, edition);
        for number in 1..=200 {
            let _ = receiver.hear(&record(number, &[]));
            let body = if number % 2 == 0 {
                update(b'E')
            } else {
                time(1)
            };
            comes_to(&mut receiver, &record(number, &body), number + 1, 0);
            let spaced = receiver.hear(&record(number, &update(b' ')));
            assert_eq!(spaced.is_ok(), edition == V1_3b);
            assert_eq!(receiver.state().edition, edition);
        }
    }
}

/// Symbol, lot and market, behind them the Security Type where there is one, then nanoseconds, test indicator and byte 22.
fn the_numbers_of_a_symbol_update<R: Editions>() {
    for byte in [69, 70] {
        let typed = vec![1, 7, 100, 72, byte.into(), 5, 78, 0];
        assert_eq!(R::body(V1_3, &update(byte)), Ok(typed));
        let reserved = vec![1, 7, 100, 72, 0, 5, 78, 0];
        assert_eq!(R::body(V1_3b, &update(byte)), Ok(reserved));
    }
    // No other message has a number more or less.
    for (kind, length) in second::packet::TYPES_AND_LENGTHS {
        if kind != 1 {
            let body = good_body_of(V1_3b, &mut Dice::new(length as u64), kind);
            assert_eq!(R::body(V1_3, &body), R::body(V1_3b, &body));
        }
    }
}

/// "any other occupied slot is a differing copy (14)": two copies that differ in byte 20 alone, in each edition.
fn byte_20_is_part_of_a_copy<R: Editions>() {
    for edition in EDITIONS {
        let mut receiver = R::started(edition, 2, 2);
        for (byte, counts) in [
            (b'E', [1, 0, 0, 0, 0]),
            (b'E', [0, 0, 0, 1, 0]),
            (b'F', [0, 0, 0, 0, 1]),
        ] {
            let answer = receiver.hear(&record(2, &update(byte)));
            assert_eq!(answer.map(|answer| answer.counts()), Ok(counts));
        }
        comes_to(&mut receiver, &record(1, &time(1)), 3, 0);
        assert_eq!(receiver.symbols()[20], b'E');
    }
}

/// Document 01's example with a Security Type, and its sheet: "Only the 1.3 sheet shows it, as `type=` after
/// `ticker=`."
fn the_example_in_1_3<R: Editions>() {
    for (byte, line) in [(b'E', "type=E\n"), (b'F', "type=F\n")] {
        let mut typed = R::started(V1_3, 10, 4);
        comes_to(&mut typed, &example(byte), 6, 0);
        let wanted = MORNING_SHEET.replace("ticker=ABC\n", &format!("ticker=ABC\n{line}"));
        assert_eq!(typed.sheet(), wanted);
        let mut other = R::started(V1_3b, 10, 4);
        comes_to(&mut other, &example(byte), 6, 0);
        assert_eq!(other.sheet(), MORNING_SHEET);
        // A sheet goes by the state's edition.
        typed.change_edition(V1_3b);
        assert_eq!(typed.sheet(), MORNING_SHEET);
        other.change_edition(V1_3);
        assert_eq!(other.sheet(), wanted);
    }
    // Without a symbol there is no line of it.
    let empty = R::started(V1_3, 1, 1).sheet();
    assert_eq!(empty, R::started(V1_3b, 1, 1).sheet());
    assert!(!empty.contains("type="));
}

/// "Given the other edition's recording, a reader shows only right fields or refuses, if no reserved byte 20 is `E` or
/// `F`." A recording of 1.3 comes to its own tables under 1.3.b; one of 1.3.b without such a byte to none under 1.3.
fn the_other_editions_recording<R: Editions>() {
    for byte in [b'E', b'F'] {
        let mut own = R::started(V1_3, 10, 4);
        let mut other = R::started(V1_3b, 10, 4);
        assert_eq!(own.hear(&example(byte)), other.hear(&example(byte)));
        assert_eq!(own.three(), other.three());
    }
    for byte in (0..=255).filter(|byte| *byte != b'E' && *byte != b'F') {
        let mut receiver = R::started(V1_3, 10, 4);
        // A System Time of 15 bytes before it, then 10 of a header and 20 of the body.
        refuses(&mut receiver, &example(byte), Refusal::at(4, 45));
        let mut own = R::started(V1_3b, 10, 4);
        comes_to(&mut own, &example(byte), 6, 0);
    }
}

/// "bytes outside 32 to 126 shown as a full stop", a space as a space; altered entries have any.
fn each_byte_on_the_sheet<R: Editions>() {
    let mut receiver = R::started(V1_3, 10, 4);
    comes_to(&mut receiver, &example(b'E'), 6, 0);
    for byte in 0..=255u8 {
        receiver.symbols()[20] = byte;
        let shown = match byte {
            32..=126 => byte as char,
            _ => '.',
        };
        let wanted = format!("symbol=7\nticker=ABC\ntype={shown}\nlot=100\n");
        assert!(receiver.sheet().contains(&wanted), "{byte}");
        let mut other = receiver.clone();
        other.change_edition(V1_3b);
        assert!(!other.sheet().contains("type="), "{byte}");
        assert!(other.sheet().contains("ticker=ABC\nlot=100\n"), "{byte}");
    }
}

/// "type 1 marks an entry in use": its symbol is known, in each edition, and an Update replaces it in place.
fn an_entry_is_in_use_whatever_its_byte_20<R: Editions>() {
    for edition in EDITIONS {
        for byte in [0, b' ', b'G', 255] {
            let mut receiver = R::started(edition, 2, 2);
            comes_to(&mut receiver, &record(1, &update(b'E')), 2, 0);
            receiver.symbols()[20] = byte;
            let add = add_order(0, 7, 1, b'B', 1, 1);
            comes_to(&mut receiver, &record(2, &add), 3, 0);
            comes_to(&mut receiver, &record(3, &update(b'F')), 4, 0);
            assert_eq!(receiver.symbols()[..42], update(b'F'));
            assert_eq!(receiver.symbols()[42..], [0; 42]);
        }
    }
}

/// A receiver of 1.3.b has a Symbol Update on the shelf, with any byte 20, and is changed to 1.3: when its turn comes
/// it is applied, or no good body (27) until the receiver is changed back. And the other way round it is applied.
fn a_shelf_that_the_other_edition_let_in<R: Editions>() {
    for byte in 0..=255 {
        let mut receiver = R::started(V1_3b, 2, 2);
        let waiting = [record(2, &update(byte)), record(3, &time(3))].concat();
        comes_to(&mut receiver, &waiting, 1, 0);
        receiver.change_edition(V1_3);
        if good(V1_3, byte) {
            comes_to(&mut receiver, &record(1, &time(1)), 4, 0);
            assert_eq!(receiver.symbols()[..42], update(byte));
            continue;
        }
        comes_to(&mut receiver, &record(1, &time(1)), 2, 27);
        assert_eq!(receiver.three().1, [0; 84]);
        assert_eq!(receiver.three().2, 1);
        let start = 2 * 74;
        assert_eq!(
            receiver.shelf()[start..start + 52],
            record(2, &update(byte))
        );
        // A true copy is a differing one, and one of the other edition is refused.
        let answer = receiver.hear(&record(2, &update(b'E')));
        let told = answer.map(|answer| (answer.counts(), answer.stop));
        assert_eq!(told, Ok(([0, 0, 0, 0, 1], 27)));
        refuses(&mut receiver, &record(2, &update(byte)), Refusal::at(4, 30));
        receiver.change_edition(V1_3b);
        comes_to(&mut receiver, &record(4, &time(4)), 5, 0);
        assert_eq!(receiver.symbols()[..42], update(byte));
    }
    for byte in [b'E', b'F'] {
        let mut receiver = R::started(V1_3, 2, 2);
        comes_to(&mut receiver, &record(2, &update(byte)), 1, 0);
        receiver.change_edition(V1_3b);
        comes_to(&mut receiver, &record(1, &time(1)), 3, 0);
        assert_eq!(receiver.symbols()[..42], update(byte));
    }
}

/// Next's message finds no free entry (26), or is no good body (27), by the edition of the state at each packet.
fn a_stop_is_told_by_the_edition_that_is_found<R: Editions>() {
    for (byte, typed) in [(b'E', 26), (b' ', 27)] {
        let mut receiver = R::started(V1_3b, 2, 1);
        comes_to(&mut receiver, &record(1, &update(b'F')), 2, 0);
        comes_to(&mut receiver, &record(2, &update_of(8, byte)), 2, 26);
        for (edition, stop) in [(V1_3, typed), (V1_3b, 26), (V1_3, typed)] {
            receiver.change_edition(edition);
            comes_to(&mut receiver, &record(1, &time(1)), 2, stop);
            assert_eq!(receiver.state().stop, stop);
            let line = format!("\nstop={stop}\n");
            assert!(receiver.sheet().contains(&line));
        }
        let waiting = record(2, &update_of(8, byte));
        assert_eq!(receiver.shelf()[2 * 74..2 * 74 + 52], waiting);
    }
}

/// A recording in two pieces cut anywhere, in each edition, and with the edition changed before its last packet.
fn a_stream_goes_by_the_state<R: Editions>() {
    let packets = [
        record(1, &update(b'E')),
        record(2, &update_of(8, b' ')),
        record(2, &update_of(8, b'F')),
    ];
    let bytes = recording(&packets);
    for (edition, told, entry) in [(V1_3, (1, 4, 30), b'F'), (V1_3b, (0, 0, 0), b' ')] {
        for first in 0..=bytes.len() {
            let (mut receiver, mut fed) = (R::started(edition, 2, 2), Fed::new());
            receiver.feed(&mut fed, &bytes[..first]);
            receiver.feed(&mut fed, &bytes[first..]);
            assert_eq!(fed.told(), told, "cut at {first}");
            assert_eq!(receiver.state().edition, edition);
            assert_eq!(receiver.state().next, 3);
            assert_eq!(receiver.symbols()[42 + 20], entry);
        }
    }
    // Whatever stood there when a packet began, it is judged by what is found when it ends.
    for cut in 0..54 {
        let (mut receiver, mut fed) = (R::started(V1_3b, 2, 2), Fed::new());
        receiver.feed(&mut fed, &bytes[..54 + cut]);
        receiver.change_edition(V1_3);
        receiver.feed(&mut fed, &bytes[54 + cut..108]);
        assert_eq!(fed.told(), (1, 4, 30), "cut at {cut}");
        receiver.change_edition(V1_3b);
        receiver.feed(&mut fed, &bytes[54..108]);
        assert_eq!(fed.told(), (1, 4, 30), "cut at {cut}");
        assert_eq!(receiver.symbols()[42..84], update_of(8, b' '));
    }
}

// Numbers and names.

/// "Number 1 is 1.3; 0 and every other number mean 1.3.a and 1.3.b."
#[test]
fn numbers_and_names_of_editions() {
    assert_eq!(Edition::of_number(1), V1_3);
    for number in [
        0,
        2,
        7,
        255,
        257,
        1 << 32,
        (1 << 32) + 1,
        (1 << 63) + 1,
        u64::MAX,
    ] {
        assert_eq!(Edition::of_number(number), V1_3b, "{number}");
    }
    assert_eq!((V1_3.number(), V1_3b.number()), (1, 0));
    assert_eq!((V1_3.other(), V1_3b.other()), (V1_3b, V1_3));
    assert_eq!(Edition::default(), V1_3b);
    assert_eq!(Edition::named("1.3"), Some(V1_3));
    assert_eq!(Edition::named("1.3.a"), Some(V1_3b));
    assert_eq!(Edition::named("1.3.b"), Some(V1_3b));
    for name in [
        "", "1", "1.2", "1.3 ", "1.3.", "1.3.c", "1.3.B", "1.3a", "1.4", "13",
    ] {
        assert_eq!(Edition::named(name), None, "{name:?}");
    }
}

/// The boundary's edition number: written as 1 or 0 by a start, an accepted packet and a fed piece, and left by a
/// refusal.
#[cfg(linked)]
mod numbers_at_the_boundary {
    use super::*;

    const NUMBERS: [u64; 8] = [0, 1, 2, 7, 257, (1 << 32) + 1, (1 << 63) + 1, u64::MAX];

    fn written(number: u64) -> u64 {
        u64::from(number == 1)
    }

    #[test]
    fn of_a_start() {
        for number in NUMBERS {
            let mut receiver = Proved::started(V1_3b, 2, 2);
            receiver.state = [9; 4];
            let Proved {
                orders,
                symbols,
                shelf,
                index,
                state,
            } = &mut receiver;
            assert_eq!(
                lent::start(number, &mut [], symbols, shelf, index, state),
                6
            );
            assert_eq!(*state, [9; 4]);
            assert_eq!(lent::start(number, orders, symbols, shelf, index, state), 0);
            assert_eq!(*state, [1, 0, 0, written(number)]);
        }
    }

    #[test]
    fn of_packets() {
        for number in NUMBERS {
            let mut receiver = Proved::started(V1_3b, 2, 2);
            receiver.state[3] = number;
            let before = receiver.clone();
            for (packet, refusal) in [
                (vec![], Refusal::alone(1)),
                (vec![1], Refusal::at(2, 0)),
                (record(0, &time(1)), Refusal::at(5, 0)),
                (record(1, &[0]), Refusal::at(3, 10)),
            ] {
                assert_eq!(receiver.receive(&packet), Err(refusal));
                assert_eq!(receiver, before);
            }
            // A space is a Security Type in no edition, and refused in 1.3 alone.
            let spaced = receiver.receive(&record(2, &update(b' ')));
            if number == 1 {
                assert_eq!(spaced, Err(Refusal::at(4, 30)));
                assert_eq!(receiver, before);
            } else {
                assert_eq!(spaced.map(|answer| answer.taken), Ok(1));
            }
            receiver.state[3] = number;
            let sheet = receiver.sheet(0, false);
            assert!(sheet.is_ok_and(|text| !text.windows(5).any(|word| word == b"type=")));
            let taken = receiver.receive(&record(1, &update(b'E')));
            assert_eq!(taken.map(|answer| answer.taken), Ok(1));
            assert_eq!(receiver.state[3], written(number));
            receiver.state[3] = number;
            let sheet = receiver.sheet(0, false).expect("sizes in the limits");
            let typed = sheet.windows(5).any(|word| word == b"type=");
            assert_eq!(typed, number == 1);
        }
    }

    #[test]
    fn of_streams() {
        for number in NUMBERS {
            let state = [1, (7 << 32) + 5, (3 << 8) + 24, number];
            let mut stream = [9; 14];
            assert_eq!(lent::open(&state, &mut stream), 0);
            let opened = [1, 5, 24, written(number), 0, 0, 0, 0, 0, 0, 0, 0, 0, 0];
            assert_eq!(stream, opened);
            stream[3] = number;
            let Proved {
                orders,
                symbols,
                shelf,
                index,
                ..
            } = &mut Proved::started(V1_3b, 2, 2);
            let mut hold = [0; LEAST_HOLD];
            // A refused piece leaves the number, and an empty one writes it.
            let short = lent::feed(orders, symbols, shelf, index, &mut [0; 9], &mut stream, &[]);
            assert_eq!((short, stream[3]), (6, number));
            let empty = lent::feed(orders, symbols, shelf, index, &mut hold, &mut stream, &[]);
            assert_eq!((empty, stream[3]), (0, written(number)));
            stream[3] = number;
            let bytes = recording(&[record(1, &update(b' '))]);
            let fed = lent::feed(
                orders,
                symbols,
                shelf,
                index,
                &mut hold,
                &mut stream,
                &bytes,
            );
            assert_eq!((fed, stream[3]), (0, written(number)));
            let bad = u64::from(number == 1);
            assert_eq!((stream[6], stream[7]), (bad, 1 - bad));
            assert!(!lent::cut(&stream));
        }
    }

    #[test]
    fn of_readers() {
        for number in NUMBERS {
            let (body, one) = (update(b' '), record(1, &update(b' ')));
            let refused = |offset: u32| if number == 1 { 4 + 256 * offset } else { 0 };
            let told = lent::body(number, &body, &mut [0; 8], &mut [0; 28]);
            assert_eq!(told, refused(20));
            assert_eq!(lent::record(number, &one, &mut [0; 2]), refused(30));
            assert_eq!(lent::packet(number, &one, &mut [0]), refused(30));
            let (mut fields, mut text) = ([9; 8], [9; 28]);
            let told = lent::body(number, &update(b'F'), &mut fields, &mut text);
            let (typed, reserved) = if number == 1 { (70, 0) } else { (0, 70) };
            assert_eq!((told, fields), (0, [1, 7, 100, 72, typed, 5, 78, 0]));
            assert_eq!(text[..27], *b"ABC        09:30:0016:00:00");
            assert_eq!(text[27], reserved);
        }
    }
}

// Text.

/// A Symbol Update keeps all 42 bytes in each edition, and has a Security Type in 1.3 alone.
#[test]
fn a_symbol_update_by_its_fields() {
    for edition in EDITIONS {
        let Ok(Message::SymbolUpdate(told)) = read_body(edition, &update(b'F')) else {
            panic!("a good Symbol Update");
        };
        assert_eq!(told.body[..], update(b'F'));
        let wanted = (edition == V1_3).then_some(b'F');
        assert_eq!(told.security_type, wanted);
        assert_eq!((told.lot, told.market), (100, b'H'));
    }
}

#[test]
fn the_lines_of_read() {
    let times = "48 57 58 51 48 58 48 48 49 54 58 48 48 58 48 48";
    let ticker = "65 66 67 32 32 32 32 32 32 32 32";
    for byte in [69, 70] {
        let packet = record(1, &update(byte));
        let typed = format!("records 1\n1 1 7 {ticker} {byte} 100 {times} 72\n");
        assert_eq!(lines_of_packet(V1_3, &packet), typed);
        let reserved = format!("records 1\n1 1 7 {ticker} 100 {times} 72\n");
        assert_eq!(lines_of_packet(V1_3b, &packet), reserved);
    }
    let spaced = record(1, &update(b' '));
    let fault = "Symbol Update, security type\n";
    let wanted = format!("refused 4 at 30: record 1, {fault}");
    assert_eq!(lines_of_packet(V1_3, &spaced), wanted);
    let behind = [record(1, &time(1)), spaced.clone()].concat();
    let wanted = format!("refused 4 at 45: record 2, {fault}");
    assert_eq!(lines_of_packet(V1_3, &behind), wanted);
    // Behind a bad Timestamp, before a bad test indicator and a bad market.
    for (at, value, typed, reserved) in [
        (4, 255, (11, "nanoseconds"), (11, "nanoseconds")),
        (21, b'X', (30, "security type"), (31, "test indicator")),
        (41, b'D', (30, "security type"), (51, "market")),
    ] {
        let mut body = update(b' ');
        body[at] = value;
        for (edition, (offset, field)) in [(V1_3, typed), (V1_3b, reserved)] {
            let wanted = format!("refused 4 at {offset}: record 1, Symbol Update, {field}\n");
            assert_eq!(lines_of_packet(edition, &record(1, &body)), wanted);
        }
    }
}

/// The judged fields of 1.3 are those of 1.3.b and the security type, in the order of their places.
#[test]
fn one_more_field_is_judged_in_1_3() {
    let (typed, reserved) = (judged_fields(V1_3), judged_fields(V1_3b));
    assert_eq!((typed.len(), reserved.len()), (24, 23));
    assert_eq!(
        typed[..3],
        [
            (1, 1, "nanoseconds"),
            (1, 20, "security type"),
            (1, 21, "test indicator")
        ]
    );
    let others: Vec<_> = typed
        .into_iter()
        .filter(|(kind, at, _)| (*kind, *at) != (1, 20))
        .collect();
    assert_eq!(others, reserved);
}

/// The lines of `answers` have one form: an entry's 42 bytes, whatever they mean.
#[test]
fn the_lines_of_answers() {
    let bytes = recording(&[record(1, &update(b' ')), record(1, &update(b'E'))]);
    let text = |edition| String::from_utf8(answers_of_recording(edition, &bytes).unwrap()).unwrap();
    let entry = |byte| {
        format!(
            "second 0\nentry 0 1 5 0 0 0 7 0 0 0 65 66 67 32 32 32 32 32 32 32 32 {byte} 78 0 100 0 48 57 58 51 48 58 \
             48 48 49 54 58 48 48 58 48 48 72\nsymbol 7 0 0 none\n"
        )
    };
    let typed = format!("refused 4 at 30\n1 0 0 0 0 2 1 0 0\n{}", entry(69));
    assert_eq!(text(V1_3), typed);
    let reserved = format!("1 0 0 0 0 2 1 0 0\n0 1 0 0 0 2 0 0 0\n{}", entry(32));
    assert_eq!(text(V1_3b), reserved);
}

// Programs.

fn run(program: &str, words: &[&str]) -> Output {
    Command::new(program)
        .args(words)
        .stdin(Stdio::null())
        .output()
        .unwrap()
}

const OVER_RECORDINGS: [&str; 2] = [env!("CARGO_BIN_EXE_sheet2"), env!("CARGO_BIN_EXE_answers")];

/// The edition before and behind the name of a recording; without one it is 1.3.b.
#[test]
fn programs_take_an_edition() {
    let path = example_path("morning.rec");
    let path = path.to_str().unwrap();
    let bytes = std::fs::read(path).unwrap();
    for (program, made) in OVER_RECORDINGS.into_iter().zip([
        sheet_of_recording as fn(Edition, &[u8]) -> Result<Vec<u8>, u8>,
        answers_of_recording,
    ]) {
        let (typed, reserved) = (made(V1_3, &bytes).unwrap(), made(V1_3b, &bytes).unwrap());
        // The example's byte 20 is 0: its only packet is bad under 1.3.
        assert_ne!(typed, reserved);
        for (words, wanted) in [
            (&[path][..], &reserved),
            (&["--edition", "1.3", path], &typed),
            (&[path, "--edition", "1.3"], &typed),
            (&["--edition", "1.3.a", path], &reserved),
            (&[path, "--edition", "1.3.a"], &reserved),
            (&["--edition", "1.3.b", path], &reserved),
            (&[path, "--edition", "1.3.b"], &reserved),
        ] {
            let output = run(program, words);
            assert!(output.status.success(), "{words:?}");
            assert!(output.stdout == *wanted, "{words:?}");
            assert!(output.stderr.is_empty(), "{words:?}");
        }
        // From standard input too.
        let piped = Command::new(program)
            .args(["--edition", "1.3"])
            .stdin(std::fs::File::open(path).unwrap())
            .output()
            .unwrap();
        assert!(piped.status.success() && piped.stdout == typed);
    }
}

/// "an unknown edition is a message on standard error and status 2"
#[test]
fn programs_refuse_an_unknown_edition() {
    let path = example_path("morning.rec");
    let path = path.to_str().unwrap();
    let seeded = env!("CARGO_BIN_EXE_seeded");
    for (program, other) in OVER_RECORDINGS
        .into_iter()
        .zip([path; 2])
        .chain([(seeded, "17")])
    {
        for words in [
            &["--edition", "1.2", other][..],
            &[other, "--edition", "1.3.c"],
            &[other, "--edition", ""],
            &[other, "--edition"],
            &["--edition", other],
            &["--edition", "1.3", "--edition", "1.3.b", other],
            &["--edition", "1.3", "--edition", "1.3", other],
        ] {
            let output = run(program, words);
            assert_eq!(output.status.code(), Some(2), "{words:?}");
            assert!(output.stdout.is_empty(), "{words:?}");
            assert!(!output.stderr.is_empty(), "{words:?}");
        }
        // Other errors have status 1, as before.
        for words in [
            &["no.rec"][..],
            &[other, other],
            &["--edition", "1.3", "no.rec"],
        ] {
            let output = run(program, words);
            assert_eq!(output.status.code(), Some(1), "{words:?}");
            assert!(output.stdout.is_empty() && !output.stderr.is_empty());
        }
    }
}

#[test]
fn seeded_takes_an_edition() {
    let seeded = env!("CARGO_BIN_EXE_seeded");
    let typed = drawn_recording(V1_3, 17);
    let reserved = drawn_recording(V1_3b, 17);
    assert_ne!(typed, reserved);
    for (words, wanted) in [
        (&["17"][..], &reserved),
        (&["--edition", "1.3.b", "17"], &reserved),
        (&["17", "--edition", "1.3.a"], &reserved),
        (&["--edition", "1.3", "17"], &typed),
        (&["17", "--edition", "1.3"], &typed),
    ] {
        let output = run(seeded, words);
        assert!(
            output.status.success() && output.stdout == *wanted,
            "{words:?}"
        );
    }
}

// What the generators make.

/// The seeds that the gate names, in the default edition: what they stop by must not change.
#[test]
fn the_named_seeds_stop_as_they_did() {
    for (seed, stop) in [(1706, 20), (3190, 21), (2134, 23), (1013, 0), (2591, 22)] {
        let text = sheet_of_recording(V1_3b, &drawn_recording(V1_3b, seed)).unwrap();
        let line = format!("\nstop={stop}\n");
        assert!(
            String::from_utf8(text).unwrap().contains(&line),
            "seed {seed}"
        );
    }
}

/// Lists of 1.3 are well formed in each edition, with both letters; lists of 1.3.b have letters and other bytes, and
/// are then none of demand 3's in 1.3.
#[test]
fn lists_are_written_in_an_edition() {
    let (mut letters, mut untyped) = ([0; 2], 0);
    for seed in seeds(300) {
        let settings = ListSettings::drawn(&mut Dice::new(seed));
        let typed = list(seed, settings.of(V1_3));
        assert!(
            well_formed(V1_3, &typed) && well_formed(V1_3b, &typed),
            "seed {seed}"
        );
        let reserved = list(seed, settings.of(V1_3b));
        assert!(well_formed(V1_3b, &reserved), "seed {seed}");
        // Message by message the same but for byte 20.
        assert_eq!(typed.len(), reserved.len(), "seed {seed}");
        for (one, other) in typed.iter().zip(&reserved) {
            let mut one = one.clone();
            if one[0] == 1 {
                letters[usize::from(one[20] == b'F')] += 1;
                one[20] = other[20];
            }
            assert_eq!(one, *other, "seed {seed}");
        }
        let bytes_20 = reserved.iter().filter(|body| body[0] == 1);
        let bare = bytes_20.clone().any(|body| !b"EF".contains(&body[20]));
        assert_eq!(well_formed(V1_3, &reserved), !bare, "seed {seed}");
        untyped += u64::from(bare);
    }
    if all_seeds() {
        assert!(letters.iter().all(|count| *count > 300), "{letters:?}");
        assert!(untyped > 100, "{untyped}");
    }
}

/// Bodies that are bad in an edition: in 1.3 also by byte 20, alone and as the first of several; in 1.3.b never.
#[test]
fn bodies_are_made_bad_by_byte_20() {
    let mut told = BTreeMap::new();
    for edition in EDITIONS {
        for seed in seeds(20_000) {
            let (body, refusal) = told_body(edition, seed, 4);
            assert_eq!(read_body(edition, &body), Err(refusal), "seed {seed}");
            if body[0] == 1 {
                let at = refusal.offset.unwrap();
                *told.entry((edition == V1_3, at)).or_insert(0) += 1;
            }
        }
    }
    if all_seeds() {
        assert!(told.values().all(|count| *count > 100), "{told:?}");
        let places: Vec<_> = told.into_keys().collect();
        let reserved = [(false, 1), (false, 21), (false, 41)];
        let typed = [(true, 1), (true, 20), (true, 21), (true, 41)];
        assert_eq!(places, [&reserved[..], &typed].concat());
    }
}

/// Copies that differ from a Symbol Update are good in its edition; in 1.3 some differ in the Security Type alone.
#[test]
fn differing_copies_keep_to_the_edition() {
    let mut by_type = [0; 2];
    for (place, edition) in EDITIONS.into_iter().enumerate() {
        for seed in seeds(400) {
            let copy = differing_copy(edition, seed, &update(b'E'));
            assert!(read_body(edition, &copy).is_ok(), "seed {seed}");
            assert_ne!(copy, update(b'E'), "seed {seed}");
            by_type[place] += u64::from(copy == update(b'F'));
        }
    }
    if all_seeds() {
        assert!(by_type[0] > 20, "{by_type:?}");
        assert_eq!(by_type[1], 0);
    }
}

/// What `compare` counts of byte 20: alone, behind a bad Timestamp, before a bad test indicator and a bad market.
#[test]
fn faults_of_byte_20_are_counted() {
    let with = |changes: &[(usize, u8)]| {
        let mut body = update(b' ');
        for (at, value) in changes {
            body[*at] = *value;
        }
        record(1, &body)
    };
    let behind = "Symbol Update, bad security type, not the first";
    for (packet, wanted) in [
        (with(&[]), vec!["Symbol Update, bad security type alone"]),
        (with(&[(4, 255)]), vec![behind]),
        (
            with(&[(21, b'X')]),
            vec![
                "Symbol Update, bad test indicator, not the first",
                "bad security type before a bad test indicator",
            ],
        ),
        (
            with(&[(41, b'D')]),
            vec![
                "Symbol Update, bad market, not the first",
                "bad security type before a bad market",
            ],
        ),
    ] {
        let mut faults = Faults::default();
        faults.note(V1_3, &packet, read_packet(V1_3, &packet).unwrap_err());
        let counted = |faults: &Faults| -> Vec<String> {
            let seen = faults.seen().into_iter();
            seen.filter(|(_, count)| *count > 0)
                .map(|(what, _)| what)
                .collect()
        };
        assert_eq!(counted(&faults), wanted);
        // A run's sums add them.
        let mut sum = faults.clone();
        sum.add(&faults);
        assert!(sum
            .seen()
            .iter()
            .all(|(_, count)| *count == 0 || *count == 2));
        assert_eq!(counted(&sum), wanted);
    }
}
