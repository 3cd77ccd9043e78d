//! Writing recordings (request 4, docs/WRITE.md). The bytes are written out by the offsets of documents 01 and 003, and
//! what must come of each call is stated by hand. Tried of the second program, and of the proved library where it is
//! linked. Run one seed again with SECOND_SEED=number.

#[macro_use]
mod common;
use common::written::{record, recording};
use common::{all_seeds, example_file, example_recordings, seeds, vectors};
use common::{Desk, Edition, V1_3b, EDITIONS, V1_3};
use second::morning::*;
use second::packet::{read_packet, Refusal, TYPES_AND_LENGTHS};
#[cfg(linked)]
use second::proved::{self, lent, Proved};
use second::seen::{Appended, Writings};
use second::sheet::packets_of;
use second::write::{self, Fields};

/// What these tests do with either program.
trait Writer {
    fn append(
        edition: Edition,
        memory: &mut [u8],
        used: usize,
        number: u64,
        fields: &Fields,
    ) -> Result<usize, Refusal>;
    fn append_packet(
        edition: Edition,
        memory: &mut [u8],
        used: usize,
        packet: &[u8],
    ) -> Result<usize, Refusal>;
    /// A body's numbers and text.
    fn read(edition: Edition, body: &[u8]) -> Result<Fields, Refusal>;
    /// How many records a packet has.
    fn records(edition: Edition, packet: &[u8]) -> Result<u64, Refusal>;
}

impl Writer for Desk {
    fn append(
        edition: Edition,
        memory: &mut [u8],
        used: usize,
        number: u64,
        fields: &Fields,
    ) -> Result<usize, Refusal> {
        write::append(edition, memory, used, number, fields)
    }

    fn append_packet(
        edition: Edition,
        memory: &mut [u8],
        used: usize,
        packet: &[u8],
    ) -> Result<usize, Refusal> {
        write::append_packet(edition, memory, used, packet)
    }

    fn read(edition: Edition, body: &[u8]) -> Result<Fields, Refusal> {
        Fields::read(edition, body)
    }

    fn records(edition: Edition, packet: &[u8]) -> Result<u64, Refusal> {
        read_packet(edition, packet).map(|records| records.len() as u64)
    }
}

#[cfg(linked)]
impl Writer for Proved {
    fn append(
        edition: Edition,
        memory: &mut [u8],
        used: usize,
        number: u64,
        fields: &Fields,
    ) -> Result<usize, Refusal> {
        proved::append(edition, memory, used, number, fields)
    }

    fn append_packet(
        edition: Edition,
        memory: &mut [u8],
        used: usize,
        packet: &[u8],
    ) -> Result<usize, Refusal> {
        proved::append_packet(edition, memory, used, packet)
    }

    fn read(edition: Edition, body: &[u8]) -> Result<Fields, Refusal> {
        proved::body(edition, body)
    }

    fn records(edition: Edition, packet: &[u8]) -> Result<u64, Refusal> {
        proved::packet(edition, packet)
    }
}

of_both! {
    each_message_byte_for_byte
    the_example_is_morning_rec
    numbers_at_both_ends
    each_judged_number_at_its_ends_and_beyond
    each_number_too_large_for_its_bytes
    what_a_message_does_not_have_may_be_anything
    byte_20_from_its_place_in_each_edition
    undefined_bits_and_reserved_bytes_are_written_as_given
    first_numbers_that_are_no_type
    each_refusal_of_a_record
    each_refusal_of_a_packet_so_far
    a_packet_so_far_of_the_other_edition
    the_first_that_applies_is_told
    memory_around_what_is_needed
    packets_of_1500_and_1501_bytes
    an_empty_packet_so_far_is_not_read
    each_refusal_of_a_packet
    a_recording_so_far_is_not_looked_at
    memory_around_a_packet
    the_vectors_read_then_written
    the_examples_read_then_written
    seeded_recordings_read_then_written
    seeded_messages_written_then_read
    seeded_calls_come_to_what_they_are_made_for
}

// Bytes.

/// What stands in memory that no call has written.
const MARK: u8 = 0xA5;

/// Bytes by their digits, with spaces anywhere.
fn hex(digits: &str) -> Vec<u8> {
    let digits: Vec<char> = digits.chars().filter(|digit| *digit != ' ').collect();
    let byte = |two: &[char]| u8::from_str_radix(&two.iter().collect::<String>(), 16).unwrap();
    digits.chunks(2).map(byte).collect()
}

/// A message by its numbers and its text, with zeros behind both.
fn fields(numbers: &[u64], text: &[u8]) -> Fields {
    let mut fields = Fields::default();
    fields.numbers[..numbers.len()].copy_from_slice(numbers);
    fields.text[..text.len()].copy_from_slice(text);
    fields
}

const NANOSECONDS: u64 = 0x0d0c_0b0a;
const SYMBOL: u64 = 0x1413_1211;
const ORDER: u64 = 0x2827_2625_2423_2221;
const TRADE: u64 = 0x3837_3635_3433_3231;
const PRICE: u64 = 0x0001_4645_4443_4241;
const SIZE: u64 = 0x5453_5251;

/// A Symbol Update's numbers: symbol, lot, market Z, its place of a Security Type, nanoseconds, test Y, byte 22.
const UPDATE: [u64; 8] = [1, SYMBOL, 0x8281, 0x5a, 0x46, NANOSECONDS, 0x59, 0x92];
/// Ticker, opening and closing time, and byte 20 where it is reserved.
const UPDATE_TEXT: &[u8; 28] = b"ABCDEFGHIJK09:30:0116:00:02\x91";

/// Each message with another byte at each of its places: its numbers, its text, and its body by the offsets of 003, in
/// 1.3.b.
fn eleven() -> [(Fields, Vec<u8>); 11] {
    let bodies = [
        // seconds 1-4
        (fields(&[49, 0xf4f3_f2f1], b""), "31 f1f2f3f4"),
        // nanoseconds 1-4, symbol 5-8, ticker 9-19, reserved 20, test 21, reserved 22, lot 23-24, opening 25-32,
        // closing 33-40, market 41
        (
            fields(&update_without_type(), UPDATE_TEXT),
            "01 0a0b0c0d 11121314 4142434445464748494a4b 91 59 92 8182 30393a33303a3031 31363a30303a3032 5a",
        ),
        // nanoseconds 1-4, version 5-12, session 13, status 14
        (
            fields(&[83, NANOSECONDS, 0x71, 0x72], b"DoM1.3.b"),
            "53 0a0b0c0d 446f4d312e332e62 71 72",
        ),
        // nanoseconds 1-4, symbol 5-8, trading status 9, market state 10, short sale restriction 11
        (
            fields(&[4, NANOSECONDS, SYMBOL, 0x71, 0x72, 0x73], b""),
            "04 0a0b0c0d 11121314 71 72 73",
        ),
        // nanoseconds 1-4, symbol 5-8
        (fields(&[5, NANOSECONDS, SYMBOL], b""), "05 0a0b0c0d 11121314"),
        // nanoseconds 1-4, symbol 5-8, order 9-16, side 17, price 18-25, size 26-29, attributable ID 30-33
        (
            fields(&[20, NANOSECONDS, SYMBOL, ORDER, 0x53, PRICE, SIZE, 0x4d52_4946], b""),
            "14 0a0b0c0d 11121314 2122232425262728 53 4142434445460100 51525354 4649524d",
        ),
        // nanoseconds 1-4, symbol 5-8, order 9-16, price 17-24, size 25-28, flags 29
        (
            fields(&[21, NANOSECONDS, SYMBOL, ORDER, PRICE, SIZE, 0xfe], b""),
            "15 0a0b0c0d 11121314 2122232425262728 4142434445460100 51525354 fe",
        ),
        // nanoseconds 1-4, symbol 5-8, order 9-16
        (
            fields(&[23, NANOSECONDS, SYMBOL, ORDER], b""),
            "17 0a0b0c0d 11121314 2122232425262728",
        ),
        // nanoseconds 1-4, symbol 5-8, order 9-16, trade 17-24, price 25-32, size 33-36, flags 37
        (
            fields(&[24, NANOSECONDS, SYMBOL, ORDER, TRADE, PRICE, SIZE, 0xfd], b""),
            "18 0a0b0c0d 11121314 2122232425262728 3132333435363738 4142434445460100 51525354 fd",
        ),
        // nanoseconds 1-4, symbol 5-8, trade 9-16, correction 17, price 18-25, size 26-29, flags 30
        (
            fields(&[10, NANOSECONDS, SYMBOL, TRADE, 0x61, PRICE, SIZE, 0xfc], b""),
            "0a 0a0b0c0d 11121314 3132333435363738 61 4142434445460100 51525354 fc",
        ),
        // nanoseconds 1-4, symbol 5-8, trade 9-16, correction 17, price 18-25, size 26-29
        (
            fields(&[11, NANOSECONDS, SYMBOL, TRADE, 0x61, PRICE, SIZE], b""),
            "0b 0a0b0c0d 11121314 3132333435363738 61 4142434445460100 51525354",
        ),
    ];
    bodies.map(|(fields, body)| (fields, hex(body)))
}

fn update_without_type() -> [u64; 8] {
    let mut numbers = UPDATE;
    numbers[4] = 0;
    numbers
}

/// The Symbol Update of 1.3: its Security Type, `F`, among the numbers, and none of the text's last byte.
fn typed_update() -> (Fields, Vec<u8>) {
    let body = "01 0a0b0c0d 11121314 4142434445464748494a4b 46 59 92 8182 30393a33303a3031 31363a30303a3032 5a";
    (fields(&UPDATE, &UPDATE_TEXT[..27]), hex(body))
}

/// Each message as an edition has it.
fn eleven_in(edition: Edition) -> [(Fields, Vec<u8>); 11] {
    let mut all = eleven();
    if edition == V1_3 {
        all[1] = typed_update();
    }
    all
}

/// The fields of the message of a type.
fn of_type(edition: Edition, kind: u64) -> Fields {
    let mut all = eleven_in(edition).into_iter();
    all.find(|(fields, _)| fields.numbers[0] == kind).unwrap().0
}

/// A System Time by its fields; its record has 15 bytes.
fn time(seconds: u64) -> Fields {
    fields(&[49, seconds], b"")
}

/// The record of `time(0x77)` with this number, below 256.
fn time_record(number: u8) -> Vec<u8> {
    vec![number, 0, 0, 0, 0, 0, 0, 0, 5, 0, 49, 0x77, 0, 0, 0]
}

/// Memory of so many bytes that begins with these.
fn memory(begun: &[u8], length: usize) -> Vec<u8> {
    let mut memory = begun[..begun.len().min(length)].to_vec();
    memory.resize(length, MARK);
    memory
}

/// A record that must be put behind a packet so far, and nothing else.
fn appends<W: Writer>(
    edition: Edition,
    so_far: &[u8],
    length: usize,
    number: u64,
    fields: &Fields,
    body: &[u8],
) {
    let mut lent = memory(so_far, length);
    let packet = [so_far, &record(number, body)].concat();
    let answer = W::append(edition, &mut lent, so_far.len(), number, fields);
    assert_eq!(answer, Ok(packet.len()), "{fields:?}");
    assert_eq!(lent, memory(&packet, length), "{fields:?}");
}

/// A record that must be refused so, with nothing written: in this memory, of which so many bytes are used.
fn refuses<W: Writer>(
    edition: Edition,
    lent: &[u8],
    used: usize,
    number: u64,
    fields: &Fields,
    refusal: Refusal,
) {
    let mut after = lent.to_vec();
    let answer = W::append(edition, &mut after, used, number, fields);
    assert_eq!(answer, Err(refusal), "{number}, {fields:?}");
    assert_eq!(after, lent, "{refusal}: {number}, {fields:?}");
}

/// The same of one for its fields alone, behind nothing.
fn refuses_fields<W: Writer>(edition: Edition, fields: &Fields, number: u8) {
    refuses::<W>(edition, &[MARK; 99], 0, 1, fields, Refusal::alone(number));
}

/// One that must be accepted, behind nothing, and read as these fields.
fn reads_back<W: Writer>(edition: Edition, given: &Fields, wanted: &Fields) -> Vec<u8> {
    let mut lent = [MARK; 99];
    let end = W::append(edition, &mut lent, 0, 1, given).expect("a good message");
    assert_eq!(W::records(edition, &lent[..end]), Ok(1), "{given:?}");
    let body = lent[10..end].to_vec();
    assert_eq!(W::read(edition, &body), Ok(*wanted), "{given:?}");
    body
}

// Messages.

/// "its type byte, then every field in its own width, numbers little-endian": all of them at the offsets of documents 01
/// and 003, behind a number and a length, in memory with bytes behind them that stay.
fn each_message_byte_for_byte<W: Writer>() {
    // number 1-2-3-4-5, below 10^12
    let number = 0x05_0403_0201;
    for edition in EDITIONS {
        for (given, body) in eleven_in(edition) {
            let kind = given.numbers[0];
            let length = TYPES_AND_LENGTHS
                .iter()
                .find(|one| u64::from(one.0) == kind);
            assert_eq!(body.len(), length.unwrap().1, "{kind}");
            let mut lent = [MARK; 99];
            let answer = W::append(edition, &mut lent, 0, number, &given);
            let mut wanted = hex("01 02 03 04 05 00 00 00");
            wanted.extend([body.len() as u8, 0]);
            wanted.extend(&body);
            assert_eq!(answer, Ok(wanted.len()), "{kind}");
            wanted.resize(99, MARK);
            assert_eq!(lent[..], wanted, "{kind}");
            // "what was written is read as the fields that were given"
            assert_eq!(W::read(edition, &body), Ok(given), "{kind}");
            // Behind another record, whose bytes stay.
            appends::<W>(edition, &time_record(7), 150, number, &given, &body);
        }
    }
}

/// Document 01's example: "second 34200; symbol 7, ABC, lot 100; buy 500 at 10.000000 for 100; sell 501 at 10.020000 for
/// 200; buy 502 at 10.000000 for 50", in one packet, with what docs/MESSAGES.md says of its other fields.
fn example(byte_20: u64) -> [Fields; 5] {
    let no_firm = 0x2020_2020;
    let (b, s) = (66, 83);
    let mut update = fields(
        &[1, 7, 100, 72, 0, 0, 78, 0],
        b"ABC        09:30:0016:00:00",
    );
    update.numbers[4] = byte_20;
    [
        fields(&[49, 34_200], b""),
        update,
        fields(&[20, 0, 7, 500, b, 10_000_000, 100, no_firm], b""),
        fields(&[20, 0, 7, 501, s, 10_020_000, 200, no_firm], b""),
        fields(&[20, 0, 7, 502, b, 10_000_000, 50, no_firm], b""),
    ]
}

fn the_example_is_morning_rec<W: Writer>() {
    for (edition, byte_20, name) in [
        (V1_3b, 0, "morning.rec"),
        (V1_3, 69, "morning-1.3.rec"),
        (V1_3, 70, "morning-7-F.rec"),
    ] {
        let bytes = example_file(name);
        let mut lent = [MARK; 300];
        let mut used = 0;
        for (place, message) in example(byte_20).iter().enumerate() {
            let number = place as u64 + 1;
            used = W::append(edition, &mut lent, used, number, message).expect("a good message");
        }
        assert_eq!(lent[..used], bytes[2..], "{name}");
        assert_eq!(lent[used..], vec![MARK; 300 - used], "{name}");
        let mut recorded = vec![MARK; bytes.len() + 3];
        let answer = W::append_packet(edition, &mut recorded, 0, &lent[..used]);
        assert_eq!(answer, Ok(bytes.len()), "{name}");
        assert_eq!(recorded, memory(&bytes, bytes.len() + 3), "{name}");
    }
    // P1: price 10.000000 is 80 96 98 00 00 00 00 00, behind 18 bytes of the third record's body.
    let packet = &example_file("morning.rec")[2..];
    assert_eq!(
        packet[15 + 52 + 10 + 18..][..8],
        hex("80 96 98 00 00 00 00 00")
    );
}

/// 1 and 10^12 are the first and the last; 0 and what is above are 5.
fn numbers_at_both_ends<W: Writer>() {
    let (second, body) = (time(0x77), time_record(1)[10..].to_vec());
    for edition in EDITIONS {
        for number in [1, 2, 255, 256, 999_999_999_999, 1_000_000_000_000] {
            appends::<W>(edition, &[], 15, number, &second, &body);
            appends::<W>(edition, &time_record(9), 31, number, &second, &body);
        }
        for number in [0, 1_000_000_000_001, 1 << 40, 1 << 63, u64::MAX] {
            let refusal = Refusal::alone(5);
            refuses::<W>(edition, &[MARK; 99], 0, number, &second, refusal);
            let lent = memory(&time_record(9), 99);
            refuses::<W>(edition, &lent, 15, number, &second, refusal);
        }
    }
}

/// The judged numbers by type and place: good ones at the ends of their ranges, and bad ones one beyond, that their bytes
/// hold.
const PRICES: (&[u64], &[u64]) = (
    &[1, 2, 999_999_999_999_999, 1_000_000_000_000_000],
    &[0, 1_000_000_000_000_001, 1 << 50, 1 << 63, u64::MAX],
);
const SIZES: (&[u64], &[u64]) = (&[1, 2, 65_536, 4_294_967_294, 4_294_967_295], &[0]);
const NANOS: (&[u64], &[u64]) = (
    &[0, 1, 999_999_998, 999_999_999],
    &[1_000_000_000, 1 << 30, 1 << 31, 4_294_967_295],
);

fn judged() -> Vec<(u64, usize, Vec<u64>, Vec<u64>)> {
    let letters = |all: &[u8]| {
        let (mut good, mut bad) = (vec![], vec![]);
        for byte in 0..=255 {
            match all.contains(&byte) {
                true => good.push(byte.into()),
                false => bad.push(byte.into()),
            }
        }
        (good, bad)
    };
    let mut judged = Vec::new();
    for (kind, place, (good, bad)) in [
        (1, 5, NANOS),
        (83, 1, NANOS),
        (4, 1, NANOS),
        (5, 1, NANOS),
        (20, 1, NANOS),
        (20, 5, PRICES),
        (20, 6, SIZES),
        (21, 1, NANOS),
        (21, 4, PRICES),
        (21, 5, SIZES),
        (23, 1, NANOS),
        (24, 1, NANOS),
        (24, 5, PRICES),
        (24, 6, SIZES),
        (10, 1, NANOS),
        (10, 5, PRICES),
        (10, 6, SIZES),
        (11, 1, NANOS),
        (11, 5, PRICES),
        (11, 6, SIZES),
    ] {
        judged.push((kind, place, good.to_vec(), bad.to_vec()));
    }
    for (kind, place, all) in [
        (1, 3, &b"ABCHIJKLMNPQUVWXYZ"[..]),
        (1, 6, b"YN"),
        (20, 4, b"BS"),
    ] {
        let (good, bad) = letters(all);
        judged.push((kind, place, good, bad));
    }
    judged
}

/// Each as the only fault of its message: 4. In 1.3 the Security Type too, which `byte_20_from_its_place_in_each_edition`
/// has.
fn each_judged_number_at_its_ends_and_beyond<W: Writer>() {
    for edition in EDITIONS {
        for (kind, place, good, bad) in judged() {
            for number in good {
                let mut given = of_type(edition, kind);
                given.numbers[place] = number;
                reads_back::<W>(edition, &given, &given);
            }
            for number in bad {
                let mut given = of_type(edition, kind);
                given.numbers[place] = number;
                refuses_fields::<W>(edition, &given, 4);
            }
        }
        // Nothing else is judged: 0 and the most that the bytes hold are good everywhere else.
        for (kind, place, bytes) in WIDTHS {
            let judged = judged().iter().any(|one| (one.0, one.1) == (kind, place));
            if judged || (kind, place) == (1, 4) {
                continue;
            }
            for number in [0, 1, u64::MAX >> (64 - 8 * bytes)] {
                let mut given = of_type(edition, kind);
                given.numbers[place] = number;
                reads_back::<W>(edition, &given, &given);
            }
        }
    }
}

/// All numbers by type and place, with the bytes of their fields. The Security Type is one in 1.3 alone.
const WIDTHS: [(u64, usize, usize); 54] = [
    (49, 1, 4),
    (1, 1, 4),
    (1, 2, 2),
    (1, 3, 1),
    (1, 4, 1),
    (1, 5, 4),
    (1, 6, 1),
    (1, 7, 1),
    (83, 1, 4),
    (83, 2, 1),
    (83, 3, 1),
    (4, 1, 4),
    (4, 2, 4),
    (4, 3, 1),
    (4, 4, 1),
    (4, 5, 1),
    (5, 1, 4),
    (5, 2, 4),
    (20, 1, 4),
    (20, 2, 4),
    (20, 3, 8),
    (20, 4, 1),
    (20, 5, 8),
    (20, 6, 4),
    (20, 7, 4),
    (21, 1, 4),
    (21, 2, 4),
    (21, 3, 8),
    (21, 4, 8),
    (21, 5, 4),
    (21, 6, 1),
    (23, 1, 4),
    (23, 2, 4),
    (23, 3, 8),
    (24, 1, 4),
    (24, 2, 4),
    (24, 3, 8),
    (24, 4, 8),
    (24, 5, 8),
    (24, 6, 4),
    (24, 7, 1),
    (10, 1, 4),
    (10, 2, 4),
    (10, 3, 8),
    (10, 4, 1),
    (10, 5, 8),
    (10, 6, 4),
    (10, 7, 1),
    (11, 1, 4),
    (11, 2, 4),
    (11, 3, 8),
    (11, 4, 1),
    (11, 5, 8),
    (11, 6, 4),
];

/// "A number that its field cannot hold (a side of 300, a lot of 65,536) is refused with 4", though its low bytes are
/// good.
fn each_number_too_large_for_its_bytes<W: Writer>() {
    let mut side = of_type(V1_3b, 20);
    side.numbers[4] = 300;
    refuses_fields::<W>(V1_3b, &side, 4);
    let mut lot = of_type(V1_3b, 1);
    lot.numbers[2] = 65_536;
    refuses_fields::<W>(V1_3b, &lot, 4);
    let mut tried = 0;
    for (kind, place, bytes) in WIDTHS {
        if bytes == 8 {
            continue;
        }
        for edition in EDITIONS {
            if (kind, place, edition) == (1, 4, V1_3b) {
                continue;
            }
            for above in 8 * bytes..64 {
                let mut given = of_type(edition, kind);
                given.numbers[place] |= 1 << above;
                refuses_fields::<W>(edition, &given, 4);
            }
            tried += 1;
        }
    }
    assert_eq!(tried, 2 * 42 - 1);
}

/// "a number or byte behind them, or at the place of byte 20 that its edition does not use, may be anything."
fn what_a_message_does_not_have_may_be_anything<W: Writer>() {
    // By type: how many numbers, its type among them, and bytes of text a message has.
    let has = [
        (49, 2, 0),
        (1, 8, 27),
        (83, 4, 8),
        (4, 6, 0),
        (5, 3, 0),
        (20, 8, 0),
        (21, 7, 0),
        (23, 4, 0),
        (24, 8, 0),
        (10, 8, 0),
        (11, 7, 0),
    ];
    for edition in EDITIONS {
        for (kind, numbers, text) in has {
            let wanted = of_type(edition, kind);
            let all = eleven_in(edition);
            let body = &all.iter().find(|(fields, _)| *fields == wanted).unwrap().1;
            for other in [1, 255, 256, 1 << 32, u64::MAX] {
                let mut given = wanted;
                given.numbers[numbers..].fill(other);
                match (kind, edition) {
                    (1, V1_3) => given.text[27] = other as u8,
                    (1, V1_3b) => given.numbers[4] = other,
                    _ => given.text[text..].fill(other as u8),
                }
                assert_eq!(reads_back::<W>(edition, &given, &wanted), *body, "{kind}");
            }
        }
    }
}

/// In 1.3 it is the Security Type among the numbers, `E` or `F`, and else 4; from 1.3.a on the last byte of the text, any.
fn byte_20_from_its_place_in_each_edition<W: Writer>() {
    for byte in 0..=255 {
        let mut given = fields(&UPDATE, UPDATE_TEXT);
        given.text[27] = byte;
        given.numbers[4] = 0x46;
        let body = reads_back::<W>(V1_3, &given, &typed_update().0);
        assert_eq!(body, typed_update().1, "{byte}");
        let mut wanted = given;
        wanted.numbers[4] = 0;
        let body = reads_back::<W>(V1_3b, &given, &wanted);
        assert_eq!((body[19], body[20], body[21]), (0x4b, byte, 0x59));
        given.numbers[4] = byte.into();
        match byte {
            69 | 70 => {
                let mut wanted = given;
                wanted.text[27] = 0;
                assert_eq!(reads_back::<W>(V1_3, &given, &wanted)[20], byte);
            }
            _ => refuses_fields::<W>(V1_3, &given, 4),
        }
        assert_eq!(reads_back::<W>(V1_3b, &given, &wanted)[20], byte);
    }
    // Above its byte it is 4 in 1.3, and nothing at all from 1.3.a on.
    let mut given = fields(&UPDATE, UPDATE_TEXT);
    given.numbers[4] = 256 + 0x46;
    refuses_fields::<W>(V1_3, &given, 4);
    let wanted = fields(&update_without_type(), UPDATE_TEXT);
    reads_back::<W>(V1_3b, &given, &wanted);
}

/// "reserved bytes and undefined flag bits included": all 256 values of each byte that nothing judges.
fn undefined_bits_and_reserved_bytes_are_written_as_given<W: Writer>() {
    for edition in EDITIONS {
        for (kind, place, at) in [
            (1, 7, 22),
            (83, 2, 13),
            (83, 3, 14),
            (4, 3, 9),
            (4, 4, 10),
            (4, 5, 11),
            (21, 6, 29),
            (24, 7, 37),
            (10, 4, 17),
            (10, 7, 30),
            (11, 4, 17),
        ] {
            for byte in 0..=255 {
                let mut given = of_type(edition, kind);
                given.numbers[place] = byte;
                let body = reads_back::<W>(edition, &given, &given);
                assert_eq!(u64::from(body[at]), byte, "{kind}, {place}");
            }
        }
        // Text: the ticker at 9, the times at 25 and 33, a version at 5.
        for (kind, from, at, bytes) in
            [(1, 0, 9, 11), (1, 11, 25, 8), (1, 19, 33, 8), (83, 0, 5, 8)]
        {
            for place in 0..bytes {
                for byte in [0, 1, 127, 128, 255] {
                    let mut given = of_type(edition, kind);
                    given.text[from + place] = byte;
                    let body = reads_back::<W>(edition, &given, &given);
                    assert_eq!(body[at + place], byte, "{kind}, {place}");
                }
            }
        }
    }
}

/// "a first number that is no message's type with 3", also one whose low byte is a type.
fn first_numbers_that_are_no_type<W: Writer>() {
    let known = TYPES_AND_LENGTHS.map(|(kind, _)| u64::from(kind));
    for edition in EDITIONS {
        let mut no_types = vec![u64::MAX, 1 << 32, 1 << 63, 256, 65_535];
        no_types.extend((0..=255).filter(|kind| !known.contains(kind)));
        assert_eq!(no_types.len(), 5 + 245);
        for kind in known {
            no_types.extend((8..64).map(|bit| kind + (1 << bit)));
        }
        for kind in no_types {
            let mut given = of_type(edition, 20);
            given.numbers[0] = kind;
            refuses_fields::<W>(edition, &given, 3);
            // Whatever stands in the fields.
            given.numbers[1..].fill(u64::MAX);
            refuses_fields::<W>(edition, &given, 3);
        }
    }
}

// A record behind a packet so far.

/// A packet of so many System Times, numbered from 1.
fn times(count: u8) -> Vec<u8> {
    (1..=count).flat_map(time_record).collect()
}

/// A packet of 1,500 bytes.
fn longest() -> Vec<u8> {
    times(100)
}

/// The writer's own rows of the table in docs/WRITE.md, each alone, behind nothing, behind a record and behind several.
fn each_refusal_of_a_record<W: Writer>() {
    let good = time(0x77);
    let (mut typeless, mut bad) = (good, of_type(V1_3b, 20));
    typeless.numbers[0] = 22;
    bad.numbers[4] = 88;
    for edition in EDITIONS {
        for so_far in [times(0), times(1), times(9)] {
            let used = so_far.len();
            let lent = memory(&so_far, used + 99);
            let alone = Refusal::alone;
            refuses::<W>(edition, &lent, used, 0, &good, alone(5));
            refuses::<W>(edition, &lent, used, 1, &typeless, alone(3));
            refuses::<W>(edition, &lent, used, 1, &bad, alone(4));
            for short in 0..15 {
                let lent = memory(&so_far, used + short);
                refuses::<W>(edition, &lent, used, 1, &good, alone(32));
            }
            // "the packet so far is longer than the memory"
            for beyond in [used + 1, used + 2, used + 1_500, 1 << 40, usize::MAX] {
                refuses::<W>(edition, &so_far, beyond, 1, &good, alone(32));
            }
        }
        let lent = memory(&longest(), 3_000);
        refuses::<W>(edition, &lent, 1_500, 1, &good, Refusal::alone(1));
    }
}

/// "first refused as reading refuses it", with the offset in it; the memory behind it has room.
fn each_refusal_of_a_packet_so_far<W: Writer>() {
    let good = time(0x77);
    let mut bad_fields = of_type(V1_3b, 20);
    bad_fields.numbers[0] = 0;
    // Records that are refused, and where they are at fault.
    let faults = [
        (vec![1], 2, 0),
        (vec![1, 0, 0, 0, 0, 0, 0, 0, 5], 2, 0),
        (time_record(1)[..14].to_vec(), 2, 0),
        (vec![0; 10], 5, 0),
        (time_record(0), 5, 0),
        (record(1_000_000_000_001, &eleven()[0].1), 5, 0),
        (record(1, &[]), 3, 10),
        (record(1, &[22]), 3, 10),
        (record(1, &eleven()[5].1[..33]), 3, 10),
        (
            record(
                1,
                &hex("15 00ca9a3b 11121314 2122232425262728 4142434445460100 51525354 fe"),
            ),
            4,
            11,
        ),
        (
            record(
                1,
                &hex("14 0a0b0c0d 11121314 2122232425262728 58 4142434445460100 51525354 4649524d"),
            ),
            4,
            27,
        ),
        (
            record(
                1,
                &hex("14 0a0b0c0d 11121314 2122232425262728 53 0000000000000000 51525354 4649524d"),
            ),
            4,
            28,
        ),
        (
            record(
                1,
                &hex("14 0a0b0c0d 11121314 2122232425262728 53 4142434445460100 00000000 4649524d"),
            ),
            4,
            36,
        ),
    ];
    for edition in EDITIONS {
        for (faulty, number, offset) in &faults {
            for front in [times(0), times(1), times(20), times(90)] {
                let behind = if *number == 2 { 0 } else { 2 };
                for behind in [times(0), times(behind)] {
                    let so_far = [&front[..], faulty, &behind].concat();
                    let refusal = Refusal::at(*number, front.len() + offset);
                    let lent = memory(&so_far, so_far.len() + 99);
                    let used = so_far.len();
                    assert_eq!(W::records(edition, &so_far), Err(refusal));
                    refuses::<W>(edition, &lent, used, 1, &good, refusal);
                    // Before all that is wrong with the record, and whether it has room or not.
                    refuses::<W>(edition, &lent, used, 0, &bad_fields, refusal);
                    refuses::<W>(edition, &so_far, used, 0, &bad_fields, refusal);
                }
            }
        }
        // "the packet so far has more than 1,500 bytes", whatever they are; and 32 before it.
        for length in [1_501, 1_502, 65_536] {
            for first in [longest(), vec![], vec![0; 1_501]] {
                let lent = memory(&first, length);
                let refusal = Refusal::alone(1);
                refuses::<W>(edition, &lent, length, 1, &good, refusal);
                refuses::<W>(edition, &lent, length, 0, &bad_fields, refusal);
                let shorter = &lent[..length - 1];
                refuses::<W>(edition, shorter, length, 1, &good, Refusal::alone(32));
                let beyond = Refusal::alone(32);
                refuses::<W>(edition, shorter, length, 0, &bad_fields, beyond);
            }
        }
    }
}

/// "is refused by the reader of the edition": a Symbol Update without a Security Type, in 1.3 alone.
fn a_packet_so_far_of_the_other_edition<W: Writer>() {
    let (second, body) = (time(0x77), time_record(1)[10..].to_vec());
    let so_far = [time_record(1), record(2, &eleven()[1].1)].concat();
    appends::<W>(V1_3b, &so_far, 200, 3, &second, &body);
    // Behind 15 bytes, and 10 of a header.
    let lent = memory(&so_far, 200);
    let refusal = Refusal::at(4, 15 + 10 + 20);
    refuses::<W>(V1_3, &lent, so_far.len(), 3, &second, refusal);
    let typed = [time_record(1), record(2, &typed_update().1)].concat();
    for edition in EDITIONS {
        appends::<W>(edition, &typed, 200, 3, &second, &body);
    }
}

/// 32 before all; the packet so far; 5, 3, 4, 1, 32. Each two of them, and all.
fn the_first_that_applies_is_told<W: Writer>() {
    let good = of_type(V1_3b, 20);
    let (mut typeless, mut bad, mut large) = (good, good, good);
    typeless.numbers[0] = 22;
    bad.numbers[5] = 0;
    large.numbers[4] = 300;
    let mut typeless_and_bad = bad;
    typeless_and_bad.numbers[0] = 276;
    // 1,470 bytes, behind which an Add, of 44, is too much for a packet.
    let nearly = times(98);
    for edition in EDITIONS {
        for (so_far, room, number, message, told) in [
            // Behind nothing: room for 44, or one short of it.
            (vec![], 44, 0, &typeless, 5),
            (vec![], 44, 0, &bad, 5),
            (vec![], 44, 0, &large, 5),
            (vec![], 43, 0, &good, 5),
            (vec![], 0, 0, &typeless_and_bad, 5),
            (vec![], 44, 1, &typeless_and_bad, 3),
            (vec![], 0, 1, &typeless, 3),
            (vec![], 43, 1, &typeless_and_bad, 3),
            (vec![], 43, 1, &bad, 4),
            (vec![], 43, 1, &large, 4),
            (vec![], 0, 1, &large, 4),
            (vec![], 43, 1, &good, 32),
            // Behind 1,470 bytes.
            (nearly.clone(), 99, 0, &good, 5),
            (nearly.clone(), 0, 0, &bad, 5),
            (nearly.clone(), 99, 1, &typeless, 3),
            (nearly.clone(), 0, 1, &typeless, 3),
            (nearly.clone(), 99, 1, &bad, 4),
            (nearly.clone(), 0, 1, &large, 4),
            (nearly.clone(), 99, 1, &good, 1),
            (nearly.clone(), 43, 1, &good, 1),
            (nearly.clone(), 0, 1, &good, 1),
            (longest(), 99, 1, &bad, 4),
            (longest(), 0, 1, &typeless, 3),
            (longest(), 0, 1, &good, 1),
        ] {
            let used = so_far.len();
            let lent = memory(&so_far, used + room);
            let refusal = Refusal::alone(told);
            refuses::<W>(edition, &lent, used, number, message, refusal);
            // The same behind a packet that is refused, at its first record: 5 at 0.
            if used > 0 {
                let mut spoiled = lent.clone();
                spoiled[0..8].fill(0);
                let refusal = Refusal::at(5, 0);
                refuses::<W>(edition, &spoiled, used, number, message, refusal);
                spoiled[0] = 1;
                spoiled[10] = 22;
                let refusal = Refusal::at(3, 10);
                refuses::<W>(edition, &spoiled, used, number, message, refusal);
            }
            // And beyond the memory.
            let refusal = Refusal::alone(32);
            refuses::<W>(edition, &lent, lent.len() + 1, number, message, refusal);
        }
    }
}

/// Need less 1, need, need and 1: no byte of a record is written where its last does not fit.
fn memory_around_what_is_needed<W: Writer>() {
    for edition in EDITIONS {
        for (message, body) in eleven_in(edition) {
            for so_far in [times(0), times(1), times(3)] {
                let used = so_far.len();
                let need = used + 10 + body.len();
                for length in [need, need + 1, need + 50, 1_500, 1_501, 9_000] {
                    appends::<W>(edition, &so_far, length, 4, &message, &body);
                }
                for length in used..need {
                    let lent = memory(&so_far, length);
                    let refusal = Refusal::alone(32);
                    refuses::<W>(edition, &lent, used, 4, &message, refusal);
                }
            }
        }
    }
}

/// A packet of 1,500 bytes is the longest: one byte more is 1, whatever room there is.
fn packets_of_1500_and_1501_bytes<W: Writer>() {
    for edition in EDITIONS {
        for (message, body) in eleven_in(edition) {
            let mut dice = Dice::new(body.len() as u64);
            let fits = 1_500 - 10 - body.len();
            let so_far = packet_of_length(edition, &mut dice, fits);
            for length in [1_500, 1_501, 2_000] {
                appends::<W>(edition, &so_far, length, 4, &message, &body);
            }
            let lent = memory(&so_far, 1_499);
            let refusal = Refusal::alone(32);
            refuses::<W>(edition, &lent, fits, 4, &message, refusal);
            let so_far = packet_of_length(edition, &mut dice, fits + 1);
            for length in [fits + 1, 1_500, 1_501, 2_000] {
                let lent = memory(&so_far, length);
                let refusal = Refusal::alone(1);
                refuses::<W>(edition, &lent, fits + 1, 4, &message, refusal);
            }
        }
    }
    // 92 System Times of 15 bytes and two Modifies of 40 are 1,460: one Modify more makes 1,500, and an Add 1,504.
    let (modify, body) = eleven()[6].clone();
    let so_far = [times(92), record(93, &body), record(94, &body)].concat();
    appends::<W>(V1_3b, &so_far, 1_500, 95, &modify, &body);
    let add = of_type(V1_3b, 20);
    let lent = memory(&so_far, 2_000);
    refuses::<W>(V1_3b, &lent, 1_460, 95, &add, Refusal::alone(1));
}

/// "A length so far of 0 is an empty packet: nothing is read, and any record may be the first."
fn an_empty_packet_so_far_is_not_read<W: Writer>() {
    for edition in EDITIONS {
        for (message, body) in eleven_in(edition) {
            for behind in [0, 1, 255] {
                let mut lent = vec![behind; 2_000];
                let answer = W::append(edition, &mut lent, 0, 7, &message);
                assert_eq!(answer, Ok(10 + body.len()));
                let mut wanted = record(7, &body);
                wanted.resize(2_000, behind);
                assert_eq!(lent, wanted);
            }
        }
    }
}

// A packet behind a recording so far.

/// A packet that must be refused so, with nothing written.
fn refuses_packet<W: Writer>(
    edition: Edition,
    lent: &[u8],
    used: usize,
    packet: &[u8],
    refusal: Refusal,
) {
    let mut after = lent.to_vec();
    let answer = W::append_packet(edition, &mut after, used, packet);
    assert_eq!(answer, Err(refusal));
    assert_eq!(after, lent, "{refusal}");
}

/// One that must be put behind what is so far, and nothing else.
fn appends_packet<W: Writer>(edition: Edition, so_far: &[u8], length: usize, packet: &[u8]) {
    let mut lent = memory(so_far, length);
    let answer = W::append_packet(edition, &mut lent, so_far.len(), packet);
    let bytes = [so_far, &recording(&[packet.to_vec()])].concat();
    assert_eq!(answer, Ok(bytes.len()));
    assert_eq!(lent, memory(&bytes, length));
}

/// The rows of the second table, each alone, and 32 before and behind the others.
fn each_refusal_of_a_packet<W: Writer>() {
    let too_long = [longest(), vec![0]].concat();
    let faults = [
        (vec![], Refusal::alone(1)),
        (too_long, Refusal::alone(1)),
        ([longest(), longest()].concat(), Refusal::alone(1)),
        (times(2)[..29].to_vec(), Refusal::at(2, 15)),
        (time_record(0), Refusal::at(5, 0)),
        ([times(2), time_record(0)].concat(), Refusal::at(5, 30)),
        ([times(1), record(2, &[])].concat(), Refusal::at(3, 25)),
        ([times(1), record(2, &[22])].concat(), Refusal::at(3, 25)),
        (
            [times(1), record(2, &hex("05 00ca9a3b 11121314")), times(3)].concat(),
            Refusal::at(4, 26),
        ),
    ];
    for edition in EDITIONS {
        for (packet, refusal) in &faults {
            for used in [0, 1, 2, 17, 40] {
                for room in [0, 1, packet.len() + 1, packet.len() + 2, 4_000] {
                    let lent = memory(&[], used + room);
                    refuses_packet::<W>(edition, &lent, used, packet, *refusal);
                }
                let beyond = Refusal::alone(32);
                let lent = memory(&[], used);
                for used in [used + 1, used + 99, usize::MAX] {
                    refuses_packet::<W>(edition, &lent, used, packet, beyond);
                    refuses_packet::<W>(edition, &lent, used, &times(1), beyond);
                }
            }
        }
    }
    // A Symbol Update without a Security Type, in 1.3 alone.
    let packet = record(2, &eleven()[1].1);
    refuses_packet::<W>(V1_3, &[MARK; 99], 5, &packet, Refusal::at(4, 30));
    appends_packet::<W>(V1_3b, &[1, 2, 3, 4, 5], 99, &packet);
    appends_packet::<W>(V1_3, &[1, 2, 3], 99, &record(2, &typed_update().1));
}

/// "it may be as long as the memory, and what stands in it is its writer's": any bytes, any length.
fn a_recording_so_far_is_not_looked_at<W: Writer>() {
    for edition in EDITIONS {
        for used in [0, 1, 2, 3, 17, 1_499, 1_502, 66_000, 200_000] {
            for byte in [0, 1, 15, 255] {
                let so_far = vec![byte; used];
                for packet in [times(1), times(9), longest()] {
                    appends_packet::<W>(edition, &so_far, used + 2_000, &packet);
                }
            }
        }
    }
}

/// Need less 1, need, need and 1; the length of a packet takes two bytes, its low one first.
fn memory_around_a_packet<W: Writer>() {
    for edition in EDITIONS {
        for packet in [times(1), times(17), times(18), longest()] {
            for so_far in [vec![], vec![9; 33]] {
                let used = so_far.len();
                let need = used + 2 + packet.len();
                for length in [need, need + 1, need + 77] {
                    appends_packet::<W>(edition, &so_far, length, &packet);
                }
                for length in [used, used + 1, used + 2, need - 2, need - 1] {
                    let lent = memory(&so_far, length);
                    let refusal = Refusal::alone(32);
                    refuses_packet::<W>(edition, &lent, used, &packet, refusal);
                }
            }
        }
    }
    let mut lent = [MARK; 1_503];
    assert_eq!(W::append_packet(V1_3b, &mut lent, 0, &longest()), Ok(1_502));
    assert_eq!(lent[..3], [0xdc, 0x05, 1]);
    assert_eq!(lent[1_502], MARK);
    let mut lent = [MARK; 20];
    assert_eq!(W::append_packet(V1_3b, &mut lent, 1, &times(1)), Ok(18));
    assert_eq!(lent[..4], [MARK, 15, 0, 1]);
}

// Read then written, and written then read.

/// A packet written record by record from nothing, from what the reader gives of each; or its refusal.
fn written_again<W: Writer>(edition: Edition, packet: &[u8]) -> Result<Vec<u8>, Refusal> {
    let mut lent = memory(&[], packet.len() + 5);
    let mut used = 0;
    let records = read_packet(edition, packet)?;
    for record in &records {
        let read = W::read(edition, record.body).expect("a good body");
        let answer = W::append(edition, &mut lent, used, record.number, &read);
        assert_eq!(answer, Ok(used + 10 + record.body.len()));
        used += 10 + record.body.len();
    }
    assert_eq!(lent[used..], [MARK; 5]);
    lent.truncate(used);
    Ok(lent)
}

/// The packets of a recording, all written again in one memory: the good ones, and refused are the same as the reader
/// refuses. How many were good.
fn recording_again<W: Writer>(edition: Edition, bytes: &[u8]) -> usize {
    let (packets, _) = packets_of(bytes);
    let mut lent = memory(&[], bytes.len() + 3);
    let (mut used, mut good) = (0, Vec::new());
    for packet in packets {
        match written_again::<W>(edition, packet) {
            Ok(again) => {
                assert!(again == packet);
                let answer = W::append_packet(edition, &mut lent, used, &again);
                assert_eq!(answer, Ok(used + 2 + packet.len()));
                used += 2 + packet.len();
                good.push(packet.to_vec());
            }
            Err(refusal) => {
                let answer = W::append_packet(edition, &mut lent, used, packet);
                assert_eq!(answer, Err(refusal));
            }
        }
    }
    let mut wanted = recording(&good);
    assert_eq!(used, wanted.len());
    wanted.resize(lent.len(), MARK);
    assert!(lent == wanted);
    good.len()
}

fn the_vectors_read_then_written<W: Writer>() {
    let packets = vectors(&["stdin"]);
    for edition in EDITIONS {
        let good = recording_again::<W>(edition, &packets);
        assert!(good > 600, "{good} good packets");
    }
}

fn the_examples_read_then_written<W: Writer>() {
    for name in example_recordings() {
        let bytes = example_file(&name);
        for edition in EDITIONS {
            let good = recording_again::<W>(edition, &bytes);
            // Those of 1.3 are good ones of 1.3.b, and not the other way round.
            let other = edition == V1_3 && !name.contains("1.3.") && !name.contains("7-F");
            assert!(good > 0 || other, "{name} in {edition:?}");
        }
    }
    for name in ["morning.rec", "long.rec", "flags.rec", "nanoseconds.rec"] {
        let bytes = example_file(name);
        assert!(recording_again::<W>(V1_3b, &bytes) > 0, "{name}");
    }
    assert_eq!(recording_again::<W>(V1_3b, &example_file("morning.rec")), 1);
    assert_eq!(recording_again::<W>(V1_3, &example_file("morning.rec")), 0);
}

fn seeded_recordings_read_then_written<W: Writer>() {
    let mut good = 0;
    for seed in seeds(40) {
        for edition in EDITIONS {
            let bytes = drawn_recording(edition, seed);
            good += recording_again::<W>(edition, &bytes);
            good += recording_again::<W>(edition.other(), &bytes);
        }
    }
    assert!(!all_seeds() || good > 2_000, "{good} good packets");
}

/// Good messages of each type, with numbers at the ends of their ranges and anything beside them; and good bodies with
/// anything in them. Each is read as what was given, where the message has it, and written as what was read.
fn seeded_messages_written_then_read<W: Writer>() {
    for seed in seeds(200) {
        let mut dice = Dice::new(seed);
        for edition in EDITIONS {
            for (kind, length) in TYPES_AND_LENGTHS {
                let given = good_fields(edition, &mut dice, kind);
                let mut wanted = given;
                // Numbers and bytes behind those that the message has, as the table of docs/WRITE.md lists them.
                let (numbers, text) = match kind {
                    49 => (2, 0),
                    83 => (4, 8),
                    1 => (8, 28),
                    4 => (6, 0),
                    5 => (3, 0),
                    23 => (4, 0),
                    21 | 11 => (7, 0),
                    _ => (8, 0),
                };
                wanted.numbers[numbers..].fill(0);
                wanted.text[text..].fill(0);
                match (kind, edition) {
                    (1, V1_3) => wanted.text[27] = 0,
                    (1, V1_3b) => wanted.numbers[4] = 0,
                    _ => {}
                }
                let body = reads_back::<W>(edition, &given, &wanted);
                assert_eq!(body.len(), length);
                let body = any_good_body(edition, &mut dice, kind);
                let read = W::read(edition, &body).expect("a good body");
                assert_eq!(reads_back::<W>(edition, &read, &read), body);
            }
        }
    }
}

/// Calls of every kind, and what must come of them by what they were made for.
fn seeded_calls_come_to_what_they_are_made_for<W: Writer>() {
    let mut told = std::collections::BTreeMap::new();
    for seed in seeds(3_000) {
        let mut dice = Dice::new(seed);
        let edition = dice.pick(&EDITIONS);
        let (so_far, refused) = so_far(edition, &mut dice);
        let (message, fault) = any_fields(edition, &mut dice);
        let number = any_sequence_number(&mut dice);
        let used = so_far.len();
        let kind = TYPES_AND_LENGTHS.iter();
        let length = kind
            .clone()
            .find(|one| u64::from(one.0) == message.numbers[0]);
        let need = used + 10 + length.map_or(5, |one| one.1);
        let size = memory_around(&mut dice, used, need);
        let beyond = dice.chance(100);
        let lent = memory(&so_far, size);
        let wanted = if beyond {
            Err(Refusal::alone(32))
        } else if let Some(refusal) = refused {
            Err(refusal)
        } else if number == 0 || number > 1_000_000_000_000 {
            Err(Refusal::alone(5))
        } else if let Some(number) = fault {
            Err(Refusal::alone(number))
        } else if need > 1_500 {
            Err(Refusal::alone(1))
        } else if need > size {
            Err(Refusal::alone(32))
        } else {
            Ok(need)
        };
        *told
            .entry(wanted.map_err(|refusal| refusal.number).err())
            .or_insert(0) += 1;
        let mut after = lent.clone();
        let at = if beyond { size + 1 } else { used };
        let answer = W::append(edition, &mut after, at, number, &message);
        assert_eq!(answer, wanted, "seed {seed}");
        match answer {
            Err(_) => assert!(after == lent, "seed {seed}"),
            Ok(end) => {
                assert!(
                    after[..used] == so_far[..] && after[end..] == lent[end..],
                    "seed {seed}"
                );
                assert_eq!(after[used..used + 8], number.to_le_bytes(), "seed {seed}");
                let read = W::read(edition, &after[used + 10..end]).expect("a good body");
                assert_eq!(read, message.kept(edition), "seed {seed}");
            }
        }
    }
    if all_seeds() {
        for number in [None, Some(1), Some(2), Some(3), Some(4), Some(5), Some(32)] {
            let times = told.get(&number).copied().unwrap_or(0);
            assert!(times > 50, "{number:?}: {times}");
        }
    }
}

// The second program alone.

/// A message that is given as its body's bytes: the same answers, and 3 for bytes that are no message.
#[test]
fn a_record_from_a_bodys_bytes() {
    let so_far = times(2);
    for edition in EDITIONS {
        for (message, body) in eleven_in(edition) {
            for (used, number, size) in [(0, 1, 99), (30, 1, 99), (30, 0, 99), (30, 1, 31)] {
                let (mut one, mut other) = (memory(&so_far, size), memory(&so_far, size));
                let answer = write::append_body(edition, &mut one, used, number, &body);
                let wanted = write::append(edition, &mut other, used, number, &message);
                assert_eq!((answer, one), (wanted, other));
            }
            let refused = |used: usize, number: u64, body: &[u8]| {
                let mut lent = memory(&so_far, 99);
                let answer = write::append_body(edition, &mut lent, used, number, body);
                assert_eq!(lent, memory(&so_far, 99));
                answer.unwrap_err()
            };
            let longer = [&body[..], &[0]].concat();
            for bytes in [&body[..body.len() - 1], &longer, &[], &[22]] {
                assert_eq!(refused(30, 1, bytes), Refusal::alone(3));
                assert_eq!(refused(30, 0, bytes), Refusal::alone(5));
                assert_eq!(refused(29, 0, bytes), Refusal::at(2, 15));
                assert_eq!(refused(100, 0, bytes), Refusal::alone(32));
            }
            if body[0] != 49 {
                let mut bad = body.clone();
                bad[4] = 255;
                assert_eq!(refused(30, 1, &bad), Refusal::alone(4));
            }
        }
        let update = eleven()[1].1.clone();
        let mut lent = [MARK; 99];
        let answer = write::append_body(edition, &mut lent, 0, 1, &update);
        let wanted = match edition {
            V1_3 => Err(Refusal::alone(4)),
            V1_3b => Ok(52),
        };
        assert_eq!(answer, wanted);
    }
}

/// What is drawn for a writer is what it says that it is.
#[test]
fn what_is_drawn_to_be_written() {
    let mut dice = Dice::new(4);
    for edition in EDITIONS {
        for (kind, length) in TYPES_AND_LENGTHS {
            for _ in 0..50 {
                let good = good_fields(edition, &mut dice, kind);
                assert_eq!(good.body(edition).map(|body| body.len()), Ok(length));
                for place in judged_numbers(edition, kind) {
                    let mut bad = good;
                    spoil_number(&mut dice, &mut bad, place);
                    assert_eq!(bad.body(edition), Err(4), "{kind}, {place}");
                    assert!(bad.laid_out(edition).is_ok(), "{kind}, {place}");
                }
                for (place, bytes) in numbers_of_type(edition, kind) {
                    let mut large = good;
                    if bytes < 8 {
                        enlarge_number(&mut dice, &mut large, place, bytes);
                        assert_eq!(large.laid_out(edition), Err(4), "{kind}, {place}");
                    }
                }
                let body = any_good_body(edition, &mut dice, kind);
                assert_eq!(body.len(), length);
                assert!(Fields::read(edition, &body).is_ok());
            }
            let mut typeless = good_fields(edition, &mut dice, kind);
            typeless.numbers[0] = no_type(&mut dice);
            assert_eq!(typeless.body(edition), Err(3));
        }
        for length in [0, 15, 120, 1_448, 1_485, 1_500, 3_000] {
            let packet = packet_of_length(edition, &mut dice, length);
            assert_eq!(packet.len(), length);
            let refusal = (length == 0 || length > 1_500).then_some(Refusal::alone(1));
            assert_eq!(read_packet(edition, &packet).err(), refusal);
        }
    }
}

/// What a call is counted as, behind `written, `.
fn counted(note: impl FnOnce(&mut Writings)) -> Vec<String> {
    let mut writings = Writings::default();
    note(&mut writings);
    let mut seen = writings.seen();
    seen.retain(|(_, count)| *count > 0);
    let names = seen.into_iter().map(|(what, count)| {
        assert_eq!(count, 1, "{what}");
        what.trim_start_matches("written, ").to_string()
    });
    names.collect()
}

#[test]
fn records_are_counted() {
    let add = of_type(V1_3b, 20);
    let (mut typeless, mut priceless, mut large, mut both) = (add, add, add, add);
    typeless.numbers[0] = 22;
    priceless.numbers[5] = 0;
    large.numbers[4] = 300;
    both.numbers[4..6].fill(0);
    let mut spoiled = times(20);
    spoiled[15 * 18 + 10] = 22;
    let mut spoiled_early = times(2);
    spoiled_early[0] = 0;
    for (so_far, used, size, number, fields, wanted) in [
        (times(0), 1, 0, 1, &add, &["a record, 32 before all"][..]),
        (
            times(0),
            1,
            0,
            0,
            &add,
            &[
                "a record, 32 before all",
                "a record, 32 before all and before another refusal",
            ],
        ),
        (
            times(101),
            1_515,
            1_600,
            1,
            &typeless,
            &[
                "a record, 1 of the packet so far",
                "a record, a refusal of the packet so far before its own",
            ],
        ),
        (
            spoiled,
            300,
            400,
            1,
            &add,
            &[
                "a record, 3 of the packet so far",
                "a record, a refusal of the packet so far at 256 or more",
            ],
        ),
        (
            spoiled_early,
            30,
            99,
            1,
            &add,
            &["a record, 5 of the packet so far"],
        ),
        (
            times(1),
            14,
            99,
            1,
            &add,
            &["a record, 2 of the packet so far"],
        ),
        (times(1), 15, 99, 0, &add, &["a record, 5"]),
        (
            times(98),
            1_470,
            1_480,
            0,
            &priceless,
            &[
                "a record, 5",
                "a record, 5 before 4",
                "a record, 5 before 1",
                "a record, 5 before 32",
            ],
        ),
        (
            times(1),
            15,
            99,
            0,
            &typeless,
            &["a record, 5", "a record, 5 before 3"],
        ),
        (times(1), 15, 99, 1, &typeless, &["a record, 3"]),
        (
            times(100),
            1_500,
            1_500,
            1,
            &typeless,
            &[
                "a record, 3",
                "a record, 3 before 1",
                "a record, 3 before 32",
            ],
        ),
        (
            times(1),
            15,
            99,
            1,
            &priceless,
            &["a record, 4", "unwritten in 1.3.b, Add Order, bad price"],
        ),
        (
            times(1),
            15,
            99,
            1,
            &large,
            &[
                "a record, 4",
                "unwritten in 1.3.b, Add Order, large number 4",
            ],
        ),
        (times(1), 15, 99, 1, &both, &["a record, 4"]),
        (
            times(98),
            1_470,
            1_513,
            1,
            &large,
            &[
                "a record, 4",
                "a record, 4 before 1",
                "a record, 4 before 32",
            ],
        ),
        (times(98), 1_470, 1_514, 1, &add, &["a record, 1"]),
        (
            times(98),
            1_470,
            1_513,
            1,
            &add,
            &["a record, 1", "a record, 1 before 32"],
        ),
        (
            times(1),
            15,
            58,
            1,
            &add,
            &["a record, 32", "a record that lacks one byte of memory"],
        ),
        (times(1), 15, 57, 1, &add, &["a record, 32"]),
        (
            times(0),
            0,
            44,
            1,
            &add,
            &[
                "a record behind nothing",
                "a packet that fills its memory",
                "a record with number 1",
                "written in 1.3.b, Add Order",
            ],
        ),
        (
            times(1),
            15,
            60,
            1_000_000_000_000,
            &add,
            &[
                "a record behind one",
                "a record with number 10^12",
                "written in 1.3.b, Add Order",
            ],
        ),
        (times(2), 30, 99, 0, &add, &["a record, 5"]),
    ] {
        let mut lent = memory(&so_far, size);
        let before = lent.clone();
        let answer = write::append(V1_3b, &mut lent, used, number, fields);
        let given = Appended {
            edition: 0,
            memory: &before,
            used,
            number,
            fields,
        };
        let told = counted(|writings| writings.note_record(&given, &answer));
        assert_eq!(told, wanted, "{answer:?}");
    }
}

/// Editions, the longest packets, and what a message does not have.
#[test]
fn records_of_both_editions_are_counted() {
    let (update, _) = typed_update();
    let told = |edition: u64, used: usize, fields: &Fields| {
        let lent = memory(&times(100), 2_000);
        let given = Appended {
            edition,
            memory: &lent,
            used,
            number: 9,
            fields,
        };
        let mut after = lent.clone();
        let edition = Edition::of_number(edition);
        let answer = write::append(edition, &mut after, used, 9, fields);
        counted(|writings| writings.note_record(&given, &answer))
    };
    let behind = "a record behind several";
    let more = "a record with numbers or bytes that it does not have";
    let (old, new) = (
        "written in 1.3, Symbol Update",
        "written in 1.3.b, Symbol Update",
    );
    assert_eq!(told(1, 30, &update), [behind, old]);
    assert_eq!(told(0, 30, &update), [behind, more, new]);
    let other = "a record by another edition number";
    assert_eq!(told(257, 30, &update), [behind, more, other, new]);
    let late = "a refused record by another edition number";
    let refused = ["a record, 2 of the packet so far", late];
    assert_eq!(told(257, 29, &update), refused);
    let mut typeless = update;
    typeless.numbers[4] = 71;
    let bad = "unwritten in 1.3, Symbol Update, bad security type";
    assert_eq!(told(1, 30, &typeless), ["a record, 4", bad]);
    typeless.numbers[4] = 256 + 69;
    let large = "unwritten in 1.3, Symbol Update, large number 4";
    assert_eq!(told(1, 30, &typeless), ["a record, 4", large]);
    let longest = "a packet of 1,500 bytes";
    let written = "written in 1.3.b, System Time";
    assert_eq!(told(0, 1_485, &time(1)), [behind, longest, written]);
    let mut dice = Dice::new(1);
    let so_far = packet_of_length(V1_3b, &mut dice, 1_486);
    let given = Appended {
        edition: 0,
        memory: &memory(&so_far, 1_600),
        used: 1_486,
        number: 9,
        fields: &time(1),
    };
    let answer = Err(Refusal::alone(1));
    let told = counted(|writings| writings.note_record(&given, &answer));
    assert_eq!(told, ["a record, 1", "a record that would end at 1,501"]);
}

#[test]
fn packets_are_counted() {
    let before = "a packet, 32 before all and before another refusal";
    let behind = "a packet behind others";
    for (size, used, packet, wanted) in [
        (9, 10, times(1), vec!["a packet, 32 before all"]),
        (9, 10, vec![], vec!["a packet, 32 before all", before]),
        (99, 10, vec![], vec!["a packet, 1"]),
        (99, 10, times(1)[..14].to_vec(), vec!["a packet, 2"]),
        (
            20,
            10,
            times(1)[..14].to_vec(),
            vec!["a packet, 2", "a packet, its refusal before 32"],
        ),
        (26, 10, times(1), vec!["a packet, 32"]),
        (
            27,
            10,
            times(1),
            vec![behind, "a recording that fills its memory"],
        ),
        (28, 10, times(1), vec![behind]),
        (99, 0, times(1), vec!["a packet behind nothing"]),
    ] {
        let mut lent = memory(&[], size);
        let answer = write::append_packet(V1_3b, &mut lent, used, &packet);
        let told = counted(|writings| writings.note_packet(0, size, used, &packet, &answer));
        assert_eq!(told, wanted, "{answer:?}");
    }
    let other = counted(|writings| writings.note_packet(2, 99, 0, &times(1), &Ok(17)));
    assert_eq!(
        other,
        [
            "a packet behind nothing",
            "a packet by another edition number"
        ]
    );
}

// The boundary's numbers.

/// "any other number means 1.3.a and 1.3.b": all 64 bits count, in both calls and in the body's reader.
#[cfg(linked)]
#[test]
fn edition_numbers_at_the_boundary() {
    for number in [
        0,
        1,
        2,
        255,
        256,
        257,
        1 + (1 << 32),
        1 + (1 << 63),
        u64::MAX,
    ] {
        let typed = number == 1;
        let mut given = fields(&UPDATE, UPDATE_TEXT);
        let (mut lent, mut length) = ([MARK; 99], [9]);
        let (numbers, text) = (given.numbers, given.text);
        let told = lent::append(number, &mut lent, 0, 1, &numbers, &text, &mut length);
        assert_eq!((told, length), (0, [52]));
        assert_eq!(lent[30], if typed { 0x46 } else { 0x91 });
        given.numbers[4] = 0;
        let (mut lent, mut length) = ([MARK; 99], [9]);
        let (numbers, text) = (given.numbers, given.text);
        let told = lent::append(number, &mut lent, 0, 1, &numbers, &text, &mut length);
        let wanted = if typed { (4, [9]) } else { (0, [52]) };
        assert_eq!((told, length), wanted);
        let packet = record(1, &eleven()[1].1);
        let (mut lent, mut length) = ([MARK; 99], [9]);
        let told = lent::append_packet(number, &mut lent, 3, &packet, &mut length);
        let wanted = if typed {
            (4 + 256 * 30, [9])
        } else {
            (0, [57])
        };
        assert_eq!((told, length), wanted);
        assert_eq!(lent[3], if typed { MARK } else { 52 });
        let (mut numbers, mut text) = ([9; 8], [9; 28]);
        let told = lent::body(number, &packet[10..], &mut numbers, &mut text);
        if typed {
            assert_eq!((told, numbers, text), (4 + 256 * 20, [9; 8], [9; 28]));
        } else {
            assert_eq!(told, 0);
            assert_eq!((numbers, text), (update_without_type(), *UPDATE_TEXT));
        }
    }
}

/// "Both answer 0 or a refusal, with its offset above the number's 8 bits": the writer's own have offset 0, and a refusal
/// leaves the length.
#[cfg(linked)]
#[test]
fn answers_at_the_boundary() {
    let good = time(0x77);
    let (mut typeless, mut large) = (good, good);
    typeless.numbers[0] = 1 << 32;
    large.numbers[1] = 1 << 32;
    let mut bad_first = times(1);
    bad_first[0] = 0;
    let mut bad_last = times(20);
    bad_last[285 + 10] = 5;
    for (so_far, used, size, number, message, wanted) in [
        (times(1), 15, 30, 2, &good, 0),
        (times(1), 16, 15, 2, &good, 32),
        (times(1), 15, 29, 2, &good, 32),
        (times(101), 1_515, 2_000, 2, &good, 1),
        (times(100), 1_500, 2_000, 2, &good, 1),
        (times(1), 14, 99, 2, &good, 2),
        (times(3), 44, 99, 2, &good, 2 + 256 * 30),
        (bad_first, 15, 99, 2, &good, 5),
        (bad_last, 300, 400, 2, &good, 3 + 256 * 295),
        (times(1), 15, 99, 0, &good, 5),
        (times(1), 15, 99, 2, &typeless, 3),
        (times(1), 15, 99, 2, &large, 4),
    ] {
        let (mut lent, mut length) = (memory(&so_far, size), [9]);
        let (numbers, text) = (message.numbers, message.text);
        let told = lent::append(0, &mut lent, used, number, &numbers, &text, &mut length);
        assert_eq!(told, wanted);
        if wanted == 0 {
            assert_eq!(length, [30]);
            continue;
        }
        assert_eq!((length, lent), ([9], memory(&so_far, size)));
    }
    for (size, used, packet, wanted) in [
        (17, 0, times(1), 0),
        (17, 18, times(1), 32),
        (16, 0, times(1), 32),
        (99, 0, times(101), 1),
        (99, 0, vec![], 1),
        (99, 0, times(3)[..44].to_vec(), 2 + 256 * 30),
    ] {
        let (mut lent, mut length) = (memory(&[], size), [9]);
        let told = lent::append_packet(0, &mut lent, used, &packet, &mut length);
        assert_eq!(told, wanted);
        if wanted == 0 {
            assert_eq!(length, [17]);
            continue;
        }
        assert_eq!((length, lent), ([9], memory(&[], size)));
    }
}
