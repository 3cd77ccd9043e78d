//! Recordings of one edition as recordings of the other (docs/CONVERT.md). The bytes are put together here by the
//! offsets of documents 01 and 000, and what must become of them is stated by hand. Tried of the second program, and
//! of the proved library where it is linked; tests/convert_program.rs has the words. Run one seed again with
//! SECOND_SEED=number.

#[macro_use]
mod common;
use common::written::{claiming, record, recording};
use common::{all_seeds, example_file, example_recordings, seeds};
use common::{Desk, Edition, V1_3b, EDITIONS, V1_3};
use second::answers::answers_of_recording;
use second::convert::*;
use second::examples::MORNING_SHEET;
use second::morning::*;
use second::packet::{read_packet, Refusal, TYPES_AND_LENGTHS};
#[cfg(linked)]
use second::proved::{self, lent, Proved};
use second::receiver::slot;
use second::seen::Conversions;
use second::sheet::{packets_of, sheet_of_recording};

/// What these tests do with either program.
trait Converter {
    fn convert(asked: &Asked, packet: &mut [u8]) -> Result<u64, Refusal>;
    fn piece(asked: &Asked, piece: &mut [u8]) -> Result<Counts, u8>;
}

impl Converter for Desk {
    fn convert(asked: &Asked, packet: &mut [u8]) -> Result<u64, Refusal> {
        convert(asked, packet)
    }

    fn piece(asked: &Asked, piece: &mut [u8]) -> Result<Counts, u8> {
        convert_piece(asked, piece)
    }
}

#[cfg(linked)]
impl Converter for Proved {
    fn convert(asked: &Asked, packet: &mut [u8]) -> Result<u64, Refusal> {
        proved::convert(asked, packet)
    }

    fn piece(asked: &Asked, piece: &mut [u8]) -> Result<Counts, u8> {
        proved::convert_piece(asked, piece)
    }
}

of_both! {
    the_example_there_and_back
    the_examples_there_and_back
    the_examples_that_tools_convert_py_writes
    each_byte_20
    each_type
    the_same_edition_twice
    exceptions_by_id
    exceptions_by_ticker
    the_first_that_names_counts
    marks_that_name_none
    six_then_four_then_the_packets_refusal
    a_refusal_leaves_every_byte
    no_other_message_changes
    symbol_updates_in_every_place
    a_barred_packet
    packets_passed_on_unread
    recordings_of_nothing_and_cut_ones
    pieces_cut_at_every_place
    copies_that_differ_in_byte_20_alone
    good_packets_there_and_back
    seeded_recordings_are_the_same_afterwards
    seeded_recordings_in_pieces
}

// Bytes.

/// A good Symbol Update of symbol 7 but for this byte 20: nanoseconds 5, ticker ABC, test N, lot 100, 09:30:00 to
/// 16:00:00, market H.
fn update(byte: u8) -> Vec<u8> {
    update_of(7, b"ABC        ", byte)
}

fn update_of(symbol: u32, ticker: &[u8; 11], byte: u8) -> Vec<u8> {
    let mut body = vec![1, 5, 0, 0, 0];
    body.extend(symbol.to_le_bytes());
    body.extend(ticker);
    body.push(byte);
    body.extend([b'N', 0, 100, 0]);
    body.extend(b"09:30:0016:00:00H");
    assert_eq!(body.len(), 42);
    body
}

/// A System Time, whose record has 15 bytes.
fn time(second: u8) -> Vec<u8> {
    vec![49, second, 0, 0, 0]
}

/// Document 01's example, one packet, its Symbol Update with this byte 20: behind 15 bytes of a System Time and 10 of
/// a header, so at 45.
fn example(byte: u8) -> Vec<u8> {
    let mut packet = example_file("morning.rec").split_off(2);
    assert_eq!(packet[45], 0);
    packet[45] = byte;
    packet
}

/// Exceptions one behind the other: a mark, the name in 11 bytes, a type.
fn exceptions(all: &[(u8, &[u8; 11], u8)]) -> Vec<u8> {
    let mut bytes = Vec::new();
    for (mark, name, kind) in all {
        bytes.push(*mark);
        bytes.extend(*name);
        bytes.push(*kind);
    }
    bytes
}

fn asked(from: Edition, to: Edition, kind: u8, others: Vec<u8>) -> Asked {
    Asked {
        from,
        to,
        kind,
        others,
    }
}

fn to_older(kind: u8) -> Asked {
    asked(V1_3b, V1_3, kind, vec![])
}

fn to_later() -> Asked {
    asked(V1_3, V1_3b, 0, vec![])
}

fn counts(bytes: usize, updates: u64, unread: u64, barred: u64) -> Counts {
    Counts {
        bytes: bytes as u64,
        updates,
        unread,
        barred,
    }
}

// What becomes of a packet, by itself and in a recording.

/// It has so many Symbol Updates and becomes this one.
fn becomes<C: Converter>(asked: &Asked, packet: &[u8], updates: u64, wanted: &[u8]) {
    let mut bytes = packet.to_vec();
    assert_eq!(C::convert(asked, &mut bytes), Ok(updates), "{packet:?}");
    assert_eq!(bytes, wanted);
    recording_becomes::<C>(asked, packet, counts(0, updates, 0, 0), wanted);
}

/// In a recording, between two packets of no bytes, which are passed on unread.
fn recording_becomes<C: Converter>(asked: &Asked, packet: &[u8], told: Counts, wanted: &[u8]) {
    let mut bytes = recording(&[vec![], packet.to_vec(), vec![]]);
    let told = Counts {
        bytes: bytes.len() as u64,
        unread: told.unread + 2,
        ..told
    };
    assert_eq!(C::piece(asked, &mut bytes), Ok(told), "{packet:?}");
    assert_eq!(bytes, recording(&[vec![], wanted.to_vec(), vec![]]));
}

/// It is refused so, and keeps every byte.
fn refuses<C: Converter>(asked: &Asked, packet: &[u8], refusal: Refusal) {
    let mut bytes = packet.to_vec();
    assert_eq!(C::convert(asked, &mut bytes), Err(refusal), "{packet:?}");
    assert_eq!(bytes, packet);
}

/// It is refused so, and passed on unread in a recording.
fn is_unread<C: Converter>(asked: &Asked, packet: &[u8], refusal: Refusal) {
    refuses::<C>(asked, packet, refusal);
    recording_becomes::<C>(asked, packet, counts(0, 0, 1, 0), packet);
}

/// Its edition, 1.3, refuses it with 4 at this byte and 1.3.b does not; in a recording the byte behind it becomes 0.
fn is_barred<C: Converter>(asked: &Asked, packet: &[u8], at: usize) {
    refuses::<C>(asked, packet, Refusal::at(4, at));
    let mut wanted = packet.to_vec();
    wanted[at + 1] = 0;
    recording_becomes::<C>(asked, packet, counts(0, 0, 0, 1), &wanted);
}

/// What is asked for is refused, of a packet and of a piece, and nothing changes.
fn asks_wrongly<C: Converter>(asked: &Asked, packet: &[u8], number: u8) {
    refuses::<C>(asked, packet, Refusal::alone(number));
    let mut bytes = recording(&[packet.to_vec()]);
    assert_eq!(C::piece(asked, &mut bytes), Err(number));
    assert_eq!(bytes, recording(&[packet.to_vec()]));
}

fn sheet_text(edition: Edition, recording: &[u8]) -> String {
    let text = sheet_of_recording(edition, recording).expect("sizes in the limits");
    String::from_utf8(text).unwrap()
}

/// A sheet without its lines `type=`.
fn typeless(text: &str) -> String {
    let lines = text.lines().filter(|line| !line.starts_with("type="));
    lines.map(|line| format!("{line}\n")).collect()
}

// Packets.

fn the_example_there_and_back<C: Converter>() {
    for kind in [b'E', b'F'] {
        becomes::<C>(&to_older(kind), &example(0), 1, &example(kind));
        becomes::<C>(&to_later(), &example(kind), 1, &example(0));
        // "with `7=F`" and by its ticker.
        for exception in [
            (0, b"\x07\0\0\0\0\0\0\0\0\0\0", kind),
            (1, b"ABC        ", kind),
        ] {
            for all in [b'E', b'F'] {
                let asked = asked(V1_3b, V1_3, all, exceptions(&[exception]));
                becomes::<C>(&asked, &example(0), 1, &example(kind));
            }
        }
    }
    let mut bytes = recording(&[example(0)]);
    assert_eq!(
        C::piece(&to_older(b'F'), &mut bytes),
        Ok(counts(201, 1, 0, 0))
    );
    let typed = MORNING_SHEET.replace("ticker=ABC\n", "ticker=ABC\ntype=F\n");
    assert_eq!(sheet_text(V1_3, &bytes), typed);
    assert_eq!(C::piece(&to_later(), &mut bytes), Ok(counts(201, 1, 0, 0)));
    assert_eq!(sheet_text(V1_3b, &bytes), MORNING_SHEET);
    assert!(bytes == example_file("morning.rec"));
}

/// Each recording of examples/ as one of either edition, to the other and back. The sheet has the same lines but for
/// those `type=`; what comes back is the first one but for byte 20 of what its edition takes, and but for byte 21 of
/// what it alone refuses.
fn the_examples_there_and_back<C: Converter>() {
    for name in example_recordings() {
        let first = example_file(&name);
        for from in EDITIONS {
            let there = asked(from, from.other(), b'E', vec![]);
            let back = asked(from.other(), from, b'E', vec![]);
            let mut bytes = first.clone();
            let told = C::piece(&there, &mut bytes).unwrap();
            assert_eq!(told.bytes, first.len() as u64, "{name}");
            let before = typeless(&sheet_text(from, &first));
            let after = typeless(&sheet_text(from.other(), &bytes));
            assert_eq!(before, after, "{name}");
            let again = C::piece(&back, &mut bytes).unwrap();
            let unread = told.unread + told.barred;
            assert_eq!(
                again,
                Counts {
                    unread,
                    barred: 0,
                    ..told
                },
                "{name}"
            );
            let (packets, _) = packets_of(&first);
            let (returned, whole) = packets_of(&bytes);
            assert!(whole && returned.len() == packets.len(), "{name}");
            for (packet, returned) in packets.into_iter().zip(returned) {
                let mut wanted = packet.to_vec();
                match read_packet(from, packet) {
                    Ok(_) => {
                        for place in updates_in(packet) {
                            wanted[place + 20] = if from == V1_3 { b'E' } else { 0 };
                        }
                    }
                    Err(refusal) if from == V1_3 && read_packet(V1_3b, packet).is_ok() => {
                        wanted[refusal.offset.unwrap() + 1] = 0;
                    }
                    Err(_) => {}
                }
                assert_eq!(returned, wanted, "{name}");
            }
        }
    }
}

/// What tools/convert.py states, and what it makes of document 01's example with the type E, which is that of
/// tools/editions.py.
fn the_examples_that_tools_convert_py_writes<C: Converter>() {
    let seven = exceptions(&[(0, b"\x07\0\0\0\0\0\0\0\0\0\0", b'F')]);
    for (name, asked, told, wanted) in [
        (
            "editions.rec",
            to_later(),
            counts(1_919, 12, 5, 5),
            "editions-to-1.3.b.rec",
        ),
        (
            "morning.rec",
            asked(V1_3b, V1_3, b'E', seven),
            counts(201, 1, 0, 0),
            "morning-7-F.rec",
        ),
        (
            "morning.rec",
            to_older(b'E'),
            counts(201, 1, 0, 0),
            "morning-1.3.rec",
        ),
    ] {
        let mut bytes = example_file(name);
        assert_eq!(C::piece(&asked, &mut bytes), Ok(told), "{wanted}");
        assert!(bytes == example_file(wanted), "{wanted}");
        let sheet = example_file(&wanted.replace(".rec", ".sheet"));
        let sheet = String::from_utf8(sheet).unwrap();
        assert_eq!(sheet_text(asked.to, &bytes), sheet, "{wanted}");
    }
    let stated = String::from_utf8(example_file("editions.1.3.sheet")).unwrap();
    let converted = String::from_utf8(example_file("editions-to-1.3.b.sheet")).unwrap();
    assert_eq!(typeless(&stated), converted);
}

/// Whatever stands in byte 20: 1.3.b takes all, 1.3 the two letters. To 1.3 it becomes the letter, to 1.3.b 0.
fn each_byte_20<C: Converter>() {
    let packet = |byte| [record(1, &time(1)), record(2, &update(byte))].concat();
    for byte in 0..=255 {
        for kind in [b'E', b'F'] {
            becomes::<C>(&to_older(kind), &packet(byte), 1, &packet(kind));
        }
        // Behind 15 bytes of a System Time, 10 of a header and 20 of the body.
        match byte {
            b'E' | b'F' => becomes::<C>(&to_later(), &packet(byte), 1, &packet(0)),
            _ => is_barred::<C>(&to_later(), &packet(byte), 45),
        }
    }
}

/// "4, where the edition `to` is 1.3 and `type`, or the type of any exception, is neither `E` nor `F`, whether a symbol
/// has it or not. Where `to` is 1.3.b no type is judged or used."
fn each_type<C: Converter>() {
    let named = b"\x07\0\0\0\0\0\0\0\0\0\0";
    for kind in 0..=255 {
        let good = kind == b'E' || kind == b'F';
        let mut all = vec![(kind, vec![], kind)];
        // Of an exception that names the symbol, another one, or none; the last of three too.
        for (mark, name, wanted) in [
            (0, named, kind),
            (0, b"\x08\0\0\0\0\0\0\0\0\0\0", b'E'),
            (1, b"ABC        ", kind),
            (1, b"ABD        ", b'E'),
            (2, named, b'E'),
            (255, named, b'E'),
        ] {
            all.push((b'E', exceptions(&[(mark, name, kind)]), wanted));
            let last = [(1, b"X          ", b'F'), (2, named, b'F')];
            let last = [exceptions(&last), exceptions(&[(mark, name, kind)])].concat();
            all.push((b'E', last, wanted));
        }
        for (type_of_all, others, wanted) in all {
            for from in EDITIONS {
                let older = asked(from, V1_3, type_of_all, others.clone());
                let later = asked(from, V1_3b, type_of_all, others.clone());
                match good {
                    true => becomes::<C>(&older, &example(b'F'), 1, &example(wanted)),
                    false => asks_wrongly::<C>(&older, &example(b'F'), 4),
                }
                becomes::<C>(&later, &example(b'F'), 1, &example(0));
            }
        }
    }
}

/// "(any of the two, also the same one twice)": byte 20 is written all the same, and nothing is barred.
fn the_same_edition_twice<C: Converter>() {
    for byte in 0..=255 {
        let older = asked(V1_3, V1_3, b'F', vec![]);
        match byte {
            b'E' | b'F' => becomes::<C>(&older, &example(byte), 1, &example(b'F')),
            _ => is_unread::<C>(&older, &example(byte), Refusal::at(4, 45)),
        }
        let later = asked(V1_3b, V1_3b, b'F', vec![]);
        becomes::<C>(&later, &example(byte), 1, &example(0));
    }
}

/// "of an ID the first four of them, little-endian"; what lies behind them does not count.
fn exceptions_by_id<C: Converter>() {
    let ids = [0, 1, 7, 256, 0x0102_0304, 0x0403_0201, 1 << 31, u32::MAX];
    let behind: [&[u8; 7]; 3] = [&[0; 7], &[255; 7], b"ABC    "];
    for id in ids {
        for behind in behind {
            let mut name = [0; 11];
            name[..4].copy_from_slice(&id.to_le_bytes());
            name[4..].copy_from_slice(behind);
            let asked = asked(V1_3b, V1_3, b'E', exceptions(&[(0, &name, b'F')]));
            for other in ids {
                let packet = record(1, &update_of(other, b"ABC        ", 9));
                let kind = if other == id { b'F' } else { b'E' };
                let wanted = record(1, &update_of(other, b"ABC        ", kind));
                becomes::<C>(&asked, &packet, 1, &wanted);
            }
        }
    }
    assert_eq!(
        by_id(0x0102_0304, b'F')[..],
        exceptions(&[(0, b"\x04\x03\x02\x01\0\0\0\0\0\0\0", b'F')])
    );
}

/// "of a ticker all eleven, with its trailing spaces"
fn exceptions_by_ticker<C: Converter>() {
    let tickers = [
        b"ABC        ",
        b"ABC       \0",
        b"ABC\0       ",
        b" ABC       ",
        b"ABCDEFGHIJK",
        b"ABCDEFGHIJ ",
        b"A          ",
        b"           ",
        b"\x07\0\0\0\0\0\0\0\0\0\0",
    ];
    for ticker in tickers {
        let asked = asked(V1_3b, V1_3, b'F', exceptions(&[(1, ticker, b'E')]));
        for other in tickers {
            let packet = record(1, &update_of(7, other, 0));
            let kind = if other == ticker { b'E' } else { b'F' };
            let wanted = record(1, &update_of(7, other, kind));
            becomes::<C>(&asked, &packet, 1, &wanted);
        }
        assert_eq!(by_ticker(ticker, b'E')[..], asked.others[..]);
    }
}

/// "The first that names a symbol counts."
fn the_first_that_names_counts<C: Converter>() {
    let by_id = (0, b"\x07\0\0\0\0\0\0\0\0\0\0");
    let by_ticker = (1, b"ABC        ");
    let others = [(0, b"\x08\0\0\0\0\0\0\0\0\0\0"), (1, b"ABD        ")];
    for names in [
        [by_id, by_ticker, by_id],
        [by_ticker, by_id, by_ticker],
        [by_id, by_id, by_ticker],
        [others[0], by_ticker, by_id],
        [others[1], by_id, by_ticker],
        [others[0], others[1], by_id],
        [others[1], others[0], by_ticker],
        [others[0], others[1], others[0]],
    ] {
        for types in 0..8 {
            let kinds = [0, 1, 2].map(|bit| b"EF"[types >> bit & 1]);
            let mut all = Vec::new();
            for ((mark, name), kind) in names.into_iter().zip(kinds) {
                all.push((mark, name, kind));
            }
            let first = all.iter().find(|(mark, name, _)| {
                (*mark, *name) == (by_id.0, by_id.1) || (*mark, *name) == (by_ticker.0, by_ticker.1)
            });
            for type_of_all in [b'E', b'F'] {
                let asked = asked(V1_3b, V1_3, type_of_all, exceptions(&all));
                let wanted = first.map_or(type_of_all, |(_, _, kind)| *kind);
                becomes::<C>(&asked, &example(0), 1, &example(wanted));
            }
        }
    }
    // 1,000 of them and more: the last names it.
    for many in [999, 1_000, 5_041] {
        let mut all = vec![(1, b"OTHER      ", b'E'); many];
        all.push((0, by_id.1, b'F'));
        let asked = asked(V1_3b, V1_3, b'E', exceptions(&all));
        becomes::<C>(&asked, &example(0), 1, &example(b'F'));
    }
}

/// "An exception whose first byte is neither 0 nor 1 names none."
fn marks_that_name_none<C: Converter>() {
    for name in [b"\x07\0\0\0\0\0\0\0\0\0\0", b"ABC        "] {
        for mark in 0..=255 {
            let asked = asked(V1_3b, V1_3, b'E', exceptions(&[(mark, name, b'F')]));
            let names = mark == 0 && name[0] == 7 || mark == 1 && name[0] == b'A';
            let wanted = if names { b'F' } else { b'E' };
            becomes::<C>(&asked, &example(0), 1, &example(wanted));
        }
    }
}

/// "It is judged before anything else: 6, where `others` is not whole exceptions (none is whole); then 4"; then "(1; 2,
/// 5, 3, 4)" of the packet.
fn six_then_four_then_the_packets_refusal<C: Converter>() {
    let packets = [
        (example(b'E'), None),
        (vec![], Some(Refusal::alone(1))),
        (vec![1; 1_501], Some(Refusal::alone(1))),
        (vec![1; 9], Some(Refusal::at(2, 0))),
        (record(0, &update(b'E')), Some(Refusal::at(5, 0))),
        (record(1, &[]), Some(Refusal::at(3, 10))),
        (record(1, &update_of(7, b"ABC        ", b'E')[..41]), {
            Some(Refusal::at(3, 10))
        }),
        (
            [
                record(1, &time(1)),
                record(2, &add_order(0, 7, 1, b'B', 0, 1)),
            ]
            .concat(),
            Some(Refusal::at(4, 43)),
        ),
    ];
    for length in 0..=40 {
        for kind in [b'E', b'e', 0] {
            for from in EDITIONS {
                for to in EDITIONS {
                    // Names and types of E, or none of them a letter.
                    for byte in [b'E', 0] {
                        let asked = asked(from, to, kind, vec![byte; length]);
                        let bad_type = kind != b'E' || length > 0 && byte == 0;
                        let wrong = match length {
                            0 | 13 | 26 | 39 => (to == V1_3 && bad_type).then_some(4),
                            _ => Some(6),
                        };
                        for (packet, refusal) in &packets {
                            match (wrong, refusal) {
                                (Some(number), _) => asks_wrongly::<C>(&asked, packet, number),
                                (None, Some(refusal)) => is_unread::<C>(&asked, packet, *refusal),
                                (None, None) => {
                                    let wanted = if to == V1_3 { b'E' } else { 0 };
                                    becomes::<C>(&asked, packet, 1, &example(wanted));
                                }
                            }
                        }
                    }
                }
            }
        }
    }
}

/// Bad packets of each refusal, by number and offset, in each edition: no byte changes, and in a recording none but
/// that of a barred one.
fn a_refusal_leaves_every_byte<C: Converter>() {
    let (mut told, mut barred) = ([0; 6], 0);
    for seed in seeds(400) {
        let mut dice = Dice::new(seed);
        for from in EDITIONS {
            let settings = ListSettings::drawn(&mut dice).of(from);
            let list = list(dice.bits(), settings);
            for number in [1, 2, 3, 5, 4, 4, 4, 4, 4, 4] {
                let (packet, refusal) = told_packet(from, dice.bits(), &list, number);
                let to = dice.pick(&EDITIONS);
                let asked = asked_between(&mut dice, from, to, std::slice::from_ref(&packet));
                told[usize::from(number)] += 1;
                match read_packet(to, &packet) {
                    Err(_) => is_unread::<C>(&asked, &packet, refusal),
                    Ok(_) => {
                        assert_eq!((from, to), (V1_3, V1_3b), "seed {seed}");
                        is_barred::<C>(&asked, &packet, refusal.offset.unwrap());
                        barred += 1;
                    }
                }
            }
        }
    }
    if all_seeds() {
        assert_eq!(told[1..], [800, 800, 800, 4_800, 800]);
        assert!(barred > 5, "{barred}");
    }
}

/// "Nothing else changes": none of the ten other messages, of which a Trade has type 10 and, like others, 1 or `E` in
/// any place that is not judged.
fn no_other_message_changes<C: Converter>() {
    for (kind, length) in TYPES_AND_LENGTHS {
        if kind == 1 {
            continue;
        }
        for byte in [0, 1, b'E', b'F', 255] {
            for from in EDITIONS {
                // Each byte in turn, as far as the body stays a good one.
                let good = good_body_of(from, &mut Dice::new(u64::from(byte)), kind);
                let mut tried = 0;
                for at in 1..length {
                    let mut body = good.clone();
                    body[at] = byte;
                    let packet = [record(1, &body), record(2, &update(b'E'))].concat();
                    if read_packet(from, &packet).is_err() {
                        continue;
                    }
                    tried += 1;
                    for to in EDITIONS {
                        let asked = asked(from, to, b'F', vec![]);
                        let wanted = if to == V1_3 { b'F' } else { 0 };
                        let wanted = [record(1, &body), record(2, &update(wanted))].concat();
                        becomes::<C>(&asked, &packet, 1, &wanted);
                        becomes::<C>(&asked, &record(1, &body), 0, &record(1, &body));
                    }
                }
                assert!(tried >= 4, "type {kind}, byte {byte}");
            }
        }
    }
}

/// Each of 28 Symbol Updates in a packet of 1,500 bytes, those in front, in the middle and the last record, the same
/// symbol twice, each with its own type.
fn symbol_updates_in_every_place<C: Converter>() {
    let letter = |symbol: u32| if symbol % 3 == 0 { b'F' } else { b'E' };
    let mut others = Vec::new();
    for symbol in (0..28).step_by(3) {
        others.extend(by_id(symbol, b'F'));
    }
    let older = asked(V1_3b, V1_3, b'E', others);
    // 28 Symbol Updates have 1,456 bytes with their headers, and one Add 44: 1,500.
    for add_at in 0..=28 {
        let packet = |byte: &dyn Fn(u32) -> u8| {
            let mut bytes = Vec::new();
            for place in 0..=28 {
                if place == add_at {
                    bytes.extend(record(100, &add_order(0, 7, 1, b'B', 1, 1)));
                }
                if place < 28 {
                    let symbol = place % 14;
                    let body = update_of(symbol, b"ABC        ", byte(symbol));
                    bytes.extend(record(u64::from(place) + 1, &body));
                }
            }
            bytes
        };
        assert_eq!(packet(&|_| 0).len(), 1_500);
        let typed = packet(&letter);
        becomes::<C>(&older, &packet(&|symbol| symbol as u8), 28, &typed);
        becomes::<C>(&to_later(), &typed, 28, &packet(&|_| 0));
    }
    // One byte more is too many.
    let long = [record(1, &update(b'E')).repeat(28), vec![0; 45]].concat();
    assert_eq!(long.len(), 1_501);
    is_unread::<C>(&older, &long, Refusal::alone(1));
    // Each of three in turn, between System Times of 15 bytes.
    for count in 0..=3_u64 {
        let packet = |byte| {
            let mut bytes = record(1, &time(1));
            for number in 0..count {
                bytes.extend(record(2 + number, &update(byte)));
                bytes.extend(record(9, &time(2)));
            }
            bytes
        };
        becomes::<C>(&to_older(b'F'), &packet(255), count, &packet(b'F'));
        becomes::<C>(&to_later(), &packet(b'F'), count, &packet(0));
    }
}

/// "a Symbol Update without a letter in byte 20 is refused by 1.3 with 4, at that byte, and 1.3.b takes it": it becomes
/// one that "1.3.b refuses .. with 4 at that byte, one behind", and no record of it is taken.
fn a_barred_packet<C: Converter>() {
    let later = to_later();
    for byte in (0..=255).filter(|byte| !b"EF".contains(byte)) {
        let (good, bad) = (record(2, &update(b'E')), record(2, &update(byte)));
        let second = record(3, &update(byte));
        for (packet, at) in [
            ([&bad[..], &good, &second], 30),
            ([&good[..], &bad, &second], 82),
            ([&good[..], &good, &bad], 134),
        ] {
            let packet = packet.concat();
            is_barred::<C>(&later, &packet, at);
            let mut bytes = recording(&[packet.clone()]);
            assert_eq!(C::piece(&later, &mut bytes), Ok(counts(158, 0, 0, 1)));
            let converted = bytes.split_off(2);
            assert_eq!(
                read_packet(V1_3b, &converted),
                Err(Refusal::at(4, at + 1)),
                "{byte}"
            );
            for (edition, packet) in [(V1_3, &packet), (V1_3b, &converted)] {
                let mut desk = Desk::new(edition, 2, 2);
                let before = desk.clone();
                assert!(desk.give(packet).is_err());
                assert_eq!(desk, before);
            }
            // Barred, both refuse it: once more, either way, it stays as it is.
            let numbers = (Refusal::at(4, at), Refusal::at(4, at + 1));
            is_unread::<C>(&later, &converted, numbers.0);
            is_unread::<C>(&to_older(b'E'), &converted, numbers.1);
        }
    }
    // "From 1.3 to 1.3.b alone."
    for (from, to) in [(V1_3, V1_3), (V1_3b, V1_3b), (V1_3b, V1_3)] {
        let asked = asked(from, to, b'E', vec![]);
        let mut bytes = recording(&[record(1, &update(9))]);
        let told = C::piece(&asked, &mut bytes).unwrap();
        assert_eq!(told.barred, 0);
    }
}

/// "else passed on unread, where the reader of `to` refuses it too": also for another fault than that of byte 20.
fn packets_passed_on_unread<C: Converter>() {
    let without = |at: usize, value: u8| {
        let mut body = update(0);
        body[at] = value;
        record(1, &body)
    };
    let later = to_later();
    for (packet, refusal) in [
        (without(21, b'X'), Refusal::at(4, 30)),
        (without(41, b'D'), Refusal::at(4, 30)),
        (without(4, 255), Refusal::at(4, 11)),
        (
            [without(21, b'N'), record(0, &time(1))].concat(),
            Refusal::at(4, 30),
        ),
        (
            [without(21, b'N'), vec![1, 2, 3]].concat(),
            Refusal::at(4, 30),
        ),
        (
            [record(0, &time(1)), without(21, b'N')].concat(),
            Refusal::at(5, 0),
        ),
        (claiming(1, 43, &update(0)), Refusal::at(2, 0)),
        (
            record(1, &[update(0), vec![0]].concat()),
            Refusal::at(3, 10),
        ),
        (record(1, &update(0)[..41]), Refusal::at(3, 10)),
    ] {
        is_unread::<C>(&later, &packet, refusal);
    }
    // Too long, though all its records are good; and no bytes at all.
    for length in [1_501, 1_508, 2_000, 30_000, 65_535] {
        let mut long = record(1, &update(b'E')).repeat(length / 52 + 1);
        long.truncate(length);
        for asked in [to_older(b'E'), to_later()] {
            is_unread::<C>(&asked, &long, Refusal::alone(1));
        }
    }
    is_unread::<C>(&later, &[], Refusal::alone(1));
    assert_eq!(
        C::piece(&later, &mut [0; 65_534]),
        Ok(counts(65_534, 0, 32_767, 0))
    );
}

// Recordings.

/// "A piece that ends inside a length or a packet, at the end of a recording, is handed on as it is".
fn recordings_of_nothing_and_cut_ones<C: Converter>() {
    for asked in [to_older(b'F'), to_later()] {
        assert_eq!(C::piece(&asked, &mut []), Ok(counts(0, 0, 0, 0)));
        for byte in [0, 1, 255] {
            let mut one = [byte];
            assert_eq!(C::piece(&asked, &mut one), Ok(counts(0, 0, 0, 0)));
            assert_eq!(one, [byte]);
        }
    }
    // Two packets and a third that is cut: what is left of it stays, a good Symbol Update too.
    let typed = |byte| record(1, &update(byte));
    let packets = |byte| recording(&[typed(byte), typed(byte), typed(byte)]);
    let (first, wanted) = (packets(9), packets(b'F'));
    for length in 0..=first.len() {
        let mut bytes = first[..length].to_vec();
        let whole = length / 54;
        let told = C::piece(&to_older(b'F'), &mut bytes);
        assert_eq!(told, Ok(counts(whole * 54, whole as u64, 0, 0)));
        assert_eq!(bytes[..whole * 54], wanted[..whole * 54]);
        assert_eq!(bytes[whole * 54..], first[whole * 54..length]);
        assert_eq!(
            sheet_text(V1_3, &bytes).lines().next(),
            sheet_text(V1_3b, &first[..length]).lines().next()
        );
    }
    // A length that promises more than there is.
    for promised in [53_u16, 1_500, 1_501, 65_535] {
        let mut bytes = promised.to_le_bytes().to_vec();
        bytes.extend(typed(9));
        let before = bytes.clone();
        let told = C::piece(&to_older(b'F'), &mut bytes);
        assert_eq!((told, bytes), (Ok(counts(0, 0, 0, 0)), before));
    }
    // The longest packet, alone and one byte short of it.
    let mut longest = recording(&[vec![1; 65_535], typed(9)]);
    assert_eq!(ALWAYS_A_PACKET, 65_537);
    let told = C::piece(&to_older(b'F'), &mut longest[..65_536]);
    assert_eq!(told, Ok(counts(0, 0, 0, 0)));
    let told = C::piece(&to_older(b'F'), &mut longest[..65_537]);
    assert_eq!(told, Ok(counts(65_537, 0, 1, 0)));
    assert_eq!(longest, recording(&[vec![1; 65_535], typed(9)]));
    let told = C::piece(&to_older(b'F'), &mut longest);
    assert_eq!(told, Ok(counts(65_591, 1, 1, 0)));
    assert_eq!(longest, recording(&[vec![1; 65_535], typed(b'F')]));
}

/// A recording as a caller converts it, piece by piece: "so that the caller hands on as many, and puts the rest in front
/// of the next piece". What was handed on, at the end the rest too, and the sums.
fn in_pieces<C: Converter>(asked: &Asked, pieces: &[&[u8]]) -> (Vec<u8>, Counts) {
    let (mut handed_on, mut memory) = (Vec::new(), Vec::new());
    let mut sums = Counts::default();
    for piece in pieces {
        memory.extend_from_slice(piece);
        let told = C::piece(asked, &mut memory).expect("good types");
        sums.add(&told);
        handed_on.extend(memory.drain(..told.bytes as usize));
    }
    handed_on.extend(memory);
    (handed_on, sums)
}

/// A recording of every kind of packet, cut in two in every place, in pieces of every length, and with empty ones.
fn pieces_cut_at_every_place<C: Converter>() {
    let first = recording(&[
        record(1, &update(b'E')),
        record(2, &update(9)),
        vec![],
        [record(3, &update(b'F')), record(4, &time(1))].concat(),
        vec![7],
        record(5, &add_order(0, 7, 1, b'B', 1, 1)),
        record(6, &update(b'F')),
    ]);
    for cut in [0, 1, 30] {
        let bytes = &first[..first.len() - cut];
        for (asked, told) in [
            (to_older(b'F'), (4, 2, 0)),
            (to_later(), (3, 2, 1)),
            (asked(V1_3, V1_3, b'E', vec![]), (3, 3, 0)),
        ] {
            let mut whole = bytes.to_vec();
            let sums = C::piece(&asked, &mut whole).unwrap();
            let last = u64::from(cut > 0);
            let left = if cut > 0 { 54 } else { 0 };
            assert_eq!(
                sums,
                counts(first.len() - left, told.0 - last, told.1, told.2)
            );
            let wanted = (whole, sums);
            for at in 0..=bytes.len() {
                let (front, rest) = bytes.split_at(at);
                assert_eq!(in_pieces::<C>(&asked, &[front, rest]), wanted, "at {at}");
                let empty: &[u8] = &[];
                let pieces = [empty, front, empty, rest, empty];
                assert_eq!(in_pieces::<C>(&asked, &pieces), wanted, "at {at}");
            }
            for length in 1..=bytes.len() {
                let pieces: Vec<&[u8]> = bytes.chunks(length).collect();
                assert_eq!(in_pieces::<C>(&asked, &pieces), wanted, "of {length}");
            }
        }
    }
}

/// Copies on the shelf: "they are differing copies (14) before, and repeats (13) after it". Copies that differ in
/// another byte too are differing ones still.
fn copies_that_differ_in_byte_20_alone<C: Converter>() {
    let mut other_lot = update(b'F');
    other_lot[23] = 99;
    let packets = [
        (record(2, &update(b'E')), [1, 0, 0, 0, 0], [1, 0, 0, 0, 0]),
        (record(2, &update(b'E')), [0, 0, 0, 1, 0], [0, 0, 0, 1, 0]),
        (record(2, &update(b'F')), [0, 0, 0, 0, 1], [0, 0, 0, 1, 0]),
        (record(2, &other_lot), [0, 0, 0, 0, 1], [0, 0, 0, 0, 1]),
        (record(2, &time(1)), [0, 0, 0, 0, 1], [0, 0, 0, 0, 1]),
        (record(1, &time(1)), [1, 0, 0, 0, 0], [1, 0, 0, 0, 0]),
        (record(2, &update(b'F')), [0, 1, 0, 0, 0], [0, 1, 0, 0, 0]),
    ];
    for from in EDITIONS {
        for to in EDITIONS {
            let asked = asked(from, to, b'E', vec![]);
            let (mut one, mut other) = (Desk::new(from, 2, 2), Desk::new(to, 2, 2));
            for (packet, before, after) in &packets {
                let mut converted = packet.clone();
                assert!(C::convert(&asked, &mut converted).is_ok());
                let answer = one.give(packet).expect("a good packet");
                assert_eq!(answer.counts(), *before);
                let answer = other.give(&converted).expect("a good packet");
                assert_eq!(answer.counts(), *after);
            }
            assert_eq!((one.state.next, other.state.next), (3, 3));
        }
    }
}

/// "Converting a good packet there and back gives the first one again but for byte 20 of its Symbol Updates, and exactly
/// the first one where the types asked for are those it had, or its reserved bytes were 0."
fn good_packets_there_and_back<C: Converter>() {
    let (mut exact, mut updates) = (0, 0);
    for seed in seeds(300) {
        let mut dice = Dice::new(seed);
        let from = dice.pick(&EDITIONS);
        let list = list(dice.bits(), ListSettings::drawn(&mut dice).of(from));
        for first in delivery(from, dice.bits(), &list, rough_delivery(dice.bits())) {
            if read_packet(from, &first).is_err() {
                continue;
            }
            // The types that it had, where no symbol has two: the first exception of an ID counts.
            let mut others = Vec::new();
            for place in updates_in(&first) {
                let symbol = u32::from_le_bytes(first[place + 5..place + 9].try_into().unwrap());
                others.extend(by_id(
                    symbol,
                    if from == V1_3 {
                        first[place + 20]
                    } else {
                        b'E'
                    },
                ));
            }
            let there = asked(from, from.other(), b'E', others.clone());
            let back = asked(from.other(), from, b'F', others);
            let mut packet = first.clone();
            let count = updates_in(&first).len() as u64;
            assert_eq!(C::convert(&there, &mut packet), Ok(count), "seed {seed}");
            assert_eq!(C::convert(&back, &mut packet), Ok(count), "seed {seed}");
            updates += count;
            let mut differs = false;
            for place in updates_in(&first) {
                differs |= packet[place + 20] != first[place + 20];
                let zero = from == V1_3b && first[place + 20] == 0;
                assert!(!zero || packet[place + 20] == 0, "seed {seed}");
                packet[place + 20] = first[place + 20];
            }
            assert_eq!(packet, first, "seed {seed}");
            exact += u64::from(!differs && count > 0);
        }
    }
    if all_seeds() {
        assert!(exact > 300 && updates > 2 * exact, "{exact} of {updates}");
    }
}

// Seeded recordings, and what is the same afterwards.

/// The packets of a seed with all that may be among them, in a recording that may be cut; and what is asked for, by
/// turns from and to each edition, the recording being of either.
fn rough_recording(seed: u64) -> (Asked, Vec<u8>) {
    let pick = |bit: u64| EDITIONS[(seed >> bit & 1) as usize];
    let mut dice = Dice::new(seed ^ 0xC0FFEE);
    let drawn = drawn_recording(pick(0), seed);
    let (packets, whole) = packets_of(&drawn);
    let packets = roughened(&mut dice, &packets);
    let asked = asked_between(&mut dice, pick(1), pick(2), &packets);
    let mut bytes = recording(&packets);
    if !whole {
        bytes.truncate(dice.below(bytes.len() as u64 + 1) as usize);
    }
    (asked, bytes)
}

/// Two receivers at full capacities, one given the packets and the other the converted ones.
struct Both {
    one: Desk,
    other: Desk,
    /// Copies on the shelf that were differing before and are repeats after it.
    moved: u64,
}

impl Both {
    fn new(asked: &Asked) -> Both {
        Both {
            one: Desk::full(asked.from),
            other: Desk::full(asked.to),
            moved: 0,
        }
    }

    /// One record to each, which is answered alike "but for second copies that differ from the first in byte 20 of a
    /// Symbol Update alone".
    fn record(&mut self, number: u64, body: &[u8], converted: &[u8]) {
        let waiting = slot(&self.one.shelf, number)[10..].to_vec();
        let mut padded = body.to_vec();
        padded.resize(64, 0);
        let before = self.one.give(&record(number, body)).unwrap();
        let mut after = self.other.give(&record(number, converted)).unwrap();
        if before.differing == 1 && differ_in_byte_20_alone(&waiting, &padded) {
            assert_eq!((after.repeats, after.differing), (1, 0));
            (after.repeats, after.differing) = (0, 1);
            self.moved += 1;
        }
        assert_eq!(before, after);
    }

    /// "next, applied, the highest number on the shelf, the stop and the second are the same, and so are the order table
    /// and, but for byte 20 of its entries, the symbol table"
    fn same(&self) {
        let (one, other) = (&self.one, &self.other);
        assert_eq!(one.orders, other.orders);
        let (mine, others) = (&one.state, &other.state);
        assert_eq!(
            (mine.next, mine.second, mine.stop),
            (others.next, others.second, others.stop)
        );
        for (mine, others) in one.symbols.chunks(42).zip(other.symbols.chunks(42)) {
            assert_eq!((&mine[..20], &mine[21..]), (&others[..20], &others[21..]));
        }
    }
}

/// The lines of `answers`, but for what may differ: the refusals of packets, 13 and 14 as their sum, and byte 20 of
/// entries.
fn lines(edition: Edition, recording: &[u8]) -> Vec<String> {
    let text = String::from_utf8(answers_of_recording(edition, recording).unwrap()).unwrap();
    let mut lines = Vec::new();
    for line in text.lines() {
        let mut words: Vec<String> = line.split(' ').map(str::to_string).collect();
        match words[0].as_str() {
            "refused" => words.truncate(1),
            "entry" => words[2 + 20] = "any".to_string(),
            "second" | "row" | "symbol" | "bid" | "ask" => {}
            _ => {
                let copies: u64 =
                    words[3].parse::<u64>().unwrap() + words[4].parse::<u64>().unwrap();
                words.splice(3..5, [copies.to_string()]);
            }
        }
        lines.push(words.join(" "));
    }
    lines
}

/// "What is the same afterwards" of docs/CONVERT.md, of some hundred recordings in both directions and in none, good and
/// bad, of either edition, whole and cut.
fn seeded_recordings_are_the_same_afterwards<C: Converter>() {
    let mut sums = [Counts::default(); 8];
    let (mut moved, mut cut, mut types) = (0, 0, [0; 2]);
    for seed in seeds(320) {
        let (asked, before) = rough_recording(seed);
        let mut after = before.clone();
        let told = C::piece(&asked, &mut after).unwrap();
        assert_eq!(after.len(), before.len(), "seed {seed}");
        let (packets, whole) = packets_of(&before);
        let (converted, still) = packets_of(&after);
        assert_eq!(whole, still, "seed {seed}");
        assert_eq!(packets.len(), converted.len(), "seed {seed}");
        let end = told.bytes as usize;
        assert_eq!(before[end..], after[end..], "seed {seed}");

        let mut both = Both::new(&asked);
        let mut counted = counts(0, 0, 0, 0);
        for (packet, converted) in packets.iter().zip(&converted) {
            counted.bytes += 2 + packet.len() as u64;
            let records = match read_packet(asked.from, packet) {
                Ok(records) => records,
                Err(refusal) => {
                    // Refused before and after, passed on as it is or barred.
                    assert!(read_packet(asked.to, converted).is_err(), "seed {seed}");
                    let mut wanted = packet.to_vec();
                    if read_packet(asked.to, packet).is_ok() {
                        wanted[refusal.offset.unwrap() + 1] = 0;
                        counted.barred += 1;
                    } else {
                        counted.unread += 1;
                    }
                    assert_eq!(*converted, wanted, "seed {seed}");
                    continue;
                }
            };
            let others = read_packet(asked.to, converted).expect("taken before and after");
            assert_eq!(records.len(), others.len(), "seed {seed}");
            for (record, other) in records.iter().zip(&others) {
                assert_eq!(record.number, other.number, "seed {seed}");
                let mut wanted = record.body.to_vec();
                if record.body[0] == 1 {
                    counted.updates += 1;
                    wanted[20] = wanted_type(&asked, record.body);
                    types[usize::from(wanted[20] == b'F')] += u64::from(wanted[20] != 0);
                }
                assert_eq!(other.body, wanted, "seed {seed}");
                both.record(record.number, record.body, other.body);
            }
            both.same();
        }
        assert_eq!(told, counted, "seed {seed}");

        // The same as texts: a packet's line before is one after, refused or not.
        let (mine, others) = (lines(asked.from, &before), lines(asked.to, &after));
        assert_eq!(mine, others, "seed {seed}");
        let sheets = [(asked.from, &before), (asked.to, &after)]
            .map(|(edition, bytes)| typeless(&sheet_text(edition, bytes)));
        assert_eq!(sheets[0], sheets[1], "seed {seed}");
        sums[(seed % 8) as usize].add(&told);
        moved += both.moved;
        cut += u64::from(!whole);
    }
    if all_seeds() {
        for (place, sums) in sums.iter().enumerate() {
            assert!(sums.updates > 300 && sums.unread > 100, "{place}: {sums:?}");
            // EDITIONS has 1.3 first: bit 1 is clear from 1.3, and bit 2 set to 1.3.b.
            let bars = place >> 1 & 1 == 0 && place >> 2 & 1 == 1;
            assert_eq!(sums.barred > 50, bars, "{place}: {sums:?}");
            assert_eq!(sums.barred > 0, bars, "{place}: {sums:?}");
        }
        assert!(moved > 200 && cut > 50, "{moved}, {cut}");
        assert!(types.iter().all(|count| *count > 1_000), "{types:?}");
    }
}

/// Byte 20 that a Symbol Update must get, exception by exception from the last to the first.
fn wanted_type(asked: &Asked, update: &[u8]) -> u8 {
    if asked.to == V1_3b {
        return 0;
    }
    let mut kind = asked.kind;
    for exception in asked.others.chunks(13).rev() {
        let id = exception[0] == 0 && exception[1..5] == update[5..9];
        let ticker = exception[0] == 1 && exception[1..12] == update[9..20];
        if id || ticker {
            kind = exception[12];
        }
    }
    kind
}

/// The same recordings in pieces of any length come to the same.
fn seeded_recordings_in_pieces<C: Converter>() {
    for seed in seeds(160) {
        let (asked, bytes) = rough_recording(seed);
        let mut whole = bytes.clone();
        let sums = C::piece(&asked, &mut whole).unwrap();
        let mut dice = Dice::new(seed);
        let (mut pieces, mut rest) = (Vec::new(), &bytes[..]);
        while !rest.is_empty() {
            let most = dice.pick(&[100, 1_000, 9_000, 70_000]);
            let (piece, behind) = rest.split_at(dice.below(most).min(rest.len() as u64) as usize);
            pieces.push(piece);
            rest = behind;
        }
        assert!(
            in_pieces::<C>(&asked, &pieces) == (whole, sums),
            "seed {seed}"
        );
    }
}

/// A whole recording, in memory of 65,537 bytes, comes to what it comes to as one piece.
#[test]
fn whole_recordings_of_the_second_program() {
    let mut all: Vec<(Asked, Vec<u8>)> = seeds(80).into_iter().map(rough_recording).collect();
    for name in example_recordings() {
        all.push((to_older(b'F'), example_file(&name)));
        all.push((to_later(), example_file(&name)));
    }
    let typed = record(1, &update(b'E'));
    let longest = recording(&[typed.clone(), vec![1; 65_535], vec![2; 65_535], typed]);
    all.push((to_later(), longest.clone()));
    all.push((to_later(), longest[..longest.len() - 1].to_vec()));
    all.push((to_later(), vec![]));
    let mut long = 0;
    for (asked, bytes) in all {
        let (mut one, mut other) = (bytes.clone(), bytes.clone());
        let told = convert_recording(&asked, &mut one);
        assert_eq!(told, convert_piece(&asked, &mut other));
        assert!(one == other);
        long += u64::from(bytes.len() > ALWAYS_A_PACKET);
        let wrong = Asked {
            others: vec![0; 12],
            ..asked
        };
        assert_eq!(convert_recording(&wrong, &mut one), Err(6));
        assert!(one == other);
    }
    assert!(!all_seeds() || long > 5, "{long}");
}

/// The boundary's numbers: "1 is 1.3, and any other 1.3.b", the offset above the number, and memory that a refusal
/// leaves.
#[cfg(linked)]
#[test]
fn numbers_at_the_boundary() {
    const NUMBERS: [u64; 8] = [0, 1, 2, 7, 257, (1 << 32) + 1, (1 << 63) + 1, u64::MAX];
    for from in NUMBERS {
        for to in NUMBERS {
            let bar = from == 1 && to != 1;
            let wanted = if to == 1 { b'F' } else { 0 };
            let (mut packet, mut updates) = (example(b'E'), [9]);
            let answer = lent::convert(from, to, b'F', &[], &mut packet, &mut updates);
            assert_eq!((answer, updates), (0, [1]));
            assert_eq!(packet, example(wanted));
            // Without a letter 1.3 refuses it, 4 at 45.
            let (mut packet, mut updates) = (example(9), [9]);
            let answer = lent::convert(from, to, b'F', &[], &mut packet, &mut updates);
            let mut bytes = recording(&[example(9), vec![]]);
            let mut counts = [9; 4];
            let told = lent::convert_piece(from, to, b'F', &[], &mut bytes, &mut counts);
            assert_eq!(told, 0);
            if from == 1 {
                assert_eq!((answer, updates), (4 + 256 * 45, [9]));
                assert_eq!(packet, example(9));
                assert_eq!(counts, [203, 0, 2 - u64::from(bar), u64::from(bar)]);
                let byte_21 = if bar { 0 } else { b'N' };
                assert_eq!((bytes[2 + 45], bytes[2 + 46]), (9, byte_21));
            } else {
                assert_eq!((answer, updates), (0, [1]));
                assert_eq!(packet, example(wanted));
                assert_eq!(counts, [203, 1, 1, 0]);
            }
            // 6, 4, and the packet's refusals, with every number and byte as it was.
            let older = to == 1;
            for (kind, others, packet, refusal) in [
                (b'F', vec![b'F'; 12], example(b'E'), 6),
                (0, vec![0; 14], vec![], 6),
                (0, vec![b'F'; 13], vec![], if older { 4 } else { 1 }),
                (b'E', vec![0; 26], vec![], if older { 4 } else { 1 }),
                (b'E', vec![b'F'; 13], vec![], 1),
                (b'E', vec![], vec![1; 9], 2),
                (b'E', vec![], record(0, &time(1)), 5),
                (b'E', vec![], record(1, &[]), 256 * 10 + 3),
            ] {
                let (mut bytes, mut updates) = (packet.clone(), [9]);
                let answer = lent::convert(from, to, kind, &others, &mut bytes, &mut updates);
                assert_eq!((answer, updates, &bytes), (refusal, [9], &packet));
                let mut bytes = recording(&[packet]);
                let (before, mut counts) = (bytes.clone(), [9; 4]);
                let told = lent::convert_piece(from, to, kind, &others, &mut bytes, &mut counts);
                assert_eq!(bytes, before);
                match refusal {
                    4 | 6 => assert_eq!((u32::from(told), counts), (refusal, [9; 4])),
                    _ => assert_eq!((told, counts), (0, [before.len() as u64, 0, 1, 0])),
                }
            }
        }
    }
}

// What the generators make.

/// Symbol Updates are found wherever they are, and whatever lies behind them.
#[test]
fn symbol_updates_are_found_in_packets() {
    let one = record(1, &update(0));
    for (packet, places) in [
        (vec![], vec![]),
        (one.clone(), vec![10]),
        (one[..51].to_vec(), vec![]),
        ([&one[..], &one, &[1]].concat(), vec![10, 62]),
        ([record(1, &time(1)), one.clone()].concat(), vec![25]),
        ([record(1, &[]), one.clone()].concat(), vec![20]),
        (claiming(1, 43, &update(0)), vec![]),
        (record(1, &update(0)[..41]), vec![]),
        (record(1, &[update(0), vec![0]].concat()), vec![]),
        ([record(0, &update(0)), one].concat(), vec![10, 62]),
    ] {
        assert_eq!(updates_in(&packet), places, "{packet:?}");
    }
    assert!(differ_in_byte_20_alone(&update(b'E'), &update(b'F')));
    assert!(!differ_in_byte_20_alone(&update(b'E'), &update(b'E')));
    assert!(!differ_in_byte_20_alone(&time(1), &time(2)));
    let (one, other) = (
        trade(1, 2, 3, 4, 5 << 16, 6, 7),
        trade(1, 2, 3, 4, 6 << 16, 6, 7),
    );
    assert!(!differ_in_byte_20_alone(&one, &other));
}

/// What is drawn to be asked for is not refused; exceptions of each kind are used, and some are not.
#[test]
fn what_is_drawn_to_be_asked() {
    let mut used = [0; 3];
    for seed in seeds(200) {
        let (asked, bytes) = rough_recording(seed);
        assert_eq!(asked.judged(), Ok(()), "seed {seed}");
        for packet in packets_of(&bytes).0 {
            for place in updates_in(packet) {
                let exception = asked.exception_of(&packet[place..]);
                used[exception.map_or(2, |exception| usize::from(exception[0]))] += 1;
            }
        }
    }
    assert!(
        !all_seeds() || used.iter().all(|count| *count > 500),
        "{used:?}"
    );
}

/// What `compare` counts, of packets and of pieces.
#[test]
fn conversions_are_counted() {
    let counted = |seen: &Conversions| -> Vec<String> {
        let seen = seen.seen().into_iter().filter(|(_, count)| *count > 0);
        seen.map(|(what, _)| what.replace("converted, ", ""))
            .collect()
    };
    let (typed, bare) = (record(1, &update(b'E')), record(1, &update(9)));
    let two = [typed.clone(), typed.clone()].concat();
    let older = |kind: u8, all: &[(u8, &[u8; 11], u8)]| asked(V1_3, V1_3, kind, exceptions(all));
    let seven = b"\x07\0\0\0\0\0\0\0\0\0\0";
    let cut_off = asked(V1_3, V1_3, b'E', vec![0; 12]);
    let far = b"\x07\0\0\x01\0\0\0\0\0\0\0";
    for (asked, packet, wanted) in [
        (cut_off.clone(), &typed, &["a packet, 6"][..]),
        (
            Asked {
                kind: 0,
                ..cut_off.clone()
            },
            &vec![],
            &[
                "a packet, 6",
                "a packet, 6 before 4",
                "a packet, 6 before its own refusal",
            ],
        ),
        (
            older(b'G', &[]),
            &typed,
            &["a packet, 4 for the type of all"],
        ),
        (
            older(b'E', &[(2, seven, 0)]),
            &bare,
            &[
                "a packet, 4 for an exception alone",
                "a packet, 4 before its own refusal",
            ],
        ),
        (older(b'E', &[]), &vec![], &["a packet refused with 1"]),
        (older(b'E', &[]), &vec![1], &["a packet refused with 2"]),
        (
            older(b'E', &[]),
            &record(1, &[]),
            &["a packet refused with 3"],
        ),
        (older(b'E', &[]), &bare, &["a packet refused with 4"]),
        (
            older(b'E', &[]),
            &record(0, &time(1)),
            &["a packet refused with 5"],
        ),
        (
            older(b'E', &[]),
            &record(1, &time(1)),
            &["a packet with no Symbol Update"],
        ),
        (
            older(b'E', &[]),
            &typed,
            &["a packet with one Symbol Update"],
        ),
        (
            older(b'E', &[(0, seven, b'F')]),
            &two,
            &["a packet with several Symbol Updates", "an exception by ID"],
        ),
        (
            older(b'E', &[(1, b"ABC        ", b'F'), (0, seven, b'F')]),
            &typed,
            &[
                "a packet with one Symbol Update",
                "an exception by ticker",
                "an exception before a later one",
            ],
        ),
        (
            older(b'E', &[(9, seven, b'F'), (0, far, b'F')]),
            &typed,
            &[
                "a packet with one Symbol Update",
                "a mark by which a name names none",
                "a name but for its last byte",
                "no exception among several",
            ],
        ),
        (to_later(), &typed, &["a packet with one Symbol Update"]),
    ] {
        let (mut seen, mut bytes) = (Conversions::default(), packet.clone());
        let answer = convert(&asked, &mut bytes);
        seen.note_packet(&asked, packet, &answer);
        assert_eq!(counted(&seen), wanted, "{asked:?}");
        let mut sum = seen.clone();
        sum.add(&seen);
        assert_eq!(counted(&sum), wanted, "{asked:?}");
        assert_ne!(sum, seen);
    }
    for (asked, bytes, wanted) in [
        (cut_off, recording(&[typed.clone()]), "a piece, 6"),
        (older(b'G', &[]), vec![], "a piece, 4"),
        (to_later(), vec![1], "a piece without a whole packet"),
        (
            to_later(),
            recording(&[typed]),
            "a piece with Symbol Updates",
        ),
        (
            to_later(),
            vec![0, 0],
            "a piece with packets passed on unread",
        ),
        (
            to_later(),
            recording(&[bare]),
            "a piece with barred packets",
        ),
    ] {
        let (mut seen, mut piece) = (Conversions::default(), bytes);
        seen.note_piece(&convert_piece(&asked, &mut piece));
        assert_eq!(counted(&seen), [wanted]);
    }
    let mut seen = Conversions::default();
    seen.note_numbers(0, 1);
    assert!(counted(&seen).is_empty());
    seen.note_numbers(2, u64::MAX);
    assert_eq!(counted(&seen), ["from another number", "to another number"]);
}
