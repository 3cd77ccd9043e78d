//! The sheet's bytes, recordings whole and cut, and the examples.

mod common;
use common::*;
use second::examples::*;
use second::morning::*;
use second::packet::*;
use second::reading::{first_fault, judged_fields, Fault, JUDGED_FIELDS};
use second::sheet::*;
use std::collections::{BTreeMap, BTreeSet};

fn sheet_text(recording: &[u8]) -> String {
    String::from_utf8(sheet_of_recording(V1_3b, recording).unwrap()).unwrap()
}

const EMPTY: &str = "recording=whole\nbad=0\nnext=1\nstop=0\nsecond=0\nsymbols=0\norders=0\n";

fn empty_but(line: &str, instead: &str) -> String {
    assert!(EMPTY.contains(line));
    EMPTY.replace(line, instead)
}

#[test]
fn an_empty_recording_is_whole() {
    assert_eq!(sheet_text(&[]), EMPTY);
}

#[test]
fn cut_inside_a_length_or_a_packet() {
    let cut = empty_but("recording=whole", "recording=cut");
    let recording = morning_recording();
    for length in 1..recording.len() {
        assert_eq!(sheet_text(&recording[..length]), cut, "length {length}");
    }
    assert_eq!(sheet_text(&recording), MORNING_SHEET);
    // The last piece is dropped, not bad, and what came before it counts.
    for piece in [
        vec![9],
        vec![15, 0],
        vec![15, 0, 1],
        vec![221, 5, 0],
        vec![255, 255],
    ] {
        let longer = [recording.clone(), piece].concat();
        assert_eq!(
            sheet_text(&longer),
            MORNING_SHEET.replace("recording=whole", "recording=cut")
        );
    }
}

#[test]
fn lengths_0_and_above_1500_are_one_bad_packet_each() {
    assert_eq!(sheet_text(&[0, 0]), empty_but("bad=0", "bad=1"));
    assert_eq!(sheet_text(&[0, 0, 0, 0]), empty_but("bad=0", "bad=2"));
    for length in [1_501, 2_000, 65_535] {
        // What lies in a packet that is too long is no packet, however good it looks.
        let mut long = morning_recording();
        long.resize(length, 0);
        let recording = recording(&[long.clone()]);
        assert_eq!(sheet_text(&recording), empty_but("bad=0", "bad=1"));
        let cut = &recording[..recording.len() - 1];
        assert_eq!(
            sheet_text(cut),
            empty_but("recording=whole", "recording=cut")
        );
        let followed = [recording, morning_recording()].concat();
        assert_eq!(
            sheet_text(&followed),
            MORNING_SHEET.replace("bad=0", "bad=1")
        );
    }
    // 1,500 is good.
    let records: Vec<_> = (1..=100).map(|n| (n, time(n as u32))).collect();
    let text = sheet_text(&recording(&[packet(&records)]));
    assert_eq!(
        text,
        EMPTY
            .replace("next=1", "next=101")
            .replace("second=0", "second=100")
    );
}

#[test]
fn a_refused_packet_is_passed_over() {
    let list = example_list();
    let mut packets = Vec::new();
    for refusal in 1..=5 {
        packets.push(bad_packet(V1_3b, refusal as u64, &list, refusal));
        packets.push(packet(&numbered(&list, refusal as usize, 1)));
    }
    let text = sheet_text(&recording(&packets));
    assert_eq!(text, MORNING_SHEET.replace("bad=0", "bad=5"));
}

#[test]
fn the_stop_is_that_of_the_last_accepted_packet() {
    let mut packets = vec![packet(&numbered(&example_list(), 1, 5))];
    packets.push(packet(&[(6, execute(7, 500, 101))]));
    let stopped = MORNING_SHEET.replace("stop=0", "stop=24");
    assert_eq!(sheet_text(&recording(&packets)), stopped);
    packets.push(vec![0; 9]);
    let text = sheet_text(&recording(&packets));
    assert_eq!(text, stopped.replace("bad=0", "bad=1"));
    packets.push(packet(&[(1, time(1))]));
    let text = sheet_text(&recording(&packets));
    assert_eq!(text, stopped.replace("bad=0", "bad=1"));
}

#[test]
fn tickers() {
    for (ticker, shown) in [
        (b"ABC        ", "ABC"),
        (b"A B C      ", "A B C"),
        (b"  ABC      ", "  ABC"),
        (b"           ", ""),
        (b"ABCDEFGHIJK", "ABCDEFGHIJK"),
        (b"ABC\0       ", "ABC."),
        (b"ABC       \0", "ABC       ."),
        (b"ABC   \0    ", "ABC   ."),
        (b"\0\x01\x1f !~\x7f\x80\xff\n\t", "... !~....."),
        (b"a=b\nc=d    ", "a=b.c=d"),
        (b"\xa0\xa0\xa0        ", "..."),
    ] {
        let body = symbol_update(0, 7, ticker, 65_535);
        let text = sheet_text(&recording(&[packet(&[(1, body)])]));
        let wanted = format!(
            "{}symbol=7\nticker={shown}\nlot=65535\nspread=none\n",
            EMPTY
                .replace("next=1", "next=2")
                .replace("symbols=0", "symbols=1")
        );
        assert_eq!(text, wanted);
    }
}

#[test]
fn ten_levels_a_side_and_symbols_in_table_order() {
    let mut packets = vec![packet(&[(1, update(9)), (2, update(3)), (3, update(5))])];
    let mut number = 3;
    for level in 1..=12 {
        number += 1;
        packets.push(packet(&[(number, buy(3, level, 100 + level, 1))]));
        number += 1;
        packets.push(packet(&[(number, sell(9, 50 + level, 200 + level, 2))]));
    }
    let mut wanted = "recording=whole\nbad=0\nnext=28\nstop=0\nsecond=0\nsymbols=3\norders=24\n\
                      symbol=9\nticker=ABC\nlot=100\nspread=none\n"
        .to_string();
    for price in 201..=210 {
        wanted.push_str(&format!("ask={price} 2 1\n"));
    }
    wanted.push_str("symbol=3\nticker=ABC\nlot=100\nspread=none\n");
    for price in (103..=112).rev() {
        wanted.push_str(&format!("bid={price} 1 1\n"));
    }
    wanted.push_str("symbol=5\nticker=ABC\nlot=100\nspread=none\n");
    assert_eq!(sheet_text(&recording(&packets)), wanted);
}

#[test]
fn sheets_of_altered_receivers() {
    let mut desk = Desk::example();
    // Two used entries of one symbol each print their block; orders of an unknown symbol count.
    let entry = desk.symbols[..42].to_vec();
    desk.symbols[84..126].copy_from_slice(&entry);
    desk.symbols[42] = 9;
    desk.orders[15..20].copy_from_slice(&[1, 99, 1, 1, 1]);
    desk.state.next = LAST_NUMBER + 1;
    desk.state.stop = 27;
    let text = sheet(desk.state, &desk.orders, &desk.symbols, u64::MAX, false).unwrap();
    let block = "symbol=7\nticker=ABC\nlot=100\nspread=20000\nbid=10000000 150 2\n\
                 ask=10020000 200 1\n";
    let wanted = format!(
        "recording=cut\nbad=18446744073709551615\nnext=1000000000001\nstop=27\nsecond=34200\n\
         symbols=2\norders=4\n{block}{block}"
    );
    assert_eq!(String::from_utf8(text).unwrap(), wanted);
    assert_eq!(sheet(desk.state, &[], &desk.symbols, 0, true), Err(6));
    assert_eq!(sheet(desk.state, &desk.orders, &[1; 43], 0, true), Err(6));
    for next in [0, LAST_NUMBER + 2] {
        desk.state.next = next;
        assert_eq!(
            sheet(desk.state, &desk.orders, &desk.symbols, 0, true),
            Err(6)
        );
    }
}

#[test]
fn the_example_files_are_those_that_make_examples_writes() {
    assert!(example_file("morning.rec") == morning_recording());
    assert!(example_file("morning.sheet") == MORNING_SHEET.as_bytes());
    let long = long_recording();
    assert!(long.len() < 200_000);
    assert!(example_file("long.rec") == long);
    assert!(example_file("long.sheet") == sheet_of_recording(V1_3b, &long).unwrap());
}

/// The numbers of a packet's records, if they are the list's but for one that has 1,000,000,000 in its
/// Timestamp.
fn tap_fault(packet: &[u8], list: &[Vec<u8>]) -> Option<Vec<u64>> {
    let (mut numbers, mut faults) = (Vec::new(), 0);
    let mut rest = packet;
    while !rest.is_empty() {
        let number = little(rest.get(..8)?);
        let end = 10 + little(rest.get(8..10)?) as usize;
        let (body, own) = (
            rest.get(10..end)?,
            list.get(number.checked_sub(1)? as usize)?,
        );
        if body != own {
            let mut faulty = own.clone();
            set_timestamp(&mut faulty, 1_000_000_000);
            faults += 1;
            if body != faulty {
                return None;
            }
        }
        numbers.push(number);
        rest = &rest[end..];
    }
    (faults == 1).then_some(numbers)
}

/// The long recording has what it is there for.
#[test]
fn the_long_recording_shows_everything() {
    let list = long_list();
    let mut kinds: Vec<u8> = list.iter().map(|body| body[0]).collect();
    kinds.sort();
    kinds.dedup();
    assert_eq!(kinds.len(), 11);
    let undefined = |body: &&Vec<u8>| body[0] == MODIFY_ORDER && body[FLAGS_OF_MODIFY] > 1;
    assert!(list.iter().filter(undefined).count() > 100);

    let mut desk = Desk::full(V1_3b);
    // The same records one to a packet, so that each record's answer is seen.
    let mut shadow = Desk::full(V1_3b);
    let mut answers = [0; 5];
    let mut refused = [0; 7];
    let mut waited = 0;
    let mut by_undefined_bits = 0;
    let (mut tap_faults, mut gap, mut gaps) = (0, 0, 0);
    for packet in long_packets() {
        let tap_fault = tap_fault(&packet, &list);
        match desk.give(&packet) {
            Err(refusal) => {
                refused[refusal.number as usize] += 1;
                if let Some(numbers) = tap_fault {
                    assert_eq!(refusal.number, 4);
                    tap_faults += 1;
                    if numbers.contains(&desk.state.next) {
                        gap = desk.state.next;
                    }
                }
            }
            Ok(answer) => {
                assert_eq!(tap_fault, None);
                gaps += u64::from(answer.next == gap && answer.highest > gap);
                for one in read_packet(V1_3b, &packet).unwrap() {
                    let alone = shadow.give(&record(one.number, one.body)).unwrap();
                    // Whatever is no copy of the list's is told apart (14), so the book is the list's.
                    let own = &list[one.number as usize - 1];
                    assert_eq!(alone.differing == 1, own != one.body);
                    by_undefined_bits += u64::from(differ_in_undefined_bits_alone(own, one.body));
                }
                assert_eq!(shadow, desk);
                for (sum, count) in answers.iter_mut().zip(answer.counts()) {
                    *sum += count;
                }
                waited += u64::from(answer.highest > answer.next);
            }
        }
    }
    let state = desk.state;
    assert!(answers.iter().all(|count| *count > 10), "{answers:?}");
    assert!(refused[1..=5].iter().all(|count| *count > 3), "{refused:?}");
    assert!(waited > 50);
    assert!(by_undefined_bits > 0);
    assert!(tap_faults > 3, "{tap_faults}");
    assert!(gaps > 1, "{gaps}");
    assert_eq!((state.stop, state.next), (24, list.len() as u64 - 20));

    let text = sheet_text(&long_recording());
    assert_eq!(text.matches("spread=-").count(), 1);
    assert_eq!(text.matches("spread=none").count(), 3);
    for ticker in [
        "BRK B",
        "NUL.",
        "PAD      .",
        "....~!",
        "",
        " LEAD",
        "A.B.C",
    ] {
        assert!(text.contains(&format!("ticker={ticker}\n")), "{ticker}");
    }
}

/// The morning of every flag byte comes to the sheet that tools/flags.py states for it, and has what it
/// is there for: no packet that is refused, each flag byte in a Modify that is applied, and differing
/// copies, which differ in undefined bits alone.
#[test]
fn the_morning_of_every_flag_byte() {
    let stored = example_file("flags.rec");
    let wanted = String::from_utf8(example_file("flags.sheet")).unwrap();
    assert_eq!(sheet_text(&stored), wanted);

    let (packets, whole) = packets_of(&stored);
    assert!(whole);
    let mut desk = Desk::full(V1_3b);
    let mut first = BTreeMap::new();
    let mut differing = 0;
    for packet in packets {
        differing += desk.give(packet).expect("no packet is refused").differing;
        for one in read_packet(V1_3b, packet).unwrap() {
            let own = *first.entry(one.number).or_insert(one.body);
            assert!(own == one.body || differ_in_undefined_bits_alone(own, one.body));
        }
    }
    assert!(differing > 0);
    // Of each number the first copy was applied.
    assert_eq!(desk.state.next, first.len() as u64 + 1);
    let modifies = first.values().filter(|body| body[0] == MODIFY_ORDER);
    let flags: BTreeSet<u8> = modifies.map(|body| body[FLAGS_OF_MODIFY]).collect();
    assert!(flags.into_iter().eq(0..=255));
}

/// The morning of the tap fault comes to the sheet that tools/nanoseconds.py states for it, and has what
/// it is there for: each of the ten messages with a Timestamp in a packet that is refused for it alone.
#[test]
fn the_morning_of_the_tap_fault() {
    let stored = example_file("nanoseconds.rec");
    let wanted = String::from_utf8(example_file("nanoseconds.sheet")).unwrap();
    assert_eq!(sheet_text(&stored), wanted);

    // The second of three records, behind an Add of 34 bytes and two headers of 10.
    const TYPE: usize = 54;
    let mut types = BTreeSet::new();
    for packet in packets_of(&stored).0 {
        let Err(refusal) = read_packet(V1_3b, packet) else {
            continue;
        };
        assert_eq!(refusal, Refusal::at(4, TYPE + 1));
        assert_eq!(little(&packet[TYPE + 1..TYPE + 5]), 1_000_000_000);
        let mut mended = packet.to_vec();
        mended[TYPE + 1..TYPE + 5].copy_from_slice(&LAST_NANOSECOND.to_le_bytes());
        assert_eq!(read_packet(V1_3b, &mended).unwrap().len(), 3);
        assert!(types.insert(packet[TYPE]));
    }
    assert_eq!(types.len(), 10);
}

/// The morning of every bad field comes to the sheet that tools/offsets.py states for it, and has what it is
/// there for: each judged field, and each other fault of a record, in the second record of a packet.
#[test]
fn the_morning_of_every_bad_field() {
    let stored = example_file("offsets.rec");
    let wanted = String::from_utf8(example_file("offsets.sheet")).unwrap();
    assert_eq!(sheet_text(&stored), wanted);

    let (mut fields, mut others) = (BTreeSet::new(), Vec::new());
    for packet in packets_of(&stored).0 {
        match first_fault(V1_3b, packet) {
            None => assert!(read_packet(V1_3b, packet).is_ok()),
            Some((2, _, Fault::Field(place))) => assert!(fields.insert(place)),
            Some((2, _, other)) => others.push(other),
            Some((record, _, fault)) => panic!("record {record}: {fault:?}"),
        }
    }
    let fields: Vec<_> = fields
        .into_iter()
        .map(|place| JUDGED_FIELDS[place])
        .collect();
    assert_eq!(fields, judged_fields(V1_3b));
    let wanted = [
        Fault::UnfinishedHeader,
        Fault::BodyPastTheEnd,
        Fault::SequenceNumber,
        Fault::EmptyBody,
        Fault::UnknownType,
        Fault::WrongLength(SYSTEM_TIME),
    ];
    assert_eq!(others, wanted);
}

/// The morning of both editions comes to the sheets that tools/editions.py states for it, and has what it is there
/// for: packets that 1.3 alone refuses, by byte 20, and packets that both refuse, each by the field it judges first.
#[test]
fn the_morning_of_both_editions() {
    let stored = example_file("editions.rec");
    for (edition, name) in [(V1_3, "1.3"), (V1_3b, "1.3.b")] {
        let wanted = example_file(&format!("editions.{name}.sheet"));
        let wanted = String::from_utf8(wanted).unwrap();
        let text = sheet_of_recording(edition, &stored).unwrap();
        assert_eq!(String::from_utf8(text).unwrap(), wanted);
    }
    let field = |edition, packet| match first_fault(edition, packet) {
        None => None,
        Some((_, _, Fault::Field(place))) => Some(JUDGED_FIELDS[place].2),
        Some(_) => Some("another fault"),
    };
    let mut faults = BTreeSet::new();
    for packet in packets_of(&stored).0 {
        faults.insert((field(V1_3, packet), field(V1_3b, packet)));
    }
    for pair in [
        (None, None),
        (Some("security type"), None),
        (Some("nanoseconds"), Some("nanoseconds")),
        (Some("security type"), Some("test indicator")),
        (Some("security type"), Some("market")),
        (Some("another fault"), Some("another fault")),
    ] {
        assert!(faults.contains(&pair), "{pair:?} is not in {faults:?}");
    }
}

/// Document 01's example as a recording of 1.3: byte 20 is an `E`, and all others are those of examples/morning.rec.
#[test]
fn the_example_of_1_3() {
    let (typed, plain) = (example_file("morning-1.3.rec"), morning_recording());
    let differ = |at: &usize| typed[*at] != plain[*at];
    assert_eq!(typed.len(), plain.len());
    // Behind the packet's length, a System Time of 15 bytes and a header of 10.
    let places: Vec<_> = (0..plain.len()).filter(differ).collect();
    assert_eq!(places, [2 + 15 + 10 + 20]);
    assert_eq!(typed[places[0]], b'E');
    let wanted = MORNING_SHEET.replace("lot=", "type=E\nlot=");
    assert!(example_file("morning-1.3.sheet") == wanted.as_bytes());
    assert!(sheet_of_recording(V1_3, &typed).unwrap() == wanted.as_bytes());
    assert_eq!(sheet_text(&typed), MORNING_SHEET);
}

/// Seeded recordings: every one gives a sheet, and together they show every rule and both words.
#[test]
fn seeded_recordings() {
    for edition in EDITIONS {
        seeded_recordings_of(edition);
    }
}

fn seeded_recordings_of(edition: Edition) {
    let mut stops = BTreeSet::new();
    let mut cuts = 0;
    for seed in seeds(100) {
        let recording = drawn_recording(edition, seed);
        let played = play(edition, &recording);
        stops.insert(played.desk.state.stop);
        cuts += u64::from(!played.whole);
        let text = String::from_utf8(sheet_of_recording(edition, &recording).unwrap()).unwrap();
        assert!(text.ends_with('\n') && !text.contains("\n\n"));
        let count = |key| text.lines().filter(|line| line.starts_with(key)).count();
        let types = match edition {
            V1_3 => count("ticker="),
            V1_3b => 0,
        };
        assert_eq!(count("type="), types, "seed {seed}");
    }
    if all_seeds() {
        for rule in [0, 20, 21, 22, 23, 24, 25, 26] {
            assert!(stops.contains(&rule), "{rule}");
        }
        assert!(cuts > 10);
    }
}
