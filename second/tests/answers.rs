//! The lines of `answers`.

mod common;
use common::{example_file, example_path, seeds, Edition, Reference, V1_3b, EDITIONS, V1_3};
use second::answers::answers_of_recording;
use second::examples::*;
use second::morning::{drawn_recording, packed, recording};
use second::packet::{read_packet, Refusal};
use second::sheet::{packets_of, play};
use second::tables::{MOST_ENTRIES, SHEET_ROWS};
use std::collections::BTreeMap;
use std::fmt::Display;
use std::fs::File;
use std::process::{Command, Stdio};

const MORNING: &str = "5 0 0 0 0 6 5 0 0
second 34200
row 0 500 14 10000000 100 3
row 1 501 15 10020000 200 4
row 2 502 14 10000000 50 5
entry 0 1 0 0 0 0 7 0 0 0 65 66 67 32 32 32 32 32 32 32 32 0 78 0 100 0 48 57 58 51 48 58 48 48 \
49 54 58 48 48 58 48 48 72
symbol 7 1 1 20000
bid 10000000 150 2
ask 10020000 200 1
";

fn text(recording: &[u8]) -> String {
    text_in(V1_3b, recording)
}

fn text_in(edition: Edition, recording: &[u8]) -> String {
    String::from_utf8(answers_of_recording(edition, recording).unwrap()).unwrap()
}

#[test]
fn the_example_in_full() {
    assert_eq!(text(&morning_recording()), MORNING);
    assert_eq!(text(&[]), "second 0\n");
}

#[test]
fn refused_and_cut_packets() {
    // 0 bytes, 1,501 bytes, half a record, and a piece that gives no line.
    let mut bytes = recording(&[vec![], vec![0; 1_501], vec![1, 0, 0]]);
    bytes.extend([9, 0, 1]);
    assert_eq!(
        text(&bytes),
        "refused 1\nrefused 1\nrefused 2 at 0\nsecond 0\n"
    );
}

#[test]
fn every_count_has_its_place() {
    let list = example_list();
    let one = |number: u64, place: usize| packed(&[(number, list[place].clone())]).remove(0);
    // Shelved, repeated, differing, too far, applied, old; then symbol 7 without orders.
    let bytes = recording(&[
        one(2, 1),
        one(2, 1),
        one(2, 2),
        one(65, 1),
        one(1, 0),
        one(1, 1),
        one(4, 2),
    ]);
    let wanted = "1 0 0 0 0 1 0 2 0
0 0 0 1 0 1 0 2 0
0 0 0 0 1 1 0 2 0
0 0 1 0 0 1 0 2 0
1 0 0 0 0 3 2 0 0
0 1 0 0 0 3 0 0 0
1 0 0 0 0 3 0 4 0
second 34200
entry 0 ";
    assert!(text(&bytes).starts_with(wanted));
    assert!(text(&bytes).ends_with("\nsymbol 7 0 0 none\n"));
}

fn joined<T: Display>(word: &str, numbers: &[T]) -> String {
    let mut line = word.to_string();
    for number in numbers {
        line.push_str(&format!(" {number}"));
    }
    line
}

/// The front: a line for each whole packet, which tells of as many records as it has, and a next
/// number that grows by what was applied. Answers the lines behind, the last next and the last stop.
fn packets_told<'a>(edition: Edition, bytes: &[u8], lines: &'a str) -> (Vec<&'a str>, u64, u64) {
    let mut rest = lines.lines();
    let (mut next, mut stop) = (1, 0);
    for packet in packets_of(bytes).0 {
        let line = rest.next().expect("a line for each packet");
        match read_packet(edition, packet) {
            Err(Refusal {
                number,
                offset: None,
            }) => assert_eq!(line, format!("refused {number}")),
            Err(Refusal {
                number,
                offset: Some(offset),
            }) => assert_eq!(line, format!("refused {number} at {offset}")),
            Ok(records) => {
                let numbers: Vec<u64> = line.split(' ').map(|word| word.parse().unwrap()).collect();
                let [counts @ .., told, applied, _highest, stopped] = numbers.as_slice() else {
                    panic!("{line}");
                };
                assert_eq!(counts.len(), 5);
                assert_eq!(counts.iter().sum::<u64>(), records.len() as u64);
                next += applied;
                assert_eq!(*told, next);
                stop = *stopped;
            }
        }
    }
    (rest.collect(), next, stop)
}

/// The back: the second, each row and entry that is not free, and each symbol's book, as these
/// tables, which no caller has altered, make them.
fn tables_told(second: u64, orders: &[u64], symbols: &[u8]) -> Vec<String> {
    let mut lines = vec![format!("second {second}")];
    for (place, row) in orders.chunks(5).enumerate() {
        if row != [0; 5] {
            lines.push(joined(&format!("row {place}"), row));
        }
    }
    let used = || symbols.chunks(42).filter(|entry| entry[0] == 1);
    for (place, entry) in used().enumerate() {
        lines.push(joined(&format!("entry {place}"), entry));
    }
    for entry in used() {
        let symbol = u32::from_le_bytes(entry[5..9].try_into().unwrap());
        lines.extend(book_told(symbol, orders));
    }
    lines
}

fn book_told(symbol: u32, orders: &[u64]) -> Vec<String> {
    let mut sides: [BTreeMap<u64, [u64; 2]>; 2] = Default::default();
    for row in orders.chunks(5).filter(|row| *row != [0; 5]) {
        if row[1] / 2 == u64::from(symbol) {
            let level = sides[(row[1] % 2) as usize].entry(row[2]).or_default();
            level[0] += row[3];
            level[1] += 1;
        }
    }
    let [bids, offers] = sides;
    let spread = match (bids.last_key_value(), offers.first_key_value()) {
        (Some((bid, _)), Some((offer, _))) => (*offer as i64 - *bid as i64).to_string(),
        _ => "none".to_string(),
    };
    let mut lines = vec![format!(
        "symbol {symbol} {} {} {spread}",
        bids.len(),
        offers.len()
    )];
    for (price, [shares, orders]) in bids.into_iter().rev() {
        lines.push(joined("bid", &[price, shares, orders]));
    }
    for (price, [shares, orders]) in offers {
        lines.push(joined("ask", &[price, shares, orders]));
    }
    lines
}

/// The program prints these lines for a file of examples/, piped to it or named.
fn program_prints(name: &str, lines: &str) {
    program_prints_in(&[], name, lines);
}

/// The same where these words name an edition.
fn program_prints_in(words: &[&str], name: &str, lines: &str) {
    for (input, arguments) in [
        (File::open(example_path(name)).unwrap().into(), vec![]),
        (Stdio::null(), vec![example_path(name)]),
    ] {
        let output = Command::new(env!("CARGO_BIN_EXE_answers"))
            .args(words)
            .args(arguments)
            .stdin(input)
            .output()
            .unwrap();
        assert!(output.status.success() && output.stdout == lines.as_bytes());
    }
}

/// The long recording comes to the tables that its list's first k messages make.
#[test]
fn the_long_recording_line_by_line() {
    let stored = example_file("long.rec");
    let lines = text(&stored);
    let (back, next, stop) = packets_told(V1_3b, &stored, &lines);
    let list = long_list();
    let mut made = Reference::new(V1_3b, &list, SHEET_ROWS, MOST_ENTRIES);
    made.go_to(next - 1);
    assert_eq!((made.rule_of_next(), stop), (Some(24), 24));
    assert_eq!(back, tables_told(made.second, &made.orders, &made.symbols));
    program_prints("long.rec", &lines);
}

/// A morning comes to the lines that its script in tools/ states for it.
fn comes_to_what_is_stated(morning: &str) {
    comes_to_what_is_stated_as(morning, morning);
}

fn comes_to_what_is_stated_as(morning: &str, stated: &str) {
    let recording = format!("{morning}.rec");
    let wanted = String::from_utf8(example_file(&format!("{stated}.answers"))).unwrap();
    let lines = text(&example_file(&recording));
    is_what_is_stated(&lines, &wanted);
    program_prints(&recording, &wanted);
}

fn is_what_is_stated(lines: &str, wanted: &str) {
    for (place, (line, want)) in lines.lines().zip(wanted.lines()).enumerate() {
        assert_eq!(line, want, "line {}", place + 1);
    }
    assert_eq!(lines, wanted);
}

#[test]
fn the_morning_of_every_flag_byte_line_by_line() {
    comes_to_what_is_stated("flags");
}

#[test]
fn the_morning_of_the_tap_fault_line_by_line() {
    comes_to_what_is_stated("nanoseconds");
}

#[test]
fn the_morning_of_every_bad_field_line_by_line() {
    comes_to_what_is_stated("offsets");
}

/// Each edition's lines for the morning of both, as tools/editions.py states them.
#[test]
fn the_morning_of_both_editions_line_by_line() {
    for (edition, name) in [(V1_3, "1.3"), (V1_3b, "1.3.b")] {
        let wanted = example_file(&format!("editions.{name}.answers"));
        let wanted = String::from_utf8(wanted).unwrap();
        let lines = text_in(edition, &example_file("editions.rec"));
        is_what_is_stated(&lines, &wanted);
        program_prints_in(&["--edition", name], "editions.rec", &wanted);
    }
    comes_to_what_is_stated_as("editions", "editions.1.3.b");
}

#[test]
fn seeded_recordings_line_by_line() {
    for seed in seeds(40) {
        let edition = EDITIONS[(seed % 2) as usize];
        let bytes = drawn_recording(edition, seed);
        let lines = text_in(edition, &bytes);
        let (back, next, stop) = packets_told(edition, &bytes, &lines);
        let desk = play(edition, &bytes).desk;
        assert_eq!((next, stop), (desk.state.next, u64::from(desk.state.stop)));
        let wanted = tables_told(desk.state.second, &desk.orders, &desk.symbols);
        assert_eq!(back, wanted, "seed {seed}");
    }
}
