//! The packets of tools/vectors.py, and the text that it says a right reader of each edition prints.

mod common;
use common::{vectors, Edition, V1_3b, V1_3};
use second::packet::*;
use second::reading::lines_of_packet;
use std::path::PathBuf;

/// The text that is stated for a reader of an edition; none named is 1.3.b.
fn stated(words: &[&str]) -> String {
    String::from_utf8(vectors(&[&["stdout"], words].concat())).unwrap()
}

/// What this program prints for packets, each behind its length.
fn printed(edition: Edition, packets: &[u8]) -> String {
    let mut text = String::new();
    let mut count = 0;
    let mut at = 0;
    while at < packets.len() {
        let length = little(&packets[at..at + 2]) as usize;
        text.push_str(&lines_of_packet(edition, &packets[at + 2..at + 2 + length]));
        at += 2 + length;
        count += 1;
    }
    assert_eq!(at, packets.len());
    assert!(count > 2_000, "{count} packets");
    text
}

#[test]
fn the_reader_prints_what_the_vectors_say() {
    let packets = vectors(&["stdin"]);
    for (edition, words) in [
        (V1_3b, &[][..]),
        (V1_3b, &["1.3.b"]),
        (V1_3b, &["1.3.a"]),
        (V1_3, &["1.3"]),
    ] {
        let (text, wanted) = (printed(edition, &packets), stated(words));
        for (place, (line, want)) in text.lines().zip(wanted.lines()).enumerate() {
            assert_eq!(line, want, "{words:?}, line {}", place + 1);
        }
        assert_eq!(text, wanted, "{words:?}");
        // Each byte but `E` and `F` is told as a bad security type, in 1.3 alone.
        let told = wanted.matches("Symbol Update, security type\n").count();
        assert_eq!(told >= 254, edition == V1_3, "{words:?}: {told}");
        assert!(edition == V1_3 || told == 0, "{words:?}: {told}");
    }
}

/// What the proved reader is run on and held to are these packets and the text of 1.3.b.
#[test]
fn the_copies_of_the_vectors() {
    let copy = |name: &str| {
        let path = PathBuf::from(env!("CARGO_MANIFEST_DIR")).join("../crates/reading");
        std::fs::read(path.join(name)).expect(name)
    };
    assert!(copy("stdin") == vectors(&["stdin"]));
    assert!(copy("stdout") == printed(V1_3b, &copy("stdin")).as_bytes());
}

/// A Symbol Update keeps the bytes that the vectors do not print.
#[test]
fn a_symbol_update_keeps_all_42_bytes() {
    let body: Vec<u8> = (0..42)
        .map(|at| match at {
            0 => 1,
            21 => b'Y',
            41 => b'Z',
            _ => at,
        })
        .collect();
    match read_body(V1_3b, &body) {
        Ok(Message::SymbolUpdate(update)) => {
            assert_eq!(update.body[..], body[..]);
            assert_eq!(update.nanoseconds.to_le_bytes(), body[1..5]);
            assert_eq!(update.symbol.to_le_bytes(), body[5..9]);
            assert_eq!(update.ticker, body[9..20]);
            assert_eq!((update.security_type, update.test), (None, b'Y'));
            assert_eq!(update.reserved22, 22);
            assert_eq!(update.lot.to_le_bytes(), body[23..25]);
            assert_eq!(update.opening, body[25..33]);
            assert_eq!(update.closing, body[33..41]);
            assert_eq!(update.market, b'Z');
        }
        other => panic!("{other:?}"),
    }
}
