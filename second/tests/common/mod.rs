//! What the tests share: what they do with a receiver, short names for bodies, example files, and
//! seeds.
#![allow(dead_code, unused_imports)] // each test uses some of it

pub mod watched;
pub mod written;

use second::book::{apply, broken_rule};
pub use second::desk::Desk;
pub use second::edition::Edition::{self, V1_3b, V1_3};
pub use second::edition::EDITIONS;
use second::examples::example_list;
use second::morning::{add_order, delete_order, modify_order, numbered, order_execution, packet};
use second::morning::{symbol_clear, symbol_update, system_time};
use second::packet::{read_body, Refusal};
use second::receiver::{slot_mut, Answer};
use second::tables::{row, ENTRY_BYTES, ROW_NUMBERS};
use std::path::PathBuf;
use std::process::Command;

/// What only tests do with a receiver.
pub trait Tried: Sized {
    /// Document 01's example, numbers 1 to 5 applied.
    fn example() -> Self;
    /// A receiver that knows symbols 7 and 8, next 3.
    fn with_symbols(rows: usize, entries: usize) -> Self;
    /// A good packet of these records.
    fn records(&mut self, records: &[(u64, Vec<u8>)]) -> Answer;
    /// The next message.
    fn next(&mut self, body: Vec<u8>) -> Answer;
    fn row(&self, place: usize) -> &[u64];
    fn slot(&mut self, number: u64) -> &mut [u8];
    /// A packet that must be refused with this number, whatever its offset, and change nothing.
    fn refuses(&mut self, number: u8, packet: &[u8]);
}

/// A refusal's number without its offset, which tests/offsets.rs has.
pub fn by_number<T>(answer: Result<T, Refusal>) -> Result<T, u8> {
    answer.map_err(|refusal| refusal.number)
}

impl Tried for Desk {
    fn example() -> Desk {
        let mut desk = Desk::new(V1_3b, 10, 4);
        let answer = desk.records(&numbered(&example_list(), 1, 5));
        assert_eq!(answer.applied, 5);
        desk
    }

    fn with_symbols(rows: usize, entries: usize) -> Desk {
        let mut desk = Desk::new(V1_3b, rows, entries);
        let answer = desk.records(&[(1, update(7)), (2, update(8))]);
        assert_eq!(answer.next, 3);
        desk
    }

    fn records(&mut self, records: &[(u64, Vec<u8>)]) -> Answer {
        self.give(&packet(records)).expect("a good packet")
    }

    fn next(&mut self, body: Vec<u8>) -> Answer {
        self.records(&[(self.state.next, body)])
    }

    fn row(&self, place: usize) -> &[u64] {
        row(&self.orders, place)
    }

    fn slot(&mut self, number: u64) -> &mut [u8] {
        slot_mut(&mut self.shelf, number)
    }

    fn refuses(&mut self, number: u8, packet: &[u8]) {
        let before = self.clone();
        assert_eq!(by_number(self.give(packet)), Err(number));
        assert_eq!(*self, before);
    }
}

/// Each of these tests, of the second program and of the proved library. (Written for a test file that has
/// this module by `#[macro_use]`, and both receivers by their names.)
#[allow(unused_macros)]
macro_rules! of_both {
    ($($test:ident)*) => {
        mod of_the_second_program {
            $(#[test] fn $test() { super::$test::<super::Desk>(); })*
        }
        #[cfg(linked)]
        mod of_the_proved_library {
            $(#[test] fn $test() { super::$test::<super::Proved>(); })*
        }
    };
}

/// A file of examples/.
pub fn example_path(name: &str) -> PathBuf {
    PathBuf::from(env!("CARGO_MANIFEST_DIR"))
        .join("../examples")
        .join(name)
}

pub fn example_file(name: &str) -> Vec<u8> {
    std::fs::read(example_path(name)).expect(name)
}

/// The output of `python3 tools/vectors.py WORD..`.
pub fn vectors(words: &[&str]) -> Vec<u8> {
    let script = PathBuf::from(env!("CARGO_MANIFEST_DIR")).join("../tools/vectors.py");
    let output = Command::new("python3")
        .arg(script)
        .args(words)
        .output()
        .expect("python3 is there");
    assert!(output.status.success());
    output.stdout
}

/// The names of the recordings in examples/.
pub fn example_recordings() -> Vec<String> {
    let mut names = Vec::new();
    for entry in std::fs::read_dir(example_path("")).expect("examples/") {
        let name = entry.expect("a file").file_name();
        let name = name.into_string().expect("a name in UTF-8");
        if name.ends_with(".rec") {
            names.push(name);
        }
    }
    names.sort();
    assert!(names.len() >= 9, "{names:?}");
    names
}

/// Whether a list is one of those that demand 3 speaks of: "any list of well-formed messages", read per edition.
pub fn well_formed(edition: Edition, list: &[Vec<u8>]) -> bool {
    list.iter().all(|body| read_body(edition, body).is_ok())
}

/// The list applied in order, in tables of its own.
pub struct Reference<'a> {
    pub edition: Edition,
    pub list: &'a [Vec<u8>],
    pub k: u64,
    pub orders: Vec<u64>,
    pub symbols: Vec<u8>,
    pub second: u64,
}

impl<'a> Reference<'a> {
    /// A list of an edition.
    pub fn new(
        edition: Edition,
        list: &'a [Vec<u8>],
        rows: usize,
        entries: usize,
    ) -> Reference<'a> {
        Reference {
            edition,
            list,
            k: 0,
            orders: vec![0; rows * ROW_NUMBERS],
            symbols: vec![0; entries * ENTRY_BYTES],
            second: 0,
        }
    }

    /// The list's first k messages, all of which must apply.
    pub fn go_to(&mut self, k: u64) {
        assert!(k >= self.k, "next never falls");
        while self.k < k {
            let message = read_body(self.edition, &self.list[self.k as usize]).unwrap();
            let number = self.k + 1;
            let (orders, symbols) = (&mut self.orders, &mut self.symbols);
            apply(number, &message, orders, symbols, &mut self.second).expect("the list applies");
            self.k += 1;
        }
    }

    /// The rule that message k + 1 breaks, none if it breaks none or is not there.
    pub fn rule_of_next(&self) -> Option<u8> {
        let body = self.list.get(self.k as usize)?;
        let message = read_body(self.edition, body).unwrap();
        broken_rule(&message, &self.orders, &self.symbols)
    }
}

pub fn time(seconds: u32) -> Vec<u8> {
    system_time(seconds)
}

pub fn update(symbol: u32) -> Vec<u8> {
    symbol_update(0, symbol, b"ABC        ", 100)
}

pub fn buy(symbol: u32, order: u64, price: u64, size: u32) -> Vec<u8> {
    add_order(0, symbol, order, b'B', price, size)
}

pub fn sell(symbol: u32, order: u64, price: u64, size: u32) -> Vec<u8> {
    add_order(0, symbol, order, b'S', price, size)
}

pub fn modify(symbol: u32, order: u64, price: u64, size: u32, flags: u8) -> Vec<u8> {
    modify_order(0, symbol, order, price, size, flags)
}

pub fn delete(symbol: u32, order: u64) -> Vec<u8> {
    delete_order(0, symbol, order)
}

pub fn execute(symbol: u32, order: u64, size: u32) -> Vec<u8> {
    order_execution(0, symbol, order, 1, 10_000_000, size, 0)
}

pub fn clear(symbol: u32) -> Vec<u8> {
    symbol_clear(0, symbol)
}

/// The seeds of a property: 0 to count - 1, or the one in SECOND_SEED alone.
pub fn seeds(count: u64) -> Vec<u64> {
    match std::env::var("SECOND_SEED") {
        Ok(text) => vec![text.parse().expect("SECOND_SEED is a number")],
        Err(_) => (0..count).collect(),
    }
}

/// Whether all seeds are tried, so that what they must show together can be asked for.
pub fn all_seeds() -> bool {
    std::env::var("SECOND_SEED").is_err()
}
