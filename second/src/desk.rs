//! A receiver with the tables, the shelf and the index that are lent to it.

use crate::edition::Edition;
use crate::index::INDEX_NUMBERS;
use crate::packet::Refusal;
use crate::receiver::{receive, receiver_fits, start, Answer, State, SHELF_BYTES};
use crate::tables::{ENTRY_BYTES, MOST_ENTRIES, ROW_NUMBERS, SHEET_ROWS};

/// What stands in memory that no call has written yet.
pub const MARK: u64 = 0xA5A5_5A5A_C3C3_3C3C;
pub const MARK_BYTE: u8 = 0xA5;

#[derive(Clone, Debug, PartialEq, Eq)]
pub struct Desk {
    pub state: State,
    pub orders: Vec<u64>,
    pub symbols: Vec<u8>,
    pub shelf: Vec<u8>,
    /// Empty: the tables are scanned.
    pub index: Vec<u64>,
}

impl Desk {
    /// Tables of these capacities and a shelf, full of marks and not started, with no index.
    pub fn unstarted(rows: usize, entries: usize) -> Desk {
        Desk {
            state: State {
                next: 9,
                second: 9,
                stop: 9,
                edition: Edition::default(),
            },
            orders: vec![MARK; rows * ROW_NUMBERS],
            symbols: vec![MARK_BYTE; entries * ENTRY_BYTES],
            shelf: vec![MARK_BYTE; SHELF_BYTES],
            index: Vec::new(),
        }
    }

    /// The same with an index, full of marks too.
    pub fn unstarted_with_index(rows: usize, entries: usize) -> Desk {
        Desk {
            index: vec![MARK; INDEX_NUMBERS],
            ..Desk::unstarted(rows, entries)
        }
    }

    /// A started receiver of an edition. It panics where the capacities are outside the limits.
    pub fn new(edition: Edition, rows: usize, entries: usize) -> Desk {
        let mut desk = Desk::unstarted(rows, entries);
        desk.start(edition).expect("capacities in the limits");
        desk
    }

    /// The same with an index.
    pub fn with_index(edition: Edition, rows: usize, entries: usize) -> Desk {
        let mut desk = Desk::unstarted_with_index(rows, entries);
        desk.start(edition).expect("capacities in the limits");
        desk
    }

    /// The sheet program's: "It uses full capacities", which are 1,600 rows there (request 9).
    pub fn full(edition: Edition) -> Desk {
        Desk::new(edition, SHEET_ROWS, MOST_ENTRIES)
    }

    /// Whether none of what is lent is refused by 6.
    pub fn fits(&self) -> bool {
        let Desk {
            state,
            orders,
            symbols,
            shelf,
            index,
        } = self;
        receiver_fits(*state, orders, symbols, shelf, index)
    }

    pub fn start(&mut self, edition: Edition) -> Result<(), u8> {
        let (orders, symbols, shelf) = (&mut self.orders, &mut self.symbols, &mut self.shelf);
        self.state = start(edition, orders, symbols, shelf, &mut self.index)?;
        Ok(())
    }

    /// A packet as it comes: its answer, or its refusal with nothing changed.
    pub fn give(&mut self, packet: &[u8]) -> Result<Answer, Refusal> {
        let (after, answer) = receive(
            self.state,
            &mut self.orders,
            &mut self.symbols,
            &mut self.shelf,
            &mut self.index,
            packet,
        )?;
        self.state = after;
        Ok(answer)
    }
}
