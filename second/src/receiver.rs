//! The receiver: a shelf of 64 slots, a start, and packets taken one by one.

use crate::book::{change, rule_broken, Found, Scans};
use crate::edition::Edition;
use crate::index::{index_fits, leave, make, Index};
use crate::packet::{little, read_body, read_packet, Message, Record, Refusal, LAST_NUMBER};
use crate::tables::{order_table_fits, symbol_table_fits};

/// "The shelf is 64 slots of 74 bytes (number, length, body padded with zeros to 64 bytes)".
pub const SLOTS: u64 = 64;
pub const SLOT_BYTES: usize = 74;
pub const SHELF_BYTES: usize = 64 * 74;
pub const PADDED_BYTES: usize = 64;

/// What a receiver keeps by value. A caller may alter it between calls; only `next` is judged.
#[derive(Clone, Copy, Debug, PartialEq, Eq)]
pub struct State {
    pub next: u64,
    pub second: u64,
    /// The stop of the last accepted packet, 0 if there was none.
    pub stop: u8,
    /// Request 10: "A recording's edition is chosen at start." All that is read goes by it, on the shelf too.
    pub edition: Edition,
}

/// The answer to an accepted packet.
#[derive(Clone, Copy, Debug, Default, PartialEq, Eq)]
pub struct Answer {
    /// How many records were taken (10).
    pub taken: u64,
    /// How many were old (11).
    pub old: u64,
    /// How many were too far (12).
    pub too_far: u64,
    /// How many were repeats (13).
    pub repeats: u64,
    /// How many were differing copies (14).
    pub differing: u64,
    pub next: u64,
    /// "how many messages were applied (the growth of next)"
    pub applied: u64,
    /// "the highest number on the shelf (0 if none)"
    pub highest: u64,
    pub stop: u8,
}

impl Answer {
    /// How many records got each of 10 to 14.
    pub fn counts(&self) -> [u64; 5] {
        [
            self.taken,
            self.old,
            self.too_far,
            self.repeats,
            self.differing,
        ]
    }
}

/// What one record is answered.
#[derive(Clone, Copy, Debug, PartialEq, Eq)]
enum Worked {
    /// 10
    Taken,
    /// 11
    Old,
    /// 12
    TooFar,
    /// 13
    Repeat,
    /// 14
    Differing,
}

/// "message n goes in slot n mod 64"
pub fn slot(shelf: &[u8], number: u64) -> &[u8] {
    let start = (number % SLOTS) as usize * SLOT_BYTES;
    &shelf[start..start + SLOT_BYTES]
}

pub fn slot_mut(shelf: &mut [u8], number: u64) -> &mut [u8] {
    let start = (number % SLOTS) as usize * SLOT_BYTES;
    &mut shelf[start..start + SLOT_BYTES]
}

/// The number in a slot; "number 0 marks it empty".
pub fn slot_number(slot: &[u8]) -> u64 {
    little(&slot[0..8])
}

fn slot_length(slot: &[u8]) -> usize {
    little(&slot[8..10]) as usize
}

/// A slot with a number, a length and a body padded with zeros to 64 bytes.
pub fn filled_slot(number: u64, body: &[u8]) -> [u8; SLOT_BYTES] {
    let mut slot = [0; SLOT_BYTES];
    slot[0..8].copy_from_slice(&number.to_le_bytes());
    slot[8..10].copy_from_slice(&(body.len() as u16).to_le_bytes());
    slot[10..10 + body.len()].copy_from_slice(body);
    slot
}

/// 6, for all that a receiver is lent and its next number.
pub fn receiver_fits(
    state: State,
    orders: &[u64],
    symbols: &[u8],
    shelf: &[u8],
    index: &[u64],
) -> bool {
    sizes_fit(orders, symbols, shelf, index) && next_fits(state.next)
}

/// 6: "a table size outside these limits or not in whole rows". Request 9: "Refusal 6 covers the index size."
fn sizes_fit(orders: &[u64], symbols: &[u8], shelf: &[u8], index: &[u64]) -> bool {
    order_table_fits(orders)
        && symbol_table_fits(symbols)
        && shelf.len() == SHELF_BYTES
        && index_fits(index)
}

/// 6: "... or a next number outside 1 to 10^12 + 1"
pub fn next_fits(next: u64) -> bool {
    (1..=LAST_NUMBER + 1).contains(&next)
}

/// "A start zeroes all three, the second included, and sets the next number to 1." Here the edition is chosen, and
/// an index is made if one is lent (request 9).
pub fn start(
    edition: Edition,
    orders: &mut [u64],
    symbols: &mut [u8],
    shelf: &mut [u8],
    index: &mut [u64],
) -> Result<State, u8> {
    if !sizes_fit(orders, symbols, shelf, index) {
        return Err(6);
    }
    orders.fill(0);
    symbols.fill(0);
    shelf.fill(0);
    make(index, orders);
    Ok(State {
        next: 1,
        second: 0,
        stop: 0,
        edition,
    })
}

/// A packet: refused ("Order: 6, 1, then records from the front, each by 2, 5, 3, 4", the last four with
/// their offset by request 5) with nothing changed, else worked record by record.
pub fn receive(
    state: State,
    orders: &mut [u64],
    symbols: &mut [u8],
    shelf: &mut [u8],
    index: &mut [u64],
    packet: &[u8],
) -> Result<(State, Answer), Refusal> {
    if !receiver_fits(state, orders, symbols, shelf, index) {
        return Err(Refusal::alone(6));
    }
    let records = read_packet(state.edition, packet)?;

    let mut state = state;
    let first_next = state.next;
    let mut answer = Answer::default();
    for record in records {
        match work_record(&mut state, orders, symbols, shelf, index, &record) {
            Worked::Taken => answer.taken += 1,
            Worked::Old => answer.old += 1,
            Worked::TooFar => answer.too_far += 1,
            Worked::Repeat => answer.repeats += 1,
            Worked::Differing => answer.differing += 1,
        }
    }
    state.stop = stop(&state, orders, symbols, shelf, index);
    answer.next = state.next;
    answer.applied = state.next - first_next;
    answer.highest = highest_number(shelf);
    answer.stop = state.stop;
    Ok((state, answer))
}

/// One record, and what it is answered.
fn work_record(
    state: &mut State,
    orders: &mut [u64],
    symbols: &mut [u8],
    shelf: &mut [u8],
    index: &mut [u64],
    record: &Record,
) -> Worked {
    // "A record with n below next is old (11); n at or above next + 64 is too far (12)."
    if record.number < state.next {
        return Worked::Old;
    }
    if record.number >= state.next + SLOTS {
        return Worked::TooFar;
    }
    // "A slot that holds n with the same length and the same 64 padded bytes is a repeat (13);
    // any other occupied slot is a differing copy (14), and the first stays." Request 2, of the
    // undefined bits in a Modify's flags: "Two copies that differ only in those bits are still
    // differing copies (14)."
    let wanted = filled_slot(record.number, record.body);
    let slot = slot_mut(shelf, record.number);
    if slot_number(slot) != 0 {
        return match slot[..] == wanted[..] {
            true => Worked::Repeat,
            false => Worked::Differing,
        };
    }
    // "Otherwise it is shelved: taken (10)."
    slot.copy_from_slice(&wanted);
    // "After each taken record, while the slot for next holds next and its message applies, it is
    // applied, its slot zeroed and next raised by one."
    while let Some(message) = message_of_next(state, shelf) {
        if apply(state, &message, orders, symbols, index).is_err() {
            break;
        }
        slot_mut(shelf, state.next).fill(0);
        state.next += 1;
    }
    Worked::Taken
}

/// Message next applied, or the first broken rule with nothing changed, the index included.
fn apply(
    state: &mut State,
    message: &Message,
    orders: &mut [u64],
    symbols: &mut [u8],
    index: &mut [u64],
) -> Result<(), u8> {
    let found = found(message, orders, symbols, index);
    if let Some(rule) = rule_broken(message, &found, orders) {
        return Err(rule);
    }
    if !index.is_empty() {
        leave(index, message, &found, orders);
    }
    let (number, second) = (state.next, &mut state.second);
    change(number, message, &found, orders, symbols, second)
}

/// Request 9's two engines: with no index the tables are scanned, with one it is asked.
fn found(message: &Message, orders: &[u64], symbols: &[u8], index: &[u64]) -> Found {
    match index {
        [] => Found::by(&Scans, message, orders, symbols),
        index => Found::by(&Index(index), message, orders, symbols),
    }
}

/// The message in next's slot, if the slot holds next and a good body. A length above 64 is no
/// good body, nor is one that the reader refuses, in the edition that the state has now.
fn message_of_next(state: &State, shelf: &[u8]) -> Option<Message> {
    let slot = slot(shelf, state.next);
    let length = slot_length(slot);
    if slot_number(slot) != state.next || length > PADDED_BYTES {
        return None;
    }
    read_body(state.edition, &slot[10..10 + length]).ok()
}

/// "the stop: 0 if next's slot is empty or its message breaks no rule, else the rule that its
/// message breaks. A slot for next that holds another number or no good body stops with 27."
fn stop(state: &State, orders: &[u64], symbols: &[u8], shelf: &[u8], index: &[u64]) -> u8 {
    if slot_number(slot(shelf, state.next)) == 0 {
        return 0;
    }
    match message_of_next(state, shelf) {
        None => 27,
        Some(message) => {
            let found = found(&message, orders, symbols, index);
            rule_broken(&message, &found, orders).unwrap_or(0)
        }
    }
}

/// "the highest number on the shelf (0 if none)": the largest in any of the 64 slots.
pub fn highest_number(shelf: &[u8]) -> u64 {
    let mut highest = 0;
    for place in 0..SLOTS {
        let number = slot_number(slot(shelf, place));
        if number > highest {
            highest = number;
        }
    }
    highest
}
