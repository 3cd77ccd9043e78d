//! Damage to tables, shelves and states, as a caller may do it between two calls.

use super::{
    bad_body, bad_nanoseconds, bad_packet, delivery, differing_copy, good_body, good_body_of,
    good_nanoseconds, list, packet, rough_delivery, set_timestamp, Dice, ListSettings,
};
use crate::desk::Desk;
use crate::edition::{Edition, BYTE_20, EDITIONS};
use crate::index::*;
use crate::packet::*;
use crate::receiver::*;
use crate::tables::*;

/// Rows copied over others, freed, spoiled or given other numbers.
pub fn damage_orders(seed: u64, orders: &mut [u64]) {
    let mut dice = Dice::new(seed);
    let rows = rows_in(orders) as u64;
    if rows == 0 {
        return;
    }
    for _ in 0..dice.between(1, 6) {
        let place = dice.below(rows) as usize;
        let from = dice.below(rows) as usize;
        let mut source = [0; 5];
        source.copy_from_slice(row(orders, from));
        let row = row_mut(orders, place);
        match dice.below(10) {
            // a second live row of one ID, perhaps of another symbol or side
            0 | 1 => {
                row.copy_from_slice(&source);
                if dice.below(3) == 0 {
                    row[SYMBOL_AND_SIDE] ^= dice.pick(&[1, 2, 4]);
                }
            }
            2 => row[ORDER_ID] = source[ORDER_ID],
            3 => row.fill(0),
            4 => row[RANK] = dice.pick(&[0, 1, source[RANK], u64::MAX]),
            5 => row[SIZE] = dice.pick(&[0, 1, u32::MAX as u64, u32::MAX as u64 + 1, u64::MAX]),
            6 => row[PRICE] = dice.pick(&[0, 1, HIGHEST_PRICE, HIGHEST_PRICE + 1, u64::MAX]),
            7 => {
                let largest = (1 << 33) - 1;
                row[SYMBOL_AND_SIDE] = dice.pick(&[0, 1, largest, largest + 1, u64::MAX]);
            }
            8 => row[dice.below(5) as usize] = dice.below(3),
            _ => row[dice.below(5) as usize] = dice.bits(),
        }
    }
}

/// Entries copied over others, freed, spoiled, marked used, or given other bytes.
pub fn damage_symbols(seed: u64, symbols: &mut [u8]) {
    let mut dice = Dice::new(seed);
    let entries = entries_in(symbols) as u64;
    if entries == 0 {
        return;
    }
    for _ in 0..dice.between(1, 4) {
        let place = dice.below(entries) as usize;
        let from = dice.below(entries) as usize;
        let mut source = [0; ENTRY_BYTES];
        source.copy_from_slice(entry(symbols, from));
        let entry = entry_mut(symbols, place);
        match dice.below(8) {
            0 => entry.copy_from_slice(&source),
            1 => entry[5..9].copy_from_slice(&source[5..9]),
            2 | 3 => entry[0] = dice.pick(&[0, 1, 1, 2, 20, 255]),
            4 => entry[21] = dice.bits() as u8,
            5 => entry[41] = dice.bits() as u8,
            6 => entry[BYTE_20] = odd_byte_20(&mut dice),
            _ => entry[dice.below(ENTRY_BYTES as u64) as usize] = dice.bits() as u8,
        }
    }
}

/// What may stand in byte 20, whoever put it there: a Security Type or not, shown as it is or as a full stop.
pub fn odd_byte_20(dice: &mut Dice) -> u8 {
    match dice.below(2) {
        0 => dice.pick(b"EFGefN \0\x1f~\x7f\xff"),
        _ => dice.bits() as u8,
    }
}

/// Slots, most often next's, given other numbers, lengths, bodies or padding; what is good is so in an edition.
pub fn damage_shelf(edition: Edition, seed: u64, shelf: &mut [u8], next: u64) {
    let mut dice = Dice::new(seed);
    if shelf.len() != SHELF_BYTES {
        return;
    }
    for _ in 0..dice.between(1, 5) {
        let number = match dice.below(3) {
            0 => next,
            1 => next.wrapping_add(dice.below(4)),
            _ => dice.bits(),
        };
        let slot = slot_mut(shelf, number);
        match dice.below(13) {
            // a good message, with this number or with one that has no business here
            0..=2 => {
                let body = good_body(edition, &mut dice);
                let other = dice.pick(&[
                    number,
                    number,
                    number.wrapping_add(64),
                    number.wrapping_sub(64),
                    number.wrapping_add(1),
                    LAST_NUMBER + 1,
                    u64::MAX,
                ]);
                slot.copy_from_slice(&filled_slot(other, &body));
            }
            // a bad body
            3 => {
                let refusal = dice.between(3, 4) as u8;
                let mut body = bad_body(edition, dice.bits(), refusal);
                body.truncate(PADDED_BYTES);
                slot.copy_from_slice(&filled_slot(number, &body));
            }
            4 => {
                let length: u16 = dice.pick(&[0, 1, 5, 42, 63, 64, 65, 256 + 5, 65_535]);
                slot[8..10].copy_from_slice(&length.to_le_bytes());
            }
            // number 0, whatever stands behind it
            5 => slot[0..8].fill(0),
            6 => slot[0..8].copy_from_slice(&number.to_le_bytes()),
            // padding
            7 => slot[dice.between(52, 73) as usize] = dice.bits() as u8,
            // another Timestamp, good or not, of what lies there or of a good message put there
            9 | 10 => {
                if slot_number(slot) == 0 {
                    slot.copy_from_slice(&filled_slot(number, &good_body(edition, &mut dice)));
                }
                let nanoseconds = match dice.below(2) {
                    0 => good_nanoseconds(&mut dice),
                    _ => bad_nanoseconds(&mut dice),
                };
                set_timestamp(&mut slot[10..], nanoseconds);
            }
            8 => slot[10] = dice.bits() as u8,
            // a Symbol Update with any byte 20, as the other edition may have let it in
            12 => {
                let mut body = good_body_of(edition, &mut dice, SYMBOL_UPDATE);
                body[BYTE_20] = odd_byte_20(&mut dice);
                slot.copy_from_slice(&filled_slot(number, &body));
            }
            _ => slot[dice.below(SLOT_BYTES as u64) as usize] = dice.bits() as u8,
        }
    }
}

/// Another next number, second, stop or edition.
pub fn damage_state(seed: u64, state: &mut State) {
    let mut dice = Dice::new(seed);
    match dice.below(7) {
        0 => {
            state.next = dice.pick(&[
                0,
                1,
                LAST_NUMBER - 70,
                LAST_NUMBER - 1,
                LAST_NUMBER,
                LAST_NUMBER + 1,
                LAST_NUMBER + 2,
                u64::MAX,
            ])
        }
        1 => state.next = dice.between(1, LAST_NUMBER),
        2 => state.next = state.next.wrapping_add(dice.between(1, 70)),
        3 => state.next = state.next.wrapping_sub(dice.between(1, 70)),
        4 => state.second = dice.bits() >> dice.below(64),
        5 => state.edition = state.edition.other(),
        _ => state.stop = dice.bits() as u8,
    }
}

/// All that one call of `receive` is given.
#[derive(Clone, Debug, PartialEq, Eq)]
pub struct Case {
    pub desk: Desk,
    pub packet: Vec<u8>,
}

/// A receiver in the middle of a morning, whose caller may have altered anything, and a packet
/// for it. `damage` is the chance that each of orders, symbols, shelf and state is damaged; a
/// tenth of it is the chance of a table of another size.
pub fn case(seed: u64, damage: u64) -> Case {
    let mut dice = Dice::new(seed);
    let edition = dice.pick(&EDITIONS);
    let settings = ListSettings {
        edition,
        messages: dice.between(10, 100) as usize,
        rows: dice.between(1, 24) as usize,
        entries: dice.between(1, 6) as usize,
        symbols: dice.between(1, 8) as usize,
        orders: dice.between(5, 40) as usize,
        levels: dice.between(1, 14),
        crossing: 200,
        breaking: dice.pick(&[0, 10, 30]),
        filling: dice.chance(200),
        ending: 0,
    };
    let list = list(dice.bits(), settings);
    let packets = delivery(edition, dice.bits(), &list, rough_delivery(dice.bits()));

    let mut desk = Desk::new(edition, settings.rows, settings.entries);
    let played = dice.below(packets.len() as u64 + 1) as usize;
    for packet in &packets[..played] {
        let _ = desk.give(packet); // bad packets are among them
    }

    if dice.chance(damage) {
        damage_orders(dice.bits(), &mut desk.orders);
    }
    if dice.chance(damage) {
        damage_symbols(dice.bits(), &mut desk.symbols);
    }
    if dice.chance(damage) {
        damage_state(dice.bits(), &mut desk.state);
    }
    if dice.chance(damage) {
        damage_shelf(edition, dice.bits(), &mut desk.shelf, desk.state.next);
    }
    if dice.chance(damage / 10) {
        match dice.below(8) {
            0 => desk.orders.clear(),
            1 => desk.orders.push(0),
            2 => desk.orders.resize((MOST_ROWS + 1) * ROW_NUMBERS, 0),
            3 => desk.symbols.clear(),
            4 => desk.symbols.push(0),
            5 => desk.symbols.resize((MOST_ENTRIES + 1) * ENTRY_BYTES, 0),
            6 => desk.shelf.truncate(SHELF_BYTES - 1),
            _ => desk.shelf.push(0),
        }
    }

    let packet = match dice.below(10) {
        0 => {
            let refusal = dice.between(1, 5) as u8;
            bad_packet(edition, dice.bits(), &list, refusal)
        }
        1 if played < packets.len() => packets[played].clone(),
        _ => packet_near(edition, dice.bits(), &list, &desk.shelf, desk.state.next),
    };
    Case { desk, packet }
}

/// One thing in an index altered: a slot, a run of slots, a count, the number of used slots, a hint, or all. The
/// orders and the symbols are those that packets will speak of.
pub fn damage_index(
    seed: u64,
    index: &mut [u64],
    rows: usize,
    order_ids: &[u64],
    symbol_ids: &[u32],
) {
    let mut dice = Dice::new(seed);
    if index.len() != INDEX_NUMBERS {
        return;
    }
    let order = dice.pick(order_ids);
    let near = (first_slot(order) + dice.below(3) as usize) % ORDER_SLOTS;
    let row = match dice.below(8) {
        0 => dice.pick(&[15_999, 16_000, 65_535]),
        1 => rows,
        _ => dice.below(rows as u64) as usize,
    };
    let block = match dice.below(4) {
        0 => dice.below(BLOCKS as u64) as usize,
        _ => row / BLOCK_ROWS % BLOCKS,
    };
    match dice.below(20) {
        // A slot of the order, or of another that has its tag, with any row.
        0..=3 => index[near] = slot_of(order, row),
        4 => index[near] = slot_of(dice.pick(order_ids), row),
        // Emptied, which ends searches early; or a number at random.
        5 => index[near] = 0,
        6 => index[near] = dice.bits(),
        // Slots copied to other places.
        7 => {
            let from = first_slot(dice.pick(order_ids));
            index[near] = index[from];
        }
        8 => {
            let (length, to) = (dice.between(1, 9) as usize, ORDER_SLOTS - 9);
            let from = first_slot(order).min(to);
            index.copy_within(from..from + length, near.min(to));
        }
        9 | 10 => index[COUNTS + block] = dice.pick(&[0, 0, 1, 2, 63, 64, 65, u64::MAX]),
        11 => index[COUNTS..HINTS].fill(dice.pick(&[0, 1, 64, u64::MAX])),
        12 => index[COUNTS..COUNTS + block].fill(0),
        13 | 14 => index[USED] = altered_use(&mut dice),
        15 | 16 => {
            let symbol = dice.pick(symbol_ids);
            index[hint_of(symbol)] = match dice.below(3) {
                0 => dice.below(4),
                1 => dice.pick(&[999, 1_000, 65_536, u64::MAX]),
                _ => dice.bits(),
            };
        }
        17 => {
            let number = dice.pick(&[1, 65_535, u64::MAX, slot_of(order, row)]);
            index[..ORDER_SLOTS].fill(number);
        }
        18 => index.fill(dice.pick(&[0, 1, u64::MAX])),
        _ => index.fill_with(|| dice.bits() >> dice.below(64)),
    }
}

/// Numbers of used slots around those that decide something, and any.
fn altered_use(dice: &mut Dice) -> u64 {
    match dice.below(8) {
        0 => dice.bits(),
        _ => dice.pick(&[0, 24_575, 24_575, 24_576, 24_576, 32_767, 32_768, u64::MAX]),
    }
}

/// A packet of numbers near next, good in an edition: what the list or the shelf has for them, or anything.
pub fn packet_near(
    edition: Edition,
    seed: u64,
    list: &[Vec<u8>],
    shelf: &[u8],
    next: u64,
) -> Vec<u8> {
    let mut dice = Dice::new(seed);
    let mut records = Vec::new();
    for _ in 0..dice.between(1, 12) {
        let offset = match dice.below(4) {
            0 => dice.below(3),
            1 => dice.between(60, 67),
            _ => dice.below(70),
        };
        let number = match dice.below(6) {
            0 => next.saturating_sub(offset),
            1 => next,
            _ => next.saturating_add(offset),
        };
        let number = number.clamp(1, LAST_NUMBER);
        let mut body = match list.get(number as usize - 1) {
            Some(body) => body.clone(),
            None => list[dice.below(list.len() as u64) as usize].clone(),
        };
        if dice.below(4) == 0 && shelf.len() == SHELF_BYTES {
            // what the shelf has: most often a repeat
            let slot = slot(shelf, number);
            let length = little(&slot[8..10]) as usize;
            if length <= PADDED_BYTES && read_body(edition, &slot[10..10 + length]).is_ok() {
                body = slot[10..10 + length].to_vec();
            }
        }
        if dice.below(6) == 0 {
            body = differing_copy(edition, dice.bits(), &body);
        }
        records.push((number, body));
    }
    packet(&records)
}
