//! What a writer may be given (request 4): the fields of messages, at and beyond their ranges, and packets so far, each
//! with the refusal it is made for.

use super::{faults::*, messages::*, Dice};
use crate::edition::{Edition, BYTE_20};
use crate::packet::*;
use crate::write::{parts, Fields, Part};

/// What a number of a message may be, beside what its bytes can hold.
enum Range {
    Anything,
    Between(u64, u64),
    Letters(&'static [u8]),
}

/// "The ranges are those of reading", by a message's type and the number's place.
fn range(kind: u8, place: usize) -> Range {
    let price = match kind {
        ADD_ORDER | ORDER_EXECUTION | TRADE | TRADE_CANCEL => 5,
        MODIFY_ORDER => 4,
        _ => 99,
    };
    match (kind, place) {
        (SYMBOL_UPDATE, 3) => Range::Letters(b"ABCHIJKLMNPQUVWXYZ"),
        (SYMBOL_UPDATE, 4) => Range::Letters(b"EF"),
        (SYMBOL_UPDATE, 5) => Range::Between(0, 999_999_999),
        (SYMBOL_UPDATE, 6) => Range::Letters(b"YN"),
        (SYMBOL_UPDATE | SYSTEM_TIME, _) => Range::Anything,
        (_, 1) => Range::Between(0, 999_999_999),
        (ADD_ORDER, 4) => Range::Letters(b"BS"),
        (_, place) if place == price => Range::Between(1, HIGHEST_PRICE),
        (_, place) if place == price + 1 => Range::Between(1, u32::MAX.into()),
        _ => Range::Anything,
    }
}

/// The most that so many bytes hold.
fn most_of(bytes: usize) -> u64 {
    u64::MAX >> (64 - 8 * bytes)
}

/// The numbers of a type in an edition, by their places, with their bytes.
pub fn numbers_of_type(edition: Edition, kind: u8) -> Vec<(usize, usize)> {
    let mut numbers = Vec::new();
    for part in parts(edition, kind) {
        if let Part::Number(place, bytes) = part {
            numbers.push((place, bytes));
        }
    }
    numbers
}

/// Those of its numbers that are judged.
pub fn judged_numbers(edition: Edition, kind: u8) -> Vec<usize> {
    let mut judged = Vec::new();
    for (place, _) in numbers_of_type(edition, kind) {
        if !matches!(range(kind, place), Range::Anything) {
            judged.push(place);
        }
    }
    judged
}

/// A good message of a type: half of its numbers at an end of their range, any text, and anything in the places that it
/// does not have.
pub fn good_fields(edition: Edition, dice: &mut Dice, kind: u8) -> Fields {
    let mut fields = Fields::default();
    for number in &mut fields.numbers {
        let any = dice.bits();
        *number = dice.pick(&[0, 1, 256, u64::MAX, any]);
    }
    fields.text.fill_with(|| dice.bits() as u8);
    fields.numbers[0] = kind.into();
    for (place, bytes) in numbers_of_type(edition, kind) {
        fields.numbers[place] = good_number(dice, kind, place, bytes);
    }
    fields
}

fn good_number(dice: &mut Dice, kind: u8, place: usize, bytes: usize) -> u64 {
    let (least, most) = match range(kind, place) {
        Range::Letters(letters) => return dice.pick(letters).into(),
        Range::Between(least, most) => (least, most),
        Range::Anything => (0, most_of(bytes)),
    };
    match dice.below(4) {
        0 => least,
        1 => most,
        _ => least + dice.bits() % (most - least).max(1),
    }
}

/// Puts a judged number out of its range, and not beyond its bytes: one beyond an end, or anything.
pub fn spoil_number(dice: &mut Dice, fields: &mut Fields, place: usize) {
    let kind = fields.kind().expect("a type that there is");
    fields.numbers[place] = match range(kind, place) {
        Range::Anything => panic!("number {place} of type {kind} is not judged"),
        Range::Letters(letters) => loop {
            let letter = dice.pick(letters);
            let small = letter ^ 32;
            let byte = match dice.below(2) {
                0 => dice.pick(&[0, 255, small, letter + 1, letter - 1]),
                _ => dice.bits() as u8,
            };
            if !letters.contains(&byte) {
                break byte.into();
            }
        },
        // All of a size's numbers are good but 0.
        Range::Between(1, most) if most == u32::MAX.into() => 0,
        Range::Between(0, most) => match dice.below(3) {
            0 => most + 1,
            1 => u32::MAX.into(),
            _ => dice.between(most + 1, u32::MAX.into()),
        },
        Range::Between(_, most) => match dice.below(4) {
            0 => 0,
            1 => most + 1,
            2 => u64::MAX,
            _ => dice.between(most + 1, u64::MAX),
        },
    };
}

/// Makes a number too large for its bytes; the low ones stay as they are, so that they alone would be good still.
pub fn enlarge_number(dice: &mut Dice, fields: &mut Fields, place: usize, bytes: usize) {
    let above = 8 * bytes as u64;
    fields.numbers[place] += match dice.below(3) {
        0 => 1 << above,
        1 => 1 << dice.between(above, 63),
        _ => (dice.bits() | 1 << 63) & !most_of(bytes),
    };
}

/// A number that is no message's type: any other byte, or a type's above what a byte holds.
pub fn no_type(dice: &mut Dice) -> u64 {
    let (kind, _) = dice.pick(&TYPES_AND_LENGTHS);
    match dice.below(4) {
        0 => u64::from(kind) + (1 << dice.between(8, 63)),
        1 => dice.bits() | 256,
        _ => loop {
            let byte = dice.bits() as u8;
            if length_of_type(byte).is_none() {
                break byte.into();
            }
        },
    }
}

/// Fields of any type that are good, or are refused with the number that stands beside them: for one fault or some.
pub fn any_fields(edition: Edition, dice: &mut Dice) -> (Fields, Option<u8>) {
    let (kind, _) = dice.pick(&TYPES_AND_LENGTHS);
    let mut fields = good_fields(edition, dice, kind);
    if dice.chance(500) {
        return (fields, None);
    }
    let judged = judged_numbers(edition, kind);
    for _ in 0..dice.pick(&[1, 1, 2, 3]) {
        if !judged.is_empty() && dice.chance(500) {
            let place = dice.pick(&judged);
            spoil_number(dice, &mut fields, place);
        } else {
            let mut narrow = numbers_of_type(edition, kind);
            narrow.retain(|(_, bytes)| *bytes < 8);
            let (place, bytes) = dice.pick(&narrow);
            fields.numbers[place] %= 1 << (8 * bytes);
            enlarge_number(dice, &mut fields, place, bytes);
        }
    }
    if dice.chance(300) {
        fields.numbers[0] = no_type(dice);
        return (fields, Some(3));
    }
    (fields, Some(4))
}

/// A sequence number: good ones at both ends and between, and bad ones.
pub fn any_sequence_number(dice: &mut Dice) -> u64 {
    match dice.below(8) {
        0 => dice.pick(&[0, LAST_NUMBER + 1, 1 << 40, u64::MAX]),
        1 => 1,
        2 => LAST_NUMBER,
        _ => dice.between(1, LAST_NUMBER),
    }
}

/// A good body of a type with anything in all that is not judged.
pub fn any_good_body(edition: Edition, dice: &mut Dice, kind: u8) -> Vec<u8> {
    let length = length_of_type(kind).expect("a type that there is");
    let mut body: Vec<u8> = (0..length).map(|_| dice.bits() as u8).collect();
    body[0] = kind;
    if kind != SYSTEM_TIME {
        set_timestamp(&mut body, good_nanoseconds(dice));
    }
    if let Some(at) = price_offset(kind) {
        let (price, size) = (
            dice.between(1, HIGHEST_PRICE),
            dice.between(1, u32::MAX.into()),
        );
        body[at..at + 8].copy_from_slice(&price.to_le_bytes());
        body[at + 8..at + 12].copy_from_slice(&(size as u32).to_le_bytes());
    }
    match kind {
        ADD_ORDER => body[17] = dice.pick(b"BS"),
        SYMBOL_UPDATE => {
            body[21] = dice.pick(b"YN");
            body[41] = dice.pick(b"ABCHIJKLMNPQUVWXYZ");
            if edition.has_security_type() {
                body[BYTE_20] = dice.pick(b"EF");
            }
        }
        _ => {}
    }
    body
}

fn any_good_record(edition: Edition, dice: &mut Dice) -> Vec<u8> {
    let (kind, _) = dice.pick(&TYPES_AND_LENGTHS);
    let number = dice.between(1, LAST_NUMBER);
    record(number, &any_good_body(edition, dice, kind))
}

/// A good packet of exactly so many bytes; of 0 it is empty. It panics where no records have that length together,
/// which is so of some below 100 alone.
pub fn packet_of_length(edition: Edition, dice: &mut Dice, length: usize) -> Vec<u8> {
    let mut reached = vec![false; length + 1];
    reached[0] = true;
    for end in 1..=length {
        let from =
            |bytes: usize| end >= HEADER_BYTES + bytes && reached[end - HEADER_BYTES - bytes];
        reached[end] = TYPES_AND_LENGTHS.iter().any(|(_, bytes)| from(*bytes));
    }
    assert!(reached[length], "no records have {length} bytes together");
    let mut records = Vec::new();
    let mut left = length;
    while left > 0 {
        let (kind, bytes) = dice.pick(&TYPES_AND_LENGTHS);
        if left >= HEADER_BYTES + bytes && reached[left - HEADER_BYTES - bytes] {
            left -= HEADER_BYTES + bytes;
            let number = dice.between(1, LAST_NUMBER);
            records.extend(record(number, &any_good_body(edition, dice, kind)));
        }
    }
    records
}

/// A packet so far that a record is to be put behind: empty, good, or refused as it is told.
pub fn so_far(edition: Edition, dice: &mut Dice) -> (Vec<u8>, Option<Refusal>) {
    let many = dice.pick(&[0, 1, 1, 2, 5, 12]);
    let mut packet = Vec::new();
    for _ in 0..many {
        packet.extend(any_good_record(edition, dice));
    }
    match dice.below(8) {
        0 => (Vec::new(), None),
        1..=4 => (packet, None),
        5 => {
            let length = dice.pick(&[1_501, 1_501, 1_502, 1_700, 3_000]);
            let mut packet = packet_of_length(edition, dice, length);
            if dice.chance(300) {
                packet.fill(dice.bits() as u8);
            }
            (packet, Some(Refusal::alone(1)))
        }
        _ => {
            let refusal = dice.between(2, 5) as u8;
            let start = packet.len();
            let list = [any_good_body(edition, dice, SYSTEM_TIME)];
            let (bad, told) = told_packet(edition, dice.bits(), &list, refusal);
            packet.extend(bad);
            (packet, Some(told.behind(start)))
        }
    }
}

/// A length of memory around what is needed, which is at least what was used.
pub fn memory_around(dice: &mut Dice, used: usize, needed: usize) -> usize {
    match dice.below(8) {
        0 => used,
        1 => needed.saturating_sub(1).max(used),
        2 | 3 => needed,
        4 => needed + 1,
        5 => dice.between(used as u64, needed.max(used) as u64) as usize,
        6 => needed.max(MOST_PACKET_BYTES),
        _ => needed + dice.between(2, 200) as usize,
    }
}
