//! Packets, records and bodies that are refused in an edition, each with the number and the offset it is made for.

use super::{messages::*, Dice};
use crate::edition::{Edition, BYTE_20};
use crate::packet::*;

/// A packet that is refused with this number (1 to 5): good records of the list in front, the
/// fault, and behind it good records and further faults.
pub fn bad_packet(edition: Edition, seed: u64, list: &[Vec<u8>], number: u8) -> Vec<u8> {
    told_packet(edition, seed, list, number).0
}

/// The same, and the refusal with its offset: where the fault was put.
pub fn told_packet(
    edition: Edition,
    seed: u64,
    list: &[Vec<u8>],
    refusal: u8,
) -> (Vec<u8>, Refusal) {
    let mut dice = Dice::new(seed);
    let good = |dice: &mut Dice| {
        let number = dice.between(1, list.len() as u64);
        record(number, &list[number as usize - 1])
    };
    let mut packet = Vec::new();
    if refusal == 1 {
        if dice.below(3) == 0 {
            return (packet, Refusal::alone(1));
        }
        let least = dice.pick(&[1_501, 1_501, 1_600, 2_500]);
        while packet.len() < least {
            packet.extend_from_slice(&good(&mut dice));
        }
        if dice.below(2) == 0 {
            packet.truncate(1_501);
        }
        return (packet, Refusal::alone(1));
    }
    for _ in 0..dice.below(5) {
        packet.extend_from_slice(&good(&mut dice));
    }
    let start = packet.len();
    if refusal == 2 {
        packet.extend_from_slice(&faulty_end(edition, &mut dice));
        return (packet, Refusal::at(2, start));
    }
    let (faulty, told) = told_record(edition, &mut dice, refusal);
    packet.extend_from_slice(&faulty);
    for _ in 0..dice.below(4) {
        match dice.below(3) {
            0 => {
                let further = dice.between(3, 5) as u8;
                packet.extend_from_slice(&told_record(edition, &mut dice, further).0);
            }
            _ => packet.extend_from_slice(&good(&mut dice)),
        }
    }
    if dice.below(4) == 0 {
        packet.extend_from_slice(&faulty_end(edition, &mut dice));
    }
    (packet, told.behind(start))
}

fn any_number(dice: &mut Dice) -> u64 {
    match dice.below(3) {
        0 => bad_number(dice),
        _ => dice.between(1, LAST_NUMBER),
    }
}

fn bad_number(dice: &mut Dice) -> u64 {
    match dice.below(4) {
        0 => LAST_NUMBER + 1,
        1 => dice.pick(&[1 << 40, 1 << 63, u64::MAX]),
        _ => 0,
    }
}

/// A body that is refused with 3 or 4.
pub fn bad_body(edition: Edition, seed: u64, number: u8) -> Vec<u8> {
    told_body(edition, seed, number).0
}

/// The same, and the refusal with its offset in the body.
pub fn told_body(edition: Edition, seed: u64, number: u8) -> (Vec<u8>, Refusal) {
    let mut dice = Dice::new(seed);
    let mut body = good_body(edition, &mut dice);
    if number == 4 {
        let earliest = spoil_fields(edition, &mut dice, &mut body);
        return (body, Refusal::at(4, earliest));
    }
    if dice.below(2) == 0 {
        spoil_fields(edition, &mut dice, &mut body);
    }
    match dice.below(4) {
        0 => body.clear(),
        1 => loop {
            body[0] = dice.bits() as u8;
            if length_of_type(body[0]).is_none() {
                break;
            }
        },
        2 => loop {
            let length = dice.between(1, 60) as usize;
            if length != body.len() {
                body.resize(length, 0);
                break;
            }
        },
        _ => body.push(dice.bits() as u8),
    }
    (body, Refusal::at(3, 0))
}

/// Put one to three judged fields out of range, in a message that has such fields: any but System Time. The
/// lowest of their offsets is answered.
fn spoil_fields(edition: Edition, dice: &mut Dice, body: &mut Vec<u8>) -> usize {
    while body[0] == SYSTEM_TIME {
        *body = good_body(edition, dice);
    }
    let mut earliest = body.len();
    for _ in 0..dice.between(1, 3) {
        let at = some_field(edition, dice, body[0]);
        spoil_field(dice, body, at);
        earliest = earliest.min(at);
    }
    earliest
}

/// The offset of a judged field of a type: the Timestamp one time in three, or where it is the only one.
fn some_field(edition: Edition, dice: &mut Dice, kind: u8) -> usize {
    match (dice.below(3), kind) {
        (0, _) => 1,
        (_, SYMBOL_UPDATE) if edition.has_security_type() => dice.pick(&[BYTE_20, 21, 41]),
        (_, SYMBOL_UPDATE) => dice.pick(&[21, 41]),
        (_, kind) => match price_offset(kind) {
            None => 1,
            Some(at) => match (dice.below(3), kind) {
                (0, ADD_ORDER) => 17,
                (1, _) => at + 8,
                _ => at,
            },
        },
    }
}

/// Puts the judged field at this offset of a body out of range.
pub fn spoil_field(dice: &mut Dice, body: &mut [u8], at: usize) {
    match (body[0], at) {
        (_, 1) => set_timestamp(body, bad_nanoseconds(dice)),
        (SYMBOL_UPDATE, BYTE_20) => body[at] = bad_security_type(dice),
        (SYMBOL_UPDATE, 21) => body[at] = dice.pick(b"ynEX\0 "),
        (SYMBOL_UPDATE, 41) => body[at] = dice.pick(b"DEFGORSTah@[\0 "),
        (ADD_ORDER, 17) => body[at] = dice.pick(b"bsXACRT\0 "),
        (kind, _) if size_offset(kind) == Some(at) => body[at..at + 4].fill(0),
        (kind, _) if price_offset(kind) == Some(at) => {
            let price = dice.pick(&[0, HIGHEST_PRICE + 1, 1 << 50, 1 << 63, u64::MAX]);
            body[at..at + 8].copy_from_slice(&price.to_le_bytes());
        }
        (kind, _) => panic!("type {kind} has no judged field at {at}"),
    }
}

/// Neither `E` nor `F`: letters beside them, other fields' letters, ends of what a byte can be, or any.
pub fn bad_security_type(dice: &mut Dice) -> u8 {
    loop {
        let byte = match dice.below(3) {
            0 => dice.bits() as u8,
            1 => dice.pick(b"DGefN"),
            _ => dice.pick(&[0, b' ', 255]),
        };
        if !b"EF".contains(&byte) {
            return byte;
        }
    }
}

/// Each half the time a Security Type and another byte.
pub fn some_byte_20(dice: &mut Dice) -> u8 {
    match dice.below(2) {
        0 => dice.pick(b"EF"),
        _ => bad_security_type(dice),
    }
}

/// Puts the judged field at this offset of a body into its range.
pub fn mend_field(body: &mut [u8], at: usize) {
    match (body[0], at) {
        (_, 1) => set_timestamp(body, 0),
        (SYMBOL_UPDATE, BYTE_20) => body[at] = b'E',
        (SYMBOL_UPDATE, 21) => body[at] = b'N',
        (SYMBOL_UPDATE, 41) => body[at] = b'H',
        (ADD_ORDER, 17) => body[at] = b'B',
        (kind, _) if size_offset(kind) == Some(at) => {
            body[at..at + 4].copy_from_slice(&1_u32.to_le_bytes());
        }
        (kind, _) if price_offset(kind) == Some(at) => {
            body[at..at + 8].copy_from_slice(&1_u64.to_le_bytes());
        }
        (kind, _) => panic!("type {kind} has no judged field at {at}"),
    }
}

/// A whole record that is refused with 5, 3 or 4, perhaps with lesser faults too, and its refusal with the
/// offset in the record.
pub fn told_record(edition: Edition, dice: &mut Dice, refusal: u8) -> (Vec<u8>, Refusal) {
    if refusal == 5 {
        let number = bad_number(dice);
        let body = match dice.below(3) {
            0 => good_body(edition, dice),
            1 => bad_body(edition, dice.bits(), 3),
            _ => bad_body(edition, dice.bits(), 4),
        };
        return (record(number, &body), Refusal::at(5, 0));
    }
    let number = dice.between(1, LAST_NUMBER);
    let (body, told) = told_body(edition, dice.bits(), refusal);
    (record(number, &body), told.behind(HEADER_BYTES))
}

/// A good packet as the tap fault of request 6 makes it, with "1,000,000,000 in a Timestamp": the first
/// that it has. One of System Times alone stays as it is.
pub fn with_tap_fault(edition: Edition, good: &[u8]) -> Vec<u8> {
    let mut records = Vec::new();
    let mut done = false;
    for one in read_packet(edition, good).expect("a good packet") {
        let mut body = one.body.to_vec();
        if !done && body[0] != SYSTEM_TIME {
            set_timestamp(&mut body, 1_000_000_000);
            done = true;
        }
        records.push((one.number, body));
    }
    packet(&records)
}

/// A packet's end that is refused with 2, perhaps with lesser faults too.
pub fn faulty_end(edition: Edition, dice: &mut Dice) -> Vec<u8> {
    let number = any_number(dice);
    let body = match dice.below(3) {
        0 => good_body(edition, dice),
        1 => bad_body(edition, dice.bits(), 3),
        _ => bad_body(edition, dice.bits(), 4),
    };
    if dice.below(2) == 0 {
        let mut bytes = record(number, &body);
        bytes.truncate(dice.between(1, 9) as usize);
        return bytes;
    }
    let claimed = match dice.below(3) {
        0 => 65_535,
        1 => body.len() as u64 + 1,
        _ => dice.between(body.len() as u64 + 1, 2_000),
    };
    record_claiming(number, claimed as u16, &body)
}
