//! Packets that are refused, and bytes that were never a packet.

use super::{give, Outcome};
use crate::edition::BYTE_20;
use crate::morning::*;
use crate::packet::*;
use crate::twins::Twins;

/// Every refusal among good packets, with several faults in one packet and with good packets that
/// were cut, joined or changed in a byte.
pub(super) fn refused(dice: &mut Dice, twins: &mut Twins) -> Outcome {
    let edition = twins.edition();
    let mut settings = ListSettings::drawn(dice).of(edition);
    settings.messages = settings.messages.max(20);
    let list = list(dice.bits(), settings);
    twins.restart(settings.rows, settings.entries)?;
    let how = rough_delivery(dice.bits());
    let mut good = delivery(edition, dice.bits(), &list, how).into_iter();
    for _ in 0..dice.between(10, 60) {
        let refusal = dice.between(1, 5) as u8;
        let mut packet = bad_packet(edition, dice.bits(), &list, refusal);
        match dice.below(6) {
            0 => packet.extend(bad_packet(edition, dice.bits(), &list, refusal % 5 + 1)),
            1 | 2 => {
                if let Some(next) = good.next() {
                    packet = next;
                    spoil(dice, &mut packet);
                }
            }
            3 => packet = good.next().unwrap_or_default(),
            _ => {}
        }
        give(dice, twins, &packet)?;
    }
    Ok(())
}

/// One or two bytes changed, some cut off, or some put behind.
fn spoil(dice: &mut Dice, packet: &mut Vec<u8>) {
    if packet.is_empty() {
        return;
    }
    let length = packet.len() as u64;
    match dice.below(4) {
        0 => packet.truncate(dice.below(length) as usize),
        1 => packet.extend((0..dice.between(1, 12)).map(|place| place as u8)),
        _ => {
            for _ in 0..dice.between(1, 2) {
                packet[dice.below(length) as usize] = dice.bits() as u8;
            }
        }
    }
}

/// Bytes at random, of any length; or with headers that hold, and types that are known.
pub(super) fn garbage(dice: &mut Dice, twins: &mut Twins) -> Outcome {
    twins.restart(dice.between(1, 9) as usize, 3)?;
    for _ in 0..dice.between(5, 40) {
        let length = match dice.below(3) {
            0 => dice.pick(&[0, 1, 2, 9, 10, 11, 1_499, 1_500, 1_501, 65_535]),
            1 => dice.below(120),
            _ => dice.below(1_600),
        };
        let mut packet = Vec::new();
        match dice.below(3) {
            0 => packet.resize_with(length as usize, || dice.bits() as u8),
            1 => packet.resize(length as usize, dice.bits() as u8),
            _ => {
                let next = twins.second().state.next;
                while (packet.len() as u64) < length {
                    packet.extend(garbled_record(dice, next));
                }
            }
        }
        give(dice, twins, &packet)?;
    }
    Ok(())
}

/// A record near next with a known type and its length, and most often good fields.
fn garbled_record(dice: &mut Dice, next: u64) -> Vec<u8> {
    let (kind, length) = dice.pick(&TYPES_AND_LENGTHS);
    let mut body = vec![0; length];
    let small = dice.chance(800);
    for (place, byte) in body.iter_mut().enumerate() {
        let flags = kind == MODIFY_ORDER && place == FLAGS_OF_MODIFY;
        let any = dice.bits() as u8;
        *byte = if small && !flags { any % 2 } else { any };
    }
    body[0] = kind;
    match kind {
        ADD_ORDER if small => body[17] = dice.pick(b"BBBSSSX"),
        SYMBOL_UPDATE if small => {
            body[BYTE_20] = dice.pick(b"EEFFG\0");
            body[21] = dice.pick(b"YNNNNNN");
            body[41] = dice.between(64, 91) as u8;
        }
        _ => {}
    }
    if small {
        zero_price(&mut body);
    } else if kind != SYSTEM_TIME && dice.chance(900) {
        // Three in four random Timestamps are beyond the limit (request 6). Most get a good one, so that
        // random Deletes, Clears, States and Statuses are still accepted; the rest stay as drawn.
        set_timestamp(&mut body, good_nanoseconds(dice));
    }
    record(next.saturating_add(dice.below(3)), &body)
}

/// The high bytes of a price put to 0, so that it is in range.
fn zero_price(body: &mut [u8]) {
    if let Some(at) = price_offset(body[0]) {
        body[at + 6..at + 8].fill(0);
        body[at] |= 1;
    }
}
