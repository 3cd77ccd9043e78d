//! Recordings to be made recordings of the other edition, and what may be asked for (docs/CONVERT.md).

use super::faults::some_byte_20;
use super::Dice;
use crate::convert::{by_id, by_ticker, Asked, EXCEPTION_BYTES};
use crate::edition::{Edition, BYTE_20, EDITIONS};
use crate::packet::*;
use crate::tables::symbol_of_entry;

/// Where the Symbol Updates of a packet start, good or not, as far as its headers hold: their bodies.
pub fn updates_in(packet: &[u8]) -> Vec<usize> {
    let mut places = Vec::new();
    let mut body = HEADER_BYTES;
    while body <= packet.len() {
        let end = body + little(&packet[body - 2..body]) as usize;
        let whole = length_of_type(SYMBOL_UPDATE) == Some(end - body);
        if whole && end <= packet.len() && packet[body] == SYMBOL_UPDATE {
            places.push(body);
        }
        body = end + HEADER_BYTES;
    }
    places
}

/// Whether two bodies, as they are or padded, are Symbol Updates that differ in byte 20 alone.
pub fn differ_in_byte_20_alone(one: &[u8], other: &[u8]) -> bool {
    let without = |body: &[u8]| {
        let mut body = body.to_vec();
        if let Some(byte) = body.get_mut(BYTE_20) {
            *byte = 0;
        }
        body
    };
    one.first() == Some(&SYMBOL_UPDATE) && one != other && without(one) == without(other)
}

/// A packet with another byte 20 in some of its Symbol Updates.
fn retyped(dice: &mut Dice, packet: &[u8]) -> Vec<u8> {
    let mut packet = packet.to_vec();
    for place in updates_in(&packet) {
        if dice.chance(700) {
            packet[place + BYTE_20] = some_byte_20(dice);
        }
    }
    packet
}

/// Packets with all that a converter may be given beside them: other bytes 20, a packet again with other bytes 20,
/// packets of no bytes, of too many, and with a byte changed anywhere.
pub fn roughened(dice: &mut Dice, packets: &[&[u8]]) -> Vec<Vec<u8>> {
    let retype = dice.pick(&[0, 0, 100, 500]);
    let again = dice.pick(&[0, 100, 500]);
    let odd = dice.pick(&[0, 30]);
    let mut rough = Vec::new();
    for packet in packets {
        let mut packet = packet.to_vec();
        if dice.chance(retype) {
            packet = retyped(dice, &packet);
        }
        if dice.chance(odd) {
            rough.push(odd_packet(dice, &packet));
        }
        if dice.chance(again) {
            rough.push(retyped(dice, &packet));
        }
        rough.push(packet);
    }
    rough
}

/// No bytes, too many that would be good records, a byte changed or cut off.
fn odd_packet(dice: &mut Dice, packet: &[u8]) -> Vec<u8> {
    let mut odd = packet.to_vec();
    let place = dice.below(packet.len().max(1) as u64) as usize;
    match dice.below(4) {
        0 => odd.clear(),
        1 => {
            let least = dice.pick(&[1_501, 2_000, 20_000]);
            while odd.len() < least && !packet.is_empty() {
                odd.extend_from_slice(packet);
            }
        }
        2 => odd.truncate(place),
        _ => {
            if let Some(byte) = odd.get_mut(place) {
                *byte = dice.bits() as u8;
            }
        }
    }
    odd
}

/// Exceptions with good types: by IDs and tickers that these packets have or nearly have, some of them several times,
/// and some by marks that name none.
pub fn drawn_exceptions(dice: &mut Dice, packets: &[Vec<u8>]) -> Vec<u8> {
    let mut updates = Vec::new();
    for packet in packets {
        for place in updates_in(packet) {
            updates.push(&packet[place..]);
        }
    }
    let mut others = Vec::new();
    for _ in 0..dice.pick(&[0, 0, 1, 2, 4, 20]) {
        let (mut symbol, mut ticker) = (dice.bits() as u32, *b"ANY        ");
        if !updates.is_empty() {
            let update = dice.pick(&updates);
            symbol = symbol_of_entry(update);
            ticker.copy_from_slice(&update[9..20]);
        }
        others.extend(drawn_exception(dice, symbol, ticker));
    }
    others
}

/// One by this ID or this ticker; or by a name that differs from it in a bit, often of its last byte.
fn drawn_exception(
    dice: &mut Dice,
    mut symbol: u32,
    mut ticker: [u8; 11],
) -> [u8; EXCEPTION_BYTES] {
    if dice.chance(300) {
        let byte = dice.pick(&[0, 1, 2, 3, 3, 3]);
        symbol ^= 1 << (8 * byte + dice.below(8));
        let place = dice.pick(&[0, 1, 2, 5, 9, 10, 10, 10]);
        ticker[place] ^= 1 << dice.below(8);
    }
    let kind = dice.pick(b"EF");
    let mut exception = match dice.below(2) {
        0 => by_ticker(&ticker, kind),
        _ => {
            // What lies behind an ID does not count.
            let mut exception = by_id(symbol, kind);
            exception[5..12].fill_with(|| dice.bits() as u8);
            exception
        }
    };
    if dice.chance(200) {
        exception[0] = dice.pick(&[2, 3, b'0', b'1', 128, 129, 255]);
    }
    exception
}

/// Anything that may be asked for of these packets and is not refused.
pub fn drawn_asked(dice: &mut Dice, packets: &[Vec<u8>]) -> Asked {
    let (from, to) = (dice.pick(&EDITIONS), dice.pick(&EDITIONS));
    asked_between(dice, from, to, packets)
}

/// The same between these editions.
pub fn asked_between(dice: &mut Dice, from: Edition, to: Edition, packets: &[Vec<u8>]) -> Asked {
    let mut asked = Asked {
        from,
        to,
        kind: dice.pick(b"EF"),
        others: drawn_exceptions(dice, packets),
    };
    // "Where `to` is 1.3.b no type is judged or used."
    if !to.has_security_type() && dice.chance(500) {
        asked.kind = dice.bits() as u8;
        for exception in asked.others.chunks_mut(EXCEPTION_BYTES) {
            exception[EXCEPTION_BYTES - 1] = dice.bits() as u8;
        }
    }
    asked
}
