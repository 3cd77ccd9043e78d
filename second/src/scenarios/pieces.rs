//! Recordings in pieces cut anywhere, through the calls for streams.

use super::{edition_number, give, Outcome};
use crate::morning::*;
use crate::packet::LAST_NUMBER;
use crate::stream::LEAST_HOLD;
use crate::tables::{MOST_ENTRIES, SHEET_ROWS};
use crate::traffic::{in_packets, Traffic};
use crate::twins::Twins;

/// A morning's recording, whole or cut, with packets of no bytes and of too many, over a receiver that
/// may have heard packets before. Some callers alter the stream between two pieces.
pub(super) fn pieces(dice: &mut Dice, twins: &mut Twins) -> Outcome {
    let edition = twins.edition();
    let settings = ListSettings::drawn(dice).of(edition);
    let list = list(dice.bits(), settings);
    twins.restart(settings.rows, settings.entries)?;
    let mut packets = delivery(edition, dice.bits(), &list, rough_delivery(dice.bits()));
    let before = dice.below(10).min(packets.len() as u64) as usize;
    for packet in packets.drain(..before) {
        give(dice, twins, &packet)?;
    }
    for _ in 0..dice.below(4) {
        let length = dice.pick(&[0, 1, 1_499, 1_500, 1_501, 1_502, 3_000, 65_535]);
        let place = dice.below(packets.len() as u64 + 1) as usize;
        packets.insert(place, vec![dice.bits() as u8; length]);
    }
    let mut bytes = recording(&packets);
    if dice.chance(300) {
        bytes.truncate(dice.below(bytes.len() as u64 + 1) as usize);
    }
    twins.recording_again(twins.start_number, &bytes)?;
    twins.open(LEAST_HOLD + dice.pick(&[0, 0, 1, 600]))?;
    let altered = dice.chance(200);
    for chunk in cut(dice, &bytes) {
        if dice.chance(30) {
            refused_piece(dice, twins, chunk)?;
        }
        if altered && dice.chance(100) {
            alter_stream(dice, twins);
        }
        twins.feed(chunk)?;
    }
    Ok(())
}

/// A busy hour of thousands of messages, each packet twice, at full capacities.
pub(super) fn long_pieces(dice: &mut Dice, twins: &mut Twins) -> Outcome {
    let mut traffic = Traffic::new(dice.bits(), dice.pick(&[20, 200, SHEET_ROWS]));
    let mut records = traffic.opening();
    for _ in 0..dice.between(5_000, 15_000) {
        records.push(traffic.message());
    }
    for (_, body) in &mut records {
        *body = written_in(twins.edition(), std::mem::take(body));
    }
    let mut bytes = Vec::new();
    for packet in in_packets(&records, 12) {
        bytes.extend(recording(&[packet.clone(), packet]));
    }
    twins.recording_again(twins.start_number, &bytes)?;
    twins.restart(SHEET_ROWS, MOST_ENTRIES)?;
    twins.open(LEAST_HOLD)?;
    for chunk in cut(dice, &bytes) {
        twins.feed(chunk)?;
    }
    Ok(())
}

/// Pieces cut anywhere, of no bytes to thousands.
pub(super) fn cut<'a>(dice: &mut Dice, bytes: &'a [u8]) -> Vec<&'a [u8]> {
    let mut pieces = Vec::new();
    let mut rest = bytes;
    while !rest.is_empty() {
        let most = dice.pick(&[0, 1, 3, 20, 400, 5_000]);
        let length = dice.below(most + 1).min(rest.len() as u64);
        let (piece, behind) = rest.split_at(length as usize);
        pieces.push(piece);
        rest = behind;
    }
    pieces
}

/// A piece refused by 6 for one thing that the caller altered, and then puts right again.
fn refused_piece(dice: &mut Dice, twins: &mut Twins, chunk: &[u8]) -> Outcome {
    let (desk, stream, hold) = (
        twins.second().clone(),
        *twins.stream(),
        twins.scanning.hold.clone(),
    );
    let index = twins.indexed.second.index.clone();
    let (choice, less) = (dice.below(7), 1 + dice.below(9) as usize);
    let next = dice.pick(&[0, LAST_NUMBER + 2, u64::MAX]);
    match choice {
        0 => twins.alter_stream(|_, hold| hold.truncate(LEAST_HOLD - less)),
        1 => twins.alter_stream(|stream, hold| stream.held = (hold.len() + less) as u64),
        2 => twins.alter_index(|index| index.truncate(index.len() - less)),
        _ => twins.alter(|desk| match choice {
            3 => desk.orders.clear(),
            4 => desk.symbols.truncate(desk.symbols.len() - less),
            5 => desk.shelf.truncate(desk.shelf.len() - less),
            _ => desk.state.next = next,
        }),
    }
    twins.feed(chunk)?;
    twins.alter(|altered| *altered = desk);
    twins.alter_index(|altered| *altered = index);
    twins.alter_stream(|altered, memory| {
        *altered = stream;
        *memory = hold;
    });
    Ok(())
}

/// Any count of bytes held and to pass over, counts near the largest number, any number and offset of a last
/// refused packet, other bytes held; and bits that do not count. Or another edition, by any number.
fn alter_stream(dice: &mut Dice, twins: &mut Twins) {
    if dice.chance(150) {
        return twins.set_edition_number(edition_number(dice));
    }
    let (choice, few) = (dice.below(5), dice.below(4));
    let (byte, to_pass) = (dice.bits() as u8, dice.below(3_000));
    let held = dice.below(twins.scanning.hold.len() as u64 + 1);
    let offset = dice.bits() >> dice.below(64);
    twins.alter_stream(|stream, hold| match choice {
        0 => stream.held = held,
        1 => stream.to_pass = to_pass,
        2 => {
            stream.bad = u64::MAX - few;
            stream.totals = [u64::MAX - few; 5];
        }
        3 => (stream.last_number, stream.last_offset) = (byte, offset),
        _ => hold[few as usize] = byte,
    });
    if dice.chance(500) {
        twins.set_idle_bits_of_stream(dice.bits());
    }
}
