//! Packets that are refused with 2 to 5, at many offsets (request 5). The number and the offset that must come
//! of each are told here, so that a slip of both programs shows too.

use super::pieces::cut;
use super::Outcome;
use crate::edition::Edition;
use crate::morning::*;
use crate::packet::*;
use crate::reading::judged_fields;
use crate::receiver::{filled_slot, slot_mut};
use crate::stream::LEAST_HOLD;
use crate::twins::Twins;

/// Bytes that are refused, and the refusal that must come of them.
type Told = (Vec<u8>, Refusal);

/// Each judged field as the only bad one and as the second of two, each other fault a few times, in the first,
/// a middle and the last record of packets; then all these packets as a recording in pieces, and 6 inside one.
pub(super) fn offsets(dice: &mut Dice, twins: &mut Twins) -> Outcome {
    let edition = twins.edition();
    twins.restart(2, 2)?;
    let mut records = bad_fields(edition, dice);
    for _ in 0..3 {
        records.push(told_record(edition, dice, 5));
        records.push(told_record(edition, dice, 3));
        records.push((record(1, &[]), Refusal::at(3, 10)));
    }
    let mut packets = vec![empty_at_1500()];
    for (faulty, refusal) in &records {
        packets.push(among_others(edition, dice, faulty, *refusal));
    }
    for _ in 0..4 {
        packets.push(bad_end(edition, dice));
    }
    dice.shuffle(&mut packets);
    for (packet, refusal) in &packets {
        refuses(twins, packet, *refusal)?;
    }
    in_pieces(dice, twins, &packets)?;
    six_inside_a_piece(twins)
}

/// Records with each judged field bad, and with an earlier one of the same message bad too, by which 4 is told:
/// "the first byte of the earliest bad field by offset", which lies behind 10 bytes of header.
fn bad_fields(edition: Edition, dice: &mut Dice) -> Vec<Told> {
    let mut records = Vec::new();
    let fields = judged_fields(edition);
    for (kind, at, _) in fields.iter().copied() {
        records.push(bad_record(edition, dice, kind, &[at]));
        let mut earlier = Vec::new();
        for (other, before, _) in fields.iter().copied() {
            if other == kind && before < at {
                earlier.push(before);
            }
        }
        if !earlier.is_empty() {
            let earlier = dice.pick(&earlier);
            records.push(bad_record(edition, dice, kind, &[earlier, at]));
        }
    }
    records
}

/// A good record but for these fields, the earliest of which is the first.
fn bad_record(edition: Edition, dice: &mut Dice, kind: u8, fields: &[usize]) -> Told {
    let mut body = good_body_of(edition, dice, kind);
    for at in fields {
        spoil_field(dice, &mut body, *at);
    }
    let number = dice.between(1, LAST_NUMBER);
    (record(number, &body), Refusal::at(4, 10 + fields[0]))
}

/// A packet of this record alone, or with it as the first, a middle or the last; what lies behind it may be bad
/// as well.
fn among_others(edition: Edition, dice: &mut Dice, faulty: &[u8], refusal: Refusal) -> Told {
    let (before, behind) = dice.pick(&[(false, false), (false, true), (true, true), (true, false)]);
    let mut packet = Vec::new();
    if before {
        packet = good_records(edition, dice);
    }
    let refusal = refusal.behind(packet.len());
    packet.extend_from_slice(faulty);
    if behind {
        for _ in 0..dice.between(1, 3) {
            let next = match dice.below(4) {
                0 => record(1, &good_body(edition, dice)),
                further => told_record(edition, dice, 2 + further as u8).0,
            };
            packet.extend(next);
        }
    }
    (packet, refusal)
}

/// One good record to many: 1,200 bytes at most, so that there is room behind them.
fn good_records(edition: Edition, dice: &mut Dice) -> Vec<u8> {
    let mut bytes = Vec::new();
    for _ in 0..dice.pick(&[1, 2, 5, 40]) {
        let number = dice.between(1, LAST_NUMBER);
        let next = record(number, &good_body(edition, dice));
        if bytes.len() + next.len() > 1_200 {
            break;
        }
        bytes.extend(next);
    }
    bytes
}

/// Good records and a last one that is not whole: "for 2 the record's start".
fn bad_end(edition: Edition, dice: &mut Dice) -> Told {
    let mut packet = good_records(edition, dice);
    let refusal = Refusal::at(2, packet.len());
    packet.extend(faulty_end(edition, dice));
    (packet, refusal)
}

/// An empty body at the end of the longest packet: 94 System Times of 15 bytes and two Modifies of 40 are 1,490,
/// and its header 10 more. "for an empty body, the place where it would start", which is no byte of the packet.
fn empty_at_1500() -> Told {
    let mut packet = Vec::new();
    for _ in 0..94 {
        packet.extend(record(1, &system_time(1)));
    }
    for _ in 0..2 {
        packet.extend(record(1, &modify_order(0, 1, 1, 1, 1, 1)));
    }
    packet.extend(record(1, &[]));
    (packet, Refusal::at(3, 1_500))
}

fn refuses(twins: &mut Twins, packet: &[u8], refusal: Refusal) -> Outcome {
    let answer = twins.receive(packet)?;
    if answer == Err(refusal) {
        return Ok(());
    }
    Err(format!("both: {answer:?}, and {refusal:?} is told"))
}

/// The refused packets as a recording in pieces, with accepted ones and some of too many bytes between them.
fn in_pieces(dice: &mut Dice, twins: &mut Twins, packets: &[Told]) -> Outcome {
    twins.open(LEAST_HOLD)?;
    let mut last = (0, 0);
    for (packet, refusal) in packets {
        let offset = refusal.offset.unwrap_or(0) as u64;
        for (bytes, told) in [
            // An accepted packet leaves what was told.
            (record(1, &system_time(1)), last),
            (packet.clone(), (refusal.number, offset)),
        ] {
            piece_by_piece(dice, twins, &bytes, last, told)?;
            last = told;
        }
        if dice.chance(50) {
            let long = vec![1; dice.between(1_501, 3_000) as usize];
            piece_by_piece(dice, twins, &long, last, (1, 0))?;
            last = (1, 0);
        }
    }
    Ok(())
}

/// A packet in pieces: up to its last byte the stream must tell what it told before, and then this.
fn piece_by_piece(
    dice: &mut Dice,
    twins: &mut Twins,
    packet: &[u8],
    before: (u8, u64),
    told: (u8, u64),
) -> Outcome {
    let bytes = recording(&[packet.to_vec()]);
    let (front, end) = bytes.split_at(bytes.len() - 1);
    for chunk in cut(dice, front) {
        twins.feed(chunk)?;
        tells(twins, before)?;
    }
    twins.feed(end)?;
    tells(twins, told)
}

/// A caller's message on the shelf, behind the last number: the first packet of a piece drives next too far, and
/// the second is refused with 6, which has no offset.
fn six_inside_a_piece(twins: &mut Twins) -> Outcome {
    let body = system_time(1);
    twins.alter(|desk| {
        desk.state.next = LAST_NUMBER;
        let slot = slot_mut(&mut desk.shelf, LAST_NUMBER + 1);
        slot.copy_from_slice(&filled_slot(LAST_NUMBER + 1, &body));
    });
    let drives = record(LAST_NUMBER, &body);
    twins.feed(&recording(&[drives, record(1, &body)]))?;
    tells(twins, (6, 0))
}

fn tells(twins: &Twins, told: (u8, u64)) -> Outcome {
    let last = (twins.stream().last_number, twins.stream().last_offset);
    if last == told {
        return Ok(());
    }
    Err(format!("both: last {last:?}, and {told:?} is told"))
}
