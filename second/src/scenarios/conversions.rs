//! Packets and recordings made the other edition's (docs/CONVERT.md): whatever is asked for, of whatever bytes. What
//! must become of a Symbol Update, and what must be the same afterwards, is told here by the bytes alone, so that a
//! slip of both programs shows too.

use super::pieces::cut;
use super::{edition_number, Outcome};
use crate::convert::{Counts, EXCEPTION_BYTES};
use crate::desk::Desk;
use crate::edition::{Edition, BYTE_20, EDITIONS};
use crate::morning::*;
use crate::packet::*;
use crate::receiver::Answer;
use crate::sheet::packets_of;
use crate::tables::ENTRY_BYTES;
use crate::twins::{Difference, Twins, Wanted};

pub(super) fn converted(dice: &mut Dice, twins: &mut Twins) -> Outcome {
    let written = dice.pick(&EDITIONS);
    let settings = ListSettings::drawn(dice).of(written);
    let list = list(dice.bits(), settings);
    let packets = some_packets(dice, settings, &list);
    for _ in 0..8 {
        told_packet_of_updates(dice, twins)?;
    }
    for packet in packets.iter().take(20) {
        let wanted = any_asked(dice, &packets);
        let _ = twins.convert(&wanted, packet)?;
    }
    for _ in 0..8 {
        let packet = any_packet(dice, &list);
        let wanted = any_asked(dice, std::slice::from_ref(&packet));
        let _ = twins.convert(&wanted, &packet)?;
        let _ = twins.convert_piece(&wanted, &packet)?;
    }
    let wanted = good_asked(dice, &packets);
    let mut before = recording(&packets);
    if dice.chance(300) {
        before.truncate(dice.below(before.len() as u64 + 1) as usize);
    }
    let after = in_pieces(dice, twins, &wanted, &before)?;
    same_afterwards(twins, settings, &wanted, &before, &after)
}

/// The first packets of a list's delivery with others among them; some begin with copies of a Symbol Update that differ
/// in byte 20 alone and wait on the shelf.
fn some_packets(dice: &mut Dice, settings: ListSettings, list: &[Vec<u8>]) -> Vec<Vec<u8>> {
    let how = rough_delivery(dice.bits());
    let delivered = delivery(settings.edition, dice.bits(), list, how);
    let delivered: Vec<&[u8]> = delivered.iter().map(Vec::as_slice).take(25).collect();
    let mut packets = roughened(dice, &delivered);
    if dice.chance(500) {
        let mut body = good_body_of(settings.edition, dice, SYMBOL_UPDATE);
        for place in 0..dice.between(2, 4) {
            body[BYTE_20] = b"EFEF"[place as usize];
            packets.insert(place as usize, record(3, &body));
        }
    }
    packets
}

/// Any edition numbers, good types, and exceptions by the names in these packets.
fn good_asked(dice: &mut Dice, packets: &[Vec<u8>]) -> Wanted {
    let (from, to) = (edition_number(dice), edition_number(dice));
    let editions = (Edition::of_number(from), Edition::of_number(to));
    let asked = asked_between(dice, editions.0, editions.1, packets);
    Wanted {
        from,
        to,
        kind: asked.kind,
        others: asked.others,
    }
}

/// The same, or a type that is none, of all symbols or of an exception, or exceptions that are not whole, or both.
fn any_asked(dice: &mut Dice, packets: &[Vec<u8>]) -> Wanted {
    let mut wanted = good_asked(dice, packets);
    let wrong = dice.below(8);
    if wrong == 0 || wrong == 1 {
        wanted.kind = bad_security_type(dice);
    }
    let exceptions = (wanted.others.len() / EXCEPTION_BYTES) as u64;
    if wrong == 2 && exceptions > 0 {
        let place = dice.below(exceptions) as usize;
        wanted.others[(place + 1) * EXCEPTION_BYTES - 1] = bad_security_type(dice);
    }
    if wrong == 0 || wrong == 3 {
        let more = dice.between(1, EXCEPTION_BYTES as u64 - 1) as usize;
        let byte = dice.pick(&[0, 1, b'E']);
        wanted.others.resize(wanted.others.len() + more, byte);
    }
    wanted
}

/// A packet of any kind: refused in either edition, random bytes, or a recording's bytes, of which both calls make
/// something.
fn any_packet(dice: &mut Dice, list: &[Vec<u8>]) -> Vec<u8> {
    let edition = dice.pick(&EDITIONS);
    match dice.below(4) {
        0 => {
            let length = dice.pick(&[0, 1, 2, 9, 60, 1_500, 1_501, 65_535, 65_537]);
            (0..length).map(|_| dice.bits() as u8).collect()
        }
        1 => {
            let mut body = symbol_update(0, 7, b"ABC        ", 100);
            body[BYTE_20] = odd_byte_20(dice);
            recording(&[record(1, &body), record(2, &body)])
        }
        _ => bad_packet(edition, dice.bits(), list, dice.between(1, 5) as u8),
    }
}

/// A good packet of Symbol Updates in any place among other messages, but for what stands in their bytes 20, and what
/// must become of it, by itself and in a recording.
fn told_packet_of_updates(dice: &mut Dice, twins: &mut Twins) -> Outcome {
    let mut wanted = good_asked(dice, &[]);
    // Letters alone in half of them, so that 1.3 takes as many.
    let letters = dice.chance(500);
    let (mut packet, mut updates) = (Vec::new(), Vec::new());
    for number in 1..=dice.between(1, 12) {
        let update = dice.chance(500);
        let mut body = good_body(Edition::V1_3b, dice);
        if update {
            body = good_body_of(Edition::V1_3b, dice, SYMBOL_UPDATE);
            body[BYTE_20] = some_byte_20(dice);
            if letters {
                body[BYTE_20] = dice.pick(b"EF");
            }
        }
        if body[0] == SYMBOL_UPDATE {
            updates.push(packet.len() + HEADER_BYTES);
        }
        packet.extend(record(number, &body));
    }
    wanted.others = drawn_exceptions(dice, std::slice::from_ref(&packet));
    let mut told = packet.clone();
    let bad = |place: &&usize| wanted.from == 1 && !b"EF".contains(&packet[**place + BYTE_20]);
    let refused = updates.iter().find(bad).map(|place| place + BYTE_20);
    let (mut answer, mut counts) = (Ok(updates.len() as u64), Counts::default());
    match refused {
        None => {
            counts.updates = updates.len() as u64;
            for place in updates {
                told[place + BYTE_20] = told_byte_20(&wanted, &packet[place..]);
            }
        }
        Some(at) => {
            answer = Err(Refusal::at(4, at));
            if wanted.to == 1 {
                counts.unread = 1;
            } else {
                counts.barred = 1;
                told[at + 1] = 0;
            }
        }
    }
    let (answered, alone) = twins.convert(&wanted, &packet)?;
    let kept = if refused.is_some() { &packet } else { &told };
    if (&answered, &alone) != (&answer, kept) {
        return Err(format!(
            "both: {answered:?}, {alone:?}, and {answer:?}, {kept:?} is told"
        ));
    }
    let bytes = recording(&[packet.clone(), packet]);
    let sums = Counts {
        bytes: bytes.len() as u64,
        updates: 2 * counts.updates,
        unread: 2 * counts.unread,
        barred: 2 * counts.barred,
    };
    let (answered, piece) = twins.convert_piece(&wanted, &bytes)?;
    if (&answered, &piece) != (&Ok(sums), &recording(&[told.clone(), told])) {
        return Err(format!(
            "both: {answered:?}, {piece:?}, and {sums:?} is told"
        ));
    }
    Ok(())
}

/// What byte 20 of a Symbol Update must become.
fn told_byte_20(wanted: &Wanted, update: &[u8]) -> u8 {
    if wanted.to != 1 {
        return 0;
    }
    let mut kind = wanted.kind;
    for exception in wanted.others.chunks(13).rev() {
        let id = exception[0] == 0 && exception[1..5] == update[5..9];
        let ticker = exception[0] == 1 && exception[1..12] == update[9..20];
        if id || ticker {
            kind = exception[12];
        }
    }
    kind
}

/// A recording in pieces cut anywhere, each behind what the last one left, as a caller does it. It must come to what it
/// comes to as one piece. Some callers ask wrongly first, which changes nothing.
fn in_pieces(
    dice: &mut Dice,
    twins: &mut Twins,
    wanted: &Wanted,
    bytes: &[u8],
) -> Result<Vec<u8>, Difference> {
    let (whole, as_one) = twins.convert_piece(wanted, bytes)?;
    let (mut handed_on, mut memory) = (Vec::new(), Vec::new());
    let mut sums = Counts::default();
    for piece in cut(dice, bytes) {
        memory.extend_from_slice(piece);
        if dice.chance(50) {
            let wrongly = any_asked(dice, &[]);
            let _ = twins.convert_piece(&wrongly, &memory)?;
        }
        let (answer, converted) = twins.convert_piece(wanted, &memory)?;
        let counts = answer.map_err(|number| format!("both: a piece refused with {number}"))?;
        sums.add(&counts);
        let (done, rest) = converted.split_at(counts.bytes as usize);
        handed_on.extend_from_slice(done);
        memory = rest.to_vec();
    }
    handed_on.extend(memory);
    match (Ok(sums), &handed_on) == (whole, &as_one) {
        true => Ok(handed_on),
        false => Err(format!("both: {sums:?} in pieces, and {whole:?} as one")),
    }
}

/// What a receiver of an edition made of a recording.
struct Heard {
    answers: Vec<Result<Answer, Refusal>>,
    desk: Desk,
    sheet: Vec<String>,
}

fn heard(
    twins: &mut Twins,
    settings: ListSettings,
    number: u64,
    bytes: &[u8],
) -> Result<Heard, Difference> {
    twins.start_number = number;
    twins.restart(settings.rows, settings.entries)?;
    let (packets, whole) = packets_of(bytes);
    let mut answers = Vec::new();
    for packet in packets {
        answers.push(twins.receive(packet)?);
    }
    let mut sheet = Vec::new();
    for line in twins.sheet_text(whole)?.lines() {
        if !line.starts_with("type=") {
            sheet.push(line.to_string());
        }
    }
    Ok(Heard {
        answers,
        desk: twins.second().clone(),
        sheet,
    })
}

/// The recording in receivers of the edition that it is converted from, and the converted one in receivers of the other:
/// the same packets are refused; answers are the same but for differing copies (14) that are repeats (13) then; tables
/// but for byte 20 of entries; sheets but for `type=`.
fn same_afterwards(
    twins: &mut Twins,
    settings: ListSettings,
    wanted: &Wanted,
    before: &[u8],
    after: &[u8],
) -> Outcome {
    let one = heard(twins, settings, wanted.from, before)?;
    let other = heard(twins, settings, wanted.to, after)?;
    if one.answers.len() != other.answers.len() {
        return Err("both: another number of packets".to_string());
    }
    for (mine, others) in one.answers.iter().zip(&other.answers) {
        let alike = match (mine, others) {
            (Ok(mine), Ok(others)) => {
                let repeated = others.repeats.saturating_sub(mine.repeats);
                let mut moved = *others;
                moved.repeats -= repeated;
                moved.differing += repeated;
                let seen = &mut twins.tally.conversions;
                seen.note("a differing copy that is a repeat then", repeated);
                *mine == moved
            }
            (Err(_), Err(_)) => true,
            _ => false,
        };
        if !alike {
            return Err(format!("both: {mine:?} before, and {others:?} after"));
        }
    }
    let (mine, others) = (&one.desk, &other.desk);
    let states = [mine.state, others.state].map(|state| (state.next, state.second, state.stop));
    let entries = [mine, others].map(|desk| without_bytes_20(&desk.symbols));
    let same = states[0] == states[1] && entries[0] == entries[1] && mine.orders == others.orders;
    match same && one.sheet == other.sheet {
        true => Ok(()),
        false => Err("both: another state, table or sheet after than before".to_string()),
    }
}

fn without_bytes_20(symbols: &[u8]) -> Vec<u8> {
    let mut symbols = symbols.to_vec();
    for entry in symbols.chunks_mut(ENTRY_BYTES) {
        entry[BYTE_20] = 0;
    }
    symbols
}
