//! Both editions (request 10): each one's recordings in the other's receiver, byte 20 beside other bad fields, and
//! states whose edition the caller changes. What must come of each packet is told here, by the bytes alone, so that
//! a slip of both programs shows too.

use super::pieces::cut;
use super::{comes_to, edition_number, other_number, Outcome};
use crate::desk::Desk;
use crate::edition::{Edition, EDITIONS};
use crate::examples::example_list;
use crate::morning::*;
use crate::packet::*;
use crate::sheet::sheet;
use crate::stream::LEAST_HOLD;
use crate::tables::*;
use crate::twins::Twins;

/// The number behind document 01's example, which most trials begin with.
const NEXT: u64 = 6;

pub(super) fn editions(dice: &mut Dice, twins: &mut Twins) -> Outcome {
    every_byte_20(dice, twins)?;
    for _ in 0..6 {
        changed_between_packets(dice, twins)?;
        on_the_shelf(dice, twins)?;
        without_a_free_entry(dice, twins)?;
    }
    in_a_stream(dice, twins)?;
    on_sheets(dice, twins)?;
    anothers_recording(dice, twins)
}

/// "byte 20 of a Symbol Update is Security Type, `E` or `F`", where the number is 1, "from 1.3.a it is reserved".
fn good(number: u64, byte: u8) -> bool {
    number != 1 || byte == b'E' || byte == b'F'
}

/// A Symbol Update with this byte 20.
fn update_with(symbol: u32, byte: u8) -> Vec<u8> {
    let mut body = symbol_update(3, symbol, b"TYPED      ", 100);
    body[20] = byte;
    body
}

/// The example, numbers 1 to 5, with so many entries, in a receiver that was started with this number.
fn example(twins: &mut Twins, number: u64, entries: usize) -> Outcome {
    twins.start_number = number;
    twins.restart(4, entries)?;
    let list = all_written_in(twins.edition(), example_list());
    comes_to(twins, &packet(&numbered(&list, 1, 5)), Ok((NEXT, 0)))
}

/// Every value alone and beside a bad Timestamp, a bad test indicator and a bad market, as a body, and some of them
/// as the next message: "the earliest bad field by offset" is told.
fn every_byte_20(dice: &mut Dice, twins: &mut Twins) -> Outcome {
    let number = edition_number(dice);
    example(twins, number, 2)?;
    for byte in 0..=255 {
        for others in 0..8 {
            let (body, told) = beside_others(dice, number, byte, others);
            twins.body(number, &body)?;
            let read = read_body(Edition::of_number(number), &body).err();
            if read != told {
                return Err(format!("both: {read:?}, and {told:?} is told of {body:?}"));
            }
        }
    }
    for _ in 0..16 {
        let (byte, others) = (some_byte_20(dice), dice.below(8));
        let (body, told) = beside_others(dice, number, byte, others);
        let next = twins.second().state.next;
        let wanted = match told {
            None => Ok((next + 1, 0)),
            Some(refusal) => Err(refusal.behind(10)),
        };
        comes_to(twins, &record(next, &body), wanted)?;
    }
    Ok(())
}

/// A Symbol Update with this byte 20 and these others of its judged fields bad, by the bits of a number; and how it
/// is refused, if it is.
fn beside_others(
    dice: &mut Dice,
    number: u64,
    byte: u8,
    others: u64,
) -> (Vec<u8>, Option<Refusal>) {
    let mut body = update_with(7, byte);
    let mut bad = Vec::new();
    if !good(number, byte) {
        bad.push(20);
    }
    for (bit, at) in [1, 21, 41].into_iter().enumerate() {
        if others >> bit & 1 == 1 {
            spoil_field(dice, &mut body, at);
            bad.push(at);
        }
    }
    let earliest = bad.into_iter().min();
    (body, earliest.map(|at| Refusal::at(4, at)))
}

/// The caller puts other numbers into the state between packets, each of which is judged by what it finds there. An
/// accepted one leaves 0 or 1 there, and a refused one the number as it was.
fn changed_between_packets(dice: &mut Dice, twins: &mut Twins) -> Outcome {
    let started = edition_number(dice);
    example(twins, started, 3)?;
    for _ in 0..6 {
        let number = edition_number(dice);
        twins.set_edition_number(number);
        // One time in four with a bad test indicator, which every edition refuses.
        let (byte, others) = (some_byte_20(dice), dice.pick(&[0, 0, 0, 2]));
        let (body, told) = beside_others(dice, number, byte, others);
        let next = twins.second().state.next;
        // Behind a System Time, whose record has 15 bytes, or before it.
        let mut records = vec![(next, body), (next + 1, system_time(9))];
        let mut start = 0;
        if dice.chance(500) {
            records.swap(0, 1);
            start = 15;
        }
        let (wanted, kept) = match told {
            None => (Ok((next + 2, 0)), u64::from(number == 1)),
            Some(refusal) => (Err(refusal.behind(start + 10)), number),
        };
        comes_to(twins, &packet(&records), wanted)?;
        keeps(twins.scanning.proved.state[3], kept)?;
    }
    Ok(())
}

/// What must stand as the edition's number.
fn keeps(told: u64, wanted: u64) -> Outcome {
    match told == wanted {
        true => Ok(()),
        false => Err(format!("both: edition {told}, and {wanted} is told")),
    }
}

/// A Symbol Update waits on the shelf, which one edition let in, when the caller puts another number into the state:
/// it is applied, or no good body there (27). Under the first it is applied again, after the next taken record.
fn on_the_shelf(dice: &mut Dice, twins: &mut Twins) -> Outcome {
    let (first, then) = (edition_number(dice), edition_number(dice));
    let mut byte = some_byte_20(dice);
    if !good(first, byte) {
        byte = b'F';
    }
    example(twins, first, 3)?;
    let waiting = [(NEXT + 1, update_with(8, byte)), (NEXT + 2, system_time(2))];
    comes_to(twins, &packet(&waiting), Ok((NEXT, 0)))?;
    twins.set_edition_number(then);
    let missing = record(NEXT, &system_time(1));
    if good(then, byte) {
        return comes_to(twins, &missing, Ok((NEXT + 3, 0)));
    }
    comes_to(twins, &missing, Ok((NEXT + 1, 27)))?;
    // A repeat is no good body of this edition, and refused before it is looked for on the shelf.
    let repeat = record(NEXT + 1, &update_with(8, byte));
    comes_to(twins, &repeat, Err(Refusal::at(4, 30)))?;
    twins.sheet(dice)?;
    twins.set_edition_number(first);
    let taken = record(NEXT + 3, &system_time(3));
    comes_to(twins, &taken, Ok((NEXT + 4, 0)))
}

/// A Symbol Update that finds no entry, as next's message: the stop is 26, or 27 in an edition that refuses it, told
/// anew after each packet.
fn without_a_free_entry(dice: &mut Dice, twins: &mut Twins) -> Outcome {
    let byte = some_byte_20(dice);
    let started = if good(1, byte) {
        edition_number(dice)
    } else {
        0
    };
    example(twins, started, 1)?;
    let new = record(NEXT, &update_with(8, byte));
    comes_to(twins, &new, Ok((NEXT, 26)))?;
    for _ in 0..3 {
        let number = edition_number(dice);
        twins.set_edition_number(number);
        let stop = if good(number, byte) { 26 } else { 27 };
        let old = record(1, &system_time(1));
        comes_to(twins, &old, Ok((NEXT, stop)))?;
    }
    Ok(())
}

/// Recordings of Symbol Updates in pieces, over receivers with any number, which the caller changes once more: each
/// packet is bad or not by the number as it stands when its last byte comes.
fn in_a_stream(dice: &mut Dice, twins: &mut Twins) -> Outcome {
    for number in [edition_number(dice), 1, other_number(dice)] {
        let started = edition_number(dice);
        example(twins, started, 3)?;
        twins.set_edition_number(number);
        twins.open(LEAST_HOLD)?;
        let mut told = (0, NEXT, (0, 0));
        some_updates(dice, twins, number, &mut told)?;
        let other = edition_number(dice);
        refused_piece(twins, other)?;
        some_updates(dice, twins, other, &mut told)?;
    }
    Ok(())
}

/// Four packets with Symbol Updates as the next message, each in pieces. Told are the bad ones, the next number, and
/// number and offset of the last that was refused.
fn some_updates(
    dice: &mut Dice,
    twins: &mut Twins,
    number: u64,
    told: &mut (u64, u64, (u8, u64)),
) -> Outcome {
    for _ in 0..4 {
        let byte = some_byte_20(dice);
        let packet = record(told.1, &update_with(8, byte));
        for piece in cut(dice, &recording(&[packet])) {
            twins.feed(piece)?;
        }
        match good(number, byte) {
            true => told.1 += 1,
            false => (told.0, told.2) = (told.0 + 1, (4, 30)),
        }
        let stream = *twins.stream();
        let last = (stream.last_number, stream.last_offset);
        if (stream.bad, twins.second().state.next, last) != *told {
            return Err(format!("both: {stream:?}, and {told:?} is told"));
        }
    }
    Ok(())
}

/// The caller puts this number into a stream whose next number is bad: a piece is refused by 6 and leaves both, the
/// next number until the caller puts it right.
fn refused_piece(twins: &mut Twins, number: u64) -> Outcome {
    let next = twins.second().state.next;
    twins.alter(|desk| desk.state.next = 0);
    twins.set_edition_number(number);
    twins.feed(&[1])?;
    keeps(twins.scanning.proved.state[3], number)?;
    twins.alter(|desk| desk.state.next = next);
    twins.set_edition_number(number);
    Ok(())
}

/// Sheets under both editions of the same tables, with odd bytes 20 and entries of every type: that of 1.3 has one
/// line more for each block, behind the ticker's.
fn on_sheets(dice: &mut Dice, twins: &mut Twins) -> Outcome {
    example(twins, 1, 5)?;
    let seed = dice.bits();
    twins.alter(|desk| {
        let mut dice = Dice::new(seed);
        for place in 0..entries_in(&desk.symbols) {
            let mut body = update_with(dice.between(7, 9) as u32, odd_byte_20(&mut dice));
            body[0] = dice.pick(&[0, 1, 1, 1, 2]);
            entry_mut(&mut desk.symbols, place).copy_from_slice(&body);
        }
    });
    let mut texts = Vec::new();
    for number in [1, 0, other_number(dice)] {
        twins.set_edition_number(number);
        twins.sheet(dice)?;
        texts.push(sheet_lines(twins.second())?);
    }
    let mut types = Vec::new();
    for entry in twins
        .second()
        .symbols
        .chunks(42)
        .filter(|entry| entry[0] == 1)
    {
        let shown = if (32..127).contains(&entry[20]) {
            entry[20]
        } else {
            b'.'
        };
        types.push(format!("type={}", shown as char));
    }
    let mut wanted = Vec::new();
    let mut rest = types.into_iter();
    for line in &texts[1] {
        wanted.push(line.clone());
        if line.starts_with("ticker=") {
            wanted.extend(rest.next());
        }
    }
    if texts[0] != wanted || texts[2] != texts[1] {
        return Err(format!("both: {texts:?}, and {wanted:?} is told of 1.3"));
    }
    Ok(())
}

fn sheet_lines(desk: &Desk) -> Result<Vec<String>, String> {
    let text = sheet(desk.state, &desk.orders, &desk.symbols, 0, true)
        .map_err(|number| format!("a sheet refused with {number}"))?;
    let text = String::from_utf8_lossy(&text);
    Ok(text.lines().map(str::to_string).collect())
}

/// A recording of one edition in a receiver of the same or the other. Packets with a byte 20 that the receiver's
/// edition refuses are refused there, and all others accepted; where none is refused, it comes to the tables that it
/// comes to under its own edition.
fn anothers_recording(dice: &mut Dice, twins: &mut Twins) -> Outcome {
    let written = dice.pick(&EDITIONS);
    let mut settings = ListSettings::drawn(dice).of(written);
    settings.messages = dice.between(10, 80) as usize;
    let mut list = list(dice.bits(), settings);
    if written == Edition::V1_3b {
        reserve(dice, &mut list);
    }
    let mut how = true_delivery(dice.bits());
    how.bad = 0;
    let packets = delivery(written, dice.bits(), &list, how);
    let number = edition_number(dice);
    twins.start_number = number;
    twins.restart(settings.rows, settings.entries)?;
    let mut own = Desk::new(written, settings.rows, settings.entries);
    let mut refused = false;
    for packet in &packets {
        let _ = own.give(packet);
        let wanted = match number {
            1 => first_without_a_type(packet).map(|at| Refusal::at(4, at)),
            _ => None,
        };
        refused |= wanted.is_some();
        let answer = twins.receive(packet)?;
        if answer.err() != wanted {
            return Err(format!("both: {answer:?}, and {wanted:?} is told"));
        }
    }
    let came = twins.second();
    let same =
        (&came.orders, &came.symbols, &came.shelf) == (&own.orders, &own.symbols, &own.shelf);
    if !refused && !same {
        return Err("both: other tables than under the recording's own edition".to_string());
    }
    Ok(())
}

/// What a list of 1.3.b has in byte 20: as it was drawn, no Security Type anywhere, or one everywhere.
fn reserve(dice: &mut Dice, list: &mut [Vec<u8>]) {
    let how = dice.below(3);
    for body in list.iter_mut().filter(|body| body[0] == SYMBOL_UPDATE) {
        match how {
            0 => {}
            1 => body[20] = bad_security_type(dice),
            _ => body[20] = dice.pick(b"EF"),
        }
    }
}

/// Where a packet of good records has its first Symbol Update whose byte 20 is neither `E` nor `F`: that byte.
fn first_without_a_type(packet: &[u8]) -> Option<usize> {
    let mut start = 0;
    while start < packet.len() {
        let length = usize::from(packet[start + 8]) + 256 * usize::from(packet[start + 9]);
        if packet[start + 10] == 1 && !b"EF".contains(&packet[start + 30]) {
            return Some(start + 30);
        }
        start += 10 + length;
    }
    None
}
