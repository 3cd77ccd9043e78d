//! Recordings that are written (request 4, docs/WRITE.md): whatever fields, numbers, packets so far and memory a writer
//! may be given. What must come of each call is told here by what it was made for, so that a slip of both programs shows
//! too.

use super::{edition_number, other_number, Outcome};
use crate::desk::MARK_BYTE;
use crate::edition::Edition;
use crate::morning::*;
use crate::packet::*;
use crate::seen::Appended;
use crate::twins::Twins;
use crate::write::Fields;

pub(super) fn written(dice: &mut Dice, twins: &mut Twins) -> Outcome {
    for (kind, _) in TYPES_AND_LENGTHS {
        let other = other_number(dice);
        for number in [1, dice.pick(&[0, other])] {
            each_number(dice, twins, number, kind)?;
        }
        at_1500(dice, twins, kind)?;
    }
    for _ in 0..60 {
        any_record(dice, twins)?;
        any_packet(dice, twins)?;
    }
    a_morning(dice, twins)
}

/// Memory of so many bytes that begins with these.
fn memory(begun: &[u8], length: usize) -> Vec<u8> {
    let mut memory = begun[..begun.len().min(length)].to_vec();
    memory.resize(length, MARK_BYTE);
    memory
}

/// A record that must come to this, by both.
fn comes_to(twins: &mut Twins, given: &Appended, wanted: Result<usize, Refusal>) -> Outcome {
    let (answer, after) = twins.append(given)?;
    let kept = match answer {
        Err(_) => after == given.memory,
        Ok(end) => {
            let used = given.used;
            after[..used] == given.memory[..used] && after[end..] == given.memory[end..]
        }
    };
    match answer == wanted && kept {
        true => Ok(()),
        false => Err(format!(
            "both: {answer:?}, and {wanted:?} is told of {given:?}"
        )),
    }
}

/// Each number of a type: good in its range, and refused with 4 as the only fault, out of range or too large for its
/// bytes. Behind nothing, or behind a good packet.
fn each_number(dice: &mut Dice, twins: &mut Twins, number: u64, kind: u8) -> Outcome {
    let edition = Edition::of_number(number);
    let mut faulty = Vec::new();
    for place in judged_numbers(edition, kind) {
        let mut fields = good_fields(edition, dice, kind);
        spoil_number(dice, &mut fields, place);
        faulty.push(fields);
    }
    for (place, bytes) in numbers_of_type(edition, kind) {
        if bytes < 8 {
            let mut fields = good_fields(edition, dice, kind);
            enlarge_number(dice, &mut fields, place, bytes);
            faulty.push(fields);
        }
    }
    let front = dice.pick(&[0, 15, 120]);
    let so_far = packet_of_length(edition, dice, front);
    let memory = memory(&so_far, so_far.len() + 60);
    let mut given = Appended {
        edition: number,
        memory: &memory,
        used: so_far.len(),
        number: 1,
        fields: &Fields::default(),
    };
    for fields in &faulty {
        given.fields = fields;
        comes_to(twins, &given, Err(Refusal::alone(4)))?;
    }
    let length = length_of_type(kind).expect("a type that there is");
    let fields = good_fields(edition, dice, kind);
    given.fields = &fields;
    comes_to(twins, &given, Ok(given.used + HEADER_BYTES + length))
}

/// A record that ends at 1,500, and one that would end at 1,501, in memory of about that length.
fn at_1500(dice: &mut Dice, twins: &mut Twins, kind: u8) -> Outcome {
    let number = edition_number(dice);
    let edition = Edition::of_number(number);
    let length = length_of_type(kind).expect("a type that there is");
    let fields = good_fields(edition, dice, kind);
    for end in [1_500, 1_501] {
        let so_far = packet_of_length(edition, dice, end - HEADER_BYTES - length);
        let size = end + dice.pick(&[0, 0, 1, 200]);
        let wanted = match end {
            1_500 => Ok(1_500),
            _ => Err(Refusal::alone(1)),
        };
        let given = Appended {
            edition: number,
            memory: &memory(&so_far, size),
            used: so_far.len(),
            number: dice.between(1, LAST_NUMBER),
            fields: &fields,
        };
        comes_to(twins, &given, wanted)?;
        // 32 in memory that is one short; and a bad field or number before 1.
        let short = memory(&so_far, end - 1);
        let mut shorter = given;
        shorter.memory = &short;
        let wanted = wanted.and(Err(Refusal::alone(32)));
        comes_to(twins, &shorter, wanted)?;
        let mut spoiled = fields;
        let (place, bytes) = numbers_of_type(edition, kind)[0];
        enlarge_number(dice, &mut spoiled, place, bytes);
        shorter.fields = &spoiled;
        comes_to(twins, &shorter, Err(Refusal::alone(4)))?;
        let mut typeless = spoiled;
        typeless.numbers[0] = no_type(dice);
        shorter.fields = &typeless;
        comes_to(twins, &shorter, Err(Refusal::alone(3)))?;
        shorter.number = 0;
        comes_to(twins, &shorter, Err(Refusal::alone(5)))?;
    }
    Ok(())
}

/// Any record behind any packet so far in any memory: the first refusal of docs/WRITE.md's order that it was made for.
fn any_record(dice: &mut Dice, twins: &mut Twins) -> Outcome {
    let number = edition_number(dice);
    let edition = Edition::of_number(number);
    let (so_far, refused) = so_far(edition, dice);
    let (fields, fault) = any_fields(edition, dice);
    let sequence = any_sequence_number(dice);
    let kind = fields.kind().unwrap_or(SYSTEM_TIME);
    let length = length_of_type(kind).expect("a type that there is");
    let (mut used, needed) = (so_far.len(), so_far.len() + HEADER_BYTES + length);
    let size = memory_around(dice, used, needed);
    let memory = memory(&so_far, size);
    let mut wanted = Ok(needed);
    // From the last to the first, so that the first is left.
    for (applies, refusal) in [
        (needed > size, Refusal::alone(32)),
        (needed > MOST_PACKET_BYTES, Refusal::alone(1)),
        (fault.is_some(), Refusal::alone(fault.unwrap_or(0))),
        (sequence == 0 || sequence > LAST_NUMBER, Refusal::alone(5)),
        (refused.is_some(), refused.unwrap_or(Refusal::alone(0))),
    ] {
        if applies {
            wanted = Err(refusal);
        }
    }
    if dice.chance(120) {
        let beyond = dice.between(1, 3_000) as usize;
        used = dice.pick(&[size + 1, size + beyond, usize::MAX]);
        wanted = Err(Refusal::alone(32));
    }
    let given = Appended {
        edition: number,
        memory: &memory,
        used,
        number: sequence,
        fields: &fields,
    };
    comes_to(twins, &given, wanted)
}

/// Any packet behind any bytes in any memory.
fn any_packet(dice: &mut Dice, twins: &mut Twins) -> Outcome {
    let number = edition_number(dice);
    let edition = Edition::of_number(number);
    let (mut packet, mut refused) = so_far(edition, dice);
    if packet.is_empty() {
        refused = Some(Refusal::alone(1));
    }
    if dice.chance(100) {
        packet = packet_of_length(edition, dice, 1_500);
        refused = None;
    }
    let mut used = dice.pick(&[0, 0, 1, 2, 60, 1_502, 5_000]);
    let byte = dice.bits() as u8;
    let needed = used + 2 + packet.len();
    let size = memory_around(dice, used, needed);
    let memory = memory(&vec![byte; used], size);
    let mut wanted = Ok(needed);
    if needed > size {
        wanted = Err(Refusal::alone(32));
    }
    if let Some(refusal) = refused {
        wanted = Err(refusal);
    }
    if dice.chance(120) {
        used = dice.pick(&[size + 1, size + 1_000, usize::MAX]);
        wanted = Err(Refusal::alone(32));
    }
    let (answer, after) = twins.append_packet(number, &memory, used, &packet)?;
    let mut told = memory.clone();
    if wanted.is_ok() {
        told[used] = packet.len() as u8;
        told[used + 1] = (packet.len() / 256) as u8;
        told[used + 2..needed].copy_from_slice(&packet);
    }
    match answer == wanted && after == told {
        true => Ok(()),
        false => Err(format!(
            "both: {answer:?}, and {wanted:?} is told of {packet:?} behind {used} of {size}"
        )),
    }
}

/// A teacher's morning: a list read message by message, and written record by record into packets that end where the next
/// record has no room, by 1 or by the end of the memory, and packet by packet into a recording. It is the recording of
/// the list so packed, and its receiver applies the list.
fn a_morning(dice: &mut Dice, twins: &mut Twins) -> Outcome {
    let number = twins.start_number;
    let settings = ListSettings::drawn(dice).of(twins.edition());
    let mut list = list(dice.bits(), settings);
    list.truncate(200);
    let room = dice.pick(&[52, 100, 400, 1_500, 1_500, 2_000]);
    let most = room.min(MOST_PACKET_BYTES);
    let mut packets: Vec<Vec<u8>> = vec![Vec::new()];
    let mut told: Vec<Vec<u8>> = vec![Vec::new()];
    for (place, body) in list.iter().enumerate() {
        let sequence = place as u64 + 1;
        let next = record(sequence, body);
        let last = told.len() - 1;
        if told[last].len() + next.len() > most {
            told.push(Vec::new());
        }
        let last = told.len() - 1;
        told[last].extend(next);
        let fields = Fields::read(twins.edition(), body);
        let fields = fields.map_err(|refusal| format!("a list with a body of {refusal}"))?;
        loop {
            let last = packets.last_mut().expect("one at least");
            let (answer, after) = twins.append(&Appended {
                edition: number,
                memory: &memory(last, room),
                used: last.len(),
                number: sequence,
                fields: &fields,
            })?;
            match answer {
                Ok(length) => {
                    *last = after[..length].to_vec();
                    break;
                }
                Err(refusal) if last.is_empty() => {
                    return Err(format!("both: {refusal} behind nothing"));
                }
                Err(_) => packets.push(Vec::new()),
            }
        }
    }
    if packets != told {
        return Err("both: other packets than the list's".to_string());
    }
    let bytes = recording(&packets);
    twins.recording_again(number, &bytes)?;
    twins.restart(settings.rows, settings.entries)?;
    for packet in &packets {
        let answer = twins.receive(packet)?;
        if let Err(refusal) = answer {
            return Err(format!("both: {refusal} of a written packet"));
        }
    }
    Ok(())
}
