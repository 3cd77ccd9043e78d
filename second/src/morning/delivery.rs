//! Deliveries of a list: packets on lines A and B and gap fills, with all that happens to them, and
//! recordings of them.

use super::faults::bad_packet;
use super::{list, messages::*, Dice, ListSettings};
use crate::edition::{Edition, BYTE_20};
use crate::packet::*;
use crate::tables::{MOST_ENTRIES, SHEET_ROWS};

#[derive(Clone, Copy, Debug)]
pub struct DeliverySettings {
    /// The most records in a packet (fewer if 1,500 bytes are full).
    pub records: u64,
    /// The chance that a packet is lost on its line.
    pub lost: u64,
    /// The chance that a packet comes twice on its line.
    pub repeated: u64,
    /// The chance that a packet is late, and by how many messages at most.
    pub delayed: u64,
    pub delay: u64,
    /// The chance that a packet's records are shuffled.
    pub shuffled: u64,
    /// The chance that a record is a differing copy: well-formed, but not the list's.
    pub differing: u64,
    /// The chance that a packet also has a true copy of a number at least 64 further on.
    pub far: u64,
    /// The chance that a bad packet comes before a packet.
    pub bad: u64,
    /// At the end gap fills bring the whole list in order.
    pub fill: bool,
}

/// Records with the time at which they come.
type Timed = (u64, Vec<(u64, Vec<u8>)>);

/// The packets of a delivery of an edition's list, in the order in which they come.
pub fn delivery(
    edition: Edition,
    seed: u64,
    list: &[Vec<u8>],
    settings: DeliverySettings,
) -> Vec<Vec<u8>> {
    let mut dice = Dice::new(seed);
    let mut timed: Vec<Timed> = Vec::new();
    let mut came = vec![false; list.len() + 1];

    // Lines A and B, each with packets of its own cut. A message takes 100 units of time.
    for line in 0..2 {
        let mut first = 1;
        while first <= list.len() {
            let mut records = numbered(list, first, dice.between(1, settings.records) as usize);
            first += records.len();
            let mut time = first as u64 * 100 + line * 150 + dice.below(100);
            if dice.chance(settings.delayed) {
                time += dice.below(settings.delay * 100 + 1);
            }
            if dice.chance(settings.far) {
                let far = first as u64 + dice.between(64, 200);
                if far <= list.len() as u64 {
                    records.push((far, list[far as usize - 1].clone()));
                }
            }
            if dice.chance(settings.repeated) {
                timed.push((time + dice.below(3_000), records.clone()));
            }
            if !dice.chance(settings.lost) {
                for (number, _) in &records {
                    came[*number as usize] |= (*number as usize) < first;
                }
                timed.push((time, records));
            }
        }
    }

    // Gap fills of what came on neither line, most of them.
    let mut number = 1;
    while number <= list.len() {
        if came[number] {
            number += 1;
            continue;
        }
        let mut end = number;
        while end <= list.len() && !came[end] {
            end += 1;
        }
        let mut first = number;
        while first < end {
            let most = (end - first).min(settings.records as usize);
            let records = numbered(list, first, most);
            first += records.len();
            if dice.chance(900) {
                timed.push((first as u64 * 100 + dice.between(500, 5_000), records));
            }
        }
        number = end;
    }

    timed.sort_by_key(|(time, _)| *time);
    if settings.fill {
        let mut first = 1;
        while first <= list.len() {
            let records = numbered(list, first, settings.records as usize);
            first += records.len();
            timed.push((u64::MAX, records));
        }
    }

    let mut packets = Vec::new();
    for (_, mut records) in timed {
        if dice.chance(settings.bad) {
            let refusal = dice.between(1, 5) as u8;
            packets.push(bad_packet(edition, dice.bits(), list, refusal));
        }
        if dice.chance(settings.shuffled) {
            dice.shuffle(&mut records);
        }
        for (_, body) in &mut records {
            if dice.chance(settings.differing) {
                *body = differing_copy(edition, dice.bits(), body);
            }
        }
        packets.extend(packed(&records));
    }
    packets
}

/// Up to `most` records of a list from a number on, no more than fit in a packet.
pub fn numbered(list: &[Vec<u8>], first: usize, most: usize) -> Vec<(u64, Vec<u8>)> {
    let mut records = Vec::new();
    let mut bytes = 0;
    for number in first..=list.len() {
        let body = &list[number - 1];
        bytes += HEADER_BYTES + body.len();
        if records.len() == most || bytes > MOST_PACKET_BYTES {
            break;
        }
        records.push((number as u64, body.clone()));
    }
    records
}

/// Records in as few packets as hold them in this order.
pub fn packed(records: &[(u64, Vec<u8>)]) -> Vec<Vec<u8>> {
    let mut packets: Vec<Vec<u8>> = Vec::new();
    for (number, body) in records {
        let record = record(*number, body);
        match packets.last_mut() {
            Some(last) if last.len() + record.len() <= MOST_PACKET_BYTES => {
                last.extend_from_slice(&record)
            }
            _ => packets.push(record),
        }
    }
    packets
}

/// A good body that is not this one: other nanoseconds, another size, another message, or a Modify with
/// other undefined bits, which reach a table as little as nanoseconds do; where an edition has it, the other
/// Security Type.
pub fn differing_copy(edition: Edition, seed: u64, body: &[u8]) -> Vec<u8> {
    let mut dice = Dice::new(seed);
    loop {
        let mut copy = body.to_vec();
        match dice.below(4) {
            0 => copy = system_time(dice.bits() as u32),
            1 if copy[0] == SYMBOL_UPDATE && edition.has_security_type() => {
                copy[BYTE_20] ^= b'E' ^ b'F';
            }
            1 => {
                if let Some(at) = size_offset(copy[0]) {
                    let size = dice.between(1, 1_000) as u32;
                    copy[at..at + 4].copy_from_slice(&size.to_le_bytes());
                }
            }
            2 if copy[0] == MODIFY_ORDER => {
                copy[FLAGS_OF_MODIFY] ^= (dice.between(1, 127) as u8) << 1;
            }
            _ => copy[1 + dice.below(4) as usize] ^= dice.between(1, 255) as u8,
        }
        if copy != body && read_body(edition, &copy).is_ok() {
            return copy;
        }
    }
}

/// A delivery with everything in it.
pub fn rough_delivery(seed: u64) -> DeliverySettings {
    let mut dice = Dice::new(seed);
    DeliverySettings {
        differing: dice.pick(&[0, 5, 40]),
        ..true_delivery(dice.bits())
    }
}

/// A delivery whose accepted records are all true copies from the list.
pub fn true_delivery(seed: u64) -> DeliverySettings {
    let mut dice = Dice::new(seed);
    DeliverySettings {
        records: dice.pick(&[1, 2, 5, 12, 40, 100]),
        lost: dice.pick(&[0, 20, 150, 500]),
        repeated: dice.pick(&[0, 50, 300]),
        delayed: dice.pick(&[0, 50, 300]),
        delay: dice.pick(&[5, 30, 120]),
        shuffled: dice.pick(&[0, 100, 700]),
        differing: 0,
        far: dice.pick(&[0, 50]),
        bad: dice.pick(&[0, 30, 150]),
        fill: dice.chance(500),
    }
}

/// A recording of a drawn morning in an edition, made for the sheet program's full capacities. Some are cut.
pub fn drawn_recording(edition: Edition, seed: u64) -> Vec<u8> {
    let mut dice = Dice::new(seed);
    // One in sixteen fills both tables, and its last message finds no free row or entry.
    let filling = dice.below(16) == 0;
    let mut settings = ListSettings {
        edition,
        messages: dice.between(1, 600) as usize,
        rows: SHEET_ROWS,
        entries: MOST_ENTRIES,
        symbols: dice.between(1, 12) as usize,
        orders: dice.between(5, 300) as usize,
        levels: dice.between(1, 20),
        crossing: dice.pick(&[0, 0, 30, 500]),
        breaking: dice.pick(&[0, 0, 2, 10]),
        filling,
        ending: dice.pick(&[0, 20, 21, 22, 23, 24]),
    };
    if filling {
        settings.messages = 2_700;
        settings.symbols = 1_010;
        settings.orders = 10_000;
        settings.breaking = 0;
        settings.ending = dice.pick(&[25, 26]);
    }
    let list = list(dice.bits(), settings);
    let mut how = rough_delivery(dice.bits());
    if filling {
        how = true_delivery(dice.bits());
        how.fill = true;
    }
    let mut bytes = recording(&delivery(edition, dice.bits(), &list, how));
    if dice.chance(250) {
        bytes.truncate(dice.below(bytes.len() as u64 + 1) as usize);
    }
    bytes
}
