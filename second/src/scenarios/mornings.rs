//! Mornings: lists and their deliveries, in tables of every size, with every rule broken, and what the
//! shelf's window makes of them.

use super::callers::damage;
use super::{give, give_all, Outcome};
use crate::edition::Edition;
use crate::morning::*;
use crate::receiver::*;
use crate::tables::*;
use crate::twins::Twins;

/// Lines A and B and the gap fills, with everything that happens to them.
pub(super) fn morning(dice: &mut Dice, twins: &mut Twins) -> Outcome {
    let edition = twins.edition();
    let settings = ListSettings::drawn(dice).of(edition);
    let list = list(dice.bits(), settings);
    twins.restart(settings.rows, settings.entries)?;
    let packets = delivery(edition, dice.bits(), &list, rough_delivery(dice.bits()));
    give_all(dice, twins, &packets)
}

/// Every rule broken in turn. The stopped message is passed over by a caller who empties its slot
/// and raises next, or is let through by one who frees something.
pub(super) fn rules(dice: &mut Dice, twins: &mut Twins) -> Outcome {
    let mut settings = ListSettings::drawn(dice).of(twins.edition());
    settings.rows = dice.between(1, 12) as usize;
    settings.filling = dice.chance(300);
    twins.restart(settings.rows, settings.entries)?;
    let mut maker = ListMaker::new(dice.bits(), settings);
    for _ in 0..dice.between(3, 14) {
        let first = maker.list.len() + 1;
        for _ in 0..dice.between(1, 12) {
            maker.push_ordinary();
        }
        for _ in 0..4 {
            if maker.push_breaker(dice.between(20, 26) as u8) {
                break;
            }
        }
        // Messages behind the stop wait on the shelf.
        for _ in 0..dice.below(4) {
            maker.push_ordinary();
        }
        let mut records = numbered(&maker.list, first, 40);
        if dice.chance(300) {
            dice.shuffle(&mut records);
        }
        give_all(dice, twins, &packed(&records))?;
        for _ in 0..4 {
            let held = slot_number(slot(&twins.second().shelf, twins.second().state.next));
            if held == 0 {
                break;
            }
            pass_over(dice, twins);
            // A repeat works nothing; a taken record does.
            give_all(dice, twins, &packed(&numbered(&maker.list, first, 40)))?;
        }
    }
    Ok(())
}

fn pass_over(dice: &mut Dice, twins: &mut Twins) {
    let choice = dice.below(6);
    let place = dice.bits() as usize;
    twins.alter(|desk| match choice {
        0 => {
            let place = place % rows_in(&desk.orders);
            row_mut(&mut desk.orders, place).fill(0);
        }
        1 => {
            let place = place % entries_in(&desk.symbols);
            entry_mut(&mut desk.symbols, place).fill(0);
        }
        _ => {
            slot_mut(&mut desk.shelf, desk.state.next).fill(0);
            desk.state.next += 1;
        }
    });
}

/// Tables of 1 to 5 rows and entries that fill, with a last message that finds no place.
pub(super) fn small_tables(dice: &mut Dice, twins: &mut Twins) -> Outcome {
    let edition = twins.edition();
    let settings = ListSettings {
        edition,
        messages: dice.between(5, 60) as usize,
        rows: dice.between(1, 5) as usize,
        entries: dice.between(1, 5) as usize,
        symbols: dice.between(1, 7) as usize,
        orders: dice.between(1, 8) as usize,
        levels: dice.between(1, 3),
        crossing: 200,
        breaking: dice.pick(&[0, 0, 20]),
        filling: dice.chance(500),
        ending: dice.pick(&[0, 21, 25, 26]),
    };
    let list = list(dice.bits(), settings);
    twins.restart(settings.rows, settings.entries)?;
    let mut how = rough_delivery(dice.bits());
    how.fill = dice.chance(800);
    let packets = delivery(edition, dice.bits(), &list, how);
    give_all(dice, twins, &packets)
}

/// A caller's tables of full capacity with few places left, and messages about what is in them.
pub(super) fn full_tables(dice: &mut Dice, twins: &mut Twins) -> Outcome {
    let edition = twins.edition();
    let settings = ListSettings {
        edition,
        rows: SHEET_ROWS,
        entries: MOST_ENTRIES,
        symbols: 20,
        orders: 3_000,
        ..ListSettings::drawn(dice)
    };
    twins.restart(settings.rows, settings.entries)?;
    let mut maker = ListMaker::new(dice.bits(), settings);
    fill_entries(dice, &mut maker);
    fill_rows(dice, &mut maker);
    twins.alter(|desk| {
        desk.orders.clone_from(&maker.orders);
        desk.symbols.clone_from(&maker.symbols);
    });
    for _ in 0..dice.between(10, 60) {
        maker.push_ordinary();
    }
    maker.push_breaker(dice.between(20, 26) as u8);
    let list = std::mem::take(&mut maker.list);
    let packets = delivery(edition, dice.bits(), &list, rough_delivery(dice.bits()));
    give_all(dice, twins, &packets)
}

/// Entries of a maker's symbols and of others, all but a few; or all of one symbol, which makes the
/// longest sheets.
fn fill_entries(dice: &mut Dice, maker: &mut ListMaker) {
    let (edition, free) = (maker.settings.edition, dice.below(4) as usize);
    if dice.chance(100) {
        maker.symbol_ids.truncate(1);
        let body = symbol_update(0, maker.symbol_ids[0], &[7; 11], u16::MAX);
        let body = written_in(edition, body);
        for place in 0..entries_in(&maker.symbols) {
            entry_mut(&mut maker.symbols, place).copy_from_slice(&body);
        }
        return;
    }
    for place in 0..entries_in(&maker.symbols) - free {
        let symbol = match maker.symbol_ids.get(place) {
            Some(symbol) => *symbol,
            None => 10_000 + place as u32,
        };
        let body = written_in(edition, symbol_update(0, symbol, b"FULL       ", 100));
        entry_mut(&mut maker.symbols, place).copy_from_slice(&body);
    }
}

/// Live rows of a maker's symbols, all but a few, and some spoiled.
fn fill_rows(dice: &mut Dice, maker: &mut ListMaker) {
    let free = dice.below(4) as usize;
    // A sheet of a thousand blocks of one symbol takes its ladders a thousand times: few levels.
    let levels = match maker.symbol_ids.len() {
        1 => 15,
        _ => dice.pick(&[3, 30, 3_000]),
    };
    let mut places: Vec<usize> = (0..rows_in(&maker.orders)).collect();
    if dice.chance(500) {
        dice.shuffle(&mut places);
    }
    for (count, place) in places[free..].iter().enumerate() {
        let symbol = dice.pick(&maker.symbol_ids);
        let row = row_mut(&mut maker.orders, *place);
        row[ORDER_ID] = maker.order_ids[count];
        row[SYMBOL_AND_SIDE] = u64::from(symbol) * 2 + dice.below(2);
        row[PRICE] = 10_000_000 + dice.below(levels) * 10_000;
        row[SIZE] = dice.between(1, 1_000);
        row[RANK] = if dice.chance(3) { 0 } else { 1 + *place as u64 };
    }
}

/// From nothing to the last row and entry of full capacities.
pub(super) fn filling(dice: &mut Dice, twins: &mut Twins) -> Outcome {
    let edition = twins.edition();
    let settings = ListSettings::filling(dice.between(25, 26) as u8).of(edition);
    let list = list(dice.bits(), settings);
    twins.restart(settings.rows, settings.entries)?;
    let mut how = true_delivery(dice.bits());
    how.records = how.records.max(12);
    how.fill = true;
    let packets = delivery(edition, dice.bits(), &list, how);
    give_all(dice, twins, &packets)
}

/// A few IDs that leave by Delete, by execution and by Symbol Clear, and come again.
pub(super) fn returning_ids(dice: &mut Dice, twins: &mut Twins) -> Outcome {
    let edition = twins.edition();
    let settings = ListSettings {
        edition,
        rows: dice.between(1, 6) as usize,
        entries: 2,
        symbols: 2,
        orders: dice.between(1, 4) as usize,
        ..ListSettings::drawn(dice)
    };
    let mut maker = ListMaker::new(dice.bits(), settings);
    let symbols = maker.symbol_ids.clone();
    for symbol in &symbols {
        let update = symbol_update(0, *symbol, b"BACK       ", 100);
        maker.push(written_in(edition, update));
    }
    for _ in 0..dice.between(10, 120) {
        let order = dice.pick(&maker.order_ids);
        let body = come_or_go(dice, &maker, order);
        maker.push(body);
    }
    maker.push_breaker(dice.between(21, 24) as u8);
    let list = std::mem::take(&mut maker.list);
    twins.restart(settings.rows, settings.entries)?;
    let mut how = rough_delivery(dice.bits());
    how.repeated = how.repeated.max(100);
    let packets = delivery(edition, dice.bits(), &list, how);
    give_all(dice, twins, &packets)
}

/// An Add of an ID that is not live, else something that most often makes it leave.
pub(super) fn come_or_go(dice: &mut Dice, maker: &ListMaker, order: u64) -> Vec<u8> {
    let nanoseconds = maker.list.len() as u32;
    let price = 10_000_000 + dice.below(3) * 10_000;
    let Some(place) = live_row(&maker.orders, order) else {
        let symbol = dice.pick(&maker.symbol_ids);
        let size = dice.between(1, 3) as u32 * 100;
        return add_order(nanoseconds, symbol, order, dice.pick(b"BS"), price, size);
    };
    let row = row(&maker.orders, place);
    let (symbol, size) = ((row[SYMBOL_AND_SIDE] / 2) as u32, row[SIZE] as u32);
    match dice.below(8) {
        0 | 1 => delete_order(nanoseconds, symbol, order),
        2..=4 => order_execution(nanoseconds, symbol, order, 1, price, size, 0),
        5 => order_execution(nanoseconds, symbol, order, 1, price, 1, 0),
        6 => modify_order(nanoseconds, symbol, order, price, size, dice.bits() as u8),
        _ => symbol_clear(nanoseconds, symbol),
    }
}

/// The shelf's window: numbers at its ends, a hundred messages in one packet, copies in one packet.
pub(super) fn window(dice: &mut Dice, twins: &mut Twins) -> Outcome {
    // From dice of its own, so that the rest of a seed stays what it was before request 2.
    copies_by_undefined_bits(&mut dice.clone(), twins)?;
    let edition = twins.edition();
    let mut settings = ListSettings::drawn(dice).of(edition);
    settings.messages = dice.between(150, 400) as usize;
    settings.rows = 40;
    settings.breaking = 0;
    let list = list(dice.bits(), settings);
    twins.restart(settings.rows, settings.entries)?;
    for _ in 0..dice.between(5, 40) {
        let packet = match dice.below(6) {
            0 => times(dice, twins.second().state.next),
            _ => at_the_ends(edition, dice, &list, twins.second().state.next),
        };
        give(dice, twins, &packet)?;
    }
    Ok(())
}

/// A Modify and a copy of it that differs in one undefined bit alone, on the shelf and after the first was
/// applied. Request 2: "Two copies that differ only in those bits are still differing copies (14)."
fn copies_by_undefined_bits(dice: &mut Dice, twins: &mut Twins) -> Outcome {
    let (symbol, order) = (dice.bits() as u32, dice.bits());
    let (nanoseconds, price) = (good_nanoseconds(dice), dice.between(1, 1_000_000));
    let first = modify_order(nanoseconds, symbol, order, price, 100, dice.bits() as u8);
    let mut other = first.clone();
    other[FLAGS_OF_MODIFY] ^= 1 << dice.between(1, 7);
    let update = symbol_update(0, symbol, b"BITS       ", 100);
    let told = [
        (10, (1, written_in(twins.edition(), update))),
        (10, (2, add_order(0, symbol, order, b'B', price, 100))),
        (10, (4, first.clone())),
        (14, (4, other.clone())),
        (13, (4, first.clone())),
        (10, (3, system_time(34_200))),
        (11, (4, first)),
        (11, (4, other)),
    ];
    twins.restart(1, 1)?;
    for part in told.chunks(dice.between(1, 8) as usize) {
        answered(twins, part)?;
        twins.views(dice)?;
    }
    Ok(())
}

/// A packet of records that must be answered as told, one of 10 to 14 each.
fn answered(twins: &mut Twins, told: &[(usize, (u64, Vec<u8>))]) -> Outcome {
    let mut wanted = [0; 5];
    let mut records = Vec::new();
    for (answer, record) in told {
        wanted[answer - 10] += 1;
        records.push(record.clone());
    }
    match twins.receive(&packet(&records))? {
        Ok(answer) if answer.counts() == wanted => Ok(()),
        answer => Err(format!(
            "both: {answer:?}, and {wanted:?} are told of 10 to 14"
        )),
    }
}

/// Up to 101 System Times of 15 bytes each from next on: 100 are 1,500 bytes, 101 too many.
fn times(dice: &mut Dice, next: u64) -> Vec<u8> {
    let mut records = Vec::new();
    let count = dice.pick(&[63, 64, 65, 99, 100, 100, 101]);
    for place in 0..count {
        records.push((next + place, system_time(dice.bits() as u32)));
    }
    if dice.chance(300) {
        records.reverse();
    }
    packet(&records)
}

/// Numbers just below next, at next, at the shelf's end and just behind it, some twice.
fn at_the_ends(edition: Edition, dice: &mut Dice, list: &[Vec<u8>], next: u64) -> Vec<u8> {
    let mut records: Vec<(u64, Vec<u8>)> = Vec::new();
    for _ in 0..dice.between(1, 30) {
        let number = match dice.below(5) {
            0 => next.saturating_sub(dice.between(1, 3)),
            1 => next + dice.between(61, 66),
            2 => next + dice.below(64),
            _ => next + dice.below(8),
        };
        let number = number.clamp(1, list.len() as u64);
        let mut body = list[number as usize - 1].clone();
        if dice.chance(100) {
            body = differing_copy(edition, dice.bits(), &body);
        }
        records.push((number, body));
    }
    packed(&records).swap_remove(0)
}

/// A whole shelf behind a message that is stopped, then let go: 63 messages at one record.
pub(super) fn shelved_stop(dice: &mut Dice, twins: &mut Twins) -> Outcome {
    let mut settings = ListSettings::drawn(dice).of(twins.edition());
    settings.messages = 0;
    settings.rows = dice.between(2, 30) as usize;
    let mut maker = ListMaker::new(dice.bits(), settings);
    twins.restart(settings.rows, settings.entries)?;
    for _ in 0..dice.between(1, 4) {
        let first = maker.list.len() + 1;
        for _ in 0..64 {
            maker.push_ordinary();
        }
        let mut records = numbered_all(&maker.list, first);
        let missing = records.remove(0);
        dice.shuffle(&mut records);
        give_all(dice, twins, &packed(&records))?;
        if dice.chance(300) {
            damage(dice, twins);
        }
        give(dice, twins, &packet(&[missing]))?;
        give_all(dice, twins, &packed(&records))?;
    }
    Ok(())
}

/// All records of a list from a number on, however many packets they need.
fn numbered_all(list: &[Vec<u8>], first: usize) -> Vec<(u64, Vec<u8>)> {
    (first..=list.len())
        .map(|number| (number as u64, list[number - 1].clone()))
        .collect()
}
