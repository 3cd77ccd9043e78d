//! The index (request 9): altered, met by IDs that were chosen against it, built anew, and at its most orders.

use super::callers::{build_at_the_next_add, damage};
use super::mornings::come_or_go;
use super::{comes_to, give, give_all, Outcome};
use crate::index::{BLOCK_ROWS, COUNTS, USED};
use crate::morning::*;
use crate::receiver::slot_mut;
use crate::stream::LEAST_HOLD;
use crate::tables::*;
use crate::traffic::{in_packets, Traffic};
use crate::twins::Twins;

/// A morning over several blocks of rows, whose caller alters the index between packets, and now and then a table.
pub(super) fn altered_index(dice: &mut Dice, twins: &mut Twins) -> Outcome {
    let settings = ListSettings {
        rows: dice.pick(&[1, 5, 64, 65, 130, 200]),
        entries: dice.between(1, 4) as usize,
        symbols: dice.between(1, 4) as usize,
        orders: dice.between(2, 30) as usize,
        ..ListSettings::drawn(dice).of(twins.edition())
    };
    let mut maker = ListMaker::new(dice.bits(), settings);
    if dice.chance(400) {
        maker.order_ids = colliding_orders(dice);
    }
    twins.restart(settings.rows, settings.entries)?;
    for _ in 0..dice.between(3, 25) {
        let given = maker.list.len();
        for _ in 0..dice.between(1, 12) {
            maker.push_ordinary();
        }
        if dice.chance(200) {
            maker.push_breaker(dice.between(20, 26) as u8);
        }
        give_all(dice, twins, &packed(&behind(&maker, given)))?;
        let parted = twins.indexed.second.state != twins.second().state;
        if parted || twins.second().state.stop != 0 || dice.chance(100) {
            // A caller who mends the tables, so that both engines have the list's next message before them.
            mend(&maker, twins);
        }
        for _ in 0..dice.below(3) {
            alter_index(dice, twins, &maker);
        }
        match dice.below(8) {
            0 => damage(dice, twins),
            1 | 2 => double_a_row(dice, twins),
            _ => {}
        }
    }
    Ok(())
}

/// A live row copied over another, perhaps under another symbol or spoiled, and most often the index built anew over
/// the two at the next Add.
fn double_a_row(dice: &mut Dice, twins: &mut Twins) {
    let rows = rows_in(&twins.second().orders) as u64;
    let (start, to) = (dice.below(rows) as usize, dice.below(rows) as usize);
    let (change, spoiled) = (dice.below(4), dice.chance(150));
    twins.alter(|desk| {
        let mut places = (0..rows as usize).map(|step| (start + step) % rows as usize);
        let Some(from) = places.find(|place| row_is_live(row(&desk.orders, *place))) else {
            return;
        };
        let copied = from * ROW_NUMBERS..(from + 1) * ROW_NUMBERS;
        desk.orders.copy_within(copied, to * ROW_NUMBERS);
        let row = row_mut(&mut desk.orders, to);
        row[SYMBOL_AND_SIDE] ^= change;
        if spoiled {
            row[RANK] = 0;
        }
    });
    if dice.chance(800) {
        build_at_the_next_add(twins);
    }
}

fn alter_index(dice: &mut Dice, twins: &mut Twins, maker: &ListMaker) {
    let (seed, rows) = (dice.bits(), maker.settings.rows);
    let (orders, symbols) = (&maker.order_ids, &maker.symbol_ids);
    twins.alter_index(|index| damage_index(seed, index, rows, orders, symbols));
}

/// The tables as the list makes them, an empty shelf, and the number behind the list. The index stays.
fn mend(maker: &ListMaker, twins: &mut Twins) {
    let edition = maker.settings.edition;
    twins.alter(|desk| {
        desk.orders.clone_from(&maker.orders);
        desk.symbols.clone_from(&maker.symbols);
        desk.shelf.fill(0);
        desk.state.next = maker.list.len() as u64 + 1;
        desk.state.edition = edition;
    });
}

/// Orders that share first slots and tags come, change, leave and come again; in some mornings the caller has the
/// index built anew at the next Add.
pub(super) fn colliding_ids(dice: &mut Dice, twins: &mut Twins) -> Outcome {
    let orders = colliding_orders(dice);
    let settings = ListSettings {
        rows: dice.between(1, 2 + orders.len() as u64) as usize,
        entries: 2,
        symbols: 2,
        ..ListSettings::drawn(dice).of(twins.edition())
    };
    let mut maker = ListMaker::new(dice.bits(), settings);
    maker.order_ids = orders;
    open_symbols(&mut maker);
    twins.restart(settings.rows, settings.entries)?;
    let (anew, mut given) = (dice.chance(300), 0);
    for _ in 0..dice.between(2, 12) {
        for _ in 0..dice.between(1, 30) {
            let order = dice.pick(&maker.order_ids);
            let body = come_or_go(dice, &maker, order);
            maker.push(body);
        }
        if anew {
            build_at_the_next_add(twins);
        }
        give_all(dice, twins, &packed(&behind(&maker, given)))?;
        given = maker.list.len();
    }
    maker.push_breaker(dice.between(21, 24) as u8);
    give_all(dice, twins, &packed(&behind(&maker, given)))
}

/// The records of a list behind so many that were given.
fn behind(maker: &ListMaker, given: usize) -> Vec<(u64, Vec<u8>)> {
    numbered(&maker.list, given + 1, maker.list.len() - given)
}

/// The symbols of a maker, all known.
fn open_symbols(maker: &mut ListMaker) {
    for symbol in maker.symbol_ids.clone() {
        let update = symbol_update(0, symbol, b"MET        ", 100);
        maker.push(written_in(maker.settings.edition, update));
    }
}

/// Symbols that share a hint: the one that was updated last is found by it, and the others by a search.
pub(super) fn sharing_hints(dice: &mut Dice, twins: &mut Twins) -> Outcome {
    let settings = ListSettings {
        rows: dice.between(2, 40) as usize,
        entries: dice.between(1, 6) as usize,
        symbols: dice.between(2, 6) as usize,
        ..ListSettings::drawn(dice).of(twins.edition())
    };
    let mut maker = ListMaker::new(dice.bits(), settings);
    maker.symbol_ids = symbols_of_hint(dice, settings.symbols);
    open_symbols(&mut maker);
    for _ in 0..dice.between(20, 120) {
        maker.push_ordinary();
    }
    let list = std::mem::take(&mut maker.list);
    twins.restart(settings.rows, settings.entries)?;
    let edition = twins.edition();
    let packets = delivery(edition, dice.bits(), &list, rough_delivery(dice.bits()));
    give_all(dice, twins, &packets)
}

/// Rows freed and taken again thousands of times from a start on, so that the index is built anew several times.
pub(super) fn built_anew(dice: &mut Dice, twins: &mut Twins) -> Outcome {
    let rows = dice.pick(&[1, 63, 64, 65, 200, SHEET_ROWS]);
    twins.restart(rows, 40)?;
    twins.open(LEAST_HOLD)?;
    let mut traffic = Traffic::new(dice.bits(), rows);
    feed_all(dice, twins, traffic.opening())?;
    let most = dice.between(1, 3);
    let (mut times, mut used) = (0, twins.indexed.second.index[USED]);
    while times < most {
        let records = (0..2_000).map(|_| traffic.coming_and_going()).collect();
        feed_all(dice, twins, records)?;
        times += u64::from(twins.indexed.second.index[USED] < used);
        used = twins.indexed.second.index[USED];
    }
    Ok(())
}

fn feed_all(dice: &mut Dice, twins: &mut Twins, mut records: Vec<(u64, Vec<u8>)>) -> Outcome {
    for (_, body) in &mut records {
        *body = written_in(twins.edition(), std::mem::take(body));
    }
    let bytes = recording(&in_packets(&records, 40));
    let length = dice.between(2_000, 30_000) as usize;
    for piece in bytes.chunks(length) {
        twins.feed(piece)?;
    }
    Ok(())
}

/// 16,000 live orders, from a start or as a caller made them, and one more: 25 in both engines, until one leaves.
pub(super) fn sixteen_thousand(dice: &mut Dice, twins: &mut Twins) -> Outcome {
    twins.restart(MOST_ROWS, 40)?;
    let mut traffic = Traffic::new(dice.bits(), MOST_ROWS);
    let opening = traffic.opening();
    twins.open(LEAST_HOLD)?;
    feed_all(dice, twins, opening)?;
    let busy = (0..dice.below(3_000)).map(|_| traffic.message()).collect();
    feed_all(dice, twins, busy)?;
    let filling = traffic.refill();
    feed_all(dice, twins, filling)?;
    let next = twins.second().state.next;
    let order = dice.bits();
    let one_more = add_order(0, 7, order, b'B', 10_000_000, 100);
    comes_to(twins, &record(next, &one_more), Ok((next, 25)))?;
    for place in 1..=dice.between(10, 20) {
        let behind = record(next + place, &system_time(place as u32));
        comes_to(twins, &behind, Ok((next, 25)))?;
    }
    twins.counts()?;
    one_leaves(dice, twins)?;
    give(dice, twins, &record(next + 40, &system_time(40)))
}

/// The caller passes over the one more, frees a row without telling the index, or tells it of a row that is not
/// free.
fn one_leaves(dice: &mut Dice, twins: &mut Twins) -> Outcome {
    let place = dice.below(MOST_ROWS as u64) as usize;
    match dice.below(3) {
        0 => twins.alter(|desk| {
            slot_mut(&mut desk.shelf, desk.state.next).fill(0);
            desk.state.next += 1;
        }),
        1 => twins.alter(|desk| row_mut(&mut desk.orders, place).fill(0)),
        _ => twins.alter_index(|index| index[COUNTS + place / BLOCK_ROWS] = 1),
    }
    Ok(())
}
