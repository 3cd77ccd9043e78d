//! What a caller may lend, alter and ask: tables, shelves and states of any content and any size.

use super::{edition_number, give, Outcome};
use crate::desk::Desk;
use crate::edition::BYTE_20;
use crate::index::{INDEX_NUMBERS, MOST_USED, USED};
use crate::morning::*;
use crate::packet::*;
use crate::receiver::*;
use crate::stream::LEAST_HOLD;
use crate::tables::*;
use crate::twins::Twins;

/// A caller who alters anything between calls.
pub(super) fn altered(dice: &mut Dice, twins: &mut Twins) -> Outcome {
    let edition = twins.edition();
    let mut settings = ListSettings::drawn(dice).of(edition);
    settings.rows = dice.between(1, 24) as usize;
    settings.entries = dice.between(1, 6) as usize;
    settings.messages = dice.between(10, 100) as usize;
    let list = list(dice.bits(), settings);
    twins.restart(settings.rows, settings.entries)?;
    let how = rough_delivery(dice.bits());
    let mut packets = delivery(edition, dice.bits(), &list, how).into_iter();
    for _ in 0..dice.between(1, 60) {
        if dice.chance(400) {
            damage(dice, twins);
        }
        let packet = match dice.below(10) {
            0 => bad_packet(edition, dice.bits(), &list, dice.between(1, 5) as u8),
            1..=4 => {
                let (shelf, next) = (&twins.second().shelf, twins.second().state.next);
                packet_near(edition, dice.bits(), &list, shelf, next)
            }
            _ => match packets.next() {
                Some(packet) => packet,
                None => break,
            },
        };
        give(dice, twins, &packet)?;
    }
    Ok(())
}

/// Something altered: a table, the shelf, the state, its edition's number, or bytes and numbers at random. Or the
/// number of used slots, so that the next Add has the index built anew over what was altered.
pub(super) fn damage(dice: &mut Dice, twins: &mut Twins) {
    let (choice, seed) = (dice.below(10), dice.bits());
    if choice == 8 {
        return twins.set_edition_number(edition_number(dice));
    }
    if choice == 9 {
        return build_at_the_next_add(twins);
    }
    twins.alter(|desk| match choice {
        0 | 1 => damage_orders(seed, &mut desk.orders),
        2 | 3 => damage_symbols(seed, &mut desk.symbols),
        4 => damage_state(seed, &mut desk.state),
        5 => splatter(
            seed,
            &mut desk.orders,
            &mut desk.symbols,
            &mut desk.shelf,
            desk.state.next,
        ),
        _ => damage_shelf(desk.state.edition, seed, &mut desk.shelf, desk.state.next),
    });
}

pub(super) fn build_at_the_next_add(twins: &mut Twins) {
    twins.alter_index(|index| {
        if let Some(used) = index.get_mut(USED) {
            *used = MOST_USED;
        }
    });
}

/// A row, an entry or a slot of bytes at random; the slot is most often next's.
fn splatter(seed: u64, orders: &mut [u64], symbols: &mut [u8], shelf: &mut [u8], next: u64) {
    let mut dice = Dice::new(seed);
    let small = dice.chance(500);
    let number = |dice: &mut Dice| if small { dice.below(3) } else { dice.bits() };
    match dice.below(3) {
        0 => {
            let place = dice.below(rows_in(orders) as u64) as usize;
            row_mut(orders, place).fill_with(|| number(&mut dice));
        }
        1 => {
            let place = dice.below(entries_in(symbols) as u64) as usize;
            entry_mut(symbols, place).fill_with(|| number(&mut dice) as u8);
        }
        _ => {
            let at = next.wrapping_add(dice.below(3));
            slot_mut(shelf, at).fill_with(|| number(&mut dice) as u8);
        }
    }
}

/// Next numbers at the ends of their range, slots with numbers at its ends, any second and stop.
pub(super) fn edges(dice: &mut Dice, twins: &mut Twins) -> Outcome {
    let edition = twins.edition();
    let list = list(dice.bits(), ListSettings::drawn(dice).of(edition));
    twins.restart(dice.between(1, 8) as usize, dice.between(1, 4) as usize)?;
    for _ in 0..dice.between(4, 30) {
        if dice.chance(400) {
            to_an_edge(dice, twins);
        }
        let next = twins.second().state.next;
        for _ in 0..dice.below(4) {
            let number = next.wrapping_add(dice.below(5)).wrapping_sub(1);
            let body = good_body(edition, dice);
            twins.alter(|desk| {
                slot_mut(&mut desk.shelf, number).copy_from_slice(&filled_slot(number, &body))
            });
        }
        let packet = packet_near(edition, dice.bits(), &list, &twins.second().shelf, next);
        if dice.chance(200) {
            // Behind a next number that the first packet drove too far, the second one is bad.
            twins.open(LEAST_HOLD)?;
            twins.feed(&recording(&[packet.clone(), packet]))?;
            twins.feed(&[])?;
        } else {
            give(dice, twins, &packet)?;
        }
    }
    Ok(())
}

fn to_an_edge(dice: &mut Dice, twins: &mut Twins) {
    let near = LAST_NUMBER - dice.below(70);
    let next = dice.pick(&[
        0,
        1,
        near,
        near,
        near,
        LAST_NUMBER - 1,
        LAST_NUMBER,
        LAST_NUMBER,
        LAST_NUMBER + 1,
        LAST_NUMBER + 1,
        LAST_NUMBER + 2,
        u64::MAX,
    ]);
    let (second, stop) = (dice.bits() >> dice.below(64), dice.bits() as u8);
    twins.alter(|desk| {
        desk.state = State {
            next,
            second,
            stop,
            ..desk.state
        };
    });
    if dice.chance(100) {
        twins.set_edition_number(edition_number(dice));
    }
    if dice.chance(500) {
        twins.set_idle_bits(dice.bits());
    }
}

/// Tables of lengths at the limits and beyond, for every call, with packets good and bad.
pub(super) fn sizes(dice: &mut Dice, twins: &mut Twins) -> Outcome {
    let list = list(dice.bits(), ListSettings::drawn(dice).of(twins.edition()));
    twins.restart(3, 2)?;
    for _ in 0..dice.between(5, 25) {
        let orders = match dice.below(3) {
            0 => dice.below(12),
            1 => dice.pick(&[7_999, 8_005, 79_995, 79_999, 80_000, 80_001, 80_004, 80_005]),
            _ => 15,
        };
        let symbols = match dice.below(3) {
            0 => dice.pick(&[0, 1, 41, 42, 43, 83, 84]),
            1 => dice.pick(&[41_958, 41_999, 42_000, 42_001, 42_042, 84_000]),
            _ => 84,
        };
        let shelf = match dice.below(3) {
            0 => dice.pick(&[0, 1, 74, 4_662, 4_735, 4_737, 4_810, 9_472]),
            _ => SHELF_BYTES as u64,
        };
        resize(
            dice,
            twins,
            orders as usize,
            symbols as usize,
            shelf as usize,
        );
        if dice.chance(400) {
            resize_index(dice, twins);
        }
        calls_of_any_size(dice, twins, &list)?;
    }
    Ok(())
}

/// Lengths of the index (request 9): none and 49,403 are good, and any other is 6.
fn resize_index(dice: &mut Dice, twins: &mut Twins) {
    let any = dice.below(60_000) as usize;
    let length = dice.pick(&[
        0,
        1,
        32_768,
        33_019,
        INDEX_NUMBERS - 1,
        INDEX_NUMBERS,
        INDEX_NUMBERS,
        INDEX_NUMBERS + 1,
        2 * INDEX_NUMBERS,
        any,
    ]);
    twins.alter_index(|index| index.resize(length, any as u64));
}

/// Tables cut off or grown, what is new with a few numbers in it.
fn resize(dice: &mut Dice, twins: &mut Twins, orders: usize, symbols: usize, shelf: usize) {
    let seed = dice.bits();
    twins.alter(|desk| {
        let mut dice = Dice::new(seed);
        let byte = dice.below(3) as u8;
        desk.orders.resize_with(orders, || dice.below(3));
        desk.symbols.resize(symbols, byte);
        desk.shelf.resize(shelf, byte);
    });
}

fn calls_of_any_size(dice: &mut Dice, twins: &mut Twins, list: &[Vec<u8>]) -> Outcome {
    if dice.chance(100) {
        twins.alter(|desk| desk.state.next = 0);
    }
    for _ in 0..dice.between(1, 5) {
        let packet = match dice.below(3) {
            0 => bad_packet(twins.edition(), dice.bits(), list, dice.between(1, 5) as u8),
            _ => {
                let next = twins.second().state.next.min(list.len() as u64).max(1);
                packet(&numbered(list, next as usize, dice.between(1, 5) as usize))
            }
        };
        let _ = twins.receive(&packet)?;
    }
    if dice.chance(300) {
        twins.open(LEAST_HOLD)?;
        twins.feed(&recording(&[record(
            twins.second().state.next,
            &system_time(1),
        )]))?;
    }
    twins.views(dice)?;
    if twins.second().symbols.len() < 1_000 || dice.chance(20) {
        twins.sheet(dice)?;
    }
    if dice.chance(500) {
        twins.start()?;
    }
    Ok(())
}

/// Spoiled rows and entries among live ones, of the very IDs that each of the eleven messages is about.
pub(super) fn spoiled(dice: &mut Dice, twins: &mut Twins) -> Outcome {
    twins.restart(dice.between(2, 8) as usize, dice.between(2, 5) as usize)?;
    let mut kinds = TYPES_AND_LENGTHS;
    dice.shuffle(&mut kinds);
    for (kind, _) in kinds {
        let told = Told {
            nanoseconds: 0,
            symbol: dice.between(1, 3) as u32,
            order: dice.between(1, 3),
            price: dice.between(1, 3),
            size: dice.between(1, 3) as u32,
        };
        let seed = dice.bits();
        twins.alter(|desk| spoil_tables(seed, desk, told));
        let body = body_telling(twins.edition(), dice, kind, told);
        twins.receive_over_spoiled(kind, &record(twins.second().state.next, &body))?;
        twins.views(dice)?;
    }
    Ok(())
}

/// Free, live and spoiled rows, one at least spoiled that bears this order and symbol, free, used and
/// spoiled entries, and an empty shelf.
fn spoil_tables(seed: u64, desk: &mut Desk, told: Told) {
    let mut dice = Dice::new(seed);
    let rows = rows_in(&desk.orders);
    let own = dice.below(rows as u64) as usize;
    for place in 0..rows {
        let (mut order, mut symbol) = (dice.between(1, 3), dice.between(1, 3) as u32);
        if place == own {
            (order, symbol) = (told.order, told.symbol);
        }
        let key = u64::from(symbol) * 2 + dice.below(2);
        let mut row = [
            order,
            key,
            dice.between(1, 3),
            dice.between(1, 3),
            dice.between(1, 9),
        ];
        match dice.below(3) {
            0 if place != own => row = [0; 5],
            1 if place != own => {}
            _ => spoil_row(&mut dice, &mut row),
        }
        row_mut(&mut desk.orders, place).copy_from_slice(&row);
    }
    for place in 0..entries_in(&desk.symbols) {
        let symbol = dice.between(1, 3) as u32;
        let mut entry = symbol_update(0, symbol, b"SPOILED    ", 100);
        entry[0] = dice.pick(&[0, 1, 1, 1, 2, 255]);
        entry[BYTE_20] = odd_byte_20(&mut dice);
        entry_mut(&mut desk.symbols, place).copy_from_slice(&entry);
    }
    desk.shelf.fill(0);
}

/// One number of a live row put out of its range.
fn spoil_row(dice: &mut Dice, row: &mut [u64; 5]) {
    match dice.below(4) {
        0 => row[RANK] = 0,
        1 => row[PRICE] = dice.pick(&[0, HIGHEST_PRICE + 1, u64::MAX]),
        2 => row[SIZE] = dice.pick(&[0, 1 << 32, u64::MAX]),
        _ => row[SYMBOL_AND_SIDE] += 1 << 33,
    }
}

/// The largest sums and the widest spreads: rows of the most shares at the lowest and highest price.
pub(super) fn largest(dice: &mut Dice, twins: &mut Twins) -> Outcome {
    let rows = dice.pick(&[1, 2, MOST_ROWS, MOST_ROWS]);
    twins.restart(rows, 2)?;
    let symbol = dice.pick(&[0, 7, u32::MAX]);
    let update = symbol_update(0, symbol, b"MOST       ", u16::MAX);
    let update = written_in(twins.edition(), update);
    give(dice, twins, &record(1, &update))?;
    let offers = dice.pick(&[0, 1, rows / 2, rows]);
    let ends = [1, HIGHEST_PRICE];
    let (bid, offer) = (dice.pick(&ends), dice.pick(&ends));
    twins.alter(|desk| {
        for place in 0..rows {
            let (side, price) = if place < offers { (1, offer) } else { (0, bid) };
            let key = u64::from(symbol) * 2 + side;
            let row = [place as u64, key, price, u32::MAX.into(), u64::MAX];
            row_mut(&mut desk.orders, place).copy_from_slice(&row);
        }
    });
    whole_view(dice, twins, symbol)?;
    for order in [0, rows as u64 - 1] {
        let price = dice.pick(&ends);
        let body = match dice.below(3) {
            0 => modify_order(0, symbol, order, price, u32::MAX, 1),
            1 => order_execution(0, symbol, order, 1, price, u32::MAX, 0),
            _ => order_execution(0, symbol, order, 1, price, u32::MAX - 1, 0),
        };
        let packet = record(twins.second().state.next, &body);
        give(dice, twins, &packet)?;
        whole_view(dice, twins, symbol)?;
    }
    widest(twins, symbol)
}

/// A bid and an offer at the two ends of all prices, both ways round: what is drawn comes to them too seldom.
fn widest(twins: &mut Twins, symbol: u32) -> Outcome {
    let rows = rows_in(&twins.second().orders);
    for prices in [[1, HIGHEST_PRICE], [HIGHEST_PRICE, 1]] {
        twins.alter(|desk| {
            desk.orders.fill(0);
            for (side, price) in prices.into_iter().enumerate().take(rows) {
                let key = u64::from(symbol) * 2 + side as u64;
                let row = [side as u64, key, price, 1, 1];
                row_mut(&mut desk.orders, side).copy_from_slice(&row);
            }
        });
        twins.spread(symbol)?;
    }
    Ok(())
}

fn whole_view(dice: &mut Dice, twins: &mut Twins, symbol: u32) -> Outcome {
    for side in [Side::Buy, Side::Sell] {
        twins.ladder(symbol, side, 9)?;
    }
    twins.spread(symbol)?;
    twins.counts()?;
    twins.sheet(dice)
}
