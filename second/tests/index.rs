//! The index of request 9, by docs/INDEX.md: first slots and tags worked out by hand, what is found over altered
//! memory, what messages leave, and both engines beside each other. Run one seed again with SECOND_SEED=number.

mod common;
use common::*;
use second::book::Search;
use second::index::*;
use second::morning::*;
use second::packet::Refusal;
use second::receiver::State;
use second::seen::Searches;
use second::tables::*;
use second::traffic::{in_packets, Traffic};

/// A live row of an order, of symbol 7.
fn live(order: u64) -> [u64; 5] {
    [order, 14, 10_000_000, 100, 1]
}

fn put_row(orders: &mut [u64], place: usize, row: [u64; 5]) {
    row_mut(orders, place).copy_from_slice(&row);
}

fn empty() -> Vec<u64> {
    vec![0; INDEX_NUMBERS]
}

fn with_symbols(rows: usize) -> Desk {
    let mut desk = Desk::with_index(V1_3b, rows, 4);
    desk.records(&[(1, update(7)), (2, update(8))]);
    desk
}

// ---------------------------------------------------------------------------------------------
// What stands where
// ---------------------------------------------------------------------------------------------

#[test]
fn the_parts_fill_the_index() {
    assert_eq!(INDEX_NUMBERS, 49_403);
    assert_eq!(
        (ORDER_SLOTS, USED, COUNTS, HINTS),
        (32_768, 32_768, 32_769, 33_019)
    );
    assert_eq!(COUNTS + BLOCKS, HINTS);
    assert_eq!(HINTS + HINT_NUMBERS, INDEX_NUMBERS);
    assert_eq!(BLOCKS * BLOCK_ROWS, MOST_ROWS);
    for (length, fits) in [(0, true), (1, false), (49_402, false), (49_403, true)] {
        assert_eq!(index_fits(&vec![0; length]), fits);
    }
    assert!(!index_fits(&vec![0; 49_404]));
}

/// Worked out with a calculator of whole numbers: (ID, first slot, tag).
#[test]
fn first_slots_and_tags() {
    for (order, slot, tagged) in [
        (0, 0, 1),
        (1, 20_251, 2),
        (2, 7_735, 3),
        (500, 556, 501),
        (501, 20_808, 502),
        (5_000_000_042, 24_447, 5_000_000_043),
        (17_711, 32_767, 17_712),
        (1 << 32, 20_251, (1 << 32) + 1),
        ((1 << 32) - 1, 12_516, 1 << 32),
        (1 << 47, 24_174, 1),
        (1 << 63, 16_384, 1),
        (u64::MAX, 25_032, 1 << 47),
    ] {
        assert_eq!((first_slot(order), tag(order)), (slot, tagged), "{order}");
    }
    assert_eq!(slot_of(500, 3), 501 * 65_536 + 3);
    assert_eq!(slot_of(u64::MAX, 15_999), (1 << 63) + 15_999);
    assert_eq!(hint_of(7), 33_026);
    assert_eq!(hint_of(16_384 + 7), 33_026);
    assert_eq!(hint_of(u32::MAX), 49_402);
}

#[test]
fn a_start_makes_it() {
    for (rows, counts) in [
        (1, vec![1]),
        (64, vec![64]),
        (65, vec![64, 1]),
        (1_600, vec![64; 25]),
        (16_000, vec![64; 250]),
    ] {
        let desk = Desk::with_index(V1_3b, rows, 1);
        let mut wanted = empty();
        wanted[COUNTS..COUNTS + counts.len()].copy_from_slice(&counts);
        assert_eq!(desk.index, wanted, "{rows} rows");
    }
}

// ---------------------------------------------------------------------------------------------
// What is found
// ---------------------------------------------------------------------------------------------

/// The order 17,711 begins at the last slot.
#[test]
fn an_order_from_slot_to_slot() {
    let mut orders = vec![0; 5 * 4];
    put_row(&mut orders, 2, live(17_711));
    let mut index = empty();
    let found = |index: &[u64], orders: &[u64]| Index(index).live_row(orders, 17_711);
    // No slot says so: an index knows nothing of a row that was put behind its back.
    assert_eq!(found(&index, &orders), None);
    index[32_767] = slot_of(17_711, 2);
    assert_eq!(found(&index, &orders), Some(2));
    // Behind the last slot is the first; others' slots are passed, whatever their rows have.
    index[32_767] = slot_of(46_368, 2);
    assert_eq!(found(&index, &orders), None);
    index[0] = slot_of(17_711, 2);
    assert_eq!(found(&index, &orders), Some(2));
    // A stale slot of the order is passed: its row is free, another's, spoiled, or behind the table's end.
    for row in [0, 3, 4, 15_999, 16_000, 65_535] {
        index[32_767] = slot_of(17_711, row);
        assert_eq!(found(&index, &orders), Some(2), "row {row}");
    }
    put_row(&mut orders, 3, [17_711, 14, 0, 100, 1]);
    index[32_767] = slot_of(17_711, 3);
    assert_eq!(found(&index, &orders), Some(2));
    // The first slot that holds it counts, not the lowest row.
    put_row(&mut orders, 3, live(17_711));
    assert_eq!(found(&index, &orders), Some(3));
    // An empty slot ends the search.
    index[32_767] = 0;
    assert_eq!(found(&index, &orders), None);
}

/// The upper part of a slot must be the tag, all of it; and the row must bear the whole ID.
#[test]
fn tags_and_ids() {
    let far = (34_542 << 47) + 500;
    assert_eq!((first_slot(far), tag(far)), (556, 501));
    let mut orders = vec![0; 5 * 2];
    put_row(&mut orders, 0, live(500));
    put_row(&mut orders, 1, live(far));
    let mut index = empty();
    index[556] = slot_of(500, 0);
    assert_eq!(Index(&index).live_row(&orders, 500), Some(0));
    assert_eq!(Index(&index).live_row(&orders, far), None);
    index[557] = slot_of(far, 1);
    assert_eq!(Index(&index).live_row(&orders, far), Some(1));
    for wrong in [0, 1, 500, 502, 1 << 47, (1 << 48) - 1] {
        index[556] = wrong * 65_536;
        index[557] = 0;
        assert_eq!(Index(&index).live_row(&orders, 500), None, "{wrong}");
    }
}

/// A search looks at all 32,768 slots and then ends.
#[test]
fn a_full_index() {
    let mut orders = vec![0; 5];
    put_row(&mut orders, 0, live(500));
    let mut index = vec![1; INDEX_NUMBERS];
    assert_eq!(Index(&index).live_row(&orders, 500), None);
    index[555] = slot_of(500, 0);
    assert_eq!(Index(&index).live_row(&orders, 500), Some(0));
}

#[test]
fn the_lowest_free_row() {
    let mut orders = vec![0; 5 * 200];
    for place in 0..200 {
        put_row(&mut orders, place, live(place as u64));
    }
    for place in [3, 70, 71, 130] {
        put_row(&mut orders, place, [0; 5]);
    }
    let mut index = empty();
    let found = |index: &[u64]| Index(index).free_row(&orders);
    // No count, no row, whatever is free.
    assert_eq!(found(&index), None);
    index[COUNTS + 1] = 1;
    assert_eq!(found(&index), Some(70));
    index[COUNTS + 1] = u64::MAX;
    assert_eq!(found(&index), Some(70));
    index[COUNTS] = 1;
    assert_eq!(found(&index), Some(3));
    // Through later blocks where the counted one has none; never back, never behind the table's end.
    index[COUNTS..COUNTS + 3].copy_from_slice(&[0, 0, 7]);
    assert_eq!(found(&index), Some(130));
    index[COUNTS + 2] = 0;
    for block in [3, 4, 249] {
        index[COUNTS + block] = 1;
        assert_eq!(found(&index), None, "block {block}");
        index[COUNTS + block] = 0;
    }
    put_row(&mut orders, 3, live(3));
    index[COUNTS] = 1;
    assert_eq!(Index(&index).free_row(&orders), Some(70));
}

#[test]
fn the_entry_of_a_symbol() {
    let mut symbols = vec![0; 42 * 4];
    for (place, (kind, symbol)) in [(1, 7), (1, 8), (1, 7), (2, 7)].into_iter().enumerate() {
        let mut body = update(symbol);
        body[0] = kind;
        entry_mut(&mut symbols, place).copy_from_slice(&body);
    }
    let mut index = empty();
    for (hint, wanted) in [
        (0, 0),
        // Not this symbol's, spoiled, behind the table: the lowest used one.
        (1, 0),
        (3, 0),
        (4, 0),
        (u64::MAX, 0),
        // A hint that holds is taken as it is.
        (2, 2),
    ] {
        index[hint_of(7)] = hint;
        assert_eq!(
            Index(&index).known_entry(&symbols, 7),
            Some(wanted),
            "{hint}"
        );
    }
    // 7 + 16,384 shares the hint and is not known.
    assert_eq!(Index(&index).known_entry(&symbols, 16_391), None);
}

// ---------------------------------------------------------------------------------------------
// What a message leaves
// ---------------------------------------------------------------------------------------------

/// The example's orders come and go: slots are filled and never emptied, counts fall and rise, a row is taken again.
#[test]
fn messages_leave_it_so() {
    let mut desk = with_symbols(70);
    let mut wanted = empty();
    wanted[COUNTS] = 64;
    wanted[COUNTS + 1] = 6;
    wanted[hint_of(8)] = 1;
    assert_eq!(desk.index, wanted);
    desk.next(buy(7, 500, 10_000_000, 100));
    desk.next(sell(8, 501, 10_000_000, 100));
    wanted[COUNTS] = 62;
    wanted[USED] = 2;
    wanted[556] = slot_of(500, 0);
    wanted[20_808] = slot_of(501, 1);
    assert_eq!(desk.index, wanted);
    // Neither of these changes it; nor what stops.
    desk.next(modify(7, 500, 20_000_000, 50, 1));
    desk.next(execute(7, 500, 20));
    desk.next(time(3));
    assert_eq!(desk.index, wanted);
    // An execution to zero, and a Delete.
    desk.next(execute(7, 500, 30));
    wanted[COUNTS] = 63;
    assert_eq!(desk.index, wanted);
    desk.next(delete(8, 501));
    wanted[COUNTS] = 64;
    assert_eq!(desk.index, wanted);
    // The same order takes a further slot behind its stale one.
    desk.next(buy(7, 500, 10_000_000, 100));
    wanted[COUNTS] = 63;
    wanted[USED] = 3;
    wanted[557] = slot_of(500, 0);
    assert_eq!(desk.index, wanted);
    let stopped = desk.next(buy(7, 500, 10_000_000, 100));
    assert_eq!((stopped.stop, &desk.index), (21, &wanted));
}

#[test]
fn a_symbol_clear_counts_each_row() {
    let mut desk = with_symbols(130);
    for order in 0..130 {
        desk.next(buy(7 + (order % 2) as u32, 1_000 + order, 10_000_000, 100));
    }
    assert_eq!(desk.index[COUNTS..COUNTS + 3], [0, 0, 0]);
    desk.next(clear(7));
    assert_eq!(desk.index[COUNTS..COUNTS + 3], [32, 32, 1]);
    assert_eq!(desk.index[USED], 130);
    // A count of 64 stays.
    desk.index[COUNTS..COUNTS + 3].copy_from_slice(&[40, 64, u64::MAX]);
    desk.next(clear(8));
    assert_eq!(desk.index[COUNTS..COUNTS + 3], [64, 64, u64::MAX]);
}

/// An Add where a count is 0 already, a Delete where it is 64 or more.
#[test]
fn counts_stay_in_their_bounds() {
    let mut desk = with_symbols(70);
    // Only the second block is counted, and its six rows are taken; then a free row of a third is none.
    desk.index[COUNTS..COUNTS + 2].copy_from_slice(&[0, 1]);
    desk.next(buy(7, 500, 10_000_000, 100));
    assert_eq!(desk.row(64), [500, 14, 10_000_000, 100, 3]);
    assert_eq!(desk.index[COUNTS..COUNTS + 2], [0, 0]);
    assert_eq!(desk.next(buy(7, 501, 10_000_000, 100)).stop, 25);
    desk.index[COUNTS] = 1;
    for place in 0..64 {
        put_row(&mut desk.orders, place, live(9_000 + place as u64));
    }
    // The counted block has none left: the next free row is the second block's, whose count stays 0.
    assert_eq!(desk.records(&[(5, time(5))]).stop, 0);
    assert_eq!(desk.row(65)[0], 501);
    assert_eq!(desk.index[COUNTS..COUNTS + 2], [1, 0]);
    desk.index[COUNTS + 1] = 64;
    desk.next(delete(7, 500));
    assert_eq!(desk.index[COUNTS + 1], 64);
}

/// A Symbol Update leaves its entry in the hint, also where another symbol's was.
#[test]
fn updates_leave_hints() {
    let mut desk = with_symbols(2);
    desk.next(update(7 + 16_384));
    assert_eq!(desk.index[hint_of(7)], 2);
    // Both are known, one by its hint and one by a search.
    assert_eq!(desk.next(buy(7, 1, 10_000_000, 100)).stop, 0);
    assert_eq!(desk.next(buy(7 + 16_384, 2, 10_000_000, 100)).stop, 0);
    desk.next(update(7));
    assert_eq!(desk.index[hint_of(7)], 0);
}

// ---------------------------------------------------------------------------------------------
// Built anew
// ---------------------------------------------------------------------------------------------

/// At 24,576 used slots, and not at 24,575; from the rows before the Add; hints stay.
#[test]
fn built_anew_at_its_limit() {
    for (used, anew) in [
        (24_575, false),
        (24_576, true),
        (32_767, true),
        (32_768, true),
        (u64::MAX, true),
    ] {
        let mut desk = with_symbols(70);
        desk.next(buy(7, 500, 10_000_000, 100));
        put_row(&mut desk.orders, 5, [1, 0, 0, 0, 0]); // spoiled: neither in a slot nor counted
        desk.index[9] = 77;
        desk.index[USED] = used;
        desk.index[COUNTS + 200] = 3;
        desk.index[hint_of(9)] = 99;
        desk.next(buy(7, 501, 10_000_000, 100));
        let mut wanted = empty();
        wanted[556] = slot_of(500, 0);
        wanted[20_808] = slot_of(501, 1);
        wanted[hint_of(8)] = 1;
        wanted[hint_of(9)] = 99;
        wanted[COUNTS + 1] = 6;
        if anew {
            wanted[USED] = 2;
            wanted[COUNTS] = 64 - 3; // two live rows and the spoiled one
        } else {
            wanted[9] = 77;
            wanted[USED] = 24_576;
            wanted[COUNTS] = 64 - 2;
            wanted[COUNTS + 200] = 3;
        }
        assert!(desk.index == wanted, "{used} used");
    }
}

/// Where no slot is empty, nothing is stored, and the number of used slots stays.
#[test]
fn no_empty_slot() {
    let mut desk = with_symbols(2);
    desk.index[..ORDER_SLOTS].fill(1);
    let mut wanted = desk.index.clone();
    desk.next(buy(7, 500, 10_000_000, 100));
    wanted[COUNTS] = 1;
    assert!(desk.index == wanted);
    assert_eq!(desk.row(0)[0], 500);
    // It is live and not found: the engine with the index adds it a second time.
    desk.next(buy(7, 500, 10_000_000, 100));
    assert_eq!((desk.row(1)[0], desk.state.stop), (500, 0));
}

/// Two live rows of one ID go in, from row 0 on: the lower one is found.
#[test]
fn built_over_doubled_ids() {
    let mut orders = vec![0; 5 * 3];
    put_row(&mut orders, 1, live(500));
    put_row(&mut orders, 2, live(500));
    let mut index = vec![u64::MAX; INDEX_NUMBERS];
    build(&mut index, &orders);
    assert_eq!(index[556..558], [slot_of(500, 1), slot_of(500, 2)]);
    assert_eq!((index[USED], index[COUNTS], index[COUNTS + 1]), (2, 1, 0));
    assert!(index[HINTS..].iter().all(|hint| *hint == u64::MAX));
    assert_eq!(Index(&index).live_row(&orders, 500), Some(1));
}

// ---------------------------------------------------------------------------------------------
// Both engines
// ---------------------------------------------------------------------------------------------

/// A receiver that scans and one with an index, which must answer alike.
struct Engines {
    scanning: Desk,
    indexed: Desk,
}

impl Engines {
    fn new(edition: Edition, rows: usize, entries: usize) -> Engines {
        Engines {
            scanning: Desk::new(edition, rows, entries),
            indexed: Desk::with_index(edition, rows, entries),
        }
    }

    fn give(&mut self, packet: &[u8]) -> State {
        let answer = self.scanning.give(packet);
        assert_eq!(self.indexed.give(packet), answer);
        assert!(self.scanning.orders == self.indexed.orders);
        assert!(self.scanning.symbols == self.indexed.symbols);
        assert!(self.scanning.shelf == self.indexed.shelf);
        assert_eq!(self.scanning.state, self.indexed.state);
        self.scanning.state
    }

    fn give_records(&mut self, records: &[(u64, Vec<u8>)]) {
        for packet in in_packets(records, 40) {
            self.give(&packet);
        }
    }

    fn used(&self) -> u64 {
        self.indexed.index[USED]
    }

    /// "every live row's slot can be reached from its first slot without passing an empty one, every count is that
    /// of its free rows, at most 24,576 slots are used".
    fn keeps_its_promise(&self) {
        let Desk { orders, index, .. } = &self.indexed;
        let mut counts = [0; BLOCKS];
        for place in 0..rows_in(orders) {
            let row = row(orders, place);
            if row_is_live(row) {
                assert_eq!(Index(index).live_row(orders, row[ORDER_ID]), Some(place));
            }
            counts[place / BLOCK_ROWS] += u64::from(row_is_free(row));
        }
        assert_eq!(index[COUNTS..HINTS], counts);
        assert!(index[USED] <= MOST_USED);
        let filled = index[..ORDER_SLOTS].iter().filter(|slot| **slot != 0);
        assert_eq!(index[USED], filled.count() as u64);
    }
}

#[test]
fn seeded_mornings_alike() {
    for seed in seeds(400) {
        let mut dice = Dice::new(seed);
        let edition = dice.pick(&EDITIONS);
        let settings = ListSettings::drawn(&mut dice).of(edition);
        let list = list(dice.bits(), settings);
        let mut engines = Engines::new(edition, settings.rows, settings.entries);
        for packet in delivery(edition, dice.bits(), &list, rough_delivery(dice.bits())) {
            engines.give(&packet);
        }
        engines.keeps_its_promise();
    }
}

/// IDs that share first slots and tags, and symbols that share a hint.
#[test]
fn colliding_ids_alike() {
    for seed in seeds(100) {
        let mut dice = Dice::new(seed);
        let settings = ListSettings {
            rows: dice.between(1, 80) as usize,
            entries: 4,
            symbols: 4,
            ..ListSettings::drawn(&mut dice)
        };
        let mut maker = ListMaker::new(dice.bits(), settings);
        maker.order_ids = colliding_orders(&mut dice);
        maker.symbol_ids = symbols_of_hint(&mut dice, 4);
        for _ in 0..400 {
            maker.push_ordinary();
        }
        let mut engines = Engines::new(settings.edition, settings.rows, settings.entries);
        let records = numbered(&maker.list, 1, maker.list.len());
        engines.give_records(&records);
        engines.keeps_its_promise();
        assert_eq!(engines.scanning.state.next, records.len() as u64 + 1);
    }
}

/// Rows freed and taken again thousands of times, through several buildings.
#[test]
fn rows_come_and_go_alike() {
    for rows in [1, 64, 100] {
        let mut engines = Engines::new(V1_3b, rows, 40);
        let mut traffic = Traffic::new(5, rows);
        engines.give_records(&traffic.opening());
        let (mut anew, mut used) = (0, engines.used());
        for _ in 0..60 {
            let records: Vec<_> = (0..2_000).map(|_| traffic.coming_and_going()).collect();
            engines.give_records(&records);
            anew += u64::from(engines.used() < used);
            used = engines.used();
            engines.keeps_its_promise();
        }
        assert!(anew >= 2, "built anew {anew} times");
    }
}

/// 16,000 live orders, and one more stops with 25 in both engines.
#[test]
fn sixteen_thousand_and_one_more() {
    let mut engines = Engines::new(V1_3b, MOST_ROWS, 40);
    let mut traffic = Traffic::new(1, MOST_ROWS);
    engines.give_records(&traffic.opening());
    engines.keeps_its_promise();
    let State { next, stop, .. } = engines.scanning.state;
    assert_eq!((next, stop), (1 + 1 + 40 + 16_000, 0));
    assert!(engines.indexed.index[COUNTS..HINTS]
        .iter()
        .all(|count| *count == 0));
    let records: Vec<_> = (0..4_000).map(|_| traffic.message()).collect();
    engines.give_records(&records);
    engines.give_records(&traffic.refill());
    engines.keeps_its_promise();
    let State { next, stop, .. } = engines.scanning.state;
    assert_eq!(stop, 0);
    let one_more = record(next, &buy(7, 1, 10_000_000, 100));
    let after = engines.give(&one_more);
    assert_eq!((after.next, after.stop), (next, 25));
    // Nothing but a caller lets it in: one who frees a row must tell the index of it.
    for desk in [&mut engines.scanning, &mut engines.indexed] {
        row_mut(&mut desk.orders, 9_000).fill(0);
    }
    engines.indexed.index[COUNTS + 9_000 / 64] = 1;
    let after = engines.give(&record(next + 1, &time(1)));
    assert_eq!((after.next, after.stop), (next + 2, 0));
    assert_eq!(engines.scanning.row(9_000)[0], 1);
    engines.keeps_its_promise();
}

/// A receiver with an altered index works on, for any numbers in it, and refuses nothing that is not bad.
#[test]
fn any_index_is_worked_with() {
    for seed in seeds(60) {
        let mut dice = Dice::new(seed);
        let settings = ListSettings::drawn(&mut dice);
        let mut maker = ListMaker::new(dice.bits(), settings);
        let mut desk = Desk::with_index(V1_3b, settings.rows, settings.entries);
        for _ in 0..20 {
            let first = maker.list.len() + 1;
            for _ in 0..5 {
                maker.push_ordinary();
            }
            for packet in packed(&numbered(&maker.list, first, 5)) {
                assert!(desk.give(&packet).is_ok(), "seed {seed}");
            }
            let (orders, symbols) = (&maker.order_ids, &maker.symbol_ids);
            damage_index(dice.bits(), &mut desk.index, settings.rows, orders, symbols);
        }
        desk.index.pop();
        assert_eq!(desk.give(&[]), Err(Refusal::alone(6)), "seed {seed}");
    }
}

// ---------------------------------------------------------------------------------------------
// What `compare` counts
// ---------------------------------------------------------------------------------------------

/// What a packet's searches are counted as.
fn counted(desk: &Desk, body: Vec<u8>) -> Vec<String> {
    let mut searches = Searches::default();
    searches.note_packet(desk, &record(desk.state.next, &body));
    let seen = searches.seen().into_iter();
    let some = seen.filter(|(_, count)| *count > 0);
    some.map(|(what, _)| what.replace("with an index, ", ""))
        .collect()
}

#[test]
fn searches_are_counted_by_what_they_pass() {
    let far = (34_542 << 47) + 500;
    let mut desk = with_symbols(70);
    desk.next(buy(7, 500, 10_000_000, 100));
    let hint = "a symbol by its hint";
    let first = "an order at its first slot";
    assert_eq!(counted(&desk, delete(7, 500)), [first, hint]);
    assert_eq!(counted(&desk, time(1)), [""; 0]);
    // An empty slot at once is nothing to tell; a record below next is not searched for.
    assert_eq!(counted(&desk, delete(7, 501)), [hint]);
    let mut later = desk.clone();
    later.state.next += 1;
    let mut searches = Searches::default();
    searches.note_packet(&later, &record(desk.state.next, &delete(7, 500)));
    assert_eq!(searches, Searches::default());
    // A live order of the same slot and tag, then one that left.
    let none = "no order, behind a slot of its tag";
    assert_eq!(counted(&desk, delete(7, far)), [none, hint]);
    desk.next(buy(7, far, 10_000_000, 100));
    let live = "an order behind a live one of its tag";
    assert_eq!(counted(&desk, delete(7, far)), [live, hint]);
    desk.next(delete(7, 500));
    let stale = "an order behind a slot of its tag that is stale";
    assert_eq!(counted(&desk, delete(7, far)), [stale, hint]);
    // Another's slot, a row behind the table's end, and past the last slot.
    desk.index[556] = slot_of(1, 0);
    let others = "an order behind slots of others";
    assert_eq!(counted(&desk, delete(7, far)), [others, hint]);
    desk.index[556] = slot_of(500, 70);
    let behind = "a slot of a row behind the table";
    assert_eq!(counted(&desk, delete(7, far)), [behind, hint]);
    desk.index[32_767] = slot_of(1, 0);
    let (past, on) = (
        "no order, behind slots of others",
        "a search on from the last slot to the first",
    );
    assert_eq!(counted(&desk, delete(7, 17_711)), [past, on, hint]);
    // Hints, and free rows.
    desk.index[hint_of(7)] = 1;
    let missed = "a symbol past a hint of another";
    assert_eq!(counted(&desk, delete(7, 501)), [missed]);
    desk.index[hint_of(7)] = 4;
    let outside = "a symbol past a hint behind the table";
    assert_eq!(counted(&desk, delete(7, 501)), [outside]);
    desk.index[COUNTS..HINTS].fill(0);
    let untold = "a free row that no count tells";
    assert_eq!(counted(&desk, buy(7, 501, 1, 1)), [outside, untold]);
    desk.index[COUNTS] = 1;
    for place in 0..64 {
        put_row(&mut desk.orders, place, live_row_of(place));
    }
    let later = "a free row in a later block than counted";
    assert_eq!(counted(&desk, buy(7, 501, 1, 1)), [outside, later]);
    desk.index[..ORDER_SLOTS].fill(1);
    let all = "a search through all slots";
    assert!(counted(&desk, delete(7, 501)).contains(&all.to_string()));
}

fn live_row_of(place: usize) -> [u64; 5] {
    live(9_000 + place as u64)
}
