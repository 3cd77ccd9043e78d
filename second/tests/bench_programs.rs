//! The two programs that the benchmarks lay the proved library beside (request 9) come to what the second program
//! comes to: `fast`, a receiver for speed with the same index, and `plain`, a handler of the standard library's tables.

mod common;
use common::*;
use second::fast;
use second::morning::*;
use second::packet::Side;
use second::plain::Handler;
use second::sheet::sheet_of_recording;
use second::stream::{Stream, LEAST_HOLD};
use second::tables::*;
use second::traffic::{in_packets, Traffic};
use second::views::ladder;
use std::collections::BTreeSet;

/// A desk with an index beside the fast receiver over memory of its own: each packet to both, every byte.
struct Beside {
    desk: Desk,
    fast: Desk,
}

impl Beside {
    fn new(edition: Edition, rows: usize, entries: usize) -> Beside {
        let desk = Desk::with_index(edition, rows, entries);
        Beside {
            fast: desk.clone(),
            desk,
        }
    }

    fn give(&mut self, packet: &[u8]) {
        let wanted = self.desk.give(packet);
        let Desk {
            state,
            orders,
            symbols,
            shelf,
            index,
        } = &mut self.fast;
        let mut numbers = [
            state.next,
            state.second,
            state.stop.into(),
            state.edition.number(),
        ];
        let mut account = [9; 9];
        let told = fast::receive(
            orders,
            symbols,
            shelf,
            index,
            &mut numbers,
            packet,
            &mut account,
        );
        match wanted {
            Err(refusal) => {
                let offset = refusal.offset.unwrap_or(0) as u32;
                assert_eq!(told, u32::from(refusal.number) + 256 * offset);
                assert_eq!(account, [9; 9]);
            }
            Ok(answer) => {
                assert_eq!(told, 0);
                assert_eq!(account[..5], answer.counts());
                let rest = [
                    answer.next,
                    answer.applied,
                    answer.highest,
                    answer.stop.into(),
                ];
                assert_eq!(account[5..], rest);
            }
        }
        [state.next, state.second] = [numbers[0], numbers[1]];
        state.stop = numbers[2] as u8;
        state.edition = Edition::of_number(numbers[3]);
        assert!(self.desk == self.fast, "tables, shelf, index or state");
    }
}

#[test]
fn fast_on_seeded_mornings() {
    for seed in seeds(150) {
        let mut dice = Dice::new(seed);
        let edition = dice.pick(&EDITIONS);
        let settings = ListSettings::drawn(&mut dice).of(edition);
        let list = list(dice.bits(), settings);
        let mut beside = Beside::new(edition, settings.rows, settings.entries);
        for packet in delivery(edition, dice.bits(), &list, rough_delivery(dice.bits())) {
            beside.give(&packet);
        }
        for number in 1..=5 {
            beside.give(&bad_packet(edition, dice.bits(), &list, number));
        }
    }
}

/// Altered tables, shelves and states, and an index that knows nothing of them, or was altered too.
#[test]
fn fast_over_altered_memory() {
    for seed in seeds(1_000) {
        let mut dice = Dice::new(seed);
        let Case { desk, packet } = case(seed, (seed % 4) * 300);
        let mut beside = Beside::new(V1_3b, 1, 1);
        let mut index = std::mem::take(&mut beside.desk.index);
        let rows = rows_in(&desk.orders).max(1);
        for _ in 0..dice.below(4) {
            damage_index(dice.bits(), &mut index, rows, &[1, 2, 500], &[7, 8]);
        }
        beside.desk = Desk { index, ..desk };
        beside.desk.state.second %= 1 << 32;
        beside.fast = beside.desk.clone();
        beside.give(&packet);
    }
}

#[test]
fn fast_at_full_tables() {
    let mut beside = Beside::new(V1_3b, MOST_ROWS, 40);
    let mut traffic = Traffic::new(3, MOST_ROWS);
    let mut records = traffic.opening();
    records.extend((0..30_000).map(|_| traffic.message()));
    for packet in in_packets(&records, 40) {
        beside.give(&packet);
    }
    assert_eq!(beside.desk.state.next, records.len() as u64 + 1);
}

/// Packets that line A loses come on line B, behind later ones: what came early waits.
#[test]
fn plain_with_losses_and_late_packets() {
    for seed in seeds(20) {
        let mut dice = Dice::new(seed);
        let mut traffic = Traffic::new(seed, 200);
        let mut records = traffic.opening();
        records.extend((0..2_000).map(|_| traffic.message()));
        let mut lines = second::traffic::on_two_lines(&in_packets(&records, 3));
        // Every packet comes twice: one of the two may be lost, or be late by a packet or two.
        let mut lost = BTreeSet::new();
        lines.retain(|packet| !dice.chance(100) || !lost.insert(packet.clone()));
        assert!(lost.len() > 20);
        for place in 3..lines.len() {
            if dice.chance(100) {
                lines.swap(place, place - 1);
            }
        }
        let bytes = recording(&lines);
        let mut handler = Handler::default();
        handler.feed(&bytes);
        let sheet = sheet_of_recording(V1_3b, &bytes).unwrap();
        let next = format!("\nnext={}\nstop=0\n", records.len() + 1);
        assert!(handler.sheet().contains(&next), "seed {seed}");
        assert_eq!(handler.sheet().as_bytes(), sheet, "seed {seed}");
    }
}

/// Lines A and B, cut into blocks: the same ladders and the same sheet.
#[test]
fn plain_on_lines_a_and_b() {
    for (seed, live) in [(1, 0), (2, 100), (3, 1_000)] {
        let mut traffic = Traffic::new(seed, live);
        let mut records = traffic.opening();
        records.extend((0..20_000).map(|_| traffic.message()));
        let last = records.len() as u64;
        records.push((last + 1, clear(7)));
        let lines = second::traffic::on_two_lines(&in_packets(&records, 8));
        let bytes = recording(&lines);
        let mut dice = Dice::new(seed);
        let mut handler = Handler::default();
        let mut rest = &bytes[..];
        while !rest.is_empty() {
            let most = dice.pick(&[1, 3, 100, 65_536]);
            let (chunk, behind) =
                rest.split_at(dice.below(most + 1).min(rest.len() as u64) as usize);
            handler.feed(chunk);
            rest = behind;
        }
        let mut desk = Desk::full(V1_3b);
        let mut hold = [0; LEAST_HOLD];
        assert_eq!(Stream::default().feed(&mut desk, &mut hold, &bytes), Ok(()));
        assert_eq!((desk.state.next, desk.state.stop), (last + 2, 0));
        assert_eq!(handler.symbols().len(), 40);
        for symbol in handler.symbols() {
            for side in [Side::Buy, Side::Sell] {
                let mut run = vec![0; 3 * 1_600];
                let levels = ladder(&desk.orders, &desk.symbols, *symbol, side, &mut run).unwrap();
                run.truncate(3 * levels as usize);
                assert_eq!(handler.ladder(*symbol, side == Side::Sell), run);
            }
        }
        let sheet = sheet_of_recording(V1_3b, &bytes).unwrap();
        assert_eq!(handler.sheet().as_bytes(), sheet);
    }
}
