//! Tables, shelves and states that a caller altered, against a model that takes them apart into
//! rows, entries and slots, works on those and puts them together again. It shares the reader of
//! bodies with the program and nothing else. Run one seed again with SECOND_SEED=number.

mod common;
use common::*;
use second::morning::*;
use second::packet::{read_body, read_packet, Message, Refusal, Side, LAST_NUMBER};
use second::receiver::{Answer, State};
use second::views;
use std::collections::{BTreeMap, VecDeque};

#[derive(Clone, Debug)]
struct Slot {
    number: u64,
    length: u16,
    padded: Vec<u8>,
}

impl Slot {
    fn empty() -> Slot {
        Slot {
            number: 0,
            length: 0,
            padded: vec![0; 64],
        }
    }

    fn message(&self, edition: Edition) -> Option<Message> {
        let body = self.padded.get(..self.length as usize)?;
        read_body(edition, body).ok()
    }
}

#[derive(Clone, Debug)]
struct Model {
    state: State,
    rows: Vec<[u64; 5]>,
    entries: Vec<Vec<u8>>,
    slots: Vec<Slot>,
}

fn live(row: &&[u64; 5]) -> bool {
    let [_, symbol, price, size, rank] = **row;
    rank > 0
        && symbol < 8_589_934_592
        && price > 0
        && price < 1_000_000_000_000_001
        && size > 0
        && size < 4_294_967_296
}

impl Model {
    fn of(desk: &Desk) -> Model {
        Model {
            state: desk.state,
            rows: desk
                .orders
                .chunks(5)
                .map(|row| row.try_into().unwrap())
                .collect(),
            entries: desk.symbols.chunks(42).map(<[u8]>::to_vec).collect(),
            slots: desk
                .shelf
                .chunks(74)
                .map(|slot| Slot {
                    number: u64::from_le_bytes(slot[..8].try_into().unwrap()),
                    length: u16::from_le_bytes(slot[8..10].try_into().unwrap()),
                    padded: slot[10..].to_vec(),
                })
                .collect(),
        }
    }

    /// Put together again.
    fn desk(&self) -> Desk {
        let mut shelf = Vec::new();
        for slot in &self.slots {
            shelf.extend(slot.number.to_le_bytes());
            shelf.extend(slot.length.to_le_bytes());
            shelf.extend(&slot.padded);
        }
        Desk {
            state: self.state,
            orders: self.rows.concat(),
            symbols: self.entries.concat(),
            shelf,
            index: Vec::new(),
        }
    }

    fn entry_of(&self, symbol: u32) -> Option<usize> {
        let id = symbol.to_le_bytes();
        let wanted = |entry: &Vec<u8>| entry[0] == 1 && entry[5..9] == id;
        self.entries.iter().position(wanted)
    }

    fn row_of(&self, order: u64) -> Option<usize> {
        self.rows
            .iter()
            .position(|row| live(&row) && row[0] == order)
    }

    /// The row that a Modify, Delete or Execution works on.
    fn own_row(&self, symbol: u32, order: u64) -> Result<usize, u8> {
        self.entry_of(symbol).ok_or(20)?;
        let place = self.row_of(order).ok_or(22)?;
        match self.rows[place][1] >> 1 == symbol as u64 {
            true => Ok(place),
            false => Err(23),
        }
    }

    fn apply(&mut self, number: u64, message: Message) -> Result<(), u8> {
        match message {
            Message::SystemTime { seconds } => self.state.second = seconds.into(),
            Message::SymbolUpdate(update) => {
                let free = || self.entries.iter().position(|entry| entry[0] == 0);
                let place = self.entry_of(update.symbol).or_else(free).ok_or(26)?;
                self.entries[place] = update.body.to_vec();
            }
            Message::AddOrder {
                symbol,
                order,
                side,
                price,
                size,
                ..
            } => {
                self.entry_of(symbol).ok_or(20)?;
                if self.row_of(order).is_some() {
                    return Err(21);
                }
                let place = self.rows.iter().position(|row| *row == [0; 5]).ok_or(25)?;
                let side = if side == Side::Sell { 1 } else { 0 };
                let key = u64::from(symbol) << 1 | side;
                self.rows[place] = [order, key, price, size.into(), number];
            }
            Message::ModifyOrder {
                symbol,
                order,
                price,
                size,
                flags,
                ..
            } => {
                let place = self.own_row(symbol, order)?;
                let row = &mut self.rows[place];
                *row = [row[0], row[1], price, size.into(), row[4]];
                if flags & 1 != 0 {
                    row[4] = number;
                }
            }
            Message::DeleteOrder { symbol, order, .. } => {
                let place = self.own_row(symbol, order)?;
                self.rows[place] = [0; 5];
            }
            Message::OrderExecution {
                symbol,
                order,
                size,
                ..
            } => {
                let place = self.own_row(symbol, order)?;
                match self.rows[place][3].checked_sub(size.into()) {
                    None => return Err(24),
                    Some(0) => self.rows[place] = [0; 5],
                    Some(left) => self.rows[place][3] = left,
                }
            }
            Message::SymbolClear { symbol, .. } => {
                self.entry_of(symbol).ok_or(20)?;
                for row in &mut self.rows {
                    if live(&&*row) && row[1] >> 1 == symbol as u64 {
                        *row = [0; 5];
                    }
                }
            }
            Message::SystemState { .. }
            | Message::TradingStatus { .. }
            | Message::Trade { .. }
            | Message::TradeCancel { .. } => {}
        }
        Ok(())
    }

    fn stop(&self) -> u8 {
        let slot = &self.slots[(self.state.next % 64) as usize];
        if slot.number == 0 {
            return 0;
        }
        if slot.number != self.state.next {
            return 27;
        }
        match slot.message(self.state.edition) {
            None => 27,
            Some(message) => match self.clone().apply(self.state.next, message) {
                Ok(()) => 0,
                Err(rule) => rule,
            },
        }
    }

    /// A good packet.
    fn work(&mut self, packet: &[u8]) -> Answer {
        let mut answer = Answer::default();
        let before = self.state.next;
        let mut records: VecDeque<_> = read_packet(self.state.edition, packet).unwrap().into();
        while let Some(record) = records.pop_front() {
            let n = record.number;
            let mut padded = record.body.to_vec();
            padded.resize(64, 0);
            let length = record.body.len() as u16;
            let slot = &mut self.slots[(n % 64) as usize];
            if n < self.state.next {
                answer.old += 1;
            } else if n - self.state.next >= 64 {
                answer.too_far += 1;
            } else if slot.number == n && slot.length == length && slot.padded == padded {
                answer.repeats += 1;
            } else if slot.number != 0 {
                answer.differing += 1;
            } else {
                *slot = Slot {
                    number: n,
                    length,
                    padded,
                };
                answer.taken += 1;
                loop {
                    let next = self.state.next;
                    let place = (next % 64) as usize;
                    if self.slots[place].number != next {
                        break;
                    }
                    let Some(message) = self.slots[place].message(self.state.edition) else {
                        break;
                    };
                    if self.apply(next, message).is_err() {
                        break;
                    }
                    self.slots[place] = Slot::empty();
                    self.state.next += 1;
                }
            }
        }
        self.state.stop = self.stop();
        answer.next = self.state.next;
        answer.applied = self.state.next - before;
        answer.highest = self.slots.iter().map(|slot| slot.number).max().unwrap_or(0);
        answer.stop = self.state.stop;
        answer
    }

    /// The ladder by a sorted map, best price first.
    fn ladder(&self, symbol: u32, side: Side) -> Vec<u64> {
        let mut levels: BTreeMap<u64, (u64, u64)> = BTreeMap::new();
        let key = u64::from(symbol) * 2 + u64::from(side == Side::Sell);
        for row in self.rows.iter().filter(live).filter(|row| row[1] == key) {
            let level = levels.entry(row[2]).or_default();
            level.0 += row[3];
            level.1 += 1;
        }
        let flat = |(price, (shares, orders))| [price, shares, orders];
        match side {
            Side::Buy => levels.into_iter().rev().flat_map(flat).collect(),
            Side::Sell => levels.into_iter().flat_map(flat).collect(),
        }
    }
}

fn sizes_good(desk: &Desk) -> bool {
    desk.orders.len() % 5 == 0
        && (5..=80_000).contains(&desk.orders.len())
        && desk.symbols.len() % 42 == 0
        && (42..=42_000).contains(&desk.symbols.len())
        && desk.shelf.len() == 4_736
}

#[test]
fn altered_receivers() {
    let mut stops = [0; 28];
    let mut refused = [0; 7];
    let (mut sums, mut by_edition) = ([0; 6], 0);
    for seed in seeds(4_000) {
        let Case { mut desk, packet } = case(seed, (seed % 4) * 300);
        let before = desk.clone();
        let answer = desk.give(&packet);
        let good = sizes_good(&before) && (1..=LAST_NUMBER + 1).contains(&before.state.next);
        if !good {
            assert_eq!(answer, Err(Refusal::alone(6)), "seed {seed}");
        } else if let Err(refusal) = read_packet(before.state.edition, &packet) {
            assert_eq!(answer, Err(refusal), "seed {seed}");
            let other = read_packet(before.state.edition.other(), &packet);
            by_edition += u64::from(other.is_ok());
        }
        match answer {
            Err(refusal) => {
                refused[refusal.number as usize] += 1;
                assert_eq!(desk, before, "seed {seed}");
            }
            Ok(answer) => {
                let mut model = Model::of(&before);
                assert_eq!(answer, model.work(&packet), "seed {seed}");
                assert_eq!(desk, model.desk(), "seed {seed}");
                stops[answer.stop as usize] += 1;
                for (sum, count) in sums.iter_mut().zip(answer.counts()) {
                    *sum += count;
                }
                sums[5] += answer.applied;
                check_views(&model, &desk, seed);
            }
        }
    }
    if all_seeds() {
        assert!(
            refused[1..=6].iter().all(|count| *count > 30),
            "{refused:?}"
        );
        assert!(stops[20..=27].iter().all(|count| *count > 10), "{stops:?}");
        assert!(sums.iter().all(|count| *count > 1_000), "{sums:?}");
        // Receivers whose edition the caller changed: the other would have accepted the packet.
        assert!(by_edition > 20, "{by_edition}");
    }
}

fn check_views(model: &Model, desk: &Desk, seed: u64) {
    let mut symbols: Vec<u32> = model
        .entries
        .iter()
        .map(|entry| u32::from_le_bytes(entry[5..9].try_into().unwrap()))
        .collect();
    symbols.push(seed as u32);
    for symbol in symbols {
        let known = model.entry_of(symbol).is_some();
        let mut best = [None; 2];
        for (place, side) in [Side::Buy, Side::Sell].into_iter().enumerate() {
            let levels = model.ladder(symbol, side);
            let mut wanted = vec![seed; (seed % 40) as usize];
            let mut run = wanted.clone();
            let answer = views::ladder(&desk.orders, &desk.symbols, symbol, side, &mut run);
            if known {
                let whole = levels.len().min(wanted.len() / 3 * 3);
                wanted[..whole].copy_from_slice(&levels[..whole]);
                assert_eq!(answer, Ok(levels.len() as u64 / 3), "seed {seed}");
                best[place] = levels.first().copied();
            } else {
                assert_eq!(answer, Err(30), "seed {seed}");
            }
            assert_eq!(run, wanted, "seed {seed}");
        }
        let spread = views::spread(&desk.orders, &desk.symbols, symbol);
        match best {
            _ if !known => assert_eq!(spread, Err(30), "seed {seed}"),
            [Some(bid), Some(offer)] => {
                let wanted = i128::from(offer) - i128::from(bid);
                assert_eq!(
                    spread.map(|s| s.map(i128::from)),
                    Ok(Some(wanted)),
                    "seed {seed}"
                );
            }
            _ => assert_eq!(spread, Ok(None), "seed {seed}"),
        }
    }
    let live_rows = model.rows.iter().filter(live).count() as u64;
    assert_eq!(views::live_orders(&desk.orders), Ok(live_rows));
    let used = model.entries.iter().filter(|entry| entry[0] == 1).count() as u64;
    assert_eq!(views::used_entries(&desk.symbols), Ok(used));
}

/// Runs of many packets with damage between them.
#[test]
fn altered_runs() {
    for seed in seeds(60) {
        let mut dice = Dice::new(seed ^ 0xA17E);
        let mut desk = case(dice.bits(), 0).desk;
        for _ in 0..40 {
            let other = case(dice.bits(), 500);
            match dice.below(12) {
                0 => damage_orders(dice.bits(), &mut desk.orders),
                1 => damage_symbols(dice.bits(), &mut desk.symbols),
                2 => {
                    let (edition, next) = (desk.state.edition, desk.state.next);
                    damage_shelf(edition, dice.bits(), &mut desk.shelf, next);
                }
                3 => damage_state(dice.bits(), &mut desk.state),
                4 => desk.shelf = other.desk.shelf,
                5 => desk.state = other.desk.state,
                6 => {
                    let wanted = if sizes_good(&desk) { Ok(()) } else { Err(6) };
                    let edition = dice.pick(&EDITIONS);
                    assert_eq!(desk.start(edition), wanted, "seed {seed}");
                    assert!(wanted.is_err() || desk.state.edition == edition);
                }
                _ => {}
            }
            let before = desk.clone();
            match desk.give(&other.packet) {
                Err(_) => assert_eq!(desk, before, "seed {seed}"),
                Ok(answer) => {
                    let mut model = Model::of(&before);
                    assert_eq!(answer, model.work(&other.packet), "seed {seed}");
                    assert_eq!(desk, model.desk(), "seed {seed}");
                }
            }
        }
    }
}
