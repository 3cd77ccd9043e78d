//! Lists of well-formed messages, numbered from 1.

use super::{messages::*, Dice};
use crate::book::apply;
use crate::edition::Edition;
use crate::packet::*;
use crate::tables::*;

#[derive(Clone, Copy, Debug)]
pub struct ListSettings {
    /// The edition that the list is written in.
    pub edition: Edition,
    /// How many messages.
    pub messages: usize,
    /// The capacities that the list is made for.
    pub rows: usize,
    pub entries: usize,
    /// How many symbols are in play, known or not yet known.
    pub symbols: usize,
    /// How many order IDs are in play; few of them return often.
    pub orders: usize,
    /// Bids lie on so many ticks below the middle and offers above; more than ten make ladders
    /// that no sheet shows whole.
    pub levels: u64,
    /// The chance that an order is priced on the other side of the middle.
    pub crossing: u64,
    /// The chance of a message that is made to break a rule of 20 to 26.
    pub breaking: u64,
    /// Only Symbol Updates and Adds, so that tables fill.
    pub filling: bool,
    /// The rule that one more message behind the others is made to break, if it can; 0 for none.
    pub ending: u8,
}

impl Default for ListSettings {
    /// No message yet, in tables with room, and nothing unusual to come.
    fn default() -> ListSettings {
        ListSettings {
            edition: Edition::default(),
            messages: 0,
            rows: 40,
            entries: 5,
            symbols: 5,
            orders: 30,
            levels: 5,
            crossing: 0,
            breaking: 0,
            filling: false,
            ending: 0,
        }
    }
}

impl ListSettings {
    /// Any mix, in tables of 1 to 90 rows.
    pub fn drawn(dice: &mut Dice) -> ListSettings {
        ListSettings {
            messages: dice.between(1, 200) as usize,
            rows: dice.pick(&[1, 2, 5, 12, 40, 90]),
            entries: dice.between(1, 8) as usize,
            symbols: dice.between(1, 10) as usize,
            orders: dice.between(5, 80) as usize,
            levels: dice.between(1, 14),
            crossing: dice.pick(&[0, 50, 500]),
            breaking: dice.pick(&[0, 0, 3, 15]),
            filling: dice.chance(100),
            ending: dice.pick(&[0, 0, 20, 21, 22, 23, 24, 25, 26]),
            ..ListSettings::default()
        }
    }

    /// The same in an edition.
    pub fn of(self, edition: Edition) -> ListSettings {
        ListSettings { edition, ..self }
    }

    /// A list that fills tables of full capacity to the last row and entry; its last message finds
    /// no row (25) or no entry (26).
    pub fn filling(ending: u8) -> ListSettings {
        ListSettings {
            messages: 2_650,
            rows: SHEET_ROWS,
            entries: MOST_ENTRIES,
            symbols: 1_005,
            orders: 10_000,
            levels: 30,
            crossing: 100,
            filling: true,
            ending,
            ..ListSettings::default()
        }
    }
}

/// A list in the making, with the tables and the second as its messages so far leave them. (What
/// comes behind a message that breaks a rule is made as if that message were not there.)
pub struct ListMaker {
    pub dice: Dice,
    pub settings: ListSettings,
    pub list: Vec<Vec<u8>>,
    pub orders: Vec<u64>,
    pub symbols: Vec<u8>,
    pub second: u64,
    /// The IDs in play.
    pub symbol_ids: Vec<u32>,
    pub order_ids: Vec<u64>,
}

impl ListMaker {
    pub fn new(seed: u64, settings: ListSettings) -> ListMaker {
        let mut dice = Dice::new(seed);
        let mut symbol_ids = Vec::new();
        while symbol_ids.len() < settings.symbols {
            let symbol = match dice.below(8) {
                0 => dice.pick(&[0, 1, u32::MAX]),
                1 => dice.bits() as u32,
                _ => dice.between(2, 5_000) as u32,
            };
            if !symbol_ids.contains(&symbol) {
                symbol_ids.push(symbol);
            }
        }
        let mut order_ids = Vec::new();
        let base = dice.between(1, 1 << 40);
        while order_ids.len() < settings.orders {
            order_ids.push(match order_ids.len() {
                3 => 0,
                4 => u64::MAX,
                place => base + place as u64,
            });
        }
        ListMaker {
            dice,
            settings,
            list: Vec::new(),
            orders: vec![0; settings.rows * ROW_NUMBERS],
            symbols: vec![0; settings.entries * ENTRY_BYTES],
            second: 0,
            symbol_ids,
            order_ids,
        }
    }

    /// Put a message behind the list if it breaks no rule there. True if it was put.
    pub fn push(&mut self, body: Vec<u8>) -> bool {
        let number = self.list.len() as u64 + 1;
        let applied = match read_body(self.settings.edition, &body) {
            Err(_) => false,
            Ok(message) => apply(
                number,
                &message,
                &mut self.orders,
                &mut self.symbols,
                &mut self.second,
            )
            .is_ok(),
        };
        if applied {
            self.list.push(body);
        }
        applied
    }

    /// Put one message behind the list that breaks no rule.
    pub fn push_ordinary(&mut self) {
        for _ in 0..200 {
            let body = self.candidate();
            if self.push(body) {
                return;
            }
        }
        let seconds = self.seconds();
        self.push(system_time(seconds));
    }

    /// Put a message behind the list that breaks this rule. False if none can do so now.
    pub fn push_breaker(&mut self, rule: u8) -> bool {
        match self.breaker(rule) {
            None => false,
            Some(body) => {
                self.list.push(body);
                true
            }
        }
    }

    fn seconds(&mut self) -> u32 {
        match self.dice.below(20) {
            0 => self.dice.bits() as u32,
            _ => 34_200 + self.list.len() as u32 / 8,
        }
    }

    fn nanoseconds(&mut self) -> u32 {
        good_nanoseconds(&mut self.dice)
    }

    fn symbol(&mut self) -> u32 {
        self.dice.pick(&self.symbol_ids)
    }

    /// The symbols that are known in the tables so far.
    fn known_symbols(&self) -> Vec<u32> {
        let mut known = Vec::new();
        for place in 0..entries_in(&self.symbols) {
            let entry = entry(&self.symbols, place);
            if entry_is_used(entry) {
                known.push(symbol_of_entry(entry));
            }
        }
        known
    }

    fn known_symbol(&mut self) -> Option<u32> {
        let known = self.known_symbols();
        if known.is_empty() {
            return None;
        }
        Some(self.dice.pick(&known))
    }

    fn unknown_symbol(&mut self) -> u32 {
        loop {
            let symbol = match self.dice.below(2) {
                0 => self.symbol(),
                _ => self.dice.bits() as u32,
            };
            if used_entry(&self.symbols, symbol).is_none() {
                return symbol;
            }
        }
    }

    /// A live row of the tables so far: its five numbers.
    fn live_row(&mut self) -> Option<[u64; 5]> {
        let mut live = Vec::new();
        for place in 0..rows_in(&self.orders) {
            if row_is_live(row(&self.orders, place)) {
                live.push(place);
            }
        }
        if live.is_empty() {
            return None;
        }
        let mut numbers = [0; 5];
        numbers.copy_from_slice(row(&self.orders, self.dice.pick(&live)));
        Some(numbers)
    }

    fn dead_order(&mut self) -> u64 {
        loop {
            let order = match self.dice.below(4) {
                0 => self.dice.bits(),
                _ => self.dice.pick(&self.order_ids),
            };
            if live_row(&self.orders, order).is_none() {
                return order;
            }
        }
    }

    fn ticker(&mut self) -> [u8; 11] {
        let mut ticker = [b' '; 11];
        match self.dice.below(12) {
            0 => ticker = *b"A B C      ",
            1 => ticker = *b"ABC\0       ",
            2 => ticker = *b"ABC       \0",
            3 => ticker = *b"  ABC      ",
            4 => ticker = *b"           ",
            5 => ticker = *b"\x1f !~\x7f\x80\xff   \n",
            6 => ticker.fill_with(|| self.dice.bits() as u8),
            7 => ticker.fill_with(|| self.dice.between(65, 90) as u8),
            _ => {
                let letters = self.dice.between(1, 5) as usize;
                ticker[..letters].fill_with(|| self.dice.between(65, 90) as u8);
            }
        }
        ticker
    }

    fn update(&mut self, symbol: u32) -> Vec<u8> {
        let nanoseconds = self.nanoseconds();
        let ticker = self.ticker();
        let lot = self.dice.pick(&[100, 100, 100, 10, 1, 0, 65_535]);
        let mut body = symbol_update(nanoseconds, symbol, &ticker, lot);
        body[20] = self.dice.pick(&[0, 0, b'E', b'F', 255]);
        body[21] = self.dice.pick(b"NNNY");
        body[22] = self.dice.pick(&[0, 0, 7]);
        body[41] = self.dice.pick(b"ABCHIJKLMNPQUVWXYZ");
        // Opening and closing times are not judged, so both ends of what they can be occur. The nanoseconds
        // tell which, since another draw would change what every seed means.
        if self.dice.chance(50) {
            let byte = if nanoseconds % 2 == 0 { 0 } else { 255 };
            body[25..41].fill(byte);
        }
        written_in(self.settings.edition, body)
    }

    fn price(&mut self, symbol: u32, side: u8) -> u64 {
        const TICK: u64 = 10_000;
        if self.dice.chance(10) {
            return self.dice.pick(&[1, 2, HIGHEST_PRICE - 1, HIGHEST_PRICE]);
        }
        // The middle of a symbol: $5.00 to $500.00, by its number.
        let middle = (500 + Dice::new(symbol as u64).below(49_500)) * TICK;
        let away = self.dice.between(1, self.settings.levels) * TICK;
        let below = (side == b'B') != self.dice.chance(self.settings.crossing);
        if below {
            middle.saturating_sub(away).max(1)
        } else {
            middle + away
        }
    }

    fn size(&mut self) -> u32 {
        match self.dice.below(20) {
            0 => self.dice.pick(&[1, u32::MAX]),
            1..=4 => self.dice.between(1, 999) as u32,
            _ => self.dice.between(1, 10) as u32 * 100,
        }
    }

    fn add(&mut self, symbol: u32, order: u64) -> Vec<u8> {
        let side = self.dice.pick(b"BS");
        let price = self.price(symbol, side);
        let (nanoseconds, size) = (self.nanoseconds(), self.size());
        let mut body = add_order(nanoseconds, symbol, order, side, price, size);
        if self.dice.chance(100) {
            body[30..34].copy_from_slice(b"RTAL");
        }
        body
    }

    /// A Modify, Delete or Execution of this symbol and order, with sizes that fit this row.
    fn change(&mut self, kind: u8, symbol: u32, order: u64, row: [u64; 5]) -> Vec<u8> {
        let nanoseconds = self.nanoseconds();
        let side = if row[SYMBOL_AND_SIDE] % 2 == 0 {
            b'B'
        } else {
            b'S'
        };
        match kind {
            MODIFY_ORDER => {
                let price = match self.dice.below(2) {
                    0 => row[PRICE],
                    _ => self.price(symbol, side),
                };
                let size = match self.dice.below(3) {
                    0 => row[SIZE] as u32,
                    _ => self.size(),
                };
                let flags = self.dice.bits() as u8;
                modify_order(nanoseconds, symbol, order, price, size, flags)
            }
            DELETE_ORDER => delete_order(nanoseconds, symbol, order),
            _ => {
                let size = match self.dice.below(2) {
                    0 => row[SIZE],
                    _ => self.dice.between(1, row[SIZE]),
                };
                let trade = self.dice.bits();
                let price = match self.dice.below(4) {
                    0 => self.price(symbol, side),
                    _ => row[PRICE],
                };
                let flags = self.dice.bits() as u8;
                order_execution(nanoseconds, symbol, order, trade, price, size as u32, flags)
            }
        }
    }

    /// Any message, which may or may not break a rule.
    fn candidate(&mut self) -> Vec<u8> {
        let kinds: &[(u8, u64)] = if self.settings.filling {
            &[(SYMBOL_UPDATE, 30), (ADD_ORDER, 100)]
        } else {
            &[
                (SYSTEM_TIME, 6),
                (SYMBOL_UPDATE, 7),
                (SYSTEM_STATE, 1),
                (TRADING_STATUS, 3),
                (SYMBOL_CLEAR, 1),
                (ADD_ORDER, 45),
                (MODIFY_ORDER, 16),
                (DELETE_ORDER, 8),
                (ORDER_EXECUTION, 9),
                (TRADE, 3),
                (TRADE_CANCEL, 1),
            ]
        };
        let mut left = self
            .dice
            .below(kinds.iter().map(|(_, weight)| weight).sum());
        let mut kind = SYSTEM_TIME;
        for (known, weight) in kinds {
            if left < *weight {
                kind = *known;
                break;
            }
            left -= weight;
        }
        // When tables fill, symbols become known one by one. Orders are of symbols that are known.
        let known = self.known_symbols();
        let mut symbol = self.symbol();
        if kind == SYMBOL_UPDATE && self.settings.filling && known.len() < self.symbol_ids.len() {
            symbol = self.symbol_ids[known.len()];
        }
        if (kind == ADD_ORDER || kind == SYMBOL_CLEAR) && !known.is_empty() {
            symbol = self.dice.pick(&known);
        }
        match kind {
            SYSTEM_TIME => system_time(self.seconds()),
            SYMBOL_UPDATE => self.update(symbol),
            SYSTEM_STATE => {
                let nanoseconds = self.nanoseconds();
                let status = self.dice.pick(b"SC12\0");
                let session = self.dice.below(3) as u8;
                system_state(nanoseconds, b"DoM1.3  ", session, status)
            }
            TRADING_STATUS => {
                let nanoseconds = self.nanoseconds();
                let codes = [
                    self.dice.below(7) as u8,
                    self.dice.below(6) as u8,
                    self.dice.pick(b"YN "),
                ];
                trading_status(nanoseconds, symbol, &codes)
            }
            SYMBOL_CLEAR => symbol_clear(self.nanoseconds(), symbol),
            ADD_ORDER => {
                let order = self.dead_order();
                self.add(symbol, order)
            }
            TRADE => {
                let (nanoseconds, size) = (self.nanoseconds(), self.size());
                let price = self.price(symbol, b'B');
                let (number, correction) = (self.dice.bits(), self.dice.below(3) as u8);
                let flags = self.dice.bits() as u8;
                trade(nanoseconds, symbol, number, correction, price, size, flags)
            }
            TRADE_CANCEL => {
                let (nanoseconds, size) = (self.nanoseconds(), self.size());
                let price = self.price(symbol, b'B');
                let (number, correction) = (self.dice.bits(), self.dice.below(3) as u8);
                trade_cancel(nanoseconds, symbol, number, correction, price, size)
            }
            _ => match self.live_row() {
                None => self.update(symbol),
                Some(row) => {
                    let own = (row[SYMBOL_AND_SIDE] / 2) as u32;
                    self.change(kind, own, row[ORDER_ID], row)
                }
            },
        }
    }

    /// A message that breaks this rule in the tables so far, if there is one.
    fn breaker(&mut self, rule: u8) -> Option<Vec<u8>> {
        let kind = self
            .dice
            .pick(&[MODIFY_ORDER, DELETE_ORDER, ORDER_EXECUTION]);
        let any_row = [0, 0, 1_000_000, 100, 1];
        match rule {
            20 => {
                let symbol = self.unknown_symbol();
                // Of a live order as well as not: 20 comes before all about the order.
                let row = match self.dice.below(2) {
                    0 => self.live_row().unwrap_or(any_row),
                    _ => any_row,
                };
                Some(match self.dice.below(3) {
                    0 => self.add(symbol, row[ORDER_ID]),
                    1 => symbol_clear(self.nanoseconds(), symbol),
                    _ => self.change(kind, symbol, row[ORDER_ID], row),
                })
            }
            21 => {
                let symbol = self.known_symbol()?;
                let row = self.live_row()?;
                Some(self.add(symbol, row[ORDER_ID]))
            }
            22 => {
                let symbol = self.known_symbol()?;
                let order = self.dead_order();
                Some(self.change(kind, symbol, order, any_row))
            }
            23 => {
                let symbol = self.known_symbol()?;
                let row = self.live_row()?;
                if row[SYMBOL_AND_SIDE] / 2 == symbol as u64 {
                    return None;
                }
                // An execution may be too large as well: 23 comes before 24.
                let mut wider = row;
                wider[SIZE] = (wider[SIZE] * 2).min(u32::MAX as u64);
                Some(self.change(kind, symbol, row[ORDER_ID], wider))
            }
            24 => {
                let row = self.live_row()?;
                if row[SIZE] == u32::MAX as u64 {
                    return None;
                }
                let above = match self.dice.below(2) {
                    0 => row[SIZE] + 1,
                    _ => self.dice.between(row[SIZE] + 1, u32::MAX as u64),
                };
                let (nanoseconds, trade) = (self.nanoseconds(), self.dice.bits());
                let symbol = (row[SYMBOL_AND_SIDE] / 2) as u32;
                let order = row[ORDER_ID];
                let price = row[PRICE];
                let size = above as u32;
                Some(order_execution(
                    nanoseconds,
                    symbol,
                    order,
                    trade,
                    price,
                    size,
                    0,
                ))
            }
            25 => {
                let symbol = self.known_symbol()?;
                if free_row(&self.orders).is_some() {
                    return None;
                }
                let order = self.dead_order();
                Some(self.add(symbol, order))
            }
            26 => {
                if free_entry(&self.symbols).is_some() {
                    return None;
                }
                let symbol = self.unknown_symbol();
                Some(self.update(symbol))
            }
            _ => None,
        }
    }
}

/// A list of well-formed messages; message n stands at place n - 1.
pub fn list(seed: u64, settings: ListSettings) -> Vec<Vec<u8>> {
    let mut maker = ListMaker::new(seed, settings);
    while maker.list.len() < settings.messages {
        let rule = maker.dice.between(20, 26) as u8;
        if maker.dice.chance(settings.breaking) && maker.push_breaker(rule) {
            continue;
        }
        maker.push_ordinary();
    }
    for _ in 0..20 {
        if settings.ending == 0 || maker.push_breaker(settings.ending) {
            break;
        }
    }
    maker.list
}
