//! A handler as one writes it in Rust with the standard library's tables: orders in a `HashMap`, price levels in
//! `BTreeMap`s, messages arbitrated by their numbers with a small buffer for those that come early. Nothing is judged:
//! it expects a good recording whose messages break no rule, and promises nothing for any other. The benchmarks lay
//! the sheet program beside it (docs/BENCHMARKS.md).

use std::collections::{BTreeMap, HashMap};
use std::fmt::Write;

struct Order {
    symbol: u32,
    buy: bool,
    price: u64,
    size: u32,
}

#[derive(Default)]
struct Level {
    shares: u64,
    orders: u64,
}

type Levels = BTreeMap<u64, Level>;

struct Book {
    ticker: [u8; 11],
    lot: u16,
    bids: Levels,
    offers: Levels,
}

impl Book {
    fn side(&mut self, buy: bool) -> &mut Levels {
        match buy {
            true => &mut self.bids,
            false => &mut self.offers,
        }
    }

    fn add(&mut self, buy: bool, price: u64, size: u32) {
        let level = self.side(buy).entry(price).or_default();
        level.shares += u64::from(size);
        level.orders += 1;
    }

    /// So many shares less at a price, and so many orders.
    fn take(&mut self, buy: bool, price: u64, size: u32, orders: u64) {
        let side = self.side(buy);
        let level = side.get_mut(&price).expect("a level of a live order");
        level.shares -= u64::from(size);
        level.orders -= orders;
        if level.orders == 0 {
            side.remove(&price);
        }
    }
}

/// The handler with all that it knows.
pub struct Handler {
    next: u64,
    /// Bodies that came before their turn.
    early: BTreeMap<u64, Vec<u8>>,
    second: u32,
    orders: HashMap<u64, Order>,
    books: HashMap<u32, Book>,
    /// Symbols in the order in which they came.
    symbols: Vec<u32>,
    /// The unfinished packet at the end of what was fed.
    unfinished: Vec<u8>,
}

impl Default for Handler {
    fn default() -> Handler {
        Handler {
            next: 1,
            early: BTreeMap::new(),
            second: 0,
            orders: HashMap::new(),
            books: HashMap::new(),
            symbols: Vec::new(),
            unfinished: Vec::new(),
        }
    }
}

fn u16_at(bytes: &[u8], at: usize) -> u16 {
    u16::from_le_bytes([bytes[at], bytes[at + 1]])
}

fn u32_at(bytes: &[u8], at: usize) -> u32 {
    u32::from_le_bytes(bytes[at..at + 4].try_into().expect("four bytes"))
}

fn u64_at(bytes: &[u8], at: usize) -> u64 {
    u64::from_le_bytes(bytes[at..at + 8].try_into().expect("eight bytes"))
}

impl Handler {
    /// The next bytes of a recording, cut anywhere.
    pub fn feed(&mut self, chunk: &[u8]) {
        let mut chunk = chunk;
        while !self.unfinished.is_empty() {
            let missing = match self.unfinished.len() {
                1 => 1,
                held => 2 + usize::from(u16_at(&self.unfinished, 0)) - held,
            };
            let (part, rest) = chunk.split_at(missing.min(chunk.len()));
            self.unfinished.extend_from_slice(part);
            chunk = rest;
            if part.len() < missing {
                return;
            }
            let held = self.unfinished.len();
            if held > 2 || u16_at(&self.unfinished, 0) == 0 {
                let packet = std::mem::take(&mut self.unfinished);
                self.packet(&packet[2..]);
            }
        }
        while chunk.len() >= 2 {
            let length = usize::from(u16_at(chunk, 0));
            let Some(packet) = chunk.get(2..2 + length) else {
                break;
            };
            self.packet(packet);
            chunk = &chunk[2 + length..];
        }
        self.unfinished.extend_from_slice(chunk);
    }

    pub fn packet(&mut self, packet: &[u8]) {
        let mut rest = packet;
        while rest.len() >= 10 {
            let (number, length) = (u64_at(rest, 0), usize::from(u16_at(rest, 8)));
            let (body, behind) = rest[10..].split_at(length);
            rest = behind;
            if number > self.next {
                self.early.entry(number).or_insert_with(|| body.to_vec());
            } else if number == self.next {
                self.apply(body);
                self.next += 1;
                while let Some(body) = self.early.remove(&self.next) {
                    self.apply(&body);
                    self.next += 1;
                }
            }
        }
    }

    fn book(&mut self, symbol: u32) -> &mut Book {
        self.books.get_mut(&symbol).expect("a known symbol")
    }

    fn apply(&mut self, body: &[u8]) {
        match body[0] {
            20 => self.add(body),
            21 => self.modify(body),
            23 => self.leave(u64_at(body, 9)),
            24 => self.execute(u64_at(body, 9), u32_at(body, 33)),
            1 => self.update(body),
            5 => self.clear(u32_at(body, 5)),
            49 => self.second = u32_at(body, 1),
            _ => {}
        }
    }

    fn update(&mut self, body: &[u8]) {
        let symbol = u32_at(body, 5);
        let ticker = body[9..20].try_into().expect("eleven bytes");
        let lot = u16_at(body, 23);
        let symbols = &mut self.symbols;
        let book = self.books.entry(symbol).or_insert_with(|| {
            symbols.push(symbol);
            Book {
                ticker,
                lot,
                bids: Levels::new(),
                offers: Levels::new(),
            }
        });
        (book.ticker, book.lot) = (ticker, lot);
    }

    fn add(&mut self, body: &[u8]) {
        let order = Order {
            symbol: u32_at(body, 5),
            buy: body[17] == b'B',
            price: u64_at(body, 18),
            size: u32_at(body, 26),
        };
        let (buy, price, size) = (order.buy, order.price, order.size);
        self.book(order.symbol).add(buy, price, size);
        self.orders.insert(u64_at(body, 9), order);
    }

    fn modify(&mut self, body: &[u8]) {
        let order = self.orders.get_mut(&u64_at(body, 9)).expect("a live order");
        let (old_price, old_size) = (order.price, order.size);
        (order.price, order.size) = (u64_at(body, 17), u32_at(body, 25));
        let (symbol, buy, price, size) = (order.symbol, order.buy, order.price, order.size);
        let book = self.book(symbol);
        book.take(buy, old_price, old_size, 1);
        book.add(buy, price, size);
    }

    fn execute(&mut self, id: u64, size: u32) {
        let order = self.orders.get_mut(&id).expect("a live order");
        if order.size == size {
            return self.leave(id);
        }
        order.size -= size;
        let (symbol, buy, price) = (order.symbol, order.buy, order.price);
        self.book(symbol).take(buy, price, size, 0);
    }

    fn leave(&mut self, id: u64) {
        let order = self.orders.remove(&id).expect("a live order");
        self.book(order.symbol)
            .take(order.buy, order.price, order.size, 1);
    }

    fn clear(&mut self, symbol: u32) {
        self.orders.retain(|_, order| order.symbol != symbol);
        let book = self.book(symbol);
        book.bids.clear();
        book.offers.clear();
    }

    /// The levels of a side from the best: price, shares, orders.
    pub fn ladder(&self, symbol: u32, sell: bool) -> Vec<u64> {
        let Some(book) = self.books.get(&symbol) else {
            return Vec::new();
        };
        let told = |(price, level): (&u64, &Level)| [*price, level.shares, level.orders];
        match sell {
            true => book.offers.iter().flat_map(told).collect(),
            false => book.bids.iter().rev().flat_map(told).collect(),
        }
    }

    pub fn symbols(&self) -> &[u32] {
        &self.symbols
    }

    /// The sheet of a whole recording with no bad packet. (Tickers are taken to be letters and spaces.)
    pub fn sheet(&self) -> String {
        let mut text = String::new();
        let (symbols, orders) = (self.symbols.len(), self.orders.len());
        let (next, second) = (self.next, self.second);
        let _ = write!(
            text,
            "recording=whole\nbad=0\nnext={next}\nstop=0\nsecond={second}\nsymbols={symbols}\norders={orders}\n"
        );
        for symbol in &self.symbols {
            self.sheet_of(*symbol, &self.books[symbol], &mut text);
        }
        text
    }

    fn sheet_of(&self, symbol: u32, book: &Book, text: &mut String) {
        let ticker = String::from_utf8_lossy(&book.ticker);
        let (ticker, lot) = (ticker.trim_end(), book.lot);
        let _ = write!(text, "symbol={symbol}\nticker={ticker}\nlot={lot}\n");
        let best = (book.offers.keys().next(), book.bids.keys().next_back());
        let _ = match best {
            (Some(offer), Some(bid)) => writeln!(text, "spread={}", *offer as i64 - *bid as i64),
            _ => writeln!(text, "spread=none"),
        };
        for (key, sell) in [("bid", false), ("ask", true)] {
            for level in self.ladder(symbol, sell).chunks(3).take(10) {
                let _ = writeln!(text, "{key}={} {} {}", level[0], level[1], level[2]);
            }
        }
    }
}
