//! Busy mornings for measuring: good messages that keep about so many orders live, in packets of
//! several records. Everything is a function of a seed.

use crate::morning::*;
use crate::packet::{LAST_NANOSECOND, MOST_PACKET_BYTES};

/// Symbols in play where no other number is wanted.
const SYMBOLS: u64 = 40;
/// Price levels on each side of a symbol's middle.
const LEVELS: u64 = 12;
/// How many packets line B is behind line A.
const BEHIND: usize = 3;

struct Order {
    id: u64,
    symbol: u32,
    side: u8,
    price: u64,
    size: u32,
}

/// Messages one by one, numbered from 1, none of which breaks a rule in tables of full capacity.
pub struct Traffic {
    dice: Dice,
    live: Vec<Order>,
    /// How many orders are to be live, and how many symbols to be known.
    wanted: usize,
    symbols: u64,
    number: u64,
}

impl Traffic {
    pub fn new(seed: u64, wanted: usize) -> Traffic {
        Traffic::of_symbols(seed, wanted, SYMBOLS)
    }

    pub fn of_symbols(seed: u64, wanted: usize, symbols: u64) -> Traffic {
        Traffic {
            dice: Dice::new(seed),
            live: Vec::new(),
            wanted,
            symbols,
            number: 0,
        }
    }

    /// The messages that a morning opens with: the second, the symbols, and all wanted orders.
    pub fn opening(&mut self) -> Vec<(u64, Vec<u8>)> {
        let mut records = vec![self.numbered(system_time(34_200))];
        for symbol in 0..self.symbols as u32 {
            records.push(self.numbered(symbol_update(0, symbol, b"BUSY       ", 100)));
        }
        records.extend(self.refill());
        records
    }

    /// Adds until all wanted orders are live.
    pub fn refill(&mut self) -> Vec<(u64, Vec<u8>)> {
        let mut records = Vec::new();
        while self.live.len() < self.wanted {
            let body = self.add();
            records.push(self.numbered(body));
        }
        records
    }

    /// The next message of a busy hour: Adds as often as orders leave, so that about as many stay.
    pub fn message(&mut self) -> (u64, Vec<u8>) {
        let body = match self.dice.below(100) {
            0 => system_time(34_200 + self.number as u32 / 10_000),
            1..=2 => trade(self.nanoseconds(), 7, self.number, 0, 10_000_000, 100, 1),
            3..=40 if self.live.len() < self.wanted => self.add(),
            3..=55 => self.modify(),
            56..=70 => self.execute(false),
            71..=80 => self.execute(true),
            _ => self.delete(),
        };
        self.numbered(body)
    }

    /// An Add, or where all wanted orders are live something that one leaves by: as many come and go as can.
    pub fn coming_and_going(&mut self) -> (u64, Vec<u8>) {
        let body = match self.dice.below(10) {
            _ if self.live.len() < self.wanted => self.add(),
            0 => self.execute(true),
            _ => self.delete(),
        };
        self.numbered(body)
    }

    /// A message that looks for no order: a Trade, or now and then the second.
    pub fn bookless(&mut self) -> (u64, Vec<u8>) {
        let body = match self.dice.below(20) {
            0 => system_time(34_200 + self.number as u32 / 10_000),
            _ => trade(self.nanoseconds(), 7, self.number, 0, 10_000_000, 100, 1),
        };
        self.numbered(body)
    }

    fn numbered(&mut self, body: Vec<u8>) -> (u64, Vec<u8>) {
        self.number += 1;
        (self.number, body)
    }

    fn nanoseconds(&mut self) -> u32 {
        self.dice.between(0, LAST_NANOSECOND.into()) as u32
    }

    fn price(&mut self, symbol: u32, side: u8) -> u64 {
        let middle = 20_000_000 + u64::from(symbol) * 1_000_000;
        let away = self.dice.between(1, LEVELS) * 10_000;
        if side == b'B' {
            middle - away
        } else {
            middle + away
        }
    }

    fn add(&mut self) -> Vec<u8> {
        let symbol = self.dice.below(self.symbols) as u32;
        let side = self.dice.pick(b"BS");
        let order = Order {
            id: 5_000_000_000 + self.number,
            symbol,
            side,
            price: self.price(symbol, side),
            size: self.dice.between(1, 20) as u32 * 100,
        };
        let (nanoseconds, price, size) = (self.nanoseconds(), order.price, order.size);
        let body = add_order(nanoseconds, symbol, order.id, side, price, size);
        self.live.push(order);
        body
    }

    /// One of the live orders; an Add first where there is none.
    fn some(&mut self) -> Option<usize> {
        match self.live.len() as u64 {
            0 => None,
            count => Some(self.dice.below(count) as usize),
        }
    }

    fn modify(&mut self) -> Vec<u8> {
        let Some(place) = self.some() else {
            return self.add();
        };
        let (symbol, side) = (self.live[place].symbol, self.live[place].side);
        let price = self.price(symbol, side);
        let nanoseconds = self.nanoseconds();
        let flags = self.dice.bits() as u8;
        let order = &mut self.live[place];
        order.price = price;
        modify_order(nanoseconds, symbol, order.id, price, order.size, flags)
    }

    /// An execution of all of an order, or of half of it.
    fn execute(&mut self, whole: bool) -> Vec<u8> {
        let Some(place) = self.some() else {
            return self.add();
        };
        let (nanoseconds, trade) = (self.nanoseconds(), self.number);
        let order = &mut self.live[place];
        let size = if whole {
            order.size
        } else {
            order.size.div_ceil(2)
        };
        order.size -= size;
        let (symbol, id, price) = (order.symbol, order.id, order.price);
        if order.size == 0 {
            self.live.swap_remove(place);
        }
        order_execution(nanoseconds, symbol, id, trade, price, size, 1)
    }

    fn delete(&mut self) -> Vec<u8> {
        let Some(place) = self.some() else {
            return self.add();
        };
        let order = self.live.swap_remove(place);
        delete_order(self.nanoseconds(), order.symbol, order.id)
    }
}

/// Records in packets of up to so many, no more than 1,500 bytes each.
pub fn in_packets(records: &[(u64, Vec<u8>)], most: usize) -> Vec<Vec<u8>> {
    let mut packets: Vec<Vec<u8>> = Vec::new();
    let mut count = most;
    for (number, body) in records {
        let record = record(*number, body);
        match packets.last_mut() {
            Some(last) if count < most && last.len() + record.len() <= MOST_PACKET_BYTES => {
                last.extend_from_slice(&record);
                count += 1;
            }
            _ => {
                packets.push(record);
                count = 1;
            }
        }
    }
    packets
}

/// Each packet twice, line B a few packets behind line A.
pub fn on_two_lines(line_a: &[Vec<u8>]) -> Vec<Vec<u8>> {
    let mut packets = Vec::new();
    for (place, packet) in line_a.iter().enumerate() {
        packets.push(packet.clone());
        if let Some(late) = place.checked_sub(BEHIND) {
            packets.push(line_a[late].clone());
        }
    }
    packets.extend_from_slice(&line_a[line_a.len().saturating_sub(BEHIND)..]);
    packets
}

#[cfg(test)]
mod tests {
    use super::*;
    use crate::desk::Desk;
    use crate::edition::Edition;
    use crate::packet::MODIFY_ORDER;
    use crate::tables::SHEET_ROWS;
    use crate::views::live_orders;

    /// Busy hours have Modifies with every flag byte, since none of their bits is judged (request 2).
    #[test]
    fn traffic_has_every_flag_byte() {
        let mut traffic = Traffic::new(1, 100);
        traffic.opening();
        let mut seen = [0; 256];
        for _ in 0..20_000 {
            let (_, body) = traffic.message();
            if body[0] == MODIFY_ORDER {
                seen[usize::from(body[FLAGS_OF_MODIFY])] += 1;
            }
        }
        assert!(seen.iter().all(|count| *count > 0), "{seen:?}");
    }

    /// Nothing stops, and about as many orders stay live as wanted, also in full tables.
    #[test]
    fn traffic_keeps_its_orders() {
        for wanted in [100, SHEET_ROWS] {
            let mut traffic = Traffic::new(1, wanted);
            let mut records = traffic.opening();
            for _ in 0..5_000 {
                records.push(traffic.message());
            }
            let mut desk = Desk::full(Edition::default());
            for packet in in_packets(&records, 8) {
                desk.give(&packet).unwrap();
            }
            assert_eq!(desk.state.next, records.len() as u64 + 1);
            let live = live_orders(&desk.orders).unwrap() as usize;
            assert!(
                live <= wanted && live > wanted * 8 / 10,
                "{live} of {wanted}"
            );
        }
    }
}
