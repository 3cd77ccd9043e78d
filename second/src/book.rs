//! The book rules: one message applied to the tables and the second, or the first broken rule
//! (20 to 26) with nothing changed. Rules and changes go by what was found, whoever searched: by scans of the
//! tables, or through an index (request 9).

use crate::packet::{Message, Side};
use crate::tables::*;

/// Somebody who finds orders, free rows and symbols in the tables.
pub trait Search {
    /// The live row of an order ID.
    fn live_row(&self, orders: &[u64], order: u64) -> Option<usize>;
    /// The row that an Add takes.
    fn free_row(&self, orders: &[u64]) -> Option<usize>;
    /// An entry that makes a symbol a known one.
    fn known_entry(&self, symbols: &[u8], symbol: u32) -> Option<usize>;
}

/// Row after row and entry after entry: "a search for an ID taking the lowest live row or used entry".
pub struct Scans;

impl Search for Scans {
    fn live_row(&self, orders: &[u64], order: u64) -> Option<usize> {
        live_row(orders, order)
    }

    fn free_row(&self, orders: &[u64]) -> Option<usize> {
        free_row(orders)
    }

    fn known_entry(&self, symbols: &[u8], symbol: u32) -> Option<usize> {
        used_entry(symbols, symbol)
    }
}

/// What was found for a message: all that its rules and its changes ask of a search.
#[derive(Clone, Copy, Debug, Default, PartialEq, Eq)]
pub struct Found {
    /// The entry of its symbol. None: 20.
    pub entry: Option<usize>,
    /// The live row of its order.
    pub row: Option<usize>,
    /// The free row that an Add takes. None: 25.
    pub free: Option<usize>,
    /// The entry that a Symbol Update takes. None: 26.
    pub taken: Option<usize>,
}

impl Found {
    pub fn by(search: &impl Search, message: &Message, orders: &[u64], symbols: &[u8]) -> Found {
        let entry = |symbol| search.known_entry(symbols, symbol);
        let row = |order| search.live_row(orders, order);
        match *message {
            // "replaces that symbol's entry, or takes the lowest free one": in the table, whoever searches.
            Message::SymbolUpdate(update) => Found {
                taken: used_entry(symbols, update.symbol).or_else(|| free_entry(symbols)),
                ..Found::default()
            },
            Message::AddOrder { symbol, order, .. } => Found {
                entry: entry(symbol),
                row: row(order),
                free: search.free_row(orders),
                ..Found::default()
            },
            Message::ModifyOrder { symbol, order, .. }
            | Message::DeleteOrder { symbol, order, .. }
            | Message::OrderExecution { symbol, order, .. } => Found {
                entry: entry(symbol),
                row: row(order),
                ..Found::default()
            },
            Message::SymbolClear { symbol, .. } => Found {
                entry: entry(symbol),
                ..Found::default()
            },
            Message::SystemTime { .. }
            | Message::SystemState { .. }
            | Message::TradingStatus { .. }
            | Message::Trade { .. }
            | Message::TradeCancel { .. } => Found::default(),
        }
    }
}

/// The first rule that a message breaks in these tables, searched by scans.
pub fn broken_rule(message: &Message, orders: &[u64], symbols: &[u8]) -> Option<u8> {
    let found = Found::by(&Scans, message, orders, symbols);
    rule_broken(message, &found, orders)
}

/// Message `number` applied, or the first broken rule with nothing changed; searched by scans.
pub fn apply(
    number: u64,
    message: &Message,
    orders: &mut [u64],
    symbols: &mut [u8],
    second: &mut u64,
) -> Result<(), u8> {
    let found = Found::by(&Scans, message, orders, symbols);
    match rule_broken(message, &found, orders) {
        Some(rule) => Err(rule),
        None => change(number, message, &found, orders, symbols, second),
    }
}

/// "Each rule is tried in the order given, and the first broken one counts."
pub fn rule_broken(message: &Message, found: &Found, orders: &[u64]) -> Option<u8> {
    match *message {
        // "replaces that symbol's entry, or takes the lowest free one. None free: 26."
        Message::SymbolUpdate(_) => {
            if found.taken.is_none() {
                return Some(26);
            }
            None
        }
        // "Add: unknown symbol 20; order ID already live 21; no free row 25."
        Message::AddOrder { .. } => {
            if found.entry.is_none() {
                return Some(20);
            }
            if found.row.is_some() {
                return Some(21);
            }
            if found.free.is_none() {
                return Some(25);
            }
            None
        }
        // "Modify: 20; order not live 22; live under another symbol 23." "Delete: 20, 22, 23."
        Message::ModifyOrder { symbol, .. } | Message::DeleteOrder { symbol, .. } => {
            order_rule_broken(symbol, found, orders)
        }
        // "Order Execution: 20, 22, 23; executed size above the order's 24."
        Message::OrderExecution { symbol, size, .. } => {
            if let Some(rule) = order_rule_broken(symbol, found, orders) {
                return Some(rule);
            }
            match found.row {
                Some(place) if size as u64 > row(orders, place)[SIZE] => Some(24),
                _ => None,
            }
        }
        // "Symbol Clear (4.5): 20."
        Message::SymbolClear { .. } => {
            if found.entry.is_none() {
                return Some(20);
            }
            None
        }
        // System Time; "The other four apply without changing a table."
        Message::SystemTime { .. }
        | Message::SystemState { .. }
        | Message::TradingStatus { .. }
        | Message::Trade { .. }
        | Message::TradeCancel { .. } => None,
    }
}

/// 20 unknown symbol, 22 order not live, 23 live under another symbol, in this order. 22 and 23
/// look at the row that was found alone.
fn order_rule_broken(symbol: u32, found: &Found, orders: &[u64]) -> Option<u8> {
    if found.entry.is_none() {
        return Some(20);
    }
    match found.row {
        None => Some(22),
        Some(place) => {
            if row(orders, place)[SYMBOL_AND_SIDE] / 2 != symbol as u64 {
                return Some(23);
            }
            None
        }
    }
}

/// What message `number`, which breaks no rule, makes of tables and second.
pub fn change(
    number: u64,
    message: &Message,
    found: &Found,
    orders: &mut [u64],
    symbols: &mut [u8],
    second: &mut u64,
) -> Result<(), u8> {
    match *message {
        // "System Time sets the current second."
        Message::SystemTime { seconds } => *second = seconds as u64,
        // "Symbol Update replaces that symbol's entry, or takes the lowest free one."
        Message::SymbolUpdate(update) => {
            let place = found.taken.ok_or(26)?;
            entry_mut(symbols, place).copy_from_slice(&update.body);
        }
        // "Else the lowest free row is used, rank = sequence number."
        Message::AddOrder {
            symbol,
            order,
            side,
            price,
            size,
            ..
        } => {
            let place = found.free.ok_or(25)?;
            let row = row_mut(orders, place);
            row[ORDER_ID] = order;
            row[SYMBOL_AND_SIDE] = symbol_and_side(symbol, side);
            row[PRICE] = price;
            row[SIZE] = size as u64;
            row[RANK] = number;
        }
        // "Price and size are replaced. Flag bit 0 set: rank becomes this sequence number. Clear:
        // the rank stays, whatever changed." Bits 1 to 7 "are ignored" (request 2).
        Message::ModifyOrder {
            price, size, flags, ..
        } => {
            let row = row_mut(orders, found.row.ok_or(22)?);
            row[PRICE] = price;
            row[SIZE] = size as u64;
            if flags % 2 == 1 {
                row[RANK] = number;
            }
        }
        // "The row becomes all zero and may be used again."
        Message::DeleteOrder { .. } => row_mut(orders, found.row.ok_or(22)?).fill(0),
        // "The size falls; at zero the order leaves, because no Delete follows a trade (4.6)."
        Message::OrderExecution { size, .. } => {
            let row = row_mut(orders, found.row.ok_or(22)?);
            row[SIZE] -= size as u64;
            if row[SIZE] == 0 {
                row.fill(0);
            }
        }
        // "Every live row of that symbol becomes all zero."
        Message::SymbolClear { symbol, .. } => {
            for place in 0..rows_in(orders) {
                let row = row_mut(orders, place);
                if row_is_of_symbol(row, symbol) {
                    row.fill(0);
                }
            }
        }
        // "The other four apply without changing a table."
        Message::SystemState { .. }
        | Message::TradingStatus { .. }
        | Message::Trade { .. }
        | Message::TradeCancel { .. } => {}
    }
    Ok(())
}

/// Whether a row is one that a Symbol Clear takes.
pub fn row_is_of_symbol(row: &[u64], symbol: u32) -> bool {
    row_is_live(row) && row[SYMBOL_AND_SIDE] / 2 == symbol as u64
}

/// "symbol ID times 2 plus side (buy 0, sell 1)"
pub fn symbol_and_side(symbol: u32, side: Side) -> u64 {
    match side {
        Side::Buy => symbol as u64 * 2,
        Side::Sell => symbol as u64 * 2 + 1,
    }
}
