//! Bodies, records, packets and recordings: fields one behind the other, as 003 lists them.

use super::Dice;
use crate::edition::{Edition, BYTE_20};
use crate::packet::*;

fn joined(kind: u8, parts: &[&[u8]]) -> Vec<u8> {
    let mut body = vec![kind];
    for part in parts {
        body.extend_from_slice(part);
    }
    body
}

pub fn system_time(seconds: u32) -> Vec<u8> {
    joined(SYSTEM_TIME, &[&seconds.to_le_bytes()])
}

/// A Symbol Update of 1.3.b: reserved bytes 0, test N, 09:30:00 to 16:00:00, market H.
pub fn symbol_update(nanoseconds: u32, symbol: u32, ticker: &[u8; 11], lot: u16) -> Vec<u8> {
    joined(
        SYMBOL_UPDATE,
        &[
            &nanoseconds.to_le_bytes(),
            &symbol.to_le_bytes(),
            ticker,
            &[0],
            b"N",
            &[0],
            &lot.to_le_bytes(),
            b"09:30:00",
            b"16:00:00",
            b"H",
        ],
    )
}

/// A good body as an edition writes it: a Symbol Update without a Security Type gets one where the edition wants it.
/// Its nanoseconds tell which, since a draw would change what every seed means.
pub fn written_in(edition: Edition, mut body: Vec<u8>) -> Vec<u8> {
    let wants = body[0] == SYMBOL_UPDATE && edition.has_security_type();
    if wants && !b"EF".contains(&body[BYTE_20]) {
        body[BYTE_20] = b"EF"[usize::from(body[1] % 2)];
    }
    body
}

/// Each body of a list so.
pub fn all_written_in(edition: Edition, list: Vec<Vec<u8>>) -> Vec<Vec<u8>> {
    let one = |body| written_in(edition, body);
    list.into_iter().map(one).collect()
}

pub fn system_state(nanoseconds: u32, version: &[u8; 8], session: u8, status: u8) -> Vec<u8> {
    joined(
        SYSTEM_STATE,
        &[&nanoseconds.to_le_bytes(), version, &[session], &[status]],
    )
}

pub fn trading_status(nanoseconds: u32, symbol: u32, codes: &[u8; 3]) -> Vec<u8> {
    joined(
        TRADING_STATUS,
        &[&nanoseconds.to_le_bytes(), &symbol.to_le_bytes(), codes],
    )
}

pub fn symbol_clear(nanoseconds: u32, symbol: u32) -> Vec<u8> {
    joined(
        SYMBOL_CLEAR,
        &[&nanoseconds.to_le_bytes(), &symbol.to_le_bytes()],
    )
}

/// An Add Order without attribution.
pub fn add_order(
    nanoseconds: u32,
    symbol: u32,
    order: u64,
    side: u8,
    price: u64,
    size: u32,
) -> Vec<u8> {
    joined(
        ADD_ORDER,
        &[
            &nanoseconds.to_le_bytes(),
            &symbol.to_le_bytes(),
            &order.to_le_bytes(),
            &[side],
            &price.to_le_bytes(),
            &size.to_le_bytes(),
            b"    ",
        ],
    )
}

pub fn modify_order(
    nanoseconds: u32,
    symbol: u32,
    order: u64,
    price: u64,
    size: u32,
    flags: u8,
) -> Vec<u8> {
    joined(
        MODIFY_ORDER,
        &[
            &nanoseconds.to_le_bytes(),
            &symbol.to_le_bytes(),
            &order.to_le_bytes(),
            &price.to_le_bytes(),
            &size.to_le_bytes(),
            &[flags],
        ],
    )
}

pub fn delete_order(nanoseconds: u32, symbol: u32, order: u64) -> Vec<u8> {
    joined(
        DELETE_ORDER,
        &[
            &nanoseconds.to_le_bytes(),
            &symbol.to_le_bytes(),
            &order.to_le_bytes(),
        ],
    )
}

pub fn order_execution(
    nanoseconds: u32,
    symbol: u32,
    order: u64,
    trade: u64,
    price: u64,
    size: u32,
    flags: u8,
) -> Vec<u8> {
    joined(
        ORDER_EXECUTION,
        &[
            &nanoseconds.to_le_bytes(),
            &symbol.to_le_bytes(),
            &order.to_le_bytes(),
            &trade.to_le_bytes(),
            &price.to_le_bytes(),
            &size.to_le_bytes(),
            &[flags],
        ],
    )
}

pub fn trade(
    nanoseconds: u32,
    symbol: u32,
    trade: u64,
    correction: u8,
    price: u64,
    size: u32,
    flags: u8,
) -> Vec<u8> {
    joined(
        TRADE,
        &[
            &nanoseconds.to_le_bytes(),
            &symbol.to_le_bytes(),
            &trade.to_le_bytes(),
            &[correction],
            &price.to_le_bytes(),
            &size.to_le_bytes(),
            &[flags],
        ],
    )
}

pub fn trade_cancel(
    nanoseconds: u32,
    symbol: u32,
    trade: u64,
    correction: u8,
    price: u64,
    size: u32,
) -> Vec<u8> {
    joined(
        TRADE_CANCEL,
        &[
            &nanoseconds.to_le_bytes(),
            &symbol.to_le_bytes(),
            &trade.to_le_bytes(),
            &[correction],
            &price.to_le_bytes(),
            &size.to_le_bytes(),
        ],
    )
}

/// A record whose header claims `length` bytes of body.
pub fn record_claiming(number: u64, length: u16, body: &[u8]) -> Vec<u8> {
    let mut bytes = number.to_le_bytes().to_vec();
    bytes.extend_from_slice(&length.to_le_bytes());
    bytes.extend_from_slice(body);
    bytes
}

pub fn record(number: u64, body: &[u8]) -> Vec<u8> {
    record_claiming(number, body.len() as u16, body)
}

/// A packet of these records.
pub fn packet(records: &[(u64, Vec<u8>)]) -> Vec<u8> {
    let mut bytes = Vec::new();
    for (number, body) in records {
        bytes.extend_from_slice(&record(*number, body));
    }
    bytes
}

/// Packets, each behind its 2-byte length.
pub fn recording(packets: &[Vec<u8>]) -> Vec<u8> {
    let mut bytes = Vec::new();
    for packet in packets {
        bytes.extend_from_slice(&(packet.len() as u16).to_le_bytes());
        bytes.extend_from_slice(packet);
    }
    bytes
}

/// Puts a number into the Timestamp, which lies behind the type byte; of a System Time, which has none,
/// into the seconds.
pub fn set_timestamp(body: &mut [u8], nanoseconds: u32) {
    body[1..5].copy_from_slice(&nanoseconds.to_le_bytes());
}

/// Good nanoseconds, one time in twenty the last of a second or one of the three before it (request 6).
pub fn good_nanoseconds(dice: &mut Dice) -> u32 {
    match dice.below(20) {
        0 => LAST_NANOSECOND - dice.below(4) as u32,
        _ => dice.between(0, LAST_NANOSECOND.into()) as u32,
    }
}

/// More nanoseconds than a second has: right beyond the limit, with one bit set or all, or any.
pub fn bad_nanoseconds(dice: &mut Dice) -> u32 {
    match dice.below(4) {
        0 => LAST_NANOSECOND + 1,
        1 => LAST_NANOSECOND + dice.between(2, 5) as u32,
        2 => dice.pick(&[1 << 30, 1 << 31, u32::MAX]),
        _ => dice.between(u64::from(LAST_NANOSECOND) + 1, u32::MAX.into()) as u32,
    }
}

/// Where a type has its price, if it has one.
pub fn price_offset(kind: u8) -> Option<usize> {
    match kind {
        ADD_ORDER | TRADE | TRADE_CANCEL => Some(18),
        MODIFY_ORDER => Some(17),
        ORDER_EXECUTION => Some(25),
        _ => None,
    }
}

/// Where a type has its size, which stands right behind its price.
pub fn size_offset(kind: u8) -> Option<usize> {
    price_offset(kind).map(|at| at + 8)
}

/// Where a Modify has its flags.
pub const FLAGS_OF_MODIFY: usize = 29;

/// Whether two bodies, as they are or padded, are Modifies that differ in undefined bits of their flags
/// alone, which request 2 calls differing copies still.
pub fn differ_in_undefined_bits_alone(one: &[u8], other: &[u8]) -> bool {
    one.first() == Some(&MODIFY_ORDER) && one != other && defined(one) == defined(other)
}

/// The bytes of a Modify with the undefined bits of its flags, 1 to 7, put to 0.
fn defined(modify: &[u8]) -> Vec<u8> {
    let mut bytes = modify.to_vec();
    if let Some(flags) = bytes.get_mut(FLAGS_OF_MODIFY) {
        *flags &= 1;
    }
    bytes
}

/// What a message tells, for those fields that its type has.
#[derive(Clone, Copy, Debug)]
pub struct Told {
    /// Of a System Time the seconds.
    pub nanoseconds: u32,
    pub symbol: u32,
    pub order: u64,
    pub price: u64,
    pub size: u32,
}

/// A body of a type that tells this, good in an edition if this is.
pub fn body_telling(edition: Edition, dice: &mut Dice, kind: u8, told: Told) -> Vec<u8> {
    let Told {
        nanoseconds,
        symbol,
        order,
        price,
        size,
    } = told;
    let body = match kind {
        SYSTEM_TIME => system_time(nanoseconds),
        SYMBOL_UPDATE => symbol_update(nanoseconds, symbol, b"ABC        ", 100),
        SYSTEM_STATE => system_state(nanoseconds, b"DoM1.3  ", 1, b'S'),
        TRADING_STATUS => trading_status(nanoseconds, symbol, &[2, 3, b'N']),
        SYMBOL_CLEAR => symbol_clear(nanoseconds, symbol),
        ADD_ORDER => add_order(nanoseconds, symbol, order, dice.pick(b"BS"), price, size),
        MODIFY_ORDER => modify_order(nanoseconds, symbol, order, price, size, dice.bits() as u8),
        DELETE_ORDER => delete_order(nanoseconds, symbol, order),
        ORDER_EXECUTION => order_execution(nanoseconds, symbol, order, 9, price, size, 255),
        TRADE => trade(nanoseconds, symbol, 9, 0, price, size, 255),
        TRADE_CANCEL => trade_cancel(nanoseconds, symbol, 9, 0, price, size),
        _ => panic!("there is no type {kind}"),
    };
    written_in(edition, body)
}

/// Any good body of an edition.
pub fn good_body(edition: Edition, dice: &mut Dice) -> Vec<u8> {
    let told = anything(dice);
    let (kind, _) = dice.pick(&TYPES_AND_LENGTHS);
    body_telling(edition, dice, kind, told)
}

/// Any good body of this type.
pub fn good_body_of(edition: Edition, dice: &mut Dice, kind: u8) -> Vec<u8> {
    let told = anything(dice);
    body_telling(edition, dice, kind, told)
}

fn anything(dice: &mut Dice) -> Told {
    let symbol = dice.below(10) as u32;
    let order = dice.below(100);
    let nanoseconds = good_nanoseconds(dice);
    let price = dice.between(1, HIGHEST_PRICE);
    let size = dice.between(1, u32::MAX as u64) as u32;
    Told {
        nanoseconds,
        symbol,
        order,
        price,
        size,
    }
}
