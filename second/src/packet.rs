//! The eleven messages, and reading them: a body (refusals 3, 4), then records and packets
//! (refusal 1, then record by record 2, 5, 3, 4). Each refusal of 2 to 5 tells its offset (request 5). All
//! readers are told the edition that they read in (request 10).

use crate::edition::{Edition, BYTE_20};
use std::fmt;

/// "A packet is 1 to 1,500 bytes".
pub const MOST_PACKET_BYTES: usize = 1_500;
/// "A record is: sequence number, 8 bytes; body length, 2 bytes; body."
pub const HEADER_BYTES: usize = 10;
/// "Sequence numbers run from 1 to 1,000,000,000,000."
pub const LAST_NUMBER: u64 = 1_000_000_000_000;
/// "price (millionths of a dollar) 1 to 1,000,000,000,000,000"
pub const HIGHEST_PRICE: u64 = 1_000_000_000_000_000;
/// Request 6: "The largest good value is 999,999,999".
pub const LAST_NANOSECOND: u32 = 999_999_999;

pub const SYSTEM_TIME: u8 = 49;
pub const SYMBOL_UPDATE: u8 = 1;
pub const SYSTEM_STATE: u8 = 83;
pub const TRADING_STATUS: u8 = 4;
pub const SYMBOL_CLEAR: u8 = 5;
pub const ADD_ORDER: u8 = 20;
pub const MODIFY_ORDER: u8 = 21;
pub const DELETE_ORDER: u8 = 23;
pub const ORDER_EXECUTION: u8 = 24;
pub const TRADE: u8 = 10;
pub const TRADE_CANCEL: u8 = 11;

/// "The types and lengths of all eleven messages stand in one table."
pub const TYPES_AND_LENGTHS: [(u8, usize); 11] = [
    (SYSTEM_TIME, 5),
    (SYMBOL_UPDATE, 42),
    (SYSTEM_STATE, 15),
    (TRADING_STATUS, 12),
    (SYMBOL_CLEAR, 9),
    (ADD_ORDER, 34),
    (MODIFY_ORDER, 30),
    (DELETE_ORDER, 17),
    (ORDER_EXECUTION, 38),
    (TRADE, 31),
    (TRADE_CANCEL, 30),
];

#[derive(Clone, Copy, Debug, PartialEq, Eq)]
pub enum Side {
    Buy,
    Sell,
}

/// A good message with its fields, as 003 section 4 lists them.
#[derive(Clone, Copy, Debug, PartialEq, Eq)]
pub enum Message {
    SystemTime {
        seconds: u32,
    },
    SymbolUpdate(SymbolUpdate),
    SystemState {
        nanoseconds: u32,
        version: [u8; 8],
        session: u8,
        status: u8,
    },
    TradingStatus {
        nanoseconds: u32,
        symbol: u32,
        trading: u8,
        market_state: u8,
        short_sale: u8,
    },
    SymbolClear {
        nanoseconds: u32,
        symbol: u32,
    },
    AddOrder {
        nanoseconds: u32,
        symbol: u32,
        order: u64,
        side: Side,
        price: u64,
        size: u32,
        attributable: [u8; 4],
    },
    ModifyOrder {
        nanoseconds: u32,
        symbol: u32,
        order: u64,
        price: u64,
        size: u32,
        /// All eight bits as they came, although bits 1 to 7 are ignored (request 2).
        flags: u8,
    },
    DeleteOrder {
        nanoseconds: u32,
        symbol: u32,
        order: u64,
    },
    OrderExecution {
        nanoseconds: u32,
        symbol: u32,
        order: u64,
        trade: u64,
        price: u64,
        size: u32,
        flags: u8,
    },
    Trade {
        nanoseconds: u32,
        symbol: u32,
        trade: u64,
        correction: u8,
        price: u64,
        size: u32,
        flags: u8,
    },
    TradeCancel {
        nanoseconds: u32,
        symbol: u32,
        trade: u64,
        correction: u8,
        price: u64,
        size: u32,
    },
}

#[derive(Clone, Copy, Debug, PartialEq, Eq)]
pub struct SymbolUpdate {
    pub nanoseconds: u32,
    pub symbol: u32,
    pub ticker: [u8; 11],
    /// Of 1.3 alone; in other editions byte 20 is reserved.
    pub security_type: Option<u8>,
    /// Byte 20 where it is reserved.
    pub reserved20: Option<u8>,
    pub test: u8,
    pub reserved22: u8,
    pub lot: u16,
    pub opening: [u8; 8],
    pub closing: [u8; 8],
    pub market: u8,
    /// All 42 bytes as they came: a symbol entry is "the last Symbol Update body for its symbol".
    pub body: [u8; 42],
}

/// Why a packet, a record or a body is refused. Request 5: "Refusals 2 to 5 in reading shall also give the
/// offset in the packet of the first byte at fault". What is read by itself gives the offset in itself.
#[derive(Clone, Copy, Debug, PartialEq, Eq)]
pub struct Refusal {
    pub number: u8,
    /// Of 2 to 5; any other number is given alone.
    pub offset: Option<usize>,
}

impl Refusal {
    pub fn alone(number: u8) -> Refusal {
        Refusal {
            number,
            offset: None,
        }
    }

    pub fn at(number: u8, offset: usize) -> Refusal {
        Refusal {
            number,
            offset: Some(offset),
        }
    }

    /// The same, where what was refused lies so many bytes further on.
    pub fn behind(self, bytes: usize) -> Refusal {
        Refusal {
            number: self.number,
            offset: self.offset.map(|offset| offset + bytes),
        }
    }
}

/// `4 at 28`, or the number alone.
impl fmt::Display for Refusal {
    fn fmt(&self, text: &mut fmt::Formatter) -> fmt::Result {
        match self.offset {
            None => write!(text, "{}", self.number),
            Some(offset) => write!(text, "{} at {offset}", self.number),
        }
    }
}

/// A record of a good packet.
#[derive(Clone, Copy, Debug, PartialEq, Eq)]
pub struct Record<'a> {
    pub number: u64,
    pub body: &'a [u8],
    pub message: Message,
}

impl Message {
    /// The type byte and the message's numbers in the order of their places; arrays of letters are
    /// left out. An attributable ID is the number that its four letters are in little-endian. A Symbol
    /// Update's Security Type, where it has one, stands behind the others.
    pub fn numbers(&self) -> Vec<u64> {
        let (kind, mut numbers): (u8, Vec<u64>) = match *self {
            Message::SystemTime { seconds } => (SYSTEM_TIME, vec![seconds.into()]),
            Message::SymbolUpdate(update) => {
                let mut numbers = vec![
                    update.symbol.into(),
                    update.lot.into(),
                    update.market.into(),
                ];
                numbers.extend(update.security_type.map(u64::from));
                (SYMBOL_UPDATE, numbers)
            }
            Message::SystemState {
                nanoseconds,
                session,
                status,
                ..
            } => (
                SYSTEM_STATE,
                vec![nanoseconds.into(), session.into(), status.into()],
            ),
            Message::TradingStatus {
                nanoseconds,
                symbol,
                trading,
                market_state,
                short_sale,
            } => (
                TRADING_STATUS,
                vec![
                    nanoseconds.into(),
                    symbol.into(),
                    trading.into(),
                    market_state.into(),
                    short_sale.into(),
                ],
            ),
            Message::SymbolClear {
                nanoseconds,
                symbol,
            } => (SYMBOL_CLEAR, vec![nanoseconds.into(), symbol.into()]),
            Message::AddOrder {
                nanoseconds,
                symbol,
                order,
                side,
                price,
                size,
                attributable,
            } => (
                ADD_ORDER,
                vec![
                    nanoseconds.into(),
                    symbol.into(),
                    order,
                    u64::from(if side == Side::Buy { b'B' } else { b'S' }),
                    price,
                    size.into(),
                    u32::from_le_bytes(attributable).into(),
                ],
            ),
            Message::ModifyOrder {
                nanoseconds,
                symbol,
                order,
                price,
                size,
                flags,
            } => (
                MODIFY_ORDER,
                vec![
                    nanoseconds.into(),
                    symbol.into(),
                    order,
                    price,
                    size.into(),
                    flags.into(),
                ],
            ),
            Message::DeleteOrder {
                nanoseconds,
                symbol,
                order,
            } => (DELETE_ORDER, vec![nanoseconds.into(), symbol.into(), order]),
            Message::OrderExecution {
                nanoseconds,
                symbol,
                order,
                trade,
                price,
                size,
                flags,
            } => (
                ORDER_EXECUTION,
                vec![
                    nanoseconds.into(),
                    symbol.into(),
                    order,
                    trade,
                    price,
                    size.into(),
                    flags.into(),
                ],
            ),
            Message::Trade {
                nanoseconds,
                symbol,
                trade,
                correction,
                price,
                size,
                flags,
            } => (
                TRADE,
                vec![
                    nanoseconds.into(),
                    symbol.into(),
                    trade,
                    correction.into(),
                    price,
                    size.into(),
                    flags.into(),
                ],
            ),
            Message::TradeCancel {
                nanoseconds,
                symbol,
                trade,
                correction,
                price,
                size,
            } => (
                TRADE_CANCEL,
                vec![
                    nanoseconds.into(),
                    symbol.into(),
                    trade,
                    correction.into(),
                    price,
                    size.into(),
                ],
            ),
        };
        numbers.insert(0, kind.into());
        numbers
    }
}

/// "All numbers are unsigned and little-endian": the last byte counts most.
pub fn little(bytes: &[u8]) -> u64 {
    let mut value = 0;
    for byte in bytes.iter().rev() {
        value = value * 256 + *byte as u64;
    }
    value
}

fn u16_at(body: &[u8], at: usize) -> u16 {
    little(&body[at..at + 2]) as u16
}

fn u32_at(body: &[u8], at: usize) -> u32 {
    little(&body[at..at + 4]) as u32
}

fn u64_at(body: &[u8], at: usize) -> u64 {
    little(&body[at..at + 8])
}

fn bytes_at<const N: usize>(body: &[u8], at: usize) -> [u8; N] {
    let mut bytes = [0; N];
    bytes.copy_from_slice(&body[at..at + N]);
    bytes
}

/// The length that belongs to a type, or none if there is no such type.
pub fn length_of_type(kind: u8) -> Option<usize> {
    for (known, length) in TYPES_AND_LENGTHS {
        if known == kind {
            return Some(length);
        }
    }
    None
}

pub fn price_in_range(price: u64) -> bool {
    (1..=HIGHEST_PRICE).contains(&price)
}

/// 4, unless the field at this offset of its body is in range.
fn check(in_range: bool, offset: usize) -> Result<(), Refusal> {
    if in_range {
        Ok(())
    } else {
        Err(Refusal::at(4, offset))
    }
}

/// The price at this offset and the size right behind its 8 bytes, or 4 by the first of them that is bad.
fn price_and_size(body: &[u8], at: usize) -> Result<(u64, u32), Refusal> {
    let (price, size) = (u64_at(body, at), u32_at(body, at + 8));
    check(price_in_range(price), at)?;
    check(size >= 1, at + 8)?;
    Ok((price, size))
}

/// The nanoseconds of a body that has a Timestamp, or 4. All messages but System Time have one, as 003's
/// NanoTime behind the type byte. Request 6: "The largest good value is 999,999,999, in every message
/// that carries the field. Larger is refused with 4 and its offset."
fn timestamp(body: &[u8]) -> Result<u32, Refusal> {
    let nanoseconds = u32_at(body, 1);
    check(nanoseconds <= LAST_NANOSECOND, 1)?;
    Ok(nanoseconds)
}

/// A body: refused with 3 ("no such type, an empty body, or not that type's length"), else with 4
/// ("a field out of range"), else the message that its type byte decides. Request 5: "for 3 the body's start
/// or, for an empty body, the place where it would start, for 4 the first byte of the earliest bad field by
/// offset", so each message's fields are judged in the order of their places.
pub fn read_body(edition: Edition, body: &[u8]) -> Result<Message, Refusal> {
    if body.is_empty() {
        return Err(Refusal::at(3, 0));
    }
    let kind = body[0];
    if length_of_type(kind) != Some(body.len()) {
        return Err(Refusal::at(3, 0));
    }
    match kind {
        SYSTEM_TIME => Ok(Message::SystemTime {
            seconds: u32_at(body, 1),
        }),
        SYMBOL_UPDATE => {
            let update = SymbolUpdate {
                nanoseconds: timestamp(body)?,
                symbol: u32_at(body, 5),
                ticker: bytes_at(body, 9),
                security_type: edition.security_type(body),
                reserved20: edition.reserved20(body),
                test: body[21],
                reserved22: body[22],
                lot: u16_at(body, 23),
                opening: bytes_at(body, 25),
                closing: bytes_at(body, 33),
                market: body[41],
                body: bytes_at(body, 0),
            };
            // "Security Type, `E` or `F`" ... "Under 1.3 any other byte is refused with 4."
            if let Some(kind) = update.security_type {
                check(kind == b'E' || kind == b'F', BYTE_20)?;
            }
            check(update.test == b'Y' || update.test == b'N', 21)?;
            check(b"ABCHIJKLMNPQUVWXYZ".contains(&update.market), 41)?;
            Ok(Message::SymbolUpdate(update))
        }
        SYSTEM_STATE => Ok(Message::SystemState {
            nanoseconds: timestamp(body)?,
            version: bytes_at(body, 5),
            session: body[13],
            status: body[14],
        }),
        TRADING_STATUS => Ok(Message::TradingStatus {
            nanoseconds: timestamp(body)?,
            symbol: u32_at(body, 5),
            trading: body[9],
            market_state: body[10],
            short_sale: body[11],
        }),
        SYMBOL_CLEAR => Ok(Message::SymbolClear {
            nanoseconds: timestamp(body)?,
            symbol: u32_at(body, 5),
        }),
        ADD_ORDER => {
            let nanoseconds = timestamp(body)?;
            let side = match body[17] {
                b'B' => Side::Buy,
                b'S' => Side::Sell,
                _ => return Err(Refusal::at(4, 17)),
            };
            let (price, size) = price_and_size(body, 18)?;
            Ok(Message::AddOrder {
                nanoseconds,
                symbol: u32_at(body, 5),
                order: u64_at(body, 9),
                side,
                price,
                size,
                attributable: bytes_at(body, 30),
            })
        }
        MODIFY_ORDER => {
            let nanoseconds = timestamp(body)?;
            let (price, size) = price_and_size(body, 17)?;
            // Request 2: "The specification calls bits 1 to 7 undefined. Document 01 was wrong to
            // want zeros. They are ignored from now on, kept on the shelf as they came, and the
            // field range for flags is struck out."
            Ok(Message::ModifyOrder {
                nanoseconds,
                symbol: u32_at(body, 5),
                order: u64_at(body, 9),
                price,
                size,
                flags: body[29],
            })
        }
        DELETE_ORDER => Ok(Message::DeleteOrder {
            nanoseconds: timestamp(body)?,
            symbol: u32_at(body, 5),
            order: u64_at(body, 9),
        }),
        ORDER_EXECUTION => {
            let nanoseconds = timestamp(body)?;
            let (price, size) = price_and_size(body, 25)?;
            Ok(Message::OrderExecution {
                nanoseconds,
                symbol: u32_at(body, 5),
                order: u64_at(body, 9),
                trade: u64_at(body, 17),
                price,
                size,
                flags: body[37],
            })
        }
        TRADE => {
            let nanoseconds = timestamp(body)?;
            let (price, size) = price_and_size(body, 18)?;
            Ok(Message::Trade {
                nanoseconds,
                symbol: u32_at(body, 5),
                trade: u64_at(body, 9),
                correction: body[17],
                price,
                size,
                flags: body[30],
            })
        }
        TRADE_CANCEL => {
            let nanoseconds = timestamp(body)?;
            let (price, size) = price_and_size(body, 18)?;
            Ok(Message::TradeCancel {
                nanoseconds,
                symbol: u32_at(body, 5),
                trade: u64_at(body, 9),
                correction: body[17],
                price,
                size,
            })
        }
        _ => Err(Refusal::at(3, 0)),
    }
}

/// A packet: refused with 1, else by the first fault of its records "from the front, each by 2,
/// 5, 3, 4", else its records in order.
pub fn read_packet(edition: Edition, packet: &[u8]) -> Result<Vec<Record<'_>>, Refusal> {
    if packet.is_empty() || packet.len() > MOST_PACKET_BYTES {
        return Err(Refusal::alone(1));
    }
    let mut records = Vec::new();
    let mut start = 0;
    while start < packet.len() {
        // "the offset in the packet": the offset in the record, behind all records before it.
        let record =
            read_record(edition, &packet[start..]).map_err(|refusal| refusal.behind(start))?;
        start += HEADER_BYTES + record.body.len();
        records.push(record);
    }
    Ok(records)
}

/// The first record of what is left of a packet, or the refusal of its first fault: 2, 5, 3, 4. Request 5:
/// "for 2 the record's start, for 5 the number's start", which are the same place.
pub fn read_record(edition: Edition, rest: &[u8]) -> Result<Record<'_>, Refusal> {
    // 2: "fewer than 10 header bytes left, or the body runs past the end"
    if rest.len() < HEADER_BYTES {
        return Err(Refusal::at(2, 0));
    }
    let number = little(&rest[0..8]);
    let length = little(&rest[8..10]) as usize;
    if length > rest.len() - HEADER_BYTES {
        return Err(Refusal::at(2, 0));
    }
    // 5: "sequence number 0 or above 10^12"
    if number == 0 || number > LAST_NUMBER {
        return Err(Refusal::at(5, 0));
    }
    // 3 and 4
    let body = &rest[HEADER_BYTES..HEADER_BYTES + length];
    let message = read_body(edition, body).map_err(|refusal| refusal.behind(HEADER_BYTES))?;
    Ok(Record {
        number,
        body,
        message,
    })
}

#[cfg(test)]
mod tests {
    use super::*;

    #[test]
    fn little_at_all_widths() {
        assert_eq!(little(&[]), 0);
        assert_eq!(little(&[255]), 255);
        assert_eq!(little(&[1, 2]), 513);
        assert_eq!(little(&[0, 0, 0, 1]), 16_777_216);
        assert_eq!(
            little(&[1, 0, 0, 0, 0, 0, 0, 128]),
            9_223_372_036_854_775_809
        );
        assert_eq!(little(&[255; 8]), u64::MAX);
    }

    #[test]
    fn lengths_are_the_sums_of_003() {
        let sums = [
            (49, 1 + 4),
            (1, 1 + 4 + 4 + 11 + 1 + 1 + 1 + 2 + 8 + 8 + 1),
            (83, 1 + 4 + 8 + 1 + 1),
            (4, 1 + 4 + 4 + 1 + 1 + 1),
            (5, 1 + 4 + 4),
            (20, 1 + 4 + 4 + 8 + 1 + 8 + 4 + 4),
            (21, 1 + 4 + 4 + 8 + 8 + 4 + 1),
            (23, 1 + 4 + 4 + 8),
            (24, 1 + 4 + 4 + 8 + 8 + 8 + 4 + 1),
            (10, 1 + 4 + 4 + 8 + 1 + 8 + 4 + 1),
            (11, 1 + 4 + 4 + 8 + 1 + 8 + 4),
        ];
        assert_eq!(TYPES_AND_LENGTHS, sums);
    }
}
